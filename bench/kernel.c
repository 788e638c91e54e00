/* The kernel's side of the cases. Its files are compiled as they are, beside kernel.h, which says what stands in for
   the rest of the kernel: the slab is malloc and free, there is one processor or one for each thread, no timer runs. A
   flush of the IOTLB does nothing. No domain is freed, so that each next one begins on memory that hasn't been used. */
#include <linux/iova.h>

#include "queue.c" /* the flush queue, cut out of drivers/iommu/dma-iommu.c */
#include "side.h"

static void flush_nothing(struct iommu_domain *of) {}

static const struct iommu_domain_ops ops = {flush_nothing};
static struct iommu_dma_cookie *cookie;
static struct list_head no_pages = {&no_pages, &no_pages};

static void begin(uint64_t start, int clients) {
  static bool has_cache;
  struct iommu_domain *of = kzalloc(sizeof *of, GFP_KERNEL);
  must(has_cache || !iova_cache_get(), "there is memory");
  has_cache = true;
  cookie = kzalloc(sizeof *cookie, GFP_KERNEL);
  must(of && cookie, "there is memory");
  of->ops = &ops;
  of->iova_cookie = cookie;
  init_iova_domain(&cookie->iovad, PAGE_SIZE, start);
  must(!iova_domain_init_rcaches(&cookie->iovad) && !iommu_dma_init_fq(of), "there is memory");
}

static uint64_t ask(int client, uint64_t frames, uint64_t limit) {
  return alloc_iova_fast(&cookie->iovad, frames, limit, true);
}

/* The queue holds 255 ranges, and flushes itself when it is full. */
static void drop(int client, uint64_t lo, uint64_t frames) { queue_iova(cookie, lo, frames, &no_pages); }

static void flush(void) {
  fq_flush_iotlb(cookie);
  fq_ring_free(cookie, raw_cpu_ptr(cookie->fq));
}

/* As a domain without a flush queue does it. */
static void drop_and_flush(int client, uint64_t lo, uint64_t frames) {
  cookie->fq_domain->ops->flush_iotlb_all(cookie->fq_domain);
  free_iova_fast(&cookie->iovad, lo, frames);
}

static void from_top(void) { cookie->iovad.cached_node = &cookie->iovad.anchor.node; }

static long live(void) {
  long count = -1; /* the anchor is none */
  for (struct rb_node *node = rb_first(&cookie->iovad.rbroot); node; node = rb_next(node))
    count++;
  return count;
}

#if CPUS > 1
__thread unsigned int this_cpu;

static void enter(int client) { this_cpu = (unsigned int)client; }
#else
#define enter NULL
#endif

const struct side kernel = {begin, ask, drop, flush, drop_and_flush, from_top, live, enter, NULL};
