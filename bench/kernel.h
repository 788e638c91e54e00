/* What the kernel's allocator asks of the rest of the kernel, for bench/kernel: it puts this file before each of the kernel's
   files and leaves all other headers of the kernel empty. One thread runs them, or where CPUS is defined up to so many, each
   of which stands for a processor and has said which (this_cpu). So

   - where LOCKS is defined, a lock that nobody holds is taken by an exchange and released by a store, and a barrier is one for
     the processor, as in a kernel for several; else a lock does nothing and a barrier holds only the compiler, as in a kernel
     for one. No interrupt is kept away, and the counters of flushes are plain numbers where one thread runs;
   - the slab is the C library's heap: malloc and free, and memory that is to be zero is set to zero (calloc of the GNU library
     goes past malloc's quick lists);
   - what there is for each processor is there once, or CPUS times, each in lines of the processor's cache of its own;
   - no timer runs out, and no processor comes or goes;
   - no page waits with a range in the flush queue;
   - a warning of the kernel ends the program. */
#include <errno.h>
#include <limits.h>
#include <stdbool.h>
#include <stddef.h>
#include <stdint.h>
#include <stdio.h>
#include <stdlib.h>
#include <string.h>

#define IS_REACHABLE(option) 1
#define EXPORT_SYMBOL(name)
#define EXPORT_SYMBOL_GPL(name)
#define MODULE_AUTHOR(text)
#define MODULE_LICENSE(text)
#define __percpu

/* The library for C has a call of this name too. */
#define iova_cache_put kernel_cache_put

typedef uint64_t u64, dma_addr_t;
typedef unsigned int gfp_t;

#define unlikely(is) __builtin_expect(!!(is), 0)
#define READ_ONCE(at) (*(const volatile __typeof__(at) *)&(at))
#define WRITE_ONCE(at, value) (*(volatile __typeof__(at) *)&(at) = (value))
#define rcu_assign_pointer(at, value) __atomic_store_n(&(at), value, __ATOMIC_RELEASE)
#define container_of(at, type, member) ((type *)((char *)(at)-offsetof(type, member)))
#define min(a, b) ({ __typeof__(a) one = (a), other = (b); one < other ? one : other; })
#define swap(a, b) ({ __typeof__(a) kept = (a); (a) = (b), (b) = kept; })

#define pr_err(...) fprintf(stderr, __VA_ARGS__)
#define pr_warn(...) fprintf(stderr, __VA_ARGS__)
#define BUG_ON(is) WARN_ON(is)
#define WARN_ON(is) ({ bool warns = (is); if (warns) warn(__FILE__, __LINE__, #is); warns; })
static inline void warn(const char *file, int line, const char *what) {
  fprintf(stderr, "%s:%d: %s\n", file, line, what);
  abort();
}

/* Bits. */
#define PAGE_SIZE 4096UL
#define ALIGN(n, to) (((n) + (to)-1) & ~((__typeof__(n))(to)-1))
#define __ffs(n) __builtin_ctzl(n)
static inline unsigned int fls_long(unsigned long n) { return n ? 64 - __builtin_clzl(n) : 0; }
static inline unsigned int order_base_2(unsigned long n) { return n > 1 ? fls_long(n - 1) : 0; }
static inline unsigned long roundup_pow_of_two(unsigned long n) { return 1UL << order_base_2(n); }
static inline bool is_power_of_2(unsigned long n) { return n && !(n & (n - 1)); }

/* Lists. */
struct list_head {
  struct list_head *next, *prev;
};
struct hlist_node {
  struct hlist_node *next, **pprev;
};
#define hlist_entry_safe(at, type, member) ((at) ? container_of(at, type, member) : NULL)
static inline void INIT_LIST_HEAD(struct list_head *list) { list->next = list->prev = list; }
static inline void put_pages_list(struct list_head *list) { BUG_ON(list->next != list); }
static inline void list_splice(struct list_head *list, struct list_head *to) { BUG_ON(list->next != list); }

/* Locks, barriers, atomic operations. */
typedef struct {
  int held;
} spinlock_t;
struct mutex {
  int none;
};
#define DEFINE_MUTEX(name) struct mutex name
#define mutex_lock(lock) ((void)0)
#define mutex_unlock(lock) ((void)0)
#define spin_lock_init(lock) ((void)0)
#ifdef LOCKS
#define spin_lock(lock)                                                                                                \
  do                                                                                                                   \
    while (__atomic_exchange_n(&(lock)->held, 1, __ATOMIC_ACQUIRE))                                                    \
      while (READ_ONCE((lock)->held))                                                                                  \
        __builtin_ia32_pause();                                                                                        \
  while (0)
#define spin_unlock(lock) __atomic_store_n(&(lock)->held, 0, __ATOMIC_RELEASE)
#define smp_mb() __atomic_thread_fence(__ATOMIC_SEQ_CST)
#else
#define spin_lock(lock) ((void)0)
#define spin_unlock(lock) ((void)0)
#define smp_mb() __asm__ volatile("" ::: "memory")
#endif
#define spin_lock_irqsave(lock, flags) do { (flags) = 0; spin_lock(lock); } while (0)
#define spin_unlock_irqrestore(lock, flags) do { (void)(flags); spin_unlock(lock); } while (0)
#define assert_spin_locked(lock) ((void)0)
#define smp_wmb() smp_mb()
typedef struct {
  int counter;
} atomic_t;
typedef struct {
  long counter;
} atomic64_t;
#define atomic_read(of) READ_ONCE((of)->counter)
#define atomic_set(of, to) WRITE_ONCE((of)->counter, to)
#define atomic64_read(of) atomic_read(of)
#define atomic64_set(of, to) atomic_set(of, to)
#ifdef CPUS
#define atomic64_inc(of) ((void)__atomic_fetch_add(&(of)->counter, 1, __ATOMIC_SEQ_CST))
static inline int atomic_xchg(atomic_t *of, int to) { return __atomic_exchange_n(&of->counter, to, __ATOMIC_SEQ_CST); }
#else
#define atomic64_inc(of) ((void)(of)->counter++)
static inline int atomic_xchg(atomic_t *of, int to) {
  int was = of->counter;
  of->counter = to;
  return was;
}
#endif

/* Memory. */
#define GFP_KERNEL 0
#define GFP_ATOMIC 0
#define __GFP_NOWARN 0
#define SLAB_HWCACHE_ALIGN 0
struct kmem_cache;
static inline void *kzalloc(size_t size, gfp_t how) {
  void *at = malloc(size);
  return at ? memset(at, 0, size) : NULL;
}
#define kcalloc(count, size, how) kzalloc((count) * (size), how)
#define kfree(at) free(at)
#define kmem_cache_create(name, size, align, how, first) ((struct kmem_cache *)(name)) /* all are of struct iova */
#define kmem_cache_destroy(cache) ((void)0)
#define kmem_cache_zalloc(cache, how) kzalloc(sizeof(struct iova), how)
#define kmem_cache_free(cache, at) free(at)

/* Processors. */
#define cache_line_size() 64
#ifdef CPUS
extern __thread unsigned int this_cpu;
#define per_cpu_ptr(at, cpu) ((__typeof__(at))((char *)(at) + (cpu) * ALIGN(sizeof *(at), cache_line_size())))
#define raw_cpu_ptr(at) per_cpu_ptr(at, this_cpu)
#else
#define CPUS 1
#define raw_cpu_ptr(at) (at)
#define per_cpu_ptr(at, cpu) (at)
#endif
#define for_each_possible_cpu(cpu) for ((cpu) = 0; (cpu) < CPUS; (cpu)++)
#define for_each_online_cpu(cpu) for_each_possible_cpu(cpu)
static inline void *__alloc_percpu(size_t size, size_t align) {
  void *at = aligned_alloc(align, CPUS * ALIGN(size, align));
  return at ? memset(at, 0, CPUS * ALIGN(size, align)) : NULL;
}
#define alloc_percpu(type) ((type *)__alloc_percpu(sizeof(type), cache_line_size()))
#define free_percpu(at) free(at)
#define cpuhp_setup_state_multi(state, name, up, down) 0
#define cpuhp_remove_multi_state(state) ((void)0)
#define cpuhp_state_add_instance_nocalls(state, node) 0
#define cpuhp_state_remove_instance_nocalls(state, node) ((void)0)

/* Timers. */
struct timer_list {
  int none;
};
#define jiffies 0
#define msecs_to_jiffies(time) (time)
#define timer_setup(timer, then, flags) ((void)(then))
#define mod_timer(timer, when) ((void)0)
#define del_timer_sync(timer) ((void)0)
#define from_timer(all, timer, member) container_of(timer, __typeof__(*(all)), member)

/* A domain of an IOMMU, as far as the flush queue knows it. */
struct iommu_domain {
  const struct iommu_domain_ops *ops;
  struct iommu_dma_cookie *iova_cookie;
};
struct iommu_domain_ops {
  void (*flush_iotlb_all)(struct iommu_domain *domain);
};
