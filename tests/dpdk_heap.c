/* Runs the block of docs/FITS.md that makes a heap of DPDK's with addresses of libiova: each allocation and each packet of the
 * heap has the address of its page. It prints how many there were, and how many had another address. No device is needed. */
#include <inttypes.h>
#include <iova.h>
#include <rte_eal.h>
#include <rte_malloc.h>
#include <rte_mbuf.h>
#include <stdio.h>
#include <sys/mman.h>

enum { FIRST = 0x80000, LAST = 0xFEDFF }; /* between 2 GiB and the interrupts' window */

extern iova_domain *domain;
extern uint64_t client, address, bytes, nodes, node, pasid;
extern void *memory;
extern size_t pages, page_bytes;
extern rte_iova_t *addresses;
extern struct rte_device *device;
int block(void);

iova_domain *domain;
uint64_t client, address, bytes, nodes, node, pasid;
void *memory;
size_t pages = 2048, page_bytes = 4096;
rte_iova_t *addresses;
struct rte_device *device;

static int is_wrong(const void *at, rte_iova_t said) {
    size_t offset = (size_t)((const char *)at - (const char *)memory);
    return offset >= pages * page_bytes || said != addresses[offset / page_bytes] + offset % page_bytes;
}

int main(int argc, char **words) {
    int wrong = 0, allocations = 0, packets = 0;
    if (rte_eal_init(argc, words) < 0)
        return 2;
    memory = mmap(NULL, pages * page_bytes, PROT_READ | PROT_WRITE, MAP_PRIVATE | MAP_ANONYMOUS, -1, 0);
    addresses = calloc(pages, sizeof *addresses);
    domain = iova_domain_new();
    if (memory == MAP_FAILED || !addresses || !domain || iova_domain_make(domain, FIRST, LAST, 1))
        return 3;
    client = iova_open(domain, 0, 0).number;
    int socket = block();
    for (; allocations < 500; allocations++) {
        void *at = rte_malloc_socket(NULL, (size_t)(1000 + allocations), 0, socket);
        wrong += is_wrong(at, rte_malloc_virt2iova(at));
    }
    struct rte_mempool *pool = rte_pktmbuf_pool_create("packets", 512, 0, 0, 2048, socket);
    for (; pool && packets < 512; packets++) {
        struct rte_mbuf *packet = rte_pktmbuf_alloc(pool);
        wrong += !packet || is_wrong(packet->buf_addr, rte_mbuf_iova_get(packet));
    }
    printf("allocations %d packets %d wrong %d\n", allocations, packets, wrong);
    return 0;
}
