/* A driver's buffers by libiova: what was given up is given again only after a flush. */
#include <inttypes.h>
#include <iova.h>
#include <stdio.h>

static int invalidate_the_iotlb(void) { return 1; }

int main(void) {
    iova_domain *domain = iova_domain_new();
    if (!domain || iova_domain_make(domain, 1, 1048575, 1))
        return 1;
    uint64_t client = iova_open(domain, 0, 0).number;

    iova_mapping buffer = iova_map(domain, 0, client, 10000, UINT32_MAX);
    if (buffer.refused)
        return 1;
    printf("%" PRIu64 " bytes at 0x%" PRIx64 "\n", buffer.bytes, buffer.address);

    /* the device no longer uses the buffer */
    iova_unmap_bytes(domain, 0, client, buffer.address);
    iova_mapping other = iova_map(domain, 0, client, 10000, UINT32_MAX);
    printf("before the flush 0x%" PRIx64 "\n", other.address);
    iova_unmap_bytes(domain, 0, client, other.address);

    uint64_t flush = iova_begin(domain).number;
    iova_end(domain, flush, invalidate_the_iotlb());
    iova_drain(domain, 0, 0);
    iova_mapping again = iova_map(domain, 0, client, 10000, UINT32_MAX);
    printf("after it 0x%" PRIx64 "\n", again.address);

    iova_mapping none = iova_map(domain, 0, client, 10000, 4095);
    printf("below 4096: %s\n", iova_refusal_name(none.refused));
    iova_domain_free(domain);
    return 0;
}
