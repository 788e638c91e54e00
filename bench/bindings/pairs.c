/* Pairs of a map and its unmap through iova.h, with a flush behind each 200: the word is how many, and nothing else is done. */
#include <iova.h>
#include <stdlib.h>

int main(int argc, char **argv) {
    uint64_t count = argc > 1 ? strtoull(argv[1], NULL, 10) : 0;
    iova_domain *domain = iova_domain_new();
    if (!domain || iova_domain_make(domain, 1, (1 << 20) - 1, 1))
        return 1;
    uint64_t client = iova_open(domain, 0, 0).number;
    for (uint64_t pair = 0; pair < count; pair++) {
        iova_mapping given = iova_map(domain, 0, client, 4096, UINT32_MAX);
        if (given.refused || iova_unmap_bytes(domain, 0, client, given.address).refused)
            return 1;
        if (pair % 200 == 199 && iova_end(domain, iova_begin(domain).number, 1))
            return 1;
    }
    iova_domain_free(domain);
    return 0;
}
