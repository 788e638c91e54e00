// Pairs of a map and its unmap through iova.hpp, with a flush behind each 200: the word is how many, and nothing else is done.
#include <iova.hpp>

#include <cstdlib>

int main(int argc, char **argv) {
    const std::uint64_t count = argc > 1 ? std::strtoull(argv[1], nullptr, 10) : 0;
    iova::domain domain(1, (1 << 20) - 1);
    iova::client client(domain);
    for (std::uint64_t pair = 0; pair < count; pair++) {
        client.map(4096, UINT32_MAX);
        if (pair % 200 == 199 && ::iova_end(domain.at(), ::iova_begin(domain.at()).number, 1))
            return 1;
    }
    return 0;
}
