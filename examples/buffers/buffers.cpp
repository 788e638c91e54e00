// A driver's buffers by iova.hpp: what was given up is given again only after a flush.
#include <iova.hpp>

#include <cstdio>

static bool invalidate_the_iotlb() { return true; }

static unsigned long long number(std::uint64_t value) { return value; }

int main() {
    iova::domain domain(1, 1048575);
    iova::client client(domain);

    iova::mapping buffer = client.map(10000, UINT32_MAX);
    std::printf("%llu bytes at 0x%llx\n", number(buffer.bytes()), number(buffer.address()));

    // the device no longer uses the buffer
    buffer.unmap();
    {
        iova::mapping other = client.map(10000, UINT32_MAX);
        std::printf("before the flush 0x%llx\n", number(other.address()));
    }

    domain.flush(invalidate_the_iotlb);
    iova::mapping again = client.map(10000, UINT32_MAX);
    std::printf("after it 0x%llx\n", number(again.address()));

    std::error_code error;
    client.map(10000, 4095, error);
    std::printf("below 4096: %s\n", error.message().c_str());
}
