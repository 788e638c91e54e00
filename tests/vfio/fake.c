/* `edu` without a machine, over fake.h: linked into examples/vfio. It takes as many milliseconds for a transfer as the
 * environment's TRANSFER says, else 5.
 */
#include "fake.h"

enum { BAR = 1 << 20 };

static uint8_t *registers, buffer[FRAME];

static void *fake_work(void *nothing) {
    volatile uint64_t *from = (void *)(registers + EDU_FROM), *to = (void *)(registers + EDU_TO);
    volatile uint64_t *count = (void *)(registers + EDU_COUNT), *command = (void *)(registers + EDU_COMMAND);
    const char *transfer = getenv("TRANSFER");
    useconds_t time = 1000 * (useconds_t)(transfer ? atoi(transfer) : 5);
    while (!__atomic_load_n(&fake.stopped, __ATOMIC_ACQUIRE)) {
        if (!(*command & 1)) {
            usleep(300);
            continue;
        }
        usleep(time);
        pthread_mutex_lock(&fake.lock);
        int to_memory = (*command & 2) != 0;
        uint8_t *memory = fake_reach(to_memory ? *to : *from);
        if (memory)
            memcpy(to_memory ? memory : buffer, to_memory ? buffer : memory, *count);
        *command &= ~(uint64_t)1;
        pthread_mutex_unlock(&fake.lock);
    }
    return nothing;
}

static int fake_open(void) {
    registers = fake.registers = calloc(BAR, 1);
    fake.size = BAR;
    return !registers;
}

static void fake_close(void) { free(registers); }
