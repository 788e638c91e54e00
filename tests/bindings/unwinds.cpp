/* Caches of iova.hpp whose `invalidate` throws, flushes, fails, is cancelled or ends its thread, and a process that forks. */
#include <iova.hpp>

#include <atomic>
#include <cstdio>
#include <cstdlib>
#include <stdexcept>

#include <sys/wait.h>
#include <unistd.h>

#define MUST(is)                                                                                                       \
    do {                                                                                                               \
        if (!(is)) {                                                                                                   \
            std::fprintf(stderr, "%s:%d: not so: %s\n", __FILE__, __LINE__, #is);                                      \
            std::abort();                                                                                              \
        }                                                                                                              \
    } while (0)

namespace {

enum what { goes_well, fails, throws, waits, may_be_cancelled, exits, flushes };

std::atomic<int> does{goes_well}, entered, goes_on, invalidations;
iova::shared *shared;
std::error_code nested;

bool invalidate() {
    int was;
    invalidations++;
    switch (does) {
    case throws:
        throw std::runtime_error("no device");
    case may_be_cancelled:
        ::pthread_setcancelstate(PTHREAD_CANCEL_ENABLE, &was);
        [[fallthrough]];
    case waits:
        entered = 1;
        while (!goes_on)
            ::usleep(100);
        return true;
    case exits:
        ::pthread_exit(nullptr);
    case flushes:
        shared->flush(nested);
        return true;
    default:
        return does == goes_well;
    }
}

std::uint64_t in_flight() {
    return shared->locked([](iova::domain &domain) { return domain.flushes().in_flight; });
}

void *flush(void *none) {
    std::error_code error;
    shared->flush(error);
    return none;
}

/* Each thread is cancelled in `invalidate`, or ends itself there. */
void threads_end(what how) {
    for (int k = 0; k < 40; k++) {
        ::pthread_t thread;
        void *ended;
        does = how;
        entered = goes_on = 0;
        MUST(!::pthread_create(&thread, nullptr, flush, nullptr));
        while (how != exits && !entered)
            ::usleep(100);
        if (how != exits)
            MUST(!::pthread_cancel(thread));
        goes_on = how == waits;
        MUST(!::pthread_join(thread, &ended));
        MUST((ended == PTHREAD_CANCELED) == (how == may_be_cancelled) && in_flight() == 0);
        does = goes_well;
        shared->flush();
    }
}

/* Where flushes fail, what is owed costs one of them. */
void much_is_owed() {
    iova::cache cache(*shared);
    std::vector<iova::cached> many, more;
    for (int k = 0; k < 255; k++)
        many.push_back(cache.map(4096));
    for (int k = 0; k < 40; k++)
        more.push_back(cache.map(4096));
    many.clear();
    does = fails;
    more.clear();
    MUST(cache.owed() == 40);
    invalidations = 0;
    iova::cached one = cache.map(4096);
    MUST(one && invalidations == 1 && cache.owed() == 40);
    does = throws;
    iova::cached two = cache.map(4096);
    MUST(two && invalidations == 2 && cache.owed() == 40);
    does = goes_well;
    iova::cached three = cache.map(4096);
    MUST(three && cache.owed() == 0 && cache.counts().held == 3);
}

void process_forks() {
    iova::cache cache(*shared);
    iova::cached kept = cache.map(4096);
    const ::pid_t child = ::fork();
    if (child == 0) {
        std::error_code error;
        ::alarm(60);
        {
            iova::cache moved = std::move(cache);
            MUST(!moved.map(4096, IOVA_NO_MASK, error) && error == iova::refusal::no_cache);
            kept.unmap(error);
            MUST(error == iova::refusal::no_cache);
            kept = iova::cached();
        }
        shared->flush(error);
        MUST(error == iova::refusal::no_domain);
        try {
            in_flight();
            MUST(false);
        } catch (const std::system_error &refused) {
            MUST(refused.code() == iova::refusal::no_domain);
        }
        delete shared;
        ::_exit(0);
    }
    int status;
    MUST(::waitpid(child, &status, 0) == child && status == 0);
    MUST(cache.map(4096));
    MUST(cache.counts().held == 1);
}

} // namespace

int main() {
    ::alarm(300);
    shared = new iova::shared(iova::domain(1, 100000), invalidate);
    threads_end(waits);
    threads_end(may_be_cancelled);
    threads_end(exits);
    does = flushes;
    shared->flush();
    MUST(nested == iova::refusal::flights_full);
    does = goes_well;
    much_is_owed();
    process_forks();
    delete shared;
    return 0;
}
