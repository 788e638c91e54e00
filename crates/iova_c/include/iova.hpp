/* iova.hpp: libiova for C++17, one header over iova.h.
 *
 *   iova::domain domain(1, (1 << 20) - 1);                        frames 1 to 2^20 - 1, one worker
 *   iova::client driver(domain);
 *   {
 *       iova::mapping buffer = driver.map(65536, UINT32_MAX);     every byte below 4 GiB
 *       .. the device uses buffer.address() ..
 *   }                                                             given up: it waits for a flush
 *   domain.flush([] { return invalidate_the_iotlb(); });          now it may be given again
 *
 * A refusal is a std::error_code of iova::category(): each call that may be refused is there twice, once with a parameter
 * `std::error_code &error`, which it sets, and once without, which throws std::system_error. With the first a call that is refused
 * answers an empty object, or numbers that are 0.
 *
 * What goes out of scope gives up what it has: a mapping is unmapped into its worker's ring, a client is closed, a domain ends. Where
 * the ring is full a destructor can't do so. Then the domain keeps what is owed and does it behind the next flush; `owed()` says
 * how much it is. A mapping may outlive the client that it came from, and is the client's no more then. Both must not outlive the
 * domain, which may be moved.
 *
 * Frames are pages of 4,096 bytes, or of the domain's granule. One call at a time works on a domain, its clients and its mappings together. The rest of what a
 * program owes stands in iova.h. */
#ifndef IOVA_HPP
#define IOVA_HPP

#include <cstddef>
#include <cstdint>
#include <functional>
#include <memory>
#include <string>
#include <system_error>
#include <type_traits>
#include <utility>
#include <vector>

#if defined(__GLIBCXX__)
#include <cxxabi.h> /* abi::__forced_unwind, by which a thread ends */
#endif

#include "iova.h"
#include "iova_shared.h"

namespace iova {

/* The refusals of iova.h, by the same numbers. */
enum class refusal : int {
    zero = IOVA_ZERO,
    too_big = IOVA_TOO_BIG,
    no_client = IOVA_NO_CLIENT,
    closing = IOVA_CLOSING,
    holdings_full = IOVA_HOLDINGS_FULL,
    no_space = IOVA_NO_SPACE,
    ring_full = IOVA_RING_FULL,
    not_held = IOVA_NOT_HELD,
    taken = IOVA_TAKEN,
    bad_window = IOVA_BAD_WINDOW,
    windows_full = IOVA_WINDOWS_FULL,
    no_worker = IOVA_NO_WORKER,
    flights_full = IOVA_FLIGHTS_FULL,
    no_flight = IOVA_NO_FLIGHT,
    worn = IOVA_WORN,
    clients_full = IOVA_CLIENTS_FULL,
    no_memory = IOVA_NO_MEMORY,
    sink_fault = IOVA_SINK_FAULT,
    link_fault = IOVA_LINK_FAULT,
    bad_line = IOVA_BAD_LINE,
    too_many = IOVA_TOO_MANY,
    bad_trace = IOVA_BAD_TRACE,
    no_domain = IOVA_NO_DOMAIN,
    twice = IOVA_TWICE,
    bad_profile = IOVA_BAD_PROFILE,
    other_version = IOVA_OTHER_VERSION,
    no_cache = IOVA_NO_CACHE,
    no_order = IOVA_NO_ORDER,
    dry = IOVA_DRY,
    miss = IOVA_MISS,
    full = IOVA_FULL
};

namespace detail {

class refusals final : public std::error_category {
  public:
    const char *name() const noexcept override { return "iova"; }

    /* The refusal's name as iovad prints it, one word. */
    std::string message(int number) const override {
        return number > 0 ? ::iova_refusal_name(static_cast<std::uint64_t>(number)) : "";
    }

    /* Memory and arguments compare equal to the conditions of the standard library. */
    std::error_condition default_error_condition(int number) const noexcept override {
        switch (number) {
        case IOVA_NO_MEMORY:
            return std::errc::not_enough_memory;
        case IOVA_ZERO:
        case IOVA_TOO_BIG:
        case IOVA_BAD_WINDOW:
        case IOVA_NO_WORKER:
        case IOVA_BAD_PROFILE:
            return std::errc::invalid_argument;
        default:
            return std::error_condition(number, *this);
        }
    }
};

} // namespace detail

/* The category of refusals. Its messages are the words that iovad prints, such as "NoSpace". */
inline const std::error_category &category() noexcept {
    static const detail::refusals refusals;
    return refusals;
}

inline std::error_code make_error_code(refusal refused) noexcept {
    return std::error_code(static_cast<int>(refused), category());
}

/* Whether a device reaches no more than 32 bits: such a client is first sought a place below 4 GiB. */
enum class reach { dac, sac };

/* Frames in a row: the first, and how many. */
struct frames {
    std::uint64_t lo, len;
};

namespace detail {

/* Whether the answer is refused, with the error set in any case. */
inline bool is_refused(std::uint64_t refused, std::error_code &error) noexcept {
    if (refused == 0) {
        error.clear();
        return false;
    }
    error.assign(static_cast<int>(refused), category());
    return true;
}

[[noreturn]] inline void refuse(const std::error_code &error, const char *call) { throw std::system_error(error, call); }

inline void told(const std::error_code &error, const char *call) {
    if (error)
        refuse(error, call);
}

/* What a destructor couldn't do: a mapping to be unmapped, or, where it has no address, a client to be closed. */
struct owed {
    std::uint64_t worker, client, address;
    bool is_client;
};

struct state {
    ::iova_domain room;
    std::uint64_t workers = 0;
    std::vector<owed> owes;

    state() noexcept { ::iova_domain_init(&room); }
    state(const state &) = delete;
    state &operator=(const state &) = delete;
    ~state() { ::iova_domain_clear(&room); }

    void keep(const owed &what) noexcept {
        try {
            owes.push_back(what);
        } catch (...) {
            /* it stays the client's, and goes with it */
        }
    }

    /* Whether the client is gone. */
    bool close(std::uint64_t worker, std::uint64_t client) noexcept {
        for (;;) {
            ::iova_range left = ::iova_close_one(&room, worker, client);
            if (left.refused == IOVA_RING_FULL)
                return false;
            if (left.refused || left.len == 0)
                return true;
        }
    }

    void pay() noexcept {
        std::size_t kept = 0;
        for (std::size_t at = 0; at < owes.size(); at++) {
            const owed what = owes[at];
            bool is_done = what.is_client
                               ? close(what.worker, what.client)
                               : ::iova_unmap_bytes(&room, what.worker, what.client, what.address).refused != IOVA_RING_FULL;
            if (!is_done)
                owes[kept++] = what;
        }
        owes.resize(kept);
    }
};

} // namespace detail

class client;
class shared;

/* The address space of one device. It may be moved, and is empty then; an empty one refuses nothing: no call is made on it. */
class domain {
  public:
    /* Frames `first` to `last`, and 1 to 16 workers: iova_domain_make. Refused by bad_window, no_worker, no_memory; where the library
     * doesn't serve this header (iova_serves), by other_version. */
    domain(std::uint64_t first, std::uint64_t last, std::uint64_t workers = 1, std::uint64_t granule = IOVA_FRAME_BYTES) {
        std::error_code error;
        make(first, last, workers, granule, error);
        detail::told(error, "iova::domain");
    }

    domain(std::uint64_t first, std::uint64_t last, std::uint64_t workers, std::error_code &error) {
        make(first, last, workers, IOVA_FRAME_BYTES, error);
    }

    /* Of frames that have `granule` bytes, a power of two from 4,096 to 2,097,152: iova_domain_make_granule. Refused by bad_profile
     * where it is none. */
    domain(std::uint64_t first, std::uint64_t last, std::uint64_t workers, std::uint64_t granule, std::error_code &error) {
        make(first, last, workers, granule, error);
    }

    /* The second profile: iova_domain_make_second_granule. Refused by bad_profile too. */
    static domain second(std::uint64_t first, std::uint64_t last, std::uint64_t workers, std::uint64_t depot,
                         std::uint64_t granule, std::error_code &error) {
        domain made;
        made.make([&](::iova_domain *at) { return ::iova_domain_make_second_granule(at, first, last, workers, depot, granule); },
                  workers, error);
        return made;
    }

    static domain second(std::uint64_t first, std::uint64_t last, std::uint64_t workers, std::uint64_t depot,
                         std::error_code &error) {
        return second(first, last, workers, depot, IOVA_FRAME_BYTES, error);
    }

    static domain second(std::uint64_t first, std::uint64_t last, std::uint64_t workers, std::uint64_t depot,
                         std::uint64_t granule = IOVA_FRAME_BYTES) {
        std::error_code error;
        domain made = second(first, last, workers, depot, granule, error);
        detail::told(error, "iova::domain::second");
        return made;
    }

    /* Whether there is a domain. */
    explicit operator bool() const noexcept { return its_ != nullptr; }

    /* The domain for the calls of iova.h, which may be made beside those of this class: what a mapping has is then the program's to
     * keep. */
    ::iova_domain *at() const noexcept { return &its_->room; }

    std::uint64_t workers() const noexcept { return its_->workers; }

    /* How many bytes a frame has. */
    std::uint64_t granule() const noexcept { return ::iova_granule_of(at()).number; }

    /* How many mappings and clients are still to be given up, since a ring was full. */
    std::size_t owed() const noexcept { return its_->owes.size(); }

    /* A flush: `invalidate` is called once it has begun, and answers whether the IOTLB was invalidated. Then every ring is drained into
     * its own worker's magazines, and what was owed is given up. Answers how many ranges left the rings. Where `invalidate` throws, the
     * flush has failed. Refused by flights_full, worn. */
    template <class Invalidate> std::uint64_t flush(Invalidate &&invalidate, std::error_code &error) {
        const ::iova_number begun = ::iova_begin(at());
        if (detail::is_refused(begun.refused, error))
            return 0;
        bool is_done = false;
        try {
            is_done = static_cast<bool>(std::forward<Invalidate>(invalidate)());
        } catch (...) {
            ::iova_end(at(), begun.number, 0);
            throw;
        }
        if (detail::is_refused(::iova_end(at(), begun.number, is_done), error))
            return 0;
        std::uint64_t left = 0;
        for (std::uint64_t worker = 0; worker < its_->workers; worker++)
            left += ::iova_drain(at(), worker, worker).number;
        its_->pay();
        return left;
    }

    template <class Invalidate> std::uint64_t flush(Invalidate &&invalidate) {
        std::error_code error;
        const std::uint64_t left = flush(std::forward<Invalidate>(invalidate), error);
        detail::told(error, "iova::domain::flush");
        return left;
    }

    /* Keeps the frames `lo` to `hi` back, and answers the window that results: iova_reserve. Refused by bad_window, taken, windows_full,
     * no_memory. */
    frames reserve(std::uint64_t lo, std::uint64_t hi, std::error_code &error) {
        const ::iova_range window = ::iova_reserve(at(), lo, hi);
        detail::is_refused(window.refused, error);
        return {window.lo, window.len};
    }

    frames reserve(std::uint64_t lo, std::uint64_t hi) {
        std::error_code error;
        const frames window = reserve(lo, hi, error);
        detail::told(error, "iova::domain::reserve");
        return window;
    }

    /* How many frames are where, what all clients hold, and the numbers of the flushes. */
    ::iova_counts counts() const noexcept { return ::iova_counts_of(at()); }
    ::iova_totals totals() const noexcept { return ::iova_totals_of(at()); }
    ::iova_flushes flushes() const noexcept { return ::iova_flushes_of(at()); }

    /* The windows, rising. */
    std::vector<frames> windows() const {
        std::vector<::iova_listed> list(64);
        list.resize(::iova_windows_of(at(), list.data(), list.size()).number);
        std::vector<frames> windows;
        for (const ::iova_listed &one : list)
            windows.push_back({one.lo, one.len});
        return windows;
    }

  private:
    friend class client;
    friend class shared;

    domain() noexcept = default;

    template <class Make> void make(Make &&make, std::uint64_t workers, std::error_code &error) {
        if (!::iova_serves(IOVA_VERSION)) {
            error = make_error_code(refusal::other_version);
            return;
        }
        its_ = std::make_unique<detail::state>();
        if (detail::is_refused(make(at()), error))
            its_.reset();
        else
            its_->workers = workers;
    }

    void make(std::uint64_t first, std::uint64_t last, std::uint64_t workers, std::uint64_t granule, std::error_code &error) {
        make([&](::iova_domain *at) { return ::iova_domain_make_granule(at, first, last, workers, granule); }, workers, error);
    }

    std::unique_ptr<detail::state> its_;
};

/* Bytes in a row that a device may use, until the object goes. It may be moved, and is empty then. */
class mapping {
  public:
    mapping() noexcept = default;
    mapping(mapping &&other) noexcept
        : domain_(std::exchange(other.domain_, nullptr)), worker_(other.worker_), client_(other.client_),
          address_(other.address_), bytes_(other.bytes_) {}
    mapping &operator=(mapping &&other) noexcept {
        if (this != &other) {
            give_up();
            domain_ = std::exchange(other.domain_, nullptr);
            worker_ = other.worker_;
            client_ = other.client_;
            address_ = other.address_;
            bytes_ = other.bytes_;
        }
        return *this;
    }
    ~mapping() { give_up(); }

    /* Whether there is a range. */
    explicit operator bool() const noexcept { return domain_ != nullptr; }

    /* The address of the first byte, a multiple of the domain's granule, and how many bytes there are, one too. */
    std::uint64_t address() const noexcept { return address_; }
    std::uint64_t bytes() const noexcept { return bytes_; }

    /* Gives the range up, as the destructor does, and says why that is refused: by ring_full, and then it stays. */
    void unmap(std::error_code &error) noexcept {
        error.clear();
        if (domain_ && !detail::is_refused(::iova_unmap_bytes(&domain_->room, worker_, client_, address_).refused, error))
            domain_ = nullptr;
    }

    void unmap() {
        std::error_code error;
        unmap(error);
        detail::told(error, "iova::mapping::unmap");
    }

    /* The address, which the program gives up itself, by iova_unmap_bytes. */
    std::uint64_t release() noexcept {
        domain_ = nullptr;
        return address_;
    }

  private:
    friend class client;

    mapping(detail::state *domain, std::uint64_t worker, std::uint64_t client, std::uint64_t address, std::uint64_t bytes) noexcept
        : domain_(domain), worker_(worker), client_(client), address_(address), bytes_(bytes) {}

    void give_up() noexcept {
        if (domain_ && ::iova_unmap_bytes(&domain_->room, worker_, client_, address_).refused == IOVA_RING_FULL)
            domain_->keep({worker_, client_, address_, false});
    }

    detail::state *domain_ = nullptr;
    std::uint64_t worker_ = 0, client_ = 0, address_ = 0, bytes_ = 0;
};

/* A client of a worker. When it goes it is closed, with all that it still has. It may be moved, and is empty then. */
class client {
  public:
    client() noexcept = default;

    /* Refused by no_worker, worn, clients_full, no_memory; by bad_profile where the reach is `sac` and the granule isn't 4,096. */
    explicit client(domain &domain, std::uint64_t worker = 0, reach reach = reach::dac) {
        std::error_code error;
        open(domain, worker, reach, error);
        detail::told(error, "iova::client");
    }

    client(domain &domain, std::uint64_t worker, reach reach, std::error_code &error) noexcept {
        open(domain, worker, reach, error);
    }

    client(client &&other) noexcept
        : domain_(std::exchange(other.domain_, nullptr)), worker_(other.worker_), number_(other.number_) {}
    client &operator=(client &&other) noexcept {
        if (this != &other) {
            close();
            domain_ = std::exchange(other.domain_, nullptr);
            worker_ = other.worker_;
            number_ = other.number_;
        }
        return *this;
    }
    ~client() { close(); }

    explicit operator bool() const noexcept { return domain_ != nullptr; }
    std::uint64_t number() const noexcept { return number_; }
    std::uint64_t worker() const noexcept { return worker_; }

    /* A range for so many bytes, none above the address `mask`: iova_map, with its refusals. */
    mapping map(std::uint64_t bytes, std::uint64_t mask, std::error_code &error) noexcept {
        const ::iova_mapping given = ::iova_map(&domain_->room, worker_, number_, bytes, mask);
        if (detail::is_refused(given.refused, error))
            return mapping();
        return mapping(domain_, worker_, number_, given.address, given.bytes);
    }

    mapping map(std::uint64_t bytes, std::uint64_t mask = IOVA_NO_MASK) {
        const ::iova_mapping given = ::iova_map(&domain_->room, worker_, number_, bytes, mask);
        if (given.refused)
            detail::refuse(make_error_code(static_cast<refusal>(given.refused)), "iova::client::map");
        return mapping(domain_, worker_, number_, given.address, given.bytes);
    }

    /* The ranges that the client holds, rising. */
    std::vector<frames> holdings() const {
        std::vector<::iova_listed> list(::iova_holdings_of(&domain_->room, number_, no_list(), 0).number);
        if (!list.empty())
            ::iova_holdings_of(&domain_->room, number_, list.data(), list.size());
        std::vector<frames> holdings;
        for (const ::iova_listed &one : list)
            holdings.push_back({one.lo, one.len});
        return holdings;
    }

    /* Closes the client: all that it holds goes into the worker's ring. What has no room there is owed. */
    void close() noexcept {
        if (detail::state *domain = std::exchange(domain_, nullptr))
            if (!domain->close(worker_, number_))
                domain->keep({worker_, number_, 0, true});
    }

  private:
    /* a list of no room isn't NULL */
    static ::iova_listed *no_list() noexcept {
        static ::iova_listed none;
        return &none;
    }

    void open(domain &domain, std::uint64_t worker, reach reach, std::error_code &error) noexcept {
        const ::iova_number opened = ::iova_open(domain.at(), worker, reach == reach::sac);
        if (detail::is_refused(opened.refused, error))
            return;
        domain_ = domain.its_.get();
        worker_ = worker;
        number_ = opened.number;
    }

    detail::state *domain_ = nullptr;
    std::uint64_t worker_ = 0, number_ = 0;
};

/* A domain that threads share, each by a cache of its own: iova_shared.h, whose rules hold. It has the domain, and must outlive its
 * caches. A program of it is linked with the threads of POSIX (-pthread). */
class shared {
  public:
    /* Takes a domain over that has no clients. `invalidate` invalidates the whole domain, and answers whether it did. It is called
     * without a lock by whichever thread flushes, and by several at once, and calls nothing of this object or its caches: a flush there
     * is refused by flights_full. Where it throws, the flush has failed. A thread that is cancelled in it goes on until the flush has
     * ended; one that ends itself, by pthread_exit, ends the flush as failed, in a call that isn't noexcept. Refused by no_memory. In a
     * forked child each call of a cache is refused by no_cache, and each of this object by no_domain. */
    shared(domain domain, std::function<bool()> invalidate)
        : its_(std::make_unique<state>(std::move(domain), std::move(invalidate))) {
        std::error_code error;
        its_->is_ready = !detail::is_refused(::iova_shared_init(&its_->room, its_->domain.at(), state::invalidates, its_.get()), error);
        detail::told(error, "iova::shared");
    }

    /* What `call` answers of the domain, with the lock held: reserve, counts and their kin, and no flush. */
    template <class Call> auto locked(Call &&call) {
        if (its_->room.is_forked)
            detail::refuse(make_error_code(refusal::no_domain), "iova::shared::locked");
        struct held {
            ::pthread_mutex_t *lock;
            explicit held(::pthread_mutex_t *its) : lock(its) { ::pthread_mutex_lock(lock); }
            held(const held &) = delete;
            held &operator=(const held &) = delete;
            ~held() { ::pthread_mutex_unlock(lock); }
        } hold(&its_->room.lock);
        return std::forward<Call>(call)(its_->domain);
    }

    /* A flush now, and then what a cache couldn't give up when it went. Refused by sink_fault where the invalidation failed, and by
     * worn. */
    void flush(std::error_code &error) {
        if (!detail::is_refused(::iova_shared_flush(&its_->room), error))
            locked([](iova::domain &domain) { domain.its_->pay(); });
    }

    void flush() {
        std::error_code error;
        flush(error);
        detail::told(error, "iova::shared::flush");
    }

  private:
    friend class cache;

    struct state {
        iova::domain domain;
        std::function<bool()> invalidate;
        ::iova_shared room;
        bool is_ready = false;

        state(iova::domain its, std::function<bool()> how) : domain(std::move(its)), invalidate(std::move(how)) {}
        state(const state &) = delete;
        state &operator=(const state &) = delete;
        ~state() {
            if (is_ready)
                ::iova_shared_clear(&room);
        }

        void owes(std::uint64_t worker, std::uint64_t client) noexcept {
            ::pthread_mutex_lock(&room.lock);
            domain.its_->keep({worker, client, 0, true});
            ::pthread_mutex_unlock(&room.lock);
        }

        static int invalidates(void *with) {
            try {
                return static_cast<state *>(with)->invalidate();
#if defined(_CXXABI_FORCED_H)
            } catch (abi::__forced_unwind &) {
                throw; /* the thread ends: iova_shared_flush ends the flush */
#endif
            } catch (...) {
                return 0;
            }
        }
    };

    std::unique_ptr<state> its_;
};

namespace detail {

struct cache_state {
    ::iova_shared_cache room;
    std::vector<std::uint64_t> owes; /* addresses that a destructor couldn't give up */

    void keep(std::uint64_t address) noexcept {
        try {
            owes.push_back(address);
        } catch (...) {
            /* it stays the cache's, and goes with it */
        }
    }

    /* up to the first that is refused: behind a flush that failed no other is made */
    void pay() noexcept {
        std::size_t paid = 0;
        while (paid < owes.size() && ::iova_shared_unmap_bytes(&room, owes[paid]).refused != IOVA_RING_FULL)
            paid++;
        owes.erase(owes.begin(), owes.begin() + static_cast<std::ptrdiff_t>(paid));
    }
};

} // namespace detail

/* Bytes in a row of a thread's cache, which a device may use until the object goes. It may be moved, and is empty then. */
class cached {
  public:
    cached() noexcept = default;
    cached(cached &&other) noexcept
        : cache_(std::exchange(other.cache_, nullptr)), address_(other.address_), bytes_(other.bytes_) {}
    cached &operator=(cached &&other) noexcept {
        if (this != &other) {
            give_up();
            cache_ = std::exchange(other.cache_, nullptr);
            address_ = other.address_;
            bytes_ = other.bytes_;
        }
        return *this;
    }
    ~cached() { give_up(); }

    /* Whether there is a range. */
    explicit operator bool() const noexcept { return cache_ != nullptr; }

    /* The address of the first byte, a multiple of the domain's granule, and how many bytes there are, one too. */
    std::uint64_t address() const noexcept { return address_; }
    std::uint64_t bytes() const noexcept { return bytes_; }

    /* Gives the range up, as the destructor does, and says why that is refused: by ring_full where 255 wait and no flush went well, and
     * then it stays. */
    void unmap(std::error_code &error) noexcept {
        error.clear();
        if (cache_ && !detail::is_refused(::iova_shared_unmap_bytes(&cache_->room, address_).refused, error))
            cache_ = nullptr;
    }

    void unmap() {
        std::error_code error;
        unmap(error);
        detail::told(error, "iova::cached::unmap");
    }

    /* unmap on another thread than the cache's, which takes it at its next call. Refused by ring_full where 255 are to be taken. */
    void unmap_by_other(std::error_code &error) noexcept {
        error.clear();
        if (cache_ && !detail::is_refused(::iova_shared_unmap_by_other(&cache_->room, address_ >> cache_->room.shift), error))
            cache_ = nullptr;
    }

    /* The address, which the program gives up itself, by cache::unmap. */
    std::uint64_t release() noexcept {
        cache_ = nullptr;
        return address_;
    }

  private:
    friend class cache;

    cached(detail::cache_state *cache, const ::iova_mapping &given) noexcept
        : cache_(cache), address_(given.address), bytes_(given.bytes) {}

    void give_up() noexcept {
        if (cache_ && ::iova_shared_unmap_bytes(&cache_->room, address_).refused == IOVA_RING_FULL)
            cache_->keep(address_);
    }

    detail::cache_state *cache_ = nullptr;
    std::uint64_t address_ = 0, bytes_ = 0;
};

/* A thread's cache of a shared domain, of which it is one client: most of what it gives and takes back needs no lock. One thread at a
 * time uses it and what it gave, which must not outlive it. It may be moved, and is empty then. */
class cache {
  public:
    cache() noexcept = default;

    /* Refused by no_worker, worn, clients_full, no_memory; by bad_profile where the reach is `sac` and the granule isn't 4,096. */
    explicit cache(shared &shared, std::uint64_t worker = 0, reach reach = reach::dac) {
        std::error_code error;
        open(shared, worker, reach, error);
        detail::told(error, "iova::cache");
    }

    cache(shared &shared, std::uint64_t worker, reach reach, std::error_code &error) { open(shared, worker, reach, error); }

    cache(cache &&other) noexcept : its_(std::move(other.its_)), shared_(other.shared_) {}
    cache &operator=(cache &&other) noexcept {
        if (this != &other) {
            end();
            its_ = std::move(other.its_);
            shared_ = other.shared_;
        }
        return *this;
    }
    ~cache() { end(); }

    explicit operator bool() const noexcept { return its_ != nullptr; }
    std::uint64_t number() const noexcept { return its_->room.client; }
    std::uint64_t worker() const noexcept { return its_->room.worker; }

    /* A range for so many bytes, none above the address `mask`: iova_shared_map, with its refusals. */
    cached map(std::uint64_t bytes, std::uint64_t mask, std::error_code &error) noexcept {
        if (!its_->owes.empty())
            its_->pay();
        const ::iova_mapping given = ::iova_shared_map(&its_->room, bytes, mask);
        if (detail::is_refused(given.refused, error))
            return cached();
        return cached(its_.get(), given);
    }

    cached map(std::uint64_t bytes, std::uint64_t mask = IOVA_NO_MASK) {
        std::error_code error;
        cached given = map(bytes, mask, error);
        detail::told(error, "iova::cache::map");
        return given;
    }

    /* Gives up the range in whose first frame the address is: one that was released. Refused by not_held, and as cached::unmap is. */
    void unmap(std::uint64_t address, std::error_code &error) noexcept {
        detail::is_refused(::iova_shared_unmap_bytes(&its_->room, address).refused, error);
    }

    void unmap(std::uint64_t address) {
        std::error_code error;
        unmap(address, error);
        detail::told(error, "iova::cache::unmap");
    }

    /* Gives back to the domain what nobody uses and what waits for no flush: for a thread that makes no call for long. */
    void give_back() noexcept {
        its_->pay();
        ::iova_shared_give_back(&its_->room);
    }

    /* How many ranges were to be given up, when their objects went, and found 255 that wait: they go at a later call. */
    std::size_t owed() const noexcept { return its_->owes.size(); }

    /* How many ranges are where. It walks over what the user holds. */
    ::iova_shared_counts counts() const noexcept { return ::iova_shared_counts_of(&its_->room); }

    /* The cache ends, with all that it gave, and its client is closed. Where the domain's ring has no room, and no flush goes well, the
     * domain owes that, and does it behind the next shared::flush. */
    void end() noexcept {
        if (!its_)
            return;
        const std::uint64_t refused = ::iova_shared_close(&its_->room);
        if (refused && refused != IOVA_NO_CACHE) /* which a forked child is told */
            shared_->owes(its_->room.worker, its_->room.client);
        its_.reset();
    }

  private:
    void open(shared &shared, std::uint64_t worker, reach reach, std::error_code &error) {
        auto made = std::make_unique<detail::cache_state>();
        if (detail::is_refused(::iova_shared_open(&made->room, &shared.its_->room, worker, reach == iova::reach::sac), error))
            return;
        its_ = std::move(made);
        shared_ = shared.its_.get();
    }

    std::unique_ptr<detail::cache_state> its_;
    shared::state *shared_ = nullptr;
};

} // namespace iova

namespace std {
template <> struct is_error_code_enum<iova::refusal> : true_type {};
} // namespace std

#endif
