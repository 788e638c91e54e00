// The suite of tests/run_bindings over iova.hpp: calls from standard input, a line each, and their answers.
#include <iova.hpp>

#include <atomic>
#include <iostream>
#include <map>
#include <optional>
#include <sstream>
#include <stdexcept>
#include <thread>

using u64 = std::uint64_t;

static void refused(u64 number) { std::cout << "no " << number << ' ' << ::iova_refusal_name(number) << '\n'; }

static bool is_refused(const std::error_code &error) {
    if (error)
        std::cout << "no " << error.value() << ' ' << error.message() << '\n';
    return static_cast<bool>(error);
}

struct machine {
    std::optional<iova::domain> domain;
    std::map<std::string, iova::client> clients;
    std::map<std::string, iova::mapping> mappings;
    std::optional<iova::shared> shared;
    std::map<std::string, iova::cache> caches;
    std::map<std::string, iova::cached> cached;
    u64 flushes = 0;
    bool invalidates = true;

    void forget() {
        cached.clear();
        caches.clear();
        shared.reset();
        flushes = 0;
        invalidates = true;
        mappings.clear();
        clients.clear();
        domain.reset();
    }

    void number(const char *word, ::iova_number answer) {
        if (answer.refused)
            refused(answer.refused);
        else
            std::cout << word << ' ' << answer.number << '\n';
    }

    void range(const char *word, ::iova_range answer) {
        if (answer.refused)
            refused(answer.refused);
        else if (answer.len == 0)
            std::cout << "empty\n";
        else
            std::cout << word << ' ' << answer.lo << ' ' << answer.len << '\n';
    }

    // Whether it is a call of a shared domain, behind which is told how many flushes there were.
    bool share(const std::string &word, std::istream &line) {
        std::string name, other;
        u64 a = 0, b = 0;
        std::error_code error;
        if (word == "share") {
            shared.emplace(std::move(*domain), [this] {
                flushes++;
                return invalidates;
            });
            domain.reset();
            std::cout << "shared\n";
            return true;
        } else if (word == "invalidates") {
            line >> other;
            invalidates = other == "ok";
            std::cout << "so\n";
        } else if (word == "cache") {
            line >> name >> a >> other;
            iova::cache made(*shared, a, other == "sac" ? iova::reach::sac : iova::reach::dac, error);
            if (!is_refused(error))
                std::cout << "cache " << (caches[name] = std::move(made)).number() << '\n';
        } else if (word == "cmap") {
            line >> name >> other >> a >> b;
            iova::cached made = caches[other].map(a, b, error);
            if (!is_refused(error)) {
                std::cout << "mapped " << made.address() << ' ' << made.bytes() << '\n';
                cached[name] = std::move(made);
            }
        } else if (word == "cunmap") {
            line >> name;
            cached[name].unmap(error);
            if (!is_refused(error)) {
                std::cout << "unmapped\n";
                cached.erase(name);
            }
        } else if (word == "ckeep") {
            line >> name;
            std::cout << "kept " << cached[name].release() << '\n';
            cached.erase(name);
        } else if (word == "cfree") {
            line >> name >> a;
            caches[name].unmap(a, error);
            if (!is_refused(error))
                std::cout << "unmapped\n";
        } else if (word == "cdrop") {
            line >> name;
            if (cached.erase(name) + caches.erase(name) != 1)
                throw std::runtime_error("no " + name);
            std::cout << "dropped\n";
        } else if (word == "cflush") {
            shared->flush(error);
            if (!is_refused(error))
                std::cout << "flushed\n";
        } else if (word == "cback") {
            line >> name;
            caches[name].give_back();
            std::cout << "given back\n";
        } else if (word == "ccounts") {
            line >> name;
            const ::iova_shared_counts c = caches[name].counts();
            std::cout << "counts " << c.held << ' ' << c.waiting << ' ' << c.cached << '\n';
        } else if (word == "cowed") {
            line >> name;
            std::cout << "owed " << caches[name].owed() << '\n';
        } else if (word == "scounts") {
            counts(shared->locked([](iova::domain &its) { return its.counts(); }));
        } else if (word == "sowed") {
            std::cout << "owed " << shared->locked([](iova::domain &its) { return its.owed(); }) << '\n';
        } else {
            return false;
        }
        std::cout << "flushes " << flushes << '\n';
        return true;
    }

    static void counts(const ::iova_counts &c) {
        std::cout << "counts " << c.free << ' ' << c.reserved << ' ' << c.client << ' ' << c.magazine << ' ' << c.depot << ' '
                  << c.ring << ' ' << c.clients << ' ' << c.windows << '\n';
    }

    // Whether it is a step of a trace.
    bool step(const std::string &word, std::istream &line) {
        u64 v[4] = {0, 0, 0, 0};
        std::string last;
        ::iova_domain *at = domain ? domain->at() : nullptr;
        if (word == "reserve") {
            line >> v[0] >> v[1];
            std::error_code error;
            const iova::frames window = domain->reserve(v[0], v[1], error);
            if (!is_refused(error))
                std::cout << "reserved " << window.lo << ' ' << window.lo + (window.len - 1) << '\n';
        } else if (word == "open") {
            line >> v[0] >> last;
            number("opened", ::iova_open(at, v[0], last == "sac"));
        } else if (word == "alloc") {
            line >> v[0] >> v[1] >> v[2] >> v[3];
            range("given", ::iova_alloc(at, v[0], v[1], v[2], v[3]));
        } else if (word == "unmap") {
            line >> v[0] >> v[1] >> v[2];
            range("queued", ::iova_unmap(at, v[0], v[1], v[2]));
        } else if (word == "begin") {
            number("begun", ::iova_begin(at));
        } else if (word == "end") {
            line >> v[0] >> last;
            if (u64 why = ::iova_end(at, v[0], last == "ok"))
                refused(why);
            else
                std::cout << "ended\n";
        } else if (word == "drain") {
            line >> v[0] >> v[1];
            number("drained", ::iova_drain(at, v[0], v[1]));
        } else if (word == "close") {
            line >> v[0] >> v[1];
            number("marked", ::iova_close(at, v[0], v[1]));
        } else if (word == "closeone") {
            line >> v[0] >> v[1];
            range("queued", ::iova_close_one(at, v[0], v[1]));
        } else {
            return false;
        }
        return true;
    }

    void make(u64 profile, std::istream &line, bool is_told) {
        u64 start = 0, last = 0, workers = 0, depot = 0, granule = 0;
        std::error_code error;
        line >> start >> last >> workers;
        if (profile == 2)
            line >> depot;
        const bool has_granule = static_cast<bool>(line >> granule);
        forget();
        if (profile == 1 && has_granule)
            domain.emplace(start, last, workers, granule, error);
        else if (profile == 1)
            domain.emplace(start, last, workers, error);
        else if (has_granule)
            domain.emplace(iova::domain::second(start, last, workers, depot, granule, error));
        else
            domain.emplace(iova::domain::second(start, last, workers, depot, error));
        if (!error && domain->granule() != (has_granule ? granule : 4096))
            throw std::runtime_error("another granule");
        if (!is_refused(error) && is_told)
            std::cout << "made\n";
    }

    void call(const std::string &word, std::istream &line) {
        std::string name, other;
        u64 a = 0, b = 0;
        std::error_code error;
        if (word == "iovatrace") {
            line >> a;
            make(a, line, false);
        } else if (word == "domain" || word == "second") {
            make(word == "domain" ? 1 : 2, line, true);
        } else if (word == "client") {
            line >> name >> a >> other;
            iova::client made(*domain, a, other == "sac" ? iova::reach::sac : iova::reach::dac, error);
            if (!is_refused(error))
                std::cout << "client " << (clients[name] = std::move(made)).number() << '\n';
        } else if (word == "map") {
            line >> name >> other >> a >> b;
            iova::mapping made = clients[other].map(a, b, error);
            if (!is_refused(error)) {
                std::cout << "mapped " << made.address() << ' ' << made.bytes() << '\n';
                mappings[name] = std::move(made);
            }
        } else if (word == "unmap_one") {
            line >> name;
            mappings[name].unmap(error);
            if (!is_refused(error)) {
                std::cout << "unmapped\n";
                mappings.erase(name);
            }
        } else if (word == "drop") {
            line >> name;
            if (mappings.erase(name) + clients.erase(name) != 1)
                throw std::runtime_error("no " + name);
            std::cout << "dropped\n";
        } else if (word == "flush") {
            line >> other;
            try {
                const u64 left = domain->flush(
                    [&] {
                        if (other == "throw")
                            throw std::runtime_error("broken");
                        return other == "ok";
                    },
                    error);
                if (!is_refused(error))
                    std::cout << "flushed " << left << '\n';
            } catch (const std::runtime_error &) {
                std::cout << "threw\n";
            }
        } else if (word == "owed") {
            std::cout << "owed " << domain->owed() << '\n';
        } else if (word == "holdings") {
            line >> name;
            std::cout << "holdings";
            for (const iova::frames &one : clients[name].holdings())
                std::cout << ' ' << one.lo << '+' << one.len;
            std::cout << '\n';
        } else if (word == "name") {
            line >> a;
            std::cout << "name " << make_error_code(static_cast<iova::refusal>(a)).message() << '\n';
        } else if (word == "counts") {
            counts(domain->counts());
        } else if (word == "report") {
            report();
        } else if (!share(word, line) && !step(word, line)) {
            throw std::runtime_error("no call " + word);
        }
    }

    void row(const char *name, u64 value) {
        std::cout << name << std::string(10 - std::string(name).size(), ' ');
        std::cout.width(20);
        std::cout << value << '\n';
    }

    void report() {
        const ::iova_counts c = domain->counts();
        const ::iova_flushes f = domain->flushes();
        row("free", c.free), row("reserved", c.reserved), row("client", c.client), row("magazine", c.magazine);
        row("depot", c.depot), row("ring", c.ring), row("clients", c.clients), row("holdings", domain->totals().count);
        row("start", f.start), row("finish", f.finish), row("owed", f.owed), row("flights", f.in_flight);
        for (const iova::frames &one : domain->windows()) {
            std::cout << "window    ";
            std::cout.width(20);
            std::cout << one.lo;
            std::cout.width(20);
            std::cout << one.lo + (one.len - 1) << '\n';
        }
    }
};

// The calls that throw where they are refused, and what their errors compare equal to.
template <class Call> static void throws(iova::refusal why, std::errc how, Call call) {
    try {
        call();
    } catch (const std::system_error &thrown) {
        if (thrown.code() != why || (how != std::errc() && thrown.code() != how))
            throw std::runtime_error(std::string("another error: ") + thrown.what());
        return;
    }
    throw std::runtime_error("nothing was thrown");
}

static void try_throws() {
    throws(iova::refusal::bad_window, std::errc::invalid_argument, [] { iova::domain(0, 1); });
    throws(iova::refusal::bad_profile, std::errc::invalid_argument, [] { iova::domain::second(1, 1, 1, 33); });
    iova::domain first(1, 1023);
    iova::domain domain = std::move(first);
    throws(iova::refusal::no_worker, std::errc::invalid_argument, [&] { iova::client(domain, 1); });
    throws(iova::refusal::bad_window, std::errc::invalid_argument, [&] { domain.reserve(0, 1); });
    iova::client driver(domain);
    throws(iova::refusal::zero, std::errc::invalid_argument, [&] { driver.map(0); });
    throws(iova::refusal::no_space, std::errc(), [&] { driver.map(1, 4095); });
    iova::mapping kept = driver.map(1), other;
    for (int at = 0; at < 255; at++)
        driver.map(1);
    throws(iova::refusal::ring_full, std::errc(), [&] { kept.unmap(); });
    other = std::move(kept);
    if (!other || kept || domain.owed() != 0 || domain.flush([] { return true; }) != 255)
        throw std::runtime_error("what is moved");
    other.unmap();
    for (int at = 0; at < 32; at++)
        ::iova_begin(domain.at());
    throws(iova::refusal::flights_full, std::errc(), [&] { domain.flush([] { return true; }); });
    if (make_error_code(iova::refusal::no_memory) != std::errc::not_enough_memory)
        throw std::runtime_error("memory");
    throws(iova::refusal::bad_profile, std::errc::invalid_argument, [] { iova::domain(1, 1, 1, 12288); });
    throws(iova::refusal::bad_profile, std::errc::invalid_argument, [] { iova::domain::second(1, 1, 1, 8, 4095); });
}

// A shared domain from two threads, whose invalidation fails by throwing.
static void try_threads() {
    std::atomic<bool> is_broken{false};
    iova::shared shared(iova::domain(1, 1048575, 2, 16384), [&]() -> bool {
        if (is_broken)
            throw std::runtime_error("broken");
        return true;
    });
    const auto works = [&](u64 worker) {
        iova::cache first(shared, worker);
        iova::cache cache = std::move(first);
        for (int round = 0; round < 2000; round++) {
            iova::cached one = cache.map(20000, UINT32_MAX), other = cache.map(1000000);
            if (one.bytes() != 32768 || other.bytes() != 62 * 16384 || one.address() % 32768 || first)
                throw std::runtime_error("what a thread is given");
            one = std::move(other);
        }
        throws(iova::refusal::zero, std::errc::invalid_argument, [&] { cache.map(0); });
    };
    std::thread one(works, 0), other(works, 1);
    one.join();
    other.join();
    throws(iova::refusal::no_worker, std::errc::invalid_argument, [&] { iova::cache(shared, 2); });
    throws(iova::refusal::bad_profile, std::errc::invalid_argument, [&] { iova::cache(shared, 0, iova::reach::sac); });
    {
        iova::cache cache(shared);
        iova::cached kept = cache.map(1);
        std::error_code error;
        std::thread([&] { kept.unmap_by_other(error); }).join();
        if (error || kept || cache.counts().held != 1)
            throw std::runtime_error("what another thread gives up");
        cache.give_back();
        if (cache.counts().held != 0)
            throw std::runtime_error("what another thread gave up");
        is_broken = true;
        throws(iova::refusal::sink_fault, std::errc(), [&] { shared.flush(); });
        is_broken = false;
    }
    shared.flush();
    shared.locked([](iova::domain &its) { its.reserve(5, 6); });
    if (shared.locked([](iova::domain &its) { return its.counts(); }).client != 0)
        throw std::runtime_error("what threads leave");
}

int main() {
    std::ios::sync_with_stdio(false);
    try_throws();
    try_threads();
    machine its;
    std::string text, word;
    while (std::getline(std::cin, text)) {
        std::istringstream line(text);
        if (line >> word && word[0] != '#')
            its.call(word, line);
    }
    its.forget();
    return 0;
}
