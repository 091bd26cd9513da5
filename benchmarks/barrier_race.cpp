// barrier_race KIND PARTIES ROUNDS: so many threads meet so many times, and the seconds are printed. KIND says at what:
//   std      std::barrier of C++20
//   pthread  pthread_barrier_t
//   word     one bare word, changed by compare-exchange; who waits only looks at it and never sleeps. Nothing that keeps count in
//            one word is much faster, where there is a processor for each thread.
#include <atomic>
#include <barrier>
#include <chrono>
#include <cstdint>
#include <cstdio>
#include <cstdlib>
#include <string>
#include <thread>
#include <vector>

#include <pthread.h>

namespace {

class StdBarrier {
public:
    explicit StdBarrier(unsigned parties) : barrier(parties) {}
    void meet() { barrier.arrive_and_wait(); }

private:
    std::barrier<> barrier;
};

class PthreadBarrier {
public:
    explicit PthreadBarrier(unsigned parties) { pthread_barrier_init(&barrier, nullptr, parties); }
    ~PthreadBarrier() { pthread_barrier_destroy(&barrier); }
    void meet() { pthread_barrier_wait(&barrier); }

private:
    pthread_barrier_t barrier;
};

// The phase in the upper half of the word, who is still to arrive in the lower.
class BareWord {
public:
    explicit BareWord(unsigned parties) : parties(parties), word(parties) {}

    void meet() {
        std::uint64_t before = word.load(std::memory_order_relaxed);
        std::uint64_t after;
        do {
            bool last = (before & LOWER) == 1;
            after = last ? ((before >> 32) + 1) << 32 | parties : before - 1;
        } while (!word.compare_exchange_weak(before, after, std::memory_order_acq_rel));
        while (after >> 32 == before >> 32 && word.load(std::memory_order_acquire) >> 32 == before >> 32) {
            pause();
        }
    }

private:
    static constexpr std::uint64_t LOWER = 0xffffffff;

    // Tells the processor that it spins.
    static void pause() {
#if defined(__x86_64__)
        __builtin_ia32_pause();
#endif
    }

    const std::uint64_t parties;
    alignas(64) std::atomic<std::uint64_t> word;
};

// The seconds from before the first thread starts until the last has ended.
template <class Barrier>
double race(unsigned parties, long rounds) {
    Barrier barrier(parties);
    std::vector<std::thread> threads;
    auto begun = std::chrono::steady_clock::now();
    for (unsigned i = 0; i < parties; i++) {
        threads.emplace_back([&barrier, rounds] {
            for (long round = 0; round < rounds; round++) {
                barrier.meet();
            }
        });
    }
    for (std::thread& thread : threads) {
        thread.join();
    }
    return std::chrono::duration<double>(std::chrono::steady_clock::now() - begun).count();
}

}  // namespace

int main(int count, char** words) {
    std::string kind = count == 4 ? words[1] : "";
    unsigned parties = count == 4 ? std::strtoul(words[2], nullptr, 10) : 0;
    long rounds = count == 4 ? std::strtol(words[3], nullptr, 10) : 0;
    double seconds = 0;
    if (parties == 0 || rounds <= 0) {
        kind = "";
    }
    if (kind == "std") {
        seconds = race<StdBarrier>(parties, rounds);
    } else if (kind == "pthread") {
        seconds = race<PthreadBarrier>(parties, rounds);
    } else if (kind == "word") {
        seconds = race<BareWord>(parties, rounds);
    } else {
        std::fprintf(stderr, "barrier_race std|pthread|word PARTIES ROUNDS\n");
        return 2;
    }
    std::printf("%.6f s\n", seconds);
}
