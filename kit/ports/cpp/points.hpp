// Points: places at which a thread may stand still until others have gone some steps, so that races of two instructions come
// about (docs/PORTING.md, "Points"). Without POINTS=SEED in the environment a point is one branch.
//
// Put points::Mutex for std::mutex, points::Condition for std::condition_variable, points::Atomic<T> for std::atomic<T>, and
// points::point() before and after whatever else others can see. `main` calls points::start() first, and the adapter calls
// points::list() when a thread begins a list.
#pragma once

#include <atomic>
#include <cerrno>
#include <chrono>
#include <condition_variable>
#include <cstdint>
#include <cstdio>
#include <cstdlib>
#include <mutex>
#include <thread>

namespace points {

using Count = std::uint64_t;
using Clock = std::chrono::steady_clock;

/// Who stands lets so many points of all threads go by, at most two to this power.
constexpr Count kMostPassed = 7;
/// It goes on sooner if nobody passes one from look to look, so often: all others may be waiting for it.
constexpr int kMostIdle = 40;
/// On a busy machine a look may take long.
constexpr std::chrono::milliseconds kLongest{20};

inline Count seed = 0;  // 0: there are no points; written before there are threads
inline std::atomic<Count> passed{0};
inline std::atomic<Count> threads{0};
inline thread_local Count state = 0;  // of this thread's random numbers; 0 where it hasn't drawn any
inline thread_local Count left = 0;   // so many points before it stands; 0 where it doesn't any more
inline thread_local Count more = 0;   // so often it stands after that

inline void start() {
  const char* text = std::getenv("POINTS");
  if (text == nullptr || *text == '\0') {
    return;
  }
  char* end = nullptr;
  errno = 0;
  const Count number = std::strtoull(text, &end, 10);
  if (*text < '0' || *text > '9' || *end != '\0' || errno != 0) {
    std::fprintf(stderr, "POINTS has to be a number, and is %s\n", text);
    std::exit(2);
  }
  seed = number * 2 + 1;
}

/// The next number of the thread, from 0, below this one.
inline Count random(Count below) {
  if (state == 0) {
    state = (seed << 20 | ++threads) * 0x9e3779b97f4a7c15u | 1;
  }
  state ^= state << 13;
  state ^= state >> 7;
  state ^= state << 17;
  return (state * 0x2545f4914f6cdd1du >> 20) % below;
}

/// A random number from 1 up to two to this power; of two sizes each comes as often.
inline Count some(Count power) { return 1 + random(Count(2) << random(power)); }

/// The thread begins a list. In every other one it stands, 2 to 33 times: it falls behind in every call, while others run freely.
inline void list() {
  if (seed != 0) {
    more = some(5);
    left = random(2) == 0 ? some(6) : 0;
  }
}

/// Until others have passed some points. That isn't a time, so it works on a quiet machine and on a busy one.
inline void stand() {
  Count seen = passed.load(std::memory_order_relaxed);
  const Count until = seen + some(kMostPassed);
  const Clock::time_point end = Clock::now() + kLongest;
  int idle = 0;
  while (seen < until && idle < kMostIdle && Clock::now() < end) {
    std::this_thread::sleep_for(std::chrono::microseconds(20));
    const Count now = passed.load(std::memory_order_relaxed);
    idle = now == seen ? idle + 1 : 0;
    seen = now;
  }
}

inline void point() {
  if (seed == 0) {
    return;
  }
  passed.fetch_add(1, std::memory_order_relaxed);  // relaxed: it mustn't put in order what the port leaves open
  if (left != 0 && --left == 0) {
    stand();
    left = more != 0 ? some(5) : 0;
    more -= more != 0 ? 1 : 0;
  }
}

/// Does a step between two points.
template <class Step>
auto at(Step step) {
  struct Behind {
    ~Behind() { point(); }
  } behind;
  point();
  return step();
}

class Mutex {
 public:
  void lock() {
    at([this] { mutex_.lock(); });
  }
  void unlock() {
    at([this] { mutex_.unlock(); });
  }
  bool try_lock() {
    return at([this] { return mutex_.try_lock(); });
  }

 private:
  std::mutex mutex_;
};

/// Its waits give the mutex back, and take it, and so have their points.
class Condition : public std::condition_variable_any {
 public:
  void notify_one() {
    at([this] { std::condition_variable_any::notify_one(); });
  }
  void notify_all() {
    at([this] { std::condition_variable_any::notify_all(); });
  }
};

/// Of numbers and pointers.
template <class T>
class Atomic {
 public:
  Atomic(T value = T()) : value_(value) {}

  T load(std::memory_order order = std::memory_order_seq_cst) const {
    return at([&] { return value_.load(order); });
  }
  void store(T value, std::memory_order order = std::memory_order_seq_cst) {
    at([&] { value_.store(value, order); });
  }
  T exchange(T value) {
    return at([&] { return value_.exchange(value); });
  }
  bool compare_exchange_strong(T& old, T value) {
    return at([&] { return value_.compare_exchange_strong(old, value); });
  }
  bool compare_exchange_weak(T& old, T value) {
    return at([&] { return value_.compare_exchange_weak(old, value); });
  }
  template <class N>
  T fetch_add(N number) {
    return at([&] { return value_.fetch_add(number); });
  }
  template <class N>
  T fetch_sub(N number) {
    return at([&] { return value_.fetch_sub(number); });
  }
  T fetch_or(T bits) {
    return at([&] { return value_.fetch_or(bits); });
  }

  operator T() const { return load(); }
  T operator=(T value) {
    store(value);
    return value;
  }
  template <class N>
  T operator+=(N number) {
    return fetch_add(number) + number;
  }
  template <class N>
  T operator-=(N number) {
    return fetch_sub(number) - number;
  }
  T operator|=(T bits) { return fetch_or(bits) | bits; }
  T operator--() { return fetch_sub(1) - 1; }

 private:
  std::atomic<T> value_;
};

}  // namespace points
