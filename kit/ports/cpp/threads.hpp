// Threads with an interrupted status, which C++'s own don't have, times, and what the calls of a port throw.
#pragma once

#include <chrono>
#include <memory>
#include <mutex>

#include "points.hpp"

/// The state of the object doesn't allow the call.
struct IllegalState {};

/// A number that the call doesn't take.
struct IllegalArgument {};

/// The calling thread was interrupted; its status is cleared then.
struct Interrupted {};

/// The barrier is broken, or the generation that the thread waited in ended as broken.
struct BrokenBarrier {};

/// The time of a wait is over.
struct TimedOut {};

/// An object that this port doesn't make, and why.
struct Missing {
  const char* why;
};

/// A lock, and the condition that is notified whenever something changes that somebody may wait for.
struct Monitor {
  points::Mutex mutex;
  points::Condition changed;
};

/// How long a wait may take. No sum is made of the present and the time, so that the longest one doesn't overflow.
class Time {
 public:
  /// Without an end.
  Time() = default;

  explicit Time(std::chrono::nanoseconds length) : ends_(true), length_(length) {}

  bool is_over() const { return ends_ && elapsed() >= length_; }

  /// What is left of it, or an hour where that is less: who waits looks again then.
  std::chrono::nanoseconds left() const;

 private:
  std::chrono::nanoseconds elapsed() const { return std::chrono::steady_clock::now() - begun_; }

  bool ends_ = false;
  std::chrono::nanoseconds length_{};
  std::chrono::steady_clock::time_point begun_ = std::chrono::steady_clock::now();
};

/// A thread that others can interrupt. Only such threads may call a Phaser or a CyclicBarrier.
class Thread {
 public:
  virtual ~Thread() = default;

  /// Sets the status, and wakes the thread where it waits interruptibly.
  void interrupt();

  bool is_interrupted() const { return interrupted_; }

  /// Whether the status was set; it is clear then.
  bool clear_interrupted() { return interrupted_.exchange(false); }

  /// Waits at a monitor whose lock this thread holds: until it is notified, interrupted, or out of time, or for no reason.
  void wait(const std::shared_ptr<Monitor>& at, std::unique_lock<points::Mutex>& lock, const Time& time);

  /// The thread that calls this.
  static Thread& current() { return *current_; }

 protected:
  /// From now on the thread that calls this is `thread`.
  static void become(Thread& thread) { current_ = &thread; }

 private:
  void wait_at(std::shared_ptr<Monitor> monitor);

  static thread_local Thread* current_;

  points::Atomic<bool> interrupted_{false};
  points::Mutex own_;
  std::shared_ptr<Monitor> waits_at_;  // under own_
};
