// A CyclicBarrier over one monitor, as docs/BEHAVIOUR.md has it, heading "Cyclic barrier".
#pragma once

#include <functional>
#include <memory>

#include "threads.hpp"

class CyclicBarrier {
 public:
  /// `action` is empty where it has none.
  CyclicBarrier(int parties, std::function<void()> action);

  CyclicBarrier(const CyclicBarrier&) = delete;
  CyclicBarrier& operator=(const CyclicBarrier&) = delete;

  /// Waits until all parties have come, and answers the arrival index.
  int await(const Time& time);
  void reset();
  bool is_broken();
  int number_waiting();
  int parties() const { return parties_; }

 private:
  /// The arrivals between two ends. Who waits keeps its own, and finds in it how that one ended.
  struct Generation {
    bool tripped = false;
    bool broken = false;
  };

  int wait(std::unique_lock<points::Mutex>& lock, int index, const Time& time);
  int run_action();
  int trip();
  void break_barrier();
  void renew();
  void break_if_interrupted();
  void break_if_late(const Time& time);
  void let_in(std::unique_lock<points::Mutex>& lock);
  void refuse_inside_action() const;

  const int parties_;
  const std::function<void()> action_;
  const std::shared_ptr<Monitor> monitor_ = std::make_shared<Monitor>();
  std::shared_ptr<Generation> generation_ = std::make_shared<Generation>();  // under the lock, as all that follows
  int waiting_ = 0;
  Thread* runner_ = nullptr;  // the thread inside the action
};
