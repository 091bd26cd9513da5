#include "barrier.hpp"

#include <utility>

CyclicBarrier::CyclicBarrier(int parties, std::function<void()> action) : parties_(parties), action_(std::move(action)) {
  if (parties < 1) {
    throw IllegalArgument();
  }
}

int CyclicBarrier::await(const Time& time) {
  {
    std::unique_lock<points::Mutex> lock(monitor_->mutex);
    let_in(lock);
    refuse_inside_action();
    if (generation_->broken) {
      throw BrokenBarrier();
    }
    break_if_interrupted();
    const int index = parties_ - 1 - waiting_;
    if (index > 0) {
      break_if_late(time);
      return wait(lock, index, time);
    }
    if (!action_) {
      return trip();
    }
    runner_ = &Thread::current();
  }
  return run_action();
}

/// Waits for the end of this generation: how that ended counts before an interrupt, and that before the time.
int CyclicBarrier::wait(std::unique_lock<points::Mutex>& lock, int index, const Time& time) {
  const std::shared_ptr<Generation> mine = generation_;
  waiting_ += 1;
  while (!mine->tripped && !mine->broken) {
    if (runner_) {  // while the action runs nobody leaves
      monitor_->changed.wait(lock);
      continue;
    }
    break_if_interrupted();
    break_if_late(time);
    Thread::current().wait(monitor_, lock, time);
  }
  if (mine->broken) {
    throw BrokenBarrier();
  }
  return index;
}

int CyclicBarrier::run_action() {
  try {
    action_();
  } catch (...) {
    std::lock_guard<points::Mutex> lock(monitor_->mutex);
    runner_ = nullptr;
    break_barrier();
    throw;
  }
  std::lock_guard<points::Mutex> lock(monitor_->mutex);
  runner_ = nullptr;
  return trip();
}

int CyclicBarrier::trip() {
  generation_->tripped = true;
  renew();
  return 0;
}

void CyclicBarrier::break_barrier() {
  generation_->broken = true;
  waiting_ = 0;
  monitor_->changed.notify_all();
}

void CyclicBarrier::renew() {
  generation_ = std::make_shared<Generation>();
  waiting_ = 0;
  monitor_->changed.notify_all();
}

void CyclicBarrier::break_if_interrupted() {
  if (Thread::current().clear_interrupted()) {
    break_barrier();
    throw Interrupted();
  }
}

void CyclicBarrier::break_if_late(const Time& time) {
  if (time.is_over()) {
    break_barrier();
    throw TimedOut();
  }
}

/// While another thread runs the action nobody is let in.
void CyclicBarrier::let_in(std::unique_lock<points::Mutex>& lock) {
  monitor_->changed.wait(lock, [this] { return !runner_ || runner_ == &Thread::current(); });
}

void CyclicBarrier::reset() {
  std::unique_lock<points::Mutex> lock(monitor_->mutex);
  let_in(lock);
  refuse_inside_action();
  if (waiting_ > 0) {
    break_barrier();
  }
  renew();
}

bool CyclicBarrier::is_broken() {
  std::unique_lock<points::Mutex> lock(monitor_->mutex);
  let_in(lock);
  return generation_->broken;
}

int CyclicBarrier::number_waiting() {
  std::unique_lock<points::Mutex> lock(monitor_->mutex);
  let_in(lock);
  refuse_inside_action();
  return waiting_;
}

void CyclicBarrier::refuse_inside_action() const {
  if (runner_ == &Thread::current()) {
    throw IllegalState();
  }
}
