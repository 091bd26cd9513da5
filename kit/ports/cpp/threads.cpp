#include "threads.hpp"

#include <algorithm>

thread_local Thread* Thread::current_ = nullptr;

std::chrono::nanoseconds Time::left() const {
  const std::chrono::nanoseconds hour = std::chrono::hours(1);
  return ends_ ? std::min(hour, length_ - elapsed()) : hour;
}

void Thread::interrupt() {
  interrupted_ = true;
  std::shared_ptr<Monitor> at;
  {
    std::lock_guard<points::Mutex> lock(own_);
    at = waits_at_;
  }
  if (at) {
    // the lock is free only once the thread sleeps, so this can't come too early for it
    std::lock_guard<points::Mutex> lock(at->mutex);
    at->changed.notify_all();
  }
}

void Thread::wait(const std::shared_ptr<Monitor>& at, std::unique_lock<points::Mutex>& lock, const Time& time) {
  wait_at(at);  // before the look at the status, since `interrupt` sets that one first
  if (!interrupted_) {
    at->changed.wait_for(lock, time.left());
  }
  wait_at(nullptr);
}

void Thread::wait_at(std::shared_ptr<Monitor> monitor) {
  std::lock_guard<points::Mutex> lock(own_);
  waits_at_ = std::move(monitor);
}
