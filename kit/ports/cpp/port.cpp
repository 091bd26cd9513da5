// Speaks the port protocol (kit/PROTOCOL.md, "Port protocol") for the Phaser and the CyclicBarrier of this folder.
//
//     g++ -std=c++17 -O2 -pthread -o port kit/ports/cpp/*.cpp
//     kit/play --port ./port kit/cases
//
// Another port in C++ makes its own classes in `make_phaser` and `make_barrier`, and calls them in `call_phaser` and
// `call_barrier`; the rest stays.

#include <atomic>
#include <chrono>
#include <condition_variable>
#include <cstdlib>
#include <deque>
#include <exception>
#include <functional>
#include <iostream>
#include <map>
#include <memory>
#include <mutex>
#include <set>
#include <sstream>
#include <string>
#include <thread>
#include <vector>

#include "barrier.hpp"
#include "phaser.hpp"
#include "points.hpp"
#include "threads.hpp"

namespace {

std::mutex writing;

/// Writes a line at once. Many threads have something to say.
void say(const std::string& line) {
  std::lock_guard<std::mutex> lock(writing);
  std::cout << line << '\n' << std::flush;
}

/// What an onAdvance or an action throws where the player says so: an exception of nobody else's.
struct Through {
  int number;
};

/// A call that is ready to be made; its answer is what it returned, in the protocol's words.
using Call = std::function<std::string()>;

Call call_of(std::istringstream& words);
std::string outcome(const Call& call);

using Nanoseconds = long long;

Nanoseconds now() {
  return std::chrono::nanoseconds(std::chrono::steady_clock::now().time_since_epoch()).count();
}

void pause(Nanoseconds length) {
  const Nanoseconds until = now() + length;
  while (length > 0 && now() < until) {
  }
}

/// Lets the threads of a burst begin at once. They spin, since to wake up takes longer than a call.
class Gate {
 public:
  explicit Gate(int threads) : missing_(threads) {}

  void pass() {
    const Nanoseconds until = now() + kSpins;
    missing_ -= 1;
    while (missing_ > 0) {
      if (now() > until) {
        std::this_thread::sleep_for(std::chrono::microseconds(20));
      }
    }
  }

 private:
  static constexpr Nanoseconds kSpins = 100000;
  std::atomic<int> missing_;
};

/// A step of a thread's list in a burst, and, once it is made, how it went.
struct Step {
  int number;
  Nanoseconds pause_before;
  Call call;
  std::atomic<Nanoseconds> begun{0};
  Nanoseconds ended = 0;
  std::string answer{};
  std::string entered{};  // a line for each onAdvance and action, and for each call inside
};

/// What an onAdvance or an action does in a list: the calls that it makes, with their numbers; from which phase on it answers
/// true, or never, where that is negative; what it throws, or nothing, where that is 0.
struct Plan {
  Nanoseconds lasts = 0;
  int number = 0;
  std::vector<std::pair<int, Call>> inside{};
};

/// A thread of a case: makes the calls that it is told to make, also in the middle of an onAdvance or an action.
class Actor : public Thread {
 public:
  explicit Actor(int number) : number_(number) {
    std::thread([this] {
      become(*this);
      serve();
    }).detach();
  }

  /// It is to do this: `call ..`, `answer N` or `throw N`.
  void tell(const std::string& order) {
    std::lock_guard<std::mutex> lock(mutex_);
    told_.push_back(order);
    told_something_.notify_one();
  }

  /// Stands at the beginning of an onAdvance or an action, until it is told how that ends.
  static int enter(const std::string& what) {
    Actor& actor = static_cast<Actor&>(current());
    say(std::to_string(actor.number_) + " enter " + what);
    return actor.serve();
  }

  /// The same in a list, where nobody is asked: notes it, and goes by the plan. False where it is in none.
  static bool passes(const std::string& what, const Plan& plan) {
    Actor& actor = static_cast<Actor&>(current());
    if (!actor.present_) {
      return false;
    }
    std::ostringstream lines;
    lines << actor.number_ << " enter " << what << '\n';
    pause(plan.lasts);
    for (const auto& [number, call] : plan.inside) {
      const Nanoseconds begun = now();
      const std::string answer = outcome(call);
      lines << actor.number_ << " did " << number << ' ' << begun << ' ' << now() << ' ' << answer << '\n';
    }
    actor.present_->entered += lines.str();
    return true;
  }

  /// One more step of its list. It has no other list then.
  void give(int number, Nanoseconds pause_before, Call call) {
    std::lock_guard<std::mutex> lock(mutex_);  // a race detector doesn't see that the last list's end was told
    list_.emplace_back();
    list_.back().number = number;
    list_.back().pause_before = pause_before;
    list_.back().call = std::move(call);
  }

  /// Makes its list, and begins when all who pass this gate do.
  void go(std::shared_ptr<Gate> gate) {
    gate_ = std::move(gate);
    tell("list");
  }

  /// What it has done of a list that hasn't ended.
  std::string so_far() {
    std::lock_guard<std::mutex> lock(mutex_);
    const size_t made = made_;
    std::string lines = did(made);
    if (made < list_.size() && list_[made].begun > 0) {
      lines += std::to_string(number_) + " began " + std::to_string(list_[made].number) + ' ' +
               std::to_string(list_[made].begun) + '\n';
    }
    return lines;
  }

 private:
  /// The clock is read outside two fences: what a call has done is seen by whoever begins after its end.
  void make_list() {
    points::list();
    gate_->pass();
    for (Step& step : list_) {
      pause(step.pause_before);
      present_ = &step;
      step.begun = now();
      std::atomic_thread_fence(std::memory_order_seq_cst);
      step.answer = outcome(step.call);
      std::atomic_thread_fence(std::memory_order_seq_cst);
      step.ended = now();
      present_ = nullptr;
      made_ += 1;
    }
    std::string lines;
    {
      std::lock_guard<std::mutex> lock(mutex_);
      lines = did(list_.size());
      list_.clear();
      made_ = 0;
    }
    say(lines + std::to_string(number_) + " end");
  }

  /// The first so many steps of its list, as they are told.
  std::string did(size_t count) const {
    std::ostringstream lines;
    for (size_t at = 0; at < count; at++) {
      const Step& step = list_[at];
      lines << step.entered << number_ << " did " << step.number << ' ' << step.begun << ' ' << step.ended << ' '
            << step.answer << '\n';
    }
    return lines.str();
  }

  /// Makes calls until it is told to end what it stands in; answers what that is to answer.
  int serve() {
    for (;;) {
      std::istringstream words(next());
      std::string word;
      words >> word;
      if (word == "call") {
        say(std::to_string(number_) + " " + outcome(call_of(words)));
        continue;
      }
      if (word == "list") {
        make_list();
        continue;
      }
      int number = 0;
      words >> number;
      if (word == "throw") {
        throw Through{number};
      }
      return number;
    }
  }

  std::string next() {
    std::unique_lock<std::mutex> lock(mutex_);
    told_something_.wait(lock, [this] { return !told_.empty(); });
    std::string order = told_.front();
    told_.pop_front();
    return order;
  }

  const int number_;
  std::mutex mutex_;
  std::condition_variable told_something_;
  std::deque<std::string> told_;
  std::deque<Step> list_;  // the reader's until `go`, then the thread's
  std::shared_ptr<Gate> gate_;
  std::atomic<size_t> made_{0};
  Step* present_ = nullptr;
};

// The plans of the burst, by the numbers of phasers and barriers.
std::map<int, Plan> advances;
std::map<int, Plan> actions;

/// A phaser whose onAdvance asks the player.
class AskingPhaser : public Phaser {
 public:
  AskingPhaser(int number, Phaser* parent, int parties, int first_phase)
      : Phaser(parent, parties, first_phase), number_(number) {}

 protected:
  bool on_advance(int phase, int parties) override {
    std::ostringstream what;
    what << "phaser " << number_ << ' ' << phase << ' ' << parties;
    const Plan& plan = advances.at(number_);
    if (Actor::passes(what.str(), plan)) {
      return plan.number >= 0 && (phase >= plan.number || parties == 0);
    }
    return Actor::enter(what.str()) != 0;
  }

 private:
  const int number_;
};

// The objects of the case. The reader of commands makes them while no thread is inside a call.
std::vector<std::unique_ptr<Phaser>> phasers;
std::vector<std::unique_ptr<CyclicBarrier>> barriers;
std::map<int, std::unique_ptr<Actor>> actors;

/// Only the reader of commands asks for it.
Actor& actor(int number) {
  std::unique_ptr<Actor>& place = actors[number];
  if (!place) {
    place = std::make_unique<Actor>(number);
  }
  return *place;
}

int number_of(const Phaser* phaser) {
  for (size_t at = 0; at < phasers.size(); at++) {
    if (phasers[at].get() == phaser) {
      return static_cast<int>(at);
    }
  }
  return -1;
}

int number(std::istringstream& words) {
  int number = 0;
  words >> number;
  return number;
}

/// The time behind a call, which begins when the call does; none where there is none.
std::function<Time()> time_of(std::istringstream& words) {
  Nanoseconds length = 0;
  if (words >> length) {
    return [length] { return Time(std::chrono::nanoseconds(length)); };
  }
  return [] { return Time(); };
}

std::string value(int number) { return "= " + std::to_string(number); }

Call call_phaser(const std::string& method, Phaser& phaser, std::istringstream& words) {
  if (method == "register") return [&phaser] { return value(phaser.register_party()); };
  if (method == "arrive") return [&phaser] { return value(phaser.arrive()); };
  if (method == "arriveAndDeregister") return [&phaser] { return value(phaser.arrive_and_deregister()); };
  if (method == "arriveAndAwaitAdvance") return [&phaser] { return value(phaser.arrive_and_await_advance()); };
  if (method == "forceTermination") {
    return [&phaser] {
      phaser.force_termination();
      return std::string("ok");
    };
  }
  if (method == "getPhase") return [&phaser] { return value(phaser.phase()); };
  if (method == "getRegisteredParties") return [&phaser] { return value(phaser.registered_parties()); };
  if (method == "getArrivedParties") return [&phaser] { return value(phaser.arrived_parties()); };
  if (method == "getUnarrivedParties") return [&phaser] { return value(phaser.unarrived_parties()); };
  if (method == "isTerminated") return [&phaser] { return value(phaser.is_terminated()); };
  if (method == "getParent") return [&phaser] { return value(number_of(phaser.parent())); };
  if (method == "getRoot") return [&phaser] { return value(number_of(phaser.root())); };
  const int operand = number(words);
  if (method == "bulkRegister") return [&phaser, operand] { return value(phaser.bulk_register(operand)); };
  if (method == "awaitAdvance") return [&phaser, operand] { return value(phaser.await_advance(operand)); };
  if (method == "awaitAdvanceInterruptibly") {
    return [&phaser, operand, time = time_of(words)] { return value(phaser.await_advance_interruptibly(operand, time())); };
  }
  return [method] { return "fault there is no " + method; };
}

Call call_barrier(const std::string& method, CyclicBarrier& barrier, std::istringstream& words) {
  if (method == "await") return [&barrier, time = time_of(words)] { return value(barrier.await(time())); };
  if (method == "reset") {
    return [&barrier] {
      barrier.reset();
      return std::string("ok");
    };
  }
  if (method == "isBroken") return [&barrier] { return value(barrier.is_broken()); };
  if (method == "getNumberWaiting") return [&barrier] { return value(barrier.number_waiting()); };
  return [&barrier] { return value(barrier.parties()); };
}

/// A call, ready to be made by whichever thread; also the interrupt that a list may hold.
Call call_of(std::istringstream& words) {
  std::string method;
  words >> method;
  if (method == "interrupted") return [] { return value(Thread::current().clear_interrupted()); };
  if (method == "isInterrupted") return [] { return value(Thread::current().is_interrupted()); };
  const int object = number(words);
  if (method == "interrupt") {
    return [&target = actor(object)] {
      target.interrupt();
      return std::string("ok");
    };
  }
  for (const char* of_barrier : {"await", "reset", "isBroken", "getNumberWaiting", "getParties"}) {
    if (method == of_barrier) {
      return call_barrier(method, *barriers.at(object), words);
    }
  }
  return call_phaser(method, *phasers.at(object), words);
}

/// Makes a call on the current thread; what became of it, in the protocol's words.
std::string outcome(const Call& call) {
  try {
    return call();
  } catch (const Through& through) {
    return "through " + std::to_string(through.number);
  } catch (const IllegalState&) {
    return "throw 1";
  } catch (const IllegalArgument&) {
    return "throw 2";
  } catch (const Interrupted&) {
    return "throw 3";
  } catch (const BrokenBarrier&) {
    return "throw 4";
  } catch (const TimedOut&) {
    return "throw 5";
  } catch (const std::exception& fault) {
    return std::string("fault ") + fault.what();
  }
}

// ---------------------------------------------------------------- the reader of commands

void begin() {
  // every thread has answered its last call under this lock, so that the reader sees all that it did there
  std::lock_guard<std::mutex> lock(writing);
  phasers.clear();
  barriers.clear();
  advances.clear();
  actions.clear();
  for (auto& entry : actors) {
    entry.second->clear_interrupted();
  }
}

void make_phaser(std::istringstream& words) {
  int number, parent, parties, first_phase;
  std::string advance;
  words >> number >> parent >> parties >> first_phase >> advance;
  Phaser* above = parent < 0 ? nullptr : phasers.at(parent).get();
  if (advance == "asked") {
    advances[number] = Plan();
    phasers.push_back(std::make_unique<AskingPhaser>(number, above, parties, first_phase));
  } else {
    phasers.push_back(std::make_unique<Phaser>(above, parties, first_phase));
  }
}

void make_barrier(std::istringstream& words) {
  int number, parties;
  std::string action;
  words >> number >> parties >> action;
  std::function<void()> asks;
  if (action == "asked") {
    actions[number] = Plan();
    asks = [number] {
      const std::string what = "barrier " + std::to_string(number);
      const Plan& plan = actions.at(number);
      if (!Actor::passes(what, plan)) {
        Actor::enter(what);
      } else if (plan.number != 0) {
        throw Through{plan.number};
      }
    };
  }
  barriers.push_back(std::make_unique<CyclicBarrier>(parties, asks));
}

// ---- lists of calls

std::set<Actor*> listed;  // who has a list, and wasn't told to go

void list(std::istringstream& words) {
  Actor& named = actor(number(words));
  const int step = number(words);
  Nanoseconds pause_before = 0;
  words >> pause_before;
  named.give(step, pause_before, call_of(words));
  listed.insert(&named);
}

void go() {
  const auto gate = std::make_shared<Gate>(listed.size());
  for (Actor* actor : listed) {
    actor->go(gate);
  }
  listed.clear();
}

/// What all have done of lists that haven't ended.
std::string so_far() {
  std::string lines;
  for (auto& entry : actors) {
    lines += entry.second->so_far();
  }
  return lines;
}

void plan_inside(std::istringstream& words) {
  std::string what;
  words >> what;
  Plan& plan = (what == "phaser" ? advances : actions)[number(words)];
  const int step = number(words);
  plan.inside.emplace_back(step, call_of(words));
}

void plan(std::map<int, Plan>& plans, std::istringstream& words) {
  Plan& plan = plans[number(words)];
  words >> plan.lasts >> plan.number;
}

void command_thread(const std::string& word, std::istringstream& words) {
  Actor& named = actor(number(words));
  if (word == "interrupt") {
    named.interrupt();
    return;
  }
  std::string rest;
  std::getline(words, rest);
  named.tell(word + rest);
}

/// Carries out a command for objects, and answers it.
std::string make(const std::string& word, std::istringstream& words) {
  try {
    return outcome([&word, &words] {
      word == "case" ? begin() : word == "phaser" ? make_phaser(words) : make_barrier(words);
      return std::string("ok");
    });
  } catch (const Missing& missing) {
    return std::string("no ") + missing.why;
  }
}

}  // namespace

/// The reader makes objects, too, so it is a thread as theirs want it.
class Reader : public Thread {
 public:
  void run() {
    become(*this);
    std::string line;
    while (std::getline(std::cin, line)) {
      std::istringstream words(line);
      std::string word;
      words >> word;
      read(word, words);
    }
  }

 private:
  static void read(const std::string& word, std::istringstream& words) {
    if (word == "case" || word == "phaser" || word == "barrier") {
      say(make(word, words));
    } else if (word == "lists" || word == "so-far") {
      say((word == "lists" ? "" : so_far()) + "ok");
    } else if (word == "inside") {
      plan_inside(words);
      say("ok");
    } else if (word == "live") {
      say("no there is no collector");
    } else if (word == "advance" || word == "action") {
      plan(word == "advance" ? advances : actions, words);
    } else if (word == "list") {
      list(words);
    } else if (word == "go") {
      go();
    } else {
      command_thread(word, words);
    }
  }
};

int main() {
  points::start();
  std::cin.tie(nullptr);  // else each read flushes the output, in the middle of another thread's line
  Reader().run();
  std::_Exit(0);  // whatever the threads do
}
