#include "phaser.hpp"

#include <algorithm>
#include <cstdlib>
#include <cstring>
#include <iterator>
#include <limits>
#include <vector>

namespace {

using Word = std::uint64_t;

constexpr int kMostParties = 65535;
constexpr int kMostLeft = 64;  // nodes whose waiters have left, on the stack
constexpr int kLastPhase = std::numeric_limits<int>::max();
constexpr Word kTerminated = Word(1) << 63;
constexpr Word kParty = Word(1) << 16;
constexpr Word kUnarrived = 0xffff;

int phase_of(Word word) { return static_cast<int>(word >> 32 & 0x7fffffff); }
int parties_of(Word word) { return static_cast<int>(word >> 16 & 0xffff); }
bool terminated(Word word) { return (word & kTerminated) != 0; }
bool turned(Word word) { return !terminated(word) && (word & kUnarrived) == 0; }
bool empty(Word word) { return parties_of(word) == 0 && (word & kUnarrived) == 1; }
int view_of(Word word) { return terminated(word) ? phase_of(word) - kLastPhase - 1 : phase_of(word); }

/// A phaser at the beginning of a phase; without parties one is to arrive, so that it isn't turned.
Word fresh(int phase, int parties) {
  return Word(static_cast<unsigned>(phase)) << 32 | Word(parties) << 16 | Word(parties == 0 ? 1 : parties);
}

Fault fault_of_environment() {
  const char* name = std::getenv("FAULT");
  const char* names[] = {"", "check-push-park", "park-once", "register-by-adding", "arrive-by-subtracting",
                         "advance-in-two-steps", "force-by-storing", "stale-answer", "sixteen-are-woken",
                         "nodes-used-again", "phase-before-counts", "end-by-storing",
                         "taken-off-by-comparing", "queued-for-good", "register-by-storing",
                         "empty-before-on-advance", "owner-read-after-letting-go", "woken-before-the-mark",
                         "freed-while-queued", "permit-is-kept", "left-on-the-stack"};
  for (int at = 1; name && at < static_cast<int>(std::size(names)); at++) {
    if (std::strcmp(name, names[at]) == 0) {
      return static_cast<Fault>(at);
    }
  }
  return name && *name ? throw IllegalArgument() : Fault::kNone;
}

const Fault fault = fault_of_environment();

/// A permit to go on: `unpark` gives it, and `park` takes it, or waits for it.
class Parker {
 public:
  void unpark() {
    std::lock_guard<points::Mutex> lock(monitor_->mutex);
    permit_ = true;
    monitor_->changed.notify_all();
  }

  /// Returns with the permit, for an interrupt where `interruptibly`, when the time is over, or for no reason.
  void park(bool interruptibly, const Time& time) {
    std::unique_lock<points::Mutex> lock(monitor_->mutex);
    if (!permit_) {
      interruptibly ? Thread::current().wait(monitor_, lock, time) : monitor_->changed.wait(lock);
    }
    permit_ = fault == Fault::kPermitIsKept && permit_;
  }

 private:
  const std::shared_ptr<Monitor> monitor_ = std::make_shared<Monitor>();
  bool permit_ = false;
};

Parker& own_parker() {
  static thread_local Parker* parker = new Parker();  // whoever still has it may wake a thread that has ended
  return *parker;
}

}  // namespace

/// A waiter. It is the waiter's and the stack's, and the one that lets it go last deletes it.
struct Phaser::Node {
  Parker& parker = own_parker();
  points::Atomic<bool> queued{false};
  points::Atomic<int> owners{1};
  points::Atomic<int> phase{0};
  points::Atomic<Node*> next{nullptr};

  /// Where nodes are used again: one of this thread's own that is on no stack.
  static Node* of_own() {
    static thread_local std::vector<Node*> own;
    auto free = std::find_if(own.begin(), own.end(), [](Node* node) { return !node->queued; });
    Node* node = free == own.end() ? own.emplace_back(new Node()) : *free;
    node->owners += 1;
    return node;
  }

  void let_go() {
    if (--owners == 0) {
      delete this;
    }
  }

  /// The waiter goes, and the phase hasn't ended.
  void leave() {
    if (fault == Fault::kFreedWhileQueued && queued) {
      let_go();
    }
    let_go();
  }
};

Phaser::Phaser(Phaser* parent, int parties, int first_phase) : word_(fresh(first_phase, parties)) {
  if (parent) {
    throw Missing{"it makes no tiers"};
  }
  if (parties < 0 || parties > kMostParties) {
    throw IllegalArgument();
  }
}

Phaser::~Phaser() { release_all(); }

bool Phaser::on_advance(int, int parties) { return parties == 0; }

// ---------------------------------------------------------------- registering

int Phaser::bulk_register(int count) {
  refuse_inside_on_advance();
  if (count < 0) {
    throw IllegalArgument();
  }
  Word word = word_;
  for (;;) {
    if (terminated(word) || count == 0) {
      return view_of(word);
    }
    if (parties_of(word) > kMostParties - count) {
      throw IllegalState();
    }
    if (turned(word)) {
      wait(phase_of(word), false, Time());
      word = word_;
      continue;
    }
    if (fault == Fault::kRegisterByAdding && !empty(word)) {
      return view_of(word_.fetch_add(count * kParty + count));
    }
    if (fault == Fault::kRegisterByStoring && empty(word)) {
      word_ = fresh(phase_of(word), count);
      return phase_of(word);
    }
    const Word more = empty(word) ? fresh(phase_of(word), count) : word + count * kParty + count;
    if (word_.compare_exchange_strong(word, more)) {
      return phase_of(word);
    }
  }
}

// ---------------------------------------------------------------- arriving

int Phaser::arrive(bool leaves) {
  refuse_inside_on_advance();
  Word word = word_;
  const Word first = word;
  Word less;
  Word next;
  do {
    if (terminated(word)) {
      return view_of(word);
    }
    if (empty(word) || turned(word)) {
      throw IllegalState();
    }
    less = word - 1 - (leaves ? kParty : 0);
    if (fault == Fault::kArriveBySubtracting) {
      word = word_.fetch_sub(word - less);
      less = word - 1 - (leaves ? kParty : 0);
      break;
    }
    const bool empties = fault == Fault::kEmptyBeforeOnAdvance && turned(less) && parties_of(less) == 0;
    next = empties ? fresh(phase_of(word), 0) : less;
  } while (!word_.compare_exchange_weak(word, next));
  const int phase = phase_of(fault == Fault::kStaleAnswer ? first : word);
  if (turned(less)) {
    advance(phase, parties_of(less));
  }
  return phase;
}

/// Only the last to arrive comes here. An exception of `on_advance` ends no phase: it stays turned.
void Phaser::advance(int phase, int parties) {
  bool terminates;
  runner_ = &Thread::current();
  try {
    terminates = on_advance(phase, parties);
  } catch (...) {
    runner_ = nullptr;
    throw;
  }
  runner_ = nullptr;
  end_phase(word_, terminates);
  release_all();
}

/// While it is turned a forced termination alone changes the word; that has ended the phase, then.
void Phaser::end_phase(Word turned, bool terminates) {
  const int phase = phase_of(turned) == kLastPhase ? 0 : phase_of(turned) + 1;
  const Word next = fresh(phase, parties_of(turned)) | (terminates ? kTerminated : 0);
  if (fault == Fault::kAdvanceInTwoSteps && !terminated(turned)) {
    word_ = fresh(phase_of(turned), parties_of(turned));
    word_ += next - fresh(phase_of(turned), parties_of(turned));
    return;
  }
  if (fault == Fault::kPhaseBeforeCounts && !terminated(turned)) {
    word_ += next - fresh(phase_of(turned), parties_of(turned));
    word_ += fresh(phase_of(turned), parties_of(turned)) - turned;
    return;
  }
  if (fault == Fault::kEndByStoring && !terminated(turned)) {
    word_ = next;
    return;
  }
  while (!terminated(turned) && !word_.compare_exchange_weak(turned, next)) {
  }
}

// ---------------------------------------------------------------- waiting

int Phaser::await_advance(int phase) {
  refuse_inside_on_advance();
  if (phase >= 0 && view_of(word_) == phase) {
    wait(phase, false, Time());
  }
  return phase < 0 ? phase : view_of(word_);
}

int Phaser::await_advance_interruptibly(int phase, const Time& time) {
  refuse_inside_on_advance();
  if (phase >= 0 && view_of(word_) == phase) {
    wait(phase, true, time);
  }
  return phase < 0 ? phase : view_of(word_);
}

/// Until the phase has ended. It has a node on the stack whenever it parks.
void Phaser::wait(int phase, bool interruptibly, const Time& time) {
  if (fault == Fault::kNodesUsedAgain) {
    release_one_by_one();  // so nobody of a phase before is left below
  }
  Node* node = fault == Fault::kNodesUsedAgain ? Node::of_own() : new Node();
  node->phase = phase;
  bool parked = false;
  while (fault == Fault::kWokenBeforeTheMark && parked ? bool(node->queued) : view_of(word_) == phase) {
    if (interruptibly && Thread::current().clear_interrupted()) {
      leave(node);
      throw Interrupted();
    }
    if (time.is_over() && view_of(word_) == phase) {  // else the phase ended in time, behind the look above
      leave(node);
      throw TimedOut();
    }
    if (!node->queued) {
      push(node);
      if (fault != Fault::kCheckPushPark) {
        continue;  // the phase may have ended before that
      }
    }
    node->parker.park(interruptibly, time);
    parked = true;
    if (fault == Fault::kParkOnce && !Thread::current().is_interrupted() && !time.is_over()) {
      break;
    }
  }
  node->let_go();
  if (fault == Fault::kNodesUsedAgain) {
    release_one_by_one();
  }
}

/// The waiter goes before the phase ends, and its node stays on the stack. When these are many, all are woken: whoever waits comes
/// back with its node.
void Phaser::leave(Node* node) {
  const bool sweeps = node->queued && fault != Fault::kLeftOnTheStack && fault != Fault::kFreedWhileQueued;
  node->leave();
  if (sweeps && ++left_ % kMostLeft == 0) {
    release_all();
  }
}

void Phaser::push(Node* node) {
  node->queued = true;
  node->owners += 1;
  Node* first = waiters_;
  do {
    node->next = first;
  } while (!waiters_.compare_exchange_weak(first, node));
}

/// Wakes all. A node is its waiter's again once it isn't queued: its successor is read before.
void Phaser::release_all() {
  if (fault == Fault::kNodesUsedAgain || fault == Fault::kTakenOffByComparing) {
    return release_one_by_one();
  }
  const int most = fault == Fault::kSixteenAreWoken ? 16 : kMostParties;
  int count = 0;
  for (Node* node = waiters_.exchange(nullptr); node; count++) {
    Node* next = node->next;
    if (fault == Fault::kWokenBeforeTheMark) {
      node->parker.unpark();
    }
    if (fault != Fault::kQueuedForGood) {
      node->queued = false;
    }
    if (fault == Fault::kOwnerReadAfterLettingGo) {
      node->let_go();
    }
    if (count < most && fault != Fault::kWokenBeforeTheMark) {
      node->parker.unpark();
    }
    if (fault != Fault::kOwnerReadAfterLettingGo) {
      node->let_go();
    }
    node = next;
  }
}

/// Takes off whoever is first, as long as that is first. Meanwhile another may take it off, and its place in memory may be the
/// first anew, above others than before: a waiter uses its node again, or deletes it, and the next one gets its memory. If it is
/// woken before it is taken off, that is much more likely.
void Phaser::release_one_by_one() {
  const bool wakes_first = fault == Fault::kNodesUsedAgain;  // and leaves those who await the present phase
  for (Node* node = waiters_; node && !(wakes_first && node->phase == view_of(word_)); node = waiters_) {
    Node* const next = node->next;
    Node* first = node;
    if (wakes_first) {
      node->parker.unpark();
    }
    if (waiters_.compare_exchange_strong(first, next)) {
      node->queued = false;
      if (!wakes_first) {
        node->parker.unpark();
      }
      node->let_go();
    }
  }
}

void Phaser::refuse_inside_on_advance() const {
  if (runner_.load(std::memory_order_relaxed) == &Thread::current()) {
    throw IllegalState();
  }
}

// ---------------------------------------------------------------- termination and getters

void Phaser::force_termination() {
  if (fault == Fault::kForceByStoring) {
    word_ = word_ | kTerminated;
  } else {
    word_ |= kTerminated;
  }
  release_all();
}

bool Phaser::is_terminated() const { return terminated(word_); }

int Phaser::phase() const { return view_of(word_); }

int Phaser::registered_parties() const { return parties_of(word_); }

int Phaser::arrived_parties() const {
  const Word word = word_;
  return terminated(word) ? parties_of(word) : parties_of(word) - (empty(word) ? 0 : static_cast<int>(word & kUnarrived));
}

int Phaser::unarrived_parties() const {
  const Word word = word_;
  return terminated(word) || empty(word) ? 0 : static_cast<int>(word & kUnarrived);
}
