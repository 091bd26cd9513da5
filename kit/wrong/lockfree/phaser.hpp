// A phaser without tiers and without a lock, as docs/BEHAVIOUR.md has it, and, where the environment names one in FAULT, with
// one of the faults that such a phaser comes to.
#pragma once

#include <atomic>
#include <cstdint>
#include <memory>

#include "points.hpp"
#include "threads.hpp"

/// What is wrong with it.
enum class Fault {
  kNone,
  kCheckPushPark,
  kParkOnce,
  kRegisterByAdding,
  kArriveBySubtracting,
  kAdvanceInTwoSteps,
  kForceByStoring,
  kStaleAnswer,
  kSixteenAreWoken,
  kNodesUsedAgain,
  kPhaseBeforeCounts,
  kEndByStoring,
  kTakenOffByComparing,
  kQueuedForGood,
  kRegisterByStoring,
  kEmptyBeforeOnAdvance,
  kOwnerReadAfterLettingGo,
  kWokenBeforeTheMark,
  kFreedWhileQueued,
  kPermitIsKept,
  kLeftOnTheStack,
};

/// All its numbers are one word (docs/FORMATS.md, "Packed word"), which calls exchange by comparing. Who waits pushes a node
/// onto a stack, looks once more, and parks; who ends a phase takes the whole stack, and wakes them all.
class Phaser {
 public:
  /// There is no child: `parent` is null.
  Phaser(Phaser* parent, int parties, int first_phase);
  virtual ~Phaser();

  Phaser(const Phaser&) = delete;
  Phaser& operator=(const Phaser&) = delete;

  int register_party() { return bulk_register(1); }
  int bulk_register(int count);

  int arrive() { return arrive(false); }
  int arrive_and_deregister() { return arrive(true); }
  int arrive_and_await_advance() { return await_advance(arrive()); }

  int await_advance(int phase);
  int await_advance_interruptibly(int phase, const Time& time);

  void force_termination();
  bool is_terminated() const;
  int phase() const;
  int registered_parties() const;
  int arrived_parties() const;
  int unarrived_parties() const;
  Phaser* parent() const { return nullptr; }
  Phaser* root() { return this; }

 protected:
  virtual bool on_advance(int phase, int parties);

 private:
  using Word = std::uint64_t;
  struct Node;

  int arrive(bool leaves);
  void advance(int phase, int parties);
  void end_phase(Word turned, bool terminates);
  void wait(int phase, bool interruptibly, const Time& time);
  void leave(Node* node);
  void push(Node* node);
  void release_all();
  void release_one_by_one();
  void refuse_inside_on_advance() const;

  points::Atomic<Word> word_;
  points::Atomic<Node*> waiters_{nullptr};
  std::atomic<int> left_{0};                 // how many nodes have stayed when their waiters left
  points::Atomic<Thread*> runner_{nullptr};  // the thread inside `on_advance`
};
