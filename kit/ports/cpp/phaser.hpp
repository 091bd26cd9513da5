// A Phaser over one monitor for each tree, as docs/BEHAVIOUR.md has it, headings "Phaser" and below.
#pragma once

#include <memory>
#include <vector>

#include "threads.hpp"

/// The trees are small and the rules plain, so nothing here is clever: a call takes the tree's lock, does all that follows
/// from it, and notifies everybody where a phase has ended. `on_advance` alone runs without the lock.
class Phaser {
 public:
  /// The child of `parent`, or, where that is null, a root that begins in phase `first_phase`.
  Phaser(Phaser* parent, int parties, int first_phase);
  virtual ~Phaser() = default;

  Phaser(const Phaser&) = delete;
  Phaser& operator=(const Phaser&) = delete;

  int register_party() { return bulk_register(1); }
  int bulk_register(int count);

  int arrive() { return arrive(false); }
  int arrive_and_deregister() { return arrive(true); }
  int arrive_and_await_advance() { return await_advance(arrive()); }

  int await_advance(int phase);
  int await_advance_interruptibly(int phase, const Time& time);

  void force_termination();
  bool is_terminated() const;
  int phase() const;
  int registered_parties() const;
  int arrived_parties() const;
  int unarrived_parties() const;
  Phaser* parent() const { return parent_; }
  Phaser* root() const { return root_; }

 protected:
  /// Asked of a root when all have arrived: whether the phaser terminates.
  virtual bool on_advance(int phase, int parties);

 private:
  struct Tree;
  struct Change;

  int arrive(bool leaves);
  void advance(int phase, int parties);
  std::vector<Change> joining(int count);
  std::vector<Change> arriving(bool leaves);
  bool is_turned() const;
  void refuse_inside_on_advance() const;

  Phaser* const parent_;
  Phaser* const root_;
  const std::shared_ptr<Tree> tree_;
  int parties_ = 0;    // under the tree's lock, as all that follows
  int unarrived_ = 0;
};
