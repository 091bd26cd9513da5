#include "phaser.hpp"

#include <algorithm>
#include <limits>

namespace {

constexpr int kMostParties = 65535;
constexpr int kLastPhase = std::numeric_limits<int>::max();

}  // namespace

/// What the phasers of a tree have in common.
struct Phaser::Tree {
  const std::shared_ptr<Monitor> monitor = std::make_shared<Monitor>();
  int phase;
  bool terminated = false;
  bool turned = false;       // of the root: all have arrived, or the last has left, and the phase hasn't ended
  Thread* runner = nullptr;  // the thread inside `on_advance`
  std::vector<Phaser*> phasers;

  explicit Tree(int first_phase) : phase(first_phase) {}

  std::unique_lock<points::Mutex> lock() { return std::unique_lock<points::Mutex>(monitor->mutex); }

  int view() const { return terminated ? phase - kLastPhase - 1 : phase; }

  /// The end of a phase; where a forced termination came first there is nothing left to end.
  void end_phase(bool terminates) {
    if (terminated) {
      return;
    }
    phase = phase == kLastPhase ? 0 : phase + 1;
    terminated = terminates;
    turned = false;
    for (Phaser* phaser : phasers) {
      phaser->unarrived_ = phaser->parties_;
    }
    monitor->changed.notify_all();
  }
};

/// A phaser that a call changes: the parties that it gets, or whether a party that arrives there departs, too.
struct Phaser::Change {
  Phaser* phaser;
  int more;
  bool departs;
};

Phaser::Phaser(Phaser* parent, int parties, int first_phase)
    : parent_(parent), root_(parent ? parent->root_ : this), tree_(parent ? parent->tree_ : std::make_shared<Tree>(first_phase)) {
  if (parties < 0 || parties > kMostParties) {
    throw IllegalArgument();
  }
  {
    auto lock = tree_->lock();
    tree_->phasers.push_back(this);
  }
  try {
    if (parties > 0) {
      bulk_register(parties);
    }
  } catch (...) {  // there is no room in the parent
    auto lock = tree_->lock();
    tree_->phasers.erase(std::find(tree_->phasers.begin(), tree_->phasers.end(), this));
    throw;
  }
}

bool Phaser::on_advance(int, int parties) { return parties == 0; }

// ---------------------------------------------------------------- registering

int Phaser::bulk_register(int count) {
  auto lock = tree_->lock();
  refuse_inside_on_advance();
  if (count < 0) {
    throw IllegalArgument();
  }
  while (count > 0 && !tree_->terminated) {
    const std::vector<Change> changes = joining(count);
    bool held = false;
    for (const Change& change : changes) {
      if (change.phaser->parties_ > kMostParties - change.more) {
        throw IllegalState();
      }
      held = held || change.phaser->is_turned();
    }
    if (!held) {
      for (const Change& change : changes) {
        change.phaser->parties_ += change.more;
        change.phaser->unarrived_ += change.more;
      }
      break;
    }
    tree_->monitor->changed.wait(lock);  // until the phase has ended
  }
  return tree_->view();
}

/// The phasers that a registration changes: one that is empty joins its parent.
std::vector<Phaser::Change> Phaser::joining(int count) {
  std::vector<Change> changes{{this, count, false}};
  for (Phaser* at = this; at->parties_ == 0 && at->parent_; at = at->parent_) {
    changes.push_back({at->parent_, 1, false});
  }
  return changes;
}

bool Phaser::is_turned() const { return parent_ ? parties_ > 0 && unarrived_ == 0 : tree_->turned; }

// ---------------------------------------------------------------- arriving

int Phaser::arrive(bool leaves) {
  int phase;
  int parties;
  {
    auto lock = tree_->lock();
    refuse_inside_on_advance();
    if (tree_->terminated) {
      return tree_->view();
    }
    phase = tree_->phase;
    for (const Change& change : arriving(leaves)) {
      change.phaser->unarrived_ -= 1;
      change.phaser->parties_ -= change.departs ? 1 : 0;
      tree_->turned = tree_->turned || (change.phaser == root_ && root_->unarrived_ == 0);
    }
    if (!tree_->turned || root_->unarrived_ > 0 || tree_->runner) {
      return phase;
    }
    tree_->runner = &Thread::current();
    parties = root_->parties_;
  }
  advance(phase, parties);
  return phase;
}

/// The phasers that an arrival changes: a complete child arrives at its parent, and departs from it where its last party
/// departs. Nothing changes where one of them waits for nobody.
std::vector<Phaser::Change> Phaser::arriving(bool leaves) {
  std::vector<Change> changes;
  for (Phaser* at = this; at; at = at->parent_) {
    if (at->unarrived_ == 0) {
      throw IllegalState();
    }
    changes.push_back({at, 0, leaves});
    if (at->unarrived_ > 1) {
      break;
    }
    leaves = leaves && at->parties_ == 1;
  }
  return changes;
}

/// Asks the root, and ends the phase. An exception of `on_advance` ends no phase: the root stays turned.
void Phaser::advance(int phase, int parties) {
  bool terminates;
  try {
    terminates = root_->on_advance(phase, parties);
  } catch (...) {
    auto lock = tree_->lock();
    tree_->runner = nullptr;
    throw;
  }
  auto lock = tree_->lock();
  tree_->runner = nullptr;
  tree_->end_phase(terminates);
}

// ---------------------------------------------------------------- waiting

int Phaser::await_advance(int phase) {
  auto lock = tree_->lock();
  refuse_inside_on_advance();
  if (phase < 0) {
    return phase;
  }
  while (tree_->view() == phase) {
    tree_->monitor->changed.wait(lock);
  }
  return tree_->view();
}

int Phaser::await_advance_interruptibly(int phase, const Time& time) {
  auto lock = tree_->lock();
  refuse_inside_on_advance();
  if (phase < 0) {
    return phase;
  }
  while (tree_->view() == phase) {
    if (Thread::current().clear_interrupted()) {
      throw Interrupted();
    }
    if (time.is_over()) {
      throw TimedOut();
    }
    Thread::current().wait(tree_->monitor, lock, time);
  }
  return tree_->view();
}

void Phaser::refuse_inside_on_advance() const {
  if (tree_->runner == &Thread::current()) {
    throw IllegalState();
  }
}

// ---------------------------------------------------------------- termination and getters

void Phaser::force_termination() {
  auto lock = tree_->lock();
  tree_->terminated = true;
  tree_->monitor->changed.notify_all();
}

bool Phaser::is_terminated() const {
  auto lock = tree_->lock();
  return tree_->terminated;
}

int Phaser::phase() const {
  auto lock = tree_->lock();
  return tree_->view();
}

int Phaser::registered_parties() const {
  auto lock = tree_->lock();
  return parties_;
}

int Phaser::arrived_parties() const {
  auto lock = tree_->lock();
  return tree_->terminated ? parties_ : parties_ - unarrived_;
}

int Phaser::unarrived_parties() const {
  auto lock = tree_->lock();
  return tree_->terminated ? 0 : unarrived_;
}
