"""A Phaser over one `threading.Condition` for each tree, as docs/BEHAVIOUR.md has it, headings "Phaser" and below.

The trees are small and the rules plain, so nothing here is clever: a call takes the tree's lock, does all that
follows from it, and notifies everybody where a phase has ended. `onAdvance` alone runs without the lock.
"""

import time

import points
from threads import IllegalArgument, IllegalState, Interrupted, TimedOut, current

MAX_PARTIES = 65535
MAX_PHASE = 2147483647


class _Tree:
    """What the phasers of a tree have in common: the phase, whether it is terminated, the lock."""

    def __init__(self, first_phase):
        self.changed = points.Condition()
        self.phase = first_phase
        self.terminated = False
        self.turned = False         # the root: all have arrived, or the last has left, and the phase hasn't ended
        self.runner = None          # the thread inside `onAdvance`
        self.phasers = []

    def view(self):
        return self.phase - MAX_PHASE - 1 if self.terminated else self.phase

    def end_phase(self, terminates):
        """The end of a phase; where a forced termination came first there is nothing left to end."""
        if self.terminated:
            return
        self.phase = 0 if self.phase == MAX_PHASE else self.phase + 1
        self.terminated = terminates
        self.turned = False
        for phaser in self.phasers:
            phaser._unarrived = phaser._parties
        self.changed.notify_all()


class Phaser:
    def __init__(self, parent=None, parties=0, first_phase=0):
        if not 0 <= parties <= MAX_PARTIES:
            raise IllegalArgument
        self._parent = parent
        self._root = self if parent is None else parent._root
        self._tree = _Tree(first_phase) if parent is None else parent._tree
        self._parties = 0
        self._unarrived = 0
        self._tree.phasers.append(self)
        if parties > 0:
            self.bulk_register(parties)

    def on_advance(self, phase, parties):
        """Asked of a root when all have arrived: whether the phaser terminates."""
        return parties == 0

    # ---------------------------------------------------------------- registering

    def register(self):
        return self.bulk_register(1)

    def bulk_register(self, count):
        with self._tree.changed:
            self._refuse_inside_on_advance()
            if count < 0:
                raise IllegalArgument
            if count == 0:
                return self._tree.view()
            while not self._tree.terminated:
                joining = self._joining(count)
                if any(phaser._parties + more > MAX_PARTIES for phaser, more in joining):
                    raise IllegalState
                if not any(phaser._is_turned() for phaser, _ in joining):
                    for phaser, more in joining:
                        phaser._parties += more
                        phaser._unarrived += more
                    break
                self._tree.changed.wait()       # held until the phase has ended
            return self._tree.view()

    def _joining(self, count):
        """The phasers that a registration changes, each with the parties it gets: an empty one joins its parent."""
        joining = [(self, count)]
        while joining[-1][0]._parties == 0 and joining[-1][0]._parent is not None:
            joining.append((joining[-1][0]._parent, 1))
        return joining

    def _is_turned(self):
        if self._parent is None:
            return self._tree.turned
        return self._parties > 0 and self._unarrived == 0

    # ---------------------------------------------------------------- arriving

    def arrive(self):
        return self._arrive(leaves=False)

    def arrive_and_deregister(self):
        return self._arrive(leaves=True)

    def arrive_and_await_advance(self):
        return self.await_advance(self.arrive())

    def _arrive(self, leaves):
        tree = self._tree
        with tree.changed:
            self._refuse_inside_on_advance()
            if tree.terminated:
                return tree.view()
            phase = tree.phase
            for phaser, departs in self._arriving(leaves):
                phaser._unarrived -= 1
                if departs:
                    phaser._parties -= 1
                if phaser is self._root and phaser._unarrived == 0:
                    tree.turned = True
                    tree.runner = current()
            if tree.runner is not current():
                return phase
            parties = self._root._parties
        self._advance(phase, parties)
        return phase

    def _arriving(self, leaves):
        """The phasers that an arrival changes, each with whether a party departs from it: a complete child arrives
        at its parent, and departs from it where its last party departs. Nothing changes where one is refused."""
        arriving, phaser = [], self
        while phaser is not None:
            if phaser._unarrived == 0:
                raise IllegalState
            arriving.append((phaser, leaves))
            if phaser._unarrived > 1:
                break
            leaves = leaves and phaser._parties == 1
            phaser = phaser._parent
        return arriving

    def _advance(self, phase, parties):
        """Asks the root, and ends the phase. An exception of `on_advance` ends no phase: the root stays turned."""
        tree, terminates = self._tree, None
        try:
            terminates = self._root.on_advance(phase, parties)
        finally:
            with tree.changed:
                tree.runner = None
                if terminates is not None:
                    tree.end_phase(terminates)

    # ---------------------------------------------------------------- waiting

    def await_advance(self, phase):
        with self._tree.changed:
            self._refuse_inside_on_advance()
            if phase < 0:
                return phase
            while self._tree.view() == phase:
                self._tree.changed.wait()
            return self._tree.view()

    def await_advance_interruptibly(self, phase, nanoseconds=None):
        deadline = None if nanoseconds is None else time.monotonic_ns() + nanoseconds
        with self._tree.changed:
            self._refuse_inside_on_advance()
            if phase < 0:
                return phase
            while self._tree.view() == phase:
                if current().clear_interrupted():
                    raise Interrupted
                left = None if deadline is None else (deadline - time.monotonic_ns()) / 1e9
                if left is not None and left <= 0:
                    raise TimedOut
                current().wait_interruptibly(self._tree.changed, left)
            return self._tree.view()

    def _refuse_inside_on_advance(self):
        if self._tree.runner is current():
            raise IllegalState

    # ---------------------------------------------------------------- termination and getters

    def force_termination(self):
        with self._tree.changed:
            self._tree.terminated = True
            self._tree.changed.notify_all()

    def is_terminated(self):
        return self._tree.terminated

    def phase(self):
        with self._tree.changed:
            return self._tree.view()

    def registered_parties(self):
        return self._parties

    def arrived_parties(self):
        with self._tree.changed:
            return self._parties if self._tree.terminated else self._parties - self._unarrived

    def unarrived_parties(self):
        with self._tree.changed:
            return 0 if self._tree.terminated else self._unarrived

    def parent(self):
        return self._parent

    def root(self):
        return self._root
