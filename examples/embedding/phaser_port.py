"""A small port of Java's `Phaser`: one phaser, without the calls that wait, and with them. One of each is right, and one has a fault."""
import threading


class IllegalState(Exception):
    pass


class Phaser:
    """Right, as far as these calls go."""

    def __init__(self, parties):
        self.phase = 0
        self.parties = parties
        self.unarrived = parties
        self.terminated = False

    @property
    def view(self):
        return self.phase - 2**31 if self.terminated else self.phase

    def register(self):
        if self.terminated:
            return self.view
        if self.parties == 65535:
            raise IllegalState
        self.parties += 1
        self.unarrived += 1
        return self.phase

    def arrive(self):
        return self._arrive(False)

    def arrive_and_deregister(self):
        return self._arrive(True)

    def force_termination(self):
        self.terminated = True

    def _arrive(self, leaves):
        if self.terminated:
            return self.view
        if self.unarrived == 0:
            raise IllegalState
        phase = self.phase
        self.unarrived -= 1
        if leaves:
            self.parties -= 1
        if self.unarrived == 0:
            self._advance()
        return phase

    def _advance(self):
        self.terminated = self.parties == 0
        self.phase = (self.phase + 1) % 2**31
        self.unarrived = self.parties


class FaultyPhaser(Phaser):
    """The party that leaves is taken away only after the phase has ended, so the next phase waits for it too."""

    def _arrive(self, leaves):
        phase = super()._arrive(False)
        if leaves and not self.terminated:
            self.parties -= 1
        return phase


class WaitingPhaser(Phaser):
    """With the calls that wait, and one lock. Right, as far as these calls go."""

    def __init__(self, parties):
        super().__init__(parties)
        self.moved = threading.Condition()

    def register(self):
        with self.moved:
            return super().register()

    def arrive(self):
        with self.moved:
            return self._arrive(False)

    def arrive_and_deregister(self):
        with self.moved:
            return self._arrive(True)

    def arrive_and_await_advance(self):
        with self.moved:
            return self._await(self._arrive(False))

    def await_advance(self, phase):
        with self.moved:
            return self._await(phase)

    def force_termination(self):
        with self.moved:
            super().force_termination()
            self.moved.notify_all()

    def _await(self, phase):
        if phase < 0:
            return phase
        while self.view == phase:
            self.moved.wait()
        return self.view

    def _advance(self):
        super()._advance()
        self.wake()

    def wake(self):
        self.moved.notify_all()


class ForgetfulPhaser(WaitingPhaser):
    """The end of a phase wakes one of those that wait, and forgets the others."""

    def wake(self):
        self.moved.notify()
