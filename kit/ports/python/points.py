"""Points: places at which a thread may stand still until others have gone some steps, so that races of two steps come about
(docs/PORTING.md, "Points"). Without POINTS=SEED in the environment a point is one look at a global.

Put Lock and Condition in place of those of threading, and point() before and after whatever else others can see. The adapter
calls begin_list() when a thread begins a list. An interpreter with one lock changes threads every 5 ms, so without points hardly
anything overlaps at all.
"""

import os
import random
import sys
import threading
import time

SEED = os.environ.get("POINTS") or None
if SEED and not (SEED.isascii() and SEED.isdecimal() and len(SEED) <= 20 and int(SEED) < 1 << 64):
    print("POINTS has to be a number, and is", SEED, file=sys.stderr)
    sys.exit(2)
MOST_PASSED = 7             # who stands lets so many points of all threads go by: two to this power at most
MOST_IDLE = 40              # it goes on sooner if nobody passes one from look to look, so often: all others may wait for it
LONGEST = 0.02              # seconds: on a busy machine a look may take long

passed = 0                  # a count that is lost does no harm
threads = 0
own = threading.local()     # chances; left: so many points before it stands; more: so often it stands after that


def chances():
    global threads
    if not hasattr(own, "chances"):
        threads += 1
        own.chances, own.left, own.more = random.Random(f"{SEED} {threads}"), 0, 0
    return own.chances


def some(power):
    """A random number from 1 up to two to this power; of two sizes each comes as often."""
    return chances().randint(1, 2 << chances().randrange(power))


def begin_list():
    """In every other list the thread stands, 2 to 33 times: it falls behind in every call, while others run freely."""
    if SEED is not None:
        own.left, own.more = some(6) if chances().randrange(2) else 0, some(5)


def stand():
    """Until others have passed some points. That isn't a time, so it works on a quiet machine and on a busy one."""
    seen, idle = passed, 0
    until, end = seen + some(MOST_PASSED), time.monotonic() + LONGEST
    while seen < until and idle < MOST_IDLE and time.monotonic() < end:
        time.sleep(20e-6)
        seen, idle = passed, idle + 1 if passed == seen else 0


def point():
    global passed
    if SEED is None:
        return
    chances()
    passed += 1
    if own.left > 0:
        own.left -= 1
        if own.left == 0:
            stand()
            own.left, own.more = some(5) if own.more else 0, max(0, own.more - 1)


class Lock:
    def __init__(self):
        self._lock = threading.Lock()

    def acquire(self, *how):
        point()
        got = self._lock.acquire(*how)
        point()
        return got

    def release(self):
        point()
        self._lock.release()
        point()

    def __enter__(self):
        self.acquire()

    def __exit__(self, *why):
        self.release()


def Condition():
    """Its waits give the lock back, and take it, and so have their points."""
    return threading.Condition() if SEED is None else threading.Condition(Lock())
