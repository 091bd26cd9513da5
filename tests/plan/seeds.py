"""The choices by a seed, by the generator as its authors describe it (PCG, XSH RR 64/32), among threads that can always go on:
word k picks the one of this number, counted from 0, in the remainder by how many they are.
    seeds.py SEED COUNT THREADS"""
import itertools
import sys

seed, count, threads = map(int, sys.argv[1:])
MULTIPLIER, INCREMENT, MASK = 6364136223846793005, 1, 2**64 - 1


def words(seed):
    state = ((seed + INCREMENT) * MULTIPLIER + INCREMENT) & MASK
    while True:
        shifted = (((state >> 18) ^ state) >> 27) & 0xFFFFFFFF
        turns = state >> 59
        yield (shifted >> turns | shifted << (-turns & 31)) & 0xFFFFFFFF
        state = (state * MULTIPLIER + INCREMENT) & MASK


chosen = (word % threads for word in itertools.islice(words(seed), count))
runs = ((thread, len(list(same))) for thread, same in itertools.groupby(chosen))
print(" ".join(f"t{thread}" + (f"*{times}" if times > 1 else "") for thread, times in runs))
