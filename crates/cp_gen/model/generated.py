#!/usr/bin/env python3
"""Prints the script of a seed and a count: model/generated.py SEED COUNT"""
import sys


def script(seed, count):
    state, there, new, pending = seed, [], 0, 0
    for _ in range(count):
        state = (state * 6364136223846793005 + 1442695040888963407) % 2**64
        r = state // 2**33
        size = len(there)
        if size < 4 or r % 4 == 0:
            yield f"ins {{e{new} : {{}}}} into T"
            there.append(new)
            new += 1
        elif r % 4 == 1:
            yield f"copy G/g{r // 4 % 10} into T/e{there[r // 64 % size]}"
        elif r % 4 == 2:
            yield f"copy T/e{there[r // 4 % size]} into T/e{there[r // 65536 % size]}"
        else:
            yield f"del e{there.pop(r // 4 % size)} from T"
        pending += 1
        if pending == 10:
            yield "commit"
            pending = 0
    if pending:
        yield "commit"


if __name__ == "__main__":
    for statement in script(int(sys.argv[1]), int(sys.argv[2])):
        print(statement + ";")
