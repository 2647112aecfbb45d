#!/usr/bin/env python3
"""Writes an array file of so many entries, the same each time: generate.py ENTRIES FILE

The entries are drawn by a linear congruential generator from a pool of 65,536 values, which it drew before. Of a
thousand values some 700 are answers and readings from 0 to 999, 200 are up to 100,000 in size, 99 up to 10^9, and one
is up to 10^11; of all but the first kind half are negative, so a total stays far below 2^47 in size.
"""
import sys

COLUMNS = 10
POOL = 1 << 16
MASK = (1 << 31) - 1


def following(state):
    return (state * 1103515245 + 12345) & MASK


def pool_of_values():
    state = 1

    def below(limit):
        # (the low bits of such a generator repeat soon, so two draws give the high bits of one number)
        nonlocal state
        first = following(state)
        state = following(first)
        return ((first >> 8) << 23 | state >> 8) % limit

    def value():
        kind = below(1000)
        if kind < 700:
            return below(1000)
        limit = 100_000 if kind < 900 else 10**9 if kind < 999 else 10**11
        return below(2 * limit + 1) - limit

    return [value() for _ in range(POOL)]


def main(count, name):
    if count <= 0 or count % COLUMNS:
        sys.exit(f"generate.py: {count} entries do not fill {COLUMNS} columns")
    texts = [f"{it}\n" for it in pool_of_values()]
    state = 20
    with open(name, "w", encoding="ascii", newline="\n") as file:
        file.write(f"%%MatrixMarket matrix array integer general\n{count // COLUMNS} {COLUMNS}\n")
        while count:
            block = min(count, 1 << 20)
            file.write("".join([texts[(state := (state * 1103515245 + 12345) & MASK) >> 15] for _ in range(block)]))
            count -= block


if __name__ == "__main__":
    if len(sys.argv) != 3 or not sys.argv[1].isdigit():
        sys.exit("usage: generate.py ENTRIES FILE")
    main(int(sys.argv[1]), sys.argv[2])
