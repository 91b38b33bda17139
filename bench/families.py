#!/usr/bin/env python3
"""families.py FAMILY SIZE SEED: writes a contested instance of a family.

overlapping  one pass: a strip comes into view every 30 ticks and its windows are 5 to 8 strips wide; about half of the strips
             fit, some come in stereo pairs
tight        the same, with all windows clipped at the end of the pass, where most strips compete
wide         a short pass: a strip comes into view every 16 ticks, and all windows are as wide as half the pass

The numbers are drawn as `make` draws them, so an instance is fixed by its family, size and seed, whatever the Python.
"""
import sys

class Draws:
    """Numbers drawn one after another from a seed."""

    def __init__(self, seed):
        self.state = seed % 2**32

    def below(self, n):
        self.state = (1664525 * self.state + 1013904223) % 2**32
        return self.state // 65536 % n


def instance(size, seed, step, width, more, clip=False):
    """An instance text: a strip comes into view every `step` ticks, and windows are `width` to `width + more` ticks wide."""
    draws = Draws(2654435761 * (seed + 1) + size)
    requests, twins = [], []  # of each strip, its request and its twin
    gains = []
    while len(requests) < size:
        count = min(size - len(requests), 1 + draws.below(6))
        first = len(requests)
        requests += [len(gains)] * count
        twins += [None] * count
        if count > 1 and draws.below(2) == 0:  # two strips of it are a stereo pair, as far apart as the request allows
            twins[first], twins[first + count - 1] = first + count - 1, first
        gains.append(5 + draws.below(96))
    lines = ["orbit 1", f"requests {len(gains)}", *(f"r {gain}" for gain in gains), f"strips {size}"]
    across = []
    for i in range(size):
        area = 5 + draws.below(96)
        across.append(draws.below(61))
        duration = 18 + draws.below(22)
        windows = []
        for direction in (0, 1):
            early = step * i + draws.below(step)
            late = early + width + draws.below(more + 1)
            if clip:
                late = min(late, step * size)
            if direction == 1 and twins[i] is None and draws.below(8) == 0:
                early, late = 1, 0
            windows += [early, late, duration]
        lines.append(f"s {requests[i]} {'-' if twins[i] is None else twins[i]} {area} {' '.join(map(str, windows))}")
    lines.append("manoeuvres")
    for x in range(2 * size):
        row = []
        for y in range(2 * size):
            turn = 6 if x % 2 != y % 2 else 0
            row.append(0 if x // 2 == y // 2 else 9 + abs(across[x // 2] - across[y // 2]) + turn)
        lines.append(" ".join(map(str, row)))
    return "\n".join([*lines, "end", ""])


FAMILIES = {
    "overlapping": lambda size, seed: instance(size, seed, 30, 150, 90),
    "tight": lambda size, seed: instance(size, seed, 30, 150, 90, clip=True),
    "wide": lambda size, seed: instance(size, seed, 16, 8 * size, 4 * size),
}

if __name__ == "__main__":
    if len(sys.argv) != 4 or sys.argv[1] not in FAMILIES or not all(word.isdecimal() for word in sys.argv[2:]):
        sys.exit(f"usage: families.py {'|'.join(FAMILIES)} SIZE SEED")
    sys.stdout.write(FAMILIES[sys.argv[1]](int(sys.argv[2]), int(sys.argv[3])))
