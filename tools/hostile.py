#!/usr/bin/env python3
"""hostile.py PROGRAM [LABELS]: how long `check` takes on logs that somebody wrote to make it slow, beside an honest log, and how much
memory the readers take for texts that announce more than they have.

Each such log has LABELS labels (100,000 unless said otherwise) on 64 alike strips, of which all can be acquired, so the log is a proof
and all its rules are tested. Prints a line for each text: what it is, its size, what comes of it, seconds, and the greatest memory. Its
status is 0 where each of these logs is accepted and takes, for its size, at most ten times as long as the honest one, and each
announcing text takes at most as much memory as the bounds below allow.
"""
import random
import subprocess
import sys
import tempfile
from pathlib import Path

STRIPS = 64
LAST = 2 * (STRIPS - 1)  # when the last of them starts, in a row
HALF = STRIPS // 2
MIB = 1 << 20
# Memory that a run may take: so much in any case, and so many bytes for each byte of its input.
ANY_RUN, BYTES_A_BYTE = 16 * MIB, 10
SLOWER = 10


# A process of its own, since the greatest memory of a child begins with that of who starts it, and this one holds long texts.
RUNNER = """
import os, sys, time
began = time.monotonic()
child = os.posix_spawn(sys.argv[1], sys.argv[1:], os.environ)
_, status, usage = os.wait4(child, 0)
print(os.waitstatus_to_exitcode(status), time.monotonic() - began, usage.ru_maxrss * 1024, file=sys.stderr)
"""


def run(program, words, text):
    """Status, output, seconds and greatest memory in bytes of a run on a text."""
    with tempfile.TemporaryFile() as given, tempfile.TemporaryFile() as said:
        given.write(text.encode())
        given.seek(0)
        done = subprocess.run([sys.executable, "-S", "-E", "-c", RUNNER, program, *words], stdin=given, stdout=said,
                              stderr=subprocess.PIPE, check=True)
        status, seconds, memory = done.stderr.split()[-3:]
        said.seek(0)
        return int(status), said.read().decode(), float(seconds), int(memory)


# --- Logs on alike strips: each takes a tick, with a tick from one to the next, in one direction

def instance(late):
    """The instance in which each of the strips can start up to this tick."""
    row = [" ".join("0" if x // 2 == y // 2 else "1" for y in range(2 * STRIPS)) for x in range(2 * STRIPS)]
    strips = [f"s 0 - 1 0 {late} 1 1 0 1"] * STRIPS
    return "\n".join(["orbit 1", "requests 1", "r 1", f"strips {STRIPS}", *strips, "manoeuvres", *row, "end"]) + "\n"


def path(strips):
    return " ".join(str(2 * strip) for strip in strips)


def orders(strips, count):
    """So many different paths of these strips in other orders."""
    draws, order, found = random.Random(1), list(strips), {}
    while len(found) < count:
        draws.shuffle(order)
        found[path(order)] = None
    return list(found)


def log(cut, forward, backward, marks):
    """The answer that acquires all strips in a row. Its log has these paths, those of one strip before them, which are pruned, and
    these marks, which number the others from 0."""
    ones = [path([strip]) for strip in range(STRIPS)]
    labels = [f"F {p}" for p in ones + forward] + [f"B {p}" for p in ones + backward]
    pruned = [f"C {side} {k}" for side in "FB" for k in range(STRIPS)]
    more = [" ".join([kind, side, *(str(STRIPS + k) for k in names)]) for kind, side, *names in marks]
    plan = [f"{2 * k} {k} 0" for k in range(STRIPS)]
    return "\n".join(["Optimal", f"gain {20 * STRIPS}/20", f"strips {STRIPS}", *plan, f"labels {len(labels)}", "log", f"cut {cut}",
                      *labels, *pruned, *more, "end"]) + "\n"


def last_strips(count):
    """Paths that differ in their last strips alone, all pruned."""
    paths = [f"{front} {2 * strip}" for front in orders(range(8), -(-count // (STRIPS - 8))) for strip in range(8, STRIPS)]
    return instance(LAST) + log(LAST // 2 - 1, paths, [], [("C", "F", k) for k in range(len(paths))])


def long_paths(count):
    """Paths of all strips."""
    return instance(10**6) + log(10**6 // 2, orders(range(STRIPS), count), [], [])


def chain(count):
    """Paths of the same strips with the same last, each retired by the next one, and the last one pruned."""
    paths = [f"{front} {2 * 11}" for front in orders(range(11), count)]
    marks = [("R", "F", k, k + 1) for k in range(count - 1)]
    return instance(LAST) + log(LAST // 2 - 1, paths, [], marks + [("C", "F", count - 1)])


def joins(count):
    """Paths of one half of the strips on either side, of which each joins with each for just the gain of the plan."""
    return instance(LAST) + log(LAST // 2 - 1, orders(range(HALF), count // 2), orders(range(HALF, STRIPS), count // 2), [])


HOSTILE = {"paths that differ in the last strip": last_strips, "paths of all strips": long_paths,
           "a chain of retirements": chain, "labels that all join": joins}


def honest(program):
    """An instance of the benchmark with the log that the program writes for it."""
    families = Path(__file__).resolve().parent.parent / "bench" / "families.py"
    made = subprocess.run([sys.executable, "-B", families, "wide", "22", "1"], stdout=subprocess.PIPE, check=True).stdout.decode()
    return made + run(program, ["solve"], made)[1]


# --- Texts that announce more than they have

ONE = "orbit 1\nrequests 1\nr 1\nstrips 1\ns 0 - 1 10 10 5 1 0 5\nmanoeuvres\n0 0\n0 0\nend\n"
FRONT = "Optimal\ngain 20/20\nstrips 1\n10 0 0\nlabels "
ANNOUNCING = {
    "labels 2000000 without a label": (["check"], ONE + FRONT + "2000000\nlog\ncut 7\nend\n"),
    "a mark of label 1999999": (["check"], ONE + FRONT + "1\nlog\ncut 7\nB 0\nC B 1999999\nend\n"),
    "strips 64 without a strip": (["solve"], "orbit 1\nrequests 64\n" + "r 1\n" * 64 + "strips 64\n"),
    "a plan of 64 strips without a strip": (["score"], ONE + "strips 64\n"),
    "16 MiB of labels": (["check"], ONE + FRONT + "2000000\nlog\ncut 7\n" + "B 0\n" * (4 * MIB)),
    "16 MiB of marks": (["check"], ONE + FRONT + "1\nlog\ncut 7\nB 0\n" + "C B 0\n" * (8 * MIB // 3)),
    "16 MiB of paths": (["check"], ONE + FRONT + "2000000\nlog\ncut 7\n" + ("B" + " 0" * 64 + "\n") * (16 * MIB // 130)),
    "16 MiB of blanks before an instance": (["solve"], " " * (16 * MIB - len(ONE) - 1) + "\n" + ONE),
    "16 MiB of blanks in a plan": (["score"], ONE + "strips 1\n" + " " * (16 * MIB)),
}


def report(name, text, found):
    status, said, seconds, memory = found
    line = said.split("\n", 1)[0]
    print(f"{name}: {len(text) / MIB:.1f} MiB, {line}, {seconds:.2f} s, {memory / MIB:.0f} MiB", flush=True)


def main():
    if len(sys.argv) not in (2, 3):
        sys.exit("usage: hostile.py PROGRAM [LABELS]")
    program, count = str(Path(sys.argv[1]).resolve()), int(sys.argv[2]) if len(sys.argv) == 3 else 100_000
    text = honest(program)
    found = run(program, ["check"], text)
    report("an honest log", text, found)
    pace = found[2] / len(text)
    fine = found[1].startswith("accepted")
    for name, make in HOSTILE.items():
        text = make(count)
        found = run(program, ["check"], text)
        if found[2] > SLOWER * pace * len(text):
            found = run(program, ["check"], text)  # the machine may have paused
        report(name, text, found)
        fine &= found[1].startswith("accepted") and found[2] <= SLOWER * pace * len(text)
    for name, (words, text) in ANNOUNCING.items():
        found = run(program, words, text)
        report(name, text, found)
        fine &= found[3] <= ANY_RUN + BYTES_A_BYTE * len(text)
    return 0 if fine else 1


if __name__ == "__main__":
    sys.exit(main())
