#!/usr/bin/env python3
"""refused_memory.py PROGRAM [--all]: refuses the program's requests for memory in turn, one a run, on small inputs of each command.

Each run must end as the run with ample memory does, or with status 7 and nothing written. With workers the answer may be another
one, so there the run must end with the status and the gain of that run. Without --all it refuses the first, the last and fifty
requests between. Prints a line for each command, with how many requests there are; its status is 0 where nothing failed. Needs a C
compiler (`cc`, or what CC names) for refused_memory.c.
"""
import os
import subprocess
import sys
import tempfile
from pathlib import Path

HERE = Path(__file__).resolve().parent
EXAMPLES = HERE.parent / "examples"
MEMORY = 7
BETWEEN = 50


class Refuser:
    """Runs a program with one refused request for memory."""

    def __init__(self, program, room):
        self.program, self.room = program, Path(room)
        self.library = self.room / "refused_memory.so"
        compiler = os.environ.get("CC", "cc")
        subprocess.run([compiler, "-O1", "-shared", "-fPIC", "-o", self.library, HERE / "refused_memory.c"], check=True)

    def run(self, words, given, number):
        """Status and output where the request with this number is refused (0: none), and how many requests there were."""
        count = self.room / "count"
        count.write_text("0")
        settings = dict(os.environ, LD_PRELOAD=str(self.library), REFUSE=str(number), COUNT=str(count))
        done = subprocess.run([self.program, *words], input=given, env=settings, stdout=subprocess.PIPE, stderr=subprocess.DEVNULL)
        return done.returncode, done.stdout, int(count.read_text())


def chosen(count, every):
    """The numbers of the requests that are refused."""
    if every or count <= BETWEEN + 2:
        return range(1, count + 1)
    return sorted({1, count} | {1 + (count - 1) * k // (BETWEEN + 1) for k in range(1, BETWEEN + 1)})


def is_fine(ample, words, status, output):
    """Whether a run ended as it may, where the run with ample memory ended so."""
    if status == MEMORY:
        return output == b""
    if "--workers" in words:
        return status == ample[0] and output.split(b"\n")[:2] == ample[1].split(b"\n")[:2]
    return (status, output) == ample


def attempt(refuser, words, given, every):
    """Refuses the requests of one command; whether all runs ended as they may."""
    status, output, count = refuser.run(words, given, 0)
    numbers = chosen(count, every)
    wrong, without = [], 0
    for number in numbers:
        found = refuser.run(words, given, number)
        without += found[0] == MEMORY
        if not is_fine((status, output), words, found[0], found[1]):
            wrong.append((number, found[0]))
    print(f"{' '.join(words)}: {count} requests, {len(numbers)} refused in turn, {without} times status {MEMORY}"
          + (f"; wrong: {wrong[:5]}" if wrong else ""))
    return not wrong and count > 0


def cases(program):
    """Words and input of each run."""
    def said(words, given=b""):
        return subprocess.run([program, *words], input=given, stdout=subprocess.PIPE, check=True).stdout

    two = (EXAMPLES / "two_strips.txt").read_bytes()
    one = (EXAMPLES / "one_strip.txt").read_bytes() + (EXAMPLES / "one_strip.answer").read_bytes()
    eight = said(["make", "--seed", "7", "--size", "8"])
    twenty = said(["make", "--seed", "7", "--size", "20"])
    return [
        (["solve"], two),
        (["check"], one),
        (["make", "--seed", "7", "--size", "8"], b""),
        (["solve"], eight),
        (["solve", "--workers", "2"], eight),
        (["check"], twenty + said(["solve"], twenty)),
        (["score"], two + (EXAMPLES / "two_strips.plan").read_bytes()),
        (["trial", "--seed", "7", "--size", "8"], b""),
    ]


def main():
    words = sys.argv[1:]
    every = "--all" in words
    programs = [word for word in words if word != "--all"]
    if len(programs) != 1:
        sys.exit("usage: refused_memory.py PROGRAM [--all]")
    program = str(Path(programs[0]).resolve())
    with tempfile.TemporaryDirectory() as room:
        refuser = Refuser(program, room)
        fine = [attempt(refuser, *case, every) for case in cases(program)]
    return 0 if all(fine) else 1


if __name__ == "__main__":
    sys.exit(main())
