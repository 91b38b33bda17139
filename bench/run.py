#!/usr/bin/env python3
"""run.py BINARY [--only TEXT] [--seconds N] [--runs N] [--clock] [--beside COMMAND] [--write FILE] [WORDS ..]

Runs `solve` on the 30 instances of optima.txt, and `check` on what it writes where that has a log, and prints a line for each:
whether the gain is the known optimum, the gain of the first plan in percent of it, the number of labels and its ratio to that
of plain.py, seconds and greatest memory of both. Then come a table by families and sizes, and the sums. Further words are given
to `solve` (by default `--budget 2000000`).

Seconds are processor seconds, user and system together, or with --clock those that passed; the least of --runs N runs (1).
--only TEXT takes the instances with TEXT in their names; --seconds N ends a run after N seconds (600).
--beside COMMAND runs another program on each instance too, in turns with `solve`, and prints the ratio of seconds: an older
`strips solve`, say. What it writes isn't looked at.
--write FILE puts the table into FILE, between the lines `<!-- measured -->` and `<!-- end of measured -->`.

Machines differ and are noisy: compare two programs on one machine and in one run, and look at ratios. Memory below that of
this script, some 15 MiB, shows as that. Exit status 1 where a gain is wrong, `check` rejects, or something else went wrong; an
instance that isn't solved (refused as too great, the budget spent, time over) is no fault, and is told.
"""
import os
import platform
import re
import shlex
import signal
import subprocess
import sys
import tempfile
import time
from collections import namedtuple
from concurrent.futures import ProcessPoolExecutor
from pathlib import Path

from families import FAMILIES

OPTIMA = Path(__file__).resolve().parent / "optima.txt"
BEGIN, END = "<!-- measured -->", "<!-- end of measured -->"


def timed(words, given, wanted, limit):
    """Runs a program from one file to another. Its status (None where the time was over), seconds that passed, processor
    seconds, and greatest memory in MiB."""
    with open(given, "rb") as source, open(wanted, "wb") as sink:
        begin = time.monotonic()
        child = subprocess.Popen(words, stdin=source, stdout=sink, stderr=subprocess.DEVNULL)
        over = False
        while True:
            pid, status, usage = os.wait4(child.pid, os.WNOHANG)
            if pid:
                break
            if time.monotonic() - begin > limit and not over:
                over = True
                os.kill(child.pid, signal.SIGKILL)
            time.sleep(0.001)
        passed = time.monotonic() - begin
    child.returncode = os.waitstatus_to_exitcode(status)
    return None if over else child.returncode, passed, usage.ru_utime + usage.ru_stime, usage.ru_maxrss / 1024


class Runner:
    """Runs programs by a process of its own that stays small, since a new process counts the memory of its parent as its own."""

    def __init__(self, options, folder):
        self.limit, self.clock, self.folder = float(options["--seconds"]), options["--clock"], Path(folder)
        self.pool = ProcessPoolExecutor(max_workers=1)
        self.pool.submit(os.getpid).result()  # it starts now

    def run(self, words, given):
        source, sink = self.folder / "given", self.folder / "written"
        source.write_bytes(given)
        status, passed, used, memory = self.pool.submit(timed, words, source, sink, self.limit).result()
        return Run(status, passed if self.clock else used, memory, sink.read_bytes())


# Status (None where the time was over), seconds, greatest memory in MiB, and what was written.
Run = namedtuple("Run", "status seconds memory output")


class Measured:
    """What was measured of one instance. `check` and `other` are None where they weren't run."""

    def __init__(self, known, options, runner, binary, words):
        self.family, self.size, self.seed, self.gain, self.plain = known
        given = FAMILIES[self.family](self.size, self.seed).encode()
        solved, others = [], []
        for _ in range(int(options["--runs"])):
            solved.append(runner.run([binary, "solve", *words], given))
            if options["--beside"]:
                others.append(runner.run(shlex.split(options["--beside"]), given))
        best = quickest(solved)
        first = runner.run([binary, "solve", "--budget", "1"], given)  # it ends with the first plan
        self.first = 100 * gain_in(first.output) / self.gain if first.status in (0, 1) else 0
        self.word, self.fault = outcome(best, self.gain)
        found = re.search(rb"^labels ([0-9]+)$", best.output, re.MULTILINE)
        self.labels = int(found[1]) if found else None
        self.solve, self.check = best._replace(output=None), None
        self.other = quickest(others)._replace(output=None) if others else None
        if self.word == "Optimal" and self.labels is not None:
            self.check = quickest([runner.run([binary, "check"], given + best.output) for _ in solved])
            if self.check.status != 0:
                self.fault = True
                self.word = f"check: {self.check.output.decode().strip() or self.check.status}"

    def line(self):
        columns = [f"{self.family}:{self.size}/{self.seed}".ljust(20), self.word.ljust(16), f"{self.first:6.1f}"]
        columns += ["-".rjust(8), "-".rjust(6)] if self.labels is None else [f"{self.labels:8}", f"{self.labels / self.plain:6.3f}"]
        columns += [f"{run.seconds:8.3f} {run.memory:6.0f}" for run in (self.solve, self.check) if run]
        if self.other:
            columns.append(f"{self.solve.seconds / max(self.other.seconds, 0.001):8.2f}")
        return " ".join(columns)


def quickest(runs):
    return min(runs, key=lambda run: run.seconds)


def known_optima():
    """(family, size, seed, gain, labels that plain.py meets) of each line."""
    for line in OPTIMA.read_text().splitlines():
        if line and not line.startswith("#"):
            family, *numbers = line.split()
            yield (family, *map(int, numbers))


def gain_in(answer):
    return int(re.search(rb"^gain ([0-9]+)/20$", answer, re.MULTILINE)[1])


def outcome(solved, gain):
    """A word for what `solve` wrote, and whether that is a fault."""
    if solved.status is None:
        return "over time", False
    lines = solved.output.decode().split("\n")
    if solved.status not in (0, 1):
        return f"status {solved.status}", True
    written = gain_in(solved.output)
    if lines[0] == "Best":
        return f"Best, {100 * written / gain:.1f} %", written > gain
    return ("Optimal", False) if written == gain else (f"WRONG {written}, not {gain}", True)


def table_of(rows):
    """A table in Markdown: means over the instances of each family and size, and ratios of sums."""
    lines = ["| Family and strips | Instances | Optimal | First plan | Labels | of plain | `solve` s | MiB | `check` s | MiB | check/solve |",
             "|---|---|---|---|---|---|---|---|---|---|---|"]
    for key in dict.fromkeys((row.family, row.size) for row in rows):
        group = [row for row in rows if (row.family, row.size) == key]
        proved = [row for row in group if row.check]
        cells = [f"{key[0]} {key[1]}", str(len(group)), str(len(proved)), f"{sum(row.first for row in group) / len(group):.1f} %"]
        if proved:
            count, labels = len(proved), sum(row.labels for row in proved)
            solve, check = (sum(getattr(row, name).seconds for row in proved) for name in ("solve", "check"))
            cells += [f"{labels / count:,.0f}", f"{labels / sum(row.plain for row in proved):.2f}",
                      f"{solve / count:.3f}", f"{max(row.solve.memory for row in proved):.0f}",
                      f"{check / count:.3f}", f"{max(row.check.memory for row in proved):.0f}", f"{check / max(solve, 0.001):.2f}"]
        lines.append("| " + " | ".join(cells + ["-"] * (11 - len(cells))) + " |")
    return lines


def machine():
    """What kind of machine this is, and how busy."""
    try:
        models = [line.split(":", 1)[1].strip() for line in open("/proc/cpuinfo") if line.startswith("model name")]
    except OSError:
        models = []
    memory = os.sysconf("SC_PAGE_SIZE") * os.sysconf("SC_PHYS_PAGES") / 2**30
    return (f"{models[0] if models else platform.machine()}, {os.cpu_count()} processors, {memory:.0f} GiB, {platform.system()}; "
            f"load average {os.getloadavg()[0]:.1f} at the end")


def take_options(words):
    """The options with their values; they are taken out of the words."""
    options = {"--only": "", "--seconds": "600", "--runs": "1", "--beside": "", "--write": ""}
    for option in options:
        if option in words[:-1]:
            at = words.index(option)
            options[option] = words[at + 1]
            del words[at:at + 2]
    options["--clock"] = "--clock" in words
    words[:] = [word for word in words if word != "--clock"]
    return options


def put_into(path, lines):
    """Replaces what stands between the two lines that mark it."""
    text = path.read_text()
    before, rest = text.split(BEGIN + "\n", 1)
    path.write_text("\n".join([before + BEGIN, *lines, END + rest.split(END, 1)[1]]))


def main():
    if hasattr(signal, "SIGPIPE"):
        signal.signal(signal.SIGPIPE, signal.SIG_DFL)  # `run.py .. | head` ends quietly
    words = sys.argv[1:]
    options = take_options(words)
    if not words or words[0].startswith("--"):
        sys.exit(__doc__.split("\n")[0].replace("run.py", "usage: run.py"))
    binary, *more = words
    more = more or ["--budget", "2000000"]
    print(f"{'instance':20} {'outcome':16} {'first%':>6} {'labels':>8} {'/plain':>6} {'solve s':>8} {'MiB':>6} {'check s':>8} {'MiB':>6}"
          + (" /beside" if options["--beside"] else ""))
    rows = []
    with tempfile.TemporaryDirectory() as folder:
        runner = Runner(options, folder)
        for known in known_optima():
            if options["--only"] in "{}:{}/{}".format(*known):
                rows.append(Measured(known, options, runner, binary, more))
                print(rows[-1].line(), flush=True)
        runner.pool.shutdown()
    seconds = "Seconds that passed" if options["--clock"] else "Processor seconds, user and system"
    lines = ["", *table_of(rows), "", f"{seconds}, the least of {options['--runs']}, with `solve {' '.join(more)}`. {machine()}.", ""]
    print("\n".join(lines))
    if options["--write"]:
        put_into(Path(options["--write"]), lines)
    proved = [row for row in rows if row.check]
    print(f"solve: {len(rows)} runs, {len(proved)} Optimal; together {sum(row.solve.seconds for row in proved):.3f} s and "
          f"check {sum(row.check.seconds for row in proved):.3f} s")
    faults = sum(row.fault for row in rows)
    print(f"{faults} faults")
    return 1 if faults else 0


if __name__ == "__main__":
    sys.exit(main())
