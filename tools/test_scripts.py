#!/usr/bin/env python3
"""test_scripts.py PROGRAM: tests the scripts of tools/ and bench/ with the built program, on the examples and on worked rows.

Prints a line for each test that fails and one with the counts; its status is 0 where nothing failed. tools/test.sh calls it.
"""
import os
import re
import subprocess
import sys
import tempfile
from pathlib import Path
from xml.dom import minidom

import check
import rests_on

TOP = Path(__file__).resolve().parent.parent
sys.path.insert(0, str(TOP / "bench"))
from families import Draws  # noqa: E402: numbers that are the same with every Python
PROGRAM = str(Path(sys.argv[1]).resolve())
SCRATCH = Path(tempfile.mkdtemp())
counts = {True: 0, False: 0}


def report(name, ok, *more):
    counts[bool(ok)] += 1
    if not ok:
        print("failed:", name, *more)


def run(words, given=b""):
    """Status, standard output and standard error of a command."""
    done = subprocess.run(list(map(str, words)), input=given, stdout=subprocess.PIPE, stderr=subprocess.PIPE, cwd=TOP)
    return done.returncode, done.stdout.decode(), done.stderr.decode()


def script(name, *words):
    return run([sys.executable, "-B", TOP / name, *words])


def put(name, text):
    path = SCRATCH / name
    path.write_bytes(text if isinstance(text, bytes) else text.encode())
    return path


def lines(*items):
    return "".join(item + "\n" for item in items)


# --- check.py: an instance of one strip, its answer, and one change of it for each rule

ONE_STRIP = lines("orbit 1", "requests 1", "r 1", "strips 1", "s 0 - 1 10 10 5 1 0 5", "manoeuvres", "0 0", "0 0", "end")
THREE_STRIPS = lines("orbit 1", "requests 1", "r 1", "strips 3", *["s 0 - 1 0 100 5 1 0 5"] * 3, "manoeuvres",
                     *["0 0 2 2 2 2"] * 2, *["2 2 0 0 2 2"] * 2, *["2 2 2 2 0 0"] * 2, "end")
GOOD = ["Optimal", "gain 20/20", "strips 1", "10 0 0", "labels 1", "log", "cut 7", "B 0", "end"]
NOTHING = ["Optimal", "gain 0/20", "strips 0", "labels 1", "log", "cut 7", "B 0", "end"]
THREE = ["Optimal", "gain 60/20", "strips 3", "0 0 0", "7 1 0", "14 2 0"]


def with_line(answer, number, *new):
    return answer[:number - 1] + list(new) + answer[number:]


CHECKED = [
    ("a good answer", ONE_STRIP, GOOD, "accepted"),
    ("a cut that the bound bears", ONE_STRIP, with_line(GOOD, 9, "C B 0", "end"), "accepted"),
    ("no optimal answer", ONE_STRIP, with_line(GOOD, 1, "Best"), "rejected rule 0 at 1"),
    ("an end that is missing", ONE_STRIP, GOOD[:-1], "rejected rule 0 at 9"),
    ("two blanks", ONE_STRIP, with_line(GOOD, 8, "B  0"), "rejected rule 0 at 8"),
    ("more labels than are announced", ONE_STRIP, with_line(GOOD, 9, "B 0", "end"), "rejected rule 0 at 9"),
    ("more labels than there can be", ONE_STRIP, with_line(GOOD, 5, "labels 2000001"), "rejected rule 0 at 5"),
    ("a line after the end", ONE_STRIP, GOOD + [""], "rejected rule 0 at 10"),
    ("a start outside its window", ONE_STRIP, with_line(GOOD, 4, "11 0 0"), "rejected rule 1 at 0"),
    ("another gain", ONE_STRIP, with_line(GOOD, 2, "gain 19/20"), "rejected rule 2 at 0"),
    ("a label that stands twice", ONE_STRIP, with_line(with_line(GOOD, 5, "labels 2"), 8, "B 0", "B 0"), "rejected rule 3 at 3"),
    ("a closed direction", ONE_STRIP, with_line(GOOD, 8, "B 1"), "rejected rule 3 at 2"),
    ("a cut past the horizon", ONE_STRIP, with_line(GOOD, 7, "cut 1001000000"), "rejected rule 3 at 2"),
    ("a mark of no label", ONE_STRIP, with_line(GOOD, 9, "C F 0", "end"), "rejected rule 4 at 0"),
    ("a label retired by itself", ONE_STRIP, with_line(GOOD, 9, "R B 0 0", "end"), "rejected rule 5 at 0"),
    ("a bound above the gain", ONE_STRIP, with_line(NOTHING, 8, "C B 0", "end"), "rejected rule 6 at 0"),
    ("a label that is cut twice", ONE_STRIP, with_line(GOOD, 9, "C B 0", "C B 0", "end"), "rejected rule 6 at 1"),
    ("an extension that is missing", ONE_STRIP, with_line(with_line(GOOD, 8), 5, "labels 0"), "rejected rule 7 at 1"),
    ("a root that joins to more", ONE_STRIP, NOTHING, "rejected rule 8 at 0"),
    ("fewer labels than are announced", ONE_STRIP, with_line(GOOD, 5, "labels 2000000"), "rejected rule 0 at 9"),
    ("a leading zero", ONE_STRIP, with_line(GOOD, 2, "gain 020/20"), "rejected rule 0 at 2"),
    ("the greatest gain", ONE_STRIP, with_line(GOOD, 2, "gain 1280000000000000/20"), "rejected rule 2 at 0"),
    ("a gain above the greatest", ONE_STRIP, with_line(GOOD, 2, "gain 1280000000000001/20"), "rejected rule 0 at 2"),
    ("a path with a strip twice", ONE_STRIP, with_line(GOOD, 8, "B 0 0"), "rejected rule 3 at 2"),
    ("a path of no strip", ONE_STRIP, with_line(GOOD, 8, "B 2"), "rejected rule 3 at 2"),
    ("a cut of no label", ONE_STRIP, with_line(GOOD, 9, "C B 1", "end"), "rejected rule 4 at 0"),
    ("lines that end with CR LF", ONE_STRIP, [line + "\r" for line in GOOD], "rejected rule 0 at 1"),
    ("labels that retire each other", THREE_STRIPS, [*THREE, "labels 2", "log", "cut 52", "F 0 2 4", "F 2 0 4", "R F 0 1", "R F 1 0", "end"],
     "rejected rule 5 at 1"),
    ("all labels cut", THREE_STRIPS, [*THREE, "labels 6", "log", "cut 52", "F 0", "F 2", "F 4", "B 0", "B 2", "B 4", "C F 0", "C F 1", "C F 2",
                                      "C B 0", "C B 1", "C B 2", "end"], "accepted"),
]


def test_check():
    for name, instance, answer, wanted in CHECKED:
        files = put("instance", instance), put("answer", lines(*answer))
        status, written, _ = script("tools/check.py", *files)
        report(f"check.py: {name}", (status, written.split("\n")[0]) == (0 if wanted == "accepted" else 4, wanted), written)
        said = run([PROGRAM, "check"], (instance + lines(*answer)).encode())
        report(f"check: {name}", said[:2] == (status, written), said)
    report("check.py: no instance", script("tools/check.py", put("instance", "orbit 2\n"), put("answer", lines(*GOOD)))[0] == 3)
    for example in sorted((TOP / "examples").glob("*.txt")):
        _, answer, _ = run([PROGRAM, "solve"], example.read_bytes())
        if "\nlog\n" in answer:
            status, written, _ = script("tools/check.py", example, put("answer", answer))
            report(f"check.py: {example.name}", status == 0, written)


# --- check.py beside check: logs with one change, drawn from a seed

def changed(answer, draws):
    """The lines of an answer with one change: a line taken out, put in or exchanged, or another token."""
    new, at, way = list(answer), draws.below(len(answer) if draws.below(5) else 5), draws.below(6)
    if way == 0:
        del new[at]
        if answer[at][0] in "FB" and answer[at] != "Best":  # the number of labels fits again
            new = [f"labels {int(line.split()[1]) - 1}" if line.startswith("labels") else line for line in new]
    elif way == 1:
        new.insert(draws.below(len(answer)), answer[at])
    elif way == 2:
        other = draws.below(len(answer))
        new[at], new[other] = new[other], new[at]
    else:
        pieces = re.findall("[0-9]+|[^0-9]+", answer[at])
        k = draws.below(len(pieces))
        near = ["0", "1", "2", "3", "4", "5", *(str(int(pieces[k]) + 1 + i) for i in range(6) if pieces[k].isdecimal())]
        pieces[k] = near[draws.below(len(near))] if pieces[k].isdecimal() else ["F ", "B ", " ", "R F ", "C B "][draws.below(5)]
        new[at] = "".join(pieces)
    return new


def by_python(instance, answer):
    """What check.py writes, without a process of its own."""
    try:
        read = check.Answer(answer)
        check.check(instance, read)
    except check.Rejected as fault:
        return "rejected rule {} at {}\n".format(*fault.args)
    return f"accepted\ngain {read.gain}/20\n"


def test_changed_logs():
    draws, seen = Draws(20), set()
    for name in ("one_strip", "two_strips", "stereo_pair", "pass"):
        instance = (TOP / f"examples/{name}.txt").read_text()
        answer = run([PROGRAM, "solve"], instance.encode())[1].split("\n")[:-1]
        for k in range(80):
            new = lines(*changed(answer, draws))
            said = run([PROGRAM, "check"], (instance + new).encode())[1]
            seen.add(said.split(" at ")[0].split("\n")[0])
            report(f"check.py: change {k} of the answer to {name}", by_python(check.Instance(instance), new) == said, said, new)
    # One change of a log that is a proof breaks each rule but 8: its plan is optimal, so nothing joins to more.
    report("check.py: changed logs break each rule", seen >= {f"rejected rule {rule}" for rule in range(8)}, seen)
    for answer in sorted((TOP / "examples").glob("*.answer")):
        status, written, _ = script("tools/check.py", answer.with_suffix(".txt"), answer)
        report(f"check.py: {answer.name}", status == 0 and written.startswith("accepted\n"), written)


# --- explain.py: mistakes in examples/pass.txt and its plan, and what must be said of them

MISTAKES = [
    ("a count that doesn't fit", lambda t: t.replace("strips 8", "strips 9"), "refused 2", "Line 17 announces 9 strips, and the text has 8 lines"),
    ("a row too few", lambda t: re.sub(r"170 162 210 .*\n", "", t), "refused 3", "row 15 of the manoeuvre times (from strip 7, direction 1)"),
    ("a row too few in the middle", lambda t: re.sub(r"52 60 92 100 107 .*\n", "", t), "refused 3", "Line 47 would be row 11, and has 157 165 in place of its own strip's 0 0"),
    ("a row too many", lambda t: re.sub(r"(52 60 92 100 107 .*\n)", r"\1\1", t), "refused 2", "Line 48 would be row 12, and has 165 157 in place"),
    ("a byte order mark", lambda t: "\xef\xbb\xbf" + t[t.index("orbit"):], "refused 2", "byte order mark"),
    ("a token too few", lambda t: t.replace("s 3 - 18 450 640 25 450 640 25", "s 3 - 18 450 640 25 450 640"), "refused 1",
     "The duration in direction 1 is missing. Or one before it is: behind `s` come the request"),
    ("a twin's token that is missing", lambda t: t.replace("s 3 - 18", "s 3 18"), "refused 4", "The line has 9 of 10 tokens: one before it may be missing"),
    ("a comment behind numbers", lambda t: t.replace("r 35", "r 35 # airfield"), "refused 6", "A `#` begins a comment at the beginning of a line alone"),
    ("a decimal point", lambda t: t.replace("s 3 - 18 ", "s 3 - 18.5 "), "refused 3", "whole numbers"),
    ("requests numbered from 1", lambda t: t.replace("s 4 - 41", "s 5 - 41"), "refused 4", "Requests are numbered from 0"),
    ("twins that don't fit", lambda t: t.replace("s 1 2 30 520", "s 1 1 30 520"), "refused 7", "strip 3 (line 25) has the twin 1 in place of 2"),
    ("a time for turning round", lambda t: t.replace("\n0 0 60 52", "\n8 0 60 52"), "refused 10", "between directions of one strip every entry is 0"),
    ("a detour that saves time", lambda t: t.replace("197 205 162 170\n0 0 60", "340 205 162 170\n0 0 60"), "refused 11",
     "From strip 0 direction 0 to strip 6 direction 0 takes 340"),
    ("no end", lambda t: t.replace("\nend\n", "\n"), "refused 1", "the line `end` is missing"),
    ("UTF-16", lambda t: t[t.index("orbit"):].encode("utf-16").decode("latin-1"), "refused 2", "The text is UTF-16"),
    ("lines that end with CR alone", lambda t: t[t.index("orbit"):].replace("\n", "\r"), "refused 6", "its lines end with CR alone"),
    ("a comment that ends with CR alone", lambda t: t.replace("\n", "\r"), "refused 1", "its lines end with CR alone"),
    ("too many strips", lambda t: t.replace("strips 8", "strips 65"), "refused 5", "the number of strips must be from 0 to 64"),
    ("an own twin", lambda t: t.replace("s 1 3 30", "s 1 2 30"), "refused 8", "a strip isn't its own twin"),
    ("a twin of another request", lambda t: t.replace("s 1 2 30", "s 0 2 30"), "refused 9", "twins are of one request"),
    ("another version", lambda t: t.replace("orbit 1", "orbit 2"), "refused 12", "the version must be 1"),
    ("an input that is too long", lambda t: t + "#" * 2**24, "refused 13", "more than the limit"),
]
ACCEPTED = [
    ("windows that are swapped", lambda t: t.replace("s 3 - 18 450 640", "s 3 - 18 640 450"), "Line 29: strip 5 (airfield) is closed in direction 0 by the ends 640 and 450"),
    ("twins that can't come together", lambda t: t.replace("520 700 40 1 0 40", "1 0 40 520 700 40"), "No plan can acquire strip 2 (dam, first look) (line 23): it and its twin"),
    ("a strip that is closed", lambda t: t.replace("380 520 30 380 520", "1 0 30 1 0"), "No plan can acquire strip 4 (forest fire) (line 27): both"),
]
PLAN_MISTAKES = [
    ("a strip that isn't there", "770 6 0", "770 8 0", "rejected strip", "there are 8 strips"),
    ("a strip that stands twice", "770 6 0", "770 3 0", "rejected twice", "which acquisition 3 acquires already"),
    ("a start before its window", "120 2 0", "119 2 0", "rejected early", "before its window from 120 to 300"),
    ("a closed direction", "120 2 0", "120 2 1", "rejected late", "its early end 1 is above its late end 0"),
    ("a start that is too early", "770 6 0", "769 6 0", "rejected manoeuvre", "668 + 40 + 62 = 770"),
    ("a twin that is missing", "668 3 0", "668 4 0", "rejected twin", "Its twin, strip 3 (dam, second look), must be acquired in direction 0 too, and is not in the plan"),
    ("a plan that isn't strict", "770 6 0", "770  6 0", "rejected text", "one blank stands between tokens"),
    ("a start after its window", "120 2 0", "301 2 0", "rejected late", "starts at 301, after its window from 120 to 300"),
    ("more acquisitions than are announced", "307 0 0\n", "307 0 0\n310 0 0\n", "rejected text", "there must be `end`, since line 1 announces 6 acquisitions"),
    ("fewer acquisitions than are announced", "strips 6", "strips 7", "rejected text", "direction of acquisition 6, since line 1 announces 7"),
    ("a plan with a byte order mark", "strips 6", "\ufeffstrips 6", "rejected text", "a byte order mark"),
    ("a strip before its start", "120 2 0", "2 120 0", "rejected text", "a strip from 0 to 63 and a direction, 0 or 1"),
    ("a plan with CR LF", "strips 6\n", "strips 6\r\n", "rejected text", "CR LF"),
    ("nothing behind the end", "end\n", "end\nend\n", "rejected text", "there must be nothing, since `end` stands before it"),
]
ANSWER_MISTAKES = [
    (lambda a: with_line(a, 1, "Optimal "), "rejected rule 0", "there must be `Optimal`"),
    (lambda a: with_line(a, 2, "gain 20"), "rejected rule 0", "there must be `gain n/20`, in twentieths"),
    (lambda a: with_line(a, 3, "strips 2"), "rejected rule 0", "there must be start, strip and direction of acquisition 1, since line 3 announces 2"),
    (lambda a: with_line(a, 4), "rejected rule 0", "there must be start, strip and direction of acquisition 0"),
    (lambda a: with_line(a, 4, "10 0 0", "15 0 0"), "rejected rule 0", "there must be `labels` with their number, since line 3 announces 1 acquisition."),
    (lambda a: with_line(a, 6), "rejected rule 0", "there must be `log`"),
    (lambda a: with_line(a, 7), "rejected rule 0", "there must be `cut` and its time"),
    (lambda a: with_line(a, 5, "labels 2"), "rejected rule 0", "there must be a label, since line 5 announces 2 and 1 stand before it"),
    (lambda a: with_line(a, 8, "B 0", "F 0"), "rejected rule 0", "there must be a mark or `end`, since line 5 announces 1 label."),
    (lambda a: a + ["end"], "rejected rule 0", "there must be nothing, since `end` stands before it"),
    (lambda a: with_line(a, 4, "9 0 0"), "rejected rule 1", "starts at 9, before its window from 10 to 10"),
    (lambda a: with_line(a, 2, "gain 19/20"), "rejected rule 2", "The plan doesn't gain 19/20, which is written, but:"),
    (lambda a: with_line(a, 8, "B 1"), "rejected rule 3", "label 0 (line 8, `B 1`) doesn't keep the windows"),
    (lambda a: with_line(a, 9, "C F 0", "end"), "rejected rule 4", "names a label that isn't there: the side has 0"),
    (lambda a: with_line(a, 9, "R B 0 0", "end"), "rejected rule 5", "retires a label by itself"),
    (lambda a: with_line(a, 9, "C B 0", "C B 0", "end"), "rejected rule 6", "label 0, which an earlier mark marks already"),
    (lambda a: with_line(with_line(a, 8), 5, "labels 0"), "rejected rule 7", "the label `B 0`, which extends it, isn't in the list"),
    (lambda a: ["Optimal", "gain 0/20", "strips 0", *a[4:]], "rejected rule 8", "is a plan that gains 20/20, more than is written"),
]


def test_explain():
    explain = "tools/explain.py", "--program", PROGRAM
    instance, plan = (TOP / "examples/pass.txt").read_text(), (TOP / "examples/pass.plan").read_text()
    for name, spoil, word, sentence in MISTAKES:
        spoiled = spoil(instance)
        status, written, _ = script(*explain, put("instance", spoiled.encode("latin-1")))
        report(f"explain.py: {name}", status == 3 and written.startswith(word) and sentence in written, written)
    for name, old, new, word, sentence in PLAN_MISTAKES:
        status, written, _ = script(*explain, "examples/pass.txt", put("plan", plan.replace(old, new, 1)))
        report(f"explain.py: {name}", plan != plan.replace(old, new) and status == 4 and written.startswith(word) and sentence in written, written)
    for name, spoil, sentence in ACCEPTED:
        status, written, _ = script(*explain, put("instance", spoil(instance)))
        report(f"explain.py: {name}", status == 0 and spoil(instance) != instance and sentence in written, written)
    for spoil, word, sentence in ANSWER_MISTAKES:
        status, written, _ = script(*explain, put("instance", ONE_STRIP), put("answer", lines(*spoil(GOOD))))
        report(f"explain.py: {sentence}", status == 4 and written.startswith(word) and sentence in written, written)
    status, written, _ = script(*explain, "examples/pass.txt")
    report("explain.py: a solved instance", status == 0 and "strip 2 direction 1, strip 3 direction 1" in written and "= 80000" in written, written)
    status, written, _ = script(*explain, "examples/pass.txt", "examples/pass.plan")
    report("explain.py: a feasible plan", status == 0 and "together 273000 twentieths" in written, written)
    status, written, _ = script(*explain, "examples/one_strip.txt", "examples/one_strip.answer")
    report("explain.py: an answer that is accepted", status == 0 and "no feasible plan gains more" in written, written)
    for name, one, text, word in CHECKED:
        status, written, _ = script(*explain, put("instance", one), put("answer", lines(*text)))
        report(f"explain.py: {name}", written.startswith(word) and len(written.split("\n")) > 2, written)
    answer = run([PROGRAM, "solve", "--budget", "1"], instance.encode())[1]
    status, written, _ = script(*explain, "examples/pass.txt", put("answer", answer))
    report("explain.py: an answer without a log", answer.startswith("Best\n") and status == 0 and "is feasible. With `Best`" in written, written)
    status, written, _ = script(*explain, "examples/pass.txt", put("answer", answer.replace(" 0\n", " 2\n", 1)))
    report("explain.py: an answer without a log and a wrong plan", status == 4 and "of the answer can't stand" in written, written)


# --- timeline.py, from_csv.py, bench

def test_timeline():
    for name, acquired in (("pass", 6), ("two_strips", 2)):
        status, written, _ = script("tools/timeline.py", f"examples/{name}.txt", f"examples/{name}.plan")
        shapes = minidom.parseString(written).getElementsByTagName("polygon") if status == 0 else []
        report(f"timeline.py: {name}", len(shapes) == acquired + 2, status)  # two more explain the directions
        report(f"timeline.py: docs/{name}.svg", name != "pass" or written == (TOP / "docs/pass.svg").read_text())


def test_from_csv():
    tables = [f"examples/csv/{name}.csv" for name in ("requests", "strips", "manoeuvres")]
    measured = "examples/csv/manoeuvres_measured.csv"
    status, instance, _ = script("tools/from_csv.py", *tables)
    _, answer, _ = run([PROGRAM, "solve"], instance.encode())
    report("from_csv.py: the example is solved", status == 0 and answer.startswith("Optimal\ngain 200600/20\n"), answer)
    status, _, said = script("tools/from_csv.py", *tables[:2], measured)
    report("from_csv.py: a detour", status == 1 and "takes 240, but by dam second look/0: 17 + 40 + 90 = 147" in said, said)
    status, instance, said = script("tools/from_csv.py", "--close", *tables[:2], measured)
    _, answer, _ = run([PROGRAM, "solve"], instance.encode())
    report("from_csv.py: closed", answer.startswith("Optimal") and "from dam first look/0 to harbour east/0: 240 became 132" in said, said)
    spoiled = (TOP / tables[1]).read_text().replace("harbour west,harbour,,48,210", 'harbour west,habrour,,"4,8",950')
    status, _, said = script("tools/from_csv.py", tables[0], put("strips.csv", spoiled), tables[2])
    wanted = ["line 4, column request: there is no request `habrour`", "line 4, column area: `4,8` must be a number from 1 to 1,000,000, a whole number",
              "line 4, column late0: `420` is before the early end 950"]
    report("from_csv.py: bad cells", status == 1 and all(text in said for text in wanted), said)


def test_bench():
    rows = [line.split() for line in (TOP / "bench/optima.txt").read_text().splitlines() if not line.startswith("#")]
    report("bench: 30 different instances", len({tuple(row[:3]) for row in rows}) == len(rows) == 30)
    for family, size, seed, *_ in rows:
        status, instance, _ = script("bench/families.py", family, size, seed)
        said = run([PROGRAM, "score"], instance.encode() + b"strips 0\nend\n")
        report(f"bench: {family} {size} {seed}", said[:2] == (0, "gain 0/20\n"), said)
    family, size, seed, gain, labels = rows[0]
    table = put("table.md", "before\n<!-- measured -->\nold\n<!-- end of measured -->\nbehind\n")
    status, written, said = script("bench/run.py", PROGRAM, "--only", f"{family}:{size}/{seed}", "--beside", f"{PROGRAM} solve", "--write", table)
    report("bench: run.py", status == 0 and written.endswith("\n0 faults\n"), written, said)
    new = table.read_text()
    report("bench: run.py --write", new.startswith("before\n<!-- measured -->\n") and new.endswith("\n<!-- end of measured -->\nbehind\n")
           and f"| {family} {size} | 1 | 1 |" in new and "old" not in new, new)
    status, written, _ = run([sys.executable, "-B", "bench/plain.py"], script("bench/families.py", family, size, seed)[1].encode())
    report("bench: plain.py", (status, written) == (0, f"gain {gain}/20\nlabels {labels}\n"), written)


# --- README.md: what is pasted from it works

def test_readme():
    blocks = re.findall(r"```\n(.*?)```", (TOP / "README.md").read_text(), re.S)
    commands = next(block for block in blocks if block.startswith("export PATH")).split("\n", 1)[1].replace("/tmp/", f"{SCRATCH}/")
    (SCRATCH / "bin").mkdir()
    (SCRATCH / "bin/strips").symlink_to(PROGRAM)
    done = subprocess.run(["bash", "-c", commands], cwd=TOP, stdout=subprocess.PIPE, stderr=subprocess.STDOUT,
                          env={**os.environ, "PATH": f"{SCRATCH}/bin:{os.environ['PATH']}"})
    wanted = (r"trial 7 20\nOptimal\ngain (\d+)/20\naccepted\n" r"accepted\ngain \1/20\n" r"gain \1/20\n"
              r"gain 273000/20\n" r"rejected manoeuvre at 4\n" r"accepted\ngain 20/20\n")
    report("README: the commands to paste", re.fullmatch(wanted, done.stdout.decode()), done.stdout.decode())


# --- the documents: what scripts can compare with the code

def test_documents():
    for name, *words in (("tools/stands_on.py",), ("tools/rests_on.py", "--verify")):
        status, said, wrong = script(name, *words)
        report(f"documents: {name}", status == 0, said, wrong)
    status, said, wrong = script("tools/rests_on.py", "--from", "IsSolved", "--list")
    places = [line for line in said.splitlines() if re.match(r"crates/.*/specs/.*:\d+: ", line)]
    stated = re.search(r"([\d,]+) definitions", said)
    report("rests_on.py: each definition has one line", status == 0 and len(set(places)) == len(places) == int(stated[1].replace(",", "")), wrong)
    library = rests_on.Library()
    for name, (_, starts) in rests_on.HEADLINES.items():
        rest, before, late = rests_on.Rest(library, starts), set(), []
        for definition in rest.definitions:
            before.add(definition)
            late += [u.name for u in rest.used[definition] if isinstance(u, rests_on.Definition) and u not in before]
        report(f"rests_on.py: {name}: each definition behind those that it uses", not late, late)
    said = script("tools/check.py", "examples/pass.txt", "examples/pass.answer")
    report("README: an answer is checked without the program", said[:2] == (0, "accepted\ngain 273000/20\n"), said)


for test in (test_documents, test_readme, test_check, test_changed_logs, test_explain, test_timeline, test_from_csv, test_bench):
    test()
print(f"scripts: {counts[True]} passed, {counts[False]} failed")
sys.exit(1 if counts[False] else 0)
