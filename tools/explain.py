#!/usr/bin/env python3
"""explain.py [--program PATH] INSTANCE [PLAN_OR_ANSWER]

Runs the program on an instance, alone or with a plan or an answer, and explains what it writes: where it refuses or rejects,
a sentence with the line, its tokens and the arithmetic. Ends with the program's status.

A comment on the line right before the line of a request or strip is taken as its name.
"""
import re
import sys

import check
from texts import PROGRAM, lines_of, names_of, read_text, run, take_option

NUMBER = re.compile("0|[1-9][0-9]*")
DIRECTION = ("direction 0", "direction 1")
WINDOW = [("early end", 0, 10**9), ("late end", 0, 10**9), ("duration", 1, 10**6)]


def main():
    words = sys.argv[1:]
    program = take_option(words, "--program", PROGRAM)
    if len(words) not in (1, 2) or words[0].startswith("--"):
        sys.exit("usage: explain.py [--program PATH] INSTANCE [PLAN_OR_ANSWER]")
    text = read_text(words[0])
    if len(words) == 1:
        status, said = run(program, ["solve"], text)
        sentence = explain_refusal(text, said) if status == 3 else explain_optimal(text, said) if status in (0, 1) else ""
    else:
        status, said, sentence = explain_both(program, text, read_text(words[1]))
    print(said.split("\n")[0] if said else f"status {status}")
    print(sentence or "Nothing was written on standard output; its line on standard error says why.")
    return status


# --- Refusals of an instance

def field_names(kind, count):
    """The fields of a line: a fixed word, or a name with its range; a twin's range begins at -1."""
    if kind in ("orbit", "requests", "strips"):
        low, high = (1, 1) if kind == "orbit" else (0, 64)
        return [kind, ("version" if kind == "orbit" else f"number of {kind}", low, high)]
    if kind == "r":
        return ["r", ("gain", 0, 10**6)]
    if kind == "s":
        windows = [(f"{name} in {direction}", low, high) for direction in DIRECTION for name, low, high in WINDOW]
        return ["s", ("request", 0, count[0] - 1), ("twin", -1, count[1] - 1), ("area", 1, 10**6), *windows]
    if kind == "row":
        return [(f"manoeuvre time to directed strip {y}", 0, 10**6) for y in range(2 * count[1])]
    return [kind]


class Form:
    """What stands on the lines of an instance text that count, as far as its counts can be read."""

    def __init__(self, text):
        self.total, self.lines = lines_of(text)
        self.hint = " The whole text is one line: its lines end with CR alone, and LF must end them." if "\r" in text and "\n" not in text else ""
        self.requests, self.strips = self.count(1), None
        if self.requests is not None:
            self.strips = self.count(2 + self.requests)

    def count(self, k):
        tokens = self.lines[k].tokens if k < len(self.lines) else []
        return int(tokens[1]) if len(tokens) > 1 and NUMBER.fullmatch(tokens[1]) and len(tokens[1]) < 3 else None

    def kind(self, k):
        """The kind of the line that must stand at place k, which of its kind it is, and in words."""
        if k < 2:
            return [("orbit", 0, "the first line, `orbit 1`"), ("requests", 0, "the line `requests` with their number")][k]
        k -= 2
        if k < self.requests:
            return "r", k, f"the line of request {k}"
        k -= self.requests
        if k == 0:
            return "strips", 0, "the line `strips` with their number"
        k -= 1
        if k < self.strips:
            return "s", k, f"the line of strip {k}"
        k -= self.strips
        if k == 0:
            return "manoeuvres", 0, "the line `manoeuvres`"
        k -= 1
        if k < 2 * self.strips:
            return "row", k, f"row {k} of the manoeuvre times (from strip {k // 2}, direction {k % 2})"
        return "end", 0, "the line `end`"

    def strip_line(self, i):
        return self.lines[3 + self.requests + i]

    def row(self, x):
        return self.lines[4 + self.requests + self.strips + x]

    def shifted(self):
        """Where a row is missing or too many, from which line on the rows aren't in their places, as far as their zeros tell."""
        for x in range(2 * self.strips):
            line, own = self.row(x), slice(x // 2 * 2, x // 2 * 2 + 2)
            if line.tokens == ["end"]:
                break
            if line.tokens[own] != ["0", "0"]:
                return (f" Line {line.number} would be row {x}, and has {' '.join(line.tokens[own])} in place of its own strip's 0 0: "
                        "look there or one row before.")
        return ""

    def announced(self, kind):
        """What the counts say, where a line of another kind stands too early or too late."""
        said = []
        if self.requests is not None and kind in ("r", "strips"):
            said.append((self.lines[1].number, self.requests, "requests", "r"))
        if self.strips is not None and kind in ("s", "manoeuvres"):
            said.append((self.lines[2 + self.requests].number, self.strips, "strips", "s"))
        return "".join(f" Line {number} announces {count} {name}, and the text has {sum(line.tokens[0] == word for line in self.lines)} "
                       f"lines that begin with `{word}`." for number, count, name, word in said)


def explain_refusal(text, said):
    """A sentence for the program's line `refused C line L ..`."""
    words = said.split()
    cause, line, more = int(words[1]), int(words[3]), [int(n) for n in words[5:]]
    if cause == 13:
        return f"The input has {len(text):,} bytes, more than the limit of this command."
    form = Form(text)
    if cause in (7, 8, 9):
        return explain_twins(form, cause, line)
    if cause == 10:
        x, y, value = more
        return (f"Line {line} is row {x}: its entry {y} is {value}, but directed strips {x} and {y} are both of strip {x // 2}, "
                "and between directions of one strip every entry is 0.")
    if cause == 11:
        return explain_detour(form, more)
    return explain_form(form, cause, line)


def explain_form(form, cause, line):
    """Causes 1 to 6 and 12: the first line that can't stand, and where it has all its tokens the first of them that can't."""
    k = next((k for k, counted in enumerate(form.lines) if counted.number == line), len(form.lines))
    kind, _, what = form.kind(k)
    if k == len(form.lines):
        have = f"has {count_of(form.total, 'line')}" if form.total else "is empty"
        rows = f" {2 * form.strips} rows are needed for {form.strips} strips." if kind == "row" else ""
        return f"The text {have}, and {what} is missing.{form.hint}{rows}{form.announced(kind)}"
    tokens = form.lines[k].tokens
    fields = field_names(kind, (form.requests, form.strips))
    if kind == "end" and form.lines[k - 1].tokens == ["end"]:
        return f"Line {line}, {show(tokens)}, follows the line `end`; only empty lines and comments may."
    if cause == 6:
        note = form.hint or (" A `#` begins a comment at the beginning of a line alone." if any(t[0] == "#" for t in tokens) else "")
        return f"Line {line} is {what}, which has {count_of(len(fields), 'token')}; it has {len(tokens)}: {show(tokens)}.{note}"
    if cause == 1:
        missing = name_of(fields[len(tokens)])
        hint = (" Or one before it is: behind `s` come the request, the twin (`-` for none), the area, and of each direction the early end, "
                "the late end and the duration.") if kind == "s" else ""
        return f"Line {line} is {what} and has {len(tokens)} of {count_of(len(fields), 'token')}: {show(tokens)}. The {missing} is missing.{hint}"
    return explain_token(form, cause, kind, f"Line {line} should be {what}", tokens, fields)


def explain_token(form, cause, kind, begin, tokens, fields):
    """Causes 2, 3, 4, 5 and 12: the first token of a line that can't stand, though there is one."""
    j = next(j for j, (token, field) in enumerate(zip(tokens, fields)) if not stands(token, field))
    token, field = tokens[j], fields[j]
    begin += f": token {j + 1} is `{token[:40]}`"
    if cause == 2:
        hint = encoding_hint(token) + form.announced(kind)
        if kind == "end" and NUMBER.fullmatch(token):
            hint = f" There are more rows than the {2 * form.strips} that are needed for {count_of(form.strips, 'strip')}.{form.shifted()}"
        return f"{begin}, and the word `{field}` must stand there.{hint}"
    if cause == 3:
        hint = f" A row before it is missing.{form.shifted()}" if kind == "row" and token == "end" else number_hint(token)
        or_twin = " or `-`" if field[1] == -1 else ""
        return f"{begin}, and the {field[0]} must be a number{or_twin}.{hint}"
    few = f" The line has {len(tokens)} of {count_of(len(fields), 'token')}: one before it may be missing." if len(tokens) < len(fields) else ""
    low, high = max(0, field[1]), field[2]
    if high < low:
        return f"{begin}, the {field[0]}, but there are none to name: the text announces 0."
    hint = ""
    if field[0] in ("request", "twin") and int(token) == high + 1:
        hint = f" {'Requests' if field[0] == 'request' else 'Strips'} are numbered from 0."
    return f"{begin}, and the {field[0]} must be {low if low == high else f'from {low:,} to {high:,}'}.{hint}{few}"


def encoding_hint(piece):
    """What the first bytes of a text may tell of how it was saved."""
    if piece[:3] == "\xef\xbb\xbf":
        return " The text begins with a byte order mark, three bytes that no editor shows: save it without one."
    if piece[:2] in ("\xff\xfe", "\xfe\xff") or "\0" in piece:
        return " The text is UTF-16, two bytes a character: save it as plain text, ASCII or UTF-8."
    return ""


def stands(token, field):
    if isinstance(field, str):
        return token == field
    if field[1] == -1 and token == "-":
        return True
    return bool(NUMBER.fullmatch(token)) and len(token) < 20 and max(0, field[1]) <= int(token) <= field[2]


def number_hint(token):
    if re.fullmatch("0[0-9]+", token):
        return " Numbers have no leading zeros."
    if re.fullmatch("[+-][0-9]+", token):
        return " Numbers have no signs."
    if re.fullmatch("[0-9]*[.,][0-9]+", token):
        return " Times, areas and gains are whole numbers: choose a smaller unit."
    return ""


def explain_twins(form, cause, line):
    i = next(i for i in range(form.strips) if form.strip_line(i).number == line)
    tokens = form.strip_line(i).tokens
    twin = int(tokens[2])
    if cause == 8:
        return f"Line {line} is strip {i}, and its twin is {twin}: a strip isn't its own twin. Write `-` for a strip without a twin."
    other = form.strip_line(twin)
    if cause == 9:
        return (f"Strip {i} (line {line}) is of request {tokens[1]}, and its twin, strip {twin} (line {other.number}), "
                f"of request {other.tokens[1]}: twins are of one request.")
    back = "no twin" if other.tokens[2] == "-" else f"the twin {other.tokens[2]}"
    return f"Strip {i} (line {line}) has the twin {twin}, but strip {twin} (line {other.number}) has {back} in place of {i}."


def explain_detour(form, triple):
    x, y, z = triple
    def entry(a, b):
        return int(form.row(a).tokens[b])
    p = int(form.strip_line(y // 2).tokens[6 + 3 * (y % 2)])
    straight, around = entry(x, z), entry(x, y) + p + entry(y, z)
    return (f"From {directed(x)} to {directed(z)} takes {straight} (line {form.row(x).number}, entry {z}), but by {directed(y)}: "
            f"{entry(x, y)} + {p} + {entry(y, z)} = {around}, where {p} is its duration. A detour must not save time. "
            f"Lower the entry to {around}, or let tools/from_csv.py --close do so everywhere.")


# --- Plans

def directed(x):
    return f"strip {x // 2} direction {x % 2}"


def explain_plan(instance, names, plan, k, line):
    """Why acquisition k of a plan, on this line, can't stand: the first rule that it breaks."""
    start, strip, direction = plan[k]
    x = 2 * strip + direction
    here = f"Acquisition {k} ({line}, `{start} {strip} {direction}`)"
    if strip not in instance.strips:
        return f"{here} is of strip {strip}, but there are {len(instance.strips)} strips, numbered from 0."
    here += f" is of {named(names, strip)} in direction {direction}"
    earlier = [j for j in range(k) if plan[j][1] == strip]
    if earlier:
        return f"{here}, which acquisition {earlier[0]} acquires already."
    early, late = instance.early[x], instance.late[x]
    if early > late:
        return f"{here}, which is closed: its early end {early} is above its late end {late}."
    if not early <= start <= late:
        return f"{here} and starts at {start}, {'before' if start < early else 'after'} its window from {early} to {late}."
    if k > 0:
        before, was, way = plan[k - 1]
        y = 2 * was + way
        ready = before + instance.duration[y] + instance.move[y][x]
        if start < ready:
            return (f"{here} and starts at {start}, but the acquisition before, of {named(names, was)} in direction {way}, starts at "
                    f"{before}, takes {instance.duration[y]}, and the manoeuvre from it takes {instance.move[y][x]}: "
                    f"{before} + {instance.duration[y]} + {instance.move[y][x]} = {ready}.")
    twin = instance.partner[x] // 2
    other = [a for a in plan if a[1] == twin]
    found = f"there in direction {other[0][2]}" if other else "not in the plan"
    return f"{here}. Its twin, {named(names, twin)}, must be acquired in direction {direction} too, and is {found}."


def named(names, strip):
    name = names[1][strip]
    return name if name == f"strip {strip}" else f"strip {strip} ({name})"


def explain_gain(instance, names, plan):
    """The gain of a plan, request by request."""
    areas = instance.areas_of(strip for _, strip, _ in plan)
    parts = []
    for r, (gain, area, whole) in enumerate(zip(instance.gain, areas, instance.whole_areas)):
        if area:
            curve = check.curve(area, whole)
            low, middle, high = f"5 x {area}", f"20 x {area} - 6 x {whole}", f"40 x {area} - 20 x {whole}"
            slope = low if 10 * area <= 4 * whole else middle if 10 * area <= 7 * whole else high
            parts.append(f"  {names[0][r]}: gain {gain}, area {area} of {whole}, so {gain} x ({slope}) = {gain * curve}")
    total = instance.gain_of(strip for _, strip, _ in plan)
    return "\n".join([*parts, f"  together {total} twentieths, that is {total / 20:g}."])


def strict_reason(text, line):
    """Why a line of a strict text can't stand."""
    pieces = text.split("\n")
    if line > len(pieces) or line == len(pieces) and pieces[-1] == "":
        return "The text ends there: a line is missing."
    piece = pieces[line - 1]
    if encoding_hint(piece):
        return encoding_hint(piece).strip()
    if piece.endswith("\r"):
        return "It ends with CR LF; these lines end with LF alone."
    if line == len(pieces):
        return f"It is `{piece[:60]}` without LF at its end."
    if piece.startswith("#") or not piece.strip():
        return "Here no comments and no empty lines may stand."
    if piece != " ".join(piece.split()):
        return f"It is `{piece[:60]}`; one blank stands between tokens, and none before or behind."
    numbers = piece.split()
    if len(numbers) == 3 and all(map(NUMBER.fullmatch, numbers)) and not (numbers[2] in "01" and len(numbers[1]) < 3 and int(numbers[1]) < 64):
        return f"It is `{piece[:60]}`; behind the start come a strip from 0 to 63 and a direction, 0 or 1."
    return f"It is `{piece[:60]}`."


def explain_no_plan(text, line, where):
    """Why a line of a plan text can't stand, and what must stand there."""
    lines = text.split("\n")
    count = re.fullmatch("strips (0|[1-9][0-9]?)", lines[0])
    if line == 1 or not count:
        wanted = "`strips` with the number of acquisitions"
    elif line < int(count[1]) + 2:
        wanted = f"start, strip and direction of acquisition {line - 2}, since line 1 announces {count[1]}"
    elif line == int(count[1]) + 2:
        wanted = f"`end`, since line 1 announces {count_of(int(count[1]), 'acquisition')}"
    else:
        wanted = "nothing, since `end` stands before it"
    return f"{where} can't stand; there must be {wanted}. {strict_reason(text, line)}"


def explain_optimal(text, said):
    """What `solve` acquires, and what is accepted and yet may not be meant: closed directions, strips that no plan has."""
    instance, names, form = check.Instance(text), names_of(text), Form(text)
    plan = plan_of(said, 3)
    acquired = ", ".join(f"{named(names, strip)} in direction {direction} at {start}" for start, strip, direction in plan)
    closed = [x for x in instance.directed if instance.early[x] > instance.late[x]]
    told = [f"The instance is accepted. Closed, since the early end is above the late one: {', '.join(map(directed, closed)) or 'no direction'}."]
    told += [f"Line {form.strip_line(x // 2).number}: {named(names, x // 2)} is closed in direction {x % 2} by the ends {instance.early[x]} and "
             f"{instance.late[x]}. Are they swapped? The usual way to close a direction is `1 0`."
             for x in closed if (instance.early[x], instance.late[x]) != (1, 0)]
    told += [f"No plan can acquire {named(names, i)} (line {form.strip_line(i).number}): {never_acquired(instance, names, closed, i)}."
             for i in instance.strips if never_acquired(instance, names, closed, i)]
    if said.startswith("Best"):
        told.append("The budget of labels was reached before this plan was shown to be optimal; `solve --budget N` takes up to 2,000,000.")
    told.append(f"Acquired: {acquired or 'nothing'}. The gain, request by request:\n{explain_gain(instance, names, plan)}")
    return "\n".join(told)


def never_acquired(instance, names, closed, i):
    """Why a strip can't be acquired, whatever the plan, as far as its windows and its twin's say so."""
    open_ways = [x for x in (2 * i, 2 * i + 1) if x not in closed]
    if not open_ways:
        return "both of its directions are closed"
    partners = [instance.partner[x] for x in open_ways]
    if None not in partners and all(y in closed for y in partners):
        return f"it and its twin, {named(names, partners[0] // 2)}, have no direction in which both are open"
    return ""


def plan_of(text, behind):
    """The plan in a text whose line `strips K` is line `behind`: 3 in an answer, 1 in a plan text."""
    lines = text.split("\n")
    return [tuple(map(int, line.split())) for line in lines[behind:behind + int(lines[behind - 1].split()[1])]]


def show(tokens):
    line = " ".join(tokens)
    return f"`{line}`" if len(line) <= 70 else f"`{line[:60]} ..`"


def count_of(count, thing):
    return f"{count} {thing}{'' if count == 1 else 's'}"


def name_of(field):
    return field[0] if isinstance(field, tuple) else f"word `{field}`"


# --- An instance with a plan or an answer

def explain_both(program, text, second):
    """Status, what the program writes, and a sentence, for an instance with a plan or an answer."""
    if text and not text.endswith("\n"):
        text += "\n"
    first, plan_text = second.split("\n")[0], plan_text_of(second)
    judged_alone = first == "Best" and plan_text and "\nlog\n" not in second  # without a log its plan alone is judged
    second = plan_text if judged_alone else second
    is_answer = first.strip() in ("Optimal", "Best") and not judged_alone
    status, said = run(program, ["check" if is_answer else "score"], text + second)
    words = said.split()
    if status == 3:
        return status, said, explain_refusal(text, said)
    if not words:
        return status, said, ""
    instance, names = check.Instance(text), names_of(text)
    if is_answer:
        return status, said, explain_answer(instance, names, second, words)
    if words[0] == "gain":
        note = " With `Best` nothing is said of better ones." if judged_alone else ""
        return status, said, f"The plan is feasible.{note} Its gain, request by request:\n{explain_gain(instance, names, plan_of(second, 1))}"
    place = int(words[3])
    if words[1] == "text":
        return status, said, explain_no_plan(second, place, f"Line {place + 2} of the answer" if judged_alone else f"Line {place} of the plan text")
    where = f"line {place + 4} of the answer" if judged_alone else f"line {place + 2} of the plan"
    return status, said, explain_plan(instance, names, plan_of(second, 1), place, where)


def plan_text_of(answer):
    """The plan of an answer as a text of its own, or nothing where its third line doesn't announce one."""
    lines = answer.split("\n")
    count = re.fullmatch("strips (0|[1-9][0-9]?)", lines[2]) if len(lines) > 2 else None
    return "\n".join([*lines[2:3 + int(count[1])], "end", ""]) if count else ""


def wanted_in_answer(lines, place):
    """What must stand on a line of an optimal answer, where all lines before it can stand."""
    if place <= 3:
        return ["`Optimal`", "`gain n/20`, in twentieths", "`strips` with the number of acquisitions"][place - 1]
    count = int(lines[2].split()[1])
    if place <= 3 + count:
        return f"start, strip and direction of acquisition {place - 4}, since line 3 announces {count}"
    at = place - 4 - count
    if at <= 2:
        return [f"`labels` with their number, since line 3 announces {count_of(count, 'acquisition')}", "`log`", "`cut` and its time"][at]
    labels = int(lines[3 + count].split()[1])
    if at <= 2 + labels:
        return f"a label, since line {4 + count} announces {labels} and {at - 3} stand before it"
    if lines[place - 2] == "end":
        return "nothing, since `end` stands before it"
    return f"a mark or `end`, since line {4 + count} announces {count_of(labels, 'label')}"


def explain_answer(instance, names, text, words):
    """What `check` says of an answer."""
    if words[0] == "accepted":
        gains = explain_gain(instance, names, plan_of(text, 3))
        return "The log shows that no feasible plan gains more. The gain, request by request:\n" + gains
    rule, place = int(words[2]), int(words[4])
    if rule == 0:
        wanted = wanted_in_answer(text.split("\n"), place)
        return f"Line {place} of the answer can't stand; there must be {wanted}. {strict_reason(text, place)}"
    answer = check.Answer(text)
    sides = {end: check.Side(instance, end, answer.cut) for end in "FB"}
    forward = len(answer.paths["F"])
    first_label = 7 + len(answer.plan)
    if rule == 1:
        return explain_plan(instance, names, answer.plan, place, f"line {place + 4} of the answer")
    if rule == 2:
        return f"The plan doesn't gain {answer.gain}/20, which is written, but:\n{explain_gain(instance, names, answer.plan)}"
    if rule in (4, 5, 6):
        line = first_label + forward + len(answer.paths["B"]) + place
        return f"Mark {place} (line {line}, `{' '.join(map(str, answer.marks[place]))}`) {explain_mark(sides, answer, rule, place)}"
    end = "F" if place <= forward else "B"
    number = place - 1 if end == "F" else place - forward - 2
    path = answer.paths[end][number] if number >= 0 else ()
    side = "forward" if end == "F" else "backward"
    shown = " ".join(map(str, path if end == "F" else path[::-1]))
    line = first_label + number + (forward if end == "B" else 0)
    here = f"The {side} root" if number < 0 else f"The {side} label {number} (line {line}, `{end} {shown}`)"
    return f"{here} {explain_path(instance, sides, answer, rule, end, number, path)}"


def explain_mark(sides, answer, rule, place):
    kind, end, a, *by = answer.marks[place]
    paths = answer.paths[end]
    if rule == 4:
        return f"names a label that isn't there: the side has {len(paths)}, numbered from 0."
    earlier = {mark[2] for mark in answer.marks[:place] if mark[1] == end}
    for label in (a, *by):
        if label in earlier:
            return f"names label {label}, which an earlier mark marks already."
    of_a = sides[end].follow(check.ROOT, paths[a])
    if rule == 6:
        return f"cuts label {a}, but its bound is {sides[end].bound(of_a)}, more than the gain {answer.gain} that is written."
    of_b = sides[end].follow(check.ROOT, paths[by[0]])
    reach = {y // 2 for y in sides[end].reach(of_a)}
    if a == by[0]:
        return "retires a label by itself."
    if of_a.path[-1] != of_b.path[-1]:
        return f"retires label {a} by label {by[0]}, which ends with another directed strip ({of_b.path[-1]}, not {of_a.path[-1]})."
    if of_b.start > of_a.start:
        return f"retires label {a} by label {by[0]}, which is later: its last start is {of_b.start}, not at most {of_a.start}."
    if of_b.needs != of_a.needs:
        return f"retires label {a} by label {by[0]}, but they need other twins: {sorted(of_a.needs)} and {sorted(of_b.needs)}."
    if of_b.strips & reach:
        return f"retires label {a} by label {by[0]}, but strip {min(of_b.strips & reach)} of the latter is still in reach of the former."
    return f"retires label {a} by label {by[0]}, which gains less, at worst over what label {a} may still add."


def explain_path(instance, sides, answer, rule, end, number, path):
    side = sides[end]
    if rule == 7:
        label = side.follow(check.ROOT, path)
        longer = (side.extend(label, y) for y in instance.directed)
        missing = next(x for x in longer if x and side.is_within_cap(x) and x.path not in answer.paths[end])
        shown = " ".join(map(str, missing.path if end == "F" else missing.path[::-1]))
        return f"has no mark, and the label `{end} {shown}`, which extends it, isn't in the list."
    if rule == 8:
        marked = {mark[2] for mark in answer.marks if mark[1] == "B"}
        unmarked = [(), *(other for i, other in enumerate(answer.paths["B"]) if i not in marked)]
        joined = (sides["F"].follow(check.ROOT, path + other[::-1]) for other in unmarked)
        best = next(x for x in joined if x and not x.needs and instance.gain_of(x.strips) > answer.gain)
        return (f"has no mark, and together with a backward label or root without one it is a plan that gains "
                f"{instance.gain_of(best.strips)}/20, more than is written: {', '.join(map(directed, best.path))}.")
    if path in answer.paths[end][:number]:
        return f"has the path of label {answer.paths[end].index(path)}."
    label = check.ROOT
    for k, y in enumerate(path):
        if y not in instance.directed:
            return f"names directed strip {y}, and there are {len(instance.directed)}."
        if y // 2 in label.strips:
            return f"has strip {y // 2} twice."
        start = side.start_after(label, y)
        if start > side.late[y]:
            return (f"doesn't keep the windows: on its side {directed(y)} starts at {start} at the earliest, "
                    f"and at {side.late[y]} at the latest.")
        label = side.extend(label, y)
        if label is None:
            return f"has the twins of {directed(y)} in two directions."
    cap = f"it starts at {label.start}, after the cut {side.cut}" if end == "F" else \
        f"{side.ready(label)} + {side.cut} isn't below the horizon {instance.horizon}"
    return f"is past its side's cap: with {directed(path[-1])} {cap}."


if __name__ == "__main__":
    sys.exit(main())
