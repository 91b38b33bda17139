#!/usr/bin/env python3
"""check.py INSTANCE ANSWER

Checks that an answer proves its plan optimal: the plan keeps every rule, its gain is the one written, and the log beside it
shows that no feasible plan gains more. Writes `accepted` and the gain, or `rejected rule R at P` with the first rule that is
broken and its first place (status 4); rule 0 is the form of the answer text, its place a line. Status 3: INSTANCE is no
instance text (`strips solve < INSTANCE` says why).

A second checker, for people who would rather read Python than proofs: written from the rules alone, without any search.
"""
import re
import sys
from collections import namedtuple
from itertools import product, takewhile

MAX_TIME, MAX_GAIN, MAX_LABELS = 1_001_000_000, 1_280_000_000_000_000, 2_000_000


class Rejected(Exception):
    """The first rule that is broken, and its first place."""


def numbers_in(line, form, *limits):
    """The numbers of a line that is this form: each N is a number up to its limit, T one or `-` for None. Else None."""
    number = "(0|[1-9][0-9]{0,15})"  # no limit has more than 16 digits
    found = re.fullmatch(form.replace("N", number).replace("T", f"(?:-|{number})"), line)
    numbers = [token and int(token) for token in found.groups()] if found else []
    return numbers if found and all(n is None or n <= limit for n, limit in zip(numbers, limits)) else None


class Instance:
    """Directed strip 2 i + d is strip i in direction d. early, late, duration, partner (the twin in the same direction, or
    None) and move are indexed by directed strips."""

    def __init__(self, text):
        rows = [re.findall(r"[^ \t\r]+", line) for line in text.split("\n")]
        self.rows = iter([" ".join(row) for row in rows if row and row[0][0] != "#"])
        version, = self.take("orbit N", 1)
        requests, = self.take("requests N", 64)
        self.gain = [self.take("r N", 10**6)[0] for _ in range(requests)]
        count, = self.take("strips N", 64)
        limits = requests - 1, count - 1, 10**6, *(10**9, 10**9, 10**6) * 2
        strips = [self.take("s N T N N N N N N N", *limits) for _ in range(count)]
        self.strips, self.directed = range(count), range(2 * count)
        self.request, twins, self.area = ([strip[k] for strip in strips] for k in (0, 1, 2))
        self.early, self.late, self.duration = ([s[k + 3 * d] for s in strips for d in (0, 1)] for k in (3, 4, 5))
        self.take("manoeuvres")
        self.move = [self.take(" ".join("N" * 2 * count), *[10**6] * 2 * count) for _ in self.directed]
        self.take("end")
        if next(self.rows, None) or 0 in [version, *self.area, *self.duration]:
            raise ValueError("a line after the end, or a 0 where none can stand")
        for i, twin in enumerate(twins):
            if twin is not None and (twin == i or twins[twin] != i or self.request[twin] != self.request[i]):
                raise ValueError(f"the twin of strip {i}")
        for x, y, z in product(self.directed, repeat=3):
            if self.move[x][y] > 0 if x // 2 == y // 2 else z // 2 not in (x // 2, y // 2) and \
                    self.move[x][z] > self.move[x][y] + self.duration[y] + self.move[y][z]:
                raise ValueError(f"the manoeuvres between directed strips {x}, {y} and {z}")
        self.partner = [None if twin is None else 2 * twin + d for twin in twins for d in (0, 1)]
        self.horizon = max([max(self.early[x], self.late[x]) + self.duration[x] for x in self.directed], default=0)
        self.whole_areas = self.areas_of(self.strips)

    def take(self, form, *limits):
        line = next(self.rows, "")
        numbers = numbers_in(line, form, *limits)
        if numbers is None:
            raise ValueError(f"`{line}` can't stand for `{form}`")
        return numbers

    def areas_of(self, strips):
        """For each request the area of those of its strips that are among these."""
        areas = [0] * len(self.gain)
        for i in strips:
            areas[self.request[i]] += self.area[i]
        return areas

    def gain_of(self, strips):
        """In twentieths: each request's gain times the curve of its acquired area."""
        return sum(g * curve(a, whole) for g, a, whole in zip(self.gain, self.areas_of(strips), self.whole_areas))


def curve(a, whole):
    """Its slope is 5 up to 4/10 of the whole area, 20 up to 7/10, then 40: it is convex."""
    return 5 * a if 10 * a <= 4 * whole else 20 * a - 6 * whole if 10 * a <= 7 * whole else 40 * a - 20 * whole


class Answer:
    """An Optimal answer text. Backward paths are turned round here, so that each path begins at its side's end of the orbit."""

    def __init__(self, text):
        self.lines, self.at = text.split("\n")[:-1] + [""], 0  # what has no LF is no line; the last stands for a missing one
        self.take("Optimal")
        self.gain, = self.take("gain N/20", MAX_GAIN)
        count, = self.take("strips N", 64)
        self.plan = [self.take("N N N", MAX_TIME, 63, 1) for _ in range(count)]
        labels, = self.take("labels N", MAX_LABELS)
        self.take("log")
        self.cut, = self.take("cut N", MAX_TIME)
        self.paths, self.marks = {"F": [], "B": []}, []
        for _ in range(labels):
            end = "F" if self.lines[self.at].startswith("F") and not self.paths["B"] else "B"
            numbers = self.take(end + " N" * min(64, max(1, self.lines[self.at].count(" "))), *[127] * 64)
            self.paths[end].append(tuple(numbers if end == "F" else numbers[::-1]))
        while self.lines[self.at].startswith(("R", "C")):
            kind, end = self.lines[self.at][0], "F" if self.lines[self.at][1:3] == " F" else "B"
            self.marks.append((kind, end, *self.take(f"{kind} {end} N" + " N" * (kind == "R"), *[MAX_LABELS - 1] * 2)))
        self.take("end")
        if text != "".join(line + "\n" for line in self.lines[:self.at]):
            raise Rejected(0, self.at + 1)

    def take(self, form, *limits):
        numbers = numbers_in(self.lines[self.at], form, *limits)
        self.at += 1
        if numbers is None:
            raise Rejected(0, self.at)
        return numbers


# A path of directed strips, its last start, its strips, and its needs: the twins, in the same direction, that it lacks.
Label = namedtuple("Label", "path start strips needs")
ROOT = Label((), 0, frozenset(), frozenset())


class Side:
    """The instance as it is seen from one end: forward as it is, backward in its mirror, where time runs the other way."""

    def __init__(self, instance, end, cut):
        self.instance, self.end, self.cut = instance, end, cut
        self.early, self.late, self.move = instance.early, instance.late, instance.move
        if end == "B":
            over = [instance.horizon - duration for duration in instance.duration]
            self.early = [over[x] - instance.late[x] for x in instance.directed]
            self.late = [over[x] - instance.early[x] for x in instance.directed]
            self.move = [[instance.move[y][x] for y in instance.directed] for x in instance.directed]

    def ready(self, label):
        """When the last acquisition of a label is over."""
        return label.start + self.instance.duration[label.path[-1]]

    def start_after(self, label, y):
        """The earliest start of y directly after a label or the root."""
        return max(self.early[y], self.ready(label) + self.move[label.path[-1]][y]) if label.path else self.early[y]

    def extend(self, label, y):
        """The path and y, whatever the cap. None where y's strip is there, y starts too late, or its twin is there the other way."""
        start, partner = self.start_after(label, y), self.instance.partner[y]
        if y // 2 in label.strips or start > self.late[y] or (partner is not None and partner ^ 1 in label.path):
            return None
        needs = label.needs - {y} if y in label.needs else label.needs if partner is None else label.needs | {partner}
        return Label(label.path + (y,), start, label.strips | {y // 2}, needs)

    def follow(self, label, path):
        """The label with all of a path at its end, whatever the cap, or None."""
        for y in path:
            label = self.extend(label, y) if label and y in self.instance.directed else None
        return label

    def is_within_cap(self, label):
        """Forward the last start is at most the cut; backward its latest start in the orbit's own time is after the cut."""
        return label.start <= self.cut if self.end == "F" else self.ready(label) + self.cut < self.instance.horizon

    def reach(self, label):
        """The directed strips of new strips that can start in their windows directly after the label, whatever the cap."""
        return {y for y in self.instance.directed if y // 2 not in label.strips and self.start_after(label, y) <= self.late[y]}

    def bound(self, label):
        """The gain if all that is in reach were acquired too; 0 where a need isn't in reach."""
        reach = self.reach(label)
        return self.instance.gain_of(label.strips | {y // 2 for y in reach}) if label.needs <= reach else 0

    def dominates(self, b, a):
        """Whatever may complete a completes b too, and then b gains at least as much."""
        reached = {y // 2 for y in self.reach(a)}
        if b.path[-1] != a.path[-1] or b.start > a.start or b.needs != a.needs or b.strips & reached or b.path == a.path:
            return False
        # Of each request a completion adds an area between 0 and the room. As the curve is convex, the difference rises with
        # it where b has more of the request, and falls where b has less: the worst is at one end.
        areas = (self.instance.areas_of(strips) for strips in (b.strips, a.strips, reached))
        return 0 <= sum(gain * (curve(of_b + added, whole) - curve(of_a + added, whole))
                        for gain, whole, of_b, of_a, room in zip(self.instance.gain, self.instance.whole_areas, *areas)
                        for added in [0 if of_b >= of_a else room])


def check(instance, answer):
    """Raises Rejected with the first rule that is broken and its first place: each rule at all places, then the next."""
    def reject(rule, places):
        for place in places:
            raise Rejected(rule, place)
    # 1. The plan is feasible: no strip twice, starts in windows and after the manoeuvre, twins together in one direction.
    plan, order = answer.plan, [2 * strip + direction for _, strip, direction in answer.plan]
    reject(1, (k for k, ((start, strip, _), x) in enumerate(zip(plan, order))
               if strip not in instance.strips or strip in [y // 2 for y in order[:k]]
               or not instance.early[x] <= start <= instance.late[x] or instance.partner[x] not in [None, *order]
               or k > 0 and start < plan[k - 1][0] + instance.duration[order[k - 1]] + instance.move[order[k - 1]][x]))
    # 2. Its gain is the one written.
    reject(2, [0] * (instance.gain_of(x // 2 for x in order) != answer.gain))
    # 3. Each path is a label path of its side, and none of a side stands twice.
    sides = {end: Side(instance, end, answer.cut) for end in "FB"}
    labels = {end: [side.follow(ROOT, path) for path in answer.paths[end]] for end, side in sides.items()}
    roots = {"F": 0, "B": len(labels["F"]) + 1}  # the place of a side's root; its label i is at i + 1 after that
    numbers = {end: {path: i for i, path in reversed([*enumerate(answer.paths[end])])} for end in "FB"}
    reject(3, (roots[end] + 1 + i for end in "FB" for i, label in enumerate(labels[end])
               if label is None or not sides[end].is_within_cap(label) or numbers[end][label.path] < i))
    # 4. Each mark names labels that are there.
    reject(4, (k for k, (_, end, *named) in enumerate(answer.marks) if max(named) >= len(labels[end])))
    # 5. In `R a b` no earlier mark marks a or b, and b dominates a.
    first = {(end, a): k for k, (_, end, a, *_) in reversed([*enumerate(answer.marks)])}  # the first mark of a label
    reject(5, (k for k, (_, end, a, *by) in enumerate(answer.marks) for b in by if first[end, a] < k
               or first.get((end, b), k) < k or not sides[end].dominates(labels[end][b], labels[end][a])))
    # 6. In `C a` no earlier mark marks a, and the bound of a is at most the gain.
    reject(6, (k for k, (kind, end, a, *_) in enumerate(answer.marks) if kind == "C"
               and (first[end, a] < k or sides[end].bound(labels[end][a]) > answer.gain)))
    # 7. Each root and each unmarked label has every label path that extends it by one directed strip in its side's list.
    live = {end: [(roots[end], ROOT), *((roots[end] + 1 + i, label) for i, label in enumerate(labels[end])
                                        if (end, i) not in first)] for end in "FB"}
    reject(7, (at for end, side in sides.items() for at, label in live[end]
               for longer in filter(None, (side.extend(label, y) for y in instance.directed))
               if side.is_within_cap(longer) and longer.path not in numbers[end]))
    # 8. Where a forward label or root joins with a backward one, both unmarked, they gain at most the written gain. They join
    # where the one, then the other turned round, is a feasible plan at earliest starts.
    def gain_joined(forward, backward):
        joined = None if forward.strips & backward.strips else sides["F"].follow(forward, backward.path[::-1])
        return 0 if joined is None or joined.needs else instance.gain_of(joined.strips)
    def value(label):  # 20 twentieths for each unit of gain and area: no plan gains more
        return 20 * sum(instance.gain[instance.request[i]] * instance.area[i] for i in label.strips)
    by_value = sorted(((value(label), label) for _, label in live["B"]), key=lambda pair: -pair[0])
    reject(8, (at for at, forward in live["F"] for room in [answer.gain - value(forward)]
               for _, backward in takewhile(lambda pair: pair[0] > room, by_value)
               if gain_joined(forward, backward) > answer.gain))


def main():
    if len(sys.argv) != 3:
        sys.exit("usage: check.py INSTANCE ANSWER")
    texts = [open(name, encoding="latin-1", newline="").read() for name in sys.argv[1:]]
    try:
        instance, answer = Instance(texts[0]), Answer(texts[1])
        check(instance, answer)
    except ValueError as why:
        print(f"{sys.argv[1]} is no instance text: {why}", file=sys.stderr)
        sys.exit(3)
    except Rejected as fault:
        print("rejected rule {} at {}".format(*fault.args))
        sys.exit(4)
    print(f"accepted\ngain {answer.gain}/20")


if __name__ == "__main__":
    main()
