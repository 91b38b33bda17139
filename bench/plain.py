#!/usr/bin/env python3
"""plain.py < INSTANCE: the greatest gain by a plain label setting, and how many label paths it meets.

Writes `gain n/20` and `labels N`. It is a yardstick for the numbers of labels that `solve` needs, not for its seconds: labels
grow from the front of the orbit alone, without a first plan, and one is kept unless another with the same end dominates it
or its bound is no more than the best gain so far. N counts each label path that is met, kept or not, as the lines of a log
do. Label paths (without a cut), dominance and bound are those of docs/FORMATS.md.
"""
import heapq
import sys
from bisect import bisect_left
from collections import namedtuple
from pathlib import Path

sys.path.insert(0, str(Path(__file__).resolve().parent.parent / "tools"))
import check  # noqa: E402: for its reader of instances and its curve

# Sets are numbers with a bit for each member: of strips, but for `needs`, of directed strips. `reached` are the strips of
# which a direction is in reach.
Label = namedtuple("Label", "start last strips needs reached bound")


class Rules:
    """An instance, and tables that make its rules quick."""

    def __init__(self, instance):
        self.instance = instance
        self.shares = [(gain, whole, sum(1 << i for i in instance.strips if instance.request[i] == r))
                       for r, (gain, whole) in enumerate(zip(instance.gain, instance.whole_areas))]
        self.areas, self.worths = {0: 0}, [{} for _ in self.shares]
        self.reaches = [self.reaches_after(x) for x in instance.directed]

    def reaches_after(self, x):
        """Of the last directed strip x: in rising order the last starts from which some other can still start in its window,
        and for each place there what is in reach from a start at most so late, as directed strips and as strips."""
        instance = self.instance
        latest = sorted((instance.late[y] - instance.duration[x] - instance.move[x][y], y) for y in instance.directed
                        if y // 2 != x // 2 and instance.early[y] <= instance.late[y])
        sets = [(0, 0)]
        for _, y in reversed(latest):
            sets.append((sets[-1][0] | 1 << y, sets[-1][1] | 1 << y // 2))
        return [start for start, _ in latest], sets[::-1]

    def area(self, strips):
        if strips not in self.areas:
            lowest = strips & -strips
            self.areas[strips] = self.instance.area[lowest.bit_length() - 1] + self.area(strips ^ lowest)
        return self.areas[strips]

    def gain(self, strips):
        """What a set of strips gains, in twentieths."""
        total = 0
        for (gain, whole, of_request), worths in zip(self.shares, self.worths):
            among = strips & of_request
            if among not in worths:
                worths[among] = gain * check.curve(self.area(among), whole)
            total += worths[among]
        return total

    def extend(self, label, y):
        """The label, or the root where it is None, with y behind it; None where that is no label path."""
        instance, partner, strips, needs = self.instance, self.instance.partner[y], 1 << y // 2, 0
        start = instance.early[y]
        if label:
            if label.strips & strips or label.needs & 1 << (y ^ 1):  # it stands there, or its twin does in the other direction
                return None
            start = max(start, label.start + instance.duration[label.last] + instance.move[label.last][y])
            strips, needs = label.strips | strips, label.needs
        if start > instance.late[y]:
            return None
        if partner is not None:
            needs = needs ^ 1 << y if needs & 1 << y else needs | 1 << partner
        starts, sets = self.reaches[y]
        reach, reached = sets[bisect_left(starts, start)]
        reached &= ~strips
        return Label(start, y, strips, needs, reached, 0 if needs & ~reach else self.gain(strips | reached))

    def dominates(self, b, a):
        """Whatever completes a completes b too, and gains no less then. Both have the same last directed strip and needs."""
        if b.start > a.start or b.strips & a.reached:
            return False
        total = 0
        for gain, whole, of_request in self.shares:
            of_b, of_a = b.strips & of_request, a.strips & of_request
            if of_b != of_a:
                of_b, of_a = self.area(of_b), self.area(of_a)
                added = 0 if of_b >= of_a else self.area(a.reached & of_request)
                total += gain * (check.curve(of_b + added, whole) - check.curve(of_a + added, whole))
        return total >= 0


class Search:
    """The best gain so far, the number of label paths met, and the labels that are kept: by end, and in the order of starts."""

    def __init__(self, instance):
        self.rules, self.best, self.met, self.kept, self.waiting = Rules(instance), 0, 0, {}, []

    def run(self):
        label = None
        while True:
            for y in self.rules.instance.directed:
                longer = self.rules.extend(label, y)
                if longer:
                    self.admit(longer)
            label = self.next()
            if label is None:
                return

    def admit(self, label):
        self.met += 1
        if label.needs == 0:
            self.best = max(self.best, self.rules.gain(label.strips))
        others = self.kept.setdefault((label.last, label.needs), {})
        if label.bound <= self.best or any(self.rules.dominates(other, label) for other in others.values()):
            return
        for number in [number for number, other in others.items() if self.rules.dominates(label, other)]:
            del others[number]
        others[self.met] = label
        heapq.heappush(self.waiting, (label.start, self.met, label))

    def next(self):
        """The label with the earliest start that waits, is still kept and may still gain more; None where there is none."""
        while self.waiting:
            _, number, label = heapq.heappop(self.waiting)
            if label.bound > self.best and number in self.kept[label.last, label.needs]:
                return label
        return None


if __name__ == "__main__":
    if len(sys.argv) > 1:
        sys.exit("usage: plain.py < INSTANCE")
    try:
        search = Search(check.Instance(sys.stdin.buffer.read().decode("latin-1")))
    except ValueError as why:
        sys.exit(f"no instance text: {why}. tools/explain.py says more.")
    search.run()
    print(f"gain {search.best}/20\nlabels {search.met}")
