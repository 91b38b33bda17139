#!/usr/bin/env python3
"""timeline.py INSTANCE PLAN_OR_ANSWER > plan.svg

Draws a plan: time to the right, a row for each strip. Windows of both directions are pale (direction 0 above, direction 1
below), acquisitions strong with an arrow for their direction, manoeuvres are lines from one to the next, and the time that
is left before a start is dotted. Each request has a colour; the list beside the picture has its acquired area and its gain.

A comment on the line right before the line of a request or strip is taken as its name. Nothing is judged here.
"""
import sys
from html import escape

import check
from texts import names_of, read_text

# Colours that colour-blind people tell apart (after Okabe and Ito); with more requests than these the hatching differs too.
COLOURS = ["#0072B2", "#D55E00", "#009E73", "#CC79A7", "#E69F00", "#56B4E9", "#7F7F7F", "#B8A900"]
LIGHT = {"#CC79A7", "#E69F00", "#56B4E9", "#B8A900"}  # those that bear dark letters
ROW, HALF, TOP, CHART, LEGEND = 30, 11, 54, 860, 250
TEXT = 'font-family="Helvetica, Arial, sans-serif"'


def main():
    if len(sys.argv) != 3:
        sys.exit("usage: timeline.py INSTANCE PLAN_OR_ANSWER > plan.svg")
    text = read_text(sys.argv[1])
    try:
        instance = check.Instance(text)
    except ValueError as why:
        sys.exit(f"{sys.argv[1]} is no instance text: {why}. tools/explain.py says more.")
    plan = plan_in(read_text(sys.argv[2]), instance)
    sys.stdout.write(picture(instance, names_of(text), plan))


def plan_in(text, instance):
    """The acquisitions of a plan text or an answer text: the lines after `strips K`."""
    lines = [line.split() for line in text.split("\n")]
    at = next((k for k, line in enumerate(lines[:3]) if len(line) == 2 and line[0] == "strips" and line[1].isdecimal()), None)
    rows = [] if at is None else lines[at + 1:at + 1 + int(lines[at][1])]
    if at is None or len(rows) < int(lines[at][1]) or not all(len(row) == 3 and all(n.isdecimal() for n in row) for row in rows):
        sys.exit("there are no lines `strips K` and K acquisitions in the plan")
    plan = [tuple(map(int, row)) for row in rows]
    for start, strip, direction in plan:
        if strip not in instance.strips or direction > 1:
            sys.exit(f"the acquisition {start} {strip} {direction} is of no strip of this instance")
    return plan


def tick_step(span):
    """A step of 1, 2 or 5 times a power of ten, with 5 to 12 steps in the span."""
    step = 1
    while span / step > 12:
        step = step * 5 // 2 if str(step)[0] == "2" else step * 2
    return step


def picture(instance, names, plan):
    order = [2 * strip + direction for _, strip, direction in plan]
    used = [(instance.early[x], instance.late[x] + instance.duration[x])
            for x in instance.directed if instance.early[x] <= instance.late[x]]
    used += [(start, start + instance.duration[x]) for (start, _, _), x in zip(plan, order)]
    begin, end = min([a for a, _ in used], default=0), max([b for _, b in used], default=1)
    left = 44 + 7.2 * max([len(name) for name in names[1]], default=0)
    height = TOP + ROW * len(instance.strips) + 34
    below = max(height, TOP + 38 * len(instance.gain) + 60)

    def across(time):
        return round(left + CHART * (time - begin) / max(1, end - begin), 1)

    def middle(strip):
        return TOP + ROW * strip + ROW // 2

    width = round(left + CHART + LEGEND)
    out = [f'<svg xmlns="http://www.w3.org/2000/svg" viewBox="0 0 {width} {below}" width="{width}" height="{below}" {TEXT}>',
           '<rect width="100%" height="100%" fill="white"/>', *hatchings(instance)]
    out += axis(begin, end, across, height)
    for i in instance.strips:
        out += row_of(instance, names, i, i in [strip for _, strip, _ in plan], middle(i), left, across)
    out += manoeuvres(instance, plan, order, across, middle)
    for (start, strip, direction), x in zip(plan, order):
        out += acquisition(instance, start, strip, direction, across(start), across(start + instance.duration[x]), middle(strip))
    out += legend(instance, names, plan, left + CHART + 24)
    return "\n".join([*out, "</svg>", ""])


def colour(request):
    return COLOURS[request % len(COLOURS)]


def fill(request):
    return colour(request) if request < len(COLOURS) else f"url(#request{request})"


def hatchings(instance):
    """From the ninth request on colours come again, with lines across them that differ in slope."""
    for r in range(len(COLOURS), len(instance.gain)):
        turn = 45 * (r // len(COLOURS))
        yield (f'<pattern id="request{r}" width="5" height="5" patternUnits="userSpaceOnUse" patternTransform="rotate({turn})">'
               f'<rect width="5" height="5" fill="{colour(r)}"/><rect width="1.6" height="5" fill="white"/></pattern>')


def words(x, y, size, text, more=""):
    return f'<text x="{x:.0f}" y="{y}" font-size="{size}"{more}>{text}</text>'


def axis(begin, end, across, height):
    step = tick_step(end - begin)
    for time in range(-(-begin // step) * step, end + 1, step):
        yield f'<line x1="{across(time)}" y1="{TOP - 8}" x2="{across(time)}" y2="{height - 30}" stroke="#e4e4e4"/>'
        yield words(across(time), TOP - 14, 11, time, ' fill="#555" text-anchor="middle"')
    yield words(across(begin), TOP - 34, 11, "ticks; pale: window, from its early to its late end; paler: what an acquisition takes that "
                "starts at the late end; &#8645; has a twin", ' fill="#555"')


def row_of(instance, names, i, acquired, y, left, across):
    """A strip's name and its two windows, as long as something can be acquired in them. The pale bar ends in a paler part,
    which only an acquisition that starts before it reaches."""
    name = escape(names[1][i])
    weight = ' font-weight="bold"' if acquired else ' fill="#777"'
    yield words(left - 24, y + 4, 12, name, f' text-anchor="end"{weight}')
    yield f'<line x1="{left}" y1="{y + ROW // 2}" x2="{left + CHART}" y2="{y + ROW // 2}" stroke="#f2f2f2"/>'
    for direction in (0, 1):
        x = 2 * i + direction
        early, late, duration = instance.early[x], instance.late[x], instance.duration[x]
        if early > late:
            continue
        top = y - HALF if direction == 0 else y + 1
        hint = f"<title>{name}, direction {direction}: starts from {early} to {late}, takes {duration}</title>"
        for first, last, opacity in ((early, late, 0.3), (late, late + duration, 0.14)):
            width = max(1, across(last) - across(first))
            yield (f'<rect x="{across(first)}" y="{top}" width="{width:.1f}" height="{HALF - 1}" '
                   f'fill="{colour(instance.request[i])}" opacity="{opacity}">{hint}</rect>')
    if instance.partner[2 * i] is not None:
        twin = escape(names[1][instance.partner[2 * i] // 2])
        yield words(left - 18, y + 4, 11, f"&#8645;<title>twin of {twin}</title>", ' fill="#555"')


def manoeuvres(instance, plan, order, across, middle):
    """A line for each manoeuvre, and a dotted one while the satellite waits for a window."""
    for k in range(1, len(plan)):
        over = plan[k - 1][0] + instance.duration[order[k - 1]]
        ready = over + instance.move[order[k - 1]][order[k]]
        y1, y2 = middle(plan[k - 1][1]), middle(plan[k][1])
        pen = 'stroke="#333" stroke-width="1.3"'
        hint = f"<title>manoeuvre of {ready - over}, from {over} to {ready}</title>"
        yield f'<line x1="{across(over)}" y1="{y1}" x2="{across(ready)}" y2="{y2}" {pen}>{hint}</line>'
        if plan[k][0] > ready:
            yield f'<line x1="{across(ready)}" y1="{y2}" x2="{across(plan[k][0])}" y2="{y2}" {pen} stroke-dasharray="2 3"/>'


def acquisition(instance, start, strip, direction, x1, x2, y):
    """A strong box that is pointed to the right in direction 0 and to the left in direction 1."""
    width = max(4, x2 - x1)
    point = min(7, width / 2)
    if direction == 0:
        corners = [(x1, y - HALF), (x1 + width - point, y - HALF), (x1 + width, y), (x1 + width - point, y + HALF), (x1, y + HALF)]
    else:
        corners = [(x1 + width, y - HALF), (x1 + point, y - HALF), (x1, y), (x1 + point, y + HALF), (x1 + width, y + HALF)]
    points = " ".join(f"{x:.1f},{y}" for x, y in corners)
    yield (f'<polygon points="{points}" fill="{fill(instance.request[strip])}" stroke="#222" stroke-width="0.8">'
           f'<title>strip {strip}, direction {direction}: {start} to {start + instance.duration[2 * strip + direction]}</title></polygon>')
    request = instance.request[strip]
    if width > 27 and request < len(COLOURS):
        letters = "black" if colour(request) in LIGHT else "white"
        yield words(x1 + width / 2, y + 4, 11, start, f' text-anchor="middle" fill="{letters}" font-weight="bold"')


def legend(instance, names, plan, x):
    acquired = [strip for _, strip, _ in plan]
    yield words(x, TOP - 14, 12, f"gain {instance.gain_of(acquired)}/20", ' font-weight="bold"')
    for r, (gain, area, whole) in enumerate(zip(instance.gain, instance.areas_of(acquired), instance.whole_areas)):
        y = TOP + 38 * r + 8
        yield f'<rect x="{x:.0f}" y="{y}" width="14" height="14" fill="{fill(r)}" opacity="{1 if area else 0.35}"/>'
        yield words(x + 22, y + 11, 12, escape(names[0][r]))
        share = f"area {area} of {whole}: {gain * check.curve(area, whole)}/20" if area else "not acquired"
        yield words(x + 22, y + 26, 11, share, ' fill="#555"')
    y = TOP + 38 * len(instance.gain) + 16
    for direction, corners in ((0, ((0, 0), (16, 0), (22, 6), (16, 12), (0, 12))), (1, ((128, 0), (112, 0), (106, 6), (112, 12), (128, 12)))):
        points = " ".join(f"{x + right:.0f},{y + down}" for right, down in corners)
        yield f'<polygon points="{points}" fill="#555"/>'
        yield words(x + 28 + 106 * direction, y + 10, 11, f"direction {direction}", ' fill="#555"')


if __name__ == "__main__":
    main()
