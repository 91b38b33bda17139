#!/usr/bin/env python3
"""from_csv.py [--close] REQUESTS.csv STRIPS.csv MANOEUVRES.csv > instance.txt

Makes an instance of three tables (see examples/csv):

  requests    columns name, gain
  strips      columns name, request, twin, area, early0, late0, duration0, early1, late1, duration1
              request and twin are names; twin may be empty, and it is enough that one of two twins names the other; a
              direction whose three cells are empty is closed
  manoeuvres  a square of times: each row and each column is headed by a directed strip, written NAME/0 or NAME/1, in any
              order; cells between directions of one strip may be empty, and rows and columns of closed directions left out

Cells are separated by commas, or by semicolons where the first line has those alone.
Every bad cell is told with its file, line and column (status 1). Where a detour saves time the table is refused, with the
arithmetic, and with --close repaired: each entry becomes the shortest time by any detours, and what changed is told on
standard error. Names become comments right before the lines that they name, where explain.py and timeline.py find them.
"""
import csv
import sys

import check

MAX_LINES = 64
STRIP_COLUMNS = ["early0", "late0", "duration0", "early1", "late1", "duration1"]
NEVER = 10**6  # the time from and to a closed direction: it is never flown, and so great a time is never a detour that saves
RANGES = {"gain": (0, 10**6), "area": (1, 10**6), "time": (0, 10**6), "early": (0, 10**9), "late": (0, 10**9), "duration": (1, 10**6)}


class Faults:
    """What is wrong, cell by cell."""

    def __init__(self):
        self.told = []

    def tell(self, file, line, column, what):
        self.told.append(f"{file} line {line}, column {column}: {what}")

    def number(self, file, line, column, text, kind):
        """The number in a cell, or its least value where it is bad."""
        low, high = RANGES[kind]
        if text.isascii() and text.isdigit() and low <= int(text[:20]) <= high:
            return int(text)
        given = f"`{text}`" if text else "an empty cell"
        whole = ", a whole number" if any(c in text for c in ".,") else ""
        self.tell(file, line, column, f"{given} must be a number from {low:,} to {high:,}{whole}")
        return low

    def stop(self):
        if self.told:
            sys.exit("\n".join(self.told[:20] + ([f"and {len(self.told) - 20} more"] if len(self.told) > 20 else [])))


def rows_of(path):
    """The lines of a table that aren't empty, with their numbers; cells without blanks at their ends."""
    try:
        with open(path, encoding="utf-8-sig", newline="") as file:
            head = file.readline()
            file.seek(0)
            reader = csv.reader(file, delimiter=";" if ";" in head and "," not in head else ",")
            rows = [(reader.line_num, [cell.strip() for cell in row]) for row in reader]
    except (OSError, UnicodeDecodeError, csv.Error) as error:
        sys.exit(f"{path} can't be read: {error}")
    rows = [(line, row) for line, row in rows if any(row)]
    if not rows:
        sys.exit(f"{path} is empty; its first line names the columns")
    return rows


def records_of(path, columns, faults):
    """The lines of a table with named columns, each as its number and a map from columns to cells; names must differ."""
    (line, head), *rows = rows_of(path)
    missing = [column for column in columns if column not in head]
    if missing:
        sys.exit(f"{path} line {line}: there is no column {', '.join(missing)}")
    records, lines = [], {}
    for line, row in rows:
        record = {column: row[head.index(column)] if head.index(column) < len(row) else "" for column in columns}
        if not record["name"] or "\n" in record["name"] or "/" in record["name"]:
            faults.tell(path, line, "name", f"`{record['name']}` must be a name without `/` and line breaks")
        elif record["name"] in lines:
            faults.tell(path, line, "name", f"`{record['name']}` stands on line {lines[record['name']]} already")
        lines.setdefault(record["name"], line)
        records.append((line, record))
    if len(records) > MAX_LINES:
        faults.tell(path, records[MAX_LINES][0], "name", f"there are {len(records)} lines, and at most {MAX_LINES} are possible")
    return records


def place(path, line, column, name, names, faults, what):
    """Which of the names a cell has."""
    if name in names:
        return names.index(name)
    faults.tell(path, line, column, f"there is no {what} `{name}`")
    return 0


def strips_of(path, requests, faults):
    """Names and lines `s ..` of the strips, and the windows of directed strips."""
    records = records_of(path, ["name", "request", "twin", "area", *STRIP_COLUMNS], faults)
    names = [record["name"] for _, record in records]
    twins = [None] * len(records)
    for i, (line, record) in enumerate(records):
        if record["twin"]:
            twin = place(path, line, "twin", record["twin"], names, faults, "strip")
            other = records[twin][1]
            if twin == i:
                faults.tell(path, line, "twin", "a strip isn't its own twin")
            elif other["request"] != record["request"]:
                faults.tell(path, line, "twin", f"`{record['twin']}` is of another request, `{other['request']}`")
            elif twins[i] not in (None, twin) or twins[twin] not in (None, i):
                faults.tell(path, line, "twin", f"`{record['name']}` and `{record['twin']}` would be one of three twins")
            twins[i], twins[twin] = twin, i
    lines, windows = [], []
    for i, (line, record) in enumerate(records):
        request = place(path, line, "request", record["request"], requests, faults, "request")
        area = faults.number(path, line, "area", record["area"], "area")
        both = [window_of(path, line, record, direction, faults) for direction in "01"]
        # A closed direction has a duration too. That of the other keeps the horizon where it is.
        both = [window or (1, 0, (other or (1, 0, 1))[2]) for window, other in zip(both, reversed(both))]
        windows += both
        numbers = " ".join(str(n) for window in both for n in window)
        lines.append(f"s {request} {'-' if twins[i] is None else twins[i]} {area} {numbers}")
    return names, lines, windows


def window_of(path, line, record, direction, faults):
    """Early end, late end and duration, or None for a closed direction."""
    columns = [column for column in STRIP_COLUMNS if column.endswith(direction)]
    if not any(record[column] for column in columns):
        return None
    early, late, duration = (faults.number(path, line, column, record[column], column[:-1]) for column in columns)
    if early > late:
        faults.tell(path, line, columns[1], f"`{late}` is before the early end {early}; to close the direction leave its cells empty")
    return early, late, duration


def table_of(path, strips, windows, faults):
    """The manoeuvre times between directed strips."""
    (head_line, head), *rows = rows_of(path)
    wanted = [f"{name}/{direction}" for name in strips for direction in "01"]
    column_of = {name: k for k, name in enumerate(head) if name}
    row_of = {row[0]: (line, row) for line, row in rows}
    for line, row in rows:
        if row[0] not in wanted:
            faults.tell(path, line, 1, f"`{row[0]}` is no directed strip; wanted is a name, `/` and a direction")
    for name, (early, late, _) in zip(wanted, windows):
        if early <= late and name not in column_of:
            faults.tell(path, head_line, name, "the column is missing")
        if early <= late and name not in row_of:
            faults.tell(path, rows[-1][0] if rows else head_line, 1, f"the row `{name}` is missing after it")
    faults.stop()
    closed = [early > late for early, late, _ in windows]
    table = []
    for x, start in enumerate(wanted):
        line, row = row_of.get(start, (0, []))
        table.append([])
        for y, goal in enumerate(wanted):
            column = column_of.get(goal, len(row))
            cell = row[column] if column < len(row) else ""
            if x // 2 == y // 2:
                if cell not in ("", "0"):
                    faults.tell(path, line, goal, f"`{cell}` must be 0 or empty: `{start}` and `{goal}` are directions of one strip")
                table[x].append(0)
            else:
                table[x].append(NEVER if not cell and (closed[x] or closed[y]) else faults.number(path, line, goal, cell, "time"))
    return wanted, table


def detours(table, durations):
    """Each entry from x to z that a detour by y undercuts, y being of a third strip: (x, y, z)."""
    directed = range(len(table))
    for y in directed:
        for x in directed:
            for z in directed:
                if len({x // 2, y // 2, z // 2}) == 3 and table[x][z] > table[x][y] + durations[y] + table[y][z]:
                    yield x, y, z


def close(names, table, durations):
    """Lowers entries until no detour saves time, and tells what changed."""
    before = [row[:] for row in table]
    changed = True
    while changed:
        changed = False
        for x, y, z in detours(table, durations):
            table[x][z] = table[x][y] + durations[y] + table[y][z]
            changed = True
    for x, row in enumerate(before):
        for z, time in enumerate(row):
            if time != table[x][z]:
                print(f"from {names[x]} to {names[z]}: {time} became {table[x][z]}", file=sys.stderr)


def refuse_detours(path, names, table, durations):
    found = list(detours(table, durations))
    if found:
        x, y, z = min(found)
        around = table[x][y] + durations[y] + table[y][z]
        sys.exit(f"{path}: from {names[x]} to {names[z]} takes {table[x][z]}, but by {names[y]}: {table[x][y]} + {durations[y]} + "
                 f"{table[y][z]} = {around}, with its duration {durations[y]}; a detour must not save time. "
                 f"{len({(a, c) for a, _, c in found})} entries are too great so; --close lowers them.")


def main():
    words = [word for word in sys.argv[1:] if word != "--close"]
    if len(words) != 3:
        sys.exit("usage: from_csv.py [--close] REQUESTS.csv STRIPS.csv MANOEUVRES.csv")
    faults = Faults()
    requests = records_of(words[0], ["name", "gain"], faults)
    gains = [faults.number(words[0], line, "gain", record["gain"], "gain") for line, record in requests]
    request_names = [record["name"] for _, record in requests]
    strip_names, strip_lines, windows = strips_of(words[1], request_names, faults)
    names, table = table_of(words[2], strip_names, windows, faults)
    faults.stop()
    durations = [duration for _, _, duration in windows]
    if len(words) < len(sys.argv) - 1:
        close(names, table, durations)
    refuse_detours(words[2], names, table, durations)
    lines = ["orbit 1", f"requests {len(gains)}"]
    for name, gain in zip(request_names, gains):
        lines += [f"# {name}", f"r {gain}"]
    lines.append(f"strips {len(strip_lines)}")
    for name, line in zip(strip_names, strip_lines):
        lines += [f"# {name}", line]
    lines += ["manoeuvres", *(" ".join(map(str, row)) for row in table), "end", ""]
    text = "\n".join(lines)
    check.Instance(text)  # what is written is an instance text
    sys.stdout.reconfigure(encoding="utf-8", newline="")
    sys.stdout.write(text)


if __name__ == "__main__":
    main()
