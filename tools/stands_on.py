#!/usr/bin/env python3
"""Whether the tables of crates and lemmas in docs/ are true.

    tools/stands_on.py            compares them with crates.txt and the code; its status is 1 where something is wrong
    tools/stands_on.py --write    writes the column "Stands on" and the table of lemmas of docs/ARCHITECTURE.md anew, and puts the
                                  rows of both tables of crates in order
    tools/stands_on.py CRATE      the crates that are proved again after a change in this one

A crate stands on what its line in crates.txt lists. The column names the crates of this repository alone, in the order of that
line; "(tests)" are those that only the crate's tests name, "(not named)" those that no file of it names. Each crate has one row
in docs/ARCHITECTURE.md, and one in docs/PROVED.md where it has more than tests; no row is above one on which its crate stands.
The table of lemmas has the files of proofs that crates above cite, each with the sentence with which it begins.
"""

import re
import sys
from pathlib import Path

TOP = Path(__file__).resolve().parent.parent
ROW = re.compile(r"^\| `(\w+)` \|([^|]*)\|([^|]*)\|(.*)$", re.M)
LEMMAS = re.compile(r"(<!-- lemmas -->\n\n.*\n.*\n)((?:\|.*\n)*)(\n<!-- end of lemmas -->)")
NOT_PROVED = {"strips"}  # the program, of which only its call of run is proved


def read_crates():
    """The crates of this repository that each crate's line lists."""
    lines = [line.split("#")[0].strip() for line in (TOP / "crates.txt").read_text(encoding="utf-8").splitlines()]
    listed = {line.split(":")[0].split()[0]: line.split(":")[1].split() for line in lines if line}
    return {crate: [name for name in names if name in listed] for crate, names in listed.items()}


def is_test(path):
    return path.stem.endswith("tests") or "tests" in path.parts


def is_of_tests(crate):
    """Whether a crate has tests alone."""
    return all(is_test(p) or p.name == "lib.rt" for p in (TOP / "crates" / crate / "src").rglob("*.rt"))


def named_in(crate, tests):
    """The crates that the code, the definitions and the proofs of a crate name, or that its tests do."""
    files = [p for p in (TOP / "crates" / crate).glob("*/**/*") if p.suffix in (".rt", ".antt") and "out" not in p.parts]
    texts = [p.read_text(encoding="utf-8") for p in files if is_test(p) == tests]
    return {name for text in texts for names in re.findall(r"\bRattle\.(\w+)\.|\b(\w+)::", text) for name in names}


def column(crate, names):
    """What the column says of a crate."""
    if is_of_tests(crate):
        return "what the tests name"
    code, tests = named_in(crate, False), named_in(crate, True)
    return ", ".join(f"`{n}`" + ("" if n in code else " (tests)" if n in tests else " (not named)") for n in names)


def true_row(row, crates):
    """A row of the table of crates with the true third column; another row as it is."""
    if row[1] not in crates:
        return row[0]
    said = column(row[1], crates[row[1]])
    return f"| `{row[1]}` |{row[2]}|{' ' + said if said else ''} |{row[4]}"


def in_order(text, crates):
    """The text with the rows of crates so placed that none is above one on which its crate stands."""
    lines = text.splitlines(keepends=True)
    places = [k for k, line in enumerate(lines) if (m := ROW.match(line)) and m[1] in crates]
    left = [lines[k] for k in places]
    for k in places:
        waiting = {ROW.match(line)[1] for line in left}
        line = next(line for line in left if not waiting & set(crates[ROW.match(line)[1]]))
        lines[k] = line
        left.remove(line)
    return "".join(lines)


def lemmas(crates):
    """The rows of the table of lemmas: crates in the order of crates.txt, files by name."""
    cited = set()
    for path in (TOP / "crates").rglob("*"):
        if path.suffix in (".rt", ".antt") and "out" not in path.parts:
            own = path.relative_to(TOP / "crates").parts[0]
            found = re.findall(r"\bRattle\.(\w+)\.proofs\.(\w+)", path.read_text(encoding="utf-8"))
            cited |= {(crate, name) for crate, name in found if crate != own and crate in crates}
    for crate, name in sorted(cited, key=lambda c: (list(crates).index(c[0]), c[1])):
        path = TOP / "crates" / crate / "proofs" / f"{name}.antt"
        if path.exists():
            comment = re.match(r"(?:--.*\n)+", path.read_text(encoding="utf-8")).group()
            said = re.split(r"(?<=\.) ", " ".join(line[3:] for line in comment.splitlines()))[0]
            yield f"| `{crate}/proofs/{name}.antt` | {said.rstrip('.')} |\n"


def above(crates, changed):
    """The crates that stand on this one, directly or not, lowest first as far as crates.txt has them so."""
    found = {changed}
    while more := {crate for crate in crates if crate not in found and found & set(crates[crate])}:
        found |= more
    return [crate for crate in crates if crate in found - {changed}]


def main():
    crates, wrong = read_crates(), []
    for changed in (word for word in sys.argv[1:] if word in crates):
        print(f"{changed}: {len(above(crates, changed))} of {len(crates)}: {' '.join(above(crates, changed))}")
        return 0
    path = TOP / "docs/ARCHITECTURE.md"
    text, table = path.read_text(encoding="utf-8"), "".join(lemmas(crates))
    if "--write" in sys.argv[1:]:
        text = ROW.sub(lambda m: true_row(m, crates), text)
        text = in_order(LEMMAS.sub(lambda m: m[1] + table + m[3], text), crates)
        path.write_text(text, encoding="utf-8")
        proved = TOP / "docs/PROVED.md"
        proved.write_text(in_order(proved.read_text(encoding="utf-8"), crates), encoding="utf-8")
    if LEMMAS.search(text)[2] != table:
        wrong.append("docs/ARCHITECTURE.md: the table of lemmas isn't that of the files that crates above cite")
    rows = [(m[1], m[3].strip()) for m in ROW.finditer(text) if m[1] in crates]
    passed = set()
    for crate, said in rows:
        if said != column(crate, crates[crate]):
            wrong.append(f"docs/ARCHITECTURE.md: `{crate}` stands on {column(crate, crates[crate])}, not on {said}")
        wrong += [f"docs/ARCHITECTURE.md: `{crate}` is above `{name}`, on which it stands" for name in crates[crate] if name not in passed]
        passed.add(crate)
    proved = re.findall(r"^\| `(\w+)` \|", (TOP / "docs/PROVED.md").read_text(encoding="utf-8"), re.M)
    for place, crate in enumerate(proved):
        wrong += [f"docs/PROVED.md: `{crate}` is above `{name}`" for name in crates.get(crate, []) if name in proved[place:]]
    for document, there, wanted in (
        ("docs/ARCHITECTURE.md", [crate for crate, _ in rows], set(crates)),
        ("docs/PROVED.md", proved, {crate for crate in crates if not is_of_tests(crate)} - NOT_PROVED),
    ):
        wrong += [f"{document}: no row of `{crate}`" for crate in sorted(wanted - set(there))]
        wrong += [f"{document}: a row too many of `{crate}`" for crate in sorted(set(there)) if there.count(crate) > 1 or crate not in wanted]
    for document in (TOP / "README.md", *sorted((TOP / "docs").glob("*.md"))):
        for place in re.findall(r"`(\w+/(?:src|specs|proofs)(?:/[\w/.]+)?)`", document.read_text(encoding="utf-8")):
            if not (TOP / "crates" / place).exists() and not (TOP / place).exists():
                wrong.append(f"{document.relative_to(TOP)}: there is no {place}")
    print("\n".join(wrong) if wrong else f"{len(crates)} crates: the tables are true")
    return 1 if wrong else 0


if __name__ == "__main__":
    sys.exit(main())
