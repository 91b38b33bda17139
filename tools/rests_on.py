#!/usr/bin/env python3
"""What a clause rests on: the definitions that a reader must believe, followed name by name.

    tools/rests_on.py                         the headline and its parts, in numbers
    tools/rests_on.py CRATE FUNCTION CLAUSE   a clause, as in 'sequencer run run'; of a method as in 'bucket Bucket::insert answer';
                                              '-' is a clause without a name, as in 'closer finish -'
    tools/rests_on.py --from NAME             a definition, as in 'IsSolved', or 'strip_model.Optimal.Optimal'
    .. --list                                 each definition with its place, none before one that it uses; then types and words
    tools/rests_on.py --verify                whether the documents state these numbers; --write mends them there

It reads the clauses in crates/*/src and the definitions in crates/*/specs. A definition is what 'abbrev', 'unfoldable', 'record'
or 'data' begins; its lines are counted without comments and empty lines. Types and constants that the code declares are counted
apart, and so are words of the toolchain's libraries. It follows names as a reader would: it is no part of any proof.
"""

import argparse
import re
import signal
import sys
from pathlib import Path

TOP = Path(__file__).resolve().parent.parent
CRATES = TOP / "crates"

# What the documents state: the name in their marks, what it is in words, and from where the names are followed.
HEADLINES = {
    "optimal": ("that a plan is optimal", ["strip_model.Optimal.Optimal"]),
    "told": (
        "that an answer text tells an optimal plan of the instance whose text was read",
        ["instance_text.Text.IsText", "proof_log.AnswerText.IsLogText", "strip_model.Optimal.Optimal"],
    ),
    "proof": ("that a log is a proof", ["proof_log.Rules.IsProof"]),
    "accepted": ("all that 'accepted' says of the rest of the input", ["sequencer.Checking.IsAccepted"]),
    "solved": ("all that Optimal says", ["sequencer.Solving.IsSolved"]),
    "run": ("the whole clause", [("sequencer", "run", "run")]),
}
DOCUMENTS = ["README.md", "docs/DEFINITIONS.md"]
FIRST_PART = ["told", "proof", "accepted"]  # what the first part of docs/DEFINITIONS.md names
STATED = re.compile(r"<!-- rests on: (\w+) -->([\d,]+ definitions, [\d,]+ lines, in \d+ files)")

HEAD = re.compile(r"^(?:(?:abbrev|unfoldable)(?: pub)?|(?:pub )?(?:record|data)) (\S+)")
LAW = re.compile(r"^(?:pub )?([^\s:]+) :(?: |$)")
IMPORT = re.compile(r"^(?:pub )?use (\S+?)(?:\.\{(.*)\}| as (\S+))?;?$")
TOKEN = re.compile(r'"[^"]*"|--(?=\s|$).*|[(){}\[\];,λ]|\.[^\s(){}\[\];,.]*|[^\s(){}\[\];,."λ]+(?:\.[^\s(){}\[\];,."λ]+)*')


class Lost(Exception):
    """A name, a file or a clause isn't where it should be."""


def tokens_of(text):
    """The tokens of some lines, but for texts and comments."""
    return [t for t in TOKEN.findall(text) if not t.startswith(('"', "--"))]


class Scope:
    """The names that a file brings in: each with its path and its name there, and other names for whole modules."""

    def __init__(self, path):
        self.path, self.imports, self.aliases = path, {}, {}

    def add(self, line):
        path, names, alias = IMPORT.match(" ".join(line.split())).groups()
        if alias:
            self.aliases[alias] = path
        for name in filter(None, re.split(r",\s*", names or "")):
            there, _, here = name.partition(" as ")
            self.imports[here or there] = (path, there)

    def operator(self, token):
        """The operator among the names, of the form ◌+◌, to which a token belongs."""
        token = ">>=" if token == "do" else token
        return next((n for n in self.names() if "◌" in n and token in n.split("◌")), None)

    def names(self):
        return list(self.imports)

    def resolve(self, name):
        return self.imports.get(name)


class Definition:
    """A definition: its file, its name, the number of its first line, and its lines without comments."""

    def __init__(self, module, name, line):
        self.module, self.path, self.name, self.line, self.text = module, module.path, name, line, []

    def kind(self):
        return re.search("abbrev|unfoldable|record|data|$", self.text[0]).group() or "law"


class Module(Scope):
    """A file of definitions."""

    def __init__(self, path):
        super().__init__(path)
        self.defined, self.constructors = {}, {}
        current, lines = None, path.read_text(encoding="utf-8").splitlines()
        for number, line in enumerate(lines):
            indented = any(outer.startswith("module _") for outer in lines[:number]) and line.startswith("  ")
            text = line[2:] if indented else line
            if not text.strip() or text.lstrip().startswith("--"):
                continue
            head, law = HEAD.match(text), None if text[0].isspace() else LAW.match(text)
            if re.match(r"(pub )?use ", text):
                self.add(text)
            elif head or (law and not (current and current.name == law.group(1))):
                name = (head or law).group(1)
                current = self.defined[name] = Definition(self, name, number + 1)
            if current and not re.match(r"(pub )?(use|mod) |module _|infix", text):
                current.text.append(text)
                constructor = LAW.match(text.strip())
                if current.kind() == "data" and text[0].isspace() and constructor:
                    self.constructors[constructor.group(1)] = current

    def names(self):
        return [*self.imports, *self.defined]

    def resolve(self, name):
        return self.defined.get(name) or self.constructors.get(name) or self.imports.get(name)


class Declared:
    """A type, a trait or a constant that the code declares."""

    def __init__(self, crate, name, path, line, text):
        self.crate, self.name, self.path, self.line, self.text = crate, name, path, line, text

    def kind(self):
        return "constant" if self.name.isupper() else "type"


class Code(Scope):
    """A file of code, with what its 'ghost use' lines bring in, and the bounds of the type parameters of a function."""

    def __init__(self, library, crate, path):
        super().__init__(path)
        self.library, self.crate, self.text, self.bounds = library, crate, library.code[crate][path], {}
        for m in re.finditer(r"^\s*ghost (use [^;]+);", self.text, re.M):
            self.add(m.group(1))

    def resolve(self, name):
        return self.imports.get(name) or self.declared(self.bounds.get(name, name))

    def declared(self, name):
        """What the code of this file means by the name of a type, if that is of this repository."""
        found = self.library.declared.get((self.crate, name))
        for m in re.finditer(r"^use (\w+)::(?:\{([^}]*)\}|(\w+));", self.text, re.M):
            if not found and name in re.findall(r"\w+", m.group(2) or m.group(3)):
                found = self.library.declared.get((m.group(1), name))
        return found

    def clause(self, function, clause):
        """The text of a clause of a function of this file, or None."""
        kind, _, name = function.rpartition("::")
        for m in re.finditer(rf"\bfn {re.escape(name)}\b", self.text):
            owner = re.findall(r"^(?:impl|pub trait|trait)\b[^{]*", self.text[: m.start()], re.M)
            if kind and not (owner and re.search(rf"\b{re.escape(kind)}\b", owner[-1])):
                continue
            body = re.compile(r"^\s*\{", re.M).search(self.text, m.end())
            head = self.text[m.start() : body.start() if body else len(self.text)]
            found = re.search(r"\bensures \{" if clause == "-" else rf"\bensures {re.escape(clause)} \{{", head)
            if found:
                self.bounds = dict(re.findall(r"(\w+): (?:\w+ \+ )*(\w+)", head[: head.index("(")]))
                return head[found.end() : end_of_braces(head, found.end() - 1)]
        return None


def end_of_braces(text, start):
    """Behind the bracket that closes the one at or behind this place, or behind a semicolon before any."""
    depth = 0
    for m in re.compile(r"[{}()\[\];]").finditer(text, start):
        depth += (m.group() in "{([") - (m.group() in "})]")
        if depth == 0 and m.group() in "};":
            return m.end()
    return len(text)


class Library:
    """All crates: their definitions, their code, and what their code declares."""

    def __init__(self):
        self.modules, self.code, self.declared = {}, {}, {}
        for path in sorted(CRATES.glob("*/specs/**/*.antt")):
            crate, _, *parts = path.relative_to(CRATES).with_suffix("").parts
            self.modules[crate, *parts] = Module(path)
        for path in sorted(CRATES.glob("*/src/**/*.rt")):
            text = path.read_text(encoding="utf-8")
            crate = path.relative_to(CRATES).parts[0]
            self.code.setdefault(crate, {})[path] = text
            for m in re.finditer(r"^\s*(?:pub(?:\([^)]*\))? )?(?:struct|enum|trait|const) (\w+)", text, re.M):
                line = text.count("\n", 0, m.start(1)) + 1
                found = Declared(crate, m.group(1), path, line, text[m.start() : end_of_braces(text, m.end())])
                self.declared.setdefault((crate, m.group(1)), found)

    def target(self, path, name):
        """What an imported name stands for: a definition, what the code declares, or a word of a library (a text)."""
        root, crate, *parts = path.split(".")
        if root != "Rattle" or crate not in self.code:
            return f"{path}.{name}"
        if parts[:2] == ["specs", "declared"]:
            within = {"TheVariants": -2, "Ghosts": -2}.get(parts[-1]) or (-1 if name == "Ghosts" else None)
            found = self.declared.get((crate, parts[within] if within else name))
        else:
            module = self.modules.get((crate, *parts[1:])) or self.modules.get((crate, *parts[1:-1]))
            found = module.resolve(name) if module and parts[0] == "specs" else None
        if found is None:
            raise Lost(f"no {name} in {path}")
        return self.target(*found) if isinstance(found, tuple) else found

    def meaning(self, scope, token):
        """What a token means in a scope; None where it is bound there, or a sign of the language."""
        head, _, rest = token.partition(".")
        if head in scope.aliases and rest:
            return self.target(scope.aliases[head], rest.split(".")[0])
        found = scope.resolve(head) or scope.resolve(scope.operator(head))
        return self.target(*found) if isinstance(found, tuple) else found

    def meanings(self, scope, text):
        """What the names in a text mean, in their order; the names of fields mean nothing."""
        tokens, found = tokens_of(text), []
        for k, token in enumerate(tokens):
            is_field = tokens[k + 1 : k + 2] == ["="] and k > 0 and tokens[k - 1] in "{;"
            if not token.startswith(".") and not is_field:
                found.append(self.meaning(scope, token))
        return [f for f in found if f is not None]

    def uses(self, item):
        """What a definition names; of a declared type the value that contracts see, or the types in it."""
        if isinstance(item, Definition):
            lines = [re.sub(r"^  pub [^:]* :", "", line) for line in item.text] if item.kind() == "record" else item.text
            return [u for u in self.meanings(item.module, "\n".join(lines)) if u is not item]
        scope = Code(self, item.crate, item.path)
        model = re.search(rf"^impl\b[^{{]*\bModel for {item.name}\b", scope.text, re.M)
        if model:
            value = re.search(r"ghost Value = \{(.*?)\};", scope.text[model.start() :], re.S)
            return self.meanings(scope, value.group(1))
        text = re.sub(r"//.*|#\[.*\]", "", item.text)
        if re.search(r"\b(trait|const)\b", text[:40]):
            return []
        if re.search(r"\benum\b", text[:40]):
            text = " ".join(re.findall(r"\([^()]*\)|\{[^{}]*\}", text[text.index("{") + 1 :]))
        found = [scope.declared(n) for n in re.findall(r"\b[A-Z]\w*", text) if n != item.name]
        return [f for f in found if f is not None]

    def definition(self, name):
        """The definition of a name, which may have its crate and its file before it."""
        *where, last = name.split(".")
        found = [m.defined[last] for key, m in self.modules.items() if last in m.defined and list(key[: len(where)]) == where]
        if len(found) != 1:
            raise Lost(f"{len(found)} definitions are called {name} {[place_of(d) for d in found]}")
        return found[0]

    def clause(self, crate, function, clause):
        """What a clause names."""
        for path in self.code.get(crate, {}):
            scope = Code(self, crate, path)
            text = scope.clause(function, clause)
            if text is not None:
                return self.meanings(scope, text)
        raise Lost(f"the crate {crate} has no function {function} with a clause {clause}")

    def roots(self, starts):
        return [r for s in starts for r in (self.clause(*s) if isinstance(s, tuple) else [self.definition(s)])]


def place_of(item):
    return f"{item.path.relative_to(TOP)}:{item.line}"


class Rest:
    """All that something rests on: definitions in reading order, types and constants, words of libraries."""

    def __init__(self, library, starts):
        roots = library.roots(starts)
        self.used, todo = {}, list(roots)
        while todo:
            item = todo.pop()
            if item not in self.used:
                self.used[item] = [] if isinstance(item, str) else library.uses(item)
                todo += self.used[item]
        self.words = sorted(i for i in self.used if isinstance(i, str))
        self.declared = sorted((i for i in self.used if isinstance(i, Declared)), key=lambda i: (i.kind(), i.crate, i.name))
        self.files = {}
        for item in [*roots, *self.used]:
            if isinstance(item, Definition):
                self.visit(item)
        self.definitions = [d for file in self.files for d in self.files[file]]

    def visit(self, item):
        """Puts the files that this definition's file uses before it: files import each other in no circle."""
        if item.path in self.files:
            return
        there = [i for i in self.used if isinstance(i, Definition) and i.path == item.path]
        for used in (u for i in sorted(there, key=lambda i: i.line) for u in self.used[i]):
            if isinstance(used, Definition) and used.path != item.path:
                self.visit(used)
        self.files[item.path] = sorted(there, key=lambda i: i.line)

    def statement(self):
        lines = sum(len(d.text) for d in self.definitions)
        return f"{len(self.definitions):,} definitions, {lines:,} lines, in {len(self.files)} files"

    def others(self):
        types = sum(i.kind() == "type" for i in self.declared)
        return f"besides, {types} types and {len(self.declared) - types} constants of the code, and {len(self.words)} words of libraries"

    def listing(self):
        for d in self.definitions:
            yield f"{place_of(d)}: {d.kind()} {d.name}"
        for i in self.declared:
            yield f"{place_of(i)}: {i.kind()} {i.name}"
        yield from (f"library: {word}" for word in self.words)


def verify(library, write):
    """How many statements of the documents are wrong. Where it writes, it mends the numbers."""
    true = {name: Rest(library, starts).statement() for name, (_, starts) in HEADLINES.items()}
    wrong = 0
    for document in DOCUMENTS:
        text = (TOP / document).read_text(encoding="utf-8")
        if not STATED.search(text):
            wrong += 1
            print(f"{document} states no numbers")
        for name, numbers in STATED.findall(text):
            if true.get(name) != numbers:
                wrong += 1
                print(f"{document} states of '{name}' {numbers}, and there are {true.get(name)}")
        if write:
            text = STATED.sub(lambda m: f"<!-- rests on: {m.group(1)} -->{true[m.group(1)]}", text)
            (TOP / document).write_text(text, encoding="utf-8")
    for fault in missing_names(library):
        wrong += 1
        print(f"{DOCUMENTS[1]}: {fault}")
    return wrong


def missing_names(library):
    """What docs/DEFINITIONS.md names that isn't defined there, and what the headline rests on that its first part doesn't name."""
    text = (TOP / DOCUMENTS[1]).read_text(encoding="utf-8")
    first = text.partition("<!-- headline -->")[2].partition("<!-- end of headline -->")[0]
    for names, files in re.findall(r"^\|[^|]*\|([^|]*)\|([^|]*)\|$", text, re.M):
        files = re.findall(r"`(\w+)\.antt`", files)
        there = [module for module in library.modules.values() if module.path.stem in files]
        for name in re.findall(r"`([^`]+)`", names):
            if not any(name in module.defined for module in there):
                yield f"it names {name}, which isn't defined in {' or '.join(files)}"
    reached = {d.name for part in FIRST_PART for d in Rest(library, HEADLINES[part][1]).definitions}
    yield from (f"its first part doesn't name {name}" for name in sorted(reached - set(re.findall(r"`([^`]+)`", first))))


def main():
    words = argparse.ArgumentParser(description=__doc__, formatter_class=argparse.RawDescriptionHelpFormatter)
    words.add_argument("clause", nargs="*", help="CRATE FUNCTION CLAUSE")
    words.add_argument("--from", dest="definition", metavar="NAME", help="a definition in place of a clause")
    words.add_argument("--list", action="store_true", help="each definition with its place; without a clause, of the headline")
    words.add_argument("--verify", action="store_true", help="compare with what the documents state")
    words.add_argument("--write", action="store_true", help="write the numbers into the documents")
    given = words.parse_args()
    if len(given.clause) not in (0, 3) or (given.clause and given.definition):
        words.error("give CRATE FUNCTION CLAUSE, or --from NAME, or neither")
    library = Library()
    if given.verify or given.write:
        wrong = verify(library, given.write)
        return 1 if wrong and not given.write else 0
    chosen = [("", [tuple(given.clause)])] if given.clause else [("", [given.definition])] if given.definition else None
    for what, starts in chosen or ([HEADLINES["run"]] if given.list else HEADLINES.values()):
        rest = Rest(library, starts)
        name = ", ".join(" ".join(s) if isinstance(s, tuple) else s for s in starts)
        print(f"{name}{' (' + what + ')' if what else ''}\n    {rest.statement()}\n    {rest.others()}")
        if given.list:
            print("\n".join(rest.listing()))
    return 0


if __name__ == "__main__":
    signal.signal(signal.SIGPIPE, signal.SIG_DFL)  # a reader may have enough, as 'head'
    try:
        sys.exit(main())
    except Lost as lost:
        sys.exit(f"rests_on: {lost}")
