"""What the scripts of this folder know of the texts of docs/FORMATS.md: lines that count, names in comments, the program."""
import re
import signal
import subprocess
import sys
import tempfile
from pathlib import Path

if hasattr(signal, "SIGPIPE"):
    signal.signal(signal.SIGPIPE, signal.SIG_DFL)  # `explain.py .. | head` ends quietly

PROGRAM = Path(__file__).resolve().parent.parent / "crates/strips/out/strips"


def read_text(path):
    """A file as text, one character a byte."""
    try:
        return Path(path).read_bytes().decode("latin-1")
    except OSError as error:
        sys.exit(f"{path} can't be read: {error.strerror}")


class Line:
    """A line that counts: its number from 1, its tokens, and the comment on the line right before it, which names it."""

    def __init__(self, number, tokens, comment):
        self.number, self.tokens, self.comment = number, tokens, comment


def lines_of(text):
    """How many lines a text has, and those that count."""
    pieces = text.split("\n")
    if pieces[-1] == "":
        pieces.pop()
    lines, comment = [], ""
    for number, piece in enumerate(pieces, 1):
        tokens = re.findall(r"[^ \t\r]+", piece)
        if tokens and tokens[0][0] != "#":
            lines.append(Line(number, tokens, comment))
            comment = ""
        else:
            comment = piece.strip(" \t\r#")
    return len(pieces), lines


def names_of(text):
    """The comments right before the lines of requests and of strips, decoded, or `request 2`, `strip 5` where there is none."""
    def names(word, kind):
        found = [line for line in lines_of(text)[1] if line.tokens[0] == word]
        comments = [line.comment.encode("latin-1").decode("utf-8", "replace") for line in found]
        return [comment or f"{kind} {i}" for i, comment in enumerate(comments)]
    return names("r", "request"), names("s", "strip")


def run(program, words, text):
    """Status and output of the program. Its input is a file, since a command that reads nothing would break a pipe."""
    try:
        with tempfile.TemporaryFile() as given:
            given.write(text.encode("latin-1"))
            given.seek(0)
            done = subprocess.run([program, *words], stdin=given, stdout=subprocess.PIPE, stderr=subprocess.PIPE)
    except OSError as error:
        sys.exit(f"no program at {program} ({error.strerror}): build it (README.md, \"Run it\"), or name it with --program")
    return done.returncode, done.stdout.decode("latin-1")


def take_option(words, option, default):
    """Takes an option and its value out of the words."""
    if option not in words:
        return default
    at = words.index(option)
    if at + 1 == len(words):
        sys.exit(f"{option} needs a value")
    value = words[at + 1]
    del words[at:at + 2]
    return value
