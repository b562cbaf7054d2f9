"""What a case of `tools/program` is: how the program is started, and what it must write."""

import re
from dataclasses import dataclass, field

import tails

SCRIPT = "script.olap"


def as_bytes(text):
    return text if isinstance(text, bytes) else text.encode()


@dataclass
class Text:
    """A text of which not all is told: what it begins with, and what stands somewhere in it."""

    begins: str = ""
    has: str = ""

    def is_met_by(self, got):
        return got.startswith(self.begins.encode()) and self.has.encode() in got

    def __str__(self):
        return f"(a text that begins with {self.begins!r} and has {self.has!r})"


@dataclass
class OneOf(Text):
    """One of several texts: any of them is right."""

    texts: tuple = ()

    def __init__(self, texts):
        super().__init__()
        self.texts = tuple(as_bytes(text) for text in texts)

    def is_met_by(self, got):
        return got in self.texts

    def __str__(self):
        return " or ".join(map(repr, self.texts))


@dataclass
class Like(Text):
    """A text of which each line is like one of these, whatever their order; what stands for a line is a regular expression."""

    lines: tuple = ()

    def __init__(self, *lines):
        super().__init__()
        self.lines = lines

    def is_met_by(self, got):
        left = list(self.lines)
        for line in got.decode(errors="backslashreplace").splitlines():
            like = next((it for it in left if re.fullmatch(it, line)), None)
            if like is None:
                return False
            left.remove(like)
        return not left

    def __str__(self):
        return f"(lines like {self.lines!r}, in some order)"


@dataclass
class Viewed(Text):
    """What a script writes, and a lawful tail of so many viewers and shots after it, or their blocks as they come;
    `editions` has the lines of the report on each edition, by its number."""

    output: str = ""
    viewers: int = 0
    shots: int = 0
    editions: dict = field(default_factory=dict)
    as_they_come: bool = False
    between: bool = False

    def is_met_by(self, got):
        return self.fault_in(got.decode(errors="backslashreplace")) is None

    def fault_in(self, text):
        if self.as_they_come:
            return tails.fault_together(text, self.output, self.viewers, self.shots, self.editions, self.between)
        if not text.startswith(self.output):
            return "another output"
        return tails.fault_of(text[len(self.output) :], self.viewers, self.shots, self.editions)

    def __str__(self):
        return f"({self.output!r} and lawful blocks of {self.viewers} viewers)"


@dataclass
class Case:
    """One start of the program. `files` lie in the folder that it runs in; the name of a folder has None. Its
    standard input is the file of the name `given`, or nothing. `output` and `errors` are what it writes to
    standard output and to standard error: a str, bytes or a Text."""

    title: str
    words: list
    files: dict = field(default_factory=dict)
    given: str = ""
    output: object = ""
    errors: object = ""
    status: int = 0


def script(title, text, output, parts=(), options=(), status=0, errors=""):
    """A script with its parts under `olap run`, and these options before their names."""
    names = [f"part{number}.csv" for number in range(1, len(parts) + 1)]
    files = {SCRIPT: text, **dict(zip(names, parts))}
    return Case(title, ["run", *options, SCRIPT, *names], files, "", output, errors, status)


def scripts(title, text, output, parts=(), options=((),)):
    """The same with each of several lists of options: one output for all."""
    return [script(f"{title}, {' '.join(each) or 'no options'}", text, output, parts, each) for each in options]


def block(edition, *rows):
    """What a report or a shape gives: the edition, and the lines below it."""
    return "\n".join([f"edition {edition}", *rows])


def of_lines(rows):
    """The text and the output of a script of these lines, each beside what it gives: None for nothing, the number of
    its refusal, or its block without the words `line L ` at the front and without the newline at the end. A line that
    gives nothing may stand by itself."""
    rows = [row if isinstance(row, tuple) else (row, None) for row in rows]
    output = ""
    for number, (_, gives) in enumerate(rows, 1):
        if isinstance(gives, int):
            gives = f"refused {gives}"
        if gives is not None:
            output += f"line {number} {gives}\n"
    return b"".join(as_bytes(line) + b"\n" for line, _ in rows), output


def lines(title, rows, parts=(), options=()):
    """A script of these lines, as `of_lines` takes them."""
    return script(title, *of_lines(rows), parts, options)


def lines_by(title, rows, parts=(), options=((),)):
    """The same with each of several lists of options: one output for all."""
    return scripts(title, *of_lines(rows), parts, options)
