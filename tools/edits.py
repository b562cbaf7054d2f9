"""The edits of crates/NAME/refused/: what each changes, which goal refuses it, and which of them one check can judge
(tools/refused)."""

import re
from dataclasses import dataclass, field

from functions import bare, end_of, opened, owner
from tree import TOP

# How many edits one check judges.
MOST = 60

# What a check tries by itself at a goal that has no answer, and where the names in it stand.
TRIED = ["search rules", "grind (arith, common_steps)"]
LISTED = {"rules": "Rattle.std.proofs.Common", "arith": "Rattle.std.proofs.Common", "common_steps": "Rattle.std.proofs.lemmas.Grind"}
# Where an answer begins, and a function.
ANSWER = re.compile(r"pub (\S+) : goal\.")
HEAD = r"(?m)^([ \t]*)((?:pub(?:\(\w+\))? )?(?:const )?fn {}\b)"


class BadEdit(Exception):
    """An edit that no check can judge, and why."""


@dataclass(eq=False)
class Edit:
    """An edit: its pairs of texts, and the functions that it has to do with, of which one is judged by its goals."""

    crate: str
    name: str
    is_trial: bool = False
    text: str = ""
    pairs: list = field(default_factory=list)
    function: str = ""
    touched: set = field(default_factory=set)
    # The goal that refuses it, with the names that an answer binds, as `returns g c`; and whether the answer that stands written for
    # it judges the edit, and no search.
    goal: str = ""
    is_written: bool = False
    # What is to be said of a trial.
    verdict: str = ""
    # It changes a constant or a type, which many functions may rest on.
    is_wide: bool = False
    # The text of the function, where it stands once, and what the edit makes of it; and that as a copy, which has the name of
    # the edit, where one can stand beside the function.
    whole: str = ""
    changed: str = ""
    copy: str = ""

    @property
    def file(self):
        """Where the edit stands."""
        return TOP / "crates" / self.crate / "refused" / f"{self.name}.edit"

    @property
    def named(self):
        """The name of the goal that refuses it."""
        return self.goal.partition(" ")[0]

    @property
    def texts(self):
        """What takes the place of what in which file, and how much of that is the edit's own."""
        path, name = self.pairs[0][0], self.function.rpartition("::")[2]
        if self.copy:
            copy = quiet(self.copy, self.name) if self.goal else self.copy
            return [(path, self.whole, self.whole + copy, copy)]
        if self.goal and self.whole:
            changed = quiet(self.changed, name)
            return [(path, self.whole, changed, changed)]
        return [(path, old, new, new) for path, old, new in self.pairs]

    @property
    def judged(self):
        """The function whose goals judge the edit."""
        return f"{self.function.rpartition('::')[0]}::{self.name}" if self.copy else self.function


def proofs_of(top, crate, function):
    """The folder of a function's proofs."""
    return top.joinpath("crates", crate, "proofs", *function.split("::")[1:])


def answers_of(top, crate, function):
    """The file of a function's answers. One that calls itself has it in a folder '+NAME'."""
    folder = proofs_of(top, crate, function)
    own = folder.parent / f"+{folder.name}"
    return (own if own.is_dir() else folder) / "Answers.antt"


def quiet(text, name):
    """The text of a function where a check tries nothing at the goals that have no answer."""
    text = re.sub(r"(?m)^[ \t]*#\[tactic\(auto\b.*\)\]\n", "", text)
    return re.sub(HEAD.format(name), r"\1#[tactic(none)]\n\1\2", text, count=1)


def binders(text, goal):
    """The names that an answer which stands written binds, or None."""
    found = re.search(rf"(?m)^pub {re.escape(goal)} : goal\.[^\n]*\n(?:unfolding [^\n]*\n)?{re.escape(goal)}((?: [^\s=]+)*) =", text)
    return found and found[1].strip()


def cited(text, goal):
    """The lemmas that the answer to a goal cites: a search that tries these judges a body, whatever its steps are called."""
    own = set(only(text, goal).splitlines()) - set(only(text, "").splitlines())
    said = {word for line in own for word in re.findall(r"[^\s(){}\[\],;]+", line)}
    brought = re.findall(r"(?ms)^use (\S+)\.\{([^}]*)\}", text)
    lemmas = [it for at, names in brought if ".proofs." in at and not at.endswith((".Common", ".Goals")) for it in re.split(r"[,\s]+", names)]
    return [it for it in lemmas if it in said]


def own_tactic(edit):
    """What a tactic of the function's own brings to each of its goals: lemmas, and definitions that it opens, by where they stand."""
    said = "".join(re.findall(r"#\[tactic\(auto, (.*)\)\]", edit.whole.partition("fn ")[0]))
    found = []
    for word in ("using", "unfolding"):
        paths = [it.strip().split("::") for lists in re.findall(rf"\b{word}\(([^)]*)\)", said) for it in lists.split(",")]
        found.append({it[-1]: ".".join(["Rattle", edit.crate if it[0] == "crate" else it[0], *it[1:-1]]) for it in paths})
    return found


def answered(edit):
    """The goals of an edit's function that have an answer which stands written."""
    file = answers_of(TOP, edit.crate, edit.function)
    return set(ANSWER.findall(file.read_text())) if file.is_file() else set()


def only(text, goal):
    """A file of answers without those to other goals."""
    kept, of = [], None
    for line in text.splitlines():
        begins = ANSWER.match(line)
        if begins:
            of = begins[1]
        elif of and re.match(r"[^\s\])}]", line) and line.split()[0] not in (of, "unfolding"):
            of = None
        if of in (None, goal):
            kept.append(line)
    return "\n".join(kept)


def answer(room, edit):
    """Writes into a room that of an edit's function nothing but the goal that the edit names is tried: by what a check tries by
    itself, and by the lemmas that the answer cites which stands written for it; or by that answer, where the edit says so. Where an
    answer fails a check says no more of the function. Where all have failed that it tried by itself it reads all once more, to
    print what is missing."""
    if not edit.goal:
        return
    file, (name, _, names) = answers_of(room, edit.crate, edit.judged), edit.goal.partition(" ")
    file.parent.mkdir(parents=True, exist_ok=True)
    text = file.read_text() if file.is_file() else ""
    lemmas, names = cited(text, name), binders(text, name) or names
    text = only(text, name if edit.is_written else "")
    if not edit.is_written:
        brought = {name for it in re.findall(r"^use [^{\n]*\{([^}]*)\}", text, re.M) for name in re.split(r"[,\s]+", it)}
        using, unfolding = own_tactic(edit)
        listed = {**LISTED, **using, **unfolding}
        uses = [f"use {at}.{{{name}}}" for name, at in listed.items() if name not in brought]
        if not re.search(r"^use \S+ as goal$", text, re.M):
            module = ".".join(["Rattle", edit.crate, *file.parent.relative_to(room / "crates" / edit.crate).parts])
            uses.append(f"use {module}.Goals as goal")
        opened = [f"unfolding {' '.join(unfolding)}"] if unfolding else []
        more = [f"{how} ({', '.join([first, *lemmas])})" for how, first in (("search", "rules"), ("grind", "arith, common_steps"))]
        tried = [*TRIED, *[f"grind ({', '.join(['arith', *using])})"] * bool(using), *more * bool(lemmas)]
        said = f"{' '.join([name, *names.split()])} = first_of ({', '.join(tried)})"
        text = "\n".join([*uses, text, f"pub {name} : goal.{name}", *opened, said, ""])
    file.write_text(text)


def offered(said, edit):
    """The goals of an edit's own function for which a check says that it has no answer, each as a line `goal:` has it."""
    found, is_own = [], False
    for line in said:
        head = re.match(r"help: (?:add these lines to|write) (?:\./)?proofs/(\S+)/Answers\.antt", line)
        if head:
            is_own = head[1].replace("+", "").split("/") == edit.judged.split("::")[1:]
        elif not line.startswith("    "):
            is_own = False
        elif is_own and (goal := re.fullmatch(r"    (\S.*) = \?", line)):
            found.append(goal[1])
    return found


def name_goal(edit, failed, said):
    """Writes the goal into the file of an edit by which a check of all its goals refused it: one at which the check tried what it
    tries by itself, or one that has an answer; first one of what the function promises, which says more than what it needs on its
    way."""
    goals = (edit.whole and offered(said, edit)) or [it for it in failed if it in answered(edit)]
    lines = [it for it in edit.text.splitlines() if not it.startswith("goal:")]
    at = next(number for number, it in enumerate(lines) if it.startswith("old:"))
    lines[at:at] = [f"goal: {it}" for it in sorted(goals, key=lambda it: not it.startswith("returns"))[:1]]
    edit.file.write_text("\n".join(lines) + "\n")


def take_copy(edit):
    """Has the edit change a copy of its function, where one can stand beside it: not in a trait or what implements one,
    nor in a cycle of calls, whose functions have one proof."""
    path = edit.pairs[0][0]
    text = (TOP / "crates" / edit.crate / path).read_text()
    code = bare(text)
    heads = opened(code, text.index(edit.pairs[0][1]) + len(edit.pairs[0][1].rstrip()))
    begin, brace = next(it for it in reversed(heads) if re.search(r"\bfn \w", code[slice(*it)]))
    whole = text[begin : end_of(code, brace + 1) + 1]
    name = edit.function.rpartition("::")[2]
    changed = whole
    for _, old, new in edit.pairs:
        changed = changed.replace(old, new)
    is_of_trait = any(re.search(r"\btrait\b|\bimpl\b[^{]*\bfor\b", code[slice(*it)]) for it in heads)
    is_in_cycle = "#[cycle(" in whole
    calls_itself = answers_of(TOP, edit.crate, edit.function).parent.name.startswith("+")
    is_whole = all(it[0] == path for it in edit.pairs) and "//!" not in whole and text.count(whole) == 1
    if is_whole and not is_in_cycle:
        edit.whole, edit.changed = whole, changed
    if edit.whole and not is_of_trait and not calls_itself and not re.search(rf"\b{edit.name}\b", text):
        edit.copy = re.sub(rf"\bfn {name}\b", f"fn {edit.name}", changed, count=1)
        edit.touched = {f"{it.rpartition('::')[0]}::{edit.name}" for it in edit.touched}


def read_edit(file, crate, is_trial, changes_nothing=False):
    """Reads an edit, and sees that its texts stand where it says. It may be turned into one that changes nothing."""
    edit, path, old, named, texts = Edit(crate, file.stem, is_trial, file.read_text()), None, None, None, {}
    for line in edit.text.split("\n"):
        word, _, rest = line.partition(":")
        rest = rest.removeprefix(" ")
        if word == "file":
            path = rest.strip()
        elif word == "function":
            named = f"{crate}::{rest.strip()}"
        elif word == "goal":
            edit.goal = rest.strip()
        elif word == "answer":
            edit.is_written = rest.strip() == "written"
        elif word == "verdict":
            edit.verdict = rest.strip()
        elif word == "old":
            old = rest
        elif word == "new" and path and old:
            text = texts.get(path) or (TOP / "crates" / crate / path).read_text()
            if text.count(old) != 1:
                raise BadEdit(f"an old text stands in {path} {text.count(old)} times, and not once")
            edit.touched.add(owner(crate, path, text, text.index(old) + len(old.rstrip())))
            # (what an earlier pair made does not stand where nothing is changed)
            if not changes_nothing or old in (TOP / "crates" / crate / path).read_text():
                edit.pairs.append((path, old, old if changes_nothing else rest))
            texts[path], old = text.replace(old, rest), None
    if not edit.pairs:
        raise BadEdit("it has no pair of lines 'old:' and 'new:' behind a line 'file:'")
    edit.is_wide = None in edit.touched
    edit.touched -= {None}
    if named is None and len(edit.touched) != 1:
        raise BadEdit("a line 'function:' is to name the function that refuses it")
    edit.function = named or min(edit.touched)
    edit.touched.add(edit.function)
    # (a check may have another path for the function around a text, by its types or by where its type stands)
    if len({it.rpartition("::")[2] for it in edit.touched}) == 1 and not edit.is_wide:
        take_copy(edit)
    return edit


def read_edits(folder, crate, is_trial, changes_nothing=False):
    """The edits of a folder, and what came of those that can't be tried."""
    edits, bad = [], []
    for file in sorted(folder.glob("*.edit")):
        try:
            edits.append(read_edit(file, crate, is_trial, changes_nothing))
        except (BadEdit, OSError) as why:
            verdict = re.search(r"(?m)^verdict: (.*)$", file.read_text())
            bad.append((Edit(crate, file.stem, is_trial, verdict=verdict[1] if verdict else ""), False, f"BAD EDIT: {why}"))
    return edits, bad


def rounds(edits):
    """Edits that one check can judge: no two that have to do with one function, a wide one by itself, and not too many."""
    made = []
    for edit in edits:
        met = lambda other: (other.touched | {other.function}) & edit.touched or other.touched & {edit.function}
        fits = lambda other: not (other.is_wide or met(other))
        chosen = None if edit.is_wide else next((it for it in made if len(it) < MOST and all(map(fits, it))), None)
        if chosen is None:
            made.append(chosen := [])
        chosen.append(edit)
    return made
