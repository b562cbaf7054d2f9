"""The functions of a crate's sources: where their bodies lie, and the paths under which a check names them."""

import functools
import itertools
import re
from dataclasses import dataclass

from tree import TOP

# Clauses stand in braces between the name of a function and its body.
CLAUSE = re.compile(r"\bfn \w+[\s\S]*\b(requires|ensures|ghost)\b[^{}]*\Z")
CYCLE = re.compile(r"#\[cycle\((\w+)\)\]\s*")
# What needs its body: a value that is known before a run, a type that only the body tells, a test, the program. And what a
# check names by more than its type: what a trait gives, and what implements one.
NEEDED = re.compile(r"\bconst fn\b|->\s*impl\b|#\[test|\bfn main\b|\btrait\b|\bimpl\b[^{]*\bfor\b")


@dataclass(frozen=True)
class Body:
    """The body of a function of its own name, by what a check calls the function: where its head, its body and what follows
    begin, and the cycle of calls that it says it is in."""

    function: str
    cycle: str
    head: int
    begin: int
    end: int


def bare(text):
    """A text with blanks for its comments and for what stands in quotes."""
    return re.sub(r'//[^\n]*|"(\\.|[^"\\])*"|\'(\\.|[^\'\\])\'', lambda it: " " * len(it[0]), text)


def places(code):
    """Each place of a text with the heads of the blocks that are open there, outermost first: where each begins, and where
    its brace is."""
    heads, since = [], 0
    for place, sign in enumerate(code):
        yield place, heads
        if sign == "{":
            heads.append((since, place))
            since = place + 1
        elif sign == "}" and heads:
            begin, end = heads.pop()
            since = begin if CLAUSE.search(code[begin:end]) else place + 1
        elif sign == ";":
            since = place + 1


def opened(code, at):
    """The heads of the blocks that are open at a place."""
    return next([*heads] for place, heads in places(f"{code} ") if place == at)


def end_of(code, begin):
    """Where the block ends whose brace is before a place."""
    depths = itertools.accumulate((it == "{") - (it == "}") for it in code[begin:])
    return begin + next(place for place, depth in enumerate(depths) if depth < 0)


def module_of(file):
    return [it for it in file.removeprefix("src/").removesuffix(".rt").split("/") if it not in ("lib", "main")]


@functools.cache
def modules_of_types(crate):
    """The modules of a crate's types, by their names."""
    found = {}
    for file in sorted((TOP / "crates" / crate / "src").rglob("*.rt")):
        for name in re.findall(r"\b(?:struct|enum) (\w+)", bare(file.read_text())):
            found.setdefault(name, []).append(module_of(str(file.relative_to(TOP / "crates" / crate))))
    return found


def implemented(heads):
    """The type of the `impl` among these heads, and its trait, if they have one."""
    impl = next((" ".join(it.split()) for it in heads if re.search(r"\bimpl\b", it)), "")
    while "<" in impl:
        impl = re.sub(r"<[^<>]*>", "", impl)
    kind = re.search(r"\bimpl\s+(?:([\w:]+)\s+for\s+)?&?([\w:]+)", impl)
    return [it.split("::")[-1] for it in (kind[2], kind[1] or "")] if kind else ["", ""]


def named(crate, module, heads):
    """What a check calls the innermost function of these heads in a module; None where there is none."""
    names = [it for head in heads for it in re.findall(r"\bfn (\w+)", head)[-1:]]
    if not names:
        return None
    kinds = [it for it in ["".join(implemented(heads))] if it]
    # a body that a trait gives its function stands below the trait
    kinds += [it for head in heads for it in re.findall(r"\btrait (\w+)", head)]
    return "::".join([crate, *module, *kinds, names[-1]])


def home_of(crate, file, heads):
    """The module below which a check finds the innermost function of these heads: a type's own functions stand below the
    type, wherever they are written."""
    kind, trait = implemented(heads)
    homes = [] if trait else modules_of_types(crate).get(kind, [])
    return homes[0] if homes and module_of(file) not in homes else module_of(file)


def owner(crate, file, text, at):
    """The function around a place of a file, by the path under which a check names it, where a type's functions are written
    beside the type; None where there is none."""
    code = bare(text)
    return named(crate, module_of(file), [code[slice(*it)] for it in opened(code, at)])


def is_for_some(head):
    """Whether a head is that of an `impl` for some types of a generic one alone: a check names its functions by these too."""
    impl = re.search(r"\bimpl\b\s*(<(?:[^<>]|<(?:[^<>]|<[^<>]*>)*>)*>)?([^{]*)", head)
    given = impl and re.search(r"<(.*)>", impl[2].partition(" where ")[0], re.S)
    taken = {it.split(":")[0].strip() for it in re.sub(r":[^,]*<[^<>]*>", "", (impl[1] or "")[1:-1]).split(",")} if impl else ()
    return bool(given) and any(it.strip() not in taken for it in given[1].split(",") if "'" not in it)


def bodies(crate, file, text):
    """The bodies of a file's functions but those that a check needs or names by more than their type."""
    code, last = bare(text), 0
    for place, heads in places(code):
        if not heads or heads[-1][1] != place - 1 or place < last:
            continue
        said = [code[slice(*it)] for it in heads]
        if re.search(r"\bfn \w", said[-1]) and not CLAUSE.search(said[-1]):
            last = end_of(code, place)
            if not any(NEEDED.search(it) or is_for_some(it) for it in said):
                cycle = CYCLE.search(said[-1])
                yield Body(named(crate, home_of(crate, file, said), said), cycle[1] if cycle else "", heads[-1][0], place, last)
