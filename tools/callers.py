#!/usr/bin/env python3
"""Finds functions that nothing calls.

usage: tools/callers.py

Reads the code of all crates (crates/NAME/src) and follows the calls from the functions that are there to be called:

- `main` of each program and each function that is exported to C;
- the calls that README.md names, in the rows `| crate | calls |` of its table.

Methods count as functions of their crate. Of which type a method is called is not known here, so a call `x.name(..)` or `Type::name(..)` goes to every
method of that name. A method of a trait's impl counts as called, since `?`, `for` and the library call such methods unseen.

A crate whose name begins with test_ or bench_ is a test. Prints each function that is not reached at all, and each function outside the tests that
only tests reach. Prints too what the table names and the code does not have. Ends with status 1 where one of these but the second was found.
"""
import re
import sys
from pathlib import Path

ROOT = Path(__file__).resolve().parent.parent
HEAD = re.compile(r'^( *)(?:pub )?(extern "C" )?fn ([a-z_0-9]+)', re.MULTILINE)
IMPL = re.compile(r"^(?:impl\b|pub trait\b|trait\b)[^{;]*", re.MULTILINE)
GHOST = re.compile(r"^ *ghost\b.*$", re.MULTILINE)
CLAUSE = re.compile(r"^ *(?:requires|ensures)\b[^{\n]*\{", re.MULTILINE)
# What stands in front of a called name: nothing, the dot of a method, a type or a module; and the name.
CALL = re.compile(r"(?:(\.)\s*|(?:\b([A-Z]\w*)|(>)|\b([a-z_0-9]+))::)?\b([a-z_0-9]+)(?:::<[^()]*>)?\(")
ROW = re.compile(r"^\| `([a-z_0-9]+)` \|(.*)$", re.MULTILINE)
WORD = re.compile(r"`([a-z_0-9]+)`")


def is_test(function):
    return function[0].startswith(("test_", "bench_"))


def without_clauses(text):
    """A text without its clauses, which go on to the brace that closes them."""
    kept, at = [], 0
    for clause in CLAUSE.finditer(text):
        if clause.start() >= at:
            kept.append(text[at : clause.start()])
            at, depth = clause.end(), 1
            while depth and at < len(text):
                depth += (text[at] == "{") - (text[at] == "}")
                at += 1
    return "".join(kept) + text[at:]


def is_of_trait(impls, at):
    """Is what stands at a place, within an impl, in one by which a type has a trait?"""
    before = [impl for impl in impls if impl.start() < at]
    return bool(before) and (" for " in before[-1].group() or "trait" in before[-1].group())


def functions_of(crate, text):
    """The functions of a file: (name, is it a method, is it called from outside, its text without comments and contracts)."""
    text = without_clauses(GHOST.sub("", re.sub(r"//.*", "", text)))
    heads, impls = list(HEAD.finditer(text)), list(IMPL.finditer(text))
    ends = [head.start() for head in heads[1:]] + [len(text)]
    for head, end in zip(heads, ends):
        indent, exported, name = head.groups()
        called = exported is not None or (indent != "" and is_of_trait(impls, head.start()))
        yield (crate, name), indent != "", called, text[head.end() : end]


def read_code():
    """What each function calls, and the functions that are called from outside: programs' main, those exported and those of a trait's impl."""
    bodies, roots, methods = {}, set(), {}
    for path in sorted(ROOT.glob("crates/*/src/**/*.rt")):
        crate = path.relative_to(ROOT).parts[1]
        for function, is_method, is_called, body in functions_of(crate, path.read_text(encoding="utf-8")):
            bodies[function] = bodies.get(function, "") + body
            if is_method:
                methods.setdefault(function[1], set()).add(function)
            if is_called or function[1] == "main":
                roots.add(function)
    crates = {crate for crate, _ in bodies}
    calls = {}
    for function, body in bodies.items():
        named = set()
        for dot, of_type, of_trait, module, name in CALL.findall(body):
            if dot or of_type or of_trait:
                named |= methods.get(name, set())
            else:
                named.add((module if module in crates else function[0], name))
        calls[function] = named & bodies.keys()
    return calls, roots


def reached(calls, start):
    """The functions that are called from the functions of start, themselves with them."""
    seen, waiting = set(), list(start)
    while waiting:
        function = waiting.pop()
        if function not in seen:
            seen.add(function)
            waiting.extend(calls[function])
    return seen


def calls_of_the_table():
    """The functions that README.md's table of calls names."""
    text = (ROOT / "README.md").read_text(encoding="utf-8")
    table = text.split("| crate | calls |", 1)[-1].split("\n\n", 1)[0]
    return {(crate, name) for crate, words in ROW.findall(table) for name in WORD.findall(words)}


def main():
    calls, roots = read_code()
    table = calls_of_the_table()
    unknown = sorted(table - calls.keys())
    roots |= table & calls.keys()
    every = reached(calls, roots)
    product = reached(calls, {function for function in roots if not is_test(function)})
    dead = sorted(calls.keys() - every)
    tested = sorted(function for function in every - product if not is_test(function))
    for function in unknown:
        print("in the table of calls, and not in the code: %s::%s" % function)
    for function in dead:
        print("no caller: %s::%s" % function)
    for function in tested:
        print("called by tests only: %s::%s" % function)
    print(f"{len(calls)} functions, {len(dead)} without a caller, {len(tested)} called by tests only, {len(unknown)} missing")
    return 1 if dead or unknown else 0


if __name__ == "__main__":
    sys.exit(main())
