#!/usr/bin/env python3
"""Compares hirgwamo.h with the functions that the crates `hirgwamo` and `query_numbers_c` export.

usage: part/header.py [--root FOLDER] [--code FILE].. [--refusals FILE] [--marks FILE] [--header FILE] [--map FILE] [--pc FILE] [--library FILE]

Says what differs, one sentence for each difference, and ends with 1; where nothing differs it says how much was compared and ends with 0. Compared are

- each function that the code exports with the prototype in the header, names of parameters included, and that neither has one more: a lent slice `&[T]` is
  a pointer to const and a length, `&mut [T]` a pointer and a length, and the length of the slice `book` is `book_len`;
- the refusals' numbers with those that the enum of the crate `refusal` gives its variants, but for those of calls that are not exported, and the marks'
  with those of the enum of the crate `mark`; the version, the sizes, the two numbers that are no refusals and the kinds of queries with those of these crates, or of the crates that they name;
- the names in the version script with the header's functions, and the script's version and that of hirgwamo.pc.in with the code's;
- with --library, the symbols that a shared library exports (nm) and their version with the header's functions and the script's, and the number in the
  library's name with the code's version.

FOLDER is the repository; the files are those of the repository where they are not told. Setting from the environment: NM (nm).
"""
import argparse
import os
import re
import subprocess
import sys
from pathlib import Path

SCALARS = {
    "u8": "uint8_t", "u16": "uint16_t", "u32": "uint32_t", "u64": "uint64_t", "usize": "size_t",
    "i8": "int8_t", "i16": "int16_t", "i32": "int32_t", "i64": "int64_t", "isize": "ptrdiff_t",
}  # fmt: skip
PREFIX = "HIRGWAMO_"
RETURNS = ["TOO_SHORT", "NO_QUERY"]  # returned numbers that are no refusals
OF_TICKETS = ["EARLIER_INSTANT", "NOT_ALLOWED"]  # refusals of calls that are not exported, so that the header has none of them
SIZES = [
    "VERDICT_SIZE", "TIME_SIZE", "INSTANT_SIZE", "PERIOD_SIZE", "COUNT_SIZE", "STRETCH_SIZE", "OFFSET_SIZE", "CHANGE_SIZE", "RESOLVED_SIZE", "QUERY_SIZE",
    "ANSWER_SIZE", "MARKED_PERIOD_SIZE", "MARKED_INSTANT_SIZE",
]  # fmt: skip
KINDS = ["BETWEEN", "ADD", "SUB", "NEXT", "PREVIOUS"]  # of queries
OK = {"OK": 0}
MAJOR, MINOR = 1_000_000, 1_000  # a version is major * MAJOR + minor * MINOR + patch


class Unreadable(Exception):
    """Something that has another form than is read here."""


# ---- the code


def without_line_comments(text):
    return re.sub(r"//[^\n]*", "", text)


def c_parameters(written, function):
    """The C parameters for one parameter of the code."""
    found = re.fullmatch(r"(\w+)\s*:\s*(?:(&\s*mut\s*|&\s*)\[\s*(\w+)\s*\]|(\w+))", written)
    name, lent, element, scalar = found.groups() if found else (None, None, None, None)
    if not found or (element or scalar) not in SCALARS:
        raise Unreadable(f"{function}: the parameter `{written}` has a type that is not read")
    if scalar:
        return [f"{SCALARS[scalar]} {name}"]
    constant = "" if "mut" in lent else "const "
    return [f"{constant}{SCALARS[element]} *{name}", f"size_t {name}_len"]


def prototype(name, parameters, returned):
    """The C prototype of a function of the code."""
    if returned is not None and returned not in SCALARS:
        raise Unreadable(f"{name}: the returned type `{returned}` is not read")
    written = [part.strip() for part in parameters.split(",") if part.strip()]
    told = [parameter for part in written for parameter in c_parameters(part, name)]
    return f"{SCALARS[returned] if returned else 'void'} {name}({', '.join(told) or 'void'})"


def exported(code):
    """The prototypes of the functions that the code exports, by name."""
    text = without_line_comments(code)
    heads = re.findall(r'#\[unsafe\(no_mangle\)\]\s*pub\s+extern\s+"C"\s+fn\s+(\w+)\s*\(([^()]*)\)\s*(?:->\s*(\w+))?', text)
    if len(heads) != text.count("no_mangle") or len(heads) != len(re.findall(r'extern\s+"C"', text)):
        raise Unreadable('not every no_mangle and extern "C" of the code stands at a function of the form #[unsafe(no_mangle)] pub extern "C" fn')
    return {name: prototype(name, parameters, returned or None) for name, parameters, returned in heads}


def constants(code):
    """The constants of the code that are numbers, by name."""
    found = re.findall(r"\bconst\s+(\w+)\s*:\s*\w+\s*=\s*(\d[\d_]*)\s*;", without_line_comments(code))
    return {name: int(number.replace("_", "")) for name, number in found}


def variant_numbers(code):
    """The numbers that the functions `number` of the code give to the variants of their enums, by the variants' names in capitals."""
    told = {}
    for enum, arms in re.findall(r"impl (\w+) \{\s*pub fn number\(self\) -> u32[^{}]*\{[^{}]*\}\s*\{\s*match self \{([^{}]*)\}\s*\}\s*\}", without_line_comments(code)):
        for arm in filter(None, (part.strip() for part in arms.split(","))):
            found = re.fullmatch(enum + r"::(\w+) => (\d[\d_]*)", arm)
            if not found:
                raise Unreadable(f"{enum}: `{arm}` is no variant with its number")
            name = re.sub(r"(?<=[a-z])(?=[A-Z])", "_", found[1]).upper()
            if name in told:
                raise Unreadable(f"{enum}: {name} has two numbers")
            told[name] = int(found[2].replace("_", ""))
    if not told:
        raise Unreadable("the refusals or the marks have no function `number` that is a match over the variants of an enum")
    return told


# ---- the header


def without_comments(text):
    return re.sub(r"/\*.*?\*/", " ", text, flags=re.DOTALL)


def declared(header):
    """The prototypes that the header declares, by name."""
    text = re.sub(r"^\s*#.*$", "", without_comments(header), flags=re.MULTILINE)
    text = re.sub(r"\benum\s*\{[^}]*\}\s*;", "", text)
    text = re.sub(r'extern\s+"C"\s*\{', "", text).replace("}", "")
    told = {}
    for statement in filter(None, (" ".join(part.split()) for part in text.split(";"))):
        found = re.fullmatch(r"\w+ (\w+) ?\([^()]*\)", statement)
        if not found or found[1] in told:
            raise Unreadable(f"the header has `{statement}`, which is no prototype or a second one of its name")
        told[found[1]] = statement
    return told


def header_numbers(header):
    """The numbers that the header names in its enums, and its version, without the prefix."""
    text = without_comments(header)
    told = {}
    for body in re.findall(r"\benum\s*\{([^}]*)\}", text):
        for entry in filter(None, (part.strip() for part in body.split(","))):
            found = re.fullmatch(PREFIX + r"(\w+)\s*=\s*(\d+)", entry)
            if not found or found[1] in told:
                raise Unreadable(f"the header's enums have `{entry}`, which is no {PREFIX}NAME = NUMBER or a second one of its name")
            told[found[1]] = int(found[2])
    version = re.search(rf"^#define {PREFIX}VERSION (\d+)u$", text, flags=re.MULTILINE)
    if not version:
        raise Unreadable(f"the header does not define {PREFIX}VERSION as a number with u behind it")
    return told, int(version[1])


# ---- comparing


def function_differences(code, header):
    wanted, told = exported(code), declared(header)
    for name in sorted(wanted.keys() | told.keys()):
        if name not in told:
            yield f"{name} is exported and the header lacks `{wanted[name]};`"
        elif name not in wanted:
            yield f"the header declares `{told[name]};` and no such function is exported"
        elif wanted[name] != told[name]:
            yield f"{name} must be declared as `{wanted[name]};` and the header has `{told[name]};`"


def named_crates(code, crates):
    """The code of each crate that the code names."""
    names = set(re.findall(r"\b([a-z]\w*)::", without_line_comments(code)))
    files = (crates / name / "src/lib.rt" for name in sorted(names))
    return [path.read_text(encoding="utf-8") for path in files if path.exists()]


def constant(name, code, others):
    """The number of a constant of the code, else the one number that it has in the crates that the code names; None where there is no such number."""
    own = constants(code)
    found = {own[name]} if name in own else {told[name] for told in map(constants, others) if name in told}
    return found.pop() if len(found) == 1 else None


def wanted_numbers(code, named, crates):
    """The numbers that the header must name, with those of the files of `named`, and sentences about constants that the code lacks."""
    others = named_crates(code, crates)
    own = {name: constant(name, code, others) for name in [*RETURNS, *SIZES, *KINDS]}
    missing = [f"the code has no constant {name}, or its crates have different ones" for name, number in own.items() if number is None]
    wanted = {**OK, **{name: number for name, number in own.items() if number is not None}}
    for file in named:
        wanted |= variant_numbers(file)
    return {name: number for name, number in wanted.items() if name not in OF_TICKETS}, missing


def number_differences(code, named, header, crates):
    wanted, missing = wanted_numbers(code, named, crates)
    told, _ = header_numbers(header)
    yield from missing
    for name in sorted(wanted.keys() | told.keys()):
        if name not in told:
            yield f"the header lacks {PREFIX}{name} = {wanted[name]}"
        elif name not in wanted:
            yield f"the header has {PREFIX}{name} = {told[name]} and the code has no such number"
        elif wanted[name] != told[name]:
            yield f"{PREFIX}{name} must be {wanted[name]} and the header has {told[name]}"


def version_differences(code, header, script, pc):
    version = constants(code).get("VERSION")
    if version is None:
        yield "the code has no constant VERSION that is a number"
        return
    _, told = header_numbers(header)
    if told != version:
        yield f"{PREFIX}VERSION must be {version} and the header has {told}"
    node, _ = script_names(script)
    if node != f"{PREFIX}{version // MAJOR}":
        yield f"the version script's version must be {PREFIX}{version // MAJOR} and it is {node}"
    words = f"{version // MAJOR}.{version // MINOR % MINOR}.{version % MINOR}"
    found = re.findall(r"^Version:\s*(.*?)\s*$", pc, flags=re.MULTILINE)
    if found != [words]:
        yield f"the version for pkg-config must be {words} and it is {' and '.join(found) or 'not told'}"


def script_names(script):
    """The version and the names that the version script exports."""
    found = re.fullmatch(r"\s*(\w+)\s*\{\s*global:\s*((?:\w+\s*;\s*)*)local:\s*\*\s*;\s*\}\s*;\s*", without_comments(script))
    if not found:
        raise Unreadable("the version script is not one version with names behind `global:` and `local: *;`")
    return found[1], [name.strip() for name in found[2].split(";") if name.strip()]


def name_differences(names, told, where):
    """Where names are not those of the header's functions, each once."""
    for name in sorted(set(names) | told.keys()):
        if name not in names:
            yield f"{where} lacks {name}, which the header declares"
        elif name not in told:
            yield f"{where} has {name}, which the header does not declare"
        elif names.count(name) > 1:
            yield f"{where} has {name} more than once"


def symbols(library, version):
    """The functions that a shared library exports with this version; any other symbol with its kind and version."""
    nm = os.environ.get("NM", "nm")
    lines = subprocess.run([nm, "-D", "--defined-only", library], check=True, capture_output=True, text=True).stdout.splitlines()
    for kind, symbol in (line.split()[1:] for line in lines):
        name, _, of = symbol.partition("@@")
        if (kind, symbol) != ("A", version):  # the version itself is a symbol too
            yield name if (kind, of) == ("T", version) else f"{symbol} of kind {kind}"


def library_differences(library, code, script, told):
    yield from name_differences(list(symbols(library, script_names(script)[0])), told, f"the library {library.name}")
    major = constants(code).get("VERSION", 0) // MAJOR
    if not library.name.endswith(f".so.{major}"):
        yield f"the name of the library {library.name} must end with .so.{major}"


def differences(files, crates, library):
    codes, *others = files
    code = "".join(path.read_text(encoding="utf-8") for path in codes)
    refusals, marks, header, script, pc = (path.read_text(encoding="utf-8") for path in others)
    told = declared(header)
    yield from function_differences(code, header)
    yield from number_differences(code, [refusals, marks], header, crates)
    yield from version_differences(code, header, script, pc)
    yield from name_differences(script_names(script)[1], told, "the version script")
    if library:
        yield from library_differences(library, code, script, told)
    if not told:
        yield "the header declares no function"


def main():
    root = Path(__file__).resolve().parent.parent
    parser = argparse.ArgumentParser(description=__doc__, usage=argparse.SUPPRESS, formatter_class=argparse.RawDescriptionHelpFormatter)
    parser.add_argument("--root", type=Path, default=root)
    parser.add_argument("--code", type=Path, action="append")
    for name in ("refusals", "marks", "header", "map", "pc", "library"):
        parser.add_argument(f"--{name}", type=Path)
    told = parser.parse_args()
    root = told.root
    files = [
        told.code or [root / "crates" / name / "src/lib.rt" for name in ("hirgwamo", "query_numbers_c")],
        told.refusals or root / "crates/refusal/src/lib.rt",
        told.marks or root / "crates/mark/src/lib.rt",
        told.header or root / "part/hirgwamo.h",
        told.map or root / "part/hirgwamo.map",
        told.pc or root / "part/hirgwamo.pc.in",
    ]
    try:
        found = list(differences(files, root / "crates", told.library))
    except (Unreadable, OSError, subprocess.CalledProcessError) as error:
        found = [str(error)]
    for sentence in found:
        print(f"header: {sentence}")
    if found:
        sys.exit(1)
    header = files[3].read_text(encoding="utf-8")
    print(f"header: {len(declared(header))} functions and {len(header_numbers(header)[0]) + 1} numbers are those of the code")


main()
