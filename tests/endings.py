#!/usr/bin/env python3
"""The exit numbers of pkcs12, and what calls of the library for C return: docs/endings.tsv is their table.

With --write, puts the table into the pages, the help, pkcs12.h, and the callers in Python and Rust. Without, says whether it is there, and compares it with the
sources by which the program ends: prints `ok NAME` or `not ok NAME` for each, and ends with 1 where one is not ok."""

import re
import sys
from pathlib import Path
from typing import NamedTuple

HOME = Path(__file__).resolve().parent.parent
HEADER = "crates/pkcs12_c/include/pkcs12.h"
RUST = "crates/pkcs12_c/examples/rust/calls.rs"


class Row(NamedTuple):
    number: int
    name: str  # that the command prints; - where it has none
    meaning: str
    message: str  # that it prints of a store
    constant: str  # of pkcs12.h; - where no call returns it
    of_call: str  # what it means of a call


def text(path):
    return (HOME / path).read_text(encoding="utf-8")


def rows():
    found = []
    for line in text("docs/endings.tsv").splitlines():
        if line and not line.startswith("#"):
            number, name, meaning, message, constant, of_call = line.split("\t")
            found.append(Row(int(number), name, meaning, message or meaning, constant, of_call or meaning))
    return found


def of_command():
    return [row for row in rows() if row.name != "-"]


def of_library():
    return [row for row in rows() if row.constant != "-"]


def page():
    return "".join(f"| {row.number} | `{row.name}` | {row.meaning} |\n" for row in of_command())


def manual():
    def sentence(meaning):
        shown = re.sub(r"--[a-z-]+", lambda option: option.group().replace("-", "\\-"), meaning)
        return shown[0].upper() + shown[1:] + "."

    return "".join(f".TP\n{row.number} {row.name}\n{sentence(row.meaning)}\n" for row in of_command())


def usage():
    width = max(len(row.name) for row in of_command())
    return "\n".join(f"  {row.number:2}  {row.name:{width}}  {row.meaning}" for row in of_command())


def constants():
    named = [f"    {row.constant} = {row.number}," for row in of_library()]
    named[-1] = named[-1][:-1]
    width = max(len(each) for each in named)
    return "".join(f"{each:{width}} /* {row.of_call} */\n" for each, row in zip(named, of_library(), strict=True))


def meanings():
    return "".join(f'    case {row.constant}: return "{row.of_call}";\n' for row in of_library())


def refusals():
    """What a call refuses by: neither that it is done, nor that there is too little room, which each caller deals with."""
    return [row for row in of_library() if row.number not in (0, 100)]


def of_python():
    return "".join(f'    {row.number}: "{row.of_call}",\n' for row in refusals())


def of_rust():
    return "".join(f'                {row.number} => "{row.of_call}",\n' for row in refusals())


# Each place: what the file is, what stands before and after the table there, and the table.
PLACES = {
    "the_page": ("docs/STORES.md", "## Exit numbers of `pkcs12`", r"(?:\| \d+ \| .*\n)+", page),
    "the_manual_page": ("docs/pkcs12.1", ".SH EXIT STATUS\n", r"(?:\.TP\n\d+ \w+\n.*\n)+", manual),
    "the_help": ("crates/pkcs12_arguments/src/command_line.rt", "Exit numbers:\n", r"(?: +\d+  \w+ +[^\"\n]*\n?)+", usage),
    "the_constants": (HEADER, "enum {\n", r"(?:    PKCS12_\w+ = \d+.*\n)+", constants),
    "the_texts": (HEADER, "switch (number) {\n", r"(?:    case PKCS12_\w+: return \".*\n)+", meanings),
    "the_caller_in_rust": (RUST, "let meaning = match self.0 {\n", r"(?: +\d+ => \".*\",\n)+", of_rust),
    "the_module_for_python": ("crates/pkcs12_c/examples/python/pkcs12.py", "MEANINGS = {\n", r"(?:    \d+: \".*\n)+", of_python),
}


def with_table(place):
    """The file of a place, as it is and with the table."""
    path, before, shape, made = PLACES[place]
    whole = text(path)
    start = whole.index(before) + len(before)
    found = re.compile(shape).search(whole, start)
    return path, whole, whole[: found.start()] + made() + whole[found.end() :]


def write():
    for place in PLACES:
        path, _, made = with_table(place)
        (HOME / path).write_text(made, encoding="utf-8")


def of_program():
    """The numbers and names of the failures of the command, and of the refusals of a store."""
    ending = text("crates/pkcs12_opening/src/ending.rt")
    status = text("crates/frame/src/status.rt")
    codes = dict(re.findall(r"Status::(\w+) => (\d+),", status))
    names = dict(re.findall(r'Status::(\w+) => "(\w+)",', status))
    found = {int(codes[each]): names[each] for each in codes}
    for kind, code in re.findall(r"Ending::(\w+) => (?:Status::\w+\.code\(\)|(\d+)),", ending):
        shown = re.search(rf'Ending::{kind} => "(\w+)",', ending).group(1)
        if code:
            found[int(code)] = shown
        elif shown != names[kind]:
            found[int(codes[kind])] = shown
    return found


def of_refusals():
    """The texts that the command prints of the refusals of a store, by their names."""
    opening = text("crates/pkcs12_opening/src/opening.rt").split("fn meaning_of", 1)[1]
    return dict(re.findall(r'TransferError::(\w+) =>\s*"([^"]*)",', opening))


def tell(what, found, due):
    print(f"{'ok' if found == due else 'not ok'} {what}")
    for number in sorted(set(found) | set(due)):
        if found.get(number) != due.get(number):
            print(f"{number}: {found.get(number)} and {due.get(number)}", file=sys.stderr)
    return found == due


def main():
    if sys.argv[1:] == ["--write"]:
        write()
        return
    holds = True
    for place in PLACES:
        path, found, due = with_table(place)
        holds = tell(f"{place}_has_the_table", {path: found == due}, {path: True}) and holds
    # 1 is the wrapper's; 5 and 6 are of programs that read lines.
    found = {number: name for number, name in of_program().items() if number not in (5, 6)} | {0: "Done", 1: "BuildFailed"}
    due = {row.number: row.name for row in of_command()}
    holds = len(due) >= 27 and tell("the_table_has_what_the_program_ends_with", found, due) and holds
    due = {row.name: row.message for row in of_command()}
    found = of_refusals()
    holds = len(found) >= 12 and tell("the_refusals_have_the_texts_of_the_table", found, {name: due[name] for name in found}) and holds
    if not holds:
        sys.exit(1)


if __name__ == "__main__":
    main()
