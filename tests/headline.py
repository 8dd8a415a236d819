#!/usr/bin/env python3
"""Writes docs/HEADLINE.md: the contract of `transfer::run`, and each definition that it reaches, whole, by crate; docs/STANDARDS.md, with those
among them that are the standards' own; and docs/SAMPLE.md, with those that only the clause of the command `sample` reaches.

    python3 tests/headline.py            writes them
    python3 tests/headline.py --check    says whether they are as they should be, and ends with 1 where one is not

The definitions are found by name: those that the clauses of `run` cite, those that these cite, and so on down to the kit's own.
"""

import glob
import re
import sys
import textwrap

TOP = "crates/transfer/src/program/top_call.rt"
PAGE, STANDARDS, OF_SAMPLE = "docs/HEADLINE.md", "docs/STANDARDS.md", "docs/SAMPLE.md"
# The crates of which each definition is a standard's own, and those standards.
OF_STANDARDS = {
    "pbkdf2": "PBKDF2 (RFC 8018 section 5.2)",
    "mac_modes": "HMAC (RFC 2104), CBC with padding (SP 800-38A, RFC 5652 section 6.3), GCM (SP 800-38D)",
    "block_core": "AES (FIPS 197), DES and Triple DES (FIPS 46-3)",
}
# The clause of the command `sample`, which makes stores for trials: what it alone reaches has a page of its own.
SAMPLE = "sample"

HEAD = """
The headline is the contract of `transfer::run`, the call that the program makes. This page has
that contract, and each definition that it reaches, whole, with its comment: who believes these
definitions and the tools believes the headline.

Two parts of them are on pages of their own. Those that are a standard's own are in
[STANDARDS.md](STANDARDS.md), {standards} lines: {named}. Those that the clause `sample` alone
reaches, which is about the command that makes stores for trials, are in [SAMPLE.md](SAMPLE.md),
{sample} lines. `tests/headline.py` writes these pages, and `tests/headline.sh` fails where one is
out of date.

Definitions are in the logic `antt` of the toolchain. `f : A → B` gives the type of `f`, and the
lines after it its equations; `abbrev` and `unfoldable` begin a definition, `record` and `data` a
type. `×` is "and", `⊎` is "or", `(x : A) × P` is "there is an x such that P", `(x : A) → P` is
"for each x, P", `⊥` is false. A text of a standard is a list of octets, and octets are numbers
below 256. A line `-- NAME.antt` begins the definitions of that file of the crate's `specs/`.
"""

STANDARDS_HEAD = """
These are the definitions of [HEADLINE.md](HEADLINE.md) that are a standard's own: {named}. Whoever
trusts that they say what the standards say need not read them: known answers of the standards, and
laws such as that decryption undoes encryption, are proved of them. `tests/headline.py` writes this
page.
"""

SAMPLE_HEAD = """
The command `sample` of `transfer_app` makes stores for trials. These are the definitions that its
clause in the contract of `transfer::run` reaches, and that [HEADLINE.md](HEADLINE.md) does not have.
`tests/headline.py` writes this page.
"""

START = re.compile(r"(?:abbrev pub|unfoldable pub|abbrev|unfoldable|pub abbrev|pub record|record|pub data|data)\s+([^\s:({]+)")
# a lemma that is in a file of definitions, and ends the definition before it
LEMMA = re.compile(r"(?:pub )?[^\s:({-]\S* : ")
WORD = re.compile(r"[A-Za-z_][\w'-]*(?:\.[A-Za-z_][\w'-]*)*")


class Module:
    """A file of definitions: where each begins and ends, and what the names that it brings in stand for."""

    def __init__(self, path):
        self.path = path
        self.lines = open(path, encoding="utf8").read().rstrip("\n").split("\n")
        self.names, self.aliases, self.spans, self.cited = {}, {}, {}, set()
        for line in self.lines:
            self.bring_in(line.strip())
        starts = [(at, START.match(line).group(1)) for at, line in enumerate(self.lines) if START.match(line)]
        bounds = [at for at, line in enumerate(self.lines) if START.match(line) or LEMMA.match(line)] + [len(self.lines)]
        for at, name in starts:
            end = next(bound for bound in bounds if bound > at)
            while end > at and (not self.lines[end - 1].strip() or self.lines[end - 1].startswith("--")):
                end -= 1
            while at > 0 and self.lines[at - 1].startswith("-- ") and not self.lines[at - 1].startswith("-- ----"):
                at -= 1
            if at == 0:  # the comment at the head is the file's
                while self.lines[at].startswith("--"):
                    at += 1
            self.spans[name] = (at, end)

    def bring_in(self, line):
        found = re.match(r"(?:ghost )?use Rattle\.([\w.]+?)(?:\.\{(.*)\})?(?: as (\w+))?;?$", line)
        if not found:
            return
        path, names, alias = found.groups()
        if names:
            for name in names.split(","):
                self.names[name.strip()] = path
        else:
            self.aliases[alias or path.split(".")[-1]] = path

    def text(self, name):
        start, end = self.spans[name]
        return self.lines[start:end]

    def body(self, name):
        return "\n".join(line for line in self.text(name) if not line.startswith("--"))


def modules():
    found = {}
    for path in glob.glob("crates/*/specs/**/*.antt", recursive=True):
        crate, rest = re.match(r"crates/(\w+)/specs/(.*)\.antt", path).groups()
        found[f"{crate}.specs.{rest.replace('/', '.')}"] = Module(path)
    return found


def cited(all_modules, module, own, text):
    """The definitions of the repository that a text of this module names, and the modules of others."""
    found, others = [], set()
    for word in WORD.findall(text):
        first, _, rest = word.partition(".")
        if own and first in module.spans:
            found.append((own, first))
        elif first in module.names:
            path = module.names[first]
            (found.append((path, first)) if path in all_modules and first in all_modules[path].spans else others.add(path))
        elif first in module.aliases and rest:
            path, name = module.aliases[first], rest.split(".")[0]
            (found.append((path, name)) if path in all_modules and name in all_modules[path].spans else others.add(path))
    return found, others


def contract():
    """The lines of the contract of `run`, the clauses whose definitions come first, and the clause of the command `sample`."""
    lines = open(TOP, encoding="utf8").read().split("\n")
    start = next(at for at, line in enumerate(lines) if line.startswith("pub fn run"))
    end = lines.index("{", start)
    parts, taken = ([], []), 0
    for line in lines[start:end]:
        clause = re.match(r"\s+ensures (\w+) \{", line)
        if clause:
            taken = int(clause.group(1) == SAMPLE)
        parts[taken].append(line)
    return lines[start:end], "\n".join(parts[0]), "\n".join(parts[1])


def paragraph(text):
    return textwrap.wrap(text, 100, break_long_words=False, break_on_hyphens=False) + [""]


def filled(text):
    """The paragraphs of a text, filled anew."""
    return [line for part in text.strip().split("\n\n") for line in paragraph(part.replace("\n", " "))]


def head_of(module):
    """What the file says of itself in its first lines."""
    end = next((at for at, line in enumerate(module.lines) if not line.startswith("--")), 0)
    return [line[3:] for line in module.lines[:end]]


def definitions(all_modules, order, reached):
    """The definitions that are reached, a heading and a block for each crate."""
    text, crates = [], []
    for path in order:
        crate = path.split(".")[0]
        if crate not in crates:
            crates.append(crate)
    for crate in crates:
        paths = [it for it in order if it.split(".")[0] == crate and any((it, name) in reached for name in all_modules[it].spans)]
        text += [f"### {crate}", "", "```"] if paths else []
        for number, path in enumerate(paths):
            module = all_modules[path]
            text += ([""] if number else []) + [f"-- {module.path.split('/specs/')[1]}"]
            for line in textwrap.wrap(" ".join(head_of(module)), 97, break_long_words=False, break_on_hyphens=False):
                text.append(f"-- {line}")
            for name in module.spans:
                if (path, name) in reached:
                    lines = module.text(name)
                    text += ([] if lines[0].startswith("--") else [""]) + lines
        text += ["```", ""] if paths else []
    return text


def pages():
    all_modules = modules()
    shown, followed, of_sample = contract()
    reached, order, others = set(), [], set()

    def follow(names):
        for path, name in names:
            if (path, name) in reached:
                continue
            reached.add((path, name))
            if path not in order:
                order.append(path)
            more, beyond = cited(all_modules, all_modules[path], path, all_modules[path].body(name))
            others.update(beyond)
            follow(more)

    def follow_all(clauses):
        first, beyond = cited(all_modules, Module(TOP), None, clauses)
        others.update(beyond)
        follow(first)

    def page(title, head, of_standards, left_out):
        taken = [path for path in order if (path.split(".")[0] in OF_STANDARDS) == of_standards]
        text = [f"# {title}", "", *filled(head), *definitions(all_modules, taken, reached - left_out)]
        return "\n".join(text).rstrip("\n") + "\n"

    follow_all(followed)
    first = set(reached)
    named = "; ".join(OF_STANDARDS.values())
    standards = page("What the standards define", STANDARDS_HEAD.format(named=named), True, set())
    here = definitions(all_modules, [path for path in order if path.split(".")[0] not in OF_STANDARDS], first)
    follow_all(of_sample)
    sample = page("What the command sample makes", SAMPLE_HEAD, False, first)

    head = HEAD.format(standards=standards.count("\n"), sample=sample.count("\n"), named=named)
    text = ["# What has to be believed", "", *filled(head)]
    text += ["## The contract", "", "```rust", *shown, "```", "", "## The definitions", "", *here]
    count = sum(len(all_modules[path].text(name)) for path, name in reached)
    types = sorted({path.replace(".specs.declared.", "/src/").replace(".TheVariants", "") for path in others if ".specs.declared." in path})
    kit = sorted({path for path in others if ".specs.declared." not in path and path not in all_modules})
    text += ["## Beyond these pages", ""]
    text += paragraph(f"These are {len(reached)} definitions, of {count} lines with their comments, on all three pages.")
    named = ", ".join(f"`{name.split('/src/')[1].split('.')[-1]}` of `{name.split('/')[0]}`" for name in types)
    text += paragraph(f"They name types of the repository's own code, whose declarations are short: {named}.")
    text += paragraph("What a source, a sink and a draw promise is in the traits `Source`, `Sink` and `Draw` (`crates/octet_core/src`).")
    text += paragraph("From the kit come the modules " + ", ".join(f"`{name}`" for name in kit) + ".")
    return {PAGE: "\n".join(text).rstrip("\n") + "\n", STANDARDS: standards, OF_SAMPLE: sample}


def main():
    status = 0
    for path, text in pages().items():
        if sys.argv[1:] != ["--check"]:
            open(path, "w", encoding="utf8").write(text)
        elif open(path, encoding="utf8").read() != text:
            print(f"{path} is out of date: python3 tests/headline.py writes it")
            status = 1
    return status


if __name__ == "__main__":
    sys.exit(main())
