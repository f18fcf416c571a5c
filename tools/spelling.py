#!/usr/bin/env python3
"""Brings the names of the repository's own definitions and lemmas to one spelling.

usage: python3 tools/spelling.py            at the top of the repository, once, after the kit's own script has run

Definitions, lemmas, fields and binders are in snake case (places-of is places_of), facts are in camel case (Each-within is EachWithin).
Names that the kit declares, names that a check makes, functions of src/, comments and strings keep their spelling. In pages, only what
stands between backticks is turned. It stops, and writes nothing, where two names would fall together.
"""

import os
import re
import sys

# Binders of a let or a lambda, the one operator, and two records whose parameters go over several lines: no one line declares them.
BOUND = (
    "among-open apart-taken by-fills customer-block firm-block maker-block may-hold now-counted open-to plain-share sum-here "
    "then-swept to-customers to-firms to-makers Settles-row Shares-out"
).split()

# Names that may fall together with another: fields of two records, and a definition that is named as the function it defines.
TOGETHER = {"all-within", "firms-rule", "makers-rule"}

NAME = re.compile(r"[^\W\d][\w']*(?:-[\w']+)+")
DECLARED = re.compile(r"\s*(?:(?:abbrev|unfoldable|pub)\s+)*(?:(?:record|data|module)\s+)?([^\W\d][\w']*(?:-[\w']+)+)\s+(?=[:({])")
GOAL = re.compile(r"\s*goal\.")


def files(ends):
    for folder, inner, names in os.walk("crates"):
        inner[:] = sorted(d for d in inner if d != "out")
        for name in sorted(names):
            if name.endswith(ends):
                yield os.path.join(folder, name)


def lines(path):
    with open(path, encoding="utf-8") as f:
        return f.read().splitlines(keepends=True)


def declared():
    """The hyphenated names that a line of specs/ or proofs/ declares, but for the answers to goals."""
    found = set(BOUND)
    for path in files(".antt"):
        for line in lines(path):
            m = DECLARED.match(line)
            kind = m and behind_parameters(line[m.end() :])
            if kind and not (path.endswith(("Answers.antt", "Invariants.antt")) and GOAL.match(kind)):
                found.add(m.group(1))
    return found


def behind_parameters(text):
    """What follows the colon of a signature whose parameters, each in brackets, the text begins with; None where it is no signature."""
    while text[:1] in ("(", "{"):
        depth = 0
        for at, letter in enumerate(text):
            depth += (letter in "({") - (letter in ")}")
            if depth == 0:
                break
        if depth or ":" not in text[:at]:
            return None
        text = text[at + 1 :].lstrip()
    return text[1:] if text.startswith(": ") else None


def turned(name):
    if name[0].isupper():
        return "".join(word[:1].upper() + word[1:] for word in name.split("-"))
    return name.replace("-", "_")


def code(line, comment):
    """Where the comment of a line begins."""
    m = re.search(r"(^|\s)" + comment + r"(\s|$)", line)
    return m.start() if m else len(line)


def respell(text, own):
    return NAME.sub(lambda m: turned(m.group()) if m.group() in own else m.group(), text)


def clash(own):
    """Names that would fall together with another of the same file."""
    for path in files(".antt"):
        seen = {}
        for line in lines(path):
            for m in re.finditer(r"[^\W\d][\w']*(?:-[\w']+)*", line[: code(line, "--")]):
                name = m.group()
                new = turned(name) if name in own else name
                if seen.setdefault(new, name) != name and not TOGETHER & {seen[new], name}:
                    yield f"{path}: {seen[new]} and {name} would both be {new}"


def main():
    own = declared()
    bad = sorted(set(clash(own)))
    if bad:
        print("\n".join(bad), file=sys.stderr)
        return 1
    pages = [p for p in ["README.md"] + [os.path.join("docs", n) for n in sorted(os.listdir("docs"))] if p.endswith(".md") and not p.startswith("docs/PORT")]
    for path in [*files((".antt", ".rt", ".edit")), *pages]:
        old = lines(path)
        new = []
        for line in old:
            if path.endswith(".md"):
                new.append(re.sub(r"`[^`]*`", lambda m: respell(m.group(), own), line))
                continue
            at = code(line, "--" if path.endswith(".antt") else "//")
            new.append(respell(line[:at], own) + line[at:])
        if new != old:
            with open(path, "w", encoding="utf-8") as f:
                f.write("".join(new))
    print(f"{len(own)} names")
    return 0


if __name__ == "__main__":
    sys.exit(main())
