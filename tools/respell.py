#!/usr/bin/env python3
"""Brings the repository's own definitions and lemmas to one spelling: words in snake case, types in camel case.

usage: python3 tools/respell.py            at the top of the repository

A name that a file of specs/ or proofs/ defines, or that a lemma binds by `let`, and that has a dash in it is written with an
underscore in its place, or, where it is a type and begins with a capital, as one word in camel case; the record of a key
kind is written behind its item's type parameter. Comments keep their words, and so do names that Rattle makes (the goals
that a file of proofs/ answers, and the steps that an answer reads). It stops, and writes nothing, where two names would
fall together.
"""

import glob
import re
import sys

FILES = sorted(f for kind in ("specs", "proofs") for f in glob.glob(f"crates/*/{kind}/**/*.antt", recursive=True))
SOURCES = sorted(glob.glob("crates/*/src/**/*.rt", recursive=True))

DEFINED = re.compile(r"\s*(?:(?:abbrev|unfoldable) )?(?:pub )?([^\s(){}.,:]+) :(?: |$)")
DECLARED = re.compile(r"\s*(?:pub )?(?:data|record) ([^\s(){}]+) ")
BOUND = re.compile(r"\blet ([^\s(){}.,:]+) [:=]")
ALIASED = re.compile(r"\bas ([^\s(){}.,:;]+)")
# a definition that only files outside the landed crates still cite
CITED = {"with-scratch"}
TOKEN = re.compile(r"[^\s(){}\[\],.;:`\"'|]+'*")


def code(line, mark):
    """The line up to its comment, and the comment."""
    at = line.find(mark)
    return (line, "") if at < 0 else (line[:at], line[at:])


def read(path):
    with open(path, encoding="utf-8") as f:
        return f.read()


def turned(name):
    if name[0].isupper():
        return "".join(part[:1].upper() + part[1:] for part in name.split("-"))
    return name.replace("-", "_")


def names():
    """The names to be turned, and the names of goals, which stay."""
    own, local, goals = set(CITED), set(), set()
    for path in SOURCES:
        for line in read(path).splitlines():
            if line.startswith("ghost use "):
                own.update(name for name in ALIASED.findall(line) if "-" in name)
    for path in FILES:
        for line in read(path).splitlines():
            text, _ = code(line, "-- ")
            found = DECLARED.match(text) or DEFINED.match(text)
            if found and re.search(r": goal\.", text):
                goals.add(found.group(1))
            elif found and "-" in found.group(1):
                own.add(found.group(1))
            for bound in BOUND.findall(text):
                if "-" in bound:
                    local.add(bound)
    return own - goals, (local - own) - goals


def respell(text, mark, own, local):
    out = []
    for line in text.split("\n"):
        body, comment = code(line, mark)
        if not re.search(r"\buse Rattle\.std\b|\buse Rattle\.core\b", body):
            def one(found):
                name = found.group(0)
                before = body[:found.start()]
                # what is bound by `let` is no field, so behind a dot the name is another's
                return turned(name) if name in own or name in local and not before.endswith(".") else name
            body = TOKEN.sub(one, body)
        out.append(body + comment)
    return "\n".join(out)


def main():
    own, local = names()
    # library names that are imported anywhere must not fall together with a turned one
    there = set()
    for path in FILES + SOURCES:
        text = read(path)
        for line in text.splitlines():
            body, _ = code(line, "-- " if path.endswith(".antt") else "//")
            there.update(TOKEN.findall(body))
    fall = sorted(n for n in own | local if turned(n) in there)
    pairs = {}
    for n in own | local:
        pairs.setdefault(turned(n).lower(), []).append(n)
    fall_pairs = sorted(tuple(v) for v in pairs.values() if len(v) > 1)
    for n in fall:
        print(f"falls together with a name that is there: {n} -> {turned(n)}")
    for v in fall_pairs:
        print(f"fall together, or differ in case alone: {v}")
    if "--check" in sys.argv:
        return
    if fall_pairs or any(n not in ALLOWED for n in fall):
        sys.exit("respell: nothing was written")
    for path in FILES:
        new = respell(read(path), "-- ", own, local)
        write(path, new)
    for path in SOURCES:
        # the key kinds of an item stand behind the type parameter that they belong to, which is called T throughout
        text = re.sub(r"\bK([12])-as-Key\b", r"T.K\1.Key", read(path))
        write(path, respell(text, "//", own, local))


# names that are there in another sense and in another file alone
ALLOWED = {"answer-text", "call-text", "same-record"}  # Rust functions of other crates


def write(path, text):
    if text != read(path):
        with open(path, "w", encoding="utf-8") as f:
            f.write(text)


if __name__ == "__main__":
    main()
