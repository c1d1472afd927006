#!/usr/bin/env python3
"""Brings the definitions and lemmas of this repository to snake case, once, after the script that turned the spelling of an older Rattle.

usage: python3 tools/snake_case.py      at the top of the repository

A word written in camel case that begins small, as growthOf, becomes growth_of, wherever crates/ names it but in strings. A field or a
constructor loses its dashes too: plan-kept becomes plan_kept. A lemma keeps the dash that joins two names. Types, modules, functions of
src/ and local names keep their spelling. It prints names that would fall together, and then writes nothing.
"""

import glob
import re
import sys

WORD = r"[A-Za-z_][\w'-]*"
DECLARED = re.compile(r"(?:pattern )?(?:unfoldable )?(?:abbrev )?(?:pub )?(" + WORD + r") : ")
TYPE = re.compile(r"(?:pub )?(record|data) (" + WORD + r")")
MEMBER = re.compile(r"  (?:pub )?(" + WORD + r"(?: " + WORD + r")*) : ")
TOKEN = re.compile(r"(?<![\w'-])" + WORD)
# Words of the library that port.py respells where they stand alone.
LIBRARY = {"getD": "get_or"}
# Names that would fall together with another of their spelling.
APART = {
    "at-found": "right_at_found",
    "is-named": "given_name",
    "list-placed": "list_is_placed",
    "no-good": "none_good_from_high",
    "no-sites": "of_no_sites",
    "output-for": "is_output_for",
    "placed-at": "list_is_placed_at",
    "read-within": "is_read_within",
    "refusal-line": "is_refusal_line",
    "refused-at": "is_refused_at",
    "sheet-at": "is_sheet_at",
    "side-on": "prints_side",
    "tooMany": "too_many_test",
    "up-to": "grows_up_to",
}
# Lemmas that port.py gave the spelling that their function has now.
LEMMAS = {name: name + "_lem" for name in ("cut_line", "place_read", "same_end")}


def antt():
    for kind in ("specs", "proofs"):
        yield from sorted(glob.glob(f"crates/*/{kind}/**/*.antt", recursive=True))


def declared(path):
    """The names that a file declares, each with whether it is a field or a constructor."""
    inside = False
    for line in open(path, encoding="utf-8"):
        if m := TYPE.match(line):
            inside = True
        elif m := DECLARED.match(line):
            inside = False
            yield m[1], False
        elif inside and (m := MEMBER.match(line)):
            for name in m[1].split():
                yield name, True


def snake(name):
    parts = [LIBRARY.get(p, p) for p in name.split("-")]
    return "-".join(re.sub(r"(?<=[a-z0-9])([A-Z])", lambda m: "_" + m[1].lower(), p) for p in parts)


def respelt(name, member):
    if not name[0].islower():
        return name
    if name in APART:
        return APART[name]
    new = snake(name)
    return new.replace("-", "_") if member else new


def names():
    """Old name to new. A name that is a field or a constructor anywhere loses its dashes everywhere."""
    members, all_names = set(), set()
    for path in antt():
        if path.endswith("/Proof.antt"):
            continue
        for name, member in declared(path):
            all_names.add(name)
            if member:
                members.add(name)
    found = {n: respelt(n, n in members) for n in all_names}
    return {n: new for n, new in found.items() if n != new}


def pieces(line, rattle):
    """A line as pieces, each with whether its words may be respelt."""
    for i, piece in enumerate(re.split(r'("(?:[^"\\]|\\.)*")', line) if rattle else [line]):
        yield piece, i % 2 == 0


def turned(line, table, rattle):
    if not rattle:
        line = re.sub(r"(?<![\w'.-])(" + "|".join(LEMMAS) + r")(?![\w'-])", lambda m: LEMMAS[m[0]], line)
    code, dashes, comment = line.partition("//" if rattle else "--")
    if rattle and '"' in code and code.count('"') % 2:
        code, dashes, comment = line, "", ""
    full = lambda m: table.get(m[0], m[0])
    camel = lambda m: table.get(m[0], m[0]) if re.search("[a-z][A-Z]", m[0]) else m[0]
    quoted = lambda m: TOKEN.sub(full, m[0])
    code = "".join(TOKEN.sub(full, p) if free else p for p, free in pieces(code, rattle))
    return code + dashes + TOKEN.sub(camel, re.sub(r"`[^`]*`", quoted, comment))


def main():
    table = names()
    texts = {}
    for path in [*antt(), *sorted(glob.glob("crates/*/src/**/*.rt", recursive=True))]:
        texts[path] = open(path, encoding="utf-8").read()
    used = {path: {m[0] for m in TOKEN.finditer(text)} for path, text in texts.items() if path.endswith(".antt") and not path.endswith("/Proof.antt")}
    together = {}
    for old, new in table.items():
        together.setdefault(new, []).append(old)
    bad = False
    for new, olds in sorted(together.items()):
        if len(olds) > 1:
            print(f"fall together: {' '.join(sorted(olds))} as {new}")
            bad = True
        for path, words in sorted(used.items()):
            if new in words - set(LEMMAS) and any(old in words for old in olds):
                print(f"stands already: {new}, of {olds[0]}, in {path}")
                bad = True
    if bad:
        return 1
    for path, text in texts.items():
        rattle = path.endswith(".rt")
        new = "".join(turned(line, table, rattle) for line in text.splitlines(keepends=True))
        if new != text:
            with open(path, "w", encoding="utf-8") as f:
                f.write(new)
    print(f"{len(table)} names respelt")
    return 0


if __name__ == "__main__":
    sys.exit(main())
