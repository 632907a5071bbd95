#!/usr/bin/env python3
"""Brings the project's own definitions and lemmas to snake case, after the kit's port.py has turned the rest.

usage: tools/respell.py [--dry]      once, at the top of the repository

A name of a definition, a lemma, a field or a constructor that specs/ or proofs/ declare, and that has a dash or a capital within,
gets underscores: movedDisplay and place-below become moved_display and place_below. Functions, strings and comments of src/, inputs and
outputs keep theirs. Pages and the comments of antt are respelled between backticks alone. Where a new name stands already in a file that says the old one, the
name gets the ending that AWAY gives it; --dry lists those that AWAY doesn't have, and writes nothing.
"""

import glob
import re
import sys

# Names whose plain spelling falls together with another name of a file that cites them: a lemma gives way to a definition
AWAY = {
    "bit-or": "bit_of_or",
    "bit-xor": "bit_of_xor",
    "blank-past": "blank_past_lem",
    "chip-of": "chip_of_lem",
    "code-at": "code_at_lem",
    "found-at": "found_at_lem",
    "found-long": "found_long_lem",
    "frame-size": "frame_size_lem",
    "getD-table": "get_d_table",
    "lit-at": "lit_at_lem",
    "pattern-fits": "pattern_fits_lem",
    "put-clock": "put_clock_lem",
    "put-clock-here": "put_clock_here_lem",
    "put-here": "put_here_lem",
    "put-number": "put_number_lem",
    "put-number-here": "put_number_here_lem",
    "reset-line": "reset_line_lem",
    "shape-from": "shape_from_lem",
    "times-of": "times_of_lem",
    "told-size": "told_size_lem",
    "transfer-line": "transfer_line_lem",
    "wants-more": "wants_more_lem",
    "with-bit": "with_bit_lem",
}

# Lemmas of specs/ that have today's spelling and fall together with a definition's new one
SPECS = {"found_in": "found_in_lem", "same_at": "same_at_lem", "same_bits": "same_bits_lem", "same_place": "same_place_lem"}

WORD = re.compile(r"[^\s(){}⟨⟩,;.·:\"`\[\]|\\]+")
DECLARED = re.compile(
    r"^\s*(?:pub |abbrev |unfoldable )*(?!(?:data|record|use|mod|where|unfolding|ruleset|abbrev|pub|unfoldable|let|in)\s)([^\s:(){},]+)\s+:\s"
)


def declared(path):
    """The names that a file of antt declares, but for the goals that a proof by hand answers."""
    block, goals = None, set()
    for line in open(path, encoding="utf-8"):
        if re.match(r"^\s*--", line):
            continue
        if re.match(r"^(?:pub |abbrev |unfoldable )*(?:data|record) \S+", line):
            block = True
            continue
        if block and re.match(r"^\s+\S", line):
            m = re.match(r"^\s+(?:pub )?([^\s:]+)\s+:\s", line)
            if m:
                yield m.group(1)
            continue
        if re.match(r"^\S", line):
            block = None
        m = DECLARED.match(line)
        if m and not re.search(r":\s*(?:tie|goal|given)\.", line):
            yield m.group(1)


def snake(name):
    name = re.sub(r"(?<=[a-z0-9])([A-Z])(?![A-Z-]|$)", lambda m: "_" + m.group(1).lower(), name)
    name = re.sub(r"(?<=[a-z0-9])([A-Z])$", lambda m: "_" + m.group(1).lower(), name)
    return name.replace("-", "_")


def odd(name):
    return re.fullmatch(r"[\w'-]+", name) and not name[0].isupper() and ("-" in name or re.search("[A-Z]", name))


def turned(text, names):
    return WORD.sub(lambda m: names.get(m.group(0), m.group(0)), text)


def turned_antt(text, names):
    out = []
    for line in text.split("\n"):
        out.append(turned_page(line, names) if re.match(r"^\s*--", line) else turned(line, names))
    return "\n".join(out)


# A string, a character, a comment: what stays of a source
STAYS = re.compile(r'("(?:[^"\\]|\\.)*"|\'(?:[^\'\\]|\\.)\'|//[^\n]*)')


def turned_source(text, names):
    return "".join(p if i % 2 else turned(p, names) for i, p in enumerate(STAYS.split(text)))


def turned_page(text, names):
    return re.sub(r"`[^`\n]*`", lambda m: turned(m.group(0), names), text)


def main():
    dry = "--dry" in sys.argv
    antt = sorted(glob.glob("crates/*/specs/**/*.antt", recursive=True) + glob.glob("crates/*/proofs/**/*.antt", recursive=True))
    sources = sorted(glob.glob("crates/*/src/*.rt"))
    edits = sorted(glob.glob("crates/*/must-fail/*.edit"))
    pages = ["README.md"] + sorted(glob.glob("docs/*.md") + glob.glob("docs/landings/*.md"))
    names = {}
    for path in antt:
        for name in declared(path):
            if odd(name) and snake(name) != name:
                names[name] = AWAY.get(name, snake(name))
    for kind, paths in ((turned_antt, antt), (turned_source, sources), (turned_source, edits), (turned_page, pages)):
        for path in paths:
            text = open(path, encoding="utf-8").read()
            if dry:
                code = STAYS.sub("", text) if path.endswith(".rt") else re.sub(r"^\s*--.*$", "", text, flags=re.M)
                words = set(WORD.findall(code))
                seen = {}
                for old in words & names.keys():
                    new = names[old]
                    if new in words or new in seen:
                        print(path, old, new, seen.get(new, "stands"))
                    seen[new] = old
                continue
            new = kind(text, names | SPECS if "/specs/" in path else names)
            if new != text:
                open(path, "w", encoding="utf-8").write(new)
    print(f"respell: {len(names)} names")


main()
