#!/usr/bin/env python3
"""Respells this repository's own antt names after the kit's port.py: `frame-ticks` becomes `frame_ticks`.

usage: python3 tools/respell_names.py [ROOT]

Names of the library keep their spelling, and so do comments and strings. Of a name that the check makes, a dash
joins the parts and each part keeps the spelling of the source: `overflow-mul-line-ticks` is `overflow_mul-line_ticks`.
It stops, with nothing changed, where two names of one file would fall together.
"""

import os
import re
import sys

WORD = re.compile(r"(?<![\w'-])[^\W\d][\w']*(?:-[\w']+)+(?![\w'-])")
OWN_ROOT = re.compile(r"Rattle\.(?:timing|feeder|fifo|panel|playback|deadline|scope|text|session|console|sweep)\b")
USE = re.compile(r"^\s*(?:ghost\s+)?(?:pub\s+)?use\s+([^;\n]*)", re.M)
DECLARED = re.compile(r"^\s*(?:(?:abbrev|unfoldable)\s+)*(?:pub\s+)?([^\W\d][\w']*(?:-[\w']+)+)\s*(?:[({][^=]*)?:", re.M)
MADE = re.compile(r":\s*goal\.([\w'-]+)\s*$", re.M)
# words of the check's own, in the names that it makes
KINDS = [
    (re.compile(r"^(overflow|nonzero|slice|invariant|offset)-(add|sub|mul|div|rem|shl|shr|cast|step|bounds|of)\b"), r"\1_\2"),
    (re.compile(r"(^|-)in-(ok|err|default)(?=-|$)"), r"\1in_\2"),
]
STD = """as_bytes as_slice as_str copy_from_slice copied_from from_residual from_utf8 is_empty is_some is_none is_over
is_ascii_digit push_str saturating_sub saturating_add saturating_mul split_at split_first then_some unwrap_or
write_str write_fmt from_digit checked_add checked_mul wrapping_add""".split()


def files(root):
    for folder, dirs, names in os.walk(os.path.join(root, "crates")):
        dirs[:] = sorted(d for d in dirs if d != "out")
        for name in sorted(names):
            if name.endswith((".antt", ".rt")):
                yield os.path.join(folder, name)


def pieces(path, text):
    """The text line by line, as code and the comment behind it; strings are cut out of the code."""
    mark = "--" if path.endswith(".antt") else "//"
    for line in text.splitlines(keepends=True):
        parts = re.split(r'("(?:[^"\\]|\\.)*")', line)
        behind = False
        for i, part in enumerate(parts):
            if behind or i % 2:
                yield False, part
                continue
            at = re.search(r"(?:^|(?<=\s))" + mark, part)
            if at:
                yield True, part[: at.start()]
                yield False, part[at.start():]
                behind = True
            else:
                yield True, part


def source_names(root):
    found = set(STD)
    for path in files(root):
        if path.endswith(".rt"):
            with open(path, encoding="utf-8") as f:
                found |= set(re.findall(r"(?<![\w-])[A-Za-z]\w*_\w+(?![\w-])", f.read()))
    return sorted(found, key=len, reverse=True)


def made(name, sources):
    """The name as the check makes it today."""
    for pattern, to in KINDS:
        name = pattern.sub(to, name)
    for source in sources:
        name = re.sub(r"(?<![\w'])" + re.escape(source.replace("_", "-")) + r"(?![\w'])", source, name)
    return name


def main():
    root = sys.argv[1] if len(sys.argv) > 1 else "."
    texts = {}
    for path in files(root):
        with open(path, encoding="utf-8") as f:
            texts[path] = f.read()
    library, own, fields = set(), set(), set()
    for path, text in texts.items():
        for use in USE.findall(text):
            if not OWN_ROOT.match(use):
                library |= set(WORD.findall(use))
        if path.endswith(".antt"):
            goals = set(MADE.findall(text))
            declared = {d for d in DECLARED.findall(text) if d not in goals}
            own |= declared
    for path, text in texts.items():
        for use in USE.findall(text):
            if OWN_ROOT.match(use):
                own |= set(WORD.findall(use))
    own -= library
    sources = source_names(root)
    new, clashes = {}, []
    for path, text in texts.items():
        goals = set(MADE.findall(text)) if path.endswith(".antt") else set()
        seen = {}

        def spell(m):
            name = m.group()
            before = m.string[: m.start()]
            if name in library:
                return name
            if path.endswith(".rt"):
                to = name.replace("-", "_") if name in own else name
            elif before.endswith("goal.") or name in goals or (before.endswith(".") and name not in own):
                to = made(name, sources)
            else:
                to = name.replace("-", "_")
            if not before.endswith("."):
                seen.setdefault(to, set()).add(name)
            return to

        out = []
        for code, part in pieces(path, text):
            out.append(WORD.sub(spell, part) if code else part)
        new[path] = "".join(out)
        plain = set(re.findall(r"(?<![\w'.-])[^\W\d][\w']*(?![\w'-])", "".join(p for code, p in pieces(path, text) if code)))
        for to, names in seen.items():
            if len(names) > 1 or (to in plain and to not in names and path.endswith(".antt")):
                clashes.append(f"{path}: {', '.join(sorted(names))} and {to}")
    if clashes:
        print("\n".join(clashes))
        if "--go" not in sys.argv:
            print("names would fall together; nothing was changed")
            raise SystemExit(1)
    for path, text in new.items():
        if text != texts[path]:
            with open(path, "w", encoding="utf-8") as f:
                f.write(text)
    print(f"{sum(new[p] != texts[p] for p in texts)} of {len(texts)} files")


main()
