#!/usr/bin/env python3
"""Respells the repository's own names in antt, and where src/ and docs/ cite them.

Types and facts are in upper camel case, everything else is in snake case. The names that Rattle
makes for its goals stay. Run once, at the top of the repository, after the kit's port.py; a second
run finds nothing to do. It stops where a new name stands in a file of antt already.
"""
import glob
import re
import sys

# A name is what stands between blanks, brackets, dots and the like.
NAME = r"[^\s(){}\[\],;.:|`\"/=<>·]+"
DEFINED = re.compile(
    r"\s*(?:(?:pub|abbrev|unfoldable|data|record|module|ruleset|mutual)\s+)*(" + NAME + r")"
    r"(?:\s*(?:\{[^}]*\}|\([^)]*\)))*\s*:(?![:=])\s*(.*)")
DECLARED = re.compile(r"\s*(?:pub\s+)?(?:data|record|module|ruleset)\s+(?:pub\s+)?(" + NAME + r")")

# Where camel case alone would give a name that the crate has for a type or a trait, and facts that
# were spelled like functions.
SPECIAL = {
    "Total-order": "IsTotalOrder",
    "fifo-puts": "FifoPuts",
    "fifo-takes": "FifoTakes",
    "filter-puts": "FilterPuts",
    "filter_takes": "FilterTakes",
    "round-puts": "RoundPuts",
    "round-takes": "RoundTakes",
}

# Names that may fall together: a field of a Rust struct and one of a record in specs/, which types tell apart.
SHARED = {"accepted-view"}


def respelled(name):
    if name in SPECIAL:
        return SPECIAL[name]
    if "-" not in name:
        return name
    parts = name.split("-")
    if name[0].isupper():
        return parts[0] + "".join(p[0].upper() + p[1:] for p in parts[1:])
    return "_".join(parts)


def antt_files():
    return sorted(glob.glob("crates/*/specs/**/*.antt", recursive=True)
                  + glob.glob("crates/*/proofs/**/*.antt", recursive=True))


def defined_names():
    """The repository's own names, less those of goals, which Rattle makes."""
    own = set()
    for path in antt_files():
        for line in open(path, encoding="utf-8"):
            found = DEFINED.match(line)
            if found and not re.match(r"goal\.", found.group(2)):
                own.add(found.group(1))
            declared = DECLARED.match(line)
            if declared:
                own.add(declared.group(1))
    return {name: respelled(name) for name in own if respelled(name) != name}


def rename(text, names, inside=None):
    token = re.compile(r"(?<![\w'-])(" + "|".join(sorted(map(re.escape, names), key=len, reverse=True)) + r")(?![\w'-])")
    if inside is None:
        return token.sub(lambda m: names[m.group(1)], text)
    return re.sub(inside, lambda m: rename(m.group(0), names), text)


def main():
    names = defined_names()
    if not names:
        print("respell: nothing to do")
        return
    whole = re.compile(r"[\w'+-]+")
    clash = False
    for path in antt_files() + sorted(glob.glob("crates/*/src/**/*.rt", recursive=True)):
        words = set(whole.findall(open(path, encoding="utf-8").read()))
        for old, new in sorted(names.items()):
            if old not in SHARED and old in words and new in words and path.endswith(".antt"):
                print(f"respell: {path}: {old} and {new} fall together", file=sys.stderr)
                clash = True
    if clash:
        sys.exit(1)
    pages = glob.glob("docs/*.md") + ["README.md"]
    sources = glob.glob("crates/*/src/**/*.rt", recursive=True) + glob.glob("crates/*/m*/*.edit")
    for path in antt_files() + sources + pages:
        before = open(path, encoding="utf-8").read()
        after = rename(before, names, r"`[^`\n]*`" if path.endswith(".md") else None)
        if after != before:
            open(path, "w", encoding="utf-8").write(after)
    for old, new in sorted(names.items()):
        print(old, new)


main()
