#!/usr/bin/env python3
"""Spells the names that this repository declares in specs/ and proofs/ as today's Rattle does.

usage: tools/respell.py          at the top, once, right after port.py, with port.py's changes in place
       tools/respell.py --table  writes nothing; prints each name that would change, old and new

Definitions, fields and clauses' words are in snake case. A lemma joins two names by a dash, and a plain word by an underscore.
Types, facts and modules keep their capitals; functions of src/, exported C names and text stay.
Names that would fall together are printed, and nothing is written.
"""

import glob
import os
import re
import subprocess
import sys

WORD = re.compile(r"[^\s(){}.;,@\"«»`'|\[\]:/*]+'*")
DECLARED = re.compile(
    r"^(?P<indent> *)(?P<marks>(?:(?:abbrev|unfoldable|pub|record|data|ruleset)\s+)*)(?P<name>[^\s(){}.;,@\"«»:]+)(?P<rest>(?: \{[^{}\n]*\}| \([^()\n]*\))* *(?::|=)(?= |$))",
    re.M,
)
# Words that std joins by dashes in the names of its own lemmas, and this repository's as well.
NAMES = set(
    """le lt eq add sub mul div mod max min zero suc none some take drop set get_or length append cons nil
    map sum total reverse filter ltb leb eqb check pick cond not or and true false""".split()
)
# std's own word for the older one
WORDS = {"getD": "get_or"}


def antt_files():
    return sorted(
        f
        for f in glob.glob("crates/*/*/**/*.antt", recursive=True)
        if not f.endswith("/Proof.antt") or "/proofs/" not in f
    )


def snake(name):
    return re.sub(r"(?<=[a-z0-9₀-₉])[A-Z]", lambda m: "_" + m[0].lower(), name)


def declared():
    """name -> (is it of specs/ or a field?)"""
    found = {}
    for f in antt_files():
        text = open(f, encoding="utf-8").read()
        for m in DECLARED.finditer(text):
            name = m["name"]
            if name in ("use", "where", "unfolding", "module", "let", "in", "pub", "mod", "open", "λ", "--") or not name[0].isalpha():
                continue
            if m["rest"].strip().endswith("=") and "ruleset" not in m["marks"]:
                continue
            field = bool(m["indent"]) and "pub" in m["marks"]
            made = field or "abbrev" in m["marks"] or "unfoldable" in m["marks"]
            kind = "plain" if "/specs/" in f and made else "lemma"
            if found.get(name) != "plain":
                found[name] = kind
    return found


def respelled(name, kind, words):
    if name[0].isupper() and "-" not in name:
        return name
    parts = [WORDS.get(p) or (p if p[0].isupper() else snake(p)) for p in name.split("-")]
    if kind == "plain":
        return "_".join(parts)
    new = parts[0]
    before_is_name = True
    for p in parts[1:]:
        is_name = p in words or p[0].isupper()
        new += ("-" if is_name else "_") + p
    return new


def table():
    found = declared()
    words = set(NAMES)
    for name, kind in found.items():
        if kind == "plain" or name[0].isupper():
            s = snake(name)
            words.add(s)
            if s.endswith("_of"):
                words.add(s[:-3])
    rows = {}
    for name, kind in found.items():
        new = respelled(name, kind, words)
        if new != name:
            rows[name] = new
    # a lemma that would have a definition's name
    taken = {rows.get(n, n) for n, kind in found.items() if kind == "plain"}
    for name, kind in found.items():
        new = rows.get(name, name)
        if kind == "lemma" and new in taken and not name[0].isupper():
            rows[name] = new + "_lem"
    return found, rows


def is_function(name):
    """A definition may have the name of the function of src/ that it is of, as std's have."""
    return any(
        re.search(rf"\bfn {name}\b", open(f, encoding="utf-8").read())
        for f in glob.glob("crates/*/src/**/*.rt", recursive=True)
    )


def main():
    found, rows = table()
    if "--table" in sys.argv[1:]:
        for old, new in sorted(rows.items()):
            print(f"{old}\t{new}")
        return
    # names that fall together: in any file, a new name that stands there already as a word
    bad = 0
    by_new = {}
    for old, new in rows.items():
        by_new.setdefault(new, []).append(old)
    for new, olds in by_new.items():
        if len(olds) > 1 or new in found and new not in rows:
            print(f"fall together: {olds} as {new}")
            bad += 1
    every = sorted(
        f
        for f in glob.glob("crates/**/*", recursive=True)
        if f.endswith((".antt", ".rt", ".edit")) and "/out/" not in f
    )
    for f in every:
        words = set(WORD.findall(open(f, encoding="utf-8").read()))
        for old in words & rows.keys():
            if rows[old] in words and rows[old] not in rows and not is_function(rows[old]):
                print(f"falls together in {f}: {old} as {rows[old]}")
                bad += 1
    if bad:
        sys.exit(1)
    for f in every:
        text = open(f, encoding="utf-8").read()
        if f.endswith(".antt"):
            new = "\n".join(turn_antt(line, rows) for line in text.split("\n"))
        else:
            new = turn_source(text, rows)
        if new != text:
            open(f, "w", encoding="utf-8").write(new)


def turn_words(text, rows):
    return WORD.sub(lambda m: rows.get(m[0], m[0]), text)


SPAN = re.compile(r"`[^`\n]*`")


def turn_antt(line, rows):
    """Code turns whole; of a comment the spans in backquotes, and words that no English has."""
    at = re.search(r"(?:^|(?<=\s))--(?=\s|$)", line)
    if not at:
        return turn_words(line, rows)
    code, comment = line[: at.start()], line[at.start() :]
    return turn_words(code, rows) + turn_comment(comment, rows)


def turn_comment(text, rows):
    text = SPAN.sub(lambda m: turn_words(m[0], rows), text)
    camel = {o: n for o, n in rows.items() if re.search(r"[a-z0-9][A-Z]", o)}
    return turn_words(text, camel)


def turn_source(text, rows):
    """Clauses and ghost items: no name of Rust's has a small first letter and a capital in it. A dash stands in a clause only."""
    out = []
    for line in text.split("\n"):
        if re.match(r"\s*//", line):
            out.append(turn_comment(line, rows))
        elif re.match(r"(?:old:|new:)?\s*(?:ghost|requires|ensures|×|\()", line) or "≡" in line:
            out.append(turn_words(line, rows))
        else:
            camel = {o: n for o, n in rows.items() if re.search(r"[a-z0-9][A-Z]", o) or "-" in o}
            out.append(turn_words(line, camel))
    return "\n".join(out)


main()
