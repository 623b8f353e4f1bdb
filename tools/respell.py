#!/usr/bin/env python3
"""Spells the definitions and lemmas of this repository's specs/ and proofs/ as today's Rattle spells names.

usage: python3 tools/respell.py [--list]     at the top of the repository, once, right after /opt/rattle/port/port.py

Functions, lemmas and fields are in snake case, types and facts in upper camel case.  A dash stays in a lemma's name
where it joins the names of two definitions, as in length-written; everywhere else it becomes an underscore.
Where two names of one file would meet, the lemma gets _lem.  Functions of src/, exported names, strings, comments of
src/, inputs and outputs stay; so do the labels that Rattle makes in Answers and Invariants.
"""

import collections
import os
import re
import sys

SIGNATURE = re.compile(
    r"^(\s*)((?:abbrev |unfoldable |pub |data |record )*)([^\s:(){}.;,]+)((?:\s*[({][^)}]*[)}])*)\s*:(?:\s+(.*))?$"
)
TOKEN = re.compile(r'[^\s(){}.;,@"«»]+')
WELL = re.compile(r"([a-z][a-z0-9]*(_[a-z0-9]+)*'*|[A-Z][A-Za-z0-9]*'*)$")
FUNCTION_FILES = ("Answers.antt", "Invariants.antt", "Proof.antt")
# Words of std that a dash may join.
STD = set(
    "length take drop append get_or set map reverse replicate insert remove swap filter find sum all any cond not "
    "is_ok is_some is_none min max add sub mul div mod and or bit_and bit_or fold position concat".split()
)
# Functions that were spelled like types, by crate.
LOWERED = {"packets": {"BadAt": "bad_at"}, "writer": {"Fits": "fits"}}
# Lemmas whose spelling was right already and is now that of the definition they speak of.
LEMMAS = {"same_kind": "same_kind_lem"}
# What std calls a word that stands in names of lemmas.
WORDS = {"getD": "get_or"}


def files(root, endings):
    for folder, dirs, names in os.walk(os.path.join(root, "crates")):
        dirs[:] = sorted(d for d in dirs if d != "out")
        for name in sorted(names):
            if name.endswith(endings):
                yield os.path.join(folder, name)


def snake(word):
    word = re.sub(r"(?<=[a-z0-9])([A-Z])(?=[a-z0-9]|$|-|_|')", lambda m: "_" + m[1].lower(), word)
    return word


def declared(root):
    """Each name that a file of specs/ or proofs/ declares, with where: 'spec', 'lemma', 'field' or 'local'."""
    found = collections.defaultdict(set)
    for path in files(root, (".antt",)):
        in_specs = "/specs/" in path
        of_function = os.path.basename(path) in FUNCTION_FILES
        for line in open(path, encoding="utf-8"):
            m = SIGNATURE.match(line.rstrip("\n"))
            if line.startswith("--") or line.lstrip().startswith(("use ", "let ", "module ")) or not m:
                continue
            indent, words, name, _, kind = m.groups()
            if of_function and (indent or "goal." in (kind or "") or not kind):
                continue
            where = "field" if indent and in_specs else "spec" if in_specs else "lemma"
            found[name].add(where)
    return found


def spelled(name, definitions):
    if WELL.match(name):
        return name
    parts = [WORDS.get(p) or snake(p) for p in name.split("-")]
    whole = parts[0]
    for left, right in zip(parts, parts[1:]):
        joins = left in definitions and right in definitions
        whole += ("-" if joins else "_") + right
    return whole


def is_candidate(name):
    return name.isascii() and re.fullmatch(r"[A-Za-z][A-Za-z0-9_'-]*", name)


def tokens_of(text):
    return set(TOKEN.findall(text))


def table(root):
    found = {n: w for n, w in declared(root).items() if is_candidate(n)}
    definitions = STD | {snake(n) for n, w in found.items() if "spec" in w and "-" not in n}
    turned = {n: spelled(n, definitions) for n in found}
    turned = {n: t for n, t in turned.items() if n != t}
    seen = {p: tokens_of(open(p, encoding="utf-8").read()) for p in files(root, (".antt", ".rt"))}
    for name in sorted(turned):
        new = turned[name]
        for path, words in seen.items():
            if name not in words:
                continue
            here = path.endswith(".antt")
            meets = (here and new in words and (new in found or new in STD)) or any(
                o != name and turned.get(o) == new for o in words
            )
            if meets and ("-" in name or found[name] == {"lemma"}):
                turned[name] = new + "_lem"
                break
    return turned, found, seen


def report(turned, found, seen):
    """Names that fall together: the new spelling stood in a file that has the old one."""
    for name, new in sorted(turned.items()):
        for path, words in seen.items():
            if name in words and (new in words or any(o != name and turned.get(o) == new for o in words)):
                print(f"look: {name} -> {new} ({'/'.join(sorted(found[name]))}) stands in {path} already")


def names_for(path, turned):
    """The table for one file: its crate's functions that were spelled like types, and in proofs/ the lemmas that give way."""
    crate = path.split("/crates/")[-1].split("/")[0]
    more = dict(LOWERED.get(crate, {}))
    if "/proofs/" in path:
        more.update(LEMMAS)
    return turned | more


def turn_page(text, turned):
    """A page: what stands between backticks."""
    return re.sub(r"`[^`\n]*`", lambda m: TOKEN.sub(lambda w: turned.get(w[0].strip("`"), w[0].strip("`")) if "`" not in w[0] else w[0], m[0][1:-1]).join("``"), text)


def turn(text, turned, fields, is_rust):
    out, last, before = [], 0, ""
    for m in TOKEN.finditer(text):
        word = m[0]
        line_start = text.rfind("\n", 0, m.start()) + 1
        line = text[line_start : m.start()]
        out.append(text[last : m.start()])
        last = m.end()
        new = turned.get(word, word)
        if is_rust and ("//" in line or line.count('"') % 2):
            new = word
        if not is_rust and line.lstrip().startswith("--") and "-" in word:
            new = word
        if m.start() and text[m.start() - 1] == ".":
            is_field = not before[:1].isupper()
            if is_field and word not in fields:
                new = word
        out.append(new)
        before = word
    out.append(text[last:])
    return "".join(out)


def main(argv):
    root = "."
    turned, found, seen = table(root)
    if argv == ["--list"]:
        for name, new in sorted(turned.items()):
            print(name, new, "/".join(sorted(found[name])))
        report(turned, found, seen)
        return 0
    report(turned, found, seen)
    fields = {n for n, w in found.items() if "field" in w}
    changed = 0
    for path in files(root, (".antt", ".rt")):
        text = open(path, encoding="utf-8").read()
        new = turn(text, names_for(path, turned), fields, path.endswith(".rt"))
        if new != text:
            open(path, "w", encoding="utf-8").write(new)
            changed += 1
    for path in ["README.md"] + [os.path.join("docs", f) for f in sorted(os.listdir("docs")) if f.endswith(".md")]:
        text = open(path, encoding="utf-8").read()
        new = turn_page(text, turned)
        if new != text:
            open(path, "w", encoding="utf-8").write(new)
            changed += 1
    print(f"{len(turned)} names respelled in {changed} files")
    return 0


if __name__ == "__main__":
    raise SystemExit(main(sys.argv[1:]))
