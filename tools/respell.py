#!/usr/bin/env python3
"""Respells the repository's own definitions and lemmas: words in snake case, types and facts in camel case.

usage: python3 tools/respell.py            at the top: says what it renamed
       python3 tools/respell.py --list     says what it would rename, and changes nothing

A name counts as the repository's own if a file of specs/ or proofs/ defines it: a definition, a lemma, a
constructor or a field. Answers and invariants, which the prover names, are not own names; neither is a name of
src/. Strings and comments stay, but for what a comment has between backticks. It stops where two names would
fall together.
"""

import os
import re
import sys

CRATES = {"hex": "hex_text"}
# what its function is called: `item_at` is another one
SPECIAL = {"item-at": "next_item"}

NAME = r"[^\s:{}()\[\],.;@\"⌜⌝`]+"
DEFINED = re.compile(r"^(?:  )?(?:(?:abbrev|pub|unfoldable) )*(?:(?:record|data|ruleset) )?(" + NAME + r")(?: \(.*?| \{.*?)? :(?: |$)(.*)")
IMPORT = re.compile(r"^\s*(?:pub )?(?:ghost )?use ([\w.·+'-]+)\.\{([^}]*)\}", re.M | re.S)
TOKEN = re.compile(r"(?<![\w'-])([^\W\d][\w'-]*)")
PIECE = re.compile(r'"(?:[^"\\]|\\.)*"|//[^\n]*|--[^\n]*')


def files():
    for folder, dirs, names in os.walk("crates"):
        dirs[:] = sorted(d for d in dirs if d not in ("out", "must-fail"))
        for n in sorted(names):
            if n.endswith((".antt", ".rt")):
                yield os.path.join(folder, n)


def own(texts):
    found = {}
    for path, text in texts.items():
        if not path.endswith(".antt"):
            continue
        for line in text.split("\n"):
            m = DEFINED.match(line)
            if m and not m.group(2).strip().startswith(("goal.", "Goals.")) and "-" in m.group(1).strip("-"):
                found.setdefault(m.group(1), path)
    return found


def respelled(name):
    if name in SPECIAL:
        return SPECIAL[name]
    if name[0].isupper():
        return "".join(w[:1].upper() + w[1:] for w in name.split("-"))
    return name.replace("-", "_")


def turned(text, names, rust):
    def words(piece):
        return TOKEN.sub(lambda m: names.get(m.group(1), m.group(1)), piece)

    out, at = [], 0
    for m in PIECE.finditer(text):
        mark = m.group(0)
        if (mark.startswith("--") and rust) or (mark.startswith("//") and not rust):
            continue
        if mark.startswith("--") and m.start() > 0 and not text[m.start() - 1].isspace():
            continue
        out.append(words(text[at : m.start()]))
        out.append(mark if mark[0] == '"' else re.sub(r"`[^`]*`", lambda q: words(q.group(0)), mark))
        at = m.end()
    out.append(words(text[at:]))
    return "".join(out)


def together(texts, names):
    """Files in which two different names would get one spelling."""
    bad = []
    for path, text in texts.items():
        spelled = {}
        for t in set(TOKEN.findall(PIECE.sub(" ", text) if path.endswith(".antt") else text)):
            spelled.setdefault(names.get(t, t), set()).add(t)
        bad += [f"{path}: {' and '.join(sorted(s))}" for s in spelled.values() if len(s) > 1]
    return bad


def rename_crates():
    with open("crates.txt", encoding="utf-8") as f:
        lists = f.read()
    for old, new in CRATES.items():
        if not os.path.isdir(os.path.join("crates", old)):
            continue
        os.rename(os.path.join("crates", old), os.path.join("crates", new))
        lists = re.sub(rf"^(?!#)(.*)\b{old}\b", rf"\g<1>{new}", lists, flags=re.M)
        for path in files():
            with open(path, encoding="utf-8") as f:
                text = f.read()
            turned = re.sub(rf"\bRattle\.{old}\.", f"Rattle.{new}.", text)
            turned = re.sub(rf"^(\s*(?:pub )?use ){old}::", rf"\g<1>{new}::", turned, flags=re.M)
            if turned != text:
                with open(path, "w", encoding="utf-8") as f:
                    f.write(turned)
    with open("crates.txt", "w", encoding="utf-8") as f:
        f.write(lists)


def main():
    if "--list" not in sys.argv[1:]:
        rename_crates()
    texts = {}
    for path in files():
        with open(path, encoding="utf-8") as f:
            texts[path] = f.read()
    found = own(texts)
    names = {n: respelled(n) for n in found}
    foreign = set()
    for text in texts.values():
        for path, items in IMPORT.findall(text):
            if path.startswith("Rattle.std"):
                foreign |= {i.split(" as ")[0].strip() for i in items.split(",")}
    both = sorted(foreign & set(names))
    if both:
        sys.exit("respell: std has these names too: " + " ".join(both))
    print(f"respell: {len(names)} names")
    for n in sorted(names):
        print(f"  {n} -> {names[n]}")
    for b in together(texts, names):
        print("together: " + b)
    if "--list" in sys.argv[1:]:
        return
    for path, text in texts.items():
        new = turned(text, names, path.endswith(".rt"))
        if new != text:
            with open(path, "w", encoding="utf-8") as f:
                f.write(new)


main()
