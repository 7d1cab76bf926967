#!/usr/bin/env python3
"""Counts the places in crates/*/src that docs/DESIGN-PASS.md speaks of, point by point.

    python3 tools/design_places.py [DIRECTORY]      the counts
    python3 tools/design_places.py -l [DIRECTORY]   each place as well

DIRECTORY is a checkout of the repository (the current one where none is given). What is counted is
what the text of the code shows; which of it stays, and why, is on the page.
"""
import re
import sys
from collections import defaultdict
from pathlib import Path

SOURCE = re.compile(r'//[^\n]*|"(?:\\.|[^"\\])*"')
FUNCTION = re.compile(r"\bfn\s+(\w+)\s*(?:<[^{;]*?>)?\s*\(")


def blank(text):
    """The text with comments and strings out, as long as before."""
    return SOURCE.sub(lambda m: re.sub(r"[^\n]", " ", m[0]) if m[0].startswith("//") else '"' + " " * (len(m[0]) - 2) + '"', text)


def close(text, at, pair):
    """Where the bracket that opens at `at` closes."""
    depth = 0
    for i in range(at, len(text)):
        depth += (text[i] == pair[0]) - (text[i] == pair[1])
        if depth == 0:
            return i
    return len(text) - 1


class Function:
    """A function of the code: name, parameters, result, clauses and body."""

    def __init__(self, path, text, match):
        self.path, self.name, self.start = path, match[1], match.start()
        self.line = text.count("\n", 0, match.start()) + 1
        stop = close(text, match.end() - 1, "()")
        self.params = [p.strip() for p in split(text[match.end():stop]) if p.strip()]
        at, self.clauses, self.body = stop + 1, [], ""
        head = re.compile(r"\s*(?:->\s*[^{;]*?(?=\s*(?:\brequires\b|\bensures\b|[{;])))?", re.S)
        found = head.match(text, at)
        self.result = found[0].replace("->", "").strip() if found else ""
        at = found.end() if found else at
        clause = re.compile(r"\s*(requires|ensures)\s*(\w+)?\s*\{")
        while (found := clause.match(text, at)):
            end = close(text, found.end() - 1, "{}")
            self.clauses.append((found[1], found[2] or "", " ".join(text[found.end():end].split())))
            at = end + 1
        rest = re.match(r"\s*([{;])", text[at:])
        if rest and rest[1] == "{":
            open_at = at + rest.end() - 1
            self.body = text[open_at:close(text, open_at, "{}") + 1]

    def __str__(self):
        return f"{self.path}:{self.line} {self.name}"


def split(text):
    """The parts between commas that no bracket holds."""
    depth, part, parts = 0, "", []
    for c in text:
        depth += (c in "([{<") - (c in ")]}>")
        if c == "," and depth == 0:
            parts.append(part)
            part = ""
        else:
            part += c
    return parts + [part]


def shape(body):
    """A body with its names, numbers and texts out: what is left is its shape."""
    words = {"match", "if", "else", "return", "for", "in", "while", "let", "loop", "mut", "as"}
    body = re.sub(r"\b[A-Za-z_]\w*\b", lambda m: m[0] if m[0] in words else "x", body)
    body = re.sub(r"\b\d\w*\b", "0", body)
    return re.sub(r"x(?:::x)+", "x", "".join(body.split()))


def enums(path, text):
    for m in re.finditer(r"\benum\s+(\w+)[^{]*\{", text):
        yield m[1], text[m.end():close(text, m.end() - 1, "{}")], f"{path}:{text.count(chr(10), 0, m.start()) + 1}"


def lines(path, text, pattern):
    for m in re.finditer(pattern, text):
        yield f"{path}:{text.count(chr(10), 0, m.start()) + 1} {' '.join(m[0].split())}"


def together(functions, least):
    """Sets of two or more parameters, by name and type, that stand in `least` functions or more."""
    pairs = defaultdict(set)
    for f in functions:
        named = sorted({re.sub(r"'\w+\s*|\bmut\s+", "", p) for p in f.params if ":" in p and not re.search(r":\s*&?\s*(Global|HostRuntime)", p)})
        for i, a in enumerate(named):
            for b in named[i + 1:]:
                pairs[a + ", " + b].add(str(f))
    return {p: fs for p, fs in pairs.items() if len(fs) >= least}


def repeated(functions, least):
    """Clauses that stand word for word in `least` functions or more, whatever the parameter's name."""
    where = defaultdict(set)
    for f in functions:
        for kind, _, text in f.clauses:
            for part in text.split(" × "):
                part = re.sub(r"\b[a-z_]+(?=\.(?:old|new|now)\b)", "x", part.strip("() "))
                if len(part) > 12:
                    where[f"{kind} {part}"].add(str(f))
    return {c: fs for c, fs in where.items() if len(fs) >= least}


def groups(text):
    """What stands in brackets in a clause, and what stands beside one another in brackets."""
    for m in re.finditer(r"\(", text):
        stop = close(text, m.start(), "()")
        yield text[m.start():stop + 1]
        while text[stop + 1:stop + 3] == " (":
            stop = close(text, stop + 2, "()")
            yield text[m.start():stop + 1]


def recurring(functions, least):
    """The longest expressions over a parameter that stand in the clauses of `least` functions or more."""
    where = defaultdict(set)
    for f in functions:
        for _, _, text in f.clauses:
            text = re.sub(r"\b[a-z_]+\.(?:old|new|now)\b", "x", text)
            text = re.sub(r"\b[A-Z]\.(?=[a-z])", "S.", text)
            for part in groups(text):
                if len(part) > 20 and "x" in part and "λ" not in part and "≡" not in part:
                    where[part].add(str(f))
    kept = {e: fs for e, fs in where.items() if len(fs) >= least}
    return {e: fs for e, fs in kept.items() if not any(e != o and e in o and fs <= os for o, os in kept.items())}


def places(root):
    found = defaultdict(list)
    functions, traits = [], []
    for path in sorted(root.glob("crates/*/src/**/*.rt")):
        name = str(path.relative_to(root / "crates"))
        text = blank(path.read_text())
        here = [Function(name, text, m) for m in FUNCTION.finditer(text)]
        functions += here
        for enum, body, at in enums(name, text):
            if re.search(r"^\s*(Other|Passed|NoStep|Nothing|Failed)\b", body, re.M):
                found["1 enums with a case for nothing or for a failure"].append(f"{at} {enum}")
        found["1 what is done or refused, as a bool"] += [str(f) for f in here if f.result == "bool" and any("&mut" in p for p in f.params)]
        found["1 a number that means none"] += [str(f) for f in here if re.search(r"(?<!::)\bNone\s*=>\s*0\b|Err\(_\)\s*=>\s*0\b|entries\.len\(\)\s*\}$", f.body)]
        found["1 a theorem on a function that answers a number"] += [str(f) for f in here if re.fullmatch(r"\{\s*0\s*\}", f.body) and f.clauses and not f.params]
        found["3 a place or an index moved on by hand"] += list(lines(name, text, r"\b(?:at|to|i|j|left|next)\s*(?:\+=|-=)[^;]*;|\b(?:at|next|low)\s*=\s*[^=;][^;]*;(?=\s*\})"))
        found["3 loops over an index"] += list(lines(name, text, r"\bfor\s+\w+\s+in\s+0\.\.[^{]*|\bwhile\s+(?!let)[^{]*"))
        found["3 loops that look from a place on"] += list(lines(name, text, r"\bwhile\s+let[^{]*|\bloop\b"))
        found["4 numbers, codes and keywords by hand"] += [str(f) for f in here if f.name in ("number", "from_number", "code", "from_code", "from_numbers")]
        found["4 `==` by hand"] += [str(f) for f in here if f.name.startswith("same")] + list(lines(name, text, r"if\s+let\s+\w+::\w+\s*=\s*\w+\s*\{|matches!\([^)]*\)"))
        found["4 texts put together by hand"] += [str(f) for f in here if re.search(r"\bString\b", f.result) or f.name.startswith("show")]
        found["4 conversions by a match of error cases"] += list(lines(name, text, r"Err\(\w+::\w+\)\s*=>"))
        found["6 a buffer with its length"] += list(lines(name, text, r"\blen:\s*usize,"))
        found["6 links by number"] += list(lines(name, text, r"\b(?:next|first|last):\s*u32,"))
        found["6 a place in a list beside it"] += list(lines(name, text, r"\bstep:\s*Option<usize>,"))
        found["7 a condition as a trait and a struct"] += list(lines(name, text, r"\bimpl\s+Condition\s+for\s+\w+|\btrait\s+Condition\b"))
        found["7 a switch on which step to run"] += list(lines(name, text, r"\bmatch\s+\(?\s*(?:step|read_verb)\b[^{]*"))
    shapes = defaultdict(list)
    for f in functions:
        if f.body and (len(shape(f.body)) > 8):
            shapes[shape(f.body)].append(f)
    for fs in shapes.values():
        if len(fs) > 1:
            found["2 functions of one shape"].append(", ".join(map(str, fs)))
    for clause, fs in sorted(repeated(functions, 3).items()):
        found["5 a clause in three functions or more"].append(f"{clause}  [{len(fs)}]")
    for part, fs in sorted(recurring(functions, 3).items()):
        found["5 an expression in the clauses of three functions or more"].append(f"{part}  [{len(fs)}]")
    for pair, fs in sorted(together(functions, 3).items()):
        found["5 two parameters that stand together in three functions or more"].append(f"{pair}  [{len(fs)}]")
    for path in sorted(root.glob("crates/*/proofs/**/*.antt")):
        name = str(path.relative_to(root / "crates"))
        kind = {"Answers.antt": "8 files of answers", "Invariants.antt": "8 files of invariants"}.get(path.name)
        if kind:
            found[kind].append(name)
        elif path.name != "Lib.antt":
            found["8 files of lemmas"].append(name)
            found["8 lemmas"] += [f"{name} {w}" for w in re.findall(r"^\s*(?:pub\s+)?([\w'-]+)\s*:(?!=)", path.read_text(), re.M)]
    return found


def main(arguments):
    every = "-l" in arguments
    root = Path(next((a for a in arguments if a != "-l"), "."))
    found = places(root)
    for point in sorted(found):
        print(f"{len(found[point]):4}  {point}")
        if every:
            for place in found[point]:
                print(f"          {place}")


if __name__ == "__main__":
    main(sys.argv[1:])
