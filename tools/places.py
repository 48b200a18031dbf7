#!/usr/bin/env python3
"""Counts, in src/ and in proofs, the places that docs/DESIGN-PASS.md speaks of: tools/places.py [--list] [COMMIT]. Without COMMIT the files as they stand."""
import re
import subprocess
import sys

args = [a for a in sys.argv[1:] if a != "--list"]
commit = args[0] if args else None


def git(*words):
    return subprocess.run(["git", *words], check=True, capture_output=True, text=True).stdout


def files(pattern):
    if commit:
        names = git("ls-tree", "-r", "--name-only", commit).split("\n")
    else:
        names = git("ls-files", "-co", "--exclude-standard").split("\n")
    for name in sorted(set(names)):
        if re.fullmatch(pattern, name):
            try:
                yield name, git("show", f"{commit}:{name}") if commit else open(name, encoding="utf-8").read()
            except FileNotFoundError:
                pass


SRC = dict(files(r"crates/[a-z_0-9]+/src/.*\.rt"))
PROOFS = dict(files(r"crates/[a-z_0-9]+/proofs/.*\.antt"))


def lines(pattern, where=None):
    for name, text in (where or SRC).items():
        for number, line in enumerate(text.split("\n"), 1):
            if not re.match(r"\s*(//|ghost use|--)", line) and re.search(pattern, line):
                yield f"{name}:{number}: {line.strip()}"


def functions():
    for name, text in SRC.items():
        for m in re.finditer(r"\bfn (\w+)(?:<[^>(]*>)?\(", text):
            depth, end = 1, m.end()
            while depth:
                depth += {"(": 1, ")": -1}.get(text[end], 0)
                end += 1
            inner, depth, parts = text[m.end():end - 1], 0, [""]
            for c in inner:
                depth += c in "(<[" 
                depth -= c in ")>]"
                if c == "," and depth == 0:
                    parts.append("")
                else:
                    parts[-1] += c
            yield name, m.group(1), [p for p in parts if p.strip()], text[end:end + 40]


def repeated(least):
    """Blocks of at least so many lines that stand twice, layout aside; each counted once, where it stands again."""
    rows = []
    for name, text in SRC.items():
        for number, line in enumerate(text.split("\n"), 1):
            if line.strip() and not line.strip().startswith(("//", "ghost use", "use ", "#")):
                rows.append((re.sub(r"\s+", " ", line.strip()), name, number))
    seen, i = {}, 0
    while i + least <= len(rows):
        block = tuple(r[0] for r in rows[i:i + least])
        if rows[i][1] == rows[i + least - 1][1] and block in seen:
            first, length = seen[block], least
            while i + length < len(rows) and rows[i + length][1] == rows[i][1] and rows[first + length][0] == rows[i + length][0]:
                length += 1
            yield f"{rows[i][1]}:{rows[i][2]}: {length} lines, as {rows[first][1]}:{rows[first][2]}"
            i += length
        else:
            seen.setdefault(block, i)
            i += 1


def answers():
    """Own enums of the shape of Option or Result: one variant says that it went well, or that there is nothing, the others why not or what."""
    for name, text in SRC.items():
        for m in re.finditer(r"^(?:pub )?enum (\w+)[^{]*\{(.*?)^\}", text, re.M | re.S):
            if re.search(r"^    (Done|Flow|Image|Open|Told|Taken|Passed|Settled|Quiet)\b", m.group(2), re.M):
                yield f"{name}: {m.group(1)}"


every = list(functions())
COUNTS = [
    ("1 own enums", lines(r"^(pub )?enum ")),
    ("1 of them of the shape of Option or Result", answers()),
    ("1 functions that give a number or a block for an answer", lines(r"fn \w*(_number|_block|_by|number)\(\w+: [A-Z]|fn (number|block)\(self\)")),
    ("1 parameters of a kind, mode or operation that are numbers", lines(r"\b(kind|mode|op): u(8|16|32)\b")),
    ("1 a flag with a value beside it", lines(r"known: bool, \w+: u32")),
    ("2 blocks of 12 lines and more that stand twice", repeated(12)),
    ("2 bodies of 6 to 11 such lines", (r for r in repeated(6) if int(r.split(": ")[1].split()[0]) < 12)),
    ("3 loops that count or look by hand", lines(r"^\s*(while|loop)\b")),
    ("4 bytes of a number taken apart or put together by hand", lines(r">> (24|16|8)\)|/ (16777216|65536|256)\b|\* (65536|256) \+")),
    ("4 casts where From would do", lines(r"\((\w|\.|\[|\])+ as (u16|u32|u64|usize)\)")),
    ("5 clauses that ask Lays", lines(r"\bLays l\b")),
    ("5 clauses that ask Ranged", lines(r"\bRanged [a-z]")),
    ("5 clauses that ask for the states after a salt", lines(r"≡ after_salt [a-z]")),
    ("5 functions of 8 parameters and more", (f"{n}: {f} {len(p)}" for n, f, p, _ in every if len(p) > 7)),
    ("6 a buffer, a place in it, and the place after as the answer", (f"{n}: {f}" for n, f, p, r in every if any("&mut [u8]" in q for q in p) and any(re.match(r"\s*at: usize", q) for q in p) and "-> usize" in r)),
    ("6 functions that take keys, counts and flags apart", (f"{n}: {f}" for n, f, p, _ in every if sum(bool(re.match(r"\s*(keys|counts|flags): &", q)) for q in p) == 3)),
    ("8 answers that only say search rules", lines(r"= *search rules *$", PROOFS)),
    ("8 answers that only say tt, refl or omega arith", lines(r"^\S+( g)?( t)? c = *(tt|refl|omega arith) *$", PROOFS)),
]
for title, found in COUNTS:
    found = list(found)
    print(f"{len(found):5}  {title}")
    if "--list" in sys.argv:
        for place in found:
            print("          " + place)
print(f"{len(every):5}  functions in all")
