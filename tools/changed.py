#!/usr/bin/env python3
"""Public signatures with their clauses, type invariants, definitions of specs/ and theorems of proofs/ that differ from those of a commit, old and new:
tools/changed.py COMMIT. docs/DESIGN-PASS.md ends with what it prints."""
import re
import subprocess
import sys

commit = sys.argv[1]


def git(*words):
    return subprocess.run(["git", *words], check=True, capture_output=True, text=True).stdout


def tree(old):
    names = git("ls-tree", "-r", "--name-only", commit) if old else git("ls-files", "-co", "--exclude-standard")
    for name in sorted(set(names.split("\n"))):
        if re.fullmatch(r"crates/\w+/(src/.*\.rt|specs/.*\.antt|proofs/[^/]*\.antt)", name):
            try:
                yield name, git("show", f"{commit}:{name}") if old else open(name, encoding="utf-8").read()
            except FileNotFoundError:
                pass


def tidy(text):
    return re.sub(r"\s+", " ", text).strip()


def code(crate, text):
    """Public functions up to their bodies, public types whole, impls of From and the like by their ghost members."""
    impl, lines, i = "", text.split("\n"), 0
    while i < len(lines):
        line = lines[i]
        m = re.match(r"impl(?:<[^>]*>)? (.*) \{", line)
        if m:
            impl = re.sub(r"<'_>|<'a>", "", m.group(1)) + "::"
        elif line == "}":
            impl = ""
        m = re.match(r"( *)pub (?:extern \"C\" )?fn (\w+)", line) or re.match(r"( +)fn (\w+)", line) if " for " in impl else re.match(r"( *)pub (?:extern \"C\" )?fn (\w+)", line)
        if m:
            indent, taken = m.group(1), []
            while lines[i] != indent + "{" and not lines[i].endswith(") {") and not re.search(r"-> .* \{$", lines[i]):
                taken.append(lines[i])
                i += 1
                if i == len(lines):
                    break
            if i < len(lines) and lines[i] != indent + "{":
                taken.append(lines[i][:-2])
            yield f"{crate} fn {impl}{m.group(2)}", tidy(" ".join(taken))
        m = re.match(r"pub (struct|enum) (\w+)", line)
        if m:
            taken = [line]
            while lines[i] != "}" and not lines[i].endswith(";"):
                i += 1
                taken.append(re.sub(r"^\s*//.*", "", lines[i]))
            yield f"{crate} {m.group(1)} {m.group(2)}", tidy(" ".join(taken))
        if re.match(r" +ghost \w+ = ", line) and impl:
            yield f"{crate} impl {impl[:-2]}", tidy(line)
        i += 1


def declared(crate, text, whole):
    blocks = re.split(r"\n(?=\s*(?:abbrev pub|unfoldable pub|pub|module _|[^\s-]\S* :|--))", "\n" + text)
    given = []
    for block in blocks:
        if not block.strip() or block.strip().startswith(("--", "use ", "pub mod")):
            continue
        depth = (len(block) - len(block.lstrip())) // 2
        given = [g for g in given if g[0] < depth]
        m = re.match(r"\s*module _ (.*?)\s+where\b", block, re.S)
        if m:
            given.append((depth, tidy(m.group(1))))
            continue
        m = re.match(r"\s*(?:abbrev |unfoldable )?pub (?:record )?(\S+)", block)
        if m:
            body = re.sub(r"\n\s*--[^\n]*", "", block)
            name = m.group(1)
            if not whole:
                body = re.split(r"\n\s*(?:unfolding\b|" + re.escape(name) + r"[^\n:]*=|" + re.escape(name) + r"\b[^:\n]*\n\s*=)", body)[0]
            yield f"{crate} {'definition' if whole else 'theorem'} {name}", tidy(" ".join(g for _, g in given) + " " + body)


def everything(old):
    found = {}
    for name, text in tree(old):
        crate = name.split("/")[1]
        if name.endswith(".rt"):
            items = code(crate, text)
        else:
            items = declared(crate, text, "/specs/" in name)
        for key, value in items:
            found.setdefault(key, [])
            if value not in found[key]:
                found[key].append(value)
    return found


def show(title, keys, old, new):
    print(f"\n### {title}\n\n```diff")
    for key in keys:
        print(f"  {key}")
        for value in old.get(key, []):
            if value not in new.get(key, []):
                print(f"- {value}")
        for value in new.get(key, []):
            if value not in old.get(key, []):
                print(f"+ {value}")
    print("```")


old, new = everything(True), everything(False)
keys = sorted(set(old) | set(new))
kinds = [("Public functions, their clauses, and types", (" fn ", " struct ", " enum ", " impl ")), ("Definitions of specs/", (" definition ",)), ("Laws and theorems of proofs/", (" theorem ",))]
for title, words in kinds:
    mine = [k for k in keys if any(w in k for w in words)]
    changed = [k for k in mine if k in old and k in new and old[k] != new[k]]
    gone = [k for k in mine if k not in new]
    fresh = [k for k in mine if k not in old]
    same = len(mine) - len(changed) - len(gone) - len(fresh)
    print(f"\n{title}: {same} the same, {len(changed)} changed, {len(gone)} gone, {len(fresh)} new.")
    show(title + ": changed", changed, old, new)
    show(title + ": gone", gone, old, new)
    show(title + ": new", fresh, old, new)
