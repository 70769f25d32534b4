#!/usr/bin/env python3
"""What changed in the promises between two commits: `python3 scripts/promises.py OLD [NEW]`, NEW being the tree at hand where it is left out.

Public functions with signature and clauses; public structs, enums and constants, with ghost fields and the ghost items of impls; of specs/, and of the proofs of
`theorems`, definitions and records with their whole text and lemmas with their statement. It goes by the text: blanks and the module that a thing stands in count for nothing.
A thing that went is set beside one of its crate that has its last name. Written for docs/DESIGN-PASS-LIST.md."""
import re, subprocess, sys
from collections import defaultdict


def git(*args):
    return subprocess.run(["git", *args], capture_output=True, text=True, check=True).stdout


def files(commit):
    if commit:
        names = git("ls-tree", "-r", "--name-only", commit, "crates").split("\n")
        read = lambda name: git("show", f"{commit}:{name}")
    else:
        names = git("ls-files", "crates").split("\n")
        read = lambda name: open(name, encoding="utf-8").read()
    for name in names:
        parts = name.split("/")
        if len(parts) < 3:
            continue
        if name.endswith(".rt") and parts[2] == "src":
            yield "src", parts[1], name, read
        elif name.endswith(".antt") and (parts[2] == "specs" or parts[1] == "theorems"):
            yield "spec", parts[1], name, read


def flat(text):
    text = re.sub(r"//[^\n]*", "", text)
    return re.sub(r"\s+", " ", text).replace("( ", "(").replace(" )", ")").replace(",)", ")").strip()


def functions(text):
    """(name, signature with clauses) of each public function, and (name, text) of each public type, constant and ghost item."""
    fns, types = {}, {}
    inside = None
    lines = text.split("\n")
    i = 0
    while i < len(lines):
        line = lines[i]
        found = re.match(r"impl(?:<[^>]*>)? (?:(\w+)(?:<[^>]*>)? for )?(\w+)", line)
        if found:
            inside = found.group(2)
            ghosts = []
            j = i + 1
            while j < len(lines) and lines[j] != "}":
                if lines[j].strip().startswith("ghost "):
                    ghosts.append(flat(lines[j]))
                j += 1
            if ghosts:
                types[f"impl {found.group(1) or ''} for {inside}"] = " ".join(ghosts)
        elif line == "}":
            inside = None
        found = re.match(r"\s*pub (?:extern \"C\" )?fn (\w+)", line)
        if found:
            head = []
            while i < len(lines):
                if lines[i].strip() == "{" or (lines[i].rstrip().endswith("{") and "requires" not in lines[i] and "ensures" not in lines[i]):
                    head.append(lines[i].rstrip().rstrip("{"))
                    break
                head.append(lines[i])
                i += 1
            name = f"{inside}::{found.group(1)}" if inside else found.group(1)
            fns[name] = flat("\n".join(head))
        found = re.match(r"pub (struct|enum|const) (\w+)", line)
        if found:
            body = [line]
            if not line.rstrip().endswith(";"):
                while lines[i] != "}" and not lines[i].rstrip().endswith(";"):
                    i += 1
                    body.append(lines[i])
            types[f"{found.group(1)} {found.group(2)}"] = flat("\n".join(body))
        i += 1
    return fns, types


def specs(text):
    """(name, whole text) of definitions and records, and (name, statement) of lemmas, public alone."""
    definitions, lemmas = {}, {}
    text = re.sub(r"--[^\n]*", "", text)
    for block in re.split(r"\n(?=\s*(?:abbrev pub|unfoldable pub|pub record|pub )\b)", text):
        found = re.match(r"\s*(abbrev pub|unfoldable pub|pub record) (\S+)", block)
        indent = len(block) - len(block.lstrip())
        body = []
        for k, line in enumerate(block.strip("\n").split("\n")):
            if k and line.strip() and len(line) - len(line.lstrip()) < indent:
                break
            body.append(line)
        whole = "\n".join(body)
        if found:
            definitions[found.group(2)] = flat(re.split(r"\n\s*(?:module|use) ", whole)[0])
            continue
        found = re.match(r"\s*pub (\S+) :", block)
        if found:
            name = found.group(1)
            statement = re.split(r"\n\s*(?:unfolding|%s)\b" % re.escape(name), whole)[0]
            lemmas[name] = flat(statement)
    return definitions, lemmas


def gather(commit):
    kinds = defaultdict(lambda: defaultdict(list))
    for kind, crate, name, read in files(commit):
        text = read(name)
        first, second = functions(text) if kind == "src" else specs(text)
        for label, items in zip(("functions", "types") if kind == "src" else ("definitions", "lemmas"), (first, second)):
            for key, value in items.items():
                kinds[label][(crate, key)].append(value)
    return kinds


def last(key):
    return re.sub(r"_lent$", "", key.split("::")[-1].split(" ")[-1])


def main():
    old, new = gather(sys.argv[1]), gather(sys.argv[2] if len(sys.argv) > 2 else None)
    titles = {"functions": "Public functions", "types": "Public types, constants and ghost items", "definitions": "Definitions and records", "lemmas": "Theorems and lemmas, by statement"}
    for label, title in titles.items():
        a, b = old[label], new[label]
        print(f"## {title}\n")
        same = sum(1 for k in a if k in b and sorted(a[k]) == sorted(b[k]))
        gone = [k for k in a if k not in b]
        come = [k for k in b if k not in a]
        pairs = {}
        for crate, key in gone:
            for c in (crate, None):
                fit = [k for k in come if (c is None or k[0] == c) and last(k[1]) == last(key) and k not in pairs.values()]
                if len(fit) == 1:
                    pairs[(crate, key)] = fit[0]
                    break
        changed = [k for k in a if k in b and sorted(a[k]) != sorted(b[k])]
        moved = [k for k in pairs if sorted(a[k]) == sorted(b[pairs[k]])]
        print(f"{same} the same, {len(changed)} changed, {len(pairs)} under another name or crate, {len(gone) - len(pairs)} gone, {len(come) - len(pairs)} new.\n")
        crate = None
        rows = [(k, k) for k in changed] + [(k, pairs[k]) for k in pairs] + [(k, None) for k in gone if k not in pairs] + [(None, k) for k in come if k not in pairs.values()]
        for x, y in sorted(rows, key=lambda r: (r[0] or r[1])):
            here = (x or y)[0]
            if here != crate:
                crate = here
                print(f"### {crate}\n")
            names = f"`{x[1]}`" if x and x == y else f"`{x[1]}`, now `{y[1]}`" + (f" of `{y[0]}`" if y[0] != x[0] else "") if x and y else f"`{x[1]}`, gone" if x else f"`{y[1]}`, new"
            print(f"{names}\n\n```diff")
            before = [v for v in (a[x] if x else []) if not (y and v in b[y])]
            after = [v for v in (b[y] if y else []) if not (x and v in a[x])]
            for v in before:
                print(f"- {v}")
            for v in after:
                print(f"+ {v}")
            if not before and not after:
                print("  the same text")
            print("```\n")


main()
