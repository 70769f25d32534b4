#!/usr/bin/env python3
"""Names the laws that state the same thing, but for the names of what they speak of and the order of what they ask.

  same_laws.py             of the files of crates/ as git has them
  same_laws.py --library   and those whose statement a law of the toolchain's library has (that of the `rt` at hand)

A law is a name with a type that ends in a statement (an equation, an order, a membership, a refutation). Variables are renamed in the
order in which the conclusion names them, implicit ones count as named ones, both sides of an equation may change places. Fronts, files named
after theorems, whose statements stand again with their proofs, and steps within a `where` are not compared. It sees no instance of a more
general law. Prints each group, and last how many laws would go if each group were one.
"""
import os
import re
import subprocess
import sys

TOP = os.path.join(os.path.dirname(os.path.abspath(__file__)), "..")
SIGN = re.compile(r"^( *)(?:abbrev )?(?:pub )?(?:abbrev )?([^\s:(){}]+)(?: \{[^:{}]*\})? : (.*)$")
WORD = re.compile(r"[^\s(){},.;]+|[(){},.;]")
STATEMENT = re.compile(r"≡|≤|<|⊥|Member|Once|Rising|WireIn|⊎|×|Σ")
OPEN, CLOSE = "({⟨[", ")}⟩]"


def joined(text):
    """The lines without comments, a module's head in one line, all levels of types the same."""
    out = []
    for line in text.split("\n"):
        line = re.sub(r"(^|\s)--.*$", "", line).rstrip()
        if not line:
            continue
        if out and re.match(r"^ *module _ ", out[-1]) and not out[-1].endswith("where"):
            out[-1] += " " + line.strip()
        else:
            out.append(line)
    return [re.sub(r"Type (ℓ[^\s(){}]*|\(.*?\))(?=[\s)}])", "Type 0", line) for line in out]


def laws_of(path):
    """Name, parameters of the modules around it, and type, of each law of a file."""
    with open(path, encoding="utf-8") as text:
        lines = joined(text.read())
    scopes, found, i = [], [], 0
    while i < len(lines):
        line = lines[i]
        depth = len(line) - len(line.lstrip())
        scopes = [s for s in scopes if s[0] < depth]
        inside = any(s[1] is None for s in scopes)
        head = re.match(r"^ *module _ (.*) where$", line)
        if head and not inside:
            scopes.append((depth, head.group(1)))
        elif re.match(r"^ *(where|let|record|data)\b", line) or line.endswith(" where"):
            scopes.append((depth, None))
        else:
            law = SIGN.match(line)
            if law and not inside and depth == (scopes[-1][0] + 2 if scopes else 0):
                text = law.group(3)
                while i + 1 < len(lines) and len(lines[i + 1]) - len(lines[i + 1].lstrip()) > depth and not SIGN.match(lines[i + 1]):
                    i += 1
                    text += " " + lines[i].strip()
                found.append((law.group(2), " ".join(s[1] for s in scopes), text))
        i += 1
    return found


def pieces(text):
    """A type cut at the arrows that stand outside all brackets."""
    out, deep = [""], 0
    for c in text:
        deep += (c in OPEN) - (c in CLOSE)
        if c == "→" and deep == 0:
            out.append("")
        else:
            out[-1] += c
    return [p.strip() for p in out]


def binders(text):
    """The (names : type) groups of a part that has nothing else, else None."""
    groups, rest = [], text.strip()
    while rest and rest[0] in "({":
        deep, k = 0, 0
        for k, c in enumerate(rest):
            deep += (c in "({") - (c in ")}")
            if deep == 0:
                break
        named = re.match(r"([^()]*?) : (.*)$", rest[1:k])
        if not named:
            return None
        groups.append((named.group(1).split(), named.group(2)))
        rest = rest[k + 1 :].strip()
    return groups if groups and not rest else None


def forms(scope, text):
    """The law with its variables renamed: one text, or two for an equation, which may be read from either side."""
    parts = ([scope] if scope else []) + pieces(text)
    kinds, asked, end = {}, [], parts[-1]
    for part in parts[:-1]:
        groups = binders(part)
        if groups is None:
            asked.append(part)
        else:
            kinds.update((name, kind) for names, kind in groups for name in names)
    if not STATEMENT.search(end):
        return set()
    deep, cuts = 0, []
    for k, c in enumerate(end):
        deep += (c in OPEN) - (c in CLOSE)
        if c == "≡" and deep == 0:
            cuts.append(k)
    sides = [end]
    if len(cuts) == 1:
        left, right = end[: cuts[0]].strip(), end[cuts[0] + 1 :].strip()
        sides = [left + " ≡ " + right, right + " ≡ " + left]
    answers = set()
    for side in sides:
        names = {}

        def told(part):
            return " ".join(names.setdefault(w, "v%d" % len(names)) if w in kinds else w for w in WORD.findall(part))

        first = told(side)
        premises = sorted(told(a) for a in asked)
        types = sorted("%s:%s" % (names[n], " ".join(names.get(w, w) for w in WORD.findall(kinds[n]))) for n in names)
        types = [t for t in types if not t.endswith(":Type 0")]
        # what a module asks without a use in the statement
        premises += sorted(" ".join(names.get(w, w) for w in WORD.findall(k)) for n, k in kinds.items() if n not in names and STATEMENT.search(k))
        for k, bound in enumerate(re.findall(r"λ (\S+) \.", first)):
            first = re.sub(r"(?<!\S)%s(?!\S)" % re.escape(bound), "l%d" % k, first)
        answers.add(first + " | " + "; ".join(premises) + " | " + "; ".join(types))
    return answers


def ours():
    names = subprocess.run(["git", "ls-files", "crates"], cwd=TOP, stdout=subprocess.PIPE, text=True, check=True).stdout.split("\n")
    for name in names:
        if name.endswith(".antt") and "/declared/" not in name and "Theorem" not in os.path.basename(name):
            yield os.path.join(TOP, name), name.replace("crates/", "").replace("specs/", "").replace(".antt", "")


def library():
    page = subprocess.run(["rt", "doc"], stdout=subprocess.PIPE, text=True, check=True).stdout.strip()
    root = os.path.join(os.path.dirname(page), "rattle")
    for folder, _, inside in os.walk(root):
        for one in inside:
            if one.endswith(".antt") and "/Tests" not in folder and "/Examples" not in folder:
                path = os.path.join(folder, one)
                yield path, "library " + os.path.relpath(path, root)[:-5]


def main():
    known, groups = {}, []
    for path, where in ours():
        for name, scope, text in laws_of(path):
            keys = forms(scope, text)
            group = next((known[k] for k in keys if k in known), None)
            if group is None and keys:
                group = []
                groups.append(group)
                known.update((k, group) for k in keys)
            if group is not None:
                group.append("%s (%s)" % (name, where))
    own = [len(g) for g in groups]
    if "--library" in sys.argv:
        for path, where in library():
            for name, scope, text in laws_of(path):
                group = next((known[k] for k in forms(scope, text) if k in known), None)
                if group is not None:
                    group.append("%s (%s)" % (name, where))
    count = 0
    for group, mine in zip(groups, own):
        if len(group) > 1:
            print(", ".join(group[: mine + 2]))
            count += mine - (mine == len(group))
    print("%d laws would go" % count)


main()
