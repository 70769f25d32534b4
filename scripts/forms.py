#!/usr/bin/env python3
"""forms.py [COMMIT] [--list POINT]: counts the places of docs/DESIGN-PASS.md in crates/*/src and crates/*/proofs, crate by crate.

With a commit the files of that commit are counted, else those of the working tree. --list prints the places of a point.

  1  enums in which some variants say what was found or done and others that nothing was, or why not; constants that number kinds; fields
     that say whether the field beside them counts
  2  functions of three lines or more that are the same text but for types, constants, numbers and their own name, each group less one
  3  loops that count or move an index by hand: while and loop
  4  conversions, minima, differences, comparisons and printing by functions of our own
  5  parameters past the fifth, function by function: what travels together
  6  a count of places used beside an array or slice
  8  answers, loop measures and lines in proofs/
"""
import os, re, subprocess, sys
ARGS = sys.argv[1:]
LIST = None
if "--list" in ARGS:
    at = ARGS.index("--list"); LIST = ARGS[at + 1]; del ARGS[at:at + 2]
COMMIT = ARGS[0] if ARGS else None
TOP = subprocess.run(["git", "rev-parse", "--show-toplevel"], stdout=subprocess.PIPE, text=True, check=True).stdout.strip()

def files(part, end):
    if COMMIT:
        out = subprocess.run(["git", "ls-tree", "-r", "--name-only", COMMIT, "crates"], cwd=TOP, stdout=subprocess.PIPE, text=True, check=True).stdout.split("\n")
        names = [n for n in out if re.match(r"crates/\w+/%s/.*\.%s$" % (part, end), n)]
    else:
        names = []
        for where, _, found in os.walk(os.path.join(TOP, "crates")):
            rel = os.path.relpath(where, TOP)
            if re.match(r"crates/\w+/%s(/|$)" % part, rel):
                names += [rel + "/" + f for f in found if f.endswith("." + end)]
    for n in sorted(names):
        if COMMIT:
            text = subprocess.run(["git", "show", COMMIT + ":" + n], cwd=TOP, stdout=subprocess.PIPE, text=True, check=True).stdout
        else:
            text = open(os.path.join(TOP, n), encoding="utf-8").read()
        yield n, text

REFUSES = set("""Refused Nothing None End NoRoom Lacking Unlinked UnknownNode UnknownPort UnknownSecondPort TooManyPorts TooManyEntries BufferShort
BadSums BadLayout BadTimes Cycle TooShort MovesTooShort IncompatibleDirections AlreadyLinked BadOffset HiddenNode HiddenPort UnknownOffset InputWired
UnknownBlock SameSide Free Dead Hidden Failed Usage""".split())
POINTS = {}

def note(point, crate, place):
    POINTS.setdefault(point, {}).setdefault(crate, []).append(place)

def code(text):
    return re.sub(r"//[^\n]*", "", text)

bodies = {}
for name, text in files("src", "rt"):
    crate = name.split("/")[1]
    plain = code(text)  # comments go, lines stay
    for m in re.finditer(r"\benum (\w+)[^{]*\{(.*?)\n\}", plain, re.S):
        inner = re.sub(r"\([^)]*\)|\{[^}]*\}", "", m.group(2))
        variants = [v.split("=")[0].strip() for v in inner.split(",") if v.strip()]
        bad = [v for v in variants if v in REFUSES]
        if 0 < len(bad) < len(variants):
            note("1", crate, "%s: enum %s" % (name, m.group(1)))
    for m in re.finditer(r"^\s*(?:pub(?:\(crate\))? )?const ([A-Z_0-9]+): u(?:32|8) = \d+;", plain, re.M):
        note("1", crate, "%s: const %s" % (name, m.group(1)))
    for m in re.finditer(r"^\s*(?:pub(?:\(crate\))? )?(wrong|spoiled|right|there|found|heard|ended|failed|known): (?:bool|u32|u8),", plain, re.M):
        note("1", crate, "%s: field %s" % (name, m.group(1)))
    for m in re.finditer(r"^\s*(?:'\w+: )?(while|loop)\b[^\n]*", plain, re.M):
        note("3", crate, "%s:%d: %s" % (name, plain.count("\n", 0, m.start(1)) + 1, m.group(0).strip()))
    for m in re.finditer(r"\bfn (smaller|larger|less|wide|wide16|narrow|same_side|beyond|side_number|reverse|number_said|with_digit|word_at|put_word|field_at|put_field|cmp|eq|copy_of|lowest|highest)\b", plain):
        note("4", crate, "%s: fn %s" % (name, m.group(1)))
    for m in re.finditer(r"^( *)((?:pub(?:\(crate\))? )?)fn (\w+)(<[^(]*>)?\(", plain, re.M):
        at, depth = m.end() - 1, 0
        for j in range(at, len(plain)):
            depth += plain[j] in "([{"
            depth -= plain[j] in ")]}"
            if depth == 0:
                break
        params = [x for x in re.split(r",(?![^\[\]()<>]*[\]\)>])", plain[at + 1:j]) if x.strip()]
        if len(params) > 5:
            note("5", crate, "%s: fn %s, %d" % (name, m.group(3), len(params)))
        joined = " ".join(params)
        if re.search(r"\b(count|len|size|used|n|known|named): usize", joined) and re.search(r": &(?:'\w+ )?(?:mut )?\[", joined):
            note("6", crate, "%s: fn %s" % (name, m.group(3)))
        end = re.compile(r"\n%s\}" % m.group(1)).search(plain, j)
        if not end:
            continue
        whole = plain[j:end.end()]
        body = re.sub(r"\n\s*(?:requires|ensures)\b[^\n]*(?:\n\s+[×→∙][^\n]*)*", "", whole)
        body = body[body.find("{"):]
        if body.count("\n") < 4:
            continue
        key = re.sub(r"\b%s\b" % m.group(3), "F", body)
        key = re.sub(r"\b\d+\b", "0", re.sub(r"\b[A-Z][A-Z_0-9]+\b", "C", re.sub(r"\b[A-Z][A-Za-z0-9]*[a-z]\w*\b|\bu8\b|\bu16\b|\bu32\b|\bu64\b|\busize\b", "T", key)))
        bodies.setdefault(re.sub(r"\s+", " ", key), []).append((crate, "%s: fn %s" % (name, m.group(3))))
for key, group in bodies.items():
    for crate, place in group[1:]:
        note("2", crate, place + ", as " + group[0][1])
proofs = {}
for name, text in files("proofs", "antt"):
    crate = name.split("/")[1]
    c = proofs.setdefault(crate, [0, 0, 0])
    c[0] += len(re.findall(r"^pub [^ ]+ : goal\.", text, re.M)); c[1] += len(re.findall(r"^abbrev pub decreases-", text, re.M)); c[2] += text.count("\n")

if LIST:
    for crate in sorted(POINTS.get(LIST, {})):
        for place in POINTS[LIST][crate]:
            print(place)
    sys.exit()
crates = sorted(set(proofs) | {c for p in POINTS.values() for c in p})
print("%-16s%6s%6s%6s%6s%6s%6s   answers measures lines" % (("crate",) + tuple("123456")))
total = [0] * 9
for crate in crates:
    row = [len(POINTS.get(p, {}).get(crate, [])) for p in "123456"] + proofs.get(crate, [0, 0, 0])
    total = [a + b for a, b in zip(total, row)]
    print("%-16s%6d%6d%6d%6d%6d%6d   %7d %8d %5d" % ((crate,) + tuple(row)))
print("%-16s%6d%6d%6d%6d%6d%6d   %7d %8d %5d" % (("all",) + tuple(total)))
