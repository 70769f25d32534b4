#!/usr/bin/env python3
"""Brings the names of this repository's definitions and lemmas to today's spelling: words in snake case, types and modules in camel case.

`python3 tools/spelling.py` at the top, once, over a tree that the kit's port.py has turned. It renames what specs/ and proofs/ define
(top-level names, fields and constructors), everywhere that they are cited: in .antt files, in clauses and `ghost use` lines of .rt files, in
must-fail edits, and, between backticks, in pages. Functions of src/, generated names, strings, inputs and outputs keep their names.
With --list it prints old and new names and changes nothing.
"""
import collections, glob, os, re, subprocess, sys

TOKEN = re.compile(r"[^\s(){}\[\],;.:\"`|\\λ←]+")


def snake(name):
    """camelCase and dashes to snake case; a dash beside a type's name stays, as in `Wf-kept`."""
    parts = name.split('-')
    out = ''
    for k, part in enumerate(parts):
        if k:
            out += '-' if (part[:1].isupper() or parts[k - 1][:1].isupper()) else '_'
        if part[:1].isupper():
            out += part
        else:
            out += re.sub(r'(?<=[a-z0-9])([A-Z])', lambda m: '_' + m.group(1).lower(), part)
    return out


# Where the plain form would meet another name in the same scope: the name that stands for it.
# A lemma that would have its function's name gets `_lem`.
MEET = '''
direction-of link-first
all-given anew-told answer-by any-touches between-by block-found block-part block-shown block-taken block-zeros
blocks-all blocks-few blocks-left blocks-listed blocks-only both-linked both-ready both-seen call-adds connections-item
copies-in copy-at copy-need copy-outgoing copy-place count-in count-of cut-end cut-far cut-for cut-plain cut-refused
end-beside end-in end-named end-shown entry-at far-in far-renamed feeds-listed file-length first-in first-place
first-ready first-refusal found-there free-after good-offset grow-works has-link hidden-of in-hand in-port in-row
inside-told is-before is-linked is-loaded is-split item-adds link-of-end link-refused link-seen links-item longest-file
lowest-free main-port marks-long name-of neighbours-item next-offset offset-in offset-of out-port owner-in
owner-in-block owner-number pair-seen plain-nothing plain-read plan-cut port-here port-link port-of ports-item
ports-left ports-of ports-of-side ports-walked position-of prepared-by prepared-for push-ready refusal-numbers
remove-refused run-from same-counts second-end second-place second-ready second-seen set-as set-for set-refused
splits-there spot-of starts-at-block starts-at-port starts-between subport-of subport-past subports-among subports-item
subs-left sum-along taken-first taken-second tidied-for tidy-refused tidy-seen unit-fits unit-records unplaced-numbers
visible-links visible-nodes visible-ports wire-places wire-shown wired-input wires-listed
'''.split()
LEMMAS = set('''
same_place block_in copy_is end_is found_back free_of goes_on has_block is_block is_hidden kept_in kept_out node_of offset_read
owner_of row_below same_place seen_as start_between walk_ends
'''.split())


def files():
    return subprocess.run(['git', 'ls-files'], capture_output=True, text=True, check=True).stdout.split('\n')[:-1]


SIG = re.compile(r"^\s*((?:abbrev |unfoldable |pub |data |record |mutual |private )*)([^\s(){}:;,.=λ]+)((?:\s*(?:\{[^}]*\}|\([^)]*\)))*)\s*:(?![:=])")
LET = re.compile(r"\blet ([^\s(){}:;,.=λ]+)\s*[:=]")


def defined(names):
    """Each name that specs/ and proofs/ define or bind, with the files where. What a goal is called is no name of ours."""
    found = collections.defaultdict(set)
    for f in names:
        if not f.endswith('.antt') or '/out/' in f:
            continue
        for line in open(f):
            if line.lstrip().startswith('--'):
                continue
            m = SIG.match(line)
            if m and 'tie.' not in line and 'statement M' not in line and 'goal.' not in line:
                found[m.group(2)].add(f)
            for m in LET.finditer(line):
                found[m.group(1)].add(f)
            for m in re.finditer(r'\bas ([a-z][\w\'-]*)', line) if 'use ' in line else ():
                found[m.group(1)].add(f)
    return found


def clauses(text):
    """The stretches of an .rt file where names of specs/ stand: `ghost use` lines, clauses, ghost items and attributes."""
    spans = []
    for m in re.finditer(r'^[ \t]*(pub )?ghost use [^;]*;', text, re.M):
        spans.append((m.start(), m.end()))
    for m in re.finditer(r'\b(?:requires|ensures|invariant|ghost|also_owns|also_shares|decreases)\*?\b[^{};\n]*\{', text):
        depth, k = 1, m.end()
        while depth and k < len(text):
            depth += {'{': 1, '}': -1}.get(text[k], 0)
            k += 1
        spans.append((m.end(), k))
    for m in re.finditer(r'#!?\[tactic\([^\]]*\]', text):
        spans.append((m.start(), m.end()))
    spans.sort()
    joined = []
    for a, b in spans:
        if joined and a < joined[-1][1]:
            joined[-1] = (joined[-1][0], max(b, joined[-1][1]))
        else:
            joined.append((a, b))
    return joined


def turn(text, table, generated=False):
    """Every token of the table by its new name. In a proof of a function, what hangs on `c`, `w` or `l` is generated and stays."""
    out, last, head = [], 0, None
    for m in TOKEN.finditer(text):
        out.append(text[last:m.start()])
        token = m.group(0)
        dotted = m.start() > 1 and text[m.start() - 1] == '.' and not text[m.start() - 2:m.start() - 1].isspace()
        if not dotted:
            head = token
        stays = dotted and (token in LEMMAS
                            or generated and '-' in token and head in ('c', 'w', 'l', 'κs', 'goal', 'tie'))
        out.append(token if stays else table.get(token, token))
        last = m.end()
    out.append(text[last:])
    return ''.join(out)


def foreign(text):
    """Names that a file takes from another library stay as they are there."""
    out = set()
    for m in re.finditer(r'use ([^\s{;]+)\.\{([^}]*)\}', text):
        if not (m.group(1).startswith('Rattle.') and os.path.isdir('crates/' + m.group(1).split('.')[1])):
            out |= {n.strip().split(' as ')[0] for n in m.group(2).split(',')}
    return out


def turned(f, text, table):
    if f.endswith(('.antt', '.rt')):
        kept = foreign(text)
        table = {old: new for old, new in table.items() if old not in kept} if kept & table.keys() else table
    if f.endswith('.antt'):
        lines = []
        for line in text.split('\n'):
            lines.append(turn(line, table, '/proofs/' in f))
        return '\n'.join(lines)
    if f.endswith('.rt'):
        out, last = [], 0
        for a, b in clauses(text):
            out.append(text[last:a])
            out.append(turn(text[a:b], table))
            last = b
        out.append(text[last:])
        return ''.join(out)
    if f.endswith('.edit') or f == 'scripts/wrong_programs.txt':
        return turn(text, table)
    if f.endswith('.md'):
        return re.sub(r'`[^`\n]+`', lambda m: turn(m.group(0), table), text)
    return text


def main():
    names = files()
    found = defined(names)
    table = {}
    for n in found:
        if n in MEET or n in LEMMAS:
            table[n] = snake(n) + '_lem'
        elif n[:1].isupper() and '-' not in n:
            continue
        elif snake(n) != n:
            table[n] = snake(n)
    if '--list' in sys.argv:
        for n in sorted(table):
            print(n, table[n])
        return
    if '--meet' in sys.argv:
        meet(names, found, table)
        return
    changed = 0
    for f in names:
        if not f.endswith(('.antt', '.rt', '.edit', '.md')) and f != 'scripts/wrong_programs.txt':
            continue
        if f.startswith('docs/PORT') or f == 'NOTICE':
            continue
        text = open(f).read()
        new = turned(f, text, table)
        if new != text:
            open(f, 'w').write(new)
            changed += 1
    print(len(table), 'names,', changed, 'files')


def meet(names, found, table):
    """Names that would fall together: two tokens of one file that get one spelling, or a new spelling that stands there already."""
    back = collections.defaultdict(set)
    for old, new in table.items():
        back[new].add(old)
    pairs = collections.defaultdict(set)
    for f in names:
        if not f.endswith(('.antt', '.rt')):
            continue
        text = open(f).read()
        parts = [text] if f.endswith('.antt') else [text[a:b] for a, b in clauses(text)]
        tokens = set()
        for part in parts:
            part = re.sub(r'Rattle\.[\w.+]*', '', part)
            part = re.sub(r'^\s*--.*$', '', part, flags=re.M)
            part = re.sub(r'(?<=\S)\.[\w-]+', '', part)
            part = re.sub(r'(?<=[{;]) *[\w-]+ =', '', part)
            tokens |= set(TOKEN.findall(part))
        if f.endswith('.rt'):
            tokens |= set(re.findall(r'[(,]\s*(?:mut )?(\w+): ', text))
        new_of = collections.defaultdict(set)
        for t in tokens:
            new_of[table.get(t, t)].add(t)
        for new, olds in new_of.items():
            if len(olds) > 1:
                pairs[(new, tuple(sorted(olds)))].add(f)
    for (new, olds), fs in sorted(pairs.items()):
        print(new, olds, len(fs), sorted(fs)[:4])


if __name__ == '__main__':
    main()
