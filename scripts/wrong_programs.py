#!/usr/bin/env python3
"""Tries wrong programs: the prover must refuse each edit of scripts/wrong_programs.txt for a fact that is not shown.

  wrong_programs.py [--in DIR] [--definitions | --functions] [--most N] [--jobs N] [--write] [WORD..]
  wrong_programs.py --fit [WORD..]

With words, only the edits of the crates named and of places that have one of them are tried; with --definitions or --functions, only those
of one kind; with --most N, only the first N of each crate and kind. --in works in DIR and keeps it, so that the next run there checks only
what has changed. --jobs N is for rt check. --write puts the tables of the run into docs/TRIALS.md: a crate has one for its functions and one
for its definitions, and a table is written if all its edits were tried. --fit proves nothing: it says which edits do not apply to the files
as they are.

An edit is a line `CRATE PLACE: what the wrong program does`, lines `- ` with the text that is replaced, and lines `+ ` with what stands there
instead. PLACE is a function, `module::name` or `Type::name`, or a definition, `Module.name` of specs/. The old text stands there exactly once,
in a function in its body. Every public function of the crates in COVERED must have two edits.

Edits of different functions are tried together: a proof rests on the contracts of the functions that are called and not on their code, so
that an edit shows in the errors of its own function alone. An edit of a definition is tried by itself, on the laws of its crate without
functions; of the crates in BELOW on the laws that `theorems` rests on, in each crate up to it. The verdict names the first law that is not
shown, and its crate. The command is `rt check` in the crate's folder, and it must prove the same files without edits.

An edit is refused if its function needs a fact, or a law states one, that is not shown. It is bad if the text is not there, if it does not
compile, or if errors say only that the proof file no longer fits the code; such an edit shows nothing, and counts as not refused. A goal is
named after the conditions before it, so that an edit of a condition makes a proof file unfit: the file is given the new names, and the edit
is tried once more. An edit of which a check says no more than that a function that is called is not proved is tried in a later check.
"""
import os
import re
import shutil
import signal
import subprocess
import sys
import tempfile

ROOT = os.path.dirname(os.path.dirname(os.path.abspath(__file__)))
COVERED = ("port_tables", "portgraph", "multi_tables", "multiportgraph", "records", "sheets", "files")
COVERED += ("exports", "sketches", "timing", "slots", "records_c", "exports_c")
# Errors that rest on others, and errors of a proof file that speaks of goals or of facts on the way that the code does not have.
FOLLOWS = re.compile(r"which (?:was not admitted|was rejected|is not proved)")
MISFIT = re.compile(r"that can be named from here|has no field|not in scope|has no `|: module `")
# What a check says of a goal that is open in numbers for which it is false.
FALSE = "allow values at which this goal is false"
MARK = "<!-- tables of scripts/wrong_programs.py --write -->\n"
# The crates up to the theorems, of which a definition is tried on all laws that these rest on.
BELOW = ["port_tables", "multi_tables", "portgraph", "multiportgraph", "theorems"]


# Flags of rt check.
JOBS = []
# Seconds that a check of a damaged definition has: a search in a law may go on and on where the law has become false.
SECONDS = 1200


class Edit:
    def __init__(self, crate, place, words):
        self.crate, self.place, self.words, self.old, self.new = crate, place, words, [], []
        self.refused, self.said, self.given = False, "", {}

    def of_definition(self):
        return "::" not in self.place

    def kind(self):
        return "definitions" if self.of_definition() else "functions"

    def where(self, top):
        """The file, and the first and last line of the place."""
        if not self.of_definition():
            path, _, _, first, last = functions(top, self.crate).get(self.place, ("", False, 0, 0, -1))
            return path, first, last
        module, name = self.place.split(".")
        path = os.path.join(top, "crates", self.crate, "specs", module + ".antt")
        lines = read(path).split("\n") if os.path.exists(path) else []
        heads = [i for i, line in enumerate(lines) if re.match(r"(?:pub |unfoldable |abbrev )*%s " % re.escape(name), line)] or [0]
        last = heads[-1]
        while last + 1 < len(lines) and lines[last + 1].startswith(" "):
            last += 1
        return path, heads[0], last

    def find(self, top):
        """The file, its lines, the first and last line of the place, the place's text, and where the old text stands in it."""
        path, first, last = self.where(top)
        lines = read(path).split("\n") if path and os.path.exists(path) else []
        text = "\n".join(lines[first : last + 1])
        return path, lines, first, last, text, list(re.finditer(r"\n\s*".join(re.escape(line.strip()) for line in self.old), text))

    def put(self, top):
        """Makes the edit. Answers whether it could."""
        path, lines, first, last, text, found = self.find(top)
        if len(found) != 1:
            self.tell("BAD EDIT", "the text stands there %d times" % len(found))
            return False
        # in a function the lines stand as deep as the old ones: a brace at a line's start would end the impl
        line = text[text.rfind("\n", 0, found[0].start()) + 1 :]
        deep = "" if self.of_definition() else re.match(" *", line).group()
        text = text[: found[0].start()] + ("\n" + deep).join(self.new) + text[found[0].end() :]
        write(path, "\n".join(lines[:first] + [text] + lines[last + 1 :]))
        return True

    def judge(self, errors, law=""):
        """The verdict by the edit's own errors, or by those of a law."""
        own = [e for e in errors if not FOLLOWS.search(e)]
        if law and facts(errors):
            self.tell("refused", law)
        elif facts(errors):
            self.tell("refused", in_words(facts(errors)) + ("" if facts(errors) == own else " (the proof file fits no more besides)"))
        elif errors:
            self.tell("BAD EDIT", "only the proof file fits no more: " + (own or errors)[0])
        else:
            self.tell("NOT REFUSED", "no error of its own")

    def tell(self, verdict, said):
        self.refused, self.said = verdict == "refused", said
        print("%s: %s %s: %s: %s" % (verdict, self.crate, self.place, self.words, said), flush=True)


def read(path):
    with open(path, encoding="utf-8") as f:
        return f.read()


def write(path, text):
    with open(path, "w", encoding="utf-8") as f:
        f.write(text)


def edits_in(text):
    edits = []
    for line in text.split("\n"):
        if line[:2] in ("- ", "+ "):
            (edits[-1].old if line[0] == "-" else edits[-1].new).append(line[2:])
        elif line and not line.startswith("#"):
            edits.append(Edit(*re.fullmatch(r"(\w+) (\S+): (.*)", line).groups()))
    return edits


def functions(top, crate):
    """The functions of a crate by name: the file, whether it is public, its own line, and the first and last line of its body."""
    found = {}
    src = os.path.join(top, "crates", crate, "src")
    for name in sorted(os.listdir(src)):
        lines, owner = read(os.path.join(src, name)).split("\n"), name[:-3]
        for i, line in enumerate(lines):
            impl = re.match(r"impl(?:<[^>]*>)? (\w+)", line)
            if impl or line == "}":
                owner = impl.group(1) if impl else name[:-3]
            fn = re.match(r'( *)(pub |pub\(crate\) )?(?:extern "C" )?fn (\w+)', line)
            if fn:
                last = lines.index(fn.group(1) + "}", i)
                first = next(k for k in range(i, last) if lines[k].endswith("{") and not lines[k].startswith(fn.group(1) + "    "))
                # an item begins at the attributes above it, and that is where a check says what it ensures
                head = i
                while head and re.match(r" *(#\[|//)", lines[head - 1]):
                    head -= 1
                found["%s::%s" % (owner, fn.group(3))] = os.path.join(src, name), fn.group(2) == "pub ", head, first, last
    return found


def facts(errors):
    return [e for e in errors if not FOLLOWS.search(e) and not MISFIT.search(e)]


def in_words(errors):
    """What is not shown first, and if that is short, two terms that should be one."""
    # a fact that fails for some numbers says most
    text = re.sub("[«»]", "", min(errors, key=lambda e: "fails, at" not in e and FALSE not in e))
    goal = re.match(r"`([^`]*)`", text)
    name = goal.group(1) if goal else ""
    at = re.fullmatch(r"returns-(.+)", name)
    called = re.fullmatch(r"(.*?)-requires.*", name)
    if name == "returns" or at:
        name = "the contract" + (" at `%s`" % at.group(1) if at else "")
    elif called:
        name = "what `%s` requires" % called.group(1)
    elif re.match(r"(loop|invariant)-", name):
        name = "the loop's invariant"
    elif name.startswith("decreases-"):
        name = "the loop's measure"
    else:
        name = goal.group() if goal else text[:60]
    said = ""
    if "fails, at" in text or FALSE in text:
        said = "fails for some numbers"
    pair = re.search(r"differ only where one has `([^`]*)` \(expected\).*? the other has `([^`]*)` \(found\)", text)
    if pair:
        pair = [re.sub(r"[\w·-]+\.(?=[^\s.])", "", side) for side in pair.groups()]
        pair = [re.sub(r"\(?\bc(?: \.[\w-]+)* \.([^\s()]+)\)?|\.([^\s.()]+)\)?", r"\1\2", side) for side in pair]
        if pair[0] != pair[1] and all(re.fullmatch(r"[a-z0-9][\w-]*|[A-Z]\w+", side) and side not in ("Post", "Learnt", "Path", "resV") for side in pair):
            said = "`%s` is not `%s`" % tuple(pair)
    return name + (": " + said if said else "")


class NoVerdict(Exception):
    pass


def check(top, crate, seconds=None):
    """Runs the check. Answers whether all is proved, the errors of the compiler, of proof files and of open goals (file, line, words), and for each
    function what it says of it, and by each goal that a proof file answers and the code does not have the goals that it has, likest first."""
    folder = os.path.join(top, "crates", crate)
    words = ["rt", "check"] + JOBS
    run = subprocess.Popen(words, cwd=folder, stdout=subprocess.PIPE, stderr=subprocess.STDOUT, text=True, errors="replace", start_new_session=True)
    try:
        out = run.communicate(timeout=seconds)[0]
    except BaseException as stopped:
        os.killpg(run.pid, signal.SIGTERM)
        run.wait()
        if isinstance(stopped, subprocess.TimeoutExpired):
            raise NoVerdict
        raise
    with open(os.path.join(top, "log"), "a", encoding="utf-8") as f:
        f.write(out)

    def found(pattern):
        return [(os.path.join(folder, path), int(line), re.sub(r"\s+", " ", said)) for path, line, said in re.findall(pattern, out, re.M)]

    compiler = found(r"^(?:\./)?(src/\S+\.rt):(\d+):\d+: error(?:\[[\w-]+\])?: (.*)")
    prover = found(r"^(?:\./)?((?:specs|proofs)/\S+\.antt):(\d+):\d+: error: (.*(?:\n  .*)*)")
    # the goals that the search leaves: the name first, as in errors
    opened = [(path, line, re.sub(r"^(.*?) \((`[^`]*`)\)", r"\2: \1", said)) for path, line, said in found(r"^note: (?:\./)?(src/\S+\.rt):(\d+):\d+: it is not proved that (.*)")]
    told = dict(re.findall(r"^fn %s::(\S+): (.*)" % crate, out, re.M))
    # (these wait for the proof of a function that is called)
    told.update((name, "not tried") for name in re.findall(r"^note: `search` has not tried the goals of `%s::(\S+)`" % crate, out, re.M))
    if run.returncode not in (0, 1, 3) or run.returncode and not (compiler or prover or opened or set(told.values()) - {"proved"}):
        sys.exit("the check of %s failed:\n%s" % (crate, out[-3000:]))
    asked, name = {}, ""
    for line in out.split("\n"):
        function, gone = re.match(r"fn %s::(\S+): " % crate, line), re.match(r"help: `Goals` has no `([^`]*)`; rattle asks for (.*?)(?:;|$)", line)
        name = function.group(1) if function else name
        if gone:
            asked.setdefault(name, {})[gone.group(1)] = re.findall(r"`([^`]*)`", gone.group(2))
    return run.returncode == 0, compiler, prover, opened, told, asked


def named(edit):
    """The place as the check names it: a function of the root file has no module."""
    return edit.place[5:] if edit.place.startswith("lib::") else edit.place


def proof_of(edit):
    return "/%s/" % named(edit).replace("::", "/")


def goal_of(said):
    return said.split("`")[1] if said.startswith("`") else ""


def kind_of(goal):
    return goal.split("-")[0]


def goals_gone(errors):
    """The goals that a proof file answers, and the code does not have."""
    return list(dict.fromkeys(re.findall(r"module `[^`]*\.Goals` has no `([a-z][^`]*)`", "\n".join(errors))))


def proofs_of(top, edit):
    folders = os.walk(os.path.join(top, "crates", edit.crate, "proofs"))
    return [os.path.join(at, name) for at, _, names in folders for name in names if (at + "/").endswith(proof_of(edit))]


def give_names(top, edit, asked):
    """Finds names of its goals in the edited code for the proof files of a function. Answers whether it could."""
    answered = re.findall(r"^(?:pub )?([\w'-]+) :", "\n".join(map(read, proofs_of(top, edit))), re.M)
    if edit.given:
        return False
    for gone, names in asked.items() if asked else ():
        name = next((n for n in names if kind_of(n) == kind_of(gone) and n not in answered and n not in edit.given.values()), "")
        if name:
            edit.given[gone] = name
    # what a goal's name says of conditions stands in the names of facts too
    for old, name in list(edit.given.items()):
        old, name = (re.sub(r"^.*?-(?:then|else)-|-clause-.*$", "", word) for word in (old, name))
        edit.given.setdefault(old, name)
    return bool(edit.given)


def put_names(top, edit):
    words = "|".join(re.escape(word) for word in sorted(edit.given, key=len, reverse=True))
    for path in proofs_of(top, edit):
        write(path, re.sub(r"(?<![\w'])(?:%s)(?![\w'-])" % words, lambda m: edit.given[m.group()], read(path)))


def try_functions(top, crate, edits):
    """As many checks as the function with the most edits has; one more where an edit does not compile, or waits for the proof of a function."""
    if not check(top, crate)[0]:
        sys.exit("%s is not proved without edits" % crate)
    folder, kept = os.path.join(top, "crates", crate), os.path.join(top, "kept")
    shutil.rmtree(kept, ignore_errors=True)
    # a crate whose functions the check proves alone has no proofs/
    parts = [part for part in ("src", "proofs") if os.path.isdir(os.path.join(folder, part))]
    for part in parts:
        shutil.copytree(os.path.join(folder, part), os.path.join(kept, part))
    batch = []
    while edits or batch:
        if not batch:
            first = {}
            for e in edits:
                first.setdefault(e.place, e)
            batch = list(first.values())
            edits = [e for e in edits if e not in batch]
        batch = [e for e in batch if e.put(top)]
        for e in batch:
            if e.given:
                put_names(top, e)
        _, compiler, prover, opened, told, asked = check(top, crate)
        left, moved, places = [], False, functions(top, crate)
        strange = [p for p, _, said in prover if facts([said]) and not any(proof_of(e) in p for e in batch)]
        for e in batch:
            path, _, head, start, end = places[e.place]
            stops = [said for p, line, said in compiler if os.path.samefile(p, path) and start < line <= end + 1]
            errors = [said for p, _, said in prover if proof_of(e) in p]
            goals = [said for p, line, said in opened if os.path.samefile(p, path) and head < line <= end + 1]
            state, names = (next((said for name, said in of.items() if ("::" + name).endswith("::" + named(e))), "") for of in (told, asked))
            fits = not any(MISFIT.search(said) for said in errors)
            # of a goal whose answer has another name the search says nothing
            shown = [said for said in goals if fits or FALSE in said or goals_gone(errors) and kind_of(goal_of(said)) not in map(kind_of, goals_gone(errors))]
            if stops:
                e.tell("BAD EDIT", "does not compile: " + stops[0])
            elif facts(errors) or shown:
                e.judge(shown + errors)
            elif state == "not tried":
                left.append(e)
            elif not fits and give_names(top, e, names):
                left.append(e)
                moved = True
            elif errors:
                e.judge(errors)
            elif state.startswith("could not tell"):
                e.tell("BAD EDIT", "the prover gave no verdict")
            elif state == "proved":
                e.judge([])
            else:
                left.append(e)
        if strange or left and left == batch and not moved:
            sys.exit("errors outside the edits: %s" % (strange or compiler or [told.get(e.place) for e in left]))
        batch = left
        for part in parts:
            shutil.rmtree(os.path.join(folder, part))
            shutil.copytree(os.path.join(kept, part), os.path.join(folder, part))


def types_of(use):
    """The types of a list of imports."""
    types = re.findall(r"\b[A-Z]\w*(?: as \w+)?", use.group(2))
    return "use %s{%s};" % (use.group(1), ", ".join(types)) if types else ""


def ghosts_of(use, text):
    """The words of a list of ghost imports that a text has: those of ghost fields."""
    words = [w for w in use.group(2).split(", ") if re.search(r"(?<!\w)%s(?!\w)" % re.escape(w.strip("◌")), text)]
    return "ghost use %s.{%s};" % (use.group(1), ", ".join(words)) if words else ""


def strip(folder):
    """The crate without functions and proofs of them."""
    shutil.rmtree(os.path.join(folder, "must-fail"), ignore_errors=True)
    proofs = os.path.join(folder, "proofs")
    for name in os.listdir(proofs) if os.path.isdir(proofs) else ():
        shutil.rmtree(os.path.join(proofs, name), ignore_errors=True)
    for name in os.listdir(os.path.join(folder, "src")):
        path = os.path.join(folder, "src", name)
        text = re.sub(r'^(?:pub |pub\(crate\) )?(?:unsafe )?(?:extern "C" )?(?:fn |impl\b)[\s\S]*?^}$', "", read(path), flags=re.M)
        text = re.sub(r"^(?:#\[(?!derive).*|use (?:.*::)?[a-z]\w*(?: as \w+)?;)$", "", text, flags=re.M)
        text = re.sub(r"^use (.*)\{([^}]*)\};$", types_of, text, flags=re.M)
        left = re.sub(r"^ghost use [^;]*;$", "", text, flags=re.M)
        write(path, re.sub(r"^ghost use (.*)\.\{([^}]*)\};$", lambda use: ghosts_of(use, left), text, flags=re.M))


def prune(top):
    """The crates of BELOW without the files of specs and of laws that `theorems` does not rest on: these are about the code."""
    def file_of(crate, part, module):
        return os.path.join(top, "crates", crate, part, module + ".antt")

    def modules(crate, part):
        lib = file_of(crate, part, "Lib")
        return re.findall(r"^(?:pub )?mod (\w+)$", read(lib), re.M) if os.path.exists(lib) else []

    left = [("theorems", part, name) for part in ("specs", "proofs") for name in modules("theorems", part)]
    reached = set()
    while left:
        place = left.pop()
        if place not in reached and os.path.exists(file_of(*place)):
            reached.add(place)
            left += re.findall(r"Rattle\.(\w+)\.(specs|proofs)\.(\w+)", read(file_of(*place)))
    for crate in BELOW:
        for part in ("specs", "proofs"):
            for module in modules(crate, part):
                if (crate, part, module) not in reached:
                    lib = file_of(crate, part, "Lib")
                    write(lib, re.sub(r"^(?:pub )?mod %s\n" % module, "", read(lib), flags=re.M))
                    os.remove(file_of(crate, part, module))
            if modules(crate, part) == [] and part == "proofs":
                shutil.rmtree(os.path.join(top, "crates", crate, part), ignore_errors=True)


def law_of(path, said):
    """The law that an error is about, with its file and crate."""
    crate, module = re.search(r"/crates/(\w+)/(?:specs/|proofs/)?(.*)\.antt$", path).groups()
    named = re.match(r"`([^`\s]+)`: ", said)
    return "`%s%s` of %s" % (module, "." + named.group(1) if named else "", crate)


def try_definitions(top, crate, edits):
    """Each on the laws of its crate, and then on those above it up to `theorems`."""
    above = BELOW[BELOW.index(crate) :] if crate in BELOW else [crate]
    for name in BELOW if crate in BELOW else above:
        strip(os.path.join(top, "crates", name))
    if crate in BELOW:
        prune(top)
    for c in above:
        if not check(top, c)[0]:
            sys.exit("the laws of %s do not hold without edits" % c)
    for e in edits:
        path, start, end = e.where(top)
        kept = read(path)
        if e.put(top):
            prover = []
            try:
                for c in above:
                    prover = prover or check(top, c, SECONDS)[2]
            except NoVerdict:
                e.tell("BAD EDIT", "no verdict in %d seconds" % SECONDS)
                write(path, kept)
                continue
            stops = [said for p, line, said in prover if os.path.samefile(p, path) and start < line <= end + 1]
            first = [law_of(p, said) for p, _, said in prover if facts([said])]
            if stops:
                e.tell("BAD EDIT", "is no definition: " + stops[0])
            else:
                e.judge([said for _, _, said in prover], "".join(first[:1]))
        write(path, kept)


def tables(edits):
    """The table of each crate and kind of place, by its title."""
    found = {}
    for crate, kind in dict.fromkeys((e.crate, e.kind()) for e in edits):
        its = [e for e in edits if (e.crate, e.kind()) == (crate, kind)]
        lines = ["## %s, %s: %d of %d refused" % (crate, kind, sum(e.refused for e in its), len(its)), ""]
        lines += ["| Place | Wrong program | Refused at |", "|---|---|---|"]
        lines += ["| `%s` | %s | %s |" % (e.place, e.words, e.said if e.refused else "NOT REFUSED") for e in its]
        found["%s, %s" % (crate, kind)] = "\n".join(lines) + "\n"
    return found


def write_into(path, edits, tried):
    """Replaces the tables all of whose edits were tried, and leaves the others. The order is that of the list. Says what has no table."""
    head, _, old = read(path).partition(MARK)
    kept = {re.match(r"## (.*?):", text).group(1): text for text in re.findall(r"^## [\s\S]*?\n(?=\n## |\Z)", old, re.M)}
    whole = {title: text for title, text in tables(tried).items() if len(rows(text)) == len(rows(tables(edits)[title]))}
    order = [title for title in tables(edits) if title in whole or title in kept]
    parts = [whole.get(title) or kept[title] for title in order]
    counts = [re.search(r": (\d+) of (\d+) refused", text).groups() for text in parts]
    total = "In all: %d of %d refused." % tuple(sum(int(count[i]) for count in counts) for i in (0, 1))
    missing = ["%s (%d)" % (title, len(rows(text))) for title, text in tables(edits).items() if title not in order]
    write(path, "\n".join([head + MARK, total + (" Not tried: %s." % "; ".join(missing) if missing else "") + "\n"] + parts))


def copy_crates(folder):
    """The crates as they are, over what checks have kept there in the folders out/."""
    for crate in sorted(os.listdir(os.path.join(ROOT, "crates"))):
        source, target = os.path.join(ROOT, "crates", crate), os.path.join(folder, "crates", crate)
        for name in os.listdir(target) if os.path.isdir(target) else ():
            if name != "out":
                path = os.path.join(target, name)
                (shutil.rmtree if os.path.isdir(path) else os.remove)(path)
        shutil.copytree(source, target, ignore=lambda at, names: ["out"] if at == source and "out" in names else [], dirs_exist_ok=True)
    shutil.copy(os.path.join(ROOT, "crates.txt"), folder)


def fit(edits, lacking):
    """Says which edits do not apply, and ends."""
    unfit = 0
    for e in edits:
        found = e.find(ROOT)[-1]
        if len(found) != 1 or e.old == e.new:
            unfit += 1
            print("%s %s: %s: the text stands there %d times" % (e.crate, e.place, e.words, len(found)))
    for name in lacking:
        print("fewer than two edits: " + name)
    print("%d of %d edits fit" % (len(edits) - unfit, len(edits)))
    sys.exit(1 if unfit or lacking else 0)


def rows(text):
    return re.findall(r"^\| `.*", text, re.M)


def main():
    words = sys.argv[1:]
    top = ""
    if "--in" in words:
        at = words.index("--in")
        top = os.path.abspath(words[at + 1])
        del words[at : at + 2]
    most = 0
    for option in ("--most", "--jobs"):
        if option in words:
            at = words.index(option)
            if option == "--most":
                most = int(words[at + 1])
            else:
                JOBS[:] = words[at : at + 2]
            del words[at : at + 2]
    options = [w for w in words if w.startswith("--")]
    words = [w for w in words if w not in options]
    if set(options) - {"--write", "--definitions", "--functions", "--fit"}:
        sys.exit(__doc__)
    edits = edits_in(read(os.path.join(ROOT, "scripts", "wrong_programs.txt")))
    lacking = []
    for crate in COVERED:
        for name, (_, public, _, _, _) in functions(ROOT, crate).items():
            if public and sum((e.crate, e.place) == (crate, name) for e in edits) < 2:
                lacking.append("%s %s" % (crate, name))
    crates = {e.crate for e in edits}
    tried = [e for e in edits if not words or any(w == e.crate if w in crates else w in e.place for w in words)]
    tried = [e for e in tried if "--" + e.kind() in options or not {"--definitions", "--functions"} & set(options)]
    if "--fit" in options:
        fit(tried, lacking)
    if most:
        tried = [e for e in tried if [other for other in tried if (other.crate, other.kind()) == (e.crate, e.kind())].index(e) < most]
    work = top or tempfile.mkdtemp()
    try:
        for kind, trial in (("functions", try_functions), ("definitions", try_definitions)):
            its = [e for e in tried if e.kind() == kind]
            for crate in dict.fromkeys(e.crate for e in its):
                # what is proved already rt takes over from other folders
                below = kind == "definitions" and crate in BELOW
                folder = os.path.join(work, "theorems" if below else kind)
                copy_crates(folder)
                trial(folder, crate, [e for e in its if e.crate == crate])
    finally:
        if not top:
            shutil.rmtree(work)
    if "--write" in options:
        write_into(os.path.join(ROOT, "docs", "TRIALS.md"), edits, tried)
    refused = sum(e.refused for e in tried)
    for name in lacking:
        print("fewer than two edits: " + name)
    print("%d of %d refused" % (refused, len(tried)))
    sys.exit(1 if refused < len(tried) or lacking else 0)


if __name__ == "__main__":
    main()
