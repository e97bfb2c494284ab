"""How a wrong program is tried, and by what the prover says whether it is refused at the clause that it breaks: .ci/edits
tells the rule."""
import os
import re
import shutil
import subprocess
import sys
import tempfile
import time

TOP = os.path.dirname(os.path.dirname(os.path.abspath(__file__)))
sys.path.insert(0, f"{TOP}/tools")

from heglorwy.imports import imports_of  # noqa: E402
from heglorwy.kit import kit_of  # noqa: E402

PARTS = ("src", "specs", "proofs")
# What the prover says if it can't read a text: nothing is told of a clause then.
UNREAD = re.compile(r"is not in scope|has no field|has no `|that can be named|is no name|operand is missing|"
                    r"expected the end|cannot continue|was not admitted")


class Clause:
    """A clause of a contract, and the part of a loop's invariant, or the lemma, from which it follows, if it is said."""

    def __init__(self, name, by=""):
        self.name = name.strip()
        self.loop, _, self.field = by.strip().partition(".")

    def __str__(self):
        return self.name + (f" by {self.loop}" + (f".{self.field}" if self.field else "") if self.loop else "")

    def lemma_in(self, texts):
        """The lemma of a crate's own proofs from which the clause follows, by module and name, if `by` names one."""
        is_lemma = self.field and f"proofs/{self.loop.replace('.', '/')}.antt" in texts
        return (self.loop, self.field) if is_lemma else None

    def has(self, goal, field):
        """Whether a goal is of this clause. The field is that of its record, `*` where all fields need what failed."""
        if self.loop:
            of_loop = re.match(rf"{re.escape(self.loop)}-(init|preserved)\b", goal)
            return bool(of_loop) and (not self.field or field in (self.field, "*", "?"))
        if "clause-" in goal:
            return goal.endswith(f"clause-{self.name}")
        return goal.startswith("returns") and (self.name == "returns" or field in (self.name, "*"))


class Edit:
    """A wrong program: its place, what it replaces in which file, and the clauses that it breaks."""

    def __init__(self, path):
        self.path = os.path.relpath(path, TOP)
        parts = self.path.split("/")
        self.crate = parts[1]
        self.name = f"{self.crate}/{parts[-1].removesuffix('.edit')}"
        self.pairs, self.breaks = [], []
        file = old = None
        with open(path, encoding="utf-8") as lines:
            for line in lines.read().split("\n"):
                key, _, text = line.partition(":")
                text = text.removeprefix(" ")
                if key == "file":
                    file = text.strip()
                elif key == "old":
                    old = text
                elif key == "new":
                    self.pairs.append((file, old, text))
                elif key == "breaks":
                    function, _, clause = text.partition(",")
                    self.breaks.append((function.strip(), Clause(*clause.split(" by "))))

    def changes_more(self, texts):
        """Whether it changes a definition, or a constant of more than one use, on which other functions may stand."""
        used = [name for _, old, _ in self.pairs for name in re.findall(r"\bconst (\w+)", old)]
        code = "".join(text for file, text in texts.items() if file.startswith("src/") and "tests" not in file)
        return (any(file.startswith("specs/") for file, _, _ in self.pairs)
                or any(len(re.findall(rf"\b{name}\b", code)) > 2 for name in used))

    def is_of_statements(self):
        """Whether it changes a definition or a law's own statement alone: then it shows that another sentence isn't proved, and
        not that a program is refused."""
        return all(not file.startswith("src/") or re.match(r"\s+(?:ensures|requires|→)", old) for file, old, _ in self.pairs)

    def change(self, texts):
        """Puts the change into the texts of files, and says what is wrong with it."""
        if not self.breaks:
            return "it has no line `breaks: FUNCTION, CLAUSE`"
        for file, old, new in self.pairs:
            if file not in texts or texts[file].count(old) != 1:
                return f"an `old:` text doesn't stand once in {file}"
            texts[file] = texts[file].replace(old, new)
        return None


class Rooms:
    """Where copies of crates are checked, each over what the checks of the crate before it kept. It calls the prover itself,
    with the words of the kit's own `rt`: that asks for libraries that it can build upon, and `rt ci` leaves others."""

    def __init__(self, place, names):
        self.kit = kit_of("edits")
        self.kit.guarded()
        self.place = place
        self.crates = {crate.name: crate for crate in self.kit.crates_below(TOP)}
        below = {library.name: library for name in names for library in self.crates[name].below()}
        for name in [name for name in self.crates if name in below]:
            if not is_built(name) and below[name].build_rlib(["--jobs", "2"], anew=False):
                sys.exit(f"edits: {name}, which others stand on, isn't proved")

    def check(self, crate, texts, functions):
        """What the prover says of functions of a crate, with these texts in place of its own."""
        kept, tests = f"{self.place}/{crate}", is_of_tests(crate)
        if not os.path.isdir(kept):
            incremental = f"{TOP}/crates/{crate}/out/incremental"
            if os.path.isdir(incremental) and not tests:
                subprocess.run(["cp", "-al", incremental, kept], check=True)
            else:
                os.mkdir(kept)
        with tempfile.TemporaryDirectory(dir=self.place) as folder:
            for part in PARTS:
                if os.path.isdir(f"{TOP}/crates/{crate}/{part}"):
                    shutil.copytree(f"{TOP}/crates/{crate}/{part}", f"{folder}/{part}")
            for file, text in texts.items():
                with open(f"{folder}/{file}", "w", encoding="utf-8") as it:
                    it.write(text)
            only = [word for function in functions for word in ("--only", function)]
            words = self.crates[crate].words(["--jobs", "1"], tests=tests, keeps=False)
            ran = subprocess.run([self.kit.RATTLE, "check", *words, "--incremental", kept, *only], cwd=folder, errors="replace",
                                 stdin=subprocess.DEVNULL, stdout=subprocess.PIPE, stderr=subprocess.STDOUT)
            return ran.stdout


def is_of_tests(crate):
    """Whether a crate has tests alone: then the prover is to look at these."""
    root = f"{TOP}/crates/{crate}/src/lib.rt"
    lines = read(root).split("\n") if os.path.isfile(root) else []
    before = {above for above, line in zip(lines, lines[1:]) if re.match(r"(?:pub )?mod \w+;", line)}
    return before == {"#[cfg(test)]"}


def is_built(crate):
    """Whether a library is there, and newer than its sources, but its tests."""
    library = f"{TOP}/crates/{crate}/out/rlib/{crate}.rlib"
    if not os.path.isdir(library):
        return False
    sources = [f"{folder}/{file}" for part in PARTS for folder, _, files in os.walk(f"{TOP}/crates/{crate}/{part}")
               for file in files if "tests" not in f"{folder}/{file}"]
    return max(map(os.path.getmtime, sources)) <= os.path.getmtime(library)


def read(path):
    with open(path, encoding="utf-8") as file:
        return file.read()


def answers_of(texts, function):
    """The answers of a function in the texts of a crate, by their goals: from which line on each stands, and its lines."""
    found, goal = {}, None
    text = texts.get(f"proofs/{function.replace('::', '/')}/Answers.antt", "")
    for number, line in enumerate(text.split("\n"), 1):
        begins = re.match(r"(?:pub |abbrev |#)*(\S+) :", line)
        if begins or line.startswith("--"):
            goal = begins[1] if begins else None
        if goal:
            found.setdefault(goal, (number, []))[1].append(line)
    return found


def field_at(lines, row, column):
    """In which field of the record that a goal is answered by a place lies: `*` before all of them, `?` without a record."""
    before = "\n".join(lines[:row] + [lines[row][:column]])
    whole, depth, field = "\n".join(lines), [], None
    begins = re.search(r"(?m)^\s*record \{|= (?:λ [^.]*\.\s*)?record \{|\bin record \{", whole)
    if not begins:
        return "?"
    for at in range(begins.end() - 1, len(before)):
        if before[at] in "([{":
            depth.append(at)
        elif before[at] in ")]}" and depth:
            depth.pop()
        if len(depth) == 1 and before[at] in "{;":
            name = re.match(r"\s*(\S+) =", whole[at + 1:])
            field = name[1] if name else field
    return field or "*"


def lemmas_that_failed(said):
    """The lemmas of a crate that have an error of their own, by module and name."""
    failed = set()
    for line in said.split("\n"):
        at = re.match(r"(?:\./)?proofs/(\S+?)\.antt:\d+:\d+: error: `([^`\s]+)`: (.*)", line)
        if at and not at[1].endswith("/Answers") and not UNREAD.search(re.sub(r"`[^`]*`", "``", at[3])):
            failed.add((at[1].replace("/", "."), at[2]))
    return failed


def failed_goals(said, texts, function):
    """The goals of a function that failed, each with the field of its record: answers, and those that no search proved. A
    cycle of functions has its answers together."""
    goals, answers, place = [], answers_of(texts, function), function.replace("::", "/")
    module, _, name = place.rpartition("/")
    for line in said.split("\n"):
        of_cycle = re.match(rf"(?:\./)?proofs/{re.escape(module)}/\+\S+/Answers.antt:\d+:\d+: error: "
                            rf"`{re.escape(name)}-([^`\s]+)`: (.*)", line)
        if of_cycle and not UNREAD.search(re.sub(r"`[^`]*`", "``", of_cycle[2])):
            goals.append((of_cycle[1], "?"))
        at = re.match(rf"(?:\./)?proofs/{re.escape(place)}/Answers.antt:(\d+):(\d+): error: `([^`\s]+)`: (.*)", line)
        if at and not UNREAD.search(re.sub(r"`[^`]*`", "``", at[4])):
            first, lines = answers.get(at[3], (0, []))
            row = int(at[1]) - first
            goals.append((at[3], field_at(lines, row, int(at[2]) - 1) if 0 <= row < len(lines) else "?"))
        if re.match(rf"fn \S+::{re.escape(function)}: no proof: ", line) and "did not prove" in line:
            goals += [(goal, "?") for goal in re.findall(r"`([^`\s]+)`", line.split("did not prove")[1])]
    return goals


def goals_without_lemma(said, texts, crate, function):
    """The goals of a function, with their fields, whose answer is a lemma that has an error of its own."""
    failed, place = lemmas_that_failed(said), f"proofs/{function.replace('::', '/')}/Answers.antt"
    goals, lemmas = [], lemmas_named(texts.get(place, ""), crate)
    for goal, (_, lines) in answers_of(texts, function).items():
        for row, line in enumerate(lines):
            for word in re.finditer(r"[^\s(){};,]+", line):
                if has_failed(lemmas.get(word[0]), failed, texts, crate):
                    goals.append((goal, field_at(lines, row, word.start())))
    return goals


def lemmas_named(text, crate):
    """The lemmas of a crate's own proofs that a text names in its `use` lines, each with its module."""
    own = f"Rattle.{crate}.proofs."
    brought = [one for one in imports_of(text, "use") if one.name and one.module.startswith(own)]
    return {one.alias or one.name: (one.module.removeprefix(own), one.name) for one in brought}


def lemmas_below(lemma, texts, crate):
    """The lemmas of a crate's own proofs that a lemma's equations name. A name that an equation binds is none."""
    text, found = texts.get(f"proofs/{lemma[0].replace('.', '/')}.antt", ""), set()
    known = {name: (lemma[0], name) for name in re.findall(r"(?m)^ *(?:pub |abbrev |#)*(\S+) :", text)}
    known.update(lemmas_named(text, crate))
    for equation in re.finditer(rf"(?m)^( *){re.escape(lemma[1])}(?= )(?! :).*\n?(?:\1 +.*\n?)*", text):
        left, _, right = re.sub(r"--.*", "", equation[0]).partition(" =")
        binders = re.findall(r"\blet (\S+)|λ ([^.]*)\.", right)
        bound = set(re.findall(r"[^\s(){};,:]+", " ".join([left, *(part for binder in binders for part in binder)])))
        words = set(re.findall(r"(?<![^\s(){};,])[^\s(){};,]+(?![^\s(){};,]| =)", right))
        found |= {known[word] for word in words - bound if word in known}
    return found - {lemma}


def has_failed(lemma, failed, texts, crate):
    """Whether a lemma has an error of its own, or one on which it stands in the crate's own proofs, however far below."""
    passed, left = set(), {lemma} - {None}
    while left and not left & failed:
        passed |= left
        left = set().union(*(lemmas_below(below, texts, crate) for below in left)) - passed
    return bool(left)


def rests_on(clause, texts, crate, function):
    """Whether the answers of a clause name the lemma from which it follows, or one that stands on it."""
    named = lemmas_named(texts.get(f"proofs/{function.replace('::', '/')}/Answers.antt", ""), crate)
    left = {named[word] for goal, (_, lines) in answers_of(texts, function).items() if Clause(clause.name).has(goal, clause.name)
            for line in lines for word in re.findall(r"[^\s(){};,]+", line) if word in named}
    passed = set()
    while left and (clause.loop, clause.field) not in left:
        passed |= left
        left = set().union(*(lemmas_below(below, texts, crate) for below in left)) - passed
    return bool(left)


def fault_of(edit, said, texts, before=None):
    """Why what the prover said doesn't show that the edit is refused, if it doesn't. `before` has the answers that were taken
    out: a clause that had one isn't judged by what no search proves without it."""
    for function, clause in edit.breaks:
        status = re.search(rf"(?m)^fn \S+?::{re.escape(function)}: (.*)$", said)
        if not status:
            return "the copy didn't reach the prover"
        if status[1] == "proved":
            return f"{function} is still proved"
        if clause.lemma_in(texts):
            if clause.lemma_in(texts) not in lemmas_that_failed(said):
                return f"{clause.loop}.{clause.field} has no error"
            if not rests_on(clause, texts, edit.crate, function):
                return f"{clause.name} of {function} doesn't rest on {clause.loop}.{clause.field}"
            continue
        goals = failed_goals(said, texts, function) + goals_without_lemma(said, texts, edit.crate, function)
        if before and any(clause.has(goal, clause.field or clause.name) for goal in answers_of(before, function)):
            goals = []
        if not any(clause.has(*goal) for goal in goals):
            names = sorted({goal if field == "?" else f"{goal} at {field}" for goal, field in goals})
            return f"of {function} no goal of the clause {clause} failed, but {', '.join(names) or 'none'}"
    return None


def without_failed(said, texts, functions):
    """The texts of a crate without the answers of functions that have an error."""
    fewer = dict(texts)
    for function in functions:
        place = f"proofs/{function.replace('::', '/')}/Answers.antt"
        failed = set(re.findall(rf"(?m)^(?:\./)?{re.escape(place)}:\d+:\d+: error: `([^`\s]+)`: ", said))
        lines = texts.get(place, "").split("\n")
        for goal, (first, of_goal) in answers_of(texts, function).items():
            if goal in failed:
                lines[first - 1:first - 1 + len(of_goal)] = [None] * len(of_goal)
        if None in lines:
            fewer[place] = "\n".join(line for line in lines if line is not None)
    return fewer


def rounds_of(edits):
    """The edits of a crate in rounds: those of a round break other functions, and each text that one replaces stands. What
    is changed in a definition or a constant may break any function, so such an edit has a round of its own."""
    rounds, more = [], [edit for edit in edits if edit.changes_more(texts_of(edit.crate))]
    for edit in edits:
        for texts, functions, members in rounds:
            alone = edit in more or members[0] in more
            if not alone and functions.isdisjoint(function for function, _ in edit.breaks):
                tried = dict(texts)
                if edit.change(tried) is None:
                    texts.update(tried)
                    functions.update(function for function, _ in edit.breaks)
                    members.append(edit)
                    break
        else:
            texts = texts_of(edit.crate)
            if edit.change(texts) is None:
                rounds.append((texts, {function for function, _ in edit.breaks}, [edit]))
    return [(texts, sorted(functions), members) for texts, functions, members in rounds]


def texts_of(crate):
    texts = {}
    for part in PARTS:
        for folder, _, files in os.walk(f"{TOP}/crates/{crate}/{part}"):
            for file in files:
                path = f"{folder}/{file}"
                texts[os.path.relpath(path, f"{TOP}/crates/{crate}")] = read(path)
    return texts


def changed(crate, texts):
    """Those of the texts that are not the crate's own."""
    own = texts_of(crate)
    return {file: text for file, text in texts.items() if own[file] != text}


def try_alone(edit, rooms, tell):
    """Tries an edit by itself, and then without the answers that failed. Says what is wrong with it, if anything is."""
    texts, functions = texts_of(edit.crate), [function for function, _ in edit.breaks]
    edit.change(texts)
    said = rooms.check(edit.crate, changed(edit.crate, texts), functions)
    tell(f"{edit.name}, alone", said)
    fault, fewer = fault_of(edit, said, texts), without_failed(said, texts, functions)
    if fault and fewer != texts:
        said = rooms.check(edit.crate, changed(edit.crate, fewer), functions)
        tell(f"{edit.name}, without the answers that failed", said)
        if not fault_of(edit, said, fewer, texts):
            return None
    return fault


def try_crate(crate, edits, rooms, tell):
    """Tries the edits of a crate. Gives each edit with what is wrong with it, if anything is."""
    began = time.time()
    faults = {edit: edit.change(texts_of(crate)) for edit in edits}
    whole = [edit for edit in edits if not faults[edit]]
    for texts, functions, members in rounds_of(whole):
        said = rooms.check(crate, changed(crate, texts), functions)
        tell(", ".join(edit.name for edit in members), said)
        for edit in members:
            faults[edit] = fault_of(edit, said, texts)
    for edit in whole:
        if faults[edit]:
            faults[edit] = try_alone(edit, rooms, tell)
    refused = sum(not fault for fault in faults.values())
    print(f"edits: {crate}: {refused} of {len(edits)} refused at their clause, {time.time() - began:.0f} s", flush=True)
    return faults


def all_edits():
    """Every edit, by its crate."""
    found = {}
    for folder in (f"{TOP}/edits", f"{TOP}/crates"):
        for at, _, files in sorted(os.walk(folder)):
            if "/out/" not in at and (folder.endswith("edits") or at.endswith("/must-fail")):
                for file in sorted(files):
                    if file.endswith(".edit"):
                        edit = Edit(f"{at}/{file}")
                        found.setdefault(edit.crate, []).append(edit)
    return found
