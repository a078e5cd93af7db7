#!/usr/bin/env bash
# Tries the wrong bodies of bench/wrong_bodies, beside those that `rt ci` tries (must-fail/ of the crates). There the edits of a crate cost
# another proof of it; here they cost that of the functions that refuse them and of what these call. So the edits of crates that are dear
# to prove stand here.
#
# Usage: bench/wrong_bodies.sh [--read] [CRATE[/EDIT]]..
#
# An edit, bench/wrong_bodies/CRATE/EDIT.edit, is one of must-fail/ with two lines more: 'only: ' names the function that must not be proved
# with it, and 'clause: ' the clause of its contract that fails, or 'goal: ' what fails where that isn't a clause with a name, as the prover
# calls it. An edit with neither is told what failed, and the function must be proved by the same check without it. The edits of a crate are
# tried at once, on a copy of it, over the libraries that `rt ci` has left in the out/ folders of the crates below it; nothing is built.
# Those of one function are tried one after another, and so is what isn't refused beside others, alone. An edit is refused where the prover
# names that clause or goal of that function, if it has one; or not refused; or not tried: it can't be applied, what it makes of a text
# can't be read, a library isn't there, or the prover came to no answer. The status is 0 where all are refused, 1 where one isn't, and else
# 2; but with another kit than that of release/, whose words may be others, an edit that isn't tried is told and is no fault. --read only
# says which can't be applied, and needs no prover.
set -eu
cd "$(dirname "$0")/.."
exec python3 - "$@" <<'END'
import importlib.util, os, pathlib, re, shutil, subprocess, sys, tempfile, threading, time
from concurrent.futures import ThreadPoolExecutor

sys.dont_write_bytecode = True
ROOT, EDITS, PARTS = pathlib.Path.cwd(), pathlib.Path("bench/wrong_bodies"), ("src", "specs", "proofs")
# the memory that a check is given, in bytes: few take more than half of it
MEMORY = 3_000_000_000
REFUSED, MISSED, UNTRIED = "refused", "NOT REFUSED", "NOT TRIED"
# an error with such words is of a text that can't be read, as is one that names no goal
UNREAD = re.compile(r"is not in scope|has no field|is no name|operand is missing|expected the end|cannot continue")
GOAL = re.compile(r"(?<=: error: `)[\w-]+(?=`)|(?<=\(`)[\w-]+(?=`\))|(?<=did not prove `)[\w-]+(?=`)")


class Untried(Exception):
    """Why an edit can't be tried."""


class Edit:
    """A wrong body: what it changes in which files, the function that must refuse it, and the goal that must fail."""

    def __init__(self, path):
        self.crate, self.name = path.parent.name, f"{path.parent.name}/{path.stem}"
        self.changes, self.only, self.clause, self.goal = [], "", "", ""
        try:
            self.read(path.read_text())
        except (OSError, ValueError) as error:
            raise Untried(f"it can't be read: {error}")
        if not self.changes or not self.only.startswith(f"{self.crate}::") or self.clause and self.goal:
            raise Untried("it changes nothing, names no function of its crate, or both a clause and a goal")
        if self.applied({}) is None:
            raise Untried("an old text isn't once in its file")

    def read(self, text):
        file = old = ""
        for line in text.splitlines():
            key, _, said = line.partition(": ")
            if key == "file":
                file = said.strip()
            elif key == "old":
                old = said
            elif key in ("new", "new:"):
                self.changes.append((file, old, said))
            elif key in ("only", "clause", "goal"):
                setattr(self, key, said.strip())

    def applied(self, texts):
        """These texts of the crate, by their files, with the edit; None: they haven't what it changes, just once."""
        made = dict(texts)
        for file, old, new in self.changes:
            if file not in made:
                made[file] = (ROOT / "crates" / self.crate / file).read_text()
            if not old or made[file].count(old) != 1:
                return None
            made[file] = made[file].replace(old, new)
        return made

    def changes_specs(self):
        return any(file.startswith("specs/") for file, _, _ in self.changes)

    def is_named(self):
        """Whether it says what must fail."""
        return bool(self.clause or self.goal)

    def is_refused_by(self, goals):
        """Whether what must fail is among these goals."""
        if self.clause:
            return any(it.startswith("returns") and it.endswith(f"-clause-{self.clause}") for it in goals)
        return not self.goal or self.goal in goals


def kit():
    """The part of the kit's `rt` that knows with what words a crate is checked."""
    page = subprocess.run(["rt", "doc"], capture_output=True, text=True, check=True).stdout.strip()
    spec = importlib.util.spec_from_file_location("rtlib", pathlib.Path(page).parent / "bin" / "rtlib.py")
    made = sys.modules["rtlib"] = importlib.util.module_from_spec(spec)
    spec.loader.exec_module(made)
    return made


def check(crate, texts, functions, kept, room):
    """Checks functions of the crate, with these texts in place of its own, over what kept holds: the status, and the lines said."""
    copy = pathlib.Path(tempfile.mkdtemp(dir=room))
    for part in PARTS:
        if os.path.isdir(f"{crate.folder}/{part}"):
            shutil.copytree(f"{crate.folder}/{part}", copy / part)
    for file, text in texts.items():
        (copy / file).write_text(text)
    flags = ["--jobs", "1", *[word for it in functions for word in ("--only", it)]]
    words = [rtlib.RATTLE, "check", *crate.words(flags, keeps=False), "--incremental", kept]
    ran = subprocess.run(words, cwd=copy, stdin=subprocess.DEVNULL, stdout=subprocess.PIPE, stderr=subprocess.STDOUT, errors="replace")
    shutil.rmtree(copy)
    return ran.returncode, ran.stdout.rstrip("\n").split("\n")


def verdict_on(function, lines):
    """What is said of the function, and its goals that aren't proved."""
    folder = f"proofs/{'/'.join(function.split('::')[1:])}/"
    goals, notes = set(), []
    for line in lines:
        if line.startswith("fn "):
            name, _, said = line[3:].partition(": ")
            if name == function:
                return said, goals.union(*map(GOAL.findall, [*notes, said]))
            notes = []
        elif line.startswith("note: src/"):
            notes.append(line)
        elif folder in line.partition(": ")[0]:
            goals.update(GOAL.findall(line))
    return "", goals


def is_unread(line, changed):
    """Whether the line says that a text which a false statement would leave readable can't be read."""
    at = re.match(r"(?:\./)?(\S+?):\d+:\d+: error: (`[^`]*`: )?(.*)", line)
    if not at or at[1] not in changed and not at[1].startswith(("src/", "specs/")):
        return False
    return not at[2] or bool(UNREAD.search(re.sub(r"`[^`]*`", "", at[3])))


def judged(edit, texts, status, lines):
    """What the check with an edit, which made these texts, came to, and why."""
    (said, goals), unread = verdict_on(edit.only, lines), next((it for it in lines if is_unread(it, texts)), "")
    if unread:
        return UNTRIED, unread
    if said.startswith("proved"):
        return MISSED, f"{edit.only} is proved"
    only_calls = not edit.is_named() and "it calls" in said
    if status != 1 or not lines[-1].startswith("only=") or not said.startswith(("not proved", "no proof")) or only_calls:
        return UNTRIED, f"the check ended with {status}: {said or lines[-1]}"
    if not edit.is_refused_by(goals):
        return MISSED, f"{edit.only} is not proved, but not for {edit.clause or edit.goal}: {' '.join(sorted(goals)) or said}"
    return REFUSED, f"{edit.only}, {'clause ' + edit.clause if edit.clause else edit.goal or ' '.join(sorted(goals))}"


def stop_without_libraries(crate):
    for it in crate.below():
        if not os.path.isdir(it.rlib) or os.path.exists(f"{os.path.dirname(it.rlib)}/stamp") and not it.is_built():
            raise Untried(f"the library {it.name} isn't there, or isn't of its sources: rt ci builds it")


def rounds(edits):
    """The edits with the texts that they make, those together that can be tried at once: of different functions, and of no definition."""
    for edit in edits:
        if edit.changes_specs():
            yield [edit], edit.applied({})
    edits = [it for it in edits if not it.changes_specs()]
    while edits:
        texts, at_once = {}, []
        for edit in edits:
            made = None if edit.only in [it.only for it in at_once] else edit.applied(texts)
            if made is not None:
                texts = made
                at_once.append(edit)
        yield at_once, texts
        edits = [it for it in edits if it not in at_once]


def try_crate(crate, edits, room):
    """Tries the edits of a crate, and gives what each came to, and why."""
    kept = f"{room}/kept"
    os.mkdir(kept)
    unnamed = sorted({it.only for it in edits if not it.is_named()})
    lines = check(crate, {}, unnamed, kept, room)[1] if unnamed else []
    for it in unnamed:
        if not verdict_on(it, lines)[0].startswith("proved"):
            raise Untried(f"without an edit {it} isn't proved: {lines[-1]}")
    for at_once, texts in rounds(edits):
        answer = check(crate, texts, [it.only for it in at_once], kept, room)
        for edit in at_once:
            result, why = judged(edit, texts, *answer)
            if result != REFUSED and len(at_once) > 1:
                alone = edit.applied({})
                result, why = judged(edit, alone, *check(crate, alone, [edit.only], kept, room))
            yield edit, result, why


def tell(text):
    with printing:
        print(text, flush=True)


def try_named(name):
    """Tries the edits of the crate of that name, and counts what they came to."""
    left = len(wanted[name])
    try:
        crate = rtlib.Crate(f"{ROOT}/crates/{name}", str(ROOT), {})
        stop_without_libraries(crate)
        began = time.monotonic()
        with tempfile.TemporaryDirectory(prefix="wrong-bodies-") as room:
            for edit, result, why in try_crate(crate, wanted[name], room):
                tell(f"{edit.name}: {result}: {why}")
                counts[result].append(edit.name)
                left -= 1
        tell(f"{name}: {time.monotonic() - began:.0f} s")
    except (Exception, SystemExit) as error:
        tell(f"{name}: {UNTRIED}: {error if isinstance(error, Untried) else repr(error)}")
    counts[UNTRIED] += [name] * left


def has_known_kit():
    """Whether the kit is the one whose words are known: that of the program in release/."""
    kit = subprocess.run(["rt", "version"], capture_output=True, text=True).stdout.strip()
    return f"kit {kit}" in pathlib.Path("release/manifest").read_text().splitlines()


def at_once():
    """How many checks have room side by side."""
    free = int(re.search(r"MemAvailable:\s+(\d+)", pathlib.Path("/proc/meminfo").read_text())[1]) * 1024
    return max(1, min(len(os.sched_getaffinity(0)), free // MEMORY))


asked, counts, printing, wanted = sys.argv[1:], {REFUSED: [], MISSED: [], UNTRIED: []}, threading.Lock(), {}
reads_alone = "--read" in asked
asked, unknown = {*asked} - {"--read"}, {*asked} - {"--read"}
for path in sorted(EDITS.glob("*/*.edit")):
    names = {path.parent.name, f"{path.parent.name}/{path.stem}"}
    if asked and not names & asked:
        continue
    unknown -= names
    try:
        wanted.setdefault(path.parent.name, []).append(Edit(path))
    except Untried as error:
        tell(f"{path.parent.name}/{path.stem}: {UNTRIED}: {error}")
        counts[UNTRIED].append(path.stem)
if unknown:
    print(f"usage: bench/wrong_bodies.sh [--read] [CRATE[/EDIT]].. ({' '.join(sorted(unknown))}: no such edit)", file=sys.stderr)
    sys.exit(2)
if not reads_alone:
    try:
        rtlib = kit()
        with ThreadPoolExecutor(at_once()) as lanes:
            list(lanes.map(try_named, [it for it in wanted if wanted[it]]))
    except Exception as error:
        tell(f"{UNTRIED}: {error!r}")
        counts[UNTRIED] += wanted
    tell(f"wrong bodies: {len(counts[REFUSED])} refused, {len(counts[MISSED])} not refused, {len(counts[UNTRIED])} not tried")
if counts[MISSED]:
    sys.exit(1)
if counts[UNTRIED] and not reads_alone and not has_known_kit():
    tell("this kit isn't that of release/, so what wasn't tried is no fault")
    sys.exit(0)
sys.exit(2 if counts[UNTRIED] else 0)
END
