#!/usr/bin/env python3
"""Tries the edits of crates/CRATE/edits/together, every and controls (tests/README.md): those of the crates named, or of all crates.

`rt ci` tries each edit of crates/CRATE/must-fail by a check of its whole crate. The edits here are tried many at once, at most
one for each function: a changed body touches the proof of its own function alone, and the prover says of each function by
itself whether its facts hold. An edit is refused if a fact in the proof of the very function that it changes is refused: an answer in
its own proof files whose fact does not hold, or a goal of its own that no answer stands for and that the prover's search leaves open.
That a function it calls is not proved, or that the proof no longer fits the code's shape, does not count. An edit of a contract or
of a definition is tried by itself. Of a contract it is again a fact in the proof of its own function; of a definition, one in any
proof of the crate, while the definitions and contracts themselves are well-formed. A message of the prover that is not known here, as
one about a fact or as one that is not, fails the edits of its check. Where many edits are tried at once the check goes past what is not
proved (--allow-holes), so that a function's goals are tried though one that it calls is edited too; an edit on which such a check says
neither is tried once more by itself. Branches and loops are named by their conditions: where an edit gives one another name, and nothing
else is said of it, the proof files of its function get the new name in the copy, and it is tried again.

Each check starts from what was proved of its crate without an edit (crates/CRATE/out), so that it proves only what the edits touch.

Where no crate is named, as in the gate, all edits are tried of each crate whose files or whose kit are not those with which all of its edits
were last tried (the file tests/tried), and of the other crates a quarter, another one each day, and those of the folder every.
`tests/edits.py all` tries all of all crates, and where crates are named all of theirs are tried; where all of a crate's are as expected
then, tests/tried says so. They are checked first without an edit, with what they stand on; the gate has just done that (--proved).

The edits of crates/CRATE/edits/controls are harmless. Each says what is expected of it, proved or refused, and is held to it: one
that is refused shows that a refusal alone proves little, one that is proved that the prover sees through the change.

Usage: tests/edits.py [--proved] [all | CRATE...]
"""
import atexit
import collections
import contextlib
import datetime
import difflib
import hashlib
import os
import re
import shutil
import signal
import subprocess
import sys
import tempfile
import threading
import time
from concurrent.futures import ThreadPoolExecutor, as_completed
from pathlib import Path

ROOT = Path(__file__).resolve().parent.parent
LIMIT = 900  # seconds that a check may take
TURNS = 4  # days in which each edit has its turn
TRIED = ROOT / "tests" / "tried"  # of which crates all edits were tried, and as what they stood
JOBS = int(os.environ.get("RT_JOBS") or min(os.cpu_count() or 1, 4))  # checks that run at a time, as in rt
# how the prover says that a fact does not hold, or that it is not proved by what should prove it
FACT = (
    "as printed, the two types ", "as printed, the two sides ", "as printed, the two values ", "computed as far as they go, the two types ",
    "computed as far as they go, the two sides ", "computed as a goal is, one side reads `",
    "computed as far as they go, the two values ", "computed as far as they go, the two indices ", "expected type `",
    "`omega`: the goal does not follow", "`omega`: the part `", "`search`: no proof of `", "`grind`: the goal does not follow",
    "give a proof of that as the last argument",
    "`rw`: no occurrence of the path's left endpoint in the ", "`rw`: no occurrence of the path's right endpoint in the ",
    "list the missing equation",
    "on the face `",  # an equation by λ, whose body at one end is not that end
)
SIDES = "` ≟ `"  # two sides, of which the next line says that they are not the same
# what says nothing of a fact: about names and fields that the changed code no longer has, and about what a proof rests on
GONE = ("` that can be named from here", "` has no field `", "` does not unfold here", "` is not in scope")
RESTS = ("` was not admitted", "` cannot be unfolded because it was not admitted", ", was not checked: ", ", were not checked: ")
NO_FACT = (*GONE, *RESTS)
# a loop's invariant and measure, whose variables the changed loop may no longer have
SHAPES = ("invariant-", "decreases-")
ERROR = re.compile(r"^(?P<line>\./(?P<place>[^ ]*): error: (?:`(?P<name>[^`]*)`: )?(?P<message>.*(?:\n  .*)*))", re.M)
# a goal that a function's proof files leave to the search, and the search leaves open
OPEN = re.compile(r"^fn (?P<function>[^ ]*): no proof: expected answers in [^ ]*; `search` did not prove (?P<goals>.*)", re.M)
# an answer, an invariant or a measure of a function whose code no longer asks for it
MISFIT = re.compile(r"^note: \./proofs/(?P<function>[^ ]*)/\w+\.antt: `(?P<name>[^`]*)` is no name that rattle asks for in [^\n]*", re.M)
# what begins the name of a branch or a loop: what is behind it says the condition
PLACES = ("if-", "then-", "else-", "Then-", "Else-", "loop-")
# a crate that a check must refuse in words that are known: of a contract, of two sides, of a goal of omega, and of what rests on one
WORDING = {
    "crates.txt": "wording:\n",
    "crates/wording/src/lib.rt": """#![tactic(auto)]

ghost use Rattle.std.specs.Prelude.{◌≡◌};

pub fn seven() -> usize
    ensures { result ≡ 7 }
{
    8
}
""",
    "crates/wording/proofs/Lib.antt": "pub mod Facts\n",
    "crates/wording/proofs/Facts.antt": """use mathlib.Core.Path.{◌≡◌, refl, sym}
use Prim.Native.Nat.{ℕ, ◌≤◌}
use native.Mathlib.Omega.{arith}

pub one-is-two : ◌≡◌ {A = ℕ} 1 2
one-is-two = refl

pub two-is-one : ◌≡◌ {A = ℕ} 2 1
two-is-one = sym one-is-two

pub none-above-one : (x : ℕ) → x ≤ 1
none-above-one x = omega arith
""",
}
# a line that tells of an error, of the compiler and of a breakdown too; notes and helps only speak of one
ALARM = re.compile(r"^(?! *(?:= )?(?:[^ ]+: )?(?:note|help): ).*(?:\berror(?:\[[^]]*\])?:|panic).*", re.M)


class Edit:
    """One .edit file: its replacements, the functions whose body or contract they change (none for a definition), whether it is
    tried alone, one of them being of no body, whether it is tried every time, and what is expected of it."""

    def __init__(self, path, crate):
        self.name, self.path = path.stem, os.path.relpath(path, ROOT)
        self.control, self.every = path.parent.name == "controls", path.parent.name == "every"
        self.pairs = []
        file = old = expected = None
        for line in path.read_text(encoding="utf-8").splitlines():
            if line.startswith("file: "):
                file = line[len("file: "):]
            elif line.startswith("old: "):
                self.demand(old is None, "an old: without its new:")
                old = line[len("old: "):]
            elif line.startswith("new:"):
                new = line[len("new:"):].removeprefix(" ")
                self.demand(file and old and old != new, "a new: without its file: and old:, or equal to its old:")
                self.pairs.append((file, old, new))
                old = None
            elif line.startswith("expect:"):
                expected = line[len("expect:"):].strip()
        self.demand(self.pairs and old is None, "no pair of old: and new:, or an old: without its new:")
        wanted = ("proved", "refused") if self.control else (None,)
        self.demand(expected in wanted, "expect: is for controls, each of which has it, with proved or refused")
        self.expected = expected or "refused"
        places = [place(crate, file, old) for file, old, _ in self.pairs]
        self.alone = not all(in_body for _, in_body in places)
        self.functions = {function for function, _ in places if function}

    def demand(self, right, fault):
        """Stops the run where the file is not as it must be."""
        if not right:
            raise SystemExit(f"{self.path}: {fault}")

    def apply(self, crate):
        """Edits a copy of the crate."""
        for file, old, new in self.pairs:
            path = crate / file
            text = path.read_text(encoding="utf-8")
            self.demand(text.count(old) == 1, f"its old text stands {text.count(old)} times in {file}")
            path.write_text(text.replace(old, new), encoding="utf-8")


def place(crate, file, old):
    """The path of the function that holds the text, as module/Type/name, None for a definition or a constant; and whether it is the
    body that holds it, not the head with the contract. The head goes from the line with `fn` to the one that opens the body: in rt fmt's
    layout the brace ends the first line of a head that is one line, and stands alone below a contract."""
    text = (crate / file).read_text(encoding="utf-8")
    at = text.find(old)
    line_end = text.find("\n", at)
    heads = list(re.finditer(r"^( *)(?:pub )?(?:unsafe )?(?:extern \"C\" )?fn (\w+)", text[:line_end], re.M))
    if not file.startswith("src/") or not heads:
        return None, False
    head = heads[-1]
    kinds = re.findall(r"^impl(?:<[^>]*>)? (\w+)", text[:at], re.M)
    module = [] if file in ("src/lib.rt", "src/main.rt") else [Path(file).stem]
    first = text[head.start():text.index("\n", head.start())]
    opened = re.compile(rf"^{head[1]}{{$", re.M).search(text, head.start())
    body = head.start() + len(first) if first.endswith("{") else opened.end() if opened else len(text)
    return "/".join(module + ([kinds[-1]] if head[1] else []) + [head[2]]), at >= body


def in_turn(edits, day):
    """The edits of a crate whose turn it is on a day: those that are tried every time, and one in so many of the others; of one
    function's edits on each day about as many."""
    turns = sorted((edit for edit in edits if not edit.every), key=lambda edit: (edit.control, edit.alone, sorted(edit.functions), edit.path))
    now = {edit.path for place, edit in enumerate(turns) if (place + day) % TURNS == 0}
    return [edit for edit in edits if edit.every or edit.path in now]


def rounds(edits):
    """The edits in lists of which none changes a function twice, the controls by themselves. As many lists as there are edits of one
    function, and each has what it can hold before the next begins."""
    made = []
    for edit in sorted(edits, key=lambda edit: (not edit.alone, edit.control)):
        for one in made:
            alike = not edit.alone and not one[0].alone and edit.control == one[0].control
            if alike and all(edit.functions.isdisjoint(e.functions) for e in one):
                one.append(edit)
                break
        else:
            made.append([edit])
    return made


def is_fact(error):
    """Is an error about a fact? None where its wording is not known."""
    first, whole = error["message"].split("\n")[0], re.sub(r"\n *", " ", error["message"])
    if (error["name"] or "").startswith(SHAPES) or any(words in first for words in NO_FACT):
        return False
    if first.startswith(FACT) or SIDES in first:
        return True
    return False if any(words in whole for words in NO_FACT) else None


def misfits(log, function):
    """Do the proof files of a function no longer fit its code's shape? Then a goal that is left open says nothing of a fact."""
    own = [error for error in ERROR.finditer(log) if error["place"].startswith(f"proofs/{function}/")]
    shaped = any(not is_fact(error) and not any(words in error["message"] for words in RESTS) for error in own)
    return shaped or any(note["function"] == function for note in MISFIT.finditer(log))


def behind(name):
    """What the name of a branch, a loop or one of their goals says of the condition."""
    at = max((name.rfind(place) + len(place) for place in PLACES if place in name), default=0)
    return name[at:]


def other_names(log, function, used):
    """The conditions whose branches have another name in the changed code, as the proof files of a function name them, each with its
    name of now: by the field that is nearest, by the name that the prover thinks is meant, or by the goal that it asks for; none that
    the files use already."""
    found = {}
    # the goals that the code has now: those that are not proved, and those that the prover asks for
    asked = set(re.findall(r"it is not proved that .*\(`([^`]+)`\)", log))
    for names in re.findall(r"rattle asks for ((?:`[^`]+`(?:, )?)+)", log) + re.findall(r"name it as one of ((?:`[^`]+`(?:, )?)+)", log):
        asked.update(re.findall(r"`([^`]+)`", names))
    for error in ERROR.finditer(log):
        message = re.sub(r"\n *", " ", error["message"])
        lost = re.search(r"has no (?:field )?`([^`]+)`", message)
        if error["place"].startswith(f"proofs/{function}/") and lost:
            meant = re.search(r"\(nearest: \.([^ ,)]+)|\(did you mean `([^`]+)`", message)
            alike = re.findall(r"`([^`]+)`", message.partition("begin alike: ")[2])
            names = [(meant[1] or meant[2]) if meant else "", nearest(lost[1], alike), nearest(lost[1], sorted(asked))]
            names += [nearest(lost[1], [one for one in sorted(asked) if behind(one) not in used])]
            now = next((one for one in names if one and behind(one) not in used), None)
            if now:
                found.setdefault(behind(lost[1]), behind(now))
    for note in MISFIT.finditer(log):
        if note["function"] == function:
            found.setdefault(behind(note["name"]), behind(nearest(note["name"], [one for one in sorted(asked) if behind(one) not in used])))
    return {was: now for was, now in found.items() if was and now and was != now}


def nearest(name, names):
    """Of some names of goals the one that is most like a name, and begins as it does up to the condition; nothing where there is none."""
    head = name[:len(name) - len(behind(name))]
    alike = [one for one in names if one[:len(one) - len(behind(one))] == head]
    return next(iter(difflib.get_close_matches(name, alike, 1, 0)), "")


def unknown_message(log):
    """The first line that tells of an error in a form or a wording that is not known; None if there is none."""
    known = {at: error for error in ERROR.finditer(log) if is_fact(error) is not None for at in range(error.start(), error.end())}
    return next((line[0] for line in ALARM.finditer(log) if line.start() not in known), None)


def first_fact(log, folder="proofs/"):
    """The first error about a fact, in a file of a folder; None if there is none."""
    return next((error[0].split("\n")[0] for error in ERROR.finditer(log) if error["place"].startswith(folder) and is_fact(error)), None)


def fact(log, crate, function):
    """Which fact in the proof of a function is refused, or which goal the search for a proof leaves open; or None."""
    found = first_fact(log, f"proofs/{function}/")
    if found:
        return found
    path = f"{crate}::" + function.replace("/", "::")
    left = next((line for line in OPEN.finditer(log) if line["function"] == path), None)
    return f"fn {path}: `search` did not prove {left['goals']}" if left and not misfits(log, function) else None


def well_formed(log):
    """Does the check find no error in the definitions and the code of a crate? Those of facts stand in its proofs."""
    return all(error["place"].startswith("proofs/") for error in ERROR.finditer(log)) and "\nerror" not in log


def proved(edit, crate, log):
    """Does the check prove the functions that an edit changes, or the crate where it changes a definition? A check that goes past what is
    not proved says of a proved function that it has no holes."""
    lines = log.splitlines()
    paths = [f"fn {crate}::" + function.replace("/", "::") for function in edit.functions]
    return all(f"{path}: proved" in lines or f"{path}: no holes" in lines for path in paths) if paths else "\nlogic=proved" in log


def judge(edit, crate, log):
    """What the check says of an edit: which fact it refuses, or None."""
    if not edit.functions:
        left = OPEN.search(log)
        found = first_fact(log) or (f"fn {left['function']}: `search` did not prove {left['goals']}" if left else None)
        return found if well_formed(log) else None
    found = [fact(log, crate, f) for f in edit.functions]
    return next((f for f in found if f), None)


def is_judged(log):
    """Has a check ended, with something that is not proved?"""
    return bool(re.search(r"^(?:logic=not-proved|holes=\d+)", log, re.M))


def room():
    """A folder for the copies and the temporary files; it goes when the run ends."""
    made = tempfile.mkdtemp(prefix="yarngravel.")
    atexit.register(shutil.rmtree, made, ignore_errors=True)
    return made


class Checks:
    """The checks of this run: where their temporary files go, and those that are running, which end with it."""

    def __init__(self):
        self.room, self.running = room(), set()
        self.settings = {**os.environ, "TMPDIR": self.room}
        tempfile.tempdir = self.room
        for number in (signal.SIGINT, signal.SIGTERM, signal.SIGHUP):
            signal.signal(number, self.end)

    def end(self, number, _):
        """Ends the run and every check of it."""
        for check in list(self.running):
            with contextlib.suppress(ProcessLookupError):
                os.killpg(check, signal.SIGKILL)
        shutil.rmtree(self.room, ignore_errors=True)
        os._exit(128 + number)

    def run(self, command, work, limit=LIMIT):
        """What a check says; no verdict where it takes longer than it may."""
        heard = {"text": True, "stdout": subprocess.PIPE, "stderr": subprocess.STDOUT}
        with subprocess.Popen(command, cwd=work, env=self.settings, start_new_session=True, **heard) as check:
            self.running.add(check.pid)
            try:
                return check.communicate(timeout=limit)[0]
            except subprocess.TimeoutExpired:
                os.killpg(check.pid, signal.SIGKILL)
                return f"no verdict in {limit} seconds"
            finally:
                self.running.discard(check.pid)


def wording(checks):
    """Ends the run, with one line, where the prover's words are not known: it is asked about a crate of which three facts do not hold and
    one thing rests on such a fact."""
    with tempfile.TemporaryDirectory() as name:
        for path, text in WORDING.items():
            Path(name, path).parent.mkdir(parents=True, exist_ok=True)
            Path(name, path).write_text(text, encoding="utf-8")
        log = checks.run(["rt", "check", "--jobs", "1"], Path(name, "crates", "wording"))
    told = list(ERROR.finditer(log))
    heard = [is_fact(error) for error in told]
    if "logic=not-proved" not in log or sorted(heard, key=str) != [False, True, True] or not fact(log, "wording", "seven"):
        version = checks.run(["rt", "version"], ROOT).strip()
        wrong = next((error[0] for error, known in zip(told, heard) if known is None), unknown_message(log) or log[-300:])
        sys.exit(f"edits: the messages of this kit ({version}) have other words than those in tests/edits.py, FACT and NO_FACT: {' '.join(wrong.split())}")


def linked(folder, to):
    """Copies a folder, of the proved modules that rt keeps in it by a second name where one can be given: a check replaces such a file, and
    changes none."""

    def copy(one, other):
        if one.endswith(".oantt") or "/out/rlib/" in one and not one.endswith("/stamp"):
            with contextlib.suppress(OSError):
                return os.link(one, other)
        return shutil.copy2(one, other)

    shutil.copytree(folder, to, copy_function=copy)


def listed():
    """The lines of crates.txt: each crate and the crates below it."""
    lines = (line.partition("#")[0].partition(":") for line in (ROOT / "crates.txt").read_text(encoding="utf-8").splitlines())
    return {name.split()[0]: below.split() for name, _, below in lines if name.split()}


def conditions(folder):
    """What the names in the files of a folder say of conditions."""
    texts = (path.read_text(encoding="utf-8") for path in folder.glob("*.antt"))
    return {behind(name) for text in texts for name in re.findall(r"[\w'-]+", text)} - {""}


def rename(folder, changed):
    """Gives the branches that the files of a folder name the names that they have now."""
    for path in folder.glob("*.antt"):
        text = path.read_text(encoding="utf-8")
        for was, now in changed.items():
            text = re.sub(rf"(?<=-){re.escape(was)}(?=$|[^\w-]|-)", lambda _: now, text, flags=re.M)
        path.write_text(text, encoding="utf-8")


class Copy:
    """A copy of the crates, over the libraries that are proved, in which one check is made at a time."""

    def __init__(self, checks):
        self.checks, self.work = checks, Path(tempfile.mkdtemp())
        shutil.copytree(ROOT / "crates", self.work / "crates", ignore=shutil.ignore_patterns("must-fail", "edits", "out"))
        shutil.copy(ROOT / "crates.txt", self.work)

    def begin(self, crate):
        """Has the next check of a crate start from what is proved of it, over the proved libraries below it."""
        for below in listed()[crate]:
            proved, here = ROOT / "crates" / below / "out" / "rlib", self.work / "crates" / below / "out" / "rlib"
            if proved.is_dir() and not here.is_dir():
                linked(proved, here)
        proved, here = (top / "crates" / crate / "out" / "incremental" for top in (ROOT, self.work))
        shutil.rmtree(here, ignore_errors=True)
        if proved.is_dir():
            linked(proved, here)

    def under(self, crate, edits):
        """What a check of a crate says under edits; of many at once one that goes past what is not proved. Of one alone that gives a
        branch another name, what a check says where the function's proof files have the new one."""
        clean, copy = ROOT / "crates" / crate, self.work / "crates" / crate
        self.begin(crate)
        for edit in edits:
            edit.apply(copy)
        words = ["rt", "check", "--jobs", "1", *(["--allow-holes"] if len(edits) > 1 else [])]
        log = self.checks.run(words, copy)
        for _ in range(3 if len(edits) == 1 else 0):
            names = {one: other_names(log, one, conditions(copy / "proofs" / one)) for one in edits[0].functions if not fact(log, crate, one)}
            if not any(names.values()):
                break
            for function, changed in names.items():
                rename(copy / "proofs" / function, changed)
            log = self.checks.run(words, copy)
        for part in ("src", "specs", "proofs"):
            if (clean / part).is_dir():
                shutil.copytree(clean / part, copy / part, dirs_exist_ok=True)
        return log


def verdict(edit, crate, log):
    """The line to print for an edit, and 1 if it is not what is expected of it; None for 1 where the check says neither."""
    strange, where = unknown_message(log), judge(edit, crate, log) if is_judged(log) else None
    if strange:
        said, found = f"unknown message: {strange}", None
    elif where:
        said, found = f"refused at {where}", "refused"
    elif proved(edit, crate, log):
        said, found = "proved", "proved"
    else:
        said, found = f"neither proved nor refused; the check's first fact: {first_fact(log)}; its end: {log[-200:]}", None
    right = found == edit.expected
    return f"edit {crate}/{edit.name}: {'' if right else 'NOT ' + edit.expected.upper() + '; '}{said[:200]}", 0 if right else 1 if found else None


def try_round(copy, crate, together):
    """The lines to print for edits of a crate that are tried at once, and how many are not as expected."""
    verdicts, began, checks = [], time.monotonic(), 1
    log = copy.under(crate, together)
    for edit in together:
        line, failed = verdict(edit, crate, log)
        if failed is None and len(together) > 1:
            # one whose function calls another that was edited, or beside one that the prover cannot read
            line, failed = verdict(edit, crate, copy.under(crate, [edit]))
            checks += 1
        verdicts.append((line, 0 if failed == 0 else 1))
    lines = [line for line, _ in verdicts]
    lines[-1] += f"  [{len(lines)} edits of {crate}, {checks} checks, {time.monotonic() - began:.0f} s]"
    return lines, sum(failed for _, failed in verdicts)


def summary(what, answers):
    """Prints the lines of each answer as it comes, then the counts; ends the run, with 1 if anything failed or nothing was tried."""
    tried = failed = 0
    for lines, wrong in answers:
        if lines:
            print("\n".join(lines), flush=True)
        tried += len(lines)
        failed += wrong
    print(f"{what}: {tried - failed} as expected, {failed} not")
    sys.exit(1 if failed or not tried else 0)


def controls_of(crate):
    """The harmless edits of a crate."""
    return [Edit(path, crate) for path in sorted((crate / "edits" / "controls").glob("*.edit"))]


def edits_of(crate):
    """The edits of a crate's folder that are tried here, and its controls; those of model are tried against the theorems, by mutants.py."""
    paths = (path for part in ("every", "together") for path in sorted((crate / "edits" / part).glob("*.edit")))
    return [Edit(path, crate) for path in paths] + ([] if crate.name == "model" else controls_of(crate))


def cost(crate, together):
    """About how long a check with edits takes: as long as the proofs that they touch, and those of its own."""
    proofs = ROOT / "crates" / crate / "proofs"
    places = [proofs / function for edit in together for function in edit.functions] if all(e.functions for e in together) else [proofs]
    return 5000 + sum(path.stat().st_size for place in places for path in place.glob("**/*.antt"))


def checksum(folders, files=()):
    """Of the files of folders, of some files, and of the kit's name."""
    told = hashlib.sha256()
    paths = {path for folder in folders for path in folder.rglob("*") if path.is_file() and "out" not in path.relative_to(ROOT).parts}
    for path in sorted({*paths, *files, ROOT / "toolchain"}):
        told.update(f"{path.relative_to(ROOT)}\n{path.stat().st_size}\n".encode())
        told.update(path.read_bytes())
    return told.hexdigest()


def checksum_of(crate):
    """Of what the verdicts on a crate's edits hang on: its code, definitions and proofs, and the edits."""
    return checksum([ROOT / "crates" / crate])


def recorded():
    """The checksums with which all edits were as expected when all were tried, by crate."""
    lines = TRIED.read_text(encoding="utf-8").splitlines() if TRIED.exists() else []
    return dict(line.split() for line in lines if line and line[0] != "#")


def record(sums):
    """Writes down checksums with which all edits were as expected."""
    head = "# Of each crate, and of the mutants, the checksum with which all its edits were tried and were as expected (tests/README.md).\n"
    TRIED.write_text(head + "".join(f"{name} {of}\n" for name, of in sorted({**recorded(), **sums}.items())), encoding="utf-8")


def chosen(words):
    """The edits to try, by crate, and what is said of the others."""
    folders = {path.parent.parent for part in ("together", "every", "controls") for path in ROOT.glob(f"crates/*/edits/{part}")}
    edits = {folder.name: edits_of(folder) for folder in sorted(folders)}
    if words:
        strange = [name for name in words if name not in (*edits, "all")]
        if strange:
            sys.exit(f"edits: no edits are tried here of {' '.join(strange)}")
        return edits if "all" in words else {name: edits[name] for name in words}, "all that are asked for"
    tried, day = recorded(), datetime.datetime.now(datetime.timezone.utc).toordinal()
    changed = {name for name in edits if tried.get(name) != checksum_of(name)}
    now = {name: of if name in changed else in_turn(of, day) for name, of in edits.items()}
    first, among = (sum(map(len, of.values())) for of in (now, edits))
    return now, f"{first} of {among}, all of {len(changed)} crates that changed since all of theirs were tried; the others wait for their day, one in {TURNS}"


def prove(checks, words):
    """Checks the crates that are named without an edit, or all, lowest first, and with that those that they stand on."""
    if not words or "all" in words:
        log = checks.run(["bash", "-c", f"rt all check --jobs {JOBS} && echo all are proved"], ROOT, None)
        if not log.endswith("all are proved\n"):
            sys.exit(f"{log[-3000:]}\nedits: not everything is proved without an edit")
        return
    for crate in [name for name in listed() if name in words]:
        log = checks.run(["rt", "check"], ROOT / "crates" / crate, None)
        if "\nlogic=proved" not in log:
            sys.exit(f"{log[-3000:]}\nedits: {crate} is not proved without an edit")


def main():
    words = [word for word in sys.argv[1:] if word != "--proved"]
    edits, said = chosen(words)
    sums = {crate: checksum_of(crate) for crate in edits}
    checks = Checks()
    print(f"edits: {said}", flush=True)
    wording(checks)
    if "--proved" not in sys.argv[1:]:
        prove(checks, words)
    copies = [Copy(checks) for _ in range(JOBS)]
    tasks = [(crate, together) for crate, of in edits.items() for together in rounds(of)]
    # the longest first, so that all cores are busy to the end
    tasks.sort(key=lambda task: cost(*task), reverse=True)
    wrong = collections.Counter()
    free = threading.local()

    def attempt(task):
        if not hasattr(free, "copy"):
            free.copy = copies.pop()
        lines, failed = try_round(free.copy, *task)
        wrong[task[0]] += failed
        return lines, failed

    def answers():
        with ThreadPoolExecutor(JOBS) as pool:
            yield from (done.result() for done in as_completed([pool.submit(attempt, task) for task in tasks]))
        if words:
            record({crate: of for crate, of in sums.items() if not wrong[crate] and of == checksum_of(crate)})

    summary("edits tried together", answers())


if __name__ == "__main__":
    main()
