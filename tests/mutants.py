#!/usr/bin/env python3
"""Tries the mutants, edits of the definitions, and the edits of the theorems' statements (crates/theory/edits); see tests/README.md.

A mutant leaves the definitions well-formed but another protocol, so what is proved of them (lemmas, theory) must be refused. Mutants
are the edits of tests/mutants, and those of crates/model that have a violation: tests/edits.py holds these to model's own samples
too, and tries the edits of the statements. A refusal alone says little, since a proof fits a text. So each mutant and each edit of a statement
has a violation, tests/violations/NAME.proof: a refutation of one of the demands, or of 2.9's, 2.11's or 2.14's theorem, by computation on a concrete list of
calls. Under the edit, and without the proofs of theory, it must be proved. What the same lists come to without an edit is proved in
crates/violations/proofs/Unedited.antt, and of 2.14 in crates/instances/proofs/Showing.antt. The harmless edits of
crates/model/edits/controls are held to what is expected of them, and change nothing there.

Where a file that they stand on, one of theirs or the kit is not the one with which all were last tried (the file tests/tried), all are tried;
else a quarter of them, another one each day, and the controls always. `tests/mutants.py all` tries all; where all are as expected then,
tests/tried says so.

Usage: tests/mutants.py [all]
"""
import datetime
import re
import shutil
import sys
import tempfile
from concurrent.futures import ThreadPoolExecutor, as_completed
from pathlib import Path

from edits import JOBS, ROOT, TURNS, Checks, Edit, checksum, controls_of, first_fact, linked, listed, record, recorded, summary, unknown_message, wording

VIOLATIONS = ROOT / "tests" / "violations"
# what a violation states; without an edit it has no proof, since the demands and the theorems of 2.9 (LongClocks), 2.11 (Charges) and 2.14 (Shows) are proved
STATED = re.compile(r"^violated : (Demand(3|3Fresh|3Through|3FreshThrough|1Read|1Write|1NumbersIn|1ReadIn|1WriteIn|2Any|2Observer|2Fresh|2Ones|2Codec|2Long|2LongCodec|2In|2ListenIn|2CodecIn)|LongClocks|Charges|Shows(|Through)|\(\(w : Wider\) \(i : (Input\) → Demand1In|Listening\) → Demand1ListenIn) w i\)) → ⊥$", re.M)
UNEDITED = "violations/proofs/Unedited.antt"
# what is computed from the definitions of model, and may come to something else under a mutant
SAMPLES = [f"model/proofs/{path.name}" for path in sorted((ROOT / "crates" / "model" / "proofs").glob("*.antt")) if path.stem not in ("Lib", "Computing", "ComputingWider")]


class Copy:
    """A copy of some crates, without some of their modules or folders, proved once; edits are tried in copies of it."""

    def __init__(self, checks, crates, without):
        self.checks, self.work, self.last = checks, Path(tempfile.mkdtemp()), crates[-1]
        for crate in crates:
            shutil.copytree(ROOT / "crates" / crate, self.work / "crates" / crate, ignore=shutil.ignore_patterns("must-fail", "edits", "out"))
            if (ROOT / "crates" / crate / "out" / "incremental").is_dir():
                linked(ROOT / "crates" / crate / "out" / "incremental", self.work / "crates" / crate / "out" / "incremental")
        kept = (f"{crate}: {' '.join(below for below in listed()[crate] if below in crates)}\n" for crate in crates)
        (self.work / "crates.txt").write_text("".join(kept), encoding="utf-8")
        for path in (self.work / "crates" / name for name in without):
            leave_out(path)
        log = self.check(self.work)
        if not is_proved(self.last, log):
            sys.exit(f"{log[-3000:]}\nmutants: {self.last} is not proved without an edit")

    def check(self, work):
        """What a check of the last crate says, and of those below it that it builds first."""
        return self.checks.run(["rt", "check", "--jobs", "1"], work / "crates" / self.last)

    def under(self, crate, edit, module=None):
        """What the check says under an edit of a crate, with a module of tests beside it."""
        with tempfile.TemporaryDirectory() as name:
            work = Path(name)
            linked(self.work, work / "copy")
            work /= "copy"
            edit.apply(work / "crates" / crate)
            if module:
                add(module, work / "crates" / "violations")
            return self.check(work)


def is_proved(crate, log):
    """Is a crate proved, by the check of it?"""
    _, said, verdict = log.rpartition(f"\ncrate {crate}: ")
    return bool(said) and "\nlogic=proved" in verdict


def leave_out(path):
    """Removes a folder, or a module and the line that declares it."""
    if path.is_dir():
        return shutil.rmtree(path)
    path.unlink()
    root = path.parent / "Lib.antt"
    return root.write_text(root.read_text(encoding="utf-8").replace(f"pub mod {path.stem}\n", ""), encoding="utf-8")


def add(name, crate):
    """Adds a violation to the crate of the tests, or the module of it that was left out. A violation of an edit of a promise's own words
    comes with the same edit of its test."""
    files = [ROOT / "crates" / UNEDITED] if name == "Unedited" else [VIOLATIONS / f"{part}.proof" for part in ("Head", name)]
    (crate / "proofs" / f"{name}.antt").write_text("".join(path.read_text(encoding="utf-8") for path in files), encoding="utf-8")
    with (crate / "proofs" / "Lib.antt").open("a", encoding="utf-8") as root:
        root.write(f"pub mod {name}\n")
    same = VIOLATIONS / f"{name}.edit"
    if same.exists():
        Edit(same, crate).apply(crate)


def against_theorems(copy, edit):
    """What the theorems say to an edit of the definitions, and whether that is proved, refused or neither."""
    log = copy.under("model", edit)
    strange, where = unknown_message(log), first_fact(log)
    if any(f"rt: the library {crate} did not build" in log for crate in ("laws", "model")):
        return f"the definitions are not well-formed: {strange or where}", None
    if strange:
        return f"unknown message: {strange}", None
    if is_proved("theory", log):
        return "proved", "proved"
    return (f"refused at {where}", "refused") if where else (f"neither proved nor refused: {log[-200:]}", None)


def try_definitions(copy, edit):
    """The line to print for a mutant or a control, and 1 if it is not what is expected of it."""
    said, found = against_theorems(copy, edit)
    right = found == edit.expected
    kind, fault = "control" if edit.control else "mutant", "" if right else f"NOT {edit.expected.upper()}; "
    return [f"{kind} {edit.name}: {fault}{said[:160]}"], 0 if right else 1


def try_tests(copy, crate, edit, module):
    """The line to print for what the tests come to under an edit, and 1 if a module of them is not proved."""
    right = is_proved(copy.last, copy.under(crate, edit, module))
    said = "the lists come to the same" if edit.control else "a demand is violated"
    return [f"tests {edit.name}: {'' if right else 'NOT PROVED that '}{said}"], 0 if right else 1


def stand():
    """The checksum of what the verdicts hang on: the crates below, and the mutants and violations."""
    below = [ROOT / "crates" / name for name in ("laws", "model", "lemmas", "theory", "violations")]
    return checksum([*below, ROOT / "tests" / "mutants", VIOLATIONS])


def in_turn(edits):
    """The edits that are tried today, and what is said of the others."""
    if "all" in sys.argv[1:] or recorded().get("mutants") != stand():
        return edits, "all"
    day = datetime.datetime.now(datetime.timezone.utc).toordinal()
    now = [edit for place, edit in enumerate(sorted(edits, key=lambda edit: edit.name)) if (place + day) % TURNS == 0]
    return now, f"{len(now)} of {len(edits)}; nothing that they stand on changed since all were tried, and the others wait for their day, one in {TURNS}"


def main():
    model, theory = ROOT / "crates" / "model", ROOT / "crates" / "theory"
    violations = {path.stem: path for path in VIOLATIONS.glob("*.proof") if path.stem != "Head"}
    shared = [path for part in ("must-fail", "edits") for path in (model / part).rglob("*.edit") if path.stem in violations]
    mutants = [Edit(path, model) for path in sorted([*(ROOT / "tests" / "mutants").glob("*.edit"), *shared])]
    controls = controls_of(model)
    statements = [Edit(path, theory) for path in sorted((theory / "edits").glob("*/*.edit"))]
    strange = [name for name, path in violations.items() if not STATED.search(path.read_text(encoding="utf-8"))]
    alone = set(violations) - {edit.name for edit in mutants + statements}
    if strange or alone:
        sys.exit(f"mutants: violations that refute no demand: {strange}; without an edit: {sorted(alone)}")
    if [word for word in sys.argv[1:] if word != "all"]:
        sys.exit("usage: tests/mutants.py [all]")
    now, said = in_turn(mutants + statements)
    print(f"mutants: {said}", flush=True)
    mutants, statements = ([edit for edit in edits if edit in now] for edits in (mutants, statements))
    stood, wrong = stand(), []
    checks = Checks()
    wording(checks)

    def answers(made):
        for done in as_completed(made):
            lines, failed = done.result()
            wrong.append(failed)
            yield lines, failed
        if "all" in sys.argv[1:] and not any(wrong) and stood == stand():
            record({"mutants": stood})

    with ThreadPoolExecutor(JOBS) as pool:
        theorems, tests = pool.map(lambda parts: Copy(checks, *parts), (
            (("laws", "model", "lemmas", "theory"), SAMPLES),
            (("laws", "model", "theory", "violations"), (*SAMPLES, "theory/proofs", UNEDITED)),
        ))
        made = [pool.submit(try_definitions, theorems, edit) for edit in mutants + controls]
        made += [pool.submit(try_tests, tests, "model", edit, "Unedited") for edit in controls]
        made += [pool.submit(try_tests, tests, "model", edit, edit.name) for edit in mutants]
        made += [pool.submit(try_tests, tests, "theory", edit, edit.name) for edit in statements]
        summary("mutants, controls and their tests", answers(made))


main()
