#!/usr/bin/env python3
"""usage: check-edits.py [--planted]

Whether edits.py tells what an edit comes to. A crate of some functions is written into a temporary folder, with an edit for each
answer that edits.py has, and for each way to come to it; what edits.py prints of them is compared with what is known. Then it is called
again: what it has written to its file isn't tried anew, and is once the crate's text changes. --planted puts errors into a copy of
edits.py, one at a time, each of which must change what is printed. Some minutes of a processor, and ten more with --planted.
"""
import os
import re
import shutil
import subprocess
import sys
import tempfile

TOP = os.path.realpath(os.path.join(os.path.dirname(os.path.abspath(__file__)), ".."))

FILES = {
    "src/lib.rt": """\
//! Functions whose edits come to each of the answers.

#![tactic(auto)]

ghost use Rattle.b67_sample.specs.Doubles.{doubled};
ghost use Rattle.std.specs.Prelude.{◌≡◌, ℕ, ◌+◌, ◌-◌, ◌*◌, ◌/◌, ◌^◌, ◌<◌, ◌≤◌};

/// The greater of two numbers.
pub fn greater(a: u32, b: u32) -> u32
    ensures left { a ≤ result }
    ensures right { b ≤ result }
{
    if a < b { b } else { a }
}

/// A number above this one. Its answer is of the number that the body adds.
pub fn above(n: u32) -> u32
    requires { n < 100 }
    ensures { n < result }
{
    n + 1
}

/// Twice a number. Its answer is an induction, which no search finds.
pub fn twice(n: u32) -> u32
    requires { n < 100 }
    ensures { result ≡ doubled n }
{
    n + n
}

/// A number above this one. Its answer is what the call says.
pub fn next_of(n: u32) -> u32
    requires { n < 100 }
    ensures { n < result }
{
    above(n)
}

/// Twice a number. Its answer is what the call says, by the induction.
pub fn both(n: u32) -> u32
    requires { n < 100 }
    ensures { result ≡ n + n }
{
    twice(n)
}
""",
    "specs/Lib.antt": "pub mod Doubles\n",
    "specs/Doubles.antt": """\
use Rattle.std.specs.Prelude.{ℕ, ◌+◌, zero, suc}

-- a number and itself, by recursion
abbrev pub doubled : ℕ → ℕ
doubled zero = 0
doubled (suc n) = doubled n + 2
""",
    "proofs/Lib.antt": "mod Steps\n",
    "proofs/Steps.antt": """\
use Rattle.std.proofs.Common.{ℕ, ◌+◌, ◌<◌, ◌≡◌, zero, suc, refl, arith}
use Rattle.b67_sample.specs.Doubles.{doubled}

pub below_next : (n : ℕ) → n < n + 1
below_next n = omega arith

pub doubled_is : (n : ℕ) → n + n ≡ doubled n
doubled_is zero = refl
doubled_is (suc n) = rw (← doubled_is n) (omega arith)
""",
    "proofs/above/Answers.antt": """\
use Rattle.b67_sample.proofs.Steps.{below_next}
use Rattle.b67_sample.proofs.above.Goals as goal

pub returns : goal.returns
returns c = below_next c.args.n
""",
    "proofs/twice/Answers.antt": """\
use Rattle.b67_sample.proofs.Steps.{doubled_is}
use Rattle.b67_sample.proofs.twice.Goals as goal

pub returns : goal.returns
returns c = doubled_is c.args.n
""",
    "proofs/next_of/Answers.antt": """\
use Rattle.b67_sample.proofs.next_of.Goals as goal

pub returns : goal.returns
returns c = c.above.ensures
""",
    "proofs/both/Answers.antt": """\
use Rattle.std.proofs.Common.{◌∙◌, sym}
use Rattle.b67_sample.proofs.Steps.{doubled_is}
use Rattle.b67_sample.proofs.both.Goals as goal

pub returns : goal.returns
returns c = c.twice.ensures ∙ sym (doubled_is c.args.n)
""",
}

# Each edit: its pairs of texts, what it comes to, and a word of the reason.
EDITS = {
    "lesser": ([("if a < b { b } else { a }", "if a < b { a } else { b }")], "refused", "of greater"),
    "equal_too": ([("if a < b { b } else { a }", "if a <= b { b } else { a }")], "accepted", ""),
    "two_above": ([("    n + 1", "    n + 2")], "accepted", "with other answers"),
    "same_number": ([("    n + 1", "    n + 0")], "refused by search", "of above"),
    "twice_and_one": ([("    n + n", "    n + n + 1")], "not told", "of twice"),
    "no_call": ([("    above(n)", "    n")], "refused by search", "of next_of"),
    "sum_for_a_call": ([("    twice(n)", "    n + n")], "accepted", "with other answers"),
    "once": ([("    twice(n)", "    n")], "for a name", "of both"),
    "lesser_and_two_above": ([("if a < b { b } else { a }", "if a < b { a } else { b }"), ("    n + 1", "    n + 2")], "refused", "of greater"),
    "equal_too_and_same_number": ([("if a < b { b } else { a }", "if a <= b { b } else { a }"), ("    n + 1", "    n + 0")], "refused by search", "of above"),
    "not_there": ([("    n - 1", "    n + 2")], "doesn't apply", "stands 0 times"),
}

# Errors in edits.py: what each is, its text, the text in its place, and the edits that show it.
PLANTED = [
    ("the code as it stands isn't tried", "if stands and (stands.is_proved or not missed and set(it.open) - set(stands.open)):", "if True:", ["twice_and_one"]),
    ("answers that don't fit stay", 'return "accepted", "with other answers"', 'return "refused by search", "of above"', ["two_above"]),
    ("an answer that doesn't fit is a refusal", "return own or None", 'return "refused", "of above"', ["two_above"]),
    ("a name that is missed isn't told", '("for a name" if missed else "not told")', '"not told"', ["once"]),
    ("one proved function of two is enough", "if all(it.is_proved for it in told):\n            return \"accepted\", \"\"", "if any(it.is_proved for it in told):\n            return \"accepted\", \"\"", ["equal_too_and_same_number"]),
    ("what is open isn't looked at", "if it.open and not it.missed:", "if False:", ["lesser"]),
    ("the reason is of another function", 'f"`{goal}` of {self.function}"', 'f"`{goal}` of main"', ["lesser"]),
    ("a text that isn't there is no matter", "if count != 1:", "if count > 1:", ["not_there"]),
    ("no answer is taken out", "for name, part in parts.items() if name not in gone", "for name, part in parts.items()", ["same_number"]),
    ("all is written down as refused", 'out.write("\\t".join((f"{edit.crate}/{edit.name}", sum_of(edit), kind,', 'out.write("\\t".join((f"{edit.crate}/{edit.name}", sum_of(edit), "refused",', ["equal_too"]),
    ("a changed crate isn't tried anew", "texts.update(it.encode() + text.read())", "pass", ["equal_too"]),
]


def made(room):
    """A repository of one crate, with its edits and edits.py."""
    crate = f"{room}/crates/b67_sample"
    for name, text in FILES.items():
        os.makedirs(os.path.dirname(f"{crate}/{name}"), exist_ok=True)
        with open(f"{crate}/{name}", "w", encoding="utf-8") as out:
            out.write(text)
    os.makedirs(f"{crate}/more-edits")
    for name, (pairs, _, _) in EDITS.items():
        with open(f"{crate}/more-edits/{name}.edit", "w", encoding="utf-8") as out:
            out.write("file: src/lib.rt\n" + "".join(f"old: {old}\nnew: {new}\n" for old, new in pairs))
    with open(f"{room}/crates.txt", "w", encoding="utf-8") as out:
        out.write("b67_sample:\n")
    os.makedirs(f"{room}/tools")
    shutil.copy(f"{TOP}/tools/edits.py", f"{room}/tools/")
    built = subprocess.run(["rt", "check"], cwd=crate, stdout=subprocess.PIPE, stderr=subprocess.STDOUT, text=True)
    if built.returncode:
        sys.exit(f"the crate isn't proved as it stands:\n{built.stdout[-3000:]}")
    return crate


def told(room, names):
    """What edits.py tells of these edits: of each the kind and the reason; and what it printed."""
    words = [sys.executable, f"{room}/tools/edits.py", "--into", f"{room}/lines", *(f"b67_sample/{it}" for it in names)]
    said = subprocess.run(words, stdout=subprocess.PIPE, stderr=subprocess.STDOUT, text=True).stdout
    return {name: (kind.strip(), why) for name, kind, why in re.findall(r"^b67_sample/(\w+) +([a-z][a-z' ]*?)(?:  +(.*))?$", said, re.M)}, said


def wrong(came, names):
    """The edits of which something else was told than is known."""
    return [f"{it}: {' '.join(came.get(it, ('nothing',)))}, not {EDITS[it][1]}" for it in names if came.get(it, ("",))[0] != EDITS[it][1] or EDITS[it][2] not in came[it][1]]


def change(path, old, new):
    with open(path, encoding="utf-8") as text:
        whole = text.read()
    if whole.count(old) != 1:
        sys.exit(f"{path}: {old!r} stands {whole.count(old)} times")
    with open(path, "w", encoding="utf-8") as out:
        out.write(whole.replace(old, new))


def again(room, crate, names, first):
    """The problems of a second call, and of a third over a changed crate: what was written is taken, and what changed is tried."""
    size = os.path.getsize(f"{room}/lines")
    second, _ = told(room, names)
    problems = [] if first == second and os.path.getsize(f"{room}/lines") == size else ["a second call tells something else, or tries again"]
    change(f"{crate}/src/lib.rt", "if a < b { b } else { a }", "if a <= b { b } else { a }")
    third, _ = told(room, ["equal_too"])
    problems += [] if third["equal_too"][0] == "doesn't apply" else ["over a changed crate an edit isn't tried anew"]
    change(f"{crate}/src/lib.rt", "    n + n", "    n + n + 0")
    sums = subprocess.run(
        [sys.executable, "-c", f"import sys; sys.path.insert(0, '{room}/tools'); import edits; print(edits.crate_sum('b67_sample', '{room}'))"], stdout=subprocess.PIPE, text=True
    ).stdout
    change(f"{crate}/src/lib.rt", "    n + n + 0", "    n + n")
    other = subprocess.run(
        [sys.executable, "-c", f"import sys; sys.path.insert(0, '{room}/tools'); import edits; print(edits.crate_sum('b67_sample', '{room}'))"], stdout=subprocess.PIPE, text=True
    ).stdout
    problems += [] if sums != other else ["a crate's sum doesn't tell its texts"]
    change(f"{crate}/src/lib.rt", "if a <= b { b } else { a }", "if a < b { b } else { a }")
    return problems


def planted(room, crate):
    """The errors in edits.py that change nothing of what it tells."""
    problems = []
    for what, old, new, names in PLANTED:
        shutil.copy(f"{TOP}/tools/edits.py", f"{room}/tools/")
        change(f"{room}/tools/edits.py", old, new)
        if os.path.exists(f"{room}/lines"):
            os.remove(f"{room}/lines")
        came, _ = told(room, names)
        found = wrong(came, names) or again(room, crate, names, came)
        print(f"{'found' if found else 'NOT FOUND'}: {what}{': ' + found[0] if found else ''}", flush=True)
        problems += [] if found else [what]
    return problems


def main():
    if sys.argv[1:] not in ([], ["--planted"]):
        return print(__doc__.splitlines()[0], file=sys.stderr) or 2
    with tempfile.TemporaryDirectory() as room:
        crate = made(room)
        came, said = told(room, list(EDITS))
        problems = wrong(came, list(EDITS)) + again(room, crate, list(EDITS), came)
        print("\n".join(problems) or f"{len(EDITS)} edits, each told as it is")
        if problems:
            print(said)
        if sys.argv[1:]:
            problems += planted(room, crate)
    return 1 if problems else 0


if __name__ == "__main__":
    sys.exit(main())
