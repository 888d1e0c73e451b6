#!/usr/bin/env python3
"""usage: check-premises.py

Whether premises.py finds what is wrong with docs/premises.txt. Errors are put into a copy of the code and of that
list, one at a time; of each premises.py must say what is wrong. Without one it must find nothing.
"""
import os
import re
import shutil
import sys
import tempfile

sys.dont_write_bytecode = True
import premises  # noqa: E402

TOP = os.path.realpath(os.path.join(os.path.dirname(os.path.abspath(__file__)), ".."))
LIST = "docs/premises.txt"
TESTS, SHELF = "crates/b67_promises/src/tests.rt", "crates/b67_promises/src/shelf_rows.rt"

# What each error is, the file, a text that stands there once, the text in its place, and what is to be said of it.
ERRORS = [
    ("a row is removed", LIST, r"(?m)^run_one_session decks\n( .*\n)*", "", "run_one_session decks: no row"),
    ("a test has another name", TESTS, r"fn sum_is_described\(", "fn sum_described(", "there is no test sum_is_described"),
    ("the call has another name", TESTS, r"=> run_one_session\(", "=> run_two_sessions(", "sum_as_cards_and_as_a_codefile doesn't call it"),
    ("a test of the same file that doesn't call it", LIST, r"test `goes_on_from_an_image`, 3, 0", "test `serves_a_process`, 0", "serves_a_process doesn't call it"),
    ("a test's body is empty", SHELF, r"(?s)(fn goes_on_from_an_image\(rt: HostRuntime\) \{\n).*?\n\}\n", r"\1}\n", "goes_on_from_an_image doesn't call it"),
    ("a test wants another status", SHELF, r"codes\.0, ExitCode::from\(3\)", "codes.0, ExitCode::from(2)", "doesn't want 3, 0"),
    ("theorems that are met through one another", LIST, r"test `sum_as_cards_and_as_a_codefile`, 0, 0", "through `run_one_session`", "no test or program meets it"),
    ("a theorem that has nothing to do with it", LIST, r"test `sum_behind_another_job`, 0, 0", "through `run_described`", "run_described doesn't call it"),
    ("the call is a comment", SHELF, r"\n    serve_halted_then_resumed\(", "\n    // serve_halted_then_resumed(", "goes_on_from_an_image doesn't call it"),
    ("a contract is lost", "crates/b67_promises/src/jobs.rt", r"    ensures jobs \{.*\n.*\n.*\n", "", "it has no clause jobs"),
    ("a clause has no row", "crates/b67_promises/src/shelves.rt", r"    ensures decks \{", "    ensures more { 0 ≡ 1 → 0 ≡ 2 }\n    ensures decks {", "serve_on_shelves more: no row"),
    ("a test that chooses another theorem", LIST, r"test `sum_behind_another_job`, 0, 0", "test `sum_in_two_cores`, 0, 0", "sum_in_two_cores doesn't call it"),
    ("a row wants another status", LIST, r"(run_described ends\n    met by: test `sum_is_described`), 0:", r"\1, 3:", "sum_is_described doesn't want 3"),
    ("the call stands in a text", SHELF, r"(?s)\n    serve_on_shelf\(alloc.*?paper\)\n", '\n    unknown("serve_on_shelf(alloc)")\n', "serves_on_a_shelf doesn't call it"),
    ("a program that doesn't call it", LIST, r"(serve unread\n    met by: )program `b67_rows`", r"\1program `b67`", "the program b67 doesn't call it"),
    ("a law that states something else", LIST, r"`IsDescribed`, which", "`NeverTwoReady`, which", "the row doesn't name what the law states"),
    ("a theorem that doesn't state what the law does", LIST, r"(runs_need_two\n    met by: )through `run_under_switches`: `NeverTwoReady`", r"\1through `run_twice`: `NeverTwoReady`", "run_twice doesn't state NeverTwoReady"),
    ("a theorem with premises is said to have none", LIST, r"(run_described ends\n    met by: )test `sum_is_described`, 0: memory is observable", r"\1it has no premise", "run_described ends: it has premises"),
    ("nothing is said", LIST, r"(run_described ends\n    met by: )test `sum_is_described`, 0: memory is observable", r"\1memory is observable", "nothing is said to meet it"),
    ("a premise is left out", LIST, r"(run_twice decks\n.*\n.*\n)    if AsksForRun other_words.now\n", r"\1", "run_twice decks: other premises than those of the sources"),
    ("a clause asks for less", "crates/b67_promises/src/paging.rt", r"(ensures more_core \{.*) → core ≤ more", r"\1", "run_twice more_core: other premises"),
    ("no test of that name calls it, but a function does", TESTS, r"#\[test\]\nfn sum_is_described", "fn sum_is_described", "there is no test sum_is_described"),
]


def copied(room):
    """The code, its definitions, the table and the scripts."""
    for part in ("tools", LIST, "crates.txt"):
        (shutil.copytree if os.path.isdir(f"{TOP}/{part}") else copy_file)(f"{TOP}/{part}", f"{room}/{part}")
    for crate in os.listdir(f"{TOP}/crates"):
        for part in ("src", "specs"):
            if os.path.isdir(f"{TOP}/crates/{crate}/{part}"):
                shutil.copytree(f"{TOP}/crates/{crate}/{part}", f"{room}/crates/{crate}/{part}")


def copy_file(source, target):
    os.makedirs(os.path.dirname(target), exist_ok=True)
    shutil.copyfile(source, target)


def main():
    if sys.argv[1:]:
        return print(__doc__.splitlines()[0], file=sys.stderr) or 2
    sys.setrecursionlimit(10_000)
    missed = 0
    with tempfile.TemporaryDirectory() as room:
        copied(room)
        problems, _, _ = premises.judged(room)
        if problems:
            print("without an error:", *problems, sep="\n")
            return 1
        for what, file, old, new, wanted in ERRORS:
            with open(f"{room}/{file}", encoding="utf-8") as text:
                whole = text.read()
            changed, count = re.subn(old, new, whole)
            with open(f"{room}/{file}", "w", encoding="utf-8") as out:
                out.write(changed)
            problems, _, _ = premises.judged(room)
            with open(f"{room}/{file}", "w", encoding="utf-8") as out:
                out.write(whole)
            if count != 1 or not any(wanted in it for it in problems):
                missed += 1
                print(f"{what}: the text stands {count} times, and {wanted!r} isn't said, but", *problems, sep="\n    ", flush=True)
    print(f"{len(ERRORS)} errors, {missed} not found")
    return 1 if missed else 0


if __name__ == "__main__":
    sys.exit(main())
