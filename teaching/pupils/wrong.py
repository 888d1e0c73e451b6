#!/usr/bin/env python3
"""usage: wrong.py [NUMBER] < DECK

Ten machines, each with one mistake, for the week on proofs. Runs the deck on the second implementation of the machine (`reference/`)
as it is, and on that with the mistake of this number, and prints what each prints. A deck that finds the mistake is one on which they
differ; a shorter one is better. Without a number all ten are tried. Nothing here is proved. Status 0: all that were tried were found;
1: one wasn't; 2: the words are wrong, or the deck is refused.
"""
import sys
from pathlib import Path
from unittest import mock

sys.path.insert(0, str(Path(__file__).resolve().parents[2] / "reference"))

import machine  # noqa: E402
import mcp  # noqa: E402
import operators  # noqa: E402
import session  # noqa: E402
from b67ref import Backing, outcome_of  # noqa: E402

Step, McpStep, Session = operators.Step, mcp.McpStep, session.Session
RUN = ["run", "--core", "1048575", "--backing", "b"]


def callers_environment(step, end, **more):
    """The static link of a thunk that is entered by accident leads into the environment of whoever reads it."""
    level = end.proc.level - 1
    seen = machine.frame_of_level(step.running, level) if step.running.level >= level else end.frame
    right(Step.enter)(step, machine.ProcEnd(seen, end.proc), **more)


def down_not_to_zero(a, b):
    """IDIV and RDIV round down, and not toward zero."""
    return a // b


def copies_may_be_returned(step, word):
    """RETN returns a copy of an array that its own record owns."""
    return word.frame if isinstance(word, machine.Ref) else None


def rows_are_writable(copy):
    """A store into a data row is made."""
    end = right(machine.element_end)(copy)
    copy.array.read_only = False
    return end


def ended_task_is_awaited(step, arguments):
    """AWAIT of the number of a task that has ended waits, in vain."""
    number = operators.number_of(arguments[0])
    if 1 <= number < step.task.job.next_task:
        step.task.condition = machine.Awaits(number)
    else:
        right(McpStep.await_task)(step, arguments)


def wakes_the_first(step, arguments):
    """CAUSE wakes the first task that waits at the cell, and leaves the others."""
    end = step.cell_of_event(arguments[0])
    waiting = [task for task in step.task.job.tasks if step.waits_at(task, end)]
    right(McpStep.cause)(step, arguments)
    for task in waiting[1:]:
        task.condition = machine.WaitsAt(end.frame, end.offset)


def critical_record_is_left(step):
    """A record on which a live task depends is left."""


def keeps_the_first_number(step, arguments):
    """DEALLOCATE makes all numbers of an array 0 but the first one."""
    array = step.array_of(arguments[0])
    kept = array.numbers[0]
    right(McpStep.deallocate)(step, arguments)
    array.numbers[0] = kept


def stale_index(copy):
    """A copy of an element that RESIZE took away reads 0 in place of a fault."""
    array = copy.array
    return machine.ElementEnd(array, copy.index) if copy.index < len(array.numbers) else machine.ElementEnd(machine.Array(array.owner, [0]), 0)


def limit_comes_late(this, job):
    """A job may make one operator more than its limit."""
    if job.made == job.limit + 1:
        this.end_all(job, session.Ending.LIMIT)


# What each machine has in the place of what is right.
WRONG = [
    (Step, "enter", callers_environment), (operators, "quotient", down_not_to_zero), (Step, "home_of", copies_may_be_returned),
    (machine, "element_end", rows_are_writable), (McpStep, "await_task", ended_task_is_awaited), (McpStep, "cause", wakes_the_first),
    (Step, "need_no_dependent", critical_record_is_left), (McpStep, "deallocate", keeps_the_first_number),
    (machine, "element_end", stale_index), (Session, "end_job_at_limit", limit_comes_late),
]
RIGHT = {}


def right(function):
    """The right function behind a name that may be replaced now."""
    return RIGHT.get(function.__qualname__, function)


def printed_by(text, wrong=None):
    """The lines of a run, on the right machine or on a wrong one."""
    if not wrong:
        return outcome_of(RUN, text, Backing(65_536))
    holder, name, replaced = wrong
    was = getattr(holder, name)
    RIGHT[replaced.__qualname__] = RIGHT[was.__qualname__] = was
    rows = {key: replaced for key, made in operators.ROWS.items() if made is was}
    with mock.patch.object(holder, name, replaced), mock.patch.dict(operators.ROWS, rows):
        return outcome_of(RUN, text, Backing(65_536))


def tried(number, text, wanted, tells):
    """Whether a deck finds a mistake; says it."""
    try:
        printed = printed_by(text, WRONG[number - 1]).text()
    except RecursionError:
        printed = "it doesn't come to an end\n"
    found = printed != wanted.text()
    if tells:
        print(f"the machine prints\n{wanted.text()}and machine {number}\n{printed}", end="")
    print(f"machine {number}: {'found' if found else 'the same lines'}")
    return found


def main(words):
    """Status 0, 1 or 2."""
    if len(words) > 1 or words and words[0] not in [str(number) for number in range(1, len(WRONG) + 1)]:
        print(f"wrong.py: a number from 1 to {len(WRONG)}, or none\n{__doc__.splitlines()[0]}", file=sys.stderr)
        return 2
    try:
        text = sys.stdin.buffer.read()
        wanted = printed_by(text)
        if wanted.status == 2 or not wanted.text():
            print(f"wrong.py: the deck is refused: {wanted.text().strip() or 'it has no job'}", file=sys.stderr)
            return 2
        numbers = [int(words[0])] if words else range(1, len(WRONG) + 1)
        found = [tried(number, text, wanted, bool(words)) for number in numbers]
        sys.stdout.flush()
        return 0 if all(found) else 1
    except (OSError, AttributeError) as problem:
        print(f"wrong.py: {problem}", file=sys.stderr)
        sys.stdout = None
        return 2


if __name__ == "__main__":
    sys.exit(main(sys.argv[1:]))
