"""A session: the jobs of a deck, step by step, to their end or to a stop."""

from __future__ import annotations

from collections.abc import Callable
from dataclasses import dataclass

from cards import Deck
from codefile import Codefile
from loader import Listing
from machine import Job, Machine, Task, dictionary_frame, mcp_frame
from mcp import McpStep
from operators import TaskEndedError
from words import Ending, Fault, FaultError

Program = tuple[Codefile, list[Listing]]


@dataclass(frozen=True)
class PossibleStop:
    """The backing may be full here, by what was paged out.

    That depends on which areas are in core, and arrays are always there in this
    machine. So it is only noted: how many lines were printed, and the sum.
    """

    lines: int
    sum: int


class Session:
    """Runs the jobs of a deck. Each printed line is handed to `put`."""

    def __init__(
        self,
        deck: Deck,
        programs: list[Program],
        core_words: int,
        sectors: int,
        put: Callable[[str], None],
    ) -> None:
        self.machine = Machine(core_words, deck.stack, deck.quantum, deck.switches)
        self.halt = deck.halt
        self.sectors = sectors
        self.possible_stops: list[PossibleStop] = []
        self.put = put
        self.lines_put = 0
        self.next_switch = 0
        self.agrees = True  # core and sectors, of a session that goes on from an image
        mcp = mcp_frame()
        for number, (job, (file, listings)) in enumerate(zip(deck.jobs, programs), start=1):
            dictionary = dictionary_frame(file, mcp)
            self.machine.add_job(
                Job(number, file, listings, dictionary, job.limit, job.numbers)
            )

    # --- Which task makes the next step -----------------------------------------

    def choose(self) -> Task:
        """The task of the next step. There is always a ready one."""
        machine = self.machine
        task = self.switched_to()
        if task is None:
            last = self.last_task()
            if last is not None and (self.has_later_switch() or machine.turn < machine.quantum):
                return last
            task = self.next_in_order()
        machine.turn = 0
        return task

    def switched_to(self) -> Task | None:
        """The ready task that a switch of this count names."""
        switches = self.machine.switches
        while self.next_switch < len(switches):
            switch = switches[self.next_switch]
            if switch.count > self.machine.made:
                return None
            self.next_switch += 1
            if switch.count == self.machine.made:
                return self.ready_task(switch.job, switch.task)
        return None

    def ready_task(self, job: int, number: int) -> Task | None:
        """The task of this name, if it lives and is ready."""
        if not 1 <= job <= len(self.machine.jobs):
            return None
        task = self.machine.jobs[job - 1].task(number)
        return task if task is not None and task.ready else None

    def last_task(self) -> Task | None:
        """The task that made the last operator, if it is ready."""
        return self.ready_task(*self.machine.last_key)

    def has_later_switch(self) -> bool:
        """Whether a switch with a later count is left."""
        return self.next_switch < len(self.machine.switches)

    def next_in_order(self) -> Task:
        """The next ready task after the last one, in cyclic order, the last one last."""
        ready = [task for task in self.machine.live_tasks() if task.ready]
        last = self.machine.last_key
        return min(ready, key=lambda task: (task.key <= last, task.key))

    # --- One step ---------------------------------------------------------------

    def step(self) -> None:
        """Makes one operator, then the endings that it brings about.

        Where the step needs more words than core has, nothing is changed.
        """
        task = self.choose()
        self.note_sectors(self.machine.sector_sum())
        self.machine.claim(task)
        step = McpStep(self.machine, task)
        ending = self.ending_of(step)
        self.note_sectors(step.sectors_wanted)
        self.count(task)
        for line in step.lines:
            self.print(line)
        if ending is not None:
            self.end_with_descendants(task, ending)
        self.end_stuck_jobs()
        self.end_job_at_limit(task.job)

    def note_sectors(self, total: int) -> None:
        """Notes that the run may stop at this step, where the backing can be full."""
        stop = PossibleStop(self.lines_put, total)
        if total > self.sectors and stop not in self.possible_stops[-1:]:
            self.possible_stops.append(stop)

    def ending_of(self, step: McpStep) -> Ending | Fault | None:
        """Makes the operator, and tells the ending of its task, if it ends."""
        try:
            step.make()
        except FaultError as error:
            return error.fault
        except TaskEndedError:
            return Ending.ENDED
        return None

    def count(self, task: Task) -> None:
        """Counts the operator, whether it faulted or not."""
        self.machine.made += 1
        self.machine.turn += 1
        self.machine.last_key = task.key
        task.job.made += 1

    def print(self, line: str) -> None:
        """Prints a line."""
        self.lines_put += 1
        self.put(line)

    def end(self, task: Task, ending: Ending | Fault) -> None:
        """Ends one task and prints its ending."""
        self.print(f"{task.label} {ending.value}")
        self.machine.end(task)

    def end_with_descendants(self, task: Task, ending: Ending | Fault) -> None:
        """Ends the live descendants of a task, and then the task itself."""
        descendants = [other for other in task.job.tasks if other.descends_from(task)]
        for other in task.job.deepest_first(descendants):
            self.end(other, Ending.PARENT)
        self.end(task, ending)

    def end_stuck_jobs(self) -> None:
        """Ends the jobs in which tasks live and none is ready."""
        for job in self.machine.jobs:
            if job.tasks and not any(task.ready for task in job.tasks):
                self.end_all(job, Ending.DEADLOCK)

    def end_job_at_limit(self, job: Job) -> None:
        """Ends a job that has made as many operators as it may."""
        if job.made == job.limit:
            self.end_all(job, Ending.LIMIT)

    def end_all(self, job: Job, ending: Ending) -> None:
        """Ends all live tasks of a job."""
        for task in job.deepest_first(job.tasks):
            self.end(task, ending)

    # --- The run ----------------------------------------------------------------

    def run(self) -> bool:
        """Makes steps until no task lives or the HALT count is reached.

        Answers whether no task lives.
        """
        while self.lives():
            if self.machine.made == self.halt:
                return False
            self.step()
        return True

    def lives(self) -> bool:
        """Whether a task lives."""
        return any(job.tasks for job in self.machine.jobs)
