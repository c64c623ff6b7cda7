"""Times of processes, and rows of the table: see bench.sh."""

import os
import statistics
import subprocess
import sys
import time
from dataclasses import dataclass, field


@dataclass
class Times:
    """Of many runs: processor time and time on the clock, in milliseconds."""

    processor: list = field(default_factory=list)
    clock: list = field(default_factory=list)

    def add(self, command, output=os.devnull, given=os.devnull):
        """One run, with the input of a file. An output file is written over and never cut, so that no run pays for the blocks of the one before it."""
        null, out, into = os.open(os.devnull, os.O_RDWR), os.open(output, os.O_WRONLY | os.O_CREAT), os.open(given, os.O_RDONLY)
        places = [(os.POSIX_SPAWN_DUP2, into, 0), (os.POSIX_SPAWN_DUP2, out, 1), (os.POSIX_SPAWN_DUP2, null, 2)]
        before = time.perf_counter()
        child = os.posix_spawnp(command[0], command, os.environ, file_actions=places)
        _, status, usage = os.wait4(child, 0)
        self.clock.append(1000 * (time.perf_counter() - before))
        for each in (null, out, into):
            os.close(each)
        if status:
            sys.exit(f"bench: status {status} of {' '.join(command[:3])}")
        self.processor.append(1000 * (usage.ru_utime + usage.ru_stime))


def measured(rounds, *commands):
    """The times of each command. In each round all run once, so that noise meets all of them."""
    times = [Times() for _ in commands]
    for _ in range(rounds):
        for each, command in zip(times, commands):
            each.add(command)
    return times


def spread(values):
    return f"{min(values):.2f} / {statistics.median(values):.2f}"


def row(what, own, other, ratio, goal):
    print(f"| {what} | {own} | {other} | {ratio:.2f} | {goal} |", flush=True)


def compared(what, ours, theirs, name, goal):
    """Two rows: processor time and time on the clock. The ratio is of throughput."""
    for kind in ("processor", "clock"):
        mine, its = getattr(ours, kind), getattr(theirs, kind)
        row(f"{what}, {kind} ms", spread(mine), f"{name} {spread(its)}", min(its) / min(mine), goal)


def beside(rounds, what, own, other, name, goals):
    """Rows for two commands: processor time and time on the clock."""
    ours, theirs = measured(rounds, own, other)
    for kind, goal in zip(("processor", "clock"), goals):
        mine, its = getattr(ours, kind), getattr(theirs, kind)
        row(f"{what}, {kind} ms", spread(mine), f"{name} {spread(its)}", min(mine) / min(its), goal)


def peak_of(command, given=os.devnull):
    """The peak of a process's memory, in bytes, with the input of a file. GNU's time starts it: a child of this process would count our own peak too."""
    timed = ["time", "-f", "%M", *command]
    with open(given, "rb") as into:
        told = subprocess.run(timed, stdin=into, stdout=subprocess.DEVNULL, stderr=subprocess.PIPE, text=True, check=True)
    return 1024 * int(told.stderr.split()[-1])
