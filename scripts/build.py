#!/usr/bin/env python3
"""Proves the crates that the program stands on, side by side, builds the program and runs it. `./ddf` calls it where the program isn't built or is older than its
sources.

    scripts/build.py run WORD..         proves, builds, and runs the program with these words
    scripts/build.py unproved WORD..    builds it without proofs, by the kit's trial run, and runs it
    scripts/build.py prove CRATE..      proves these crates and those below them alone
    scripts/build.py above CRATE..      lists what a change of these has proved again, and how long it takes; it proves nothing

Each crate is proved as soon as those below it are, the one with the longest way up first. The kit lets one command at a time work in a crate and in those below
it, so each of those that run side by side has a copy of the sources (in target/build, for as long as this runs); the libraries are linked into it. What is proved
lies in crates/*/out of the checkout itself, with a note of the checksum of all that was read: where this is stopped, the next call goes on from there. As many
run as there are processors, as far as memory lasts; a long check beside which nothing else can run gets more than one.
"""
from __future__ import annotations

import contextlib
import fcntl
import glob
import hashlib
import os
import shutil
import signal
import subprocess
import sys
import tempfile
import time

TOP = os.path.dirname(os.path.dirname(os.path.abspath(__file__)))
WORK = f"{TOP}/target/build"
PROGRAM = "ddf"
# The parts of a crate that its proof reads.
PARTS = ("src", "specs", "proofs")
# The status where the program isn't built.
NOT_BUILT = 70
# What a large check takes, each more job of it, and what all that is proved takes on the disk, in bytes.
MEMORY_EACH, MEMORY_JOB, MEMORY_LEAST, DISK = 4_000_000_000, 1_500_000_000, 3_000_000_000, 11_000_000_000
# How long a check takes to have most of its memory, in seconds.
YOUNG = 90
# The most jobs of one check, and the minutes from which on it gets more than one.
JOBS_MOST, LONG = 4, 3
# What takes fewer seconds than this tells nothing of the machine.
SHORT = 10
# How a command ends that was killed: as Python tells it, and as rt passes it on.
KILLED = (-signal.SIGKILL, 256 - signal.SIGKILL)
# The signals that ask this to stop.
STOPS = (signal.SIGINT, signal.SIGTERM, signal.SIGHUP)
# Those that came.
stopped: list[int] = []


def say(text: str) -> None:
    print(f"ddf: {text}", file=sys.stderr, flush=True)


def stop(text: str) -> None:
    say(text)
    sys.exit(NOT_BUILT)


def end_if_stopped() -> None:
    if stopped:
        sys.exit(128 + stopped[0])


def text_of(file: str) -> str | None:
    try:
        with open(file, encoding="utf-8", errors="replace") as it:
            return it.read()
    except OSError:
        return None


def out_of(name: str, top: str = TOP) -> str:
    return f"{top}/crates/{name}/out"


# The crates


def rows() -> dict[str, str]:
    """The lines of crates.txt, each by its crate."""
    lines = [line.partition("#")[0] for line in (text_of(f"{TOP}/crates.txt") or "").splitlines()]
    return {line.partition(":")[0].split()[0]: line for line in lines if ":" in line}


def crates_below(tops: list[str]) -> dict[str, list[str]]:
    """These crates and all of the repository's below them, lowest first, each with those that it stands on directly."""
    stands_on = {name: line.partition(":")[2].split() for name, line in rows().items()}
    found: dict[str, list[str]] = {}

    def add(name: str) -> None:
        if name not in found:
            below = [it for it in stands_on[name] if it in stands_on]
            for it in below:
                add(it)
            found[name] = below

    for name in tops:
        if name not in stands_on:
            stop(f"there is no crate {name}")
        add(name)
    return found


def files_of(name: str) -> list[str]:
    tops = [f"{TOP}/crates/{name}/{part}" for part in PARTS]
    return sorted(f"{at}/{file}" for top in tops for at, _, files in os.walk(top) for file in files)


def sums_of(crates: dict[str, list[str]]) -> dict[str, str]:
    """For each crate the checksum of all that its proof reads: the kit's version, its line of crates.txt, its files, and the crates below it."""
    kit = subprocess.run(["rt", "version"], stdin=subprocess.DEVNULL, capture_output=True, text=True).stdout
    listed = rows()
    sums: dict[str, str] = {}
    for name, below in crates.items():
        sum = hashlib.sha256(repr((kit, listed[name].split(), [sums[it] for it in below])).encode())
        for file in files_of(name):
            with open(file, "rb") as it:
                sum.update(repr((os.path.relpath(file, TOP), it.read())).encode())
        sums[name] = sum.hexdigest()
    return sums


def table_in(file: str) -> dict[str, float]:
    """The minutes that each crate took."""
    lines = [line.partition("#")[0].split() for line in (text_of(file) or "").splitlines()]
    return {line[0]: float(line[1]) for line in lines if len(line) == 2}


def minutes_of(crates: dict[str, list[str]]) -> dict[str, float]:
    """How long each crate takes, by scripts/minutes.txt, or else by the size of its code."""
    table = table_in(f"{TOP}/scripts/minutes.txt")
    size = {name: sum(os.path.getsize(it) for it in files_of(name) if it.endswith(".rt")) for name in crates}
    return {name: table.get(name, 0.5 + size[name] / 14_000) for name in crates}


def all_below(crates: dict[str, list[str]]) -> dict[str, set[str]]:
    """Each crate with all of those below it, and not only those that it names."""
    found: dict[str, set[str]] = {}
    for name, below in crates.items():
        found[name] = {*below, *(it for low in below for it in found[low])}
    return found


def tell_above(names: list[str]) -> None:
    """Lists the crates that a change of some has proved again: these, and all that stand on them, lowest first, with minutes of a processor."""
    crates = crates_below(list(rows()))
    below, minutes = all_below(crates), minutes_of(crates)
    if lost := sorted(set(names) - set(crates)):
        stop(f"there is no crate {lost[0]}")
    again = [it for it in crates if it in names or below[it] & set(names)]
    ways: dict[str, float] = {}
    for name in again:
        print(f"{minutes[name]:5.1f}  {name}")
        ways[name] = minutes[name] + max((ways[it] for it in below[name] if it in ways), default=0)
    whole = sum(minutes[it] for it in again)
    print(f"{whole:5.1f}  minutes of a processor for {len(again)} crates, and at least {max(ways.values()):.0f} however many work beside one another")


# The machine


def available_memory() -> int:
    """What can still be taken, of the machine's memory and of the control group's."""
    free = [int(line.split()[1]) * 1024 for line in (text_of("/proc/meminfo") or "").splitlines() if line.startswith("MemAvailable:")]
    most, held = text_of("/sys/fs/cgroup/memory.max") or "", text_of("/sys/fs/cgroup/memory.stat") or ""
    if most.strip().isdigit() and held.startswith("anon "):
        free.append(int(most) - int(held.split()[1]))
    return min(free, default=MEMORY_EACH)


def look_first(share: float) -> None:
    """Ends where the machine lacks what the rest takes, which is this share of the whole."""
    memory, disk, least = available_memory(), shutil.disk_usage(TOP).free, share * DISK
    if memory < MEMORY_LEAST:
        stop(f"{memory / 1e9:.1f} GB of memory are free, and the largest crate takes {MEMORY_LEAST / 1e9:.0f} to prove")
    if disk < least:
        stop(f"{disk / 1e9:.1f} GB are free on the disk of {TOP}, and what is proved takes {least / 1e9:.1f}")


def is_taken(file: int) -> bool:
    """Takes an open folder for this process, if no other has it."""
    try:
        fcntl.flock(file, fcntl.LOCK_EX | fcntl.LOCK_NB)
    except BlockingIOError:
        return False
    return True


@contextlib.contextmanager
def held(folders: list[str]):
    """Keeps others out of these folders, as the kit's commands do, and waits where one works there."""
    with contextlib.ExitStack() as files:
        for folder in folders:
            file = os.open(folder, os.O_RDONLY)
            files.callback(os.close, file)
            is_told = False
            while not is_taken(file):
                if not is_told:
                    say(f"another command works in {folder}: waiting for its end")
                is_told = True
                end_if_stopped()
                time.sleep(0.5)
        yield


def link(one: str, other: str) -> None:
    """Gives a file of a library a second name: the kit removes such a file before it makes it anew, and never writes into it."""
    try:
        os.link(one, other)
    except OSError:
        shutil.copyfile(one, other)


class Copy:
    """A copy of the sources of some crates, in which one check at a time runs."""

    def __init__(self, number: int, crates: dict[str, list[str]]):
        self.top = f"{WORK}/{number}"
        self.below = all_below(crates)
        os.makedirs(self.top)
        with open(f"{self.top}/crates.txt", "w", encoding="utf-8") as it:
            it.writelines(f"{line}\n" for name, line in rows().items() if name in crates)
        if os.path.exists(f"{TOP}/HANDLES"):
            shutil.copy2(f"{TOP}/HANDLES", self.top)
        for name in crates:
            for part in PARTS:
                if os.path.isdir(f"{TOP}/crates/{name}/{part}"):
                    shutil.copytree(f"{TOP}/crates/{name}/{part}", f"{self.top}/crates/{name}/{part}")

    def take_in(self, name: str) -> None:
        """Moves the crate's own work here, where there is some, and gives links to the libraries below it."""
        for it in self.below[name]:
            if not os.path.exists(f"{out_of(it, self.top)}/rlib"):
                shutil.copytree(f"{out_of(it)}/rlib", f"{out_of(it, self.top)}/rlib", copy_function=link)
        if os.path.isdir(out_of(name)):
            shutil.rmtree(out_of(name, self.top), ignore_errors=True)
            os.rename(out_of(name), out_of(name, self.top))


def give_back(name: str, top: str) -> None:
    """Moves a crate's work from a copy to the checkout, unless the checkout has it."""
    if os.path.isdir(out_of(name, top)) and not os.path.exists(out_of(name)):
        os.rename(out_of(name, top), out_of(name))


def clear_copies() -> None:
    """Removes the copies, once the checkout has what lies in them alone."""
    for top in glob.glob(f"{WORK}/[0-9]*"):
        for crate in glob.glob(f"{top}/crates/*/out"):
            name = os.path.basename(os.path.dirname(crate))
            if os.path.isdir(f"{TOP}/crates/{name}"):
                give_back(name, top)
        shutil.rmtree(top, ignore_errors=True)


# The build


class Check:
    """A command of the kit that proves a crate."""

    def __init__(self, name: str, copy: Copy | None, jobs: int):
        """In a copy it makes the crate's library; without one, in the checkout itself, the program."""
        self.name, self.copy, self.jobs, self.begun = name, copy, jobs, time.monotonic()
        self.log = f"{WORK}/{name}.log"
        words = ["rt", "lib", "--jobs", str(jobs)] if copy else ["rt", "run", "--", "--version"]
        with open(self.log, "wb") as log:
            how = {"stdin": subprocess.DEVNULL, "stdout": log, "stderr": log}
            self.command = subprocess.Popen(words, cwd=f"{copy.top if copy else TOP}/crates/{name}", **how)

    def seconds(self) -> float:
        return time.monotonic() - self.begun


class Build:
    """The crates that are proved, those that are being proved, and those that are still to be."""

    def __init__(self, tops: list[str]):
        self.crates = crates_below(tops)
        self.sums = sums_of(self.crates)
        self.minutes = minutes_of(self.crates)
        self.above = {name: [it for it in self.crates if name in self.crates[it]] for name in self.crates}
        self.ways: dict[str, float] = {}
        for name in reversed(self.crates):
            self.ways[name] = self.minutes[name] + max((self.ways[it] for it in self.above[name]), default=0)
        self.look()
        self.running: dict[str, Check] = {}
        self.copies: list[Copy] = []
        self.processors = len(os.sched_getaffinity(0))
        self.most = self.processors
        self.taken: dict[str, float] = {}
        self.killed: set[str] = set()
        self.begun, self.told = time.monotonic(), ("", 0.0)

    def look(self) -> None:
        """Finds what earlier calls proved of this text."""
        self.done = {name for name in self.crates if text_of(f"{out_of(name)}/rlib/proved") == self.sums[name]}
        self.todo = [name for name in self.crates if name not in self.done]

    def ready(self, todo: list[str], done: set[str]) -> list[str]:
        """Those of the crates that can be begun, the one with the longest way up first."""
        return sorted((it for it in todo if done.issuperset(self.crates[it])), key=lambda it: -self.ways[it])

    def libraries(self) -> list[str]:
        return [it for it in self.todo if it != PROGRAM]

    def has_room(self) -> bool:
        """Whether one more check can run beside those that do."""
        jobs = sum(it.jobs for it in self.running.values())
        return not self.running or len(self.running) < self.most and jobs < self.processors and self.spare_memory() > MEMORY_EACH

    def spare_memory(self) -> int:
        """What will still be free once the checks that have just begun have theirs."""
        return available_memory() - MEMORY_EACH * sum(it.seconds() < YOUNG for it in self.running.values())

    def jobs_for(self, name: str, ready: int) -> int:
        """More than one job for a long check, where no other crate wants the processors."""
        free = self.processors - sum(it.jobs for it in self.running.values())
        memory = 1 + (self.spare_memory() - MEMORY_EACH) // MEMORY_JOB
        return max(1, min(JOBS_MOST, free // ready, memory)) if self.minutes[name] >= LONG else 1

    def begin(self) -> None:
        """Begins what can be begun."""
        ready = self.ready(self.libraries(), self.done)
        while ready and self.has_room():
            name, jobs = ready[0], self.jobs_for(ready[0], len(ready))
            free = [it for it in self.copies if all(check.copy != it for check in self.running.values())]
            if not free:
                free = [Copy(len(self.copies), self.crates)]
                self.copies += free
            free[0].take_in(name)
            self.running[name] = Check(name, free[0], jobs)
            self.todo.remove(ready.pop(0))

    def end(self) -> None:
        """Takes over what has ended."""
        for name, check in list(self.running.items()):
            if check.command.poll() is None:
                continue
            copy, beside = check.copy, len(self.running) - 1
            del self.running[name]
            if not check.command.returncode:
                self.note(check)
            give_back(name, copy.top)
            if check.command.returncode in KILLED and (beside or name not in self.killed):
                say(f"the check of {name} was killed, most likely for want of memory: it is done again, with fewer side by side")
                self.killed.add(name)
                self.todo.append(name)
                self.most = max(1, beside)
            elif check.command.returncode:
                self.fail(check)

    def note(self, check: Check) -> None:
        """Notes that a crate is proved, and how long that took."""
        self.done.add(check.name)
        if check.copy:
            file = f"{out_of(check.name, check.copy.top)}/rlib/proved"
            with contextlib.suppress(FileNotFoundError):
                os.remove(file)
            with open(file, "w", encoding="utf-8") as it:
                it.write(self.sums[check.name])
        # What another checkout on this machine has proved the kit takes from there, in no time.
        if check.seconds() > SHORT:
            self.taken[check.name] = check.seconds() / 60
            table = {**table_in(f"{WORK}/minutes.txt"), **self.taken}
            with open(f"{WORK}/minutes.txt", "w", encoding="utf-8") as it:
                it.writelines(f"{name} {minutes:.1f}\n" for name, minutes in table.items())

    def fail(self, check: Check) -> None:
        if stopped:
            return
        print(*(text_of(check.log) or "").splitlines()[-20:], sep="\n", file=sys.stderr)
        why = "was killed, most likely for want of memory" if check.command.returncode in KILLED else "has failed"
        stop(f"the check of {check.name} {why}, so the program isn't built; all that it said is in {check.log}")

    def pace(self) -> float:
        """How this machine compares with the table, once that can be told."""
        expected = sum(self.minutes[it] for it in self.taken)
        return sum(self.taken.values()) / expected if expected > 5 else 1

    def minutes_left(self) -> float:
        """How long the rest takes, laid out over the processors as it will be begun."""
        pace, now, todo, done = self.pace(), 0.0, list(self.todo), set(self.done)
        ends = {name: max(0.1, pace * self.minutes[name] - check.seconds() / 60) for name, check in self.running.items()}
        while ends or todo:
            for name in self.ready(todo, done)[: max(0, self.most - len(ends))]:
                ends[name] = now + pace * self.minutes[name]
                todo.remove(name)
            first = min(ends, key=lambda it: ends[it])
            now = ends.pop(first)
            done.add(first)
        return now

    def tell(self) -> None:
        """Says how far it is where something began or ended, and now and then."""
        now = ", ".join(self.running) or "nothing"
        if self.told[0] == now and time.monotonic() < self.told[1] + 300:
            return
        self.told = (now, time.monotonic())
        took, left = (time.monotonic() - self.begun) / 60, self.minutes_left()
        say(f"{len(self.done)} of {len(self.crates)} crates are proved, after {took:.0f} minutes; some {left + 0.5:.0f} more; now: {now}")

    def prove(self) -> None:
        """Proves all but the program."""
        os.makedirs(WORK, exist_ok=True)
        with held([WORK, *sorted(f"{TOP}/crates/{name}" for name in self.crates)]):
            clear_copies()
            self.look()
            try:
                while (self.libraries() or self.running) and not stopped:
                    self.begin()
                    self.tell()
                    time.sleep(0.2)
                    self.end()
            finally:
                self.end_all()
                clear_copies()
        self.end_stopped()

    def end_all(self) -> None:
        """Ends what still runs."""
        for check in self.running.values():
            check.command.terminate()
        for check in self.running.values():
            check.command.wait()
        if self.running:
            # What the kit's commands began ends just behind them.
            time.sleep(0.5)

    def end_stopped(self) -> None:
        if stopped:
            say(f"stopped: {len(self.done)} of {len(self.crates)} crates are proved and kept, and the next call goes on from there")
        end_if_stopped()

    def make_program(self) -> None:
        """Proves and builds the program itself, where all below it is proved."""
        check = Check(PROGRAM, None, 1)
        self.running[PROGRAM] = check
        self.todo.remove(PROGRAM)
        try:
            while check.command.poll() is None and not stopped:
                self.tell()
                time.sleep(0.2)
        finally:
            self.end_all()
        self.end_stopped()
        if check.command.returncode:
            self.fail(check)
        self.note(check)


def build() -> None:
    """Builds the program."""
    while True:
        # Sources that are edited meanwhile are newer than the program.
        begun = time.time()
        work = Build([PROGRAM])
        left, whole = work.minutes_left(), sum(work.minutes.values())
        look_first(sum(work.minutes[it] for it in work.todo) / whole)
        say(f"the program is built once all that it stands on is proved: {len(work.todo)} of {len(work.crates)} crates, up to {work.most} side by side.")
        say(f"That takes some {left + 0.5:.0f} minutes. What is proved is kept: where this is stopped, the next call goes on from there.")
        if left > 5:
            say("Meanwhile, or before: ./ddf --unproved IMAGE.. -- show (or examine, read, scrub) answers in two minutes, without the proofs.")
        work.prove()
        if sums_of(work.crates) == work.sums:
            break
        say("the sources have changed meanwhile, so what changed is proved once more")
    work.make_program()
    os.utime(f"{out_of(PROGRAM)}/{PROGRAM}", (begun, begun))
    shutil.rmtree(f"{out_of(PROGRAM)}/unproved", ignore_errors=True)


# The program without proofs


def try_out(to: str) -> None:
    """Keeps the program that a trial run of the kit compiles, which keeps none itself: it is taken while that runs it."""
    os.makedirs(WORK, exist_ok=True)
    log = f"{WORK}/unproved.log"
    with tempfile.TemporaryDirectory(prefix="trial-", dir=WORK) as room:
        words = ["rt", "try", "--seconds", "60", "--", "--", "exercise", "1", "256"]
        with open(log, "wb") as it:
            how = {"stdin": subprocess.DEVNULL, "stdout": subprocess.DEVNULL, "stderr": it, "env": {**os.environ, "TMPDIR": room}}
            trial = subprocess.Popen(words, cwd=f"{TOP}/crates/{PROGRAM}", **how)
        try:
            while not stopped and trial.poll() is None and not os.path.exists(to):
                time.sleep(0.2)
                for at, _, files in os.walk(room):
                    if "program" in files and at != room:
                        take_program(f"{at}/program", f"{room}/program", to)
        finally:
            trial.terminate()
            trial.wait()
    end_if_stopped()
    if not os.path.exists(to):
        print(*(text_of(log) or "").splitlines()[-20:], sep="\n", file=sys.stderr)
        stop("the program isn't built: the kit's trial run has failed, or keeps what it runs elsewhere")


def take_program(program: str, copy: str, to: str) -> None:
    """Keeps the program if it is whole."""
    with contextlib.suppress(OSError):
        shutil.copy(program, copy)
        if not subprocess.run([copy, "--version"], stdin=subprocess.DEVNULL, capture_output=True).returncode:
            os.makedirs(os.path.dirname(to), exist_ok=True)
            for old in glob.glob(f"{os.path.dirname(to)}/*"):
                os.remove(old)
            os.rename(copy, to)


def unproved() -> str:
    """The program without proofs, which is kept by the checksum of its sources."""
    to = f"{out_of(PROGRAM)}/unproved/{sums_of(crates_below([PROGRAM]))[PROGRAM]}"
    if not os.path.exists(to):
        say("the program is compiled without its proofs, which takes some two minutes")
        try_out(to)
    say("nothing of this program is proved yet: it was compiled, with checks while it runs, and no more. ./ddf alone proves it")
    return to


def become(program: str, words: list[str]) -> None:
    """Runs the program in the place of this one. Python ignores two signals, which it would inherit."""
    for it in (signal.SIGPIPE, signal.SIGXFSZ):
        signal.signal(it, signal.SIG_DFL)
    os.execv(program, [program, *words])


def main() -> None:
    for it in STOPS:
        # Whoever called this may want it to pass over one, as nohup does.
        if signal.getsignal(it) != signal.SIG_IGN:
            signal.signal(it, lambda number, _: stopped.append(number))
    way, words = sys.argv[1] if len(sys.argv) > 1 else "", sys.argv[2:]
    try:
        if way == "run":
            build()
            become(f"{out_of(PROGRAM)}/{PROGRAM}", words)
        elif way == "unproved":
            become(unproved(), words)
        elif way == "prove" and words:
            Build(words).prove()
        elif way == "above" and words:
            tell_above(words)
        else:
            sys.exit((__doc__ or "").split("\n\n")[1])
    except OSError as why:
        stop(f"the program isn't built: {why}")


main()
