#!/usr/bin/env python3
"""Proves and builds libraries of crates.txt side by side, each as soon as those that it needs are done.

    tools/prove.py [--processors N] [--list] [CRATE..]

Without CRATE it proves every library, with it those that these crates need, and of the crates the libraries. The longest chain of
crates goes first and gets up to four jobs; as many others run meanwhile as processors and memory allow. `rt lib` does the
work, in copies under ~/.cache/confluo, and keeps what it proved, so an interrupted run goes on where it was. What a crate printed
is in build/prove/CRATE.log. With --list nothing is proved: it prints the order, with a guess of the minutes. It ends with 1 if a
crate is not proved, with 130 if it is interrupted. Needs only the standard library. `make run` uses it. `rt ci` has such an order of
its own, and takes nothing from here.
"""

import argparse
import fcntl
import hashlib
import os
import pathlib
import re
import shutil
import signal
import subprocess
import sys
import time
from dataclasses import dataclass, field

sys.dont_write_bytecode = True

import crate_table  # noqa: E402

ROOT = pathlib.Path(__file__).resolve().parent.parent
LOGS = ROOT / "build" / "prove"
# What `rt lib` reads of a crate.
PARTS = ("src", "specs", "proofs")
MOST_JOBS = 4
GIGABYTE = 10**9


@dataclass(frozen=True)
class Crate:
    """A library: the libraries of this repository that it needs, and its lines of code, and of definitions and proofs."""

    name: str
    needs: tuple = ()
    code: int = 0
    proofs: int = 0

    def seconds(self):
        """About how long its proof takes with one job: so that the program's libraries take 14 minutes on four processors, as they did
        on one machine. A run corrects the guess."""
        return 2.5 + 0.08 * self.code + 0.008 * self.proofs

    def bytes(self, jobs):
        """About how much memory its proof takes at most."""
        return (GIGABYTE + 1_000_000 * self.code + 200_000 * self.proofs) * (1 + 0.6 * (jobs - 1))


def busy(jobs):
    """About how many processors a check with that many jobs keeps busy: parts of it are done by one."""
    return (1 + jobs) / 2


@dataclass(frozen=True)
class Machine:
    """Processors, and bytes of free memory."""

    processors: int
    memory: float


@dataclass
class Plan:
    """Which libraries are to be proved, and how far that is."""

    crates: dict
    done: set = field(default_factory=set)
    running: dict = field(default_factory=dict)

    def __post_init__(self):
        # The seconds of the longest chain of crates that begins with each.
        self.behind = {}
        for name in reversed(self.in_order()):
            above = [self.behind[it.name] for it in self.crates.values() if name in it.needs]
            self.behind[name] = self.crates[name].seconds() + max(above, default=0)

    def in_order(self):
        """The names, each behind those that it needs."""
        order = []

        def put(name, above):
            if name in above:
                raise SystemExit(f"crates.txt: {name} needs itself")
            for it in self.crates[name].needs:
                put(it, (*above, name))
            if name not in order:
                order.append(name)

        for name in self.crates:
            put(name, ())
        return order

    def below(self, name):
        """The crates that it needs, and those that they need."""
        found, left = set(), list(self.crates[name].needs)
        while left:
            it = left.pop()
            if it not in found:
                found.add(it)
                left += self.crates[it].needs
        return found

    def is_done(self):
        return len(self.done) == len(self.crates)

    def ready(self):
        """The crates that can begin now, the longest chain first."""
        waiting = [
            it for it in self.crates.values() if it.name not in self.done and it.name not in self.running
        ]
        found = [it for it in waiting if self.done.issuperset(it.needs)]
        return sorted(found, key=lambda it: -self.behind[it.name])

    def is_on_chain(self, name):
        """Whether no crate that is left has a longer chain behind it."""
        return all(self.behind[it] <= self.behind[name] for it in self.crates if it not in self.done)

    def choose(self, machine):
        """The next crate to begin and how many jobs it gets, or None."""
        ready = self.ready()
        room = machine.memory - sum(self.crates[it].bytes(jobs) for it, jobs in self.running.items())
        idle = machine.processors - sum(busy(jobs) for jobs in self.running.values())
        for it in ready:
            is_alone = len(ready) == 1 or self.is_on_chain(it.name)
            jobs = min(MOST_JOBS, machine.processors) if is_alone else 1
            while jobs > 1 and (it.bytes(jobs) > room or busy(jobs) > idle):
                jobs -= 1
            if idle >= 0.5 and it.bytes(jobs) <= room or not self.running:
                return it.name, jobs
        return None

    def begin(self, name, jobs):
        self.running[name] = jobs

    def end(self, name):
        del self.running[name]
        self.done.add(name)

    def seconds_left(self, machine, pace, gone):
        """About how long the rest takes. `pace` is how many seconds a guessed one takes, `gone` how long each crate has run."""
        plan = Plan.__new__(Plan)
        plan.crates, plan.behind = self.crates, self.behind
        plan.done, plan.running = set(self.done), dict(self.running)
        left = {
            it: max(plan.crates[it].seconds() * pace / busy(jobs) - gone.get(it, 0), 1)
            for it, jobs in plan.running.items()
        }
        total = 0.0
        while not plan.is_done():
            while chosen := plan.choose(machine):
                plan.begin(*chosen)
                left[chosen[0]] = plan.crates[chosen[0]].seconds() * pace / busy(chosen[1])
            first = min(left, key=left.get)
            step = left.pop(first)
            total += step
            left = {it: rest - step for it, rest in left.items()}
            plan.end(first)
        return total


def cache_of(root):
    """The folder of the copies of this checkout."""
    cache = os.environ.get("XDG_CACHE_HOME") or os.path.expanduser("~/.cache")
    return pathlib.Path(cache) / "confluo" / f"prove-{hashlib.sha256(str(root).encode()).hexdigest()[:12]}"


def link_or_copy(one, other):
    try:
        os.link(one, other)
    except OSError:
        shutil.copyfile(one, other)


class Prover:
    """Runs `rt lib`. It locks the folders of a crate and of all below it, so each crate is proved in a small copy of the repository
    that has these crates' texts and the built libraries. What was made goes back into crates/CRATE/out. The copies are in a cache,
    since `rt ci` allows no such files within the repository."""

    def __init__(self, root=ROOT, place=None, logs=LOGS):
        self.root, self.place, self.logs, self.runs = root, place or cache_of(root), logs, {}
        for it in (self.place, logs):
            it.mkdir(parents=True, exist_ok=True)
        self.lines = {
            it.split(":")[0].split()[0]: it
            for it in (root / "crates.txt").read_text().splitlines()
            if ":" in it
        }

    def log_of(self, name):
        return self.logs / f"{name}.log"

    def prepare(self, name, below):
        """Makes the copy. What an interrupted run left in it stays."""
        copy = self.place / name
        for it in (*below, name):
            crate, to = self.root / "crates" / it, copy / "crates" / it
            for part in PARTS:
                shutil.rmtree(to / part, ignore_errors=True)
                if (crate / part).is_dir():
                    shutil.copytree(crate / part, to / part)
            shutil.rmtree(to / "out" / "rlib", ignore_errors=True)
            if (crate / "out" / "rlib").is_dir():
                shutil.copytree(crate / "out" / "rlib", to / "out" / "rlib", copy_function=link_or_copy)
        lines = [it for crate, it in self.lines.items() if crate in below or crate == name]
        (copy / "crates.txt").write_text("".join(f"{it}\n" for it in lines))
        return copy / "crates" / name

    def bring_back(self, name):
        """Puts what was made into the crate's own out/, under the lock that `rt` takes there, and removes the copy."""
        made, out = self.place / name / "crates" / name / "out", self.root / "crates" / name / "out"
        held = os.open(out.parent, os.O_RDONLY)
        try:
            fcntl.flock(held, fcntl.LOCK_EX)
            out.mkdir(exist_ok=True)
            for it in made.iterdir():
                to = out / it.name
                if to.is_dir():
                    shutil.rmtree(to)
                shutil.move(it, to)
        finally:
            os.close(held)
        shutil.rmtree(self.place / name)

    def begin(self, name, jobs, is_first, below):
        """Begins a crate. Those that are not on the longest chain give way to it."""
        words = [*([] if is_first else ["nice", "-n", "5"]), "rt", "lib", "--jobs", str(jobs)]
        folder = self.prepare(name, below)
        with open(self.log_of(name), "wb") as log:
            self.runs[name] = subprocess.Popen(
                words,
                cwd=folder,
                stdin=subprocess.DEVNULL,
                stdout=log,
                stderr=log,
                start_new_session=True,
            )

    def ended(self):
        """The crates that ended since the last call, and whether each is proved. It waits a little if there is none."""
        found = [(name, it.returncode == 0) for name, it in self.runs.items() if it.poll() is not None]
        for name, is_proved in found:
            del self.runs[name]
            if is_proved:
                self.bring_back(name)
        if not found:
            time.sleep(0.3)
        return found

    def stop(self):
        """Ends what still runs, and returns once it has ended. A second Ctrl-C does not cut it short."""
        signal.signal(signal.SIGINT, signal.SIG_IGN)
        for how in (signal.SIGINT, signal.SIGKILL):
            for it in self.runs.values():
                if it.poll() is None:
                    os.killpg(it.pid, how)
            end = time.monotonic() + 10
            while any(it.poll() is None for it in self.runs.values()) and time.monotonic() < end:
                time.sleep(0.1)

    def last_lines(self, name):
        return self.log_of(name).read_text(errors="replace").splitlines()[-15:]


class Progress:
    """The line that moves on: on a terminal one line that is written again, elsewhere a line for each crate that is done."""

    def __init__(self, out, clock):
        self.out, self.clock, self.began, self.told = out, clock, clock(), 0.0
        self.is_terminal = out.isatty()

    def tell(self, plan, left, names=""):
        """Says how far it is. `left` gives the seconds that are left."""
        now = self.clock()
        if not names and (not self.is_terminal or now - self.told < 1):
            return
        self.told = now
        text = f"{len(plan.done)} of {len(plan.crates)} libraries proved, {minutes(now - self.began)} gone"
        if not plan.is_done():
            text += f", {minutes(left())} left"
        text += f": {names or ', '.join(plan.running)}"
        self.out.write(f"\r\x1b[K{text[:150]}" if self.is_terminal else f"{text}\n")
        self.out.flush()

    def end(self):
        if self.is_terminal:
            self.out.write("\n")


def minutes(seconds):
    count = round(seconds / 60)
    return "less than a minute" if seconds < 30 else f"about {count} minute{'s' * (count != 1)}"


def prove(plan, prover, machine, out=sys.stdout, clock=time.monotonic):
    """Proves the crates of the plan and returns those that were not proved: none, or the first to fail."""
    began, guessed, taken, is_begun = {}, 0.0, 0.0, set()
    progress = Progress(out, clock)

    def left():
        pace = taken / guessed if guessed else 1.0
        return plan.seconds_left(machine, pace, {it: clock() - began[it] for it in plan.running})

    while not plan.is_done():
        while chosen := plan.choose(machine):
            name, jobs = chosen
            prover.begin(name, jobs, plan.is_on_chain(name), plan.below(name))
            plan.begin(name, jobs)
            began[name] = clock()
            is_begun.add(name)
        progress.tell(plan, left)
        for name, is_proved in prover.ended():
            if not is_proved:
                progress.end()
                return [name]
            guessed += plan.crates[name].seconds() / busy(plan.running[name])
            taken += clock() - began[name]
            plan.end(name)
            progress.tell(plan, left, name)
    progress.end()
    return []


def libraries(root, names=()):
    """The libraries that the named crates need, and of these the libraries; all of crates.txt without names."""
    needs = {
        crate: it
        for _, crates in crate_table.layers_of((root / "crates.txt").read_text())
        for crate, it in crates
    }
    lacking = [it for it in names if it not in needs]
    if lacking:
        raise SystemExit(f"prove.py: crates.txt has no crate {lacking[0]}")
    wanted, left = set(), list(names or needs)
    while left:
        crate = left.pop()
        if crate not in wanted:
            wanted.add(crate)
            left += [it for it in needs[crate] if it in needs]
    is_library = {it: (root / "crates" / it / "src" / "lib.rt").exists() for it in wanted}
    return {it: crate_of(root, it, needs) for it in needs if it in wanted and is_library[it]}


def crate_of(root, name, needs):
    folder = root / "crates" / name
    count = {".rt": 0, ".antt": 0}
    for file in folder.rglob("*"):
        if (
            file.suffix in count
            and "out" not in file.relative_to(folder).parts
            and not file.name.startswith("tests")
        ):
            count[file.suffix] += file.read_bytes().count(b"\n")
    return Crate(name, tuple(it for it in needs[name] if it in needs), count[".rt"], count[".antt"])


def number_in(file, pattern):
    try:
        return int(re.search(pattern, pathlib.Path(file).read_text())[1])
    except (OSError, TypeError, ValueError):
        return None


def this_machine(processors=None):
    """What may be used here: by the quota of the control group too."""
    count = len(os.sched_getaffinity(0))
    quota = number_in("/sys/fs/cgroup/cpu.max", r"^(\d+)")
    period = number_in("/sys/fs/cgroup/cpu.max", r"^\d+ (\d+)")
    if quota and period:
        count = min(count, max(quota // period, 1))
    memory = [1024 * (number_in("/proc/meminfo", r"MemAvailable:\s+(\d+)") or 4_000_000)]
    limit, held = (number_in(f"/sys/fs/cgroup/memory.{it}", r"^(\d+)") for it in ("max", "current"))
    if limit and held is not None:
        memory.append(limit - held)
    return Machine(processors or count, 0.85 * min(memory))


def interrupted(_number, _frame):
    raise KeyboardInterrupt


def main():
    parser = argparse.ArgumentParser(
        description=__doc__, formatter_class=argparse.RawDescriptionHelpFormatter
    )
    parser.add_argument("--processors", type=int, metavar="N", help="use so many processors in place of all")
    parser.add_argument("--list", action="store_true", help="print the order, and prove nothing")
    parser.add_argument("crates", nargs="*", metavar="CRATE")
    words = parser.parse_args()
    plan, machine = Plan(libraries(ROOT, words.crates)), this_machine(words.processors)
    if words.list:
        for name in sorted(plan.crates, key=lambda it: -plan.behind[it]):
            print(f"{plan.behind[name] / 60:5.1f} minutes with what is above it: {name}")
        print(f"{len(plan.crates)} libraries, {minutes(plan.seconds_left(machine, 1, {}))} from nothing")
        return 0
    signal.signal(signal.SIGTERM, interrupted)
    prover = Prover()
    try:
        failed = prove(plan, prover, machine)
    except KeyboardInterrupt:
        prover.stop()
        print(
            f"\nInterrupted with {len(plan.done)} of {len(plan.crates)} libraries proved. The next run goes on from there."
        )
        return 130
    prover.stop()
    for name in failed:
        print("\n".join(prover.last_lines(name)))
        print(f"{name} is not proved: {LOGS / name}.log has all that was said")
    return 1 if failed else 0


if __name__ == "__main__":
    sys.exit(main())
