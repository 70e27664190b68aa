"""What ./build and ./test share: the crates, how much of the machine they may use, and a line of progress."""

import os
import resource
import subprocess
import sys
import time

ROOT = os.path.dirname(os.path.dirname(os.path.dirname(os.path.realpath(__file__))))
# For a rough estimate: the seconds for loading the libraries below a crate, and the lines of source proved per second.
LOADING_SECONDS = 20
LINES_PER_SECOND = 5


def libraries():
    """Returns for each crate the libraries that crates.txt names, lowest crate first."""
    named, ordered = {}, {}
    with open(f"{ROOT}/crates.txt") as file:
        for line in file:
            name, colon, listed = line.split("#")[0].partition(":")
            if colon:
                named[name.strip()] = listed.split()

    def visit(name):
        if name in named and name not in ordered:
            for library in named[name]:
                visit(library)
            ordered[name] = named[name]

    for name in named:
        visit(name)
    return ordered


def seconds():
    """Returns for each crate the processor seconds that proving it from scratch takes: as ./build measured them in this
    copy of the repository, or else as estimated from the size of the crate."""
    return {name: measured_seconds(name) or estimated_seconds(name) for name in libraries()}


def seconds_file(name):
    return f"{ROOT}/crates/{name}/out/seconds"


def measured_seconds(name):
    try:
        with open(seconds_file(name)) as file:
            return int(file.read())
    except (OSError, ValueError):
        return None


def estimated_seconds(name):
    """Returns an estimate by the lines of source."""
    lines = 0
    for folder, _, names in os.walk(f"{ROOT}/crates/{name}/src"):
        for path in names:
            with open(f"{folder}/{path}") as file:
                lines += sum(1 for line in file)
    return LOADING_SECONDS + lines // LINES_PER_SECOND


def below(name, named):
    """Returns the crates of this repository that a crate builds on, lowest first."""
    found = {crate for own in named[name] if own in named for crate in [own, *below(own, named)]}
    return [crate for crate in named if crate in found]


def kit_version():
    return subprocess.run(["rt", "version"], capture_output=True, text=True).stdout.strip()


def lanes(memory, each=1.0):
    """Returns how many checks to run side by side: `each` per processor, but no more than fit into the free memory if
    each needs `memory` bytes."""
    with open("/proc/meminfo") as file:
        free = next(1024 * int(line.split()[1]) for line in file if line.startswith("MemAvailable:"))
    return max(1, min(int(each * len(os.sched_getaffinity(0))), free // memory))


def processor_time():
    """Returns the processor seconds of all commands that have ended."""
    used = resource.getrusage(resource.RUSAGE_CHILDREN)
    return used.ru_utime + used.ru_stime


def clock(seconds):
    return f"{int(seconds) // 60} min {int(seconds) % 60} s"


class Progress:
    """A line on standard error that says how far the work is. A terminal shows only the latest one."""

    def __init__(self, name):
        self.name, self.start, self.shown, self.is_terminal = name, time.monotonic(), "", sys.stderr.isatty()

    def show(self, text):
        line = f"{self.name}: {text}, {clock(time.monotonic() - self.start)}"
        if self.is_terminal:
            print(f"\r{line}\033[K", end="", file=sys.stderr, flush=True)
        elif text != self.shown:
            print(line, file=sys.stderr, flush=True)
        self.shown = text

    def say(self, text):
        """Prints a line that stays."""
        self.end()
        print(f"{self.name}: {text}", file=sys.stderr, flush=True)

    def end(self):
        if self.is_terminal and self.shown:
            print(file=sys.stderr)
        self.shown = ""
