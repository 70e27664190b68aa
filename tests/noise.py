#!/usr/bin/env python3
"""Runs the program on random arguments, timer files and zone files.

    tests/noise.py PROGRAM

No run may crash, hang, or end with a status other than 0, 1 or 2. If the status is 0, standard error has to be empty.
Otherwise each of its lines ends in a message that the manual page explains, or it is the text of `clap`. The seed is fixed,
so a run that fails can be repeated: its arguments and its file are printed. The last line is 'N passed, M failed', one for
each kind of noise, and the status is 1 if one failed."""

import os
import random
import re
import subprocess
import sys
import tempfile
from concurrent.futures import ThreadPoolExecutor

PAGE = os.path.join(os.path.dirname(os.path.realpath(__file__)), "../man/calendar-analyze.1")
RUNS = 6_000  # of each kind
TIMEOUT = 10
# Arguments and lines are made of pieces of valid ones.
PIECES = (
    "* - ~ , .. / : . 0 1 7 12 23 59 60 99 1970 2024 2199 2200 Mon Fri Sun mon..fri daily hourly weekly UTC utc Test/Fixed Mars/One "
    "+5min -1h ago left @0 @1704067200 now today yesterday tomorrow 1y 2month 3w 4d 5h 6m 7s 8ms 9us 1.5 infinity 2024-02-29 "
    "00:00 23:59:59 01:02:03.5 [Timer] [Unit] OnCalendar= OnBootSec= # ; \\ = --iterations=3 --now=@0 --local=+01:00 "
    "--local=posix:CET-1CEST,M3.5.0,M10.5.0/3 --base-time=@5 --zones=A=zone -- --help --version"
).split(" ")
VERBS = ["calendar", "timestamp", "timespan", "timer"]
ELAPSES = ["--iterations=3", "--now=@1704067200"]
TIMER = b"[Unit]\nDescription=x\n[Timer]\nOnCalendar=daily\nOnBootSec=\nOnCalendar=Mon \\\n# the minutes\n  *:0/30\nOnCalendar=hourly\n"
TZIF_BLOCK = b"TZif2" + bytes(31) + b"\0\0\0\1\0\0\0\4\0\0\x0e\x10\0\0CET\0"
ZONE = TZIF_BLOCK + TZIF_BLOCK + b"\nCET-1\n"


def text(source):
    """Returns pieces of valid texts, sometimes with a random character between them."""
    made = "".join(source.choice(PIECES) + source.choice(["", "", " ", "-", ":"]) for _ in range(source.randrange(6)))
    if source.random() < 0.3:
        at = source.randrange(len(made) + 1)
        made = made[:at] + chr(source.choice([source.randrange(1, 128), source.randrange(128, 0x800), 0xFEFF])) + made[at:]
    return made


def damaged(source, valid):
    """Returns a file with some bytes changed, removed, inserted, repeated or cut off."""
    data = bytearray(valid)
    for _ in range(source.randrange(1, 8)):
        at = source.randrange(len(data) + 1)
        how = source.randrange(5)
        if how == 0:
            data[at : at + 1] = source.randbytes(1)
        elif how == 1:
            del data[at : at + source.randrange(9)]
        elif how == 2:
            data[at:at] = source.randbytes(source.randrange(9))
        elif how == 3:
            data[at:at] = data[: source.randrange(40)]
        else:
            del data[at:]
    return bytes(data)


# ## Kinds of noise: each returns arguments, among them NOISE for the path of a file, and what is in the file


def random_arguments(source):
    verb = [source.choice(VERBS)] if source.random() < 0.9 else []
    return verb + [text(source) for _ in range(source.randrange(5))], b""


def random_timer(source):
    lines = "\n".join(text(source) for _ in range(source.randrange(12)))
    data = damaged(source, TIMER) if source.random() < 0.5 else f"[Timer]\nOnCalendar={lines}".encode()
    return ["timer", *ELAPSES, "NOISE"], data


def random_zone(source):
    return ["calendar", *ELAPSES, "--zones=A=NOISE", "--local=A", "daily"], damaged(source, ZONE)


def known_errors():
    """Returns a pattern of all that the program may print on standard error."""
    with open(PAGE, encoding="utf-8") as page:
        section = page.read().partition(".SH DIAGNOSTICS")[2].replace("\\-", "-")
    messages = "|".join(map(re.escape, re.findall(r'^\.T[PQ]\n\.BI? "?([^"\n]+)', section, re.M)))
    clap = r"error: .*\n\nFor more information, try '--help'\.\n|.*Usage: .*"
    return re.compile(rf"(?s)(?:(?:.*?: (?:bad time span: )?(?:{messages})\n)+|{clap})\Z".encode())


def fault(program, scratch, errors, make, number):
    """Does one run and returns what is wrong with it, or None."""
    arguments, data = make(random.Random(f"{make.__name__} {number}"))
    with tempfile.NamedTemporaryFile(dir=scratch) as file:
        file.write(data)
        file.flush()
        arguments = [argument.replace("NOISE", file.name) for argument in arguments]
        try:
            ended = subprocess.run([program, *arguments], cwd=scratch, stdin=subprocess.DEVNULL, capture_output=True, timeout=TIMEOUT)
        except subprocess.TimeoutExpired:
            return f"{arguments} over {data!r}: no end in {TIMEOUT} seconds"
    if ended.returncode in (1, 2) and errors.match(ended.stderr) or ended.returncode == 0 and not ended.stderr:
        return None
    return f"{arguments} over {data!r}: status {ended.returncode}, {ended.stderr!r}"


def main():
    if len(sys.argv) != 2 or not os.access(sys.argv[1], os.X_OK):
        print("usage: tests/noise.py PROGRAM", file=sys.stderr)
        return 2
    program, errors, failed = os.path.realpath(sys.argv[1]), known_errors(), 0
    kinds = [random_arguments, random_timer, random_zone]
    with tempfile.TemporaryDirectory(prefix="noise-") as scratch, ThreadPoolExecutor() as pool:
        for make in kinds:
            results = pool.map(lambda number: fault(program, scratch, errors, make, number), range(RUNS))
            faults = [result for result in results if result]
            for line in faults[:5]:
                print(f"tests/noise.py: {line}")
            failed += bool(faults)
    print(f"{len(kinds) - failed} passed, {failed} failed")
    return 1 if failed else 0


sys.exit(main())
