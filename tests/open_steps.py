#!/usr/bin/env python3
"""Compares what `calendar-timers lint` says that systemd 252 computes wrongly because of steps without an end, such as
`0/7`, with what systemd-analyze 252 prints.

    tests/open_steps.py [TIMERS]

`loses_elapses` and the functions `fails_*` are the rule of crates/cal_lint/specs/rules/OpenSteps.antt. In UTC,
systemd-analyze has to leave out an elapse exactly if the rule says so. In zones whose clocks change, it has to fail
exactly if the rule says so for hours, and only if it does for days and months. The same expressions with ranges have to
elapse as the manual says. TIMERS, which is calendar-timers, has to warn of exactly the components of which the rule says
so, for all starts and steps, and to suggest ranges that match the same. The zones need the package tzdata. The last line
is 'N passed, M failed', and the status is 1 if one failed. If there is no systemd-analyze 252, nothing is compared, and
the line ends in ', 1 skipped'."""

import json
import os
import random
import shutil
import subprocess
import sys
import tempfile
from concurrent.futures import ThreadPoolExecutor
from datetime import datetime, timedelta

FIRST = {"month": 1, "day": 1, "hour": 0, "minute": 0, "second": 0}
LAST = {"month": 12, "day": 31, "hour": 23, "minute": 59, "second": 59}

# For each field: the unit in which time advances, and two moments. Between them lie all elapses that can be lost.
WINDOWS = {
    "second": (timedelta(seconds=1), datetime(2024, 1, 1, 0, 58, 30), datetime(2024, 1, 1, 1, 1)),
    "minute": (timedelta(minutes=1), datetime(2024, 1, 1, 22, 30), datetime(2024, 1, 2, 1, 0)),
    "hour": (timedelta(hours=1), datetime(2024, 1, 30, 12), datetime(2024, 2, 2)),
    "day": (timedelta(days=1), datetime(2023, 11, 20), datetime(2024, 3, 10)),
}


class Component:
    """A component of an expression: the field, whether days are counted from the month's end, and the parts. A part is
    a start, an end or None, and a step or None."""

    def __init__(self, field, parts, from_end=False):
        self.field, self.parts, self.from_end = field, parts, from_end

    def called(self, number):
        """Returns the number in the component for a number of the field: for days from the month's end, the count of
        the day in a month of 31 days."""
        return 32 - number if self.from_end else number

    def values(self):
        """Returns the numbers, or counts from the month's end, that the manual says match."""
        found = set()
        for start, end, step in self.parts:
            if end is not None:
                found |= set(range(start, end + 1, step or 1))
            elif step is None:
                found.add(start)
            elif self.from_end:
                found |= set(range(start, 0, -step))
            else:
                found |= set(range(start, LAST[self.field] + 1, step))
        return found

    def closed(self):
        """Returns the component with ranges in place of steps without an end."""
        parts = []
        for start, end, step in self.parts:
            if end is not None or step is None:
                parts.append((start, end, step))
            elif self.from_end:
                parts.append(((start - 1) % step + 1, start, step))
            else:
                parts.append((start, LAST[self.field], step))
        return Component(self.field, parts, self.from_end)

    def text(self):
        texts = []
        for start, end, step in self.parts:
            text = str(start) + (f"..{end}" if end is not None else "") + (f"/{step}" if step else "")
            texts.append(text)
        return ",".join(texts)

    def expression(self):
        sign = "~" if self.from_end else "-"
        forms = {
            "month": "*-{}-01",
            "day": "*-*" + sign + "{}",
            "hour": "{}:00",
            "minute": "*:{}",
            "second": "*:*:{}",
        }
        return forms[self.field].format(self.text())


# ## The rule


def resumes_at(component):
    """Returns the number of the next unit at which the search goes on because of a step without an end, or None."""
    first, last = FIRST[component.field], LAST[component.field]
    steps = [(component.called(start), step) for start, end, step in component.parts if end is None and step]
    if component.field != "second" and component.called(last) in component.values():
        return None
    count = last - first + 1
    for number in range(first, last + 1):
        if any((number + count - start) % step == 0 for start, step in steps):
            return number
    return None


def loses_elapses(component):
    number = resumes_at(component)
    return number is not None and min(component.called(value) for value in component.values()) < number


def fails_at_changes(component):
    number = resumes_at(component)
    return number is not None and (component.field == "day" or FIRST[component.field] < number)


def fails_at_midnight_changes(component):
    return resumes_at(component) is not None


# ## What systemd-analyze prints


def elapses(expression, zone, base, count):
    """Returns the first elapses after `base` in local time, or None if systemd-analyze fails."""
    environment = {"PATH": os.environ["PATH"], "TZ": zone, "LC_ALL": "C.UTF-8"}
    command = ["systemd-analyze", "calendar", f"--iterations={count}", f"--base-time={base}", "--", expression]
    run = subprocess.run(command, env=environment, stdout=subprocess.PIPE, stderr=subprocess.DEVNULL, text=True)
    if run.returncode != 0:
        return None
    found = []
    for line in run.stdout.splitlines():
        label, _, rest = line.strip().partition(": ")
        if (label == "Next elapse" or label.startswith("Iter. #")) and rest.strip() != "never":
            _, date, time, _ = rest.split()
            found.append(f"{date} {time}")
    return found


def expected(component):
    """Returns the base, and the elapses in the field's window, according to the manual."""
    unit, base, end = WINDOWS[component.field]
    values, found, moment = component.values(), [], base + unit
    while moment < end:
        number = getattr(moment, component.field)
        if component.from_end:
            following = (moment.replace(day=28) + timedelta(days=4)).replace(day=1)
            number = (following - moment).days
        if number in values:
            found.append(str(moment))
        moment += unit
    return base, found


# ## Checks: each returns what is wrong, or None


def check_losses(component):
    base, wanted = expected(component)
    found = elapses(component.expression(), "UTC", base, len(wanted))
    if found is None:
        return "systemd-analyze fails"
    if (found != wanted) != loses_elapses(component):
        return f"the rule says {loses_elapses(component)}, and systemd-analyze prints {found}"
    if set(wanted) & set(found) != {moment for moment in found if moment <= wanted[-1]}:
        return "systemd-analyze adds elapses"
    if elapses(component.closed().expression(), "UTC", base, len(wanted)) != wanted:
        return f"{component.closed().expression()} isn't computed correctly"
    return None


def check_zone(component, zone, base, has_to_fail, may_fail):
    """Checks 40 elapses in a zone whose clock changes."""
    found = elapses(component.expression(), zone, base, 40)
    closed = elapses(component.closed().expression(), zone, base, 40)
    if closed is None:
        return f"{component.closed().expression()} fails in {zone}"
    if found is not None and has_to_fail:
        return f"doesn't fail in {zone}"
    if found != closed and not may_fail:
        return f"differs in {zone}"
    return None


def check_hours(component):
    """London's clock is set forward at 01:00, Havana's at midnight."""
    fails, midnight = fails_at_changes(component), fails_at_midnight_changes(component)
    return check_zone(component, "Europe/London", "2024-03-29", fails, fails) or check_zone(
        component, "America/Havana", "2024-03-08", midnight, midnight
    )


def check_days(component):
    """The clocks change from September 2 to 8 in Santiago, and from October 1 to 7 in Sydney."""
    may_fail = fails_at_changes(component)
    return check_zone(component, "America/Santiago", "2024-08-20", False, may_fail) or check_zone(
        component, "Australia/Sydney", "2026-09-20", False, may_fail
    )


def check_months(component):
    """Berlin has summer time on the first day of April and of later months up to October. The search goes on in a month
    from January to November, and returns to January; that fails from April on."""
    number = resumes_at(component)
    has_to_fail = number is not None and 4 <= number <= 10
    return check_zone(component, "Europe/Berlin", "2024-01-01", has_to_fail, fails_at_changes(component))


# ## What calendar-timers says


# How many expressions a timer has. It may have 256.
LISTED = 250


def is_reported(component):
    """Returns whether lint has to warn of the component."""
    loses = component.field != "month" and loses_elapses(component)
    return loses or (component.field in ["month", "day", "hour"] and fails_at_changes(component))


def problems(timers, components, zone):
    """Yields for each problem that lint reports in a zone the place of the component in the list, the message, and the
    suggestion."""
    with tempfile.TemporaryDirectory() as folder:
        for first in range(0, len(components), LISTED):
            lines = [f"OnCalendar={component.expression()}\n" for component in components[first : first + LISTED]]
            with open(f"{folder}/{first}.timer", "w") as file:
                file.writelines(["[Timer]\n", *lines])
        command = [timers, "lint", "--json", f"--zone={zone}", "--now=@1704067200", folder]
        run = subprocess.run(command, stdout=subprocess.PIPE, text=True)
        for row in json.loads(run.stdout):
            if row["line"] is not None:
                first = int(os.path.basename(row["file"]).removesuffix(".timer"))
                yield first + row["line"] - 2, row["message"], row["suggestion"]


def suggestions(timers, components):
    """Returns what lint suggests for the components of which it warns in each zone, by their places in the list."""
    messages = ("systemd 252 loses ", "systemd 252 may fail before ")
    return {
        place: suggestion
        for place, message, suggestion in problems(timers, components, "UTC")
        if message.startswith(messages)
    }


def check_midnight(timers):
    """Yields for each component of the hours what is wrong with what lint says of midnights that clocks skip, or None.
    Havana's clock skips some, and London's doesn't."""
    components = steps("hour")
    for zone, may_warn in [("America/Havana", True), ("Europe/London", False)]:
        start = "systemd 252 may fail where the clock is set forward at midnight"
        found = {place for place, message, _ in problems(timers, components, zone) if message.startswith(start)}
        for place, component in enumerate(components):
            wanted = may_warn and fails_at_midnight_changes(component) and not is_reported(component)
            says = "warns" if place in found else "says nothing"
            yield None if (place in found) == wanted else f"{component.expression()}: lint {says} in {zone}"


def normal_forms(expressions):
    """Returns the normal forms that systemd-analyze prints, without those that it rejects."""
    run = subprocess.run(["systemd-analyze", "calendar", "--", *expressions], stdout=subprocess.PIPE, text=True)
    return [line.partition(": ")[2] for line in run.stdout.splitlines() if line.strip().startswith("Normalized form: ")]


def check_program(timers):
    """Yields for each component what is wrong with what lint says of it, or None."""
    components = [component for field in LAST for component in steps(field)] + steps_from_end()
    found = suggestions(timers, components)
    reported = [(component, found[place]) for place, component in enumerate(components) if place in found]
    for place, component in enumerate(components):
        is_right = (place in found) == is_reported(component)
        yield None if is_right else f"{component.expression()}: lint {'warns' if place in found else 'says nothing'}"
    for first in range(0, len(reported), LISTED):
        some = reported[first : first + LISTED]
        wanted = normal_forms([component.closed().expression() for component, _ in some])
        if normal_forms([suggestion or "none" for _, suggestion in some]) != wanted:
            yield f"some suggestions from {some[0][0].expression()} to {some[-1][0].expression()} are wrong"


# ## Expressions


def steps(field):
    """Returns all components of one step without an end."""
    last = LAST[field]
    return [
        Component(field, [(start, None, step)])
        for start in range(FIRST[field], last)
        for step in range(1, last - start + 1)
    ]


def steps_from_end():
    return [Component("day", [(start, None, step)], True) for start in range(2, 29) for step in range(1, start)]


def random_list(field):
    """Returns a random component of two or three parts, at least one of which is a step without an end."""
    last, parts = LAST[field], []
    for form in ["a/r"] + random.choices(["a", "a/r", "a..b", "a..b/r"], k=random.choice([1, 2])):
        start, end = sorted(random.sample(range(FIRST[field], last + 1), 2))
        step = random.randint(1, end - start)
        parts.append((start, end if ".." in form else None, step if "/" in form else None))
    return Component(field, parts)


def sampled(components, count):
    return random.sample(components, min(count, len(components)))


def checks():
    """Returns pairs of a check and a component."""
    random.seed(252)
    for field, count in [("second", 200), ("minute", 200), ("hour", 200), ("day", 200)]:
        lists = [random_list(field) for _ in range(50)]
        yield from ((check_losses, component) for component in sampled(steps(field), count) + lists)
    yield from ((check_losses, component) for component in sampled(steps_from_end(), 150))
    yield from ((check_hours, component) for component in sampled(steps("hour"), 60))
    yield from ((check_days, component) for component in sampled(steps("day"), 30))
    yield from ((check_months, component) for component in steps("month"))


def is_installed():
    if shutil.which("systemd-analyze") is None:
        return False
    run = subprocess.run(["systemd-analyze", "--version"], stdout=subprocess.PIPE, text=True)
    return run.stdout.startswith("systemd 252 ")


def main(timers=None):
    if not is_installed():
        print("tests/open_steps.py: nothing compared, since there is no systemd-analyze 252")
        print("0 passed, 0 failed, 1 skipped")
        return 0
    work, failed = list(checks()), 0
    with ThreadPoolExecutor(os.cpu_count()) as pool:
        results = pool.map(lambda item: item[0](item[1]), work)
        for (_, component), wrong in zip(work, results, strict=True):
            if wrong:
                failed += 1
                print(f"tests/open_steps.py: {component.expression()}: {wrong}")
    said = [*check_program(timers), *check_midnight(timers)] if timers else []
    for wrong in filter(None, said):
        failed += 1
        print(f"tests/open_steps.py: {wrong}")
    print(f"{len(work) + len(said) - failed} passed, {failed} failed")
    return 1 if failed else 0


sys.exit(main(*sys.argv[1:]))
