"""Counts rows: the tests of pytest, of which some run other tests, and the rows of the scripts *.sh."""

import re

from program import ALL, SLOW


def of_script(output, status):
    """How many rows of a script passed and failed, and the reasons of what it skipped. The last line of its output has
    its counts, with which its status must agree."""
    reasons = re.findall("^SKIPPED: (.*)", output, re.M)
    counts = re.search(r"^(\d+) passed, (\d+) failed, \d+ skipped\n\Z", output, re.M)
    if not counts:
        return 0, 1, reasons
    passed, failed = map(int, counts.groups())
    if (failed == 0) != (status == 0):
        failed += 1
    return passed, failed, reasons


def properties(report, name):
    """The values that a test has recorded under this name."""
    recorded = getattr(report, "user_properties", ())
    return [value for key, value in recorded if key == name]


def number(reports, name, otherwise):
    """How many rows these tests ran: a test that runs other rows says so under this name, any other counts as given."""
    total = 0
    for report in reports:
        values = properties(report, name)
        total += values[0] if values else otherwise
    return total


def of_reports(passed, failed, skipped):
    """The same of the reports of pytest. A test that runs other rows has properties for them."""
    reasons = [report.longrepr[2].removeprefix("Skipped: ") for report in skipped]
    for report in [*passed, *failed]:
        reasons += properties(report, "skipped")
    rows_passed = number(passed, "passed", 1) + number(failed, "passed", 0)
    rows_failed = number(failed, "failed", 1)
    return rows_passed, rows_failed, reasons


def needs_kit(reason):
    """Whether a skipped row needs the kit, or the program that it builds."""
    return re.search(r"\bno (rt|program of the kit)\b", reason) is not None


def summary(passed, failed, reasons):
    """The last lines of a run."""
    slow = reasons.count(SLOW)
    skipped = len(reasons) - slow
    ran = passed + failed
    text = f"{passed} passed, {failed} failed, {skipped} skipped"
    if slow:
        later = "make evidence" if ALL else "KEYWRAP_ALL=1 make test"
        text += f", {slow} slow left to {later}"
    if skipped:
        of_kit = sum(map(needs_kit, reasons))
        hint = "make packages installs what the rest needs: out/skipped"
        text = f"{ran:,} of {ran + skipped:,} rows ran; {of_kit} of the others need the kit, {hint}\n{text}"
    return text
