"""What a run before a search means, and why a search has no answer: the sentences that a user gets."""
from __future__ import annotations

import os
from typing import Sequence

from culprit_lib import many, plain, ratio
from culprit_report import undecided
from culprit_runs import Job
from culprit_search import Attempt, Event, Plan, Search
from culprit_shown import hidden_reason, named

DOUBT = 1_000  # GOOD counts as failing where flakes alone explain its fails in fewer than one of so many cases


# ---- GOOD and BAD ---------------------------------------------------------------------------------------------------

def passed_at_bad(plan: Plan) -> str:
    """What a pass at BAD means."""
    passed = f"the test passed at BAD ({plan['bad']['short']})"
    if plan["numbers"]["misses"][0]:
        return f"{passed}, as a broken one does at times, by the miss rate given: the search decides"
    return (f"{passed}. Where a broken test always fails, nobody in {plan['range']} is to blame, and the search will "
            "say so. Where it passes at times, say how often (--misses). Or does the command test something else, as "
            "your own folder, by a whole path in a variable or by what pip install -e left?")


def failed_at_good(plan: Plan, fails: Sequence[Event], output: str) -> str:
    """What fails at GOOD mean, with the last lines that the command wrote into a file."""
    status, seconds, count = fails[-1]["status"], fails[-1]["seconds"], len(fails)
    how = "it took too long" if seconds >= (plan["numbers"]["timeout"] or float("inf")) else f"status {status}"
    missing = ", the command wasn't found" if status in (126, 127) else ""
    return "\n".join([
        f"the test fails at GOOD too ({plan['good']['short']}: {count} of {many(count, 'run')}, {how}{missing}), "
        f"which flakes of {ratio(plan['numbers']['flakes'])} explain in fewer than one of {DOUBT:,} cases.",
        "  Was it broken there already? Give an older GOOD.",
        "  Does it need a build, a submodule (--submodules) or a file that isn't committed? A run starts afresh.",
        "  Does it test your own folder, by a whole path in a variable or by what pip install -e left?",
        "  Does it pass over all that is below a folder .git, as jest does? --trees FOLDER lets it run elsewhere.",
        "  Does it flake more often than that? --flakes says so, and --no-check goes on all the same.",
        *_wrote(output)])


def skipped_at(plan: Plan, job: Job) -> str:
    """What it means that one end can't be tested."""
    why = "took too long" if job.timed_out else "ended with 125"
    if job.position:
        return (f"BAD ({plan['bad']['short']}) can't be tested (the command {why}), so nothing says that the test "
                "fails there. Where it fails nowhere else, the search can't tell BAD from nobody")
    return (f"GOOD ({plan['good']['short']}) can't be tested (the command {why}), so nothing says that the test "
            "passes there. The search takes it for sound, and can't confirm the first commit behind it")


def skipped_at_both(plan: Plan, output: str) -> str:
    """What it means that neither end can be tested, with the last lines that the command wrote into a file."""
    return "\n".join([
        f"neither GOOD ({plan['good']['short']}) nor BAD ({plan['bad']['short']}) can be tested.",
        "  Does the command end with 125 everywhere? A run starts afresh, with what is committed and nothing else.",
        "  Else give other ends, or --no-check, which goes on all the same.", *_wrote(output)])


def _wrote(output: str) -> list[str]:
    with open(output, "rb") as file:
        file.seek(max(0, os.path.getsize(output) - 4_000))
        wrote = [plain(line) for line in file.read().decode("utf-8", "replace").splitlines()[-10:]]
    return ["The last lines that it wrote:" if wrote else "It wrote nothing.", *(f"  | {line}" for line in wrote)]


# ---- no answer ------------------------------------------------------------------------------------------------------

def reason_of(search: Search, attempt: Attempt) -> str:
    """Why a search that has ended has no answer, where it has none."""
    if attempt.standing == "vindicated" and attempt.culprit:
        again = f", in the last of {attempt.number} tries" if attempt.number > 1 else ""
        return (f"{named(search.tree(attempt.culprit))} was named, and a rerun contradicted it{again}. Perhaps the "
                "test flakes more often than --flakes says, or a broken one passes at times (--misses)")
    if attempt.standing == "inconclusive":
        return undecided_reason(search, attempt)
    return "" if attempt.standing in ("confirmed", "no culprit") else f"it stands {attempt.standing}"


def undecided_reason(search: Search, attempt: Attempt) -> str:
    """Why a search is inconclusive, and between which commits the culprit then lies."""
    left = undecided(search, attempt)
    if left is None:
        return ("the numbers have no room for more runs, and nobody has reached the bar: give a greater --flakes, or a "
                "narrower range")
    return hidden_reason(left, search.tree, attempt.untestable, search.plan["range"])
