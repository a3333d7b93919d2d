"""The report of a search of `git culprit`: the object that it prints with `--json`, whose members are in its manual."""
from __future__ import annotations

import math
from typing import Any, Optional

import culprit_shown as shown
from culprit_lib import Look, duration, many, plain, ratio, spelled
from culprit_search import Attempt, Event, Run, Search
from culprit_shown import (BELIEF, Column, Report, Undecided, candidates_of, hidden_group, leading_of, listed, named,
                           run_row)


def undecided(search: Search, attempt: Attempt) -> Optional[Undecided]:
    """What commits that can't be tested leave open where a search is inconclusive; None where it isn't for them."""
    over = any(run.fate == "over" and run.attempt == attempt.number for run in search.story.runs.values())
    if attempt.standing != "inconclusive" or not attempt.untestable or over:
        return None
    return hidden_group(attempt.shares, attempt.untestable, search.plan["numbers"]["bar"])


# ---- the report -----------------------------------------------------------------------------------------------------

def report_of(search: Search) -> Report:
    """All that is known of a search, as `--json` prints it."""
    plan, story, end = search.plan, search.story, search.story.end
    attempt = story.attempts[-1] if story.attempts else Attempt(0)
    return {
        "search": search.number, "status": end["status"] if end else None,
        "standing": end["standing"] if end else attempt.standing, "reason": end["reason"] if end else story.reason,
        "culprit": culprit_of(search, attempt), "nobody": attempt.shares[-1] if attempt.shares else None,
        "verified": attempt.verified, "seconds": round(story.seconds, 3), "tries": attempt.number,
        "range": plan["range"], "good": plan["good"], "bad": plan["bad"], "command": plan["command"],
        "folder": plan["folder"], "numbers": plan["numbers"], "suspects": plan["suspects"], "shares": attempt.shares,
        "checks": [check_of(search, check) for check in story.checks],
        "runs": [run_of(search, run) for run in story.runs.values()], "untestable": story.untestable,
        "candidates": candidates_of(undecided(search, attempt), attempt.shares, attempt.untestable, search.tree),
        "notes": notes_of(search, attempt), "journal": search.journal,
        "next": next_steps(search, attempt)}


def culprit_of(search: Search, attempt: Attempt) -> Optional[dict[str, Any]]:
    """The suspect that was named last, with its share. `below` is the tree before it."""
    if attempt.culprit is None:
        return None
    position = attempt.culprit
    return {**search.tree(position), "position": position, "share": attempt.shares[position - 1],
            "below": search.tree(position - 1)["short"]}


def run_of(search: Search, run: Run) -> dict[str, Any]:
    """A run, and the belief after it."""
    tree, belief = search.tree(run.position), run.shares[:-1]
    leading = leading_of(run.shares)
    return {"run": run.number, "try": run.attempt, "stage": run.stage, "position": run.position,
            "commit": tree["commit"], "short": tree["short"], "verdict": run.verdict, "ended": run.ended,
            "fate": run.fate, "status": run.status, "seconds": run.seconds, "output": search.output(str(run.number)),
            "leading": {"position": leading, "short": search.tree(leading)["short"], "share": belief[leading - 1]}
            if leading else None, "nobody": run.shares[-1] if belief else None, "belief": belief}


def check_of(search: Search, check: Event) -> dict[str, Any]:
    """A run of GOOD or BAD before the search."""
    members = {name: check[name] for name in ("position", "verdict", "seconds", "status")}
    return {**members, "commit": search.tree(check["position"])["commit"], "output": search.output(check["label"])}


def notes_of(search: Search, attempt: Attempt) -> list[str]:
    """What a reader should know besides: a pass at BAD before the search, and how often sound trees failed."""
    notes, story, plan = [], search.story, search.plan
    if any(check["position"] and check["verdict"] == "pass" for check in story.checks):
        notes.append(f"Before the search the test passed at BAD ({plan['bad']['short']}) too.")
    if story.untestable:
        names = [named(search.tree(position)) for position in story.untestable]
        notes.append(f"Can't be tested: {listed(names)}.")
    if attempt.standing == "confirmed" and len(insides(search, attempt)) > 0:
        notes.append("It is a merge. Where all that came in by it passes alone, it is the merge itself that broke it.")
    if attempt.standing in ("confirmed", "no culprit"):
        sound = [run for run in story.runs.values()
                 if run.fate == "counted" and run.position < (attempt.culprit or math.inf)]
        fails = sum(run.verdict == "fail" for run in sound)
        if fails:
            notes.append(f"Of {many(len(sound), 'run')} of trees that are sound by this, {fails} failed; "
                         f"a flake rate of {ratio(plan['numbers']['flakes'])} was given.")
    return notes


def insides(search: Search, attempt: Attempt) -> list[str]:
    """The ranges of what came in by the named commit, where that is a merge, as the shell and git read them."""
    culprit = search.tree(attempt.culprit or 0)
    if culprit.get("commits") != 1:
        return []
    short = culprit["short"]
    sides = range(2, len(culprit["parents"]) + 1)
    return [f"$(git merge-base {short}^1 {short}^{side})..{short}^{side}" for side in sides]


def next_steps(search: Search, attempt: Attempt) -> list[list[str]]:
    """What to do next: commands, each with what it is for."""
    number, end, numbers = search.number, search.story.end, search.plan["numbers"]
    page_of = [f"git culprit --show {number} --html culprit.html", "the evidence as one page, to pass on"]
    if end is None:
        return [[f"git culprit --resume {number}", "goes on: what was run isn't run again"],
                [f"git culprit --abort {number}", "gives it up"]]
    rates = ((name, *numbers[name]) for name in ("flakes", "misses") if numbers[name][0])
    given = "".join(f" --{name} {upper}/{lower}" for name, upper, lower in rates)
    test = f"{given} -- {plain(spelled(search.plan['command']))}"
    left = undecided(search, attempt)
    if left and (left.first < left.last or search.plan["every"] > 1):
        ends = f"{search.tree(left.first - 1)['short']}..{search.tree(left.last)['short']}"
        again = [[f"git culprit {ends}{test}", "tries each of them"]] if search.plan["every"] > 1 else []
        return [[f"git log {ends}", "the commits that it may be"], *again, page_of]
    if end["standing"] != "confirmed" or attempt.culprit is None:
        return [page_of]
    culprit, below = search.tree(attempt.culprit), search.tree(attempt.culprit - 1)["short"]
    if culprit["commits"] > 1:
        ends = f"{below}..{culprit['short']}"
        return [[f"git log {ends}", "the commits that it may be"],
                [f"git culprit {ends}{test}", "finds the one"], page_of]
    inner = [[f"git culprit {ends}{test}", "searches what came in by the merge"] for ends in insides(search, attempt)]
    revert = f"git revert {'-m 1 ' if inner else ''}{culprit['short']}"
    return [[f"git show {culprit['short']}", "what it changed"], [revert, "takes it back"], *inner, page_of]


# ---- what is shown --------------------------------------------------------------------------------------------------

COLUMNS = (Column("run", "figure"), Column("tree", "figure"), Column("commit", "commit"), Column("verdict", "verdict"),
           Column("time", "figure"), *BELIEF)


def run_rows(report: Report) -> list[list[str]]:
    """The runs as a table: each with its verdict, how long it took, and what the belief was after it."""
    rows = []
    for run in report["runs"]:
        verdict = (run["verdict"] or run["ended"]) + ("" if run["stage"] == "search" else ", rerun")
        verdict += ", late" if run["fate"] == "late" else ""
        took = "" if run["seconds"] is None else duration(run["seconds"])
        rows.append(run_row(run, [str(run["run"]), str(run["position"]), run["short"], verdict, took]))
    return rows


def told(report: Report, look: Look) -> str:
    """The whole report as text."""
    return shown.told(report, look, COLUMNS, run_rows(report))


def numbers_of(report: Report) -> list[tuple[str, str]]:
    """The numbers that the search was given, each behind what it is."""
    numbers = report["numbers"]
    weights = f"{numbers['prior']}; nobody {numbers['calm']}, the suspects {sum(numbers['weights'])} together"
    return [("range", f"{report['range']}, {many(len(report['suspects']), 'suspect')}"),
            ("command", spelled(report["command"])), ("flakes: a sound tree fails", ratio(numbers["flakes"])),
            ("misses: a broken tree passes", ratio(numbers["misses"])), ("bar", ratio(numbers["bar"])),
            ("reruns at the culprit, and at its parent", str(numbers["reruns"])), ("prior weights", weights),
            ("jobs", str(numbers["jobs"])), ("searches made, and at most", f"{report['tries']} of {numbers['tries']}")]


def page(report: Report, commit_text: str) -> str:
    """The report as a page. `commit_text` is the culprit's message and diffstat, or empty."""
    return shown.page(report, COLUMNS, run_rows(report), numbers_of(report), commit_text)
