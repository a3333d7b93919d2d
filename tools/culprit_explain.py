"""The report of a search of a farm: the object that `finder explain --json` prints, whose members are in its manual."""
from __future__ import annotations

import time
from typing import Any, Optional

from culprit_evidence import Evidence
from culprit_git import Commit
from culprit_history import Run
from culprit_lib import ACTIVE, duration, fit, many, ratio
from culprit_shown import (BELIEF, Column, Report, Undecided, candidates_of, hidden_group, hidden_reason, leading_of,
                           listed, named, run_row)
from culprit_source import Found

COLUMNS = (Column("run", "figure"), Column("reported"), Column("worker"), Column("tree", "figure"),
           Column("commit", "commit"), Column("verdict", "verdict"), Column("fate"), *BELIEF)
STATUSES = {"confirmed": 0, "no culprit": 1}  # as git culprit ends; with 3 where there is no answer
LEAST = 7  # digits of a short commit id
WIDE = 24  # columns that a worker's name has in a table


class Told:
    """A search with all that is known of it, from which its report is made."""

    def __init__(self, found: Found, evidence: Evidence, commits: dict[str, Commit], origin: str) -> None:
        self.history, self.search, self.page = found
        self.evidence, self.commits, self.origin = evidence, commits, origin
        self.opening, self.shares = found.search.opening, found.page["shares"]
        self.standing, self.untestable = found.page["standing"], found.page.get("untestable", [])
        self.ids = [self.opening.base, *(commit for commit, _ in self.opening.suspects)]
        self.digits = next((count for count in range(LEAST, 40) if len({id[:count] for id in self.ids}) ==
                            len(self.ids)), 40)
        self.zone = self.history.founding.zone if self.history.founding else 0

    def tree(self, position: int) -> dict[str, Any]:
        """The commit of a tree, with what is known of it. 0 is the base."""
        id = self.ids[position]
        if id in self.commits:
            return self.commits[id].shown()
        return {"commit": id, "short": id[:self.digits]}

    def moment(self, at: int) -> str:
        """A moment, in milliseconds since 1970, as the farm's zone shows it."""
        return moment_in(at, self.zone)

    def undecided(self) -> Optional[Undecided]:
        """What skipped positions leave open where the search is inconclusive; None where it isn't for them."""
        over = any(run.fate == "over" for run in self.search.runs)
        if self.standing != "inconclusive" or not self.untestable or over:
            return None
        return hidden_group(self.shares, self.untestable, self.opening.bar)


def moment_in(at: int, zone: int) -> str:
    """A moment as a zone, in minutes east of UTC, shows it."""
    return time.strftime("%Y-%m-%d %H:%M:%S", time.gmtime(at // 1000 + zone * 60))


def zone_name(zone: int) -> str:
    """A zone, in minutes east of UTC."""
    sign = "-" if zone < 0 else "+"
    return f"UTC{sign}{abs(zone) // 60:02}:{abs(zone) % 60:02}" if zone else "UTC"


# ---- the report -----------------------------------------------------------------------------------------------------

def report_of(told: Told, again: str) -> Report:
    """All that is known of a search. `again` is the command that explains it."""
    search, opening, page, shares = told.search, told.opening, told.page, told.shares
    left = told.undecided()
    suspects = [{"position": position, "weight": weight, "share": shares[position - 1], **told.tree(position)}
                for position, (_, weight) in enumerate(opening.suspects, 1)]
    last = max([opening.at, *(run.reported for run in search.told if run.reported)])
    return {
        "search": search.number, "test": opening.test, "origin": told.origin,
        "status": None if told.standing in ACTIVE else STATUSES.get(told.standing, 3), "standing": told.standing,
        "reason": reason_of(told, left), "culprit": culprit_of(told), "nobody": shares[-1],
        "verified": page["verified"], "counted": page["counted"], "leases": page["leases"], "budget": page["budget"],
        "opened": opening.at, "cancelled": search.cancelled, "seconds": (last - opening.at) / 1000,
        "range": f"{told.tree(0)['short']}..{told.tree(len(suspects))['short']}", "base": told.tree(0),
        "suspects": suspects, "shares": shares, "untestable": told.untestable,
        "candidates": candidates_of(left, shares, told.untestable, told.tree),
        "numbers": {"rate": list(opening.rate), "miss": list(opening.miss), "bar": list(opening.bar),
                    "calm": opening.calm, "width": opening.width, "reruns": opening.reruns},
        "zone": told.zone, "runs": runs_of(told), "reruns": reruns_of(told), "order": order_of(told),
        "evidence": told.evidence.text, "notes": notes_of(told), "next": next_steps(told, again)}


def culprit_of(told: Told) -> Optional[dict[str, Any]]:
    """The suspect that the standing names, with its share. `below` is the tree before it."""
    position = told.page.get("culprit")
    if position is None:
        return None
    return {**told.tree(position), "position": position, "share": told.shares[position - 1], "commits": 1,
            "below": told.tree(position - 1)["short"]}


def runs_of(told: Told) -> list[dict[str, Any]]:
    """The runs in the order of their reports, and then those that have none, with the belief after each counted one."""
    shares, after = told.evidence.shares_after()
    runs = []
    for run in [*told.search.told, *(run for run in told.search.runs if run.reported is None)]:
        moved = run.number in after and run.fate == "counted"
        shares = after[run.number] if moved else shares
        leading = leading_of(shares)
        runs.append({
            "run": run.number, "stage": run.stage, "position": run.position,
            **{name: told.tree(run.position)[name] for name in ("commit", "short")}, "worker": run.worker,
            "leased": run.lease.at, "deadline": run.lease.deadline, "reported": run.reported, "verdict": run.verdict,
            "fate": run.fate, "leading": {"position": leading, "short": told.tree(leading)["short"],
                                          "share": shares[leading - 1]} if leading and run.fate else None,
            "nobody": shares[-1] if run.fate else None, "belief": shares[:-1] if moved else []})
    return runs


def reruns_of(told: Told) -> dict[str, dict[str, int]]:
    """How the counted reruns ended, at the suspect that the standing names and at its parent."""
    counts = {name: {"pass": 0, "fail": 0} for name in ("culprit", "parent")}
    for run in counted_reruns(told):
        counts["culprit" if run.position == told.page["culprit"] else "parent"][run.verdict or ""] += 1
    return counts


def counted_reruns(told: Told) -> list[Run]:
    """The reruns that counted."""
    return [run for run in told.search.told if run.stage == "verify" and run.fate == "counted"
            and "culprit" in told.page]


def order_of(told: Told) -> Optional[dict[str, Any]]:
    """The revert order that names the search."""
    order = told.search.order
    if order is None:
        return None
    return {"order": order.order, "agent": order.agent, "at": order.at, "date": day_of(order.day), "day": order.day}


def day_of(day: int) -> str:
    """The date of a day, counted since 1970-01-01."""
    return time.strftime("%Y-%m-%d", time.gmtime(day * 86_400))


# ---- sentences ------------------------------------------------------------------------------------------------------

def reason_of(told: Told, left: Optional[Undecided]) -> str:
    """Why a search has no answer, where it has none."""
    if told.standing in ("verifying", "vindicated"):
        name = named(told.tree(told.page["culprit"]))
        share = told.shares[told.page["culprit"] - 1] / 100
        due = "reruns of it and of its parent are due" if told.standing == "verifying" else "a rerun contradicted it"
        return f"{name} reached the bar, with {share:.2f} %, and {due}"
    if left is not None:
        return hidden_reason(left, told.tree, told.untestable, "the range")
    if told.standing == "inconclusive":
        return ("the numbers have no room for more runs, and nobody has reached the bar: open it again with a greater "
                "flake rate, or a narrower range")
    if told.search.cancelled is not None:
        return f"it was cancelled on {told.moment(told.search.cancelled)}"
    return ""


def notes_of(told: Told) -> list[str]:
    """What a reader should know besides: what was searched and with which numbers, the reruns, the order."""
    opening, count = told.opening, len(told.opening.suspects)
    zone = zone_name(told.zone)
    ends = " to ".join(dict.fromkeys(told.tree(position)["short"] for position in (1, count)))
    notes = [f"Search {told.search.number} of {opening.test}, opened on {told.moment(opening.at)} ({zone}): "
             f"{many(count, 'suspect')}, {ends}."]
    if told.untestable:
        notes.append(f"Can't be tested: {listed([named(told.tree(position)) for position in told.untestable])}.")
    notes += rerun_notes(told)
    given = ", ".join(f"{name} {text}" for name, text in numbers_of(told))
    return [*notes, *order_notes(told), *closed_notes(told), *sound_notes(told), f"Given: {given}."]


def order_notes(told: Told) -> list[str]:
    """Whether the suspect's revert was ordered, and by whom."""
    if told.standing != "confirmed":
        return []
    of_commit = next((order for order in told.history.orders if order.commit == told.page["commit"]), None)
    before = next((order for order in told.history.carried if order.commit == told.page["commit"]), None)
    if before is not None:
        return [f"Its revert was ordered by a farm before this one, on {day_of(before.day)}."]
    if of_commit is None:
        return ["No revert of it was ordered yet."]
    name = "" if of_commit.search == told.search.number else f", for search {of_commit.search}"
    return [f"Its revert is order {of_commit.order}, of {of_commit.agent} on {told.moment(of_commit.at)}{name}."]


def closed_notes(told: Told) -> list[str]:
    """Whether the farm takes no more commands."""
    closed = told.history.closed
    return [] if closed is None else [f"The farm was closed on {told.moment(closed)}: the next one goes on."]


def rerun_notes(told: Told) -> list[str]:
    """What the reruns at the suspect and at its parent came to."""
    if told.page.get("culprit") is None:
        return []
    counts, said = reruns_of(told), []
    for place, name in (("culprit", "the suspect"), ("parent", "its parent")):
        ended = [f"{counts[place][verdict]} {verdict}ed" for verdict in ("fail", "pass") if counts[place][verdict]]
        said.append(f"at {name} {' and '.join(ended) or 'none counted'}")
    return [f"Reruns: {'; '.join(said)}; {told.opening.reruns} of each were asked for."]


def sound_notes(told: Told) -> list[str]:
    """How often trees failed that are sound by the answer."""
    if told.standing not in ("confirmed", "no culprit"):
        return []
    below = told.page.get("culprit", len(told.ids))
    sound = [run for run in told.search.told if run.fate == "counted" and run.position < below]
    fails = sum(run.verdict == "fail" for run in sound)
    if not fails:
        return []
    return [f"Of {many(len(sound), 'run')} of trees that are sound by this, {fails} failed; a flake rate of "
            f"{ratio(told.opening.rate)} was given."]


def numbers_of(told: Told) -> list[tuple[str, str]]:
    """The numbers that the search was given, each behind what it is."""
    opening = told.opening
    weights = sorted({weight for _, weight in opening.suspects})
    each = f"{weights[0]} each" if len(weights) == 1 else f"{weights[0]} to {weights[-1]}"
    total = sum(weight for _, weight in opening.suspects)
    return [("flake rate", ratio(opening.rate)), ("miss rate", ratio(opening.miss) if opening.miss[0] else "none"),
            ("bar", ratio(opening.bar)), ("weights", f"{each} ({total:,} together)"),
            ("calm weight", f"{opening.calm:,}"), ("width", str(opening.width)), ("reruns", str(opening.reruns)),
            ("leases of", duration((told.history.founding.lease if told.history.founding else 0) / 1000))]


def next_steps(told: Told, again: str) -> list[list[str]]:
    """What to do next: commands, each with what it is for."""
    steps = [[f"{again} --evidence | finder judge", "judges it again, from nothing but its runs"],
             [f"{again} --html search.html", "the evidence as one page, to pass on"]]
    left, position = told.undecided(), told.page.get("culprit")
    if left and left.first < left.last:
        below, last = told.tree(left.first - 1)["short"], told.tree(left.last)["short"]
        return [[f"git log {below}..{last}", "the commits that it may be"], *steps]
    if position is not None:
        return [[f"git show {told.tree(position)['short']}", "what it changed"], *steps]
    return steps


# ---- what is shown --------------------------------------------------------------------------------------------------

def run_rows(report: Report, most: int = WIDE) -> list[list[str]]:
    """The runs as a table; a worker's name has at most so many columns."""
    rows = []
    for run in report["runs"]:
        verdict = (run["verdict"] or "not reported") + ("" if run["stage"] == "search" else ", rerun")
        when = moment_in(run["reported"], report["zone"]) if run["reported"] is not None else ""
        rows.append(run_row(run, [str(run["run"]), when, fit(run["worker"], most), str(run["position"]), run["short"],
                                  verdict, run["fate"] or ""]))
    return rows
