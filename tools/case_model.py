"""A farm by its definitions, as a small program of its own that the tests hold the program to: shares by Bayes' rule in
fractions, no sums that are kept, and nothing of the program's code. The rules are those of docs/DEFINITIONS.md, the
forms those of docs/FORMATS.md."""
from __future__ import annotations

import datetime
import itertools
from fractions import Fraction
from typing import Any, Optional

Reply = dict[str, Any]
Line = dict[str, Any]

DAY_MS = 86_400_000
PAGE = 100  # objects of a reply at most
MOST_SEARCHES, MOST_ENTRIES = 2_000, 1_000_000
ACTIVE = ("searching", "verifying")


class Refused(Exception):
    """A refusal: its members."""

    def __init__(self, kind: str, **members: Any) -> None:
        super().__init__(kind)
        self.reply: Reply = {"refused": kind, **members}


def date_of(day: int) -> str:
    """The date of a day counted since 1970-01-01."""
    return str(datetime.date(1970, 1, 1) + datetime.timedelta(days=day))


def day_of(date: str) -> int:
    """The day of a date."""
    return (datetime.date.fromisoformat(date) - datetime.date(1970, 1, 1)).days


def check_open(ask: Line) -> None:
    """Refuses an open with a value outside its limits: the first cause."""
    def demand(holds: bool, cause: str, *value: int) -> None:
        if not holds:
            raise Refused("BadOpen", cause=cause, value=list(value))

    suspects, base = ask["suspects"], ask["base"].lower()
    demand(bool(suspects), "NoSuspects")
    demand(len(suspects) <= 1_000, "TooManySuspects", len(suspects))
    for position, (_, weight) in enumerate(suspects, 1):
        demand(1 <= weight <= 65_535, "WeightRange", position)
    demand(1 <= ask["calm"] <= 1_000_000, "CalmRange", ask["calm"])
    earlier = {base}
    for position, (commit, _) in enumerate(suspects, 1):
        demand(commit.lower() not in earlier, "RepeatedCommit", position)
        earlier.add(commit.lower())
    (a, b), (c, d), (t, u) = ask["rate"], ask.get("miss", (0, 1)), ask["bar"]
    demand(0 < a < b <= 1_000, "Rate", a, b)
    demand(c < d <= 100 and Fraction(c, d) + Fraction(a, b) < 1, "Miss", c, d)
    demand(u <= 10_000 and u < 2 * t and t < u, "Bar", t, u)
    demand(1 <= ask["width"] <= 8, "Width", ask["width"])
    demand(1 <= ask["reruns"] <= 8, "Reruns", ask["reruns"])


def asked_for(ask: Line) -> tuple[Any, ...]:
    """What an open asks for: its rates by their values, its bar as it is spelled."""
    suspects = tuple((commit.lower(), weight) for commit, weight in ask["suspects"])
    return (ask["test"], ask["base"].lower(), suspects, ask["calm"], Fraction(*ask["rate"]),
            Fraction(*ask.get("miss", (0, 1))), tuple(ask["bar"]), ask["width"], ask["reruns"])


class Search:
    """A search: what it asks for, and the runs that counted, at their positions, with their verdicts."""

    def __init__(self, number: int, ask: Line, at: int) -> None:
        self.number, self.ask, self.opened = number, ask, at
        self.commits = [ask["base"].lower()] + [commit.lower() for commit, _ in ask["suspects"]]
        self.priors = [weight for _, weight in ask["suspects"]] + [ask["calm"]]
        self.flake, self.miss = Fraction(*ask["rate"]), Fraction(*ask.get("miss", (0, 1)))
        self.runs: list[tuple[int, str]] = []
        self.reruns: list[tuple[int, str]] = []
        self.skipped: set[int] = set()
        self.leases: list[Lease] = []
        self.over = self.cancelled = False
        self.order: Optional[int] = None
        self.last_lease = 0  # the place of its last lease, and 0 before one
        self.look()

    def likelihood(self, hypothesis: int, position: int, verdict: str) -> Fraction:
        """How likely a run of a position has a verdict, where the suspect of a number is the culprit."""
        fails = 1 - self.miss if hypothesis <= position else self.flake
        return fails if verdict == "fail" else 1 - fails

    def look(self) -> None:
        """Works out the shares, and where the search stands, from its runs."""
        weights = [Fraction(it) for it in self.priors]
        for index in range(len(weights)):
            for position, verdict in self.runs:
                weights[index] *= self.likelihood(index + 1, position, verdict)
        whole = sum(weights)
        self.belief = [it / whole for it in weights]
        self.standing, self.culprit = self.find()

    def find(self) -> tuple[str, Optional[int]]:
        """Where the search stands, and the suspect that it names."""
        bar = Fraction(*self.ask["bar"])
        if self.cancelled:
            return "cancelled", None
        if self.over:
            return "inconclusive", None
        named = [number for number, share in enumerate(self.belief, 1) if share >= bar]
        if not named:
            return "inconclusive" if self.is_hidden(bar) else "searching", None
        if named[0] == len(self.belief):
            return "no culprit", None
        return self.verified(named[0])

    def is_hidden(self, bar: Fraction) -> bool:
        """Whether hypotheses that skipped positions alone part have the bar's share together."""
        blocks, block = [], [self.belief[0]]
        for position, share in enumerate(self.belief[1:], 1):
            if position not in self.skipped:
                blocks.append(block)
                block = []
            block = block + [share]
        return any(len(it) > 1 and sum(it) >= bar for it in blocks + [block])

    def verified(self, culprit: int) -> tuple[str, Optional[int]]:
        """What the reruns of a named suspect come to."""
        if (culprit, "pass") in self.reruns or (culprit - 1, "fail") in self.reruns:
            return "vindicated", culprit
        sides = {culprit: self.reruns.count((culprit, "fail")), culprit - 1: self.reruns.count((culprit - 1, "pass"))}
        if all(count >= self.ask["reruns"] for count in sides.values()):
            return "confirmed", culprit
        if any(count < self.ask["reruns"] and place in self.skipped for place, count in sides.items()):
            return "inconclusive", None
        return "verifying", culprit

    def floor(self, runs: list[tuple[int, str]]) -> int:
        """The greatest position that a pass has cleared."""
        return 0 if self.miss else max([position for position, verdict in runs if verdict == "pass"], default=0)

    def load(self, runs: list[tuple[int, str]]) -> int:
        """How many runs still tell hypotheses apart."""
        low = self.floor(runs)
        return len([it for it in runs if self.miss or (it[1] == "fail" and it[0] > low)])

    def budget(self) -> int:
        """How many such runs fit 128 bits, by whole numbers in place of the likelihoods."""
        pairs = (1 - self.miss) / self.flake, self.miss / (1 - self.flake)
        most = max(max(it.numerator, it.denominator) for it in pairs)
        return max(it for it in range(128) if sum(self.priors) * most ** it * 10_000 < 2 ** 128)

    def plan(self) -> list[int]:
        """Where to run next, for as many runs at once as its width."""
        sums = [Fraction(0), *itertools.accumulate(self.belief)]
        open_ones = [it for it in range(self.floor(self.runs) + 1, len(self.commits)) if it not in self.skipped]
        steps = [Fraction(number, self.ask["width"] + 1) for number in range(1, self.ask["width"] + 1)]
        return [min(open_ones, key=lambda it, at=step: (abs(sums[it] - at), it)) for step in steps if open_ones]

    def due(self, at: int) -> Optional[int]:
        """The position that is due at a moment."""
        stage = {"searching": "search", "verifying": "verify"}.get(self.standing)
        out = [it.position for it in self.leases if it.stage == stage and it.reply is None and it.deadline > at]
        if stage == "search":
            plan = self.plan()
            room = len(out) < len(plan)
            for position in out:
                if position in plan:
                    plan.remove(position)
            return plan[0] if room else None
        if stage == "verify" and self.culprit is not None:
            made = [position for position, _ in self.reruns] + out
            return next((it for it in (self.culprit, self.culprit - 1) if made.count(it) < self.ask["reruns"]), None)
        return None

    def told_standing(self) -> Reply:
        """The members that say where it stands."""
        more = {} if self.culprit is None else {"culprit": self.culprit}
        return {"standing": self.standing, **more}

    def named(self) -> Reply:
        """The member that names its culprit's commit."""
        return {} if self.culprit is None else {"commit": self.commits[self.culprit]}

    def page(self) -> Reply:
        """Its page."""
        untestable = {"untestable": sorted(self.skipped)} if self.skipped else {}
        return {"reply": "search", "search": self.number, "test": self.ask["test"], "budget": self.budget(),
                "leases": len(self.leases), "counted": len(self.runs), "verified": len(self.reruns),
                "shares": [int(share * 10_000) for share in self.belief], **self.told_standing(), **self.named(),
                **untestable}

    def line(self) -> Reply:
        """Its object in a list."""
        order = {} if self.order is None else {"order": self.order}
        return {"search": self.number, "test": self.ask["test"], "suspects": len(self.commits) - 1,
                "opened": self.opened, "leases": len(self.leases), "counted": len(self.runs), **self.told_standing(),
                **self.named(), **order}


class Lease:
    """A run: its search, stage and position, when it was leased, until when it is out, and its report's reply."""

    def __init__(self, number: int, search: Search, position: int, worker: str, at: int, deadline: int) -> None:
        self.number, self.search, self.position, self.worker = number, search, position, worker
        self.stage = "search" if search.standing == "searching" else "verify"
        self.at, self.deadline = at, deadline
        self.reply: Optional[Reply] = None
        self.reported = 0

    def line(self) -> Reply:
        """Its object among the runs of its search."""
        told = {} if self.reply is None else {"fate": self.reply["fate"], "verdict": self.reply["verdict"],
                                              "reported": self.reported}
        return {"run": self.number, "stage": self.stage, "position": self.position,
                "commit": self.search.commits[self.position], "worker": self.worker, "leased": self.at,
                "deadline": self.deadline, **told}


class Farm:
    """A farm: by default as `run` founds one in memory."""

    def __init__(self, lease_ms: int = 60_000, daily: int = 10, zone: int = 0, founded: int = DAY_MS) -> None:
        self.lease_ms, self.daily, self.zone, self.at = lease_ms, daily, zone, founded
        self.entries = 1
        self.searches: list[Search] = []
        self.leases: list[Lease] = []
        self.orders: list[Reply] = []
        self.carried: list[tuple[str, int]] = []
        self.keys: dict[str, tuple[int, tuple[Any, ...], Reply]] = {}
        self.closed = False

    def carry(self, commit: str, day: int) -> None:
        """Carries an order over from a farm before."""
        self.carried.append((commit, day))
        self.entries += 1

    def is_at_rest(self) -> bool:
        """Whether nothing goes on, and no order is to be taken."""
        return not any(it.standing in ACTIVE for it in self.searches) and not (self.daily and self.waiting())

    def close(self) -> None:
        """Closes the farm."""
        self.closed = True
        self.entries += 1

    def waiting(self) -> list[Search]:
        """The confirmed searches whose commit has no order."""
        ordered = {commit for commit, _ in self.carried} | {it["commit"] for it in self.orders}
        return [it for it in self.searches if it.standing == "confirmed" and it.named()["commit"] not in ordered]

    def answer(self, line: Line) -> Reply:
        """The reply to a line, or its refusal."""
        try:
            return getattr(self, "show_" + line["do"])(line) if hasattr(self, "show_" + line["do"]) else self.do(line)
        except Refused as refusal:
            return refusal.reply

    def do(self, line: Line) -> Reply:
        """The reply to a line that may add an entry."""
        if line["do"] == "open":
            check_open(line)
        known = self.known(line)
        if known is not None:
            return known
        if self.entries >= MOST_ENTRIES:
            raise Refused("Full")
        if self.closed:
            raise Refused("Closed")
        at = max(self.at, line["at"])
        reply = {"reply": line["do"], **getattr(self, "do_" + line["do"])(line, at)}
        if "key" in line:
            self.keys[line["key"]] = (self.entries, self.wish(line), reply)
        self.at = at
        self.entries += 1
        return reply

    def known(self, line: Line) -> Optional[Reply]:
        """The first reply of what was done before."""
        if line["do"] == "report":
            return self.leases[line["run"] - 1].reply if line["run"] <= len(self.leases) else None
        place, wish, reply = self.keys.get(line["key"], (0, (), {}))
        if place and wish != self.wish(line):
            raise Refused("KeyClash", place=place)
        return reply if place else None

    @staticmethod
    def wish(line: Line) -> tuple[Any, ...]:
        """What a line with a key asks for."""
        rest = asked_for(line) if line["do"] == "open" else tuple(line.get(it) for it in ("worker", "search", "agent"))
        return (line["do"], rest)

    def do_open(self, line: Line, at: int) -> Reply:
        """Opens a search."""
        if len(self.searches) >= MOST_SEARCHES:
            raise Refused("TooManySearches")
        search = Search(len(self.searches) + 1, line, at)
        self.searches.append(search)
        return {"search": search.number, "budget": search.budget(), **search.told_standing()}

    def do_lease(self, line: Line, at: int) -> Reply:
        """Leases the run that is due of the search whose last lease is the earliest."""
        due = [(it.last_lease, it.number, position) for it in self.searches if (position := it.due(at)) is not None]
        if not due:
            raise Refused("NoRun")
        _, number, position = min(due)
        search = self.searches[number - 1]
        lease = Lease(len(self.leases) + 1, search, position, line["worker"], at, at + self.lease_ms)
        self.leases.append(lease)
        search.leases.append(lease)
        search.last_lease = self.entries
        return {"run": lease.number, "search": number, "stage": lease.stage, "position": position,
                "commit": search.commits[position], "test": search.ask["test"], "deadline": lease.deadline}

    def do_report(self, line: Line, at: int) -> Reply:
        """Takes the first report of a run."""
        if line["run"] > len(self.leases):
            raise Refused("UnknownRun", run=line["run"])
        lease, verdict = self.leases[line["run"] - 1], line["verdict"]
        search, fate = lease.search, self.fate(lease, verdict)
        if fate == "skipped":
            search.skipped.add(lease.position)
        elif fate == "counted":
            (search.runs if lease.stage == "search" else search.reruns).append((lease.position, verdict))
        search.over = search.over or fate == "over"
        if fate != "late":
            search.look()
        lease.reported = at
        lease.reply = {"reply": "report", "run": lease.number, "search": search.number, "verdict": verdict,
                       "fate": fate, **search.told_standing()}
        return lease.reply

    @staticmethod
    def fate(lease: Lease, verdict: str) -> str:
        """What becomes of the first report of a run."""
        search = lease.search
        if lease.stage != {"searching": "search", "verifying": "verify"}.get(search.standing):
            return "late"
        if verdict == "skip":
            return "skipped"
        if lease.stage == "search":
            return "over" if search.load([*search.runs, (lease.position, verdict)]) > search.budget() else "counted"
        made = [position for position, _ in search.reruns].count(lease.position)
        return "counted" if made < search.ask["reruns"] else "late"

    def do_cancel(self, line: Line, _: int) -> Reply:
        """Cancels a search."""
        search = self.search(line["search"])
        if search.standing not in ACTIVE:
            raise Refused("SearchEnded", **search.told_standing())
        search.cancelled = True
        search.look()
        return {"search": search.number, "standing": "cancelled"}

    def do_revert(self, line: Line, at: int) -> Reply:
        """Orders the next commit."""
        day = (at + self.zone * 60_000) // DAY_MS
        waiting = self.waiting()
        if not waiting:
            raise Refused("NoRevert")
        count = [it for _, it in self.carried].count(day) + [it["date"] for it in self.orders].count(date_of(day))
        if count >= self.daily:
            raise Refused("DailyLimit", day=day, count=count)
        search = waiting[0]
        search.order = len(self.orders) + 1
        order = {"order": search.order, "date": date_of(day), "search": search.number, **search.named()}
        self.orders.append({"agent": line["agent"], **order})
        return {"day": day, **order}

    def search(self, number: int) -> Search:
        """The search with a number."""
        if number > len(self.searches):
            raise Refused("UnknownSearch", search=number)
        return self.searches[number - 1]

    def show_search(self, line: Line) -> Reply:
        """The page of a search."""
        return self.search(line["search"]).page()

    def show_runs(self, line: Line) -> Reply:
        """Runs of a search."""
        leases = self.search(line["search"]).leases[line["from"] - 1:][:PAGE]
        return {"reply": "runs", "search": line["search"], "from": line["from"], "runs": [it.line() for it in leases]}

    def show_list(self, line: Line) -> Reply:
        """The list of searches."""
        shown = self.searches[line["from"] - 1:][:PAGE]
        return {"reply": "list", "from": line["from"], "searches": [it.line() for it in shown]}

    def show_orders(self, _: Line) -> Reply:
        """All orders."""
        return {"reply": "orders", "orders": list(self.orders)}

    def show_farm(self, _: Line) -> Reply:
        """What is counted of the farm."""
        standings = [it.standing for it in self.searches]
        counts = {it: standings.count(it) for it in ("searching", "verifying", "confirmed")}
        counted = [it for it in self.leases if it.reply is not None and it.reply["fate"] == "counted"]
        return {"reply": "farm", "entries": self.entries, "searches": len(standings), **counts,
                "ended": len(standings) - sum(counts.values()), "counted": len(counted), "orders": len(self.orders)}
