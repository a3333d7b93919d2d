#!/usr/bin/env python3
"""Holds the evidence of random farms to what their replies say: `evidence | judge` gives the budget and the shares of
each search's page and whom its runs name, and the evidence has just the runs that it should.

    bench/evidence.py [FARMS] [SEED]     1,000 farms and the seed 1, if not said; some minutes

Run it after `./finder build`; FINDER names another program. A farm has one to three searches with numbers at random,
of one to six suspects, and up to 200 leases, reports, skips and cancellations, so that some searches go over their
budgets. Which reports are evidence is worked out from the replies alone: a search that skips ended is one that
came to stand inconclusive while no report of it was over and its page had nobody at the bar.

At the end it prints how many searches there were of each kind, and status 1 where anything differs.
"""
import collections
import fractions
import json
import os
import pathlib
import random
import struct
import subprocess
import sys
import tempfile

ROOT = pathlib.Path(__file__).resolve().parent.parent
FINDER = os.environ.get("FINDER") or str(ROOT / "finder")
FOUNDED = bytes.fromhex("0143756c7072697446696e646572203201000000110000000005265c00010000ea60000a02d000")
AT = 100_000_000


def ran(words, given=""):
    return subprocess.run([FINDER, *words], input=given, capture_output=True, text=True, check=False)


class Farm:
    """A farm over a journal, asked line by line; `written` has the runs that are evidence, by their searches."""

    def __init__(self, journal, dice):
        journal.write_bytes(FOUNDED)
        self.dice, self.at, self.keys, self.runs = dice, AT, 0, {}
        self.opened, self.pages, self.over, self.closed = {}, {}, set(), set()
        self.written = collections.defaultdict(list)
        self.culprit = dice.choice((None, 1, 2, 3))
        self.verdicts = dice.choice((("pass", "fail", "fail"), ("fail",), ("pass", "fail", "fail", "skip"),
                                     ("pass", "skip")))
        self.child = subprocess.Popen([FINDER, "run", str(journal)], stdin=subprocess.PIPE, stdout=subprocess.PIPE,
                                      text=True)

    def ask(self, do, **more):
        if do in ("open", "lease", "cancel"):
            self.keys += 1
            more["key"] = f"00000000-0000-0000-0000-{self.keys:012d}"
        self.child.stdin.write(json.dumps({"at": self.at, "do": do, **more}) + "\n")
        self.child.stdin.flush()
        return json.loads(self.child.stdout.readline())

    def open(self):
        dice, count = self.dice, self.dice.randint(1, 6)
        suspects = [[f"{place:040x}", dice.choice((1, 1, 2, 9))] for place in range(1, count + 1)]
        asked = {"rate": dice.choice(([1, 10], [2, 20], [1, 3], [999, 1000])), "bar": dice.choice(([9, 10], [18, 20],
                 [3, 4], [9999, 10000])), "calm": dice.choice((1, 1, 5)), "miss": dice.choice(([0, 1], [0, 7], [1, 10],
                 [2, 20]))}
        reply = self.ask("open", test="t", base="0" * 40, suspects=suspects, width=dice.randint(1, 4),
                         reruns=dice.randint(1, 2), **asked)
        if reply.get("reply") == "open":
            self.opened[reply["search"]] = {**asked, "weights": [weight for _, weight in suspects]}

    def report(self):
        """Reports a run, a stale one or again; notes whether it is evidence."""
        run = self.dice.choice(list(self.runs))
        lease, verdict = self.runs[run], self.dice.choice(self.verdicts)
        if self.culprit and self.dice.random() < 0.9:
            verdict = "pass" if lease["position"] < self.culprit else "fail"
        told = lease.get("told")
        reply = self.ask("report", run=run, verdict=verdict)
        if told:
            assert reply == told, (reply, told)
            return
        lease["told"], search = reply, lease["search"]
        if reply["verdict"] != "skip" and lease["stage"] == "search" and search not in self.closed:
            self.written[search].append((lease["position"], verdict))
        if reply["fate"] == "over":
            self.over.add(search)
        elif reply["standing"] == "inconclusive" and search not in self.over and not self.at_bar(search):
            self.closed.add(search)

    def at_bar(self, search):
        """Whether a hypothesis is at the bar, by the shares: each bar here is a whole number of basis points."""
        top, bottom = self.opened[search]["bar"]
        return max(self.ask("search", search=search)["shares"]) * bottom >= top * 10_000

    def play(self):
        for _ in range(self.dice.randint(1, 3)):
            self.open()
        for _ in range(self.dice.choice((20, 60, 200))):
            self.at += self.dice.choice((0, 0, 0, 61_000))
            chance = self.dice.random()
            if chance < (0.5 if self.runs else 0.9):
                reply = self.ask("lease", worker="w")
                if reply.get("reply") == "lease":
                    self.runs[reply["run"]] = reply
            elif chance < 0.99 and self.runs:
                self.report()
            elif self.opened:
                search = self.dice.choice(list(self.opened))
                if self.ask("cancel", search=search).get("standing") == "cancelled":
                    self.closed.add(search)
        self.pages = {search: self.ask("search", search=search) for search in self.opened}
        self.child.stdin.close()
        self.child.wait()


def lowest(pair):
    rate = fractions.Fraction(*pair)
    return rate.numerator, rate.denominator


def text_of(asked, runs):
    lines = ["search " + " ".join(map(str, (*lowest(asked["rate"]), *asked["bar"], asked["calm"], *asked["weights"])))]
    if asked["miss"][0]:
        lines.insert(0, "miss {} {}".format(*lowest(asked["miss"])))
    lines += [f"run {number} {position} {verdict}" for number, (position, verdict) in enumerate(runs, 1)]
    return "".join(line + "\n" for line in lines)


def named(farm, search, page):
    """What `judge` should say of where a search stands."""
    if search in farm.over:
        return "inconclusive"
    if page["standing"] == "no culprit":
        return "no culprit"
    return f"named {page['culprit']}" if "culprit" in page else None


def check(farm, journal, search, page, kinds):
    wrong, text = [], ran(["evidence", journal, str(search)])
    if (text.returncode, text.stderr) != (0, ""):
        return [f"status {text.returncode}"]
    wanted = text_of(farm.opened[search], farm.written[search])
    if text.stdout != wanted:
        wrong.append(f"evidence {text.stdout!r}, and not {wanted!r}")
    lines = ran(["judge"], text.stdout).stdout.splitlines()
    if lines[0] != f"budget {page['budget']}":
        wrong.append(lines[0])
    if lines[-2].split()[1:] != [str(share) for share in page["shares"]]:
        wrong.append(lines[-2])
    says, should = lines[-1].partition(" ")[2], named(farm, search, page)
    if page["standing"] == "searching":
        should = "searching"
    if should and says != should:
        wrong.append(f"{says}, and not {should}")
    if sum(line.endswith(" counted") for line in lines[1:-2]) != page["counted"]:
        wrong.append("counted runs")
    kinds[page["standing"] + (", over" if search in farm.over else ", by skips" if search in farm.closed
                              and page["standing"] == "inconclusive" else "")] += 1
    return wrong


def main():
    farms = int(sys.argv[1]) if len(sys.argv) > 1 else 1_000
    seed = int(sys.argv[2]) if len(sys.argv) > 2 else 1
    kinds, differ = collections.Counter(), 0
    with tempfile.TemporaryDirectory() as folder:
        journal = pathlib.Path(folder) / "J"
        for number in range(farms):
            farm = Farm(journal, random.Random(f"{seed} {number}"))
            farm.play()
            for search, page in farm.pages.items():
                wrong = check(farm, str(journal), search, page, kinds)
                differ += bool(wrong)
                if wrong:
                    print(f"farm {number}, search {search}: " + "; ".join(wrong), flush=True)
            unknown = ran(["evidence", str(journal), str(len(farm.opened) + 1)])
            if (unknown.returncode, unknown.stdout) != (16, ""):
                differ += 1
                print(f"farm {number}: status {unknown.returncode} of a search that isn't there", flush=True)
    print(", ".join(f"{kind} {count}" for kind, count in sorted(kinds.items())))
    print(f"{sum(kinds.values())} searches of {farms} farms, {differ} differ")
    return 1 if differ else 0


if __name__ == "__main__":
    sys.exit(main())
