#!/usr/bin/env python3
"""Times `run` on scripts that drive more and more searches to their ends, and prints seconds, microseconds a line, how
much a search more costs than one of the farm of half the size, and the peak of memory.

    bench/growth.py [SEARCHES ..]        250, 500, 1000 and 2000 searches, if not said

Run it after `./finder build`. Each script is made by playing workers against the program: they hold some runs at once,
report them by a rule, and take the revert orders, until no run is due any more. The script is then run anew from a
file, in turn with a plain program in C that keeps the same farm and has to give the same replies (plain_run.c, built
here by `cc`), and each has the least of its times; the ratio is that of the processor's times. Where the times grow in
proportion to the searches, the last column stays near 1.
"""
import collections
import sys
import tempfile

import run

SUSPECTS = 20
WORKERS = 40
# All at one moment, so that no lease expires.
MOMENT = 1_795_770_000_000


def culprit(search):
    """The position from which on the runs of a search fail; one search in five has no culprit."""
    return SUSPECTS + 1 if search % 5 == 0 else 1 + (7 * search) % SUSPECTS


def verdict(number, search, position):
    """What a run says: by the culprit, but for a flake in one run of nine that should pass."""
    return "fail" if position >= culprit(search) or number % 9 == 0 else "pass"


def opening(search):
    asked = run.opening(search, SUSPECTS)
    asked.update(calm=SUSPECTS // 2, rate=[1, 9], bar=[99, 100], width=1 + search % 4, reruns=2)
    return asked


def drive(searches):
    """Opens the searches, and plays them to their ends. Answers the game and what the farm's page says at its end."""
    game = run.Play()
    for search in range(1, searches + 1):
        game.ask(at=MOMENT, **opening(search))
    held = collections.deque()
    while True:
        lease = game.ask(at=MOMENT, do="lease", worker=f"worker-{len(held)}")
        if "run" in lease:
            held.append(lease)
        elif not held:
            break
        if len(held) == WORKERS or "run" not in lease:
            one = held.popleft()
            says = verdict(one["run"], one["search"], one["position"])
            told = game.ask(at=MOMENT, do="report", run=one["run"], verdict=says)
            if told["standing"] == "confirmed":
                game.ask(at=MOMENT, do="revert", agent="agent")
    page = game.ask(at=MOMENT, do="farm")
    game.end()
    return game, page


def main():
    sizes = [int(word) for word in sys.argv[1:]] or [250, 500, 1_000, 2_000]
    with tempfile.TemporaryDirectory() as folder:
        grow(sizes, [run.built(folder, "plain_run")])


def grow(sizes, plain):
    before = None
    for searches in sizes:
        game, page = drive(searches)
        script = b"".join(game.lines)
        if page["searching"] or page["verifying"]:
            sys.exit("some search didn't end")
        if run.replies(plain, script) != game.answers:
            sys.exit("the plain program gives other replies")
        turns = [[run.timed(who, script) for who in ([run.PROGRAM, "run"], plain)] for _ in range(run.TURNS)]
        seconds, _, peak = min(mine for mine, _ in turns)
        ours, other = (min(turn[who][1] for turn in turns) for who in range(2))
        each = seconds / searches
        growth = "" if before is None else f"   a search more costs {each / before:.2f} times as much"
        lines = len(game.lines)
        ends = f"{page['confirmed']} confirmed, {page['ended']} ended otherwise, {page['orders']} orders"
        print(f"{searches:5} searches, {lines:6} lines ({ends}): {seconds:8.3f} s, {seconds / lines * 1e6:8.1f} us a line, "
              f"{peak:6.1f} MiB, ratio {ours / other:.2f}{growth}", flush=True)
        before = each


if __name__ == "__main__":
    main()
