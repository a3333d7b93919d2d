"""What reports of a search are shown with: sentences, the table of its runs, a page of HTML.

A report is the object that a tool prints with `--json`. Those that `git culprit` and `finder explain` print share the
members that are read here.
"""
from __future__ import annotations

import html
from typing import Any, Callable, Collection, Container, Iterable, NamedTuple, Optional, Sequence

from culprit_lib import Look, columns, day, duration, figure, levels, many, padded, percent, plain

MOST_LISTED = 12  # commits that prose lists; the JSON and the page have all

Report = dict[str, Any]


class Column(NamedTuple):
    """A column of the table of runs: its head, and what stands in it: text, a figure, a commit id or a verdict."""

    head: str
    kind: str = "text"


def leading_of(shares: Sequence[int]) -> int:
    """The position of the suspect with the greatest share, the first one where there are several; 0 where all are 0."""
    top = max(shares[:-1], default=0)
    return shares.index(top) + 1 if top else 0

# ---- what can't be told apart ---------------------------------------------------------------------------------------

class Undecided(NamedTuple):
    """The suspects between which no run can decide: the first and the last one, and whether it may be nobody too."""

    first: int
    last: int
    nobody: bool


def hidden_group(shares: Sequence[int], untestable: Collection[int], bar: Sequence[int]) -> Undecided:
    """What commits that can't be tested leave open where a search is inconclusive for them.

    A run at a position parts the suspect there from the next one, so those that stand together between two positions
    that can be tested are one group, and the program ended with the group that has the most. Where a suspect reached
    the bar by itself and is skipped, or the tree below it is, it lacks a rerun."""
    upper, lower = bar
    leading = leading_of(shares)
    count, skipped = len(shares) - 1, set(untestable)
    if leading and shares[leading - 1] >= upper * 10_000 // lower and skipped & {leading, leading - 1}:
        return Undecided(leading, leading, False)
    ends = [position for position in range(1, count + 2) if position not in skipped]
    groups = [(below + 1, end) for below, end in zip([0, *ends], ends)]
    first, last = max(groups, key=lambda group: sum(shares[group[0] - 1:group[1]]))
    return Undecided(first, min(last, count), last > count)


def candidates_of(left: Optional[Undecided], shares: Sequence[int], untestable: Container[int],
                  tree: Callable[[int], dict[str, Any]]) -> Optional[dict[str, Any]]:
    """The commits between which commits that can't be tested leave it open, with their shares."""
    if left is None:
        return None
    each = [{"position": position, "share": shares[position - 1], "untestable": position in untestable,
             "commits": tree(position).get("commits", 1),
             **{name: tree(position).get(name) for name in ("commit", "short", "subject")}}
            for position in range(left.first, left.last + 1)]
    total = sum(suspect["share"] for suspect in each) + (shares[-1] if left.nobody else 0)
    return {"suspects": each, "nobody": left.nobody, "share": total, "below": tree(left.first - 1)["short"]}


def hidden_reason(left: Undecided, tree: Callable[[int], dict[str, Any]], untestable: Container[int],
                  words: str) -> str:
    """Between which commits of the range, whose words are given, the culprit lies where some can't be tested."""
    first, last, nobody = left
    trees = [tree(position) for position in range(first, last + 1)]
    name, end, count = named(trees[0]), named(trees[-1]), len(trees)
    commits = sum(each.get("commits", 1) for each in trees)
    due = " and ".join(named(tree(each)) for each in (first, first - 1) if each in untestable)
    rest = "the first one" if count == 2 else "all but the last one"
    if nobody and first == 1:
        return f"none of the {many(count, 'commit')} {'tried ' if commits > count else ''}in {words} can be tested"
    if count == 1 and not nobody:
        who = name if commits == 1 else f"one of the {commits} commits up to {name}"
        return f"{who} reached the bar, but isn't confirmed: a rerun is due of {due}, which can't be tested"
    if commits > count:
        group = f"it is one of the {commits} commits behind {named(tree(first - 1))} up to {end}"
        return f"{group}, or nobody: none of those tried can be tested, so no run tells which" if nobody else \
               f"{group}: of those tried {rest} can't be tested, so no run tells which"
    if nobody and count == 1:
        return f"it is {name}, or nobody: that commit can't be tested, so no run tells which"
    if nobody:
        return f"it is one of the last {count} commits, from {name} on, or nobody: none of them can be tested, " \
               "so no run tells which"
    return f"it is one of {count} commits, from {name} to {end}: {rest} can't be tested, so no run tells which"


def listed(names: Sequence[str], most: int = 3) -> str:
    """Names in a sentence, the first few of them where there are many."""
    more = len(names) - most
    shown = [*names[:most], *([f"{more} more"] if more > 0 else [])]
    return " and ".join([", ".join(shown[:-1]), shown[-1]] if shown[1:] else shown)


# ---- text -----------------------------------------------------------------------------------------------------------

def named(commit: dict[str, Any]) -> str:
    """A commit as a reader knows it: its short id, and its subject where that is known."""
    return commit["short"] + (f' "{plain(commit["subject"])}"' if commit.get("subject") is not None else "")


def _after(report: Report) -> str:
    made = [run for run in report["runs"] if run["stage"] == "search" and run["fate"]]
    skips = sum(run["verdict"] == "skip" for run in made)
    skipped = f" ({skips} skipped)" if skips else ""
    return f", after {many(len(made), 'run')}{skipped} in {duration(report['seconds'])}" if made else ""


def _likeliest(report: Report) -> str:
    """The suspects with most of the belief, where it is shared out: those between which no run can decide, or three."""
    left = report["candidates"]
    if left:
        ranked = [suspect["position"] - 1 for suspect in left["suspects"]][:MOST_LISTED]
    else:
        ranked = sorted(range(len(report["suspects"])), key=lambda index: -report["shares"][index])[:3]
        ranked = [index for index in ranked if report["shares"][index]]
    rows = [(report["shares"][index], f"{index + 1:4}  {named(report['suspects'][index])}") for index in ranked]
    rows.append((report["nobody"], "      nobody"))
    lines = [f"  {padded(figure(share), 8, True)}  {name}" for share, name in rows]
    more = len(left["suspects"]) - len(ranked) if left else 0
    return "\n".join([*lines[:-1], *([f"            .. and {more:,} more"] if more else []), lines[-1]])


def prose(report: Report) -> str:
    """What a search came to, in sentences."""
    culprit = report["culprit"]
    if report["standing"] == "confirmed":
        written = f" ({plain(culprit['author'])}, {day(culprit['date'])})" if culprit.get("author") is not None else ""
        who = f"{named(culprit)}{written} broke it"
        if culprit["commits"] > 1:
            who = f"One of the {many(culprit['commits'], 'commit')} up to {named(culprit)} broke it"
        sure = f"{percent(culprit['share'])}, confirmed by {many(report['verified'], 'rerun')}"
        return f"{who}: {sure}{_after(report)}.\nNobody to blame: {percent(report['nobody'])}."
    if report["standing"] == "no culprit":
        return (f"Nobody in {report['range']} is to blame: {percent(report['nobody'])}{_after(report)}.\n"
                "The red run was a flake.")
    begin = "No answer yet" if report["status"] is None else "No answer"
    reason = f": {report['reason']}" if report["reason"] else "."
    return f"{begin}{_after(report)}{reason}" + (f"\n{_likeliest(report)}" if report["shares"] else "")


def run_row(run: dict[str, Any], cells: Sequence[str]) -> list[str]:
    """A run's row: what a tool says of it, and what the belief was after it."""
    leading = run["leading"]
    belief = [leading["short"], figure(leading["share"])] if leading else ["", ""]
    return [*cells, *belief, "" if run["nobody"] is None else figure(run["nobody"])]


BELIEF = (Column("leading", "commit"), Column("share", "figure"), Column("nobody", "figure"))


def told(report: Report, look: Look, heads: Sequence[Column], rows: Sequence[Sequence[str]],
         between: str = "\n\n") -> str:
    """The whole report as text: prose first, then the notes, with so much between them, the runs, and what to do."""
    parts = [prose(report), *([between.join(report["notes"])] if report["notes"] else [])]
    if rows:
        figures = [index for index, column in enumerate(heads) if column.kind == "figure"]
        parts.append(look.table([[column.head for column in heads], *rows], figures))
    steps = report["next"]
    width = max((columns(command) for command, _ in steps if columns(command) < 60), default=0)
    parts.append("\n".join(f"  {padded(command, width)}  # {purpose}" for command, purpose in steps))
    return "\n\n".join(parts)


# ---- a page ---------------------------------------------------------------------------------------------------------

STYLE = """
:root{color-scheme:light dark;--ink:#1c2024;--faint:#667078;--paper:#fff;--line:#d8dde2;--bar:#8aa4c8;--top:#c2412d;
--pass:#1f7a3a;--fail:#c2412d}
@media(prefers-color-scheme:dark){:root{--ink:#e4e7ea;--faint:#98a2ac;--paper:#16191c;--line:#343a40;--bar:#55719a;
--top:#ee7a64;--pass:#6cc486;--fail:#ee7a64}}
body{font:15px/1.5 system-ui,sans-serif;color:var(--ink);background:var(--paper);max-width:60rem;margin:2rem auto;
padding:0 1rem}
h1{font-size:1.3rem;font-weight:600;white-space:pre-line}h2{font-size:1.05rem;margin-top:2rem}
table{border-collapse:collapse;width:100%;font-variant-numeric:tabular-nums}
th,td{text-align:left;padding:.25rem .6rem .25rem 0;border-bottom:1px solid var(--line)}
th{font-weight:600;color:var(--faint)}td.n,th.n{text-align:right;white-space:nowrap}
code,pre{font:13px/1.45 ui-monospace,monospace}
pre{overflow-x:auto;padding:.8rem;border:1px solid var(--line);border-radius:4px}
.pass{color:var(--pass)}.fail{color:var(--fail)}.faint,.skip{color:var(--faint)}
svg{display:block;width:100%}svg.small{width:8rem;height:1.2rem}rect{fill:var(--bar)}rect.top{fill:var(--top)}
rect.skip{opacity:.45}
"""


def chart(shares: Sequence[int], titles: Sequence[str], height: int, kind: str, pale: Container[int] = ()) -> str:
    """The belief along the range as bars, the greatest in another colour, those at `pale` positions paler. `titles` are
    what each bar says of itself."""
    top = max(shares, default=0)
    bars = []
    for index, share in enumerate(shares):
        high = max(0.5, share * height / max(1, top))
        place = f'x="{index + 0.08:.2f}" y="{height - high:.1f}" width="0.84" height="{high:.1f}"'
        title = f"<title>{html.escape(titles[index])}</title>" if titles else ""
        looks = [*(["top"] if share and share == top else []), *(["skip"] if index + 1 in pale else [])]
        look = f' class="{" ".join(looks)}"' if looks else ""
        bars.append(f"<rect{look} {place}>{title}</rect>")
    box = f'viewBox="0 0 {max(1, len(shares))} {height}" preserveAspectRatio="none" role="img" aria-label="belief"'
    return f'<svg class="{kind}" height="{height}" {box}>{"".join(bars)}</svg>'


def row_of(cells: Iterable[tuple[str, str]], tag: str = "td") -> str:
    return "<tr>" + "".join(f'<{tag} class="{kind}">{cell}</{tag}>' for cell, kind in cells) + "</tr>"


def _runs(report: Report, heads: Sequence[Column], rows: Sequence[Sequence[str]]) -> str:
    kinds = ["n" if column.kind == "figure" else "" for column in heads]
    lines = [row_of([*zip((column.head for column in heads), kinds), ("belief along the range", "")], "th")]
    for run, row in zip(report["runs"], rows):
        cells = []
        for column, kind, text in zip(heads, kinds, row):
            cell = html.escape(text)
            cells.append((f"<code>{cell}</code>" if column.kind == "commit" else cell,
                          run["verdict"] or "faint" if column.kind == "verdict" else kind))
        moved = run["belief"] and run["verdict"] != "skip"
        cells.append((chart(levels(run["belief"], 60), (), 20, "small") if moved else "", ""))
        lines.append(row_of(cells))
    return f"<table>{''.join(lines)}</table>"


def _belief(report: Report) -> str:
    suspects, untestable = report["suspects"], set(report["untestable"])
    titles = [f"{index}: {named(suspect)}: {percent(share)}" + (", can't be tested" if index in untestable else "")
              for index, (suspect, share) in enumerate(zip(suspects, report["shares"]), 1)]
    ends = html.escape(f"{suspects[0]['short']} to {suspects[-1]['short']}")
    pale = ", a pale one where that can't be tested" if untestable else ""
    bars = chart(report["shares"][:-1], titles, 160, "large", untestable)
    return (f"<h2>Belief along the range</h2>{bars}<p class=faint>{ends}, a bar a suspect{pale}. "
            f"Nobody to blame: {percent(report['nobody'])}.</p>")


def _pairs(pairs: Iterable[Sequence[str]], tag: str) -> str:
    first, last = (f"<{tag}>", f"</{tag}>") if tag else ("", "")
    rows = (row_of([(first + html.escape(name) + last, ""), (html.escape(plain(text)), "")]) for name, text in pairs)
    return f"<table>{''.join(rows)}</table>"


def page(report: Report, heads: Sequence[Column], rows: Sequence[Sequence[str]], numbers: Iterable[Sequence[str]],
         commit_text: str) -> str:
    """One page without any outside resource. `numbers` are those given, each with what it is; `commit_text` is the
    culprit's message and diffstat, or empty."""
    said = prose(report)
    parts = [f"<h1>{html.escape(said)}</h1>", *(f"<p>{html.escape(note)}</p>" for note in report["notes"])]
    if report["shares"]:
        parts.append(_belief(report))
    if commit_text:
        parts.append(f"<h2>The commit</h2><pre>{html.escape(commit_text)}</pre>")
    parts.append(f"<h2>The runs, in order</h2>{_runs(report, heads, rows)}")
    parts.append(f"<h2>The numbers given</h2>{_pairs(numbers, '')}")
    parts.append(f"<h2>What to do next</h2>{_pairs(report['next'], 'code')}")
    head = ("<meta charset=utf-8><meta name=viewport content='width=device-width'>"
            f"<title>{html.escape(said.splitlines()[0][:120])}</title><style>{STYLE}</style>")
    return f"<!DOCTYPE html>\n<html lang=en><head>{head}</head><body>{''.join(parts)}</body></html>\n"
