#!/usr/bin/env python3
"""Whether the documents and the must-fail edits go with the files that they name: a line for each place where one
doesn't, and status 1 where there is any.

    bench/documents.py

It takes a few seconds and needs nothing built. Looked at are

- docs/ARCHITECTURE.md: each crate of crates.txt has a line, and a group stands on what its crates' lines there say;
- docs/DEFINITIONS.md, PROMISES.md, DECISIONS.md, ARCHITECTURE.md and CHANGES.md: each name between backticks is a word
  of the code, a module or a crate, and each path from a crate on is a file;
- docs/TRUST.md: its numbers, which bench/trust.py makes;
- must-fail and bench/edits: each `old:` text stands in its file exactly once, when its turn comes;
- docs/EDITS.md: it has a row for each edit of bench/edits, and for no other.
"""
import pathlib
import re
import sys

import trust

ROOT = pathlib.Path(__file__).resolve().parent.parent
CRATES = ROOT / "crates"
EDITS = ROOT / "bench" / "edits"
NAMED = ("DEFINITIONS", "PROMISES", "DECISIONS", "ARCHITECTURE", "CHANGES")
# Names of other things: what a form is filled in with, files beside crates, types of the system and of libraries.
OTHERS = {"NAME", "curl", "bench", "tools", "stdin", "stdout", "serde_json", "main", "old", "BAD", "EDIT"}
found = []


def say(where, what):
    found.append(what)
    print(f"{where}: {what}")


def document(name):
    return (ROOT / "docs" / f"{name}.md").read_text()


def check_layers():
    group, groups, below = None, {}, {}
    for line in (ROOT / "crates.txt").read_text().splitlines():
        if heading := re.fullmatch(r"# (\w+)", line):
            group = heading[1]
        name, colon, names = line.partition("#")[0].partition(":")
        if colon:
            groups[name], below[name] = group, names.split()
    text = document("ARCHITECTURE")
    rows = {name for line in text.splitlines() if line.startswith("- `")
            for name in re.findall(r"`(\w+)`", line.partition(": ")[0])}
    for name in sorted(rows ^ below.keys()):
        say("ARCHITECTURE", f"{name} has a line and no crate, or a crate and no line")
    for name, stands_on in re.findall(r"^- (\w+): ([\w, ]+)$", text, re.MULTILINE):
        crates = [crate for crate, own in groups.items() if own == name]
        wanted = {groups[lower] for crate in crates for lower in below[crate] if lower in groups} - {name}
        if set(stands_on.split(", ")) != wanted:
            say("ARCHITECTURE", f"{name} stands on {', '.join(sorted(wanted))} by crates.txt, and not on {stands_on}")


def check_names():
    sources = [*CRATES.glob("*/src/**/*.rt"), *CRATES.glob("*/specs/*.antt"), *CRATES.glob("*/proofs/**/*.antt")]
    words = {word for file in sources for word in re.findall(r"[A-Za-z_][\w\-]*", file.read_text())}
    words |= {part for file in sources for part in (file.stem, *file.relative_to(CRATES).parts)} | OTHERS
    for name in NAMED:
        for number, line in enumerate(document(name).splitlines(), 1):
            for quoted in re.findall(r"`([^`]+)`", "" if line.startswith("    ") else line):
                path = re.fullmatch(r"(\w+)/((?:src|specs|proofs)/[\w/]+\.(?:rt|antt))", quoted)
                if path and "NAME" not in quoted and not (CRATES / quoted).is_file():
                    say(f"{name} {number}", f"no file {quoted}")
                for part in re.split(r"::|, ", quoted):
                    if re.fullmatch(r"[A-Za-z_][\w\-]*", part) and part not in words:
                        say(f"{name} {number}", f"no name {part}")


def check_numbers():
    page = document("TRUST")
    made = trust.tables(trust.Tree(), page)
    for old, new in zip(page.splitlines(), made.splitlines()):
        if old != new:
            say("TRUST", f"{old} should be {new} (bench/trust.py --write puts it there)")


def check_edits():
    for edit in sorted(CRATES.glob("*/must-fail/*.edit")):
        check_edit(edit, edit.parent.parent)
    rows = set(re.findall(r"^\| `(\w+)` \| `(\w+)` \|", document("EDITS"), re.MULTILINE))
    edits = {(edit.parent.name, edit.stem): edit for edit in sorted(EDITS.glob("*/*.edit"))}
    for edit in edits.values():
        check_edit(edit, CRATES / edit.parent.name)
    for crate, name in sorted(rows ^ edits.keys()):
        say("EDITS", f"{crate}/{name} has a row and no file of bench/edits, or a file and no row")


def check_edit(edit, crate):
    texts, file, old = {}, None, None
    for line in edit.read_text().splitlines():
        word, _, rest = line.partition(": ")
        if word == "file":
            file = crate / rest.strip()
            if not file.is_file():
                return say(edit.relative_to(ROOT), f"no file {rest}")
            texts.setdefault(file, file.read_text())
        elif word == "old":
            old = rest
            if texts[file].count(old) != 1:
                say(edit.relative_to(ROOT), f"stands {texts[file].count(old)} times in {file.name}: {old}")
        elif word in ("new", "new:") and old in texts[file]:
            texts[file] = texts[file].replace(old, rest, 1)


check_layers()
check_names()
check_numbers()
check_edits()
print("all as it should" if not found else f"{len(found)} places")
sys.exit(bool(found))
