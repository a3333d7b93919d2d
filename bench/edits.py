#!/usr/bin/env python3
"""Tries the wrong bodies of bench/edits again: the edits that the provers refused once and that are no part of the gate.

    bench/edits.py [CRATE | CRATE/NAME ..]        all of them, some two hours of a processor, if none is named

Each edit `bench/edits/CRATE/NAME.edit` has the form of a must-fail edit. The crates that are named, and all below them,
are copied to a folder for temporary files, with what `rt check` has proved here; the edits stand in the copy as the
gate's own do, and `rt must-fail` tries each there: a check of its crate, and ten to forty seconds for each edit. A line
an edit says whether the prover refused it, and the first goal that it refused. Status 1 where one is still proved, isn't
tried or doesn't apply. The work tree stays as it is; docs/EDITS.md has what the last try came to.
"""
import pathlib
import re
import shutil
import subprocess
import sys
import tempfile

ROOT = pathlib.Path(__file__).resolve().parent.parent
EDITS = ROOT / "bench" / "edits"
TRIED = re.compile(r"(?:rt: )?must-fail (\w+)/(\w+)\.edit: (.*)")


def lines_of_crates():
    """Each crate's line of crates.txt, and the crates that it names."""
    lines, below = {}, {}
    for line in (ROOT / "crates.txt").read_text().splitlines():
        words, colon, names = line.partition("#")[0].partition(":")
        if colon:
            lines[words.split()[0]] = line
            below[words.split()[0]] = names.split()
    return lines, {name: [it for it in names if it in below] for name, names in below.items()}


def edits_named(words):
    """The files of the edits that the words name, or of all where there are no words."""
    if not words:
        return sorted(EDITS.glob("*/*.edit"))
    edits = []
    for word in words:
        crate, slash, name = word.partition("/")
        found = sorted((EDITS / crate).glob(f"{name}.edit" if slash else "*.edit"))
        if not found:
            sys.exit(f"no edit of bench/edits is named {word}")
        edits += found
    return edits


def copy_of(room, edits):
    """Copies what the edits' crates stand on to the folder, with these edits and no other."""
    lines, below = lines_of_crates()
    crates = {edit.parent.name for edit in edits}
    asked = list(crates)
    while asked:
        new = set(below[asked.pop()]) - crates
        crates |= new
        asked += new
    (room / "crates.txt").write_text("".join(f"{line}\n" for name, line in lines.items() if name in crates))
    shutil.copy(ROOT / "HANDLES", room)
    for name in crates:
        shutil.copytree(ROOT / "crates" / name, room / "crates" / name, ignore=shutil.ignore_patterns("must-fail"))
    for edit in edits:
        folder = room / "crates" / edit.parent.name / "must-fail"
        folder.mkdir(exist_ok=True)
        shutil.copy(edit, folder)


def main():
    edits = edits_named(sys.argv[1:])
    with tempfile.TemporaryDirectory(prefix="edits-") as folder:
        room = pathlib.Path(folder)
        copy_of(room, edits)
        names = sorted({edit.parent.name for edit in edits})
        words = ["rt", "must-fail", *names]
        ran = subprocess.Popen(words, cwd=room, stdout=subprocess.PIPE, stderr=subprocess.STDOUT, text=True)
        told = {}
        for line in ran.stdout:
            tried = TRIED.match(line)
            if tried:
                told[tried[1], tried[2]] = tried[3]
                print(f"{tried[1]}/{tried[2]}: {tried[3]}", flush=True)
            elif "NOT PROVED" in line or "error" in line:
                print(line, end="", flush=True)
        ran.wait()
    lost = [f"{edit.parent.name}/{edit.stem}" for edit in edits if (edit.parent.name, edit.stem) not in told]
    refused = sum(text.startswith("refused") for text in told.values())
    for name in lost:
        print(f"{name}: not tried")
    print(f"{refused} of {len(edits)} refused")
    sys.exit(refused != len(edits))


main()
