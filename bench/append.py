#!/usr/bin/env python3
"""Times an append to a journal in a file, two writes and two syncs, beside the same calls made by a plain program in C
(plain_append.c, built here by `cc`), and prints the ratio of the two.

    bench/append.py [FOLDER [APPENDS [LENGTH]]]       2000 payloads of 100 bytes in the folder for temporary files, if
                                                      not said

The journal is that of the crates `file_disk` and `farm_journal`. A small program over them is made in a temporary
folder, proved there and built by `rt run`. The two programs are run in turn, and each has the least of its times. What a
sync takes is the disk's: on a folder in memory it is nothing, and the ratio is then that of the processor's work alone.
"""
import os
import shutil
import subprocess
import sys
import tempfile

ROOT = os.path.dirname(os.path.dirname(os.path.abspath(__file__)))
CRATES = ["common_types", "farm_disk", "file_disk", "farm_journal"]
TURNS = 7

PROGRAM = """//! Appends payloads to a new journal in the file `journal`, and prints the nanoseconds that they took.
#![tactic(auto)]

use farm_disk::Disk;
use farm_journal::{GATE_LIMIT, Journal, MAX_PAYLOAD};
use file_disk::{FileDisk, Opening};
use std::alloc::Global;
use std::io;
use std::time::Instant;

const APPENDS: u32 = @APPENDS@;

const LENGTH: usize = @LENGTH@;

fn failed() -> io::Error {
    io::Error::from(io::ErrorKind::Other)
}

/// Appends a payload. Answers whether it was acknowledged.
fn append<D: Disk>(alloc: Global, journal: &mut Journal<D>, payload: &[u8]) -> bool {
    if journal.pending() {
        return false;
    }
    if journal.gate() >= GATE_LIMIT || payload.is_empty() || payload.len() > MAX_PAYLOAD {
        return false;
    }
    journal.append(alloc, payload).is_ok()
}

fn main(rt: HostRuntime) -> io::Result<()> {
    let alloc = rt.alloc();
    let payload = vec![in alloc; b'x'; LENGTH]?;
    let first = payload.as_slice().to_vec(alloc)?;
    if first.is_empty() || first.len() > MAX_PAYLOAD {
        return Err(failed());
    }
    let Ok(disk) = FileDisk::at(alloc, rt, "journal", Opening::FoundOrAppend(0)) else {
        return Err(failed());
    };
    let Ok(mut journal) = Journal::create(alloc, disk, first) else {
        return Err(failed());
    };
    let start = Instant::now(&rt)?;
    for _ in 0..APPENDS {
        if !append(alloc, &mut journal, &payload) {
            return Err(failed());
        }
    }
    let took = start.elapsed(&rt)?.as_nanos();
    rt.println(format_args!("{took}"))
}
"""


def build_journal(folder, appends, length):
    """The program over the journal, made and proved in this folder."""
    crate = os.path.join(folder, "crates", "append_bench")
    for name in CRATES:
        for part in ("src", "specs", "proofs"):
            source = os.path.join(ROOT, "crates", name, part)
            if os.path.isdir(source):
                shutil.copytree(source, os.path.join(folder, "crates", name, part))
    os.makedirs(os.path.join(crate, "src"))
    with open(os.path.join(ROOT, "crates.txt")) as lines:
        kept = [line for line in lines if line.split(":")[0] in CRATES]
    with open(os.path.join(folder, "crates.txt"), "w") as file:
        file.writelines(kept + ["append_bench: farm_journal file_disk farm_disk\n"])
    shutil.copy(os.path.join(ROOT, "HANDLES"), folder)
    with open(os.path.join(crate, "src", "main.rt"), "w") as file:
        file.write(PROGRAM.replace("@APPENDS@", str(appends)).replace("@LENGTH@", str(length)))
    subprocess.run(["rt", "run"], cwd=crate, check=True, stdout=sys.stderr, stdin=subprocess.DEVNULL)
    return [os.path.join(crate, "out", "append_bench")]


def build_plain(folder, appends, length):
    program = os.path.join(folder, "plain_append")
    subprocess.run(["cc", "-O2", "-o", program, os.path.join(ROOT, "bench", "plain_append.c")], check=True)
    return [program, "plain", str(appends), str(length)]


def nanoseconds_of(command, folder):
    """What the program says that its appends took, over a new file."""
    for name in ("journal", "plain"):
        path = os.path.join(folder, name)
        if os.path.exists(path):
            os.remove(path)
    return int(subprocess.run(command, cwd=folder, check=True, stdout=subprocess.PIPE).stdout)


def main():
    words = sys.argv[1:]
    where = words[0] if words else None
    appends, length = [int(word) for word in words[1:]] + [2_000, 100][max(len(words) - 1, 0):]
    with tempfile.TemporaryDirectory() as built, tempfile.TemporaryDirectory(dir=where) as folder:
        ours = build_journal(built, appends, length)
        plain = build_plain(built, appends, length)
        turns = [[nanoseconds_of(command, folder) for command in (ours, plain)] for _ in range(TURNS)]
    best = [min(turn[i] for turn in turns) / appends / 1000 for i in range(2)]
    print(f"{appends} appends of {length} bytes: {best[0]:.1f} us an append, and {best[1]:.1f} us in a plain program")
    print(f"ratio {best[0] / best[1]:.2f}; in turn " + ", ".join(f"{ours / plain:.2f}" for ours, plain in turns))


if __name__ == "__main__":
    main()
