#!/usr/bin/env python3
"""Tests of the launcher, the release and the gate, over the program that $CULPRIT_FINDER names (else the one that
`./finder --path` gives).

    CULPRIT_FINDER=PROGRAM python3 tools/test_finder.py

Each test has a small tree of its own: this repository's launcher, release scripts, tools and guides over three made-up
crates, so that sources may be changed and the toolchain be played by a script. PATH has the tools that the launcher
needs, and no `rt` where a test doesn't give one.
"""
import gzip
import os
import pathlib
import re
import shutil
import subprocess
import sys
import tempfile
import time
import unittest
import urllib.error
import urllib.request

from case_farm import own_port

ROOT = pathlib.Path(__file__).resolve().parent.parent
TOOLS = """awk bash cat chmod cmp cp cut date dirname env find getconf git grep gzip head install mkdir mktemp mv
python3 readlink rm sed sha256sum sleep sort tail tee timeout touch tr uname uniq wc xargs""".split()
KIT = "a-kit logic 0123"
EXAMPLE = ROOT / "examples/judge/range.txt"
ANSWER = (ROOT / "examples/judge/range.out").read_text()

# The toolchain, as far as the launcher calls it: a build takes the file that the tree's `next_build` names.
RT = f"""#!/bin/sh
case $1 in
  version) echo '{KIT}' ;;
  run)
    echo 'rt: chose --jobs 2 for low' >&2
    [ -f ../../fails ] && echo 'error: no proof of low::twice' >&2 && exit 1
    mkdir -p out ../low/out/rlib && touch ../low/out/rlib/stamp
    cp "$(cat ../../next_build)" out/culprit_finder ;;
  try)
    cat >/dev/null; echo 'by rt try'; echo 'checked: 5' >&2; echo 'run=ended status=12 steps=5' >&2 ;;
  *) exit 9 ;;
esac
"""


def program():
    """The program that the tools are tried over."""
    named = os.path.realpath(os.environ.get("CULPRIT_FINDER") or ROOT / "finder")
    if named == str(ROOT / "finder"):
        named = subprocess.run([named, "--path"], capture_output=True, text=True).stdout.strip()
    if not os.access(named, os.X_OK):
        raise unittest.SkipTest("no program: name one in $CULPRIT_FINDER")
    return pathlib.Path(named).resolve()


def script(path, text):
    path.write_text(text)
    path.chmod(0o755)


class Tree(unittest.TestCase):
    """A test with a tree of its own."""

    @classmethod
    def setUpClass(cls):
        cls.program = program()

    def setUp(self):
        folder = tempfile.TemporaryDirectory(prefix="test finder ")
        self.addCleanup(folder.cleanup)
        self.folder = pathlib.Path(folder.name)
        self.top = self.folder / "a tree"
        self.bin = self.folder / "bin"
        self.bin.mkdir()
        for name in TOOLS:
            place = sys.executable if name == "python3" else shutil.which(name)
            if place:
                (self.bin / name).symlink_to(place)
        for name in ("release", "tools", "examples", "docs", ".ci"):
            shutil.copytree(ROOT / name, self.top / name, ignore=shutil.ignore_patterns("out", "__pycache__", "*.gz"))
        (self.top / "release/manifest").unlink(missing_ok=True)
        shutil.copy(ROOT / "finder", self.top / "finder")
        (self.top / "HANDLES").write_text("Handles allowed: none.\n")
        (self.top / "crates.txt").write_text("# Layers\nlow:\nculprit_finder: low hex  # the program\nother: low\n")
        for name in ("low", "culprit_finder", "other"):
            for part in ("src", "specs", "proofs"):
                (self.top / "crates" / name / part).mkdir(parents=True)
            (self.top / "crates" / name / "src/lib.rt").write_text(f"//! {name}\n")
        (self.top / "crates/low/specs/Twice.antt").write_text("twice\n")
        self.age()

    def age(self):
        """Lets the sources be older than whatever is made from now on."""
        for path in self.top.rglob("*"):
            os.utime(path, (1_700_000_000, 1_700_000_000))

    def give_rt(self, build=None):
        script(self.bin / "rt", RT)
        (self.top / "next_build").write_text(str(build or self.program))

    def call(self, *words, stdin=None, **environment):
        given = stdin if stdin is not None else EXAMPLE.read_text()
        environment = {"PATH": str(self.bin), "HOME": str(self.folder), "LANG": "C.UTF-8", **environment}
        return subprocess.run([self.top / words[0], *words[1:]], input=given, capture_output=True, text=True,
                              env=environment, timeout=600, cwd=self.folder)

    def finder(self, *words, **more):
        return self.call("finder", *words, **more)

    def release(self):
        """Makes a release of the tree as it stands, and leaves no toolchain and no build behind."""
        self.give_rt()
        made = self.call("release/make", self.program)
        self.assertEqual(made.returncode, 0, made.stderr)
        (self.bin / "rt").unlink()

    def assert_answers(self, *, said=""):
        ran = self.finder("judge")
        self.assertEqual((ran.returncode, ran.stdout, ran.stderr), (0, ANSWER, said))

    def assert_refuses(self, why):
        ran = self.finder("judge")
        self.assertEqual((ran.returncode, ran.stdout), (1, ""))
        self.assertIn(why, ran.stderr)
        self.assertIn("rt isn't on PATH", ran.stderr)

    def made(self):
        return self.finder("--version").stdout.splitlines()[:1]


class Released(Tree):
    def test_a_fresh_clone_without_the_toolchain_answers(self):
        self.release()
        self.assert_answers()
        self.assert_answers()
        self.assertEqual(self.made(), ["culprit_finder, the released program"])
        self.assertEqual(self.finder("--path").stdout, f"{self.top}/release/out/culprit_finder\n")

    def test_it_serves_and_the_launcher_is_the_service(self):
        self.release()
        journal, address = self.folder / "farm.journal", f"127.0.0.1:{own_port()}"
        self.assertEqual(self.finder("found", journal, "60000", "10", "east:0").stdout, "founded\n")
        words = [self.top / "finder", "serve", journal, address, "2", "1000000000"]
        with subprocess.Popen(words, env={"PATH": str(self.bin)}) as service:
            try:
                totals = None
                for _ in range(1200):
                    try:
                        totals = urllib.request.urlopen(f"http://{address}/v1/totals", timeout=5).read()
                        break
                    except OSError:
                        time.sleep(0.05)
                self.assertIn(b'"entries":1', totals or b"no answer")
                shown = self.finder("show", journal)
                self.assertEqual((shown.returncode, shown.stdout), (5, ""))
                self.assertIn("finder: is a service running on the journal?", shown.stderr)
            finally:
                service.kill()
        self.assertEqual(self.finder("show", journal).returncode, 0)
        with self.assertRaises(urllib.error.URLError):
            urllib.request.urlopen(f"http://{address}/v1/totals", timeout=5)

    def test_a_changed_source_is_noticed_and_named(self):
        self.release()
        self.assert_answers()
        source = self.top / "crates/low/src/lib.rt"
        before, stamp = source.read_text(), source.stat()
        time.sleep(2.1)
        self.assert_answers()
        # The same length and the same time of modification.
        source.write_text(before.replace("low", "lov"))
        os.utime(source, ns=(stamp.st_atime_ns, stamp.st_mtime_ns))
        self.assert_refuses("it was made from other sources: of low\n")
        source.write_text(before)
        self.assert_answers()

    def test_added_moved_and_removed_sources_are_noticed(self):
        self.release()
        low, wrong = self.top / "crates/low", "it was made from other sources: of low\n"
        (low / "proofs/More.antt").write_text("")
        self.assert_refuses(wrong)
        (low / "proofs/More.antt").unlink()
        self.assert_answers()
        (low / "specs/Twice.antt").rename(low / "specs/Thrice.antt")
        self.assert_refuses(wrong)
        (low / "specs/Thrice.antt").rename(low / "specs/Twice.antt")
        self.assert_answers()
        (low / "src/lib.rt").unlink()
        self.assert_refuses(wrong)

    def test_lines_of_crates_and_handles_are_sources(self):
        self.release()
        crates = self.top / "crates.txt"
        crates.write_text(crates.read_text().replace("low hex", "low"))
        self.assert_refuses("of culprit_finder\n")
        crates.write_text(crates.read_text().replace(": low ", ": low hex "))
        self.assert_answers()
        (self.top / "HANDLES").write_text("Handles allowed: Net.\n")
        self.assert_refuses("of HANDLES\n")

    def test_what_the_program_does_not_stand_on_is_no_source(self):
        self.release()
        (self.top / "crates/other/src/lib.rt").write_text("//! a test\n")
        (self.top / "crates/low/stdin").write_text("4\n")
        self.assert_answers()

    def test_a_damaged_archive_is_refused(self):
        self.release()
        archive = self.top / "release/culprit_finder.gz"
        whole = archive.read_bytes()
        other = gzip.compress(b"#!/bin/sh\necho yes\n")
        for damaged in (whole[:5000], whole[:5000] + b"x" + whole[5001:], other, b""):
            archive.write_bytes(damaged)
            self.assert_refuses("culprit_finder.gz is damaged")
            self.assertEqual([it.name for it in (self.top / "release/out").glob("culprit*")], [])
        archive.write_bytes(whole)
        self.assert_answers()

    def test_an_unpacked_program_with_other_bytes_is_made_anew(self):
        self.release()
        self.assert_answers()
        script(self.top / "release/out/culprit_finder", "#!/bin/sh\necho yes\n")
        self.assert_answers()

    def test_other_machines_are_told_what_it_is_for(self):
        self.release()
        said = (self.top / "release/manifest").read_text()
        least = re.search(r"^runs-on Linux x86_64 glibc (2\.\d+)$", said, re.M)[1]
        wanted = f"it is for Linux on x86-64 with glibc {least} or newer, and this is "
        for name, says, told in (
            ("uname", "echo Linux aarch64", "Linux aarch64 with glibc"),
            ("uname", "echo Darwin x86_64", "Darwin x86_64 with glibc"),
            ("getconf", "echo glibc 2.9", "Linux x86_64 with glibc 2.9\n"),
            ("getconf", "exit 1", "Linux x86_64 with no glibc\n"),
        ):
            with self.subTest(says):
                real = os.readlink(self.bin / name)
                (self.bin / name).unlink()
                script(self.bin / name, f"#!/bin/sh\n{says}\n")
                self.assert_refuses(wanted + told)
                (self.bin / name).unlink()
                (self.bin / name).symlink_to(real)

    def test_it_is_made_the_same_each_time(self):
        self.release()
        first = [(self.top / "release" / it).read_bytes() for it in ("manifest", "culprit_finder.gz")]
        self.program = pathlib.Path(shutil.copyfile(self.program, self.folder / "another file"))
        self.program.chmod(0o755)
        self.release()
        again = [(self.top / "release" / it).read_bytes() for it in ("manifest", "culprit_finder.gz")]
        self.assertEqual(first, again)
        self.assertEqual(gzip.decompress(again[1]), self.program.read_bytes())

    def test_a_check_builds_and_compares(self):
        self.release()
        self.give_rt()
        checked = self.call("release/check")
        self.assertEqual(checked.returncode, 0, checked.stderr)
        self.assertIn("the released program is the one that was built here", checked.stdout)
        (self.top / "crates/low/src/lib.rt").write_text("//! lower\n")
        checked = self.call("release/check")
        self.assertEqual((checked.returncode, "of low" in checked.stderr), (1, True))
        (self.top / "crates/low/src/lib.rt").write_text("//! low\n")
        other = self.folder / "other program"
        other.write_bytes(self.program.read_bytes() + b"x")
        other.chmod(0o755)
        self.give_rt(other)
        checked = self.call("release/check")
        self.assertEqual((checked.returncode, "another program" in checked.stderr), (1, True))


class Built(Tree):
    def test_help_needs_neither_program_nor_toolchain(self):
        for words in (["--help"], ["help"], [], ["help", "serve"], ["serve", "--help"], ["--help", "build"],
                      ["build", "--help"], ["install", "-h"]):
            ran = self.finder(*words)
            self.assertEqual((ran.returncode, ran.stderr), (0, ""), words)
            self.assertIn("./finder ", ran.stdout)
        self.assertIn("127.0.0.1:8080 4 1000000000\n", self.finder("serve", "--help").stdout)
        for words in (["help", "sevre"], ["build", "all"], ["install", "a", "b"]):
            self.assertEqual(self.finder(*words).returncode, 2)
        ran = self.finder("judge", OSTYPE="darwin23")
        self.assertEqual((ran.returncode, "is for Linux, and this is" in ran.stderr), (1, True))

    def test_each_word_of_the_list_has_its_page(self):
        words = re.findall(r"^  ./finder (\w+)", self.finder("--help").stdout, re.M)
        self.assertGreaterEqual(len(set(words)), 13)
        for word in {*words} - {"help"}:
            self.assertIn(f"./finder {word}", self.finder("help", word).stdout)

    def test_without_a_program_it_says_what_to_do(self):
        self.assert_refuses("there is none")
        ran = self.finder("serve", "a.journal", "127.0.0.1:1", "4", "1000000000")
        self.assertEqual((ran.returncode, ran.stdout), (1, ""))
        for words in (["build"], ["install", str(self.folder)], ["--path"], ["--version"]):
            ran = self.finder(*words)
            self.assertEqual((ran.returncode, ran.stdout), (1, ""), words)
            self.assertIn("rt isn't on PATH", ran.stderr)

    def test_the_toolchain_alone_runs_it_unproved(self):
        self.give_rt()
        ran = self.finder("judge")
        self.assertEqual((ran.returncode, ran.stdout), (12, "by rt try\n"))
        self.assertRegex(ran.stderr, r"\Afinder: this run is unproved, .*\n\Z")
        ran = self.finder("show", "a.journal")
        self.assertEqual((ran.returncode, ran.stdout), (1, ""))
        self.assertIn("./finder build", ran.stderr)

    def test_a_build_says_how_far_it_is_and_is_then_run(self):
        self.give_rt()
        ran = self.finder("build")
        self.assertEqual(ran.returncode, 0, ran.stderr)
        self.assertIn("finder: 0 of 2 crates are proved; from nothing", ran.stderr)
        self.assertRegex(ran.stderr, r"built, in \d+ min \d+ s")
        self.assert_answers()
        self.assertEqual(self.made(), ["culprit_finder, the built program"])
        self.assertEqual(self.finder("build").stderr, "finder: already built\n")

    def test_a_build_that_fails_says_why(self):
        self.give_rt()
        (self.top / "fails").touch()
        ran = self.finder("build")
        self.assertEqual(ran.returncode, 1)
        self.assertIn("error: no proof of low::twice", ran.stderr)
        log = re.search(r"all that was said is in (.*)", ran.stderr)[1]
        self.assertIn("rt: chose --jobs 2", pathlib.Path(log).read_text())
        os.unlink(log)

    def test_a_crate_that_is_done_is_told(self):
        self.give_rt()
        goes_on = ("    echo 'rt: chose --jobs 2 for culprit_finder' >&2; turns=0\n"
                   "    until [ -e ../../told ] || [ $turns = 1200 ]; do sleep 0.1; turns=$((turns + 1)); done\n")
        script(self.bin / "rt", RT.replace('    cp "$(cat', goes_on + '    cp "$(cat'))
        words, env = [self.top / "finder", "build"], {"PATH": str(self.bin), "HOME": str(self.folder)}
        with subprocess.Popen(words, env=env, stdin=subprocess.DEVNULL, stderr=subprocess.PIPE, text=True) as build:
            lines = iter(build.stderr.readline, "")
            self.assertTrue(any(re.match(r"finder: 1 of 2 crates are proved, after \d+ min\n", it) for it in lines))
            (self.top / "told").touch()
            build.communicate()
        (self.top / "crates/low/specs/Twice.antt").write_text("thrice\n")
        self.assertIn("finder: 0 of 2 crates are proved; from nothing", self.finder("build").stderr)

    def test_an_older_build_is_run_and_said_where_there_is_no_release(self):
        self.give_rt()
        self.finder("build")
        (self.bin / "rt").unlink()
        (self.top / "crates/low/src/lib.rt").write_text("//! lower\n")
        os.utime(self.top / "crates/low/src/lib.rt", (2_000_000_000, 2_000_000_000))
        self.assert_answers(said="finder: the sources are newer than the program, crates/low/src/lib.rt is one: "
                                 "./finder build\n")
        # A change of a crate that the program doesn't stand on makes it no older.
        os.utime(self.top / "crates/low/src/lib.rt", (1_700_000_000, 1_700_000_000))
        os.utime(self.top / "crates/other/src/lib.rt", (2_000_000_000, 2_000_000_000))
        self.assert_answers()

    def test_the_released_program_comes_before_an_older_build(self):
        self.give_rt()
        self.finder("build")
        os.utime(self.top / "crates/low/src/lib.rt", (2_000_000_000, 2_000_000_000))
        self.release()
        self.assertEqual(self.made(), ["culprit_finder, the released program"])


class Words(Tree):
    FITS = """judge|audit|run|run J|found J 1000 0 east:840|found J 86400000 1000 west:720|show J|rates J|drill 1 1
evidence J 1|evidence J 4294967295|close J|inherit J 1000 0 east:840
serve J A 16 1000000000|follow J A 1000000|work A 1000000 1 table:P|work A b 1000000 host:A"""
    MISFITS = """judgee|judge J|audit J|run J K|found J 999 0 east:0|found J 86400001 0 east:0|found J 1000 1001 east:0
found J 01000 0 east:0|found J 1000 0 east:841|found J 1000 0 west:721|found J 1000 0 west:07|found J 1000 0 north:1
found J 1000 0|found J 1000 0 east:0 x|show|show J K|show -J|rates|serve J A 0 1|serve J A 17 1|serve J A 4 0
serve J A 4 1000000001|serve J A 4 99999999999999999999|serve J A 4|follow J A 0|follow J A 1000001|follow J A
work A b 0 host:A|work A b 1000001 host:A|work A b 1 host:|work A b 1 file:P|work A b 1|drill 0 1|drill 2001 1
drill 1 0|drill 1 5|drill 1|drill 1 1 1|evidence J|evidence J 0|evidence J 4294967296|evidence J 01
close|close J K|inherit J|inherit J 999 0 east:0|inherit J 1000 1001 east:0|inherit J 1000 0 east:841
inherit -J 1000 0 east:0
--judge|judge --x|help-me"""

    def test_the_launcher_says_why_exactly_where_the_program_answers_usage(self):
        """Of the words that fit those are tried that end at once: for want of a journal, of a table or of input."""
        self.release()
        lists = [it.split() for it in re.split(r"[|\n]", f"{self.FITS}\n{self.MISFITS}")]
        lists += [["show", ""], [""], ["work", "A", "b\u00e9", "1", "host:A"], ["work", "A", "", "1", "host:A"],
                  ["work", "A", "x" * 201, "1", "host:A"], ["work", "A", "a b", "1", "table:/nowhere"]]
        for words in lists:
            lasts = words[:1] in (["drill"], ["found"], ["follow"], ["serve"]) or words[-1].startswith("host:")
            if lasts and " ".join(words) in self.FITS:
                continue
            ran = self.finder(*words, stdin="")
            with self.subTest(words):
                self.assertEqual(ran.stderr.startswith("finder: "), ran.returncode == 2, ran.stderr)
                self.assertEqual(ran.stderr.endswith("usage\n"), ran.returncode == 2, ran.stderr)

    def test_tools_are_given_the_program_and_their_words(self):
        self.assertIn("rt isn't on PATH", self.finder("explain", "J", "1").stderr)
        self.release()
        shown = "import os, sys\nprint(os.environ['CULPRIT_FINDER'], sys.argv[1:])\n"
        for tool in ("explain", "watch", "board"):
            (self.top / "tools" / tool).write_text(shown)
            program = "" if tool == "watch" else f"{self.top}/release/out/culprit_finder"
            ran = self.finder(tool, "a b", "--from")
            self.assertEqual((ran.returncode, ran.stdout), (0, f"{program} ['a b', '--from']\n"), ran.stderr)
        (self.bin / "python3").unlink()
        ran = self.finder("watch", "x")
        self.assertEqual((ran.returncode, "python3 isn't on PATH" in ran.stderr), (1, True))

    def test_words_that_fit_are_handed_on_as_they_are(self):
        self.give_rt()
        shown = self.folder / "shows its words"
        script(shown, '#!/bin/sh\nprintf "<%s>" "$@"\n')
        (self.top / "next_build").write_text(str(shown))
        self.finder("build")
        for line in re.split(r"[|\n]", self.FITS):
            ran = self.finder(*line.split())
            self.assertEqual((ran.stdout, ran.stderr), ("".join(f"<{it}>" for it in line.split()), ""))
        self.assertEqual(self.finder("show", "a b $c").stdout, "<show><a b $c>")


class Installed(Tree):
    def test_an_installed_program_needs_no_repository(self):
        self.release()
        to = self.folder / "in stalled"
        ran = self.finder("install", str(to))
        self.assertEqual((ran.returncode, ran.stderr), (0, f"install: {to}/bin is not on PATH\n"))
        files = {str(it.relative_to(to)) for it in to.rglob("*") if it.is_file()}
        self.assertEqual({f"{to}/{it}" for it in files}, set(ran.stdout.splitlines()))
        for name in ("bin/finder", "bin/culprit_finder", "bin/git-culprit", "share/man/man1/finder.1",
                     "share/man/man1/git-culprit.1", "share/man/man1/finder-explain.1", "lib/culprit_finder/explain",
                     "lib/culprit_finder/board_page.html", "lib/systemd/system/culprits.service"):
            self.assertIn(name, files)
        shutil.rmtree(self.top)
        here = {"env": {"PATH": f"{to}/bin:{self.bin}", "HOME": str(self.folder)}, "capture_output": True, "text": True}
        ran = subprocess.run(["finder", "judge"], input=EXAMPLE.read_text(), **here)
        self.assertEqual((ran.returncode, ran.stdout, ran.stderr), (0, ANSWER, ""))
        ran = subprocess.run(["finder", "--version"], **here)
        sums = r"program [0-9a-f]{64}\nsources [0-9a-f]{64}\nkit "
        self.assertRegex(ran.stdout, r"\Aculprit_finder, the installed program\n" + sums)
        self.assertIn("  finder judge ", subprocess.run(["finder", "--help"], **here).stdout)
        self.assertEqual(subprocess.run(["finder", "build"], **here).returncode, 2)
        self.assertEqual(subprocess.run(["git", "culprit", "-h"], **here).returncode, 0)
        subprocess.run(["finder", "found", "a journal", "60000", "10", "east:0"], cwd=self.folder, **here)
        ran = subprocess.run(["finder", "explain", "a journal", "1"], cwd=self.folder, **here)
        said = "finder explain: the farm has no search 1: it has none yet\n"
        self.assertEqual((ran.returncode, ran.stdout, ran.stderr), (3, "", said))
        ran = subprocess.run(["finder", "watch", "127.0.0.1:1", "--from", "0"], **here)
        self.assertEqual((ran.returncode, ran.stderr), (2, "finder watch: 0 is no number of an entry, from 1 on\n"))
        ran = subprocess.run(["finder", "board", "x", "127.0.0.1"], **here)
        said = "finder board: 127.0.0.1 is no address, as 127.0.0.1:8090\n"
        self.assertEqual((ran.returncode, ran.stderr), (2, said))
        (self.folder / "finder").symlink_to(to / "bin/finder")
        ran = subprocess.run([self.folder / "finder", "--path"], **here)
        self.assertEqual(ran.stdout, f"{to}/bin/culprit_finder\n")

    def test_units_name_what_was_installed(self):
        self.release()
        self.finder("install", str(self.folder / "usr"))
        for unit in (self.folder / "usr/lib/systemd/system").iterdir():
            for line in unit.read_text().splitlines():
                if line.startswith("ExecStart="):
                    self.assertTrue(line.startswith(f"ExecStart={self.folder}/usr/bin/culprit_finder "), line)

    def test_the_default_is_the_home_folder(self):
        self.release()
        self.assertEqual(self.finder("install").returncode, 0)
        self.assertTrue((self.folder / ".local/bin/finder").is_file())


class Gate(Tree):
    def gate(self, *, rt=("3 passed, 0 failed", 0), tools=("5 passed, 0 failed", 0), builds=True):
        out = "crates/culprit_finder/out"
        made = f"mkdir -p {out} && cp finder {out}/culprit_finder" if builds else ":"
        script(self.bin / "rt", f"#!/bin/sh\n[ \"$*\" = ci ] || exit 9\n{made}\n"
                                f"echo proving\necho '{rt[0]}'\nexit {rt[1]}\n")
        script(self.top / "tools/test", f"#!/bin/sh\necho \"over $1\"\necho '{tools[0]}'\nexit {tools[1]}\n")
        ran = subprocess.run(["bash", self.top / ".ci/run"], env={"PATH": str(self.bin)}, capture_output=True,
                             text=True, stdin=subprocess.DEVNULL, timeout=600)
        return ran.returncode, ran.stdout.splitlines()

    def test_its_last_line_has_both_sums_and_its_status_is_the_worse(self):
        over = f"over {self.top}/crates/culprit_finder/out/culprit_finder"
        wanted = ["proving", "3 passed, 0 failed", over, "5 passed, 0 failed", "8 passed, 0 failed"]
        self.assertEqual(self.gate(), (0, wanted))
        for rt, tools, wanted in (
            (("3 passed, 1 failed", 1), ("5 passed, 0 failed", 0), (1, "8 passed, 1 failed")),
            (("3 passed, 0 failed", 0), ("5 passed, 2 failed", 1), (1, "8 passed, 2 failed")),
            (("3 passed, 1 failed", 1), ("5 passed, 2 failed", 3), (3, "8 passed, 3 failed")),
            (("killed", 137), ("5 passed, 0 failed", 0), (137, "5 passed, 1 failed")),
            (("3 passed, 0 failed", 0), ("Traceback", 1), (1, "3 passed, 1 failed")),
        ):
            status, lines = self.gate(rt=rt, tools=tools)
            self.assertEqual((status, lines[-1]), wanted)

    def test_tools_are_left_out_where_they_cannot_be_tried(self):
        status, lines = self.gate(rt=("0 passed, 1 failed", 2), builds=False)
        self.assertEqual((status, lines[1:]), (2, ["0 passed, 1 failed", "tools: not tried, as no program was built",
                                                   "0 passed, 1 failed"]))
        (self.bin / "git").unlink()
        status, lines = self.gate()
        missing = "tools: not tried, as python3 or git is missing"
        self.assertEqual((status, lines[1:]), (0, ["3 passed, 0 failed", missing, "3 passed, 0 failed"]))

    def test_it_runs_rt_ci_plainly(self):
        self.assertIn("rt ci", (ROOT / ".ci/run").read_text().splitlines())


class Here(unittest.TestCase):
    """What stands in this very tree."""

    def test_the_released_program_is_the_one_that_was_built(self):
        built, manifest = ROOT / "crates/culprit_finder/out/culprit_finder", ROOT / "release/manifest"
        if not manifest.is_file() or program() != built.resolve() or not shutil.which("rt"):
            self.skipTest("no release, or not over the program that was built here")
        said = dict(it.split(" ", 1) for it in manifest.read_text().splitlines() if not it.startswith(("#", "crate ")))
        least = said["runs-on"].rpartition("glibc ")[2]
        self.assertIn(least, re.findall(r"glibc (\S+)", (ROOT / "README.md").read_text()))
        words = 'root=$1; . "$1/release/sources.sh"; find_places; sum_sources; echo "$sources"'
        sources = subprocess.run(["bash", "-c", words, "", ROOT], capture_output=True, text=True).stdout.strip()
        kit = subprocess.run(["rt", "version"], capture_output=True, text=True).stdout.strip()
        if (said["sources"], said["kit"]) != (sources, kit):
            self.skipTest("the release is of other sources, or of another kit")
        released = gzip.decompress((ROOT / "release/culprit_finder.gz").read_bytes())
        self.assertTrue(released == built.read_bytes(), "the released program isn't the one that was built here")

    def test_the_manual_has_each_word_and_option(self):
        manual = {it.stem: re.sub(r"\\f[BIR]", "", it.read_text()).replace("\\-", "-")
                  for it in (ROOT / "tools/man").iterdir()}
        said = subprocess.run([ROOT / "finder", "--help"], capture_output=True, text=True).stdout
        for word in re.findall(r"^  ./finder (\w+)", said, re.M):
            self.assertRegex(manual["finder"], rf"finder {word}\b")
        option = re.compile(r"(?<![\w-])--[a-z][a-z-]+")
        tools = {"git-culprit": "git-culprit", **{it: f"finder-{it}" for it in ("explain", "watch", "board")}}
        for tool, page in tools.items():
            ran = subprocess.run([sys.executable, ROOT / "tools" / tool, "-h"], capture_output=True, text=True)
            self.assertLessEqual({*option.findall(ran.stdout)}, {*option.findall(manual[page])})
            self.assertGreaterEqual(len(option.findall(ran.stdout)), 2)

    def test_the_units_are_those_that_the_guide_shows(self):
        shown = re.findall(r"(?:^    .*\n|^\n)+", (ROOT / "docs/OPERATING.md").read_text(), re.M)
        shown = [re.sub(r"^    ", "", it, flags=re.M).strip() + "\n" for it in shown]
        files = {it.name: it.read_text() for it in (ROOT / "tools/systemd").iterdir()}
        for name in ("culprits.service", "culprits-worker@.service"):
            self.assertIn(files[name], shown)


if __name__ == "__main__":
    sys.exit(unittest.main())
