"""The repository that is searched: its commits, the range with its suspects, and what is known of them beforehand."""
from __future__ import annotations

import math
import os
import subprocess
from typing import Any, NamedTuple, Optional, Sequence

from culprit_lib import NoAnswer, Usage, plain

MOST_SUSPECTS = 1_000  # the program's limit
LARGEST = 8  # the largest prior weight: small ones leave the program's numbers room for more runs
ATTRIBUTES = ":(top,glob)**/.gitattributes"
CONFIG = ("core.hooksPath=" + os.devnull, "submodule.recurse=false", "advice.detachedHead=false", "gc.auto=0",
          "core.fsmonitor=false")
# What tells of a folder or a repository, and would lead a run to the user's own.
PLACES = ("GIT_DIR", "GIT_WORK_TREE", "GIT_INDEX_FILE", "GIT_PREFIX", "GIT_COMMON_DIR", "GIT_OBJECT_DIRECTORY",
          "GIT_ALTERNATE_OBJECT_DIRECTORIES", "GIT_NAMESPACE", "GIT_IMPLICIT_WORK_TREE", "GIT_GRAFT_FILE", "OLDPWD")


def git_words(*words: str) -> list[str]:
    """A command of git: no hook is run, and nothing is done on the side."""
    return ["git", *(word for one in CONFIG for word in ("-c", one)), *words]


class Commit(NamedTuple):
    """A commit: its id and short id, its parents, its author, when it was written (seconds since 1970), its subject."""

    id: str
    parents: list[str]
    short: str
    author: str
    date: int
    subject: str

    def shown(self) -> dict[str, Any]:
        """The commit as a report has it."""
        return {"commit": self.id, "short": self.short, "parents": self.parents, "author": self.author,
                "date": self.date, "subject": self.subject}


class Repository:
    """The repository that the tool was started in, or that of a folder: `common` is its folder for git, `prefix` where
    the user stands in his work tree. `inside` is the environment of what runs in a run's work tree, `outside` that of
    other commands. Each command holds the files `held` open, and so the lock, where this process is killed before it
    ends."""

    def __init__(self, folder: Optional[str] = None) -> None:
        self.held: tuple[int, ...] = ()
        self.inside = {name: value for name, value in os.environ.items() if name not in PLACES}
        env = dict(os.environ) if folder is None else self.inside
        lines = self._ask(["git", "rev-parse", "--git-common-dir", "--show-prefix"], env, folder).split("\n")
        self.common, self.prefix = os.path.realpath(os.path.join(folder or "", lines[0])), lines[1]
        self.outside = {**self.inside, "GIT_DIR": self.common}

    def _ask(self, words: Sequence[str], env: dict[str, str], folder: Optional[str] = None) -> str:
        try:
            ended = subprocess.run(words, stdin=subprocess.DEVNULL, capture_output=True, check=False, env=env,
                                   cwd=folder, pass_fds=self.held)
        except FileNotFoundError as fault:
            raise NoAnswer("git isn't on PATH") from fault
        if ended.returncode != 0:
            said = ended.stderr.decode("utf-8", "replace").strip() or f"it ended with {ended.returncode}"
            raise Usage("git: " + plain(said.splitlines()[0].replace("fatal: ", "")))
        return os.fsdecode(ended.stdout)

    def git(self, *words: str) -> str:
        """What a command of git writes, in this repository."""
        return self._ask(git_words(*words), self.outside, self.common)

    def says(self, *words: str) -> bool:
        """Whether a command of git that answers by its status says yes."""
        try:
            self.git(*words)
        except Usage:
            return False
        return True

    def says_in(self, tree: str, *words: str) -> bool:
        """Whether such a command says yes in a work tree of a run."""
        try:
            self.git_in(tree, *words)
        except Usage:
            return False
        return True

    def git_in(self, tree: str, *words: str) -> str:
        """What a command of git writes in a work tree of a run."""
        return self._ask(git_words(*words), self.inside, tree)

    def commits(self, *words: str, env: Optional[dict[str, str]] = None) -> list[Commit]:
        """The commits that `git rev-list` gives for the words."""
        form = "--format=%H%x00%P%x00%h%x00%an%x00%at%x00%s"
        said = self._ask(["git", "rev-list", "--encoding=UTF-8", form, *words], env or self.outside)
        text = os.fsencode(said).decode("utf-8", "replace")
        rows = (line.split("\0") for line in text.split("\n")[1::2])
        return [Commit(id, parents.split(), short, author, int(date or 0), subject)
                for id, parents, short, author, date, subject in rows]

    def commit(self, name: str) -> Commit:
        """The commit that a name of the user's stands for: his HEAD may be that of a linked work tree."""
        try:
            return self.commits("--no-walk", f"{name}^{{commit}}", "--", env=dict(os.environ))[0]
        except (Usage, IndexError):
            raise Usage(f"{name} names no commit of this repository") from None

    def described(self, commit: str) -> str:
        """A commit's message and the files that it changed."""
        form = "--format=commit %H%nAuthor: %an <%ae>%nDate:   %ad%n%n%w(0,4,4)%B"
        said = self.git("show", "-m", "--first-parent", "--no-color", "--stat=100", "--encoding=UTF-8", form, commit)
        return os.fsencode(said).decode("utf-8", "replace")


class Range(NamedTuple):
    """The range that is searched: its ends, its commits in order, the suspects, how many commits each stands for."""

    words: str
    good: Commit
    bad: Commit
    commits: list[Commit]
    suspects: list[Commit]
    sizes: list[int]


def range_of(repository: Repository, words: str, order: str, every: int) -> Range:
    """The range that the words name, each `every`-th commit of it a suspect, counted from BAD.

    In another order than that of first parents the range has to be a line: the tree of a suspect holds all suspects
    before it, and beside a merge that isn't so."""
    start, dots, above = words.partition("..")
    if not start or not dots or above.startswith("."):
        raise Usage(f"the range is GOOD..BAD, as in v2.3..main, and not {words}")
    above = above or "HEAD"
    good, bad = repository.commit(start), repository.commit(above)
    if not repository.says("merge-base", "--is-ancestor", good.id, bad.id):
        raise Usage(f"{start} is no ancestor of {above}: start from where they part, as in "
                    f"git culprit $(git merge-base {start} {above})..{above} -- ..")
    commits = repository.commits("--reverse", order, f"{good.id}..{bad.id}")
    if not commits:
        raise Usage(f"there are no commits in {words}")
    line = [good.id, *(commit.id for commit in commits)]
    if order != "--first-parent" and any(commit.parents != [below] for commit, below in zip(commits, line)):
        raise Usage(f"--all is for a line of commits, and {words} has merges: a commit beside a merge doesn't hold all "
                    "that stand before it, so a pass there would clear the wrong ones. Leave it out: a merge is one "
                    "suspect then, and where it is named, the end says how to go on inside it")
    if -(-len(commits) // every) > MOST_SUSPECTS:
        least = -(-len(commits) // MOST_SUSPECTS)
        raise Usage(f"{words} has {len(commits):,} commits, and a search takes {MOST_SUSPECTS:,}: add --every {least}, "
                    f"which finds {least} commits one of which it is, or give a narrower range")
    ends = [index for index in range(len(commits)) if (len(commits) - 1 - index) % every == 0]
    sizes = [index - before for index, before in zip(ends, [-1, *ends])]
    return Range(words, good, bad, commits, [commits[index] for index in ends], sizes)


def changes_attributes(repository: Repository, span: Range, order: str) -> bool:
    """Whether a commit of the range changes a .gitattributes, and so perhaps files that it doesn't change otherwise."""
    ends = f"{span.good.id}..{span.bad.id}"
    words = ("rev-list", "--max-count=1", order, "--full-history", ends, "--", ATTRIBUTES)
    return repository.git(*words) != ""


def prior_weights(repository: Repository, span: Range, prior: str, order: str) -> list[int]:
    """The prior weight of each suspect: small whole numbers, of which only the proportions count."""
    ends = f"{span.good.id}..{span.bad.id}"
    each: dict[str, int] = {}
    if prior == "size":
        each = {id: min(4, len(str(lines))) for id, lines in changed_lines(repository, order, ends).items()}
    elif prior.startswith("paths:") and prior != "paths:":
        globs = [f":(top,glob){glob}" for glob in prior[len("paths:"):].split(",")]
        each = dict.fromkeys(repository.git("rev-list", order, "--full-history", ends, "--", *globs).split(), 3)
    elif prior != "even":
        raise Usage(f"--prior is even, size or paths:GLOB[,GLOB..], and not {prior}")
    singles = iter(span.commits)
    weights = [sum(each.get(next(singles).id, 1) for _ in range(size)) for size in span.sizes]
    top = max(weights)
    if top > LARGEST:
        weights = [max(1, (weight * LARGEST + top // 2) // top) for weight in weights]
    common = math.gcd(*weights)
    return [weight // common for weight in weights]


def changed_lines(repository: Repository, order: str, ends: str) -> dict[str, int]:
    """How many lines each commit of a range added and removed."""
    shape = ("--no-show-signature", "--no-renames", "--numstat", "--format=%x00%H")
    merges = ("-m",) if order == "--first-parent" else ()
    lines: dict[str, int] = {}
    for part in repository.git("log", order, *merges, *shape, ends).split("\0")[1:]:
        id, _, changes = part.partition("\n")
        fields = (line.split("\t") for line in changes.split("\n"))
        lines[id] = sum(int(number) for row in fields for number in row[:2] if number.isdigit())
    return lines
