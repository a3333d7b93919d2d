#!/usr/bin/env python3
"""What one has to read to believe the program: the definitions that the contract of `finder` reaches.

    bench/trust.py PART ..     the reading lists of parts: `outside` is what stands over all subcommands, and one as
                               `judge` or `run_journal` what that subcommand's case of `FinderSays` reaches beyond it;
                               `all` is everything. A line has how many lines of a module are reached, how many it
                               has, and its first sentence; what a module speaks of stands below it. Behind them stand
                               the types and constants of the code that the definitions speak of
    bench/trust.py             the tables of docs/TRUST.md, which have the numbers
    bench/trust.py --write     puts them there

It reads the texts alone, and needs nothing built. A definition reaches the names in its text that its module defines or
imports; comments and texts in quotes count as none. bench/documents.py says where a table isn't as it is made here.
"""
from __future__ import annotations

import pathlib
import re
import sys

ROOT = pathlib.Path(__file__).resolve().parent.parent
CRATES = ROOT / "crates"
PAGE = ROOT / "docs" / "TRUST.md"
TOKEN = re.compile(r"[A-Za-z_][\w']*(?:-[\w']+)*(?:\.[A-Za-z_][\w'-]*)*")
USE = re.compile(r"^[ \t]*(?:ghost |pub )*use (Rattle(?:\.\w+)+?)(?:\.\{([^}]*)\}| as (\w+))?[ \t]*;?[ \t]*$", re.M)
HEAD = re.compile(r"((?:(?:abbrev|unfoldable|pub|record|data)\s+)*)([A-Za-z_][\w'-]*)")
RUST_USE = re.compile(r"^(?:pub )?use ([\w:]+)::(\{[^}]*\}|\w+);", re.M)
Node = tuple[str, str, str]  # "spec" or "src", the module, the name


class Module:
    """The text of one module of definitions or of code, its imports, and its definitions by name."""

    def __init__(self, path: str, file: pathlib.Path):
        self.path, self.file, self.text = path, file, file.read_text()
        self.lines = self.text.count("\n")
        self.names: dict[str, tuple[str, str]] = {}
        self.aliases: dict[str, str] = {}
        for module, names, alias in USE.findall(self.text):
            for name in filter(None, map(str.strip, names.split(","))):
                there, _, here = name.partition(" as ")
                self.names[here or there] = (module, there)
            if not names:
                self.aliases[alias or module.split(".")[-1]] = module
        self.definitions: dict[str, list[str]] = {}
        self.owners: dict[str, str] = {}
        if file.suffix == ".antt":
            self.read_definitions()

    def read_definitions(self) -> None:
        """Each definition's lines, with the comment above it and its clauses; whose constructor a name is."""
        block, comment = None, []
        for line in USE.sub("", self.text).splitlines():
            if not line.strip():
                comment = [] if line == "" and block is None else comment
            elif line.startswith("--"):
                comment.append(line)
            elif line[0].isspace() or not HEAD.match(line):
                if block is not None:
                    block += comment + [line]
                comment = []
            else:
                words, name = HEAD.match(line).groups()
                if name not in self.definitions or words:
                    self.definitions[name] = block = comment + [line]
                else:
                    block = self.definitions[name]
                    block.append(line)
                comment = []
        for name, lines in self.definitions.items():
            code = [line for line in lines if not line.strip().startswith("--")]
            for line in code[1:] if re.match(r"(?:\w+ )*data ", code[0]) else []:
                if constructor := re.match(r"\s+([\w'-]+)\s*:", line):
                    self.owners[constructor[1]] = name

    def says(self) -> str:
        """The first sentence of the comment at its head, or else of the one above its first definition."""
        head = re.search(r"^(?:--.*\n)+", self.text, re.M)
        words = re.sub(r"\n?-- ?", " ", head[0]).strip() if head else ""
        sentence = (re.match(r"(.*?\.)(?:\s|$)", words) or [words])[0].strip()
        return sentence[:1].upper() + sentence[1:]


class Tree:
    """The modules of the crates, and what each definition reaches."""

    def __init__(self) -> None:
        self.modules: dict[str, Module | None] = {}
        self.reached: dict[Node, set[Node]] = {}
        lines = (ROOT / "crates.txt").read_text().splitlines()
        self.order = {line.split(":")[0]: place for place, line in enumerate(lines)}

    def module(self, path: str) -> Module | None:
        """The module at a path as `judge/specs/Form` or `judge/src/fate`, where there is one."""
        if path not in self.modules:
            suffix = ".rt" if path.split("/")[1] == "src" else ".antt"
            files = (CRATES / f"{path}{suffix}", CRATES / path / f"mod{suffix}")
            self.modules[path] = next((Module(path, file) for file in files if file.is_file()), None)
        return self.modules[path]

    def node(self, module: str, name: str) -> Node | None:
        """What an import names: a definition, a type or constant of the code, or nothing of these crates."""
        _, crate, *rest = module.split(".")
        if not (CRATES / crate).is_dir() or rest[:1] != ["specs"]:
            return None
        if rest[1:2] == ["declared"]:
            parts = rest[2:]
            for end in range(len(parts), 0, -1):
                if self.module(path := "/".join([crate, "src", *parts[:end]])):
                    tail = parts[end:]
                    return ("src", path, tail[0] if tail and tail[0] != "TheConstants" else name)
            return None
        found = self.module("/".join([crate, *rest]))
        if found is None:
            return None
        name = found.owners.get(name, name)
        if name in found.definitions:
            return ("spec", found.path, name)
        return self.node(*found.names[name]) if name in found.names else None

    def named(self, module: Module, text: str) -> set[Node]:
        """What the names in a text of a module stand for."""
        nodes: set[Node | None] = set()
        for token in set(TOKEN.findall(re.sub(r'"[^"]*"', '""', text))):
            first, _, rest = token.partition(".")
            if rest and first in module.aliases:
                nodes.add(self.node(module.aliases[first], rest.split(".")[0]))
            elif first in module.names:
                nodes.add(self.node(*module.names[first]))
            elif (own := module.owners.get(first, first)) in module.definitions:
                nodes.add(("spec", module.path, own))
        return {node for node in nodes if node}

    def reaches(self, node: Node) -> set[Node]:
        """What a definition, a type or a constant speaks of."""
        if node not in self.reached:
            self.reached[node] = self.look_at(node)
        return self.reached[node]

    def look_at(self, node: Node) -> set[Node]:
        kind, path, name = node
        module = self.module(path)
        if kind == "spec":
            return self.named(module, re.sub(r"--.*", "", "\n".join(module.definitions[name])))
        found = [item for word in ("enum", "struct", "trait", "const", "type")
                 if (item := item_of(module.text, rf"(?:pub(?:\(crate\))? )?{word} {name}\b"))]
        found += [item_of(module.text, rf"impl\b[^\n{{]*\bModel\b[^\n{{]*\bfor {name}\b") or ""]
        code = re.sub(r"//.*", "", "\n".join(found))
        return self.named(module, code) | self.types_in(module, code, name)

    def types_in(self, module: Module, code: str, own: str) -> set[Node]:
        """The types that an item of the code has as its parts: of its module, its crate and others."""
        crate, nodes = module.path.split("/")[0], set()
        for name in re.findall(r"^pub(?:\(crate\))? (?:enum|struct|trait) (\w+)", module.text, re.M):
            if name != own and re.search(rf"\b{name}\b", code):
                nodes.add(("src", module.path, name))
        for path, names in RUST_USE.findall(module.text):
            first, *rest = path.split("::")
            for name in (text.strip().split(" as ")[0] for text in names.strip("{}").split(",")):
                if not name or not re.search(rf"\b{name}\b", code):
                    continue
                if first == "crate" and rest and self.module("/".join([crate, "src", *rest])):
                    nodes.add(("src", "/".join([crate, "src", *rest]), name))
                elif found := self.public(crate if first == "crate" else first, name):
                    nodes.add(found)
        return nodes

    def public(self, crate: str, name: str) -> Node | None:
        for file in sorted((CRATES / crate / "src").rglob("*.rt")):
            if re.search(rf"^pub (?:enum|struct|trait|const|type) {name}\b", file.read_text(), re.M):
                return ("src", file.relative_to(CRATES).with_suffix("").as_posix(), name)
        return None

    def closure(self, roots: set[Node]) -> dict[Node, set[Node]]:
        seen: dict[Node, set[Node]] = {}
        left = list(roots)
        while left:
            if (node := left.pop()) not in seen:
                seen[node] = self.reaches(node)
                left += seen[node]
        return seen


def item_of(text: str, pattern: str) -> str | None:
    """The item of the code that begins with a pattern, to the bracket or semicolon that closes it."""
    head = re.search(rf"^{pattern}", text, re.M)
    if not head:
        return None
    ends = [text.find(end, head.start()) for end in ("\n}", ";\n")]
    opened = text.find("{", head.start())
    if ends[1] >= 0 and (opened < 0 or ends[1] < opened):
        return text[head.start():ends[1] + 1]
    return text[head.start():ends[0] + 2]


def parts(tree: Tree) -> dict[str, dict[Node, set[Node]]]:
    """What is reached by the contract of `finder` without the cases of `FinderSays`, which is `outside`; by each case
    beyond that; and by all."""
    module = tree.module("finder_program/src/program")
    head = re.sub(r"//.*", "", item_of(module.text, r"pub fn finder\b").split("\n{\n")[0])
    contract = tree.named(module, head)
    outside = tree.closure({node for node in contract if node[2] != "FinderSays"})
    found = {"outside": outside}
    module = tree.module("finder_program/specs/FinderSays")
    for clause in re.split(r"\nFinderSays ", "\n".join(module.definitions["FinderSays"]))[1:]:
        words, _, body = clause.partition(" =")
        if case := re.match(r"\(Some \(?(\w+)", words):
            reached = tree.closure(tree.named(module, body))
            found[case[1]] = {node: others for node, others in reached.items() if node not in outside}
    return found | {"all": tree.closure(contract)}


def modules_of(tree: Tree, reached: dict[Node, set[Node]]) -> list[tuple[Module, int]]:
    """The modules of definitions in reading order, each with how many of its lines are reached."""
    names: dict[str, set[str]] = {}
    for kind, path, name in reached:
        if kind == "spec":
            names.setdefault(path, set()).add(name)
    below = {path: {other for node, others in reached.items() if node[1] == path for _, other, _ in others} - {path}
             for path in names}
    ordered: list[str] = []
    for crate in sorted({path.split("/")[0] for path in names}, key=lambda crate: -tree.order[crate]):
        left = {path for path in names if path.split("/")[0] == crate}
        while left:
            free = [path for path in left if not any(path in below[other] for other in left)]
            first = min(free or left)
            ordered.append(first)
            left.remove(first)
    found = [(tree.module(path), names[path]) for path in ordered]
    return [(module, sum(len(module.definitions[name]) for name in own)) for module, own in found]


def reading_list(tree: Tree, reached: dict[Node, set[Node]]) -> str:
    lines = [f"{lines:5} {module.lines:5}  {module.path.replace('/specs/', '/'):34} {module.says()}"
             for module, lines in modules_of(tree, reached)]
    types: dict[str, set[str]] = {}
    for kind, path, name in reached:
        if kind == "src":
            types.setdefault(path, set()).add(name)
    rows = sorted(types.items(), key=lambda row: (-tree.order[row[0].split("/")[0]], row[0]))
    return "\n".join(["reached lines  module                             what it says", *lines, "", "types, constants",
                      *(f"  {path}.rt: {', '.join(sorted(names))}" for path, names in rows)])


def numbers(tree: Tree, reached: dict[Node, set[Node]]) -> str:
    modules = modules_of(tree, reached)
    return f"{len(modules)} | {sum(module.lines for module, _ in modules):,} | {sum(lines for _, lines in modules):,}"


def tables(tree: Tree, page: str) -> str:
    """The page with its two tables made anew: the numbers of what is reached, and the lines of the adapters."""
    rows = [f"| `{name}` | {numbers(tree, reached)} |\n" for name, reached in parts(tree).items()]
    page = re.sub(r"(\| Part \|.*\n\|[-:|]+\n)(?:\|.*\n)*", lambda head: head[1] + "".join(rows), page)
    return re.sub(r"^(\| `(\w+/src[\w/.]*)` \| )\d+ \|", adapter, page, flags=re.M)


def adapter(row: re.Match[str]) -> str:
    path = CRATES / row[2]
    files = sorted(path.glob("*.rt")) if path.is_dir() else [path]
    return f"{row[1]}{sum(file.read_text().count(chr(10)) for file in files)} |"


def main(words: list[str]) -> int:
    tree = Tree()
    known = parts(tree)
    if not words:
        print("\n".join(line for line in tables(tree, PAGE.read_text()).splitlines() if line.startswith("|")))
    elif words == ["--write"]:
        PAGE.write_text(tables(tree, PAGE.read_text()))
    elif all(word in known for word in words):
        for word in words:
            print(f"{word}\n\n{reading_list(tree, known[word])}\n")
    else:
        print(__doc__.strip(), f"\n\nParts: {', '.join(known)}", file=sys.stderr)
        return 2
    return 0


if __name__ == "__main__":
    sys.exit(main(sys.argv[1:]))
