"""The words on which the contract of the top call rests, found by the imports of the specs."""
from __future__ import annotations

import re
from collections import defaultdict
from pathlib import Path
from typing import Iterator, NamedTuple

from .. import tool

CRATES = Path(__file__).resolve().parents[3] / "crates"
NAME = r"[A-Za-z_][\w'-]*"
WORD = re.compile(rf"(?<![\w'.-])({NAME})(?:\.({NAME}))?")
STARTS = re.compile(rf"(?P<indent> *)(?:abbrev |pub |unfoldable |record |data )*(?P<name>{NAME})(?: [^:=]*)? : ")
IMPORT = re.compile(r"^ *(?:pub )?(?:ghost )?use Rattle\.([\w.]+?)(?:\.\{([^}]*)\}| as (\w+));?$", re.M)
# Signs, numbers, truth values, lists, options and results themselves are no words to be believed.
PLAIN = {"List", "Bool", "true", "false", "zero", "suc", "pos", "not", "Option", "Some", "None", "Result", "Ok", "Err"}


class Word(NamedTuple):
    """A name, and where it stands: a module of specs, the types or a module of a crate's code, or the toolchain."""
    place: str
    name: str


class Scope:
    """What the names of a file mean: what it imports, and the modules that it gives a name."""

    def __init__(self, text: str) -> None:
        self.names: dict[str, Word] = {}
        self.modules: dict[str, str] = {}
        for module, listed, alias in IMPORT.findall(text):
            if alias:
                self.modules[alias] = module
            for name, called in re.findall(r"([^,\s]+)(?: as (\S+?))?(?:,|$)", listed.strip()):
                self.names[called or name] = Word(module, name)

    def cited(self, text: str) -> Iterator[Word]:
        """The imported words that a text cites."""
        for name, member in WORD.findall(text):
            if member and name in self.modules:
                yield Word(self.modules[name], member)
            elif name in self.names:
                yield self.names[name]


class Spec:
    """A file of definitions: the text of each, and of which definition a field or a constructor is."""

    def __init__(self, path: Path) -> None:
        text = re.sub(r"(?m)^ *--.*\n", "", path.read_text())
        self.scope = Scope(text)
        self.texts: dict[str, str] = {}
        self.owners: dict[str, str] = {}
        parameters, current, depth = "", "", 0
        for line in text.splitlines():
            started = STARTS.match(line)
            first = line.split(" ")[0]
            if line.startswith("module _"):
                parameters, current = line, ""
            elif started and (not current or len(started["indent"]) <= depth):
                current, depth = started["name"], len(started["indent"])
                self.texts[current] = parameters if depth else ""
            elif started:
                self.owners[started["name"]] = current
            elif first in self.texts:
                current = first
            if current:
                self.texts[current] += f"\n{line}"


class Beliefs:
    """The words on which the top call rests, and those of them that are cited from elsewhere."""

    def __init__(self) -> None:
        self.specs: dict[str, Spec] = {}
        self.found: set[Word] = set()
        self.across: set[Word] = set()
        text = re.sub(r"(?m)^ *//.*\n", "", (CRATES / "tc_main/src/top.rt").read_text())
        call = text[text.index("pub fn tclocks"):]
        heading = call[:call.index("\n{\n")]
        self.follow("", Scope(text), heading)
        for kind in re.findall(r"\b(?:Source|Sink|Word)\b", heading):
            self.take_type("tc_io", kind)

    def follow(self, here: str, scope: Scope, text: str) -> None:
        """Takes in what a text cites."""
        for word in scope.cited(text):
            self.take(here, word)

    def take(self, here: str, word: Word) -> None:
        """Takes in a word that is cited here, and what it cites itself."""
        crate, _, rest = word.place.partition(".")
        path = CRATES / crate / (rest.replace(".", "/") + ".antt")
        if rest.startswith("specs.declared."):
            module, kind = rest.split(".")[2:4]
            if kind != "TheConstants":
                self.take_type(crate, kind)
            else:
                self.found.add(Word(f"{crate} {module}", word.name))
        elif path.exists():
            self.take_definition(here, word, path)
        elif word.name not in PLAIN:
            self.found.add(Word(crate, word.name))

    def take_definition(self, here: str, word: Word, path: Path) -> None:
        if word.place not in self.specs:
            self.specs[word.place] = Spec(path)
        spec = self.specs[word.place]
        name = spec.owners.get(word.name, word.name)
        if name not in spec.texts:
            self.take(here, spec.scope.names[name])  # it hands on a word of another file
            return
        word = Word(word.place, name)
        if here != word.place:
            self.across.add(word)
        if word not in self.found:
            self.found.add(word)
            self.follow(word.place, spec.scope, spec.texts[name])
            for other, _ in WORD.findall(spec.texts[name]):
                if spec.owners.get(other, other) in spec.texts:
                    self.take(word.place, Word(word.place, other))

    def take_type(self, crate: str, name: str) -> None:
        """Takes in a type of the code, with what its facts, its view and its open fields cite."""
        word = Word(f"{crate} types", name)
        declared = rf"(?ms)^pub(?:\(crate\))? (?:struct|enum|trait) {name}\b.*?(?:;$|^}})"
        for path in [] if word in self.found else sorted((CRATES / crate / "src").rglob("*.rt")):
            text = path.read_text()
            head = re.search(declared, text)
            if not head:
                continue
            self.found.add(word)
            body = re.sub(r"(?m)^ *//.*\n", "", head[0])
            for view in re.findall(rf"(?ms)^impl(?:<[^>]*>)? Model for {name}\b.*?^}}", text):
                self.follow(word.place, Scope(view), view)
            if not body.startswith("pub trait") and not re.search(r"(?m)^    (?!pub|ghost)\w+:", body):
                self.follow(word.place, Scope(text), "\n".join(re.findall("ghost .*", body)))
                self.take_fields(crate, text, body)
            return

    def take_fields(self, crate: str, text: str, body: str) -> None:
        for name in re.findall(r"[:(<,] ?([A-Z]\w+)", body):
            other = re.search(rf"(?m)^use (tc_\w+)::[^;]*\b{name}\b", text)
            self.take_type(other[1] if other else crate, name)


def believed() -> dict[str, set[str]]:
    """The words by place, as 'crate Module' for a file of specs."""
    beliefs, places = Beliefs(), defaultdict(set)
    for word in sorted(beliefs.found):
        if ".specs." not in word.place or word in beliefs.across:
            places[word.place.replace(".specs.", " ")].add(word.name)
    return places


def main(given: list[str]) -> None:
    tool.words("definitions").parse_args(given)
    for place, names in believed().items():
        print(f"{place}: {', '.join(sorted(names))}")
