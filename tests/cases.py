"""Reads files of cases, and compares what is printed with what they say:

    # Comments, and cases with empty lines between them.
    command key=value list=(1, 2) flag
    input
    ----
    what is printed, up to an empty line
"""

import difflib
import re
from pathlib import Path
from typing import Dict, List, NamedTuple, Optional

from play import TOP, Wrong


class Case(NamedTuple):
    """A case, where it stands, and between which lines of its file what it prints."""

    where: str
    command: str
    arguments: Dict[str, Optional[str]]
    input: List[str]
    expected: List[str]
    begin: int
    end: int

    def has(self, key: str) -> bool:
        return key in self.arguments

    def text(self, key: str) -> str:
        value = self.arguments.get(key)
        if value is None:
            raise Wrong(f"{key} is missing")
        return value

    def number(self, key: str, otherwise: Optional[int] = None) -> int:
        if otherwise is not None and not self.has(key):
            return otherwise
        return int(self.text(key))

    def numbers(self, key: str) -> List[int]:
        return [int(word) for word in self.text(key).split(",")] if self.has(key) else []

    def allow(self, known: List[str]) -> None:
        """Refuses an argument that a command doesn't know, so that no mistyped one is ignored."""
        for key in self.arguments:
            if key not in known:
                raise Wrong(f"{self.where}: {self.command} knows no {key}")


def arguments_of(words: str) -> Dict[str, Optional[str]]:
    found: Dict[str, Optional[str]] = {}
    for key, has_value, listed, value in re.findall(r"(\w+)(=)?(?:\(([^)]*)\)|([^\s(]+))?", words):
        found[key] = (listed or value) if has_value else None
    return found


def read_cases(path: Path) -> List[Case]:
    """The cases of a file."""
    lines = path.read_text(encoding="utf-8").split("\n")
    cases: List[Case] = []
    place = 0
    while place < len(lines):
        if not lines[place] or lines[place].startswith("#"):
            place += 1
            continue
        where = f"{path.relative_to(TOP)}:{place + 1}"
        if "----" not in lines[place:]:
            raise Wrong(f"{where}: the case has no line ----")
        begin = lines.index("----", place) + 1
        end = lines.index("", begin)
        command, _, words = lines[place].partition(" ")
        said = [line for line in lines[place + 1 : begin - 1] if not line.startswith("#")]
        cases.append(Case(where, command, arguments_of(words), said, lines[begin:end], begin, end))
        place = end
    if not cases:
        raise Wrong(f"{path}: there are no cases")
    return cases


def compare(case: Case, came: List[str]) -> None:
    """Raises `Wrong`, with how the lines differ, unless a case printed what it says."""
    if came != case.expected:
        lines = difflib.ndiff(case.expected, came)
        raise Wrong("\n    " + "\n    ".join(line for line in lines if not line.startswith("?")))


def rewrite(path: Path, printed: Dict[str, List[str]]) -> None:
    """Puts what cases printed into their file, in the place of what they say."""
    lines = path.read_text(encoding="utf-8").split("\n")
    for case in reversed(read_cases(path)):
        if case.where in printed:
            lines[case.begin : case.end] = printed[case.where]
    path.write_text("\n".join(lines), encoding="utf-8")
