"""Plays the files of bindings/cases, whose README describes them, over the library and over their model.

    test_cases.py --rewrite FILE..

writes the answers of the model to files. That needs no library.
"""

import os
import re
import sys
import unittest
from itertools import islice, takewhile
from pathlib import Path
from typing import Any, Dict, Iterable, Iterator, List, NamedTuple, Optional, Tuple

FOLDER = Path(__file__).resolve().parents[2] / "cases"
DRAWN = [Path(name) for name in os.environ.get("UCSTORE_DRAWN_CASES", "").split(":") if name]
sys.path.insert(0, str(FOLDER))

import model  # noqa: E402

# Words added to each command.
WAYS = NOTHING, FLUSH, COMPACTIONS, REOPENING = "nothing", "a flush", "all compactions", "a reopening"

# The operations, the commands that take byte strings, and the commands that take words unchanged.
KINDS = {"put": "Put", "merge": "Merge", "delete": "Delete", "range": "DeleteRange"}
BY_TEXTS = ("commit", "raw", "get", "scan", "count", "prefix", "flush", "compact", "last", "snapshots", "report")
BY_WORDS = ("create", "reopen", "close", "give", "snapshot", "release")

# Words that may follow the byte strings of a command, each before a value.
NAMES = ("at", "limit", "sequence")

PIECE = re.compile(r'(?:(\d+)\*)?(?:u64:(\d+)|"((?:[^"\\]|\\x[0-9a-f]{2})*)"|([\w/.,-]+))(?:\+|$)', re.ASCII)
WORD = re.compile(rb"[\w/.,-]+", re.ASCII)
LONG_RUN = re.compile(rb"(.)\1{15,}", re.DOTALL)


def text_of(word: str) -> bytes:
    """Returns the byte string that a word encodes: pieces with `+` between them."""
    text, place = b"", 0
    while place < len(word):
        piece = PIECE.match(word, place)
        if piece is None:
            raise ValueError(f"{word} isn't a text")
        times, number, quoted, plain = piece.groups()
        if number is not None:
            found = int(number).to_bytes(8, "little")
        elif quoted is not None:
            found = re.sub(r"\\x(..)", lambda escape: chr(int(escape[1], 16)), quoted).encode("latin-1")
        else:
            found = plain.encode()
        text += int(times or 1) * found
        place = piece.end()
    return text


def piece_of(text: bytes) -> str:
    """Returns the byte string of a piece: a plain or a quoted word."""
    if WORD.fullmatch(text):
        return text.decode()
    shown = (chr(byte) if 0x20 < byte < 0x7F and byte not in b'"\\' else f"\\x{byte:02x}" for byte in text)
    return f'"{"".join(shown)}"'


def word_of(text: bytes) -> str:
    """Encodes a byte string as a word. A byte that is repeated 16 times or more is a piece with a count."""
    pieces, place = [], 0
    for run in LONG_RUN.finditer(text):
        if run.start() > place:
            pieces.append(piece_of(text[place:run.start()]))
        pieces.append(f"{len(run[0])}*{piece_of(run[1])}")
        place = run.end()
    if place < len(text) or not text:
        pieces.append(piece_of(text[place:]))
    return "+".join(pieces)


def arguments_of(words: Iterable[str]) -> Tuple[List[bytes], Dict[str, str]]:
    """Returns the byte strings of a command, and the words that follow `at`, `limit` and `sequence`."""
    words = list(words)
    texts = list(takewhile(lambda word: word not in NAMES, words))
    named = words[len(texts):]
    return [text_of(word) for word in texts], dict(zip(named[::2], named[1::2]))


class Case(NamedTuple):
    """Returns the number of a case's first line, the index of its line `----`, and the lines before and after that."""

    line: int
    separator: int
    input: List[str]
    expected: List[str]


def cases_of(lines: List[str]) -> Iterator[Case]:
    """Yields the cases of a file."""
    place = 0
    while place < len(lines):
        if lines[place] == "" or lines[place].startswith("#"):
            place += 1
            continue
        separator = lines.index("----", place)
        expected = list(takewhile(bool, lines[separator + 1:]))
        found = [line for line in lines[place:separator] if not line.startswith("#")]
        yield Case(place + 1, separator, found, expected)
        place = separator + 1 + len(expected)


def expanded(line: str) -> Iterator[str]:
    """Yields the lines that a line stands for: `times` says their number, and `#` is replaced by the index."""
    repeated = re.fullmatch(r"( *)times (\d+) (.*)", line)
    if repeated is None:
        yield line
    else:
        for number in range(int(repeated[2])):
            yield repeated[1] + repeated[3].replace("#", f"{number:03d}")


def calls_of(lines: Iterable[str]) -> List[Tuple[List[str], List[List[str]]]]:
    """Yields the words of each command, with those of the indented lines that follow it."""
    calls: List[Tuple[List[str], List[List[str]]]] = []
    for line in (one for line in lines for one in expanded(line)):
        if line.startswith(" "):
            calls[-1][1].append(line.split())
        else:
            calls.append((line.split(), []))
    return calls


class Player:
    """Plays the cases of a file in order, over a module: `ucstore`, or its model."""

    def __init__(self, module: Any, way: str) -> None:
        self.module, self.way, self.store = module, way, None
        self.is_open = self.is_durable = False
        self.log = b""
        self.said: List[str] = []
        self.record: Optional[bytes] = None
        """The bytes that the prepared batch adds to the log."""
        self.sequences: Dict[str, int] = {}
        """Sequence numbers of snapshots by name."""

    def play(self, case: Case) -> List[str]:
        """Returns the output of a case."""
        self.said = []
        for words, operations in calls_of(case.input):
            try:
                self.call(words, operations)
            except self.module.UcstoreError as error:
                name = re.sub(r"(?<=.)(?=[A-Z])", " ", type(error).__name__)
                self.said.append(f"error: {name.lower()}")
            except (AttributeError, KeyError, TypeError, ValueError) as error:
                raise ValueError(f"the case at line {case.line} can't be played") from error
            self.put_behind()
        return self.said

    def call(self, words: List[str], indented: List[List[str]]) -> None:
        command, *rest = words
        if command in KINDS:
            self.write_one(command, self.operation(words))
        elif command in ("batch", "prepare"):
            sequence = int(arguments_of(rest)[1].get("sequence", 0))
            getattr(self, command)([self.operation(line) for line in indented], sequence)
        elif command in BY_TEXTS:
            texts, named = arguments_of(rest)
            getattr(self, command)(*texts, **named)
        elif command in BY_WORDS:
            getattr(self, command)(*rest)
        else:
            raise ValueError(f"{command} isn't a command")

    def put_behind(self) -> None:
        """Does the extra commands of the way after a command, unless that would discard the prepared batch."""
        if not self.is_open or self.record is not None:
            return
        if self.way in (FLUSH, COMPACTIONS):
            self.store.flush()
        if self.way == COMPACTIONS:
            self.compact()
        if self.way == REOPENING and not self.store.snapshots:
            self.reopen()

    def create(self, operator: str, *words: str) -> None:
        self.is_open, self.is_durable = False, "durable" in words or self.way == REOPENING
        self.log, self.record, self.sequences = b"", None, {}
        self.operator = self.module.Operator[operator.upper()]
        named = (word.split("=") for word in words if "=" in word)
        self.options = self.module.Options(**{name: int(value) for name, value in named})
        if self.store is not None:
            self.store.close()
        self.store = self.module.Store(self.operator, self.options)
        self.is_open = True

    def reopen(self) -> None:
        self.store.close()
        self.record = None
        self.store = self.module.Store.open(self.operator, self.log, self.options)
        if str(self.store.ended) != "clean":
            raise ValueError(f"the log isn't clean: {self.store.ended}")

    def close(self) -> None:
        self.is_open = False
        self.store.close()

    def operation(self, words: List[str]) -> Any:
        return getattr(self.module, KINDS[words[0]])(*map(text_of, words[1:]))

    def write_one(self, command: str, operation: Any) -> None:
        if self.is_durable:
            self.batch([operation])
        else:
            self.record = None
            getattr(self.store, "delete_range" if command == "range" else command)(*operation)

    def batch(self, operations: List[Any], sequence: int = 0) -> None:
        if self.is_durable:
            self.prepare(operations, sequence)
            self.commit()
        else:
            self.record = None
            self.store.write(operations, sequence)

    def raw(self, batch: bytes) -> None:
        self.record = None
        self.store.write_bytes(batch)

    def prepare(self, operations: List[Any], sequence: int) -> None:
        self.record = None
        self.record = self.store.prepare(len(self.log), operations, sequence)

    def commit(self) -> None:
        self.store.commit()
        self.log += self.record or b""
        self.record = None

    def give(self, _: str) -> None:
        self.record = None
        self.store.give_up()

    def snapshot(self, name: str) -> None:
        self.record = None
        self.sequences[name] = self.store.take_snapshot()

    def release(self, name: str) -> None:
        self.store.release(self.sequence(name))

    def sequence(self, name: str) -> int:
        """Returns the sequence number of a snapshot's name, or of a number."""
        return int(name) if name.isdigit() else self.sequences[name]

    def word(self, value: bytes) -> str:
        """Encodes a value as a word. A value that may be a counter's is a number."""
        if self.operator.name == "COUNTER" and len(value) == 8:
            return f"u64:{int.from_bytes(value, 'little')}"
        return word_of(value)

    def get(self, key: bytes, at: Optional[str] = None) -> None:
        value = self.store.get(key) if at is None else self.store.get_at(key, self.sequence(at))
        self.said.append("no value" if value is None else self.word(value))

    def rows(self, low: bytes, high: Optional[bytes], at: Optional[str]) -> Iterator[Tuple[bytes, bytes]]:
        return self.store.scan(low, high) if at is None else self.store.scan_at(low, high, self.sequence(at))

    def say_rows(self, rows: Iterable[Tuple[bytes, bytes]]) -> None:
        found = [f"{word_of(key)} {self.word(value)}" for key, value in rows]
        self.said += found or ["no rows"]

    def scan(
        self, low: bytes = b"", high: Optional[bytes] = None, limit: Optional[str] = None, at: Optional[str] = None
    ) -> None:
        self.say_rows(islice(self.rows(low, high, at), None if limit is None else int(limit)))

    def count(self, low: bytes = b"", high: Optional[bytes] = None, at: Optional[str] = None) -> None:
        self.said.append(str(sum(1 for _ in self.rows(low, high, at))))

    def prefix(self, prefix: bytes) -> None:
        self.say_rows(self.store.prefix(prefix))

    def flush(self) -> None:
        self.record = None
        self.store.flush()

    def compact(self) -> None:
        while self.store.compact():
            pass

    def last(self) -> None:
        self.said.append(str(self.store.last))

    def snapshots(self) -> None:
        self.said.append(" ".join(map(str, self.store.snapshots)) or "none")

    def report(self) -> None:
        report = self.store.report()
        self.said.append(
            f"runs {report.runs}, gathered {report.gathered}, snapshots {report.snapshots}, last {report.last}"
        )


def difference(wanted: List[str], came: List[str]) -> List[str]:
    """Returns the wanted and the actual output, from the first different line on."""
    same = sum(1 for _ in takewhile(lambda pair: pair[0] == pair[1], zip(wanted, came)))
    marked = (("  ", wanted[:same]), ("- ", wanted[same:]), ("+ ", came[same:]))
    return [mark + line for mark, lines in marked for line in lines]


def is_by_hand(case: Case) -> bool:
    """True if the output of a case is computed by hand: the model has no report."""
    return case.input == ["report"]


def play(file: Path, module: Any, way: str) -> Tuple[int, List[str]]:
    """Returns the number of cases played, and the differences of those with other output."""
    player, count, failures = Player(module, way), 0, []
    for case in cases_of(file.read_text().splitlines()):
        if module is not model or not is_by_hand(case):
            came = player.play(case)
            count += 1
            if came != case.expected:
                failures.append(f"{file}:{case.line}: with {way} behind each command")
                failures += difference(case.expected, came)
    return count, failures


def rewritten(lines: List[str]) -> List[str]:
    """Returns the lines of a file with the output of the model."""
    player, done, found = Player(model, NOTHING), 0, []
    for case in cases_of(lines):
        found += lines[done:case.separator + 1]
        found += case.expected if is_by_hand(case) else player.play(case)
        done = case.separator + 1 + len(case.expected)
    return found + lines[done:]


class Cases(unittest.TestCase):
    def play_all(self, module: Any, ways: Iterable[str]) -> int:
        """Plays all files, and returns the number of cases. The number of runs depends on the way."""
        whole = 0
        for file in sorted(FOLDER.glob("*.txt")) + DRAWN:
            has_report = "report" in file.read_text().splitlines()
            for way in [NOTHING] if has_report else ways:
                count, failures = play(file, module, way)
                whole += count
                with self.subTest(file=file.name, way=way):
                    if failures:
                        self.fail("\n".join(["", *failures]))
        self.assertGreater(whole, 0)
        return whole

    def test_the_library_prints_what_is_expected(self):
        # Rewriting a file does not need the library.
        import ucstore

        print(f"{self.play_all(ucstore, WAYS)} cases played")

    def test_the_model_prints_what_is_expected(self):
        self.play_all(model, [NOTHING])


if __name__ == "__main__":
    if sys.argv[1:2] == ["--rewrite"]:
        for name in sys.argv[2:]:
            old = Path(name).read_text()
            Path(name).write_text("\n".join(rewritten(old.splitlines())) + "\n")
    else:
        unittest.main()
