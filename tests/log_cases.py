"""Plays the files of `cases/formats`: logs and batches worked by hand, cut at each length, and with each byte changed. Each log is read in
all ways that the libraries have, which have to tell the same."""

import os
import subprocess
from pathlib import Path
from typing import Callable, Dict, Iterator, List, NamedTuple, Optional, Sequence, Tuple

from cases import Case, compare, read_cases, rewrite
from desk import Desk, op_spelling
from formats import READ_BATCH, READ_LOG, READ_WRITES, SUM_UP, WRITE_BATCH, WRITE_LOG, log_read, writes_read
from log_spelling import ended_words, log_of_lines, ops_of, payloads_of_lines, record_lines, rows_of, spell, spelled_bytes, write_line
from logs import add_payload, batch_of, log_of_payloads
from model import Write
from play import TOP, Raw, Reply, Wrong, number, text, wants

(WALK, READ_ON, BATCHES, EXTEND, TAKEN, PIECES, GATHER) = range(66, 73)

FOLDER = TOP / "tests" / "cases" / "formats"
PROGRAM = os.environ.get("UCSTORE") or str(TOP / "crates" / "ucstore" / "out" / "ucstore")

# Sizes of the pieces that logs are cut into, and those for larger logs.
SIZES = [1, 7, 100, 10_000, 32_768, 65_537]
LARGE, LARGE_SIZES = 5_000, [32_768, 70_001]

# How a step of a walk or a reader comes out.
WHOLE, JOINED, ENDED = 0, 1, 2

Payload = Tuple[bool, bytes]


class Left(NamedTuple):
    """The contents of a log: payloads, and whether each is joined of several records; writes; how far both go."""

    payloads: List[Payload]
    ending: str
    writes: List[Write]
    ended: str

    def end(self) -> str:
        return self.ended if self.ended == self.ending else f"{self.ended}, {self.ending}"

    def summary(self) -> str:
        return f"payloads={len(self.payloads)} writes={len(self.writes)} {self.end()}"

    def begins(self, whole: "Left") -> bool:
        """Whether the payloads and the writes are the first of another log's. Damage may make a payload be of other records."""
        payloads = [payload for _, payload in self.payloads]
        firsts = [payload for _, payload in whole.payloads[: len(payloads)]]
        return payloads == firsts and self.writes == whole.writes[: len(self.writes)]


def step_of(reply: Reply) -> Tuple[int, bytes]:
    return reply.number(), reply.bytes()


def walk_of(reply: Reply) -> Iterator[Tuple[int, bytes, int]]:
    """The steps of a walk: how each comes out, its payload or ending, and the offset after it."""
    while not reply.is_read():
        yield (*step_of(reply), reply.number())


def write_of(reply: Reply) -> Write:
    return Write(reply.number(), reply.number(), reply.bytes(), reply.bytes())


def current_of(reply: Reply) -> Tuple[List[Write], int]:
    writes = []
    while reply.flag():
        writes.append(write_of(reply))
    return writes, reply.number()


def batches_read(reply: Reply) -> Tuple[List[Write], str]:
    """All writes that a reader of batches gave, and how the log ends."""
    writes, last = current_of(reply)
    wants((writes, last), ([], 0), "before the first batch")
    while reply.flag():
        batch, last = current_of(reply)
        writes += batch
        wants(last, writes[-1].seq if writes else 0, "the last sequence")
    ends = []
    for _ in range(2):
        if ends:
            wants(reply.flag(), False, "whether a batch comes after the end")
        wants(current_of(reply), ([], writes[-1].seq if writes else 0), "after the end")
        ends.append(reply.bytes().decode())
    wants(ends[1], ends[0], "the end, again")
    return writes, ended_words(ends[0])


class Reading:
    """The calls that read a log in all ways. `left` compares them once they are made."""

    def __init__(self, desk: Desk, log: bytes) -> None:
        sizes = LARGE_SIZES if len(log) > LARGE else [size for size in SIZES if size <= 2 * len(log)]
        self.read = desk.call(READ_LOG, log, name="read_log")
        self.walked = desk.call(WALK, 0, log, name="walk")
        self.stepped = desk.call(READ_ON, log, name="reader")
        self.modes = [desk.call(READ_WRITES, mode, log, name="read_writes") for mode in (0, 1)]
        self.batches = [desk.call(BATCHES, size, log, name="batches") for size in [0] + sizes]
        self.found: Optional[Left] = None

    def payloads(self) -> Tuple[List[Payload], str]:
        read, name = log_read(self.read)
        steps = list(walk_of(self.walked))
        payloads = [(kind == JOINED, payload) for kind, payload, _ in steps[:-1]]
        wants([payload for _, payload in payloads], read, "by a walk")
        wants(steps[-1][:2], (ENDED, name.encode()), "by a walk")
        wants([step_of(self.stepped) + (self.stepped.number(),) for _ in steps], self.counted(steps), "by a reader")
        wants(step_of(self.stepped) + (self.stepped.number(),), self.counted(steps)[-1], "by a reader, after the end")
        return payloads, ended_words(name)

    @staticmethod
    def counted(steps: Sequence[Tuple[int, bytes, int]]) -> List[Tuple[int, bytes, int]]:
        return [(kind, told, min(place + 1, len(steps) - 1)) for place, (kind, told, _) in enumerate(steps)]

    def left(self) -> Left:
        if self.found is None:
            payloads, ending = self.payloads()
            (writes, ended), *others = [batches_read(reply) for reply in self.batches]
            for other in others:
                wants(other, (writes, ended), "in pieces")
            strict, all_of_them = [writes_read(reply) for reply in self.modes]
            wants(all_of_them, writes, "up to a fault")
            is_good = ended == "clean" or ended.startswith("torn ")
            wants(strict if is_good else ended_words(strict), writes if is_good else ended, "with a torn end alone")
            self.found = Left(payloads, ending, writes, ended)
        return self.found


def payloads_alone(desk: Desk, log: bytes) -> Callable[[Left], str]:
    """Reads the payloads of a log at once."""
    reply = desk.call(READ_LOG, log, name="read_log")

    def said(whole: Left) -> str:
        payloads, name = log_read(reply)
        if payloads != [payload for _, payload in whole.payloads[: len(payloads)]]:
            return "others than before"
        return f"payloads={len(payloads)} {ended_words(name)}"

    return said


def said_of(reading: Reading) -> Callable[[Left], str]:
    return lambda whole: reading.left().summary() if reading.left().begins(whole) else "others than before"


def payloads_of(reading: Reading) -> Callable[[Left], str]:
    def said(whole: Left) -> str:
        left = reading.left()
        return f"payloads={len(left.payloads)} {left.ending}" if left.begins(whole) else "others than before"

    return said


# The output of a case, once its calls are made.
Printed = Callable[[], List[str]]


class Files:
    """The commands of the files. A log stays for the cases after it."""

    def __init__(self) -> None:
        self.log = b""
        self.desk = Desk()

    def play(self, case: Case) -> Printed:
        command = getattr(self, "do_" + case.command.replace("-", "_"), None)
        if command is None:
            raise Wrong(f"{case.where}: there is no command {case.command}")
        return command(case)

    def do_log(self, case: Case) -> Printed:
        self.log = log_of_lines(self.log[: case.number("keep", 0)], case.input)
        reading = Reading(self.desk, self.log)
        dumped = run_dump(self.log)

        def printed() -> List[str]:
            left = reading.left()
            wants(dumped, dump_of(left), "dumped")
            payloads = [f"{'joined' if is_joined else 'payload'} {spell(payload)}" for is_joined, payload in left.payloads]
            return payloads + [write_line(write) for write in left.writes] + [left.end()]

        return printed

    def do_write(self, case: Case) -> Printed:
        payloads = payloads_of_lines(case.input)
        self.log = log_of_payloads(payloads)
        listed = number(len(payloads)) + b"".join(text(payload) for payload in payloads)
        written = self.desk.call(WRITE_LOG, Raw(listed), name="LogWriter")
        log, taken = bytearray(), []
        for payload in payloads:
            begin = len(log)
            add_payload(log, payload)
            taken.append((self.desk.call(TAKEN, begin, payload, name="payload_bytes"), bytes(log[begin:])))

        def printed() -> List[str]:
            for reply, wanted in taken:
                wants(reply.bytes(), wanted, "a payload behind others")
            return record_lines(written.bytes())

        return printed

    def do_records(self, case: Case) -> Printed:
        return lambda: record_lines(self.log)

    def damaged(self, case: Case, most: int) -> List[int]:
        if case.has("at"):
            return case.numbers("at")
        return list(range(case.number("from", 0), min(case.number("to", most), most) + 1))

    def do_cut(self, case: Case) -> Printed:
        whole = Reading(self.desk, self.log)
        tries = [(place, said_of(Reading(self.desk, self.log[:place]))) for place in self.damaged(case, len(self.log))]
        return lambda: rows_of((str(place), said(whole.left())) for place, said in tries)

    def flipped(self, place: int, mask: int) -> bytes:
        return self.log[:place] + bytes([self.log[place] ^ mask]) + self.log[place + 1 :]

    def do_flip(self, case: Case) -> Printed:
        whole, mask = Reading(self.desk, self.log), case.number("mask")
        places = self.damaged(case, len(self.log) - 1)
        tries = [(place, said_of(Reading(self.desk, self.flipped(place, mask)))) for place in places]
        return lambda: rows_of((str(place), said(whole.left())) for place, said in tries)

    def changed(self, place: int) -> List[Tuple[int, Callable[[Left], str]]]:
        """Each other byte at a place. Where it's one bit, the log is read in all ways."""
        tries = []
        for mask in sorted(range(1, 256), key=lambda mask: self.log[place] ^ mask):
            log = self.flipped(place, mask)
            is_bit = mask & mask - 1 == 0
            said = payloads_of(Reading(self.desk, log)) if is_bit else payloads_alone(self.desk, log)
            tries.append((self.log[place] ^ mask, said))
        return tries

    def do_change(self, case: Case) -> Printed:
        whole = Reading(self.desk, self.log)
        tries = [(place, self.changed(place)) for place in self.damaged(case, len(self.log) - 1)]

        def line(each: List[Tuple[int, Callable[[Left], str]]]) -> str:
            rows = rows_of((f"{byte:02x}", said(whole.left())) for byte, said in each)
            return rows[0].split(": ", 1)[1] if len(rows) == 1 else " | ".join(rows)

        return lambda: rows_of((str(place), line(each)) for place, each in tries)

    def do_walk(self, case: Case) -> Printed:
        walks = [(offset, self.desk.call(WALK, offset, self.log, name="walk")) for offset in case.numbers("from")]

        def line(offset: int, reply: Reply) -> str:
            kind, told, then = next(walk_of(reply))
            return f"{offset}: {ended_words(told.decode()) if kind == ENDED else f'{len(told)} bytes'}, then {then}"

        return lambda: [line(offset, reply) for offset, reply in walks]

    def judged(self, batch: bytes, last: int = 0) -> Callable[[], List[str]]:
        """The writes of a batch: alone, and as the payload of a log if there was no sequence before."""
        reply = self.desk.call(READ_BATCH, last, batch, name="read_batch")
        reading = Reading(self.desk, log_of_payloads([batch])) if last == 0 else None

        def said() -> List[str]:
            writes = writes_read(reply)
            fault = ended_words(writes) if isinstance(writes, str) else None
            if reading:
                left = reading.left()
                wants([payload for _, payload in left.payloads], [batch], "in a log")
                wants((left.writes, left.ended), ([], f"batch fault 1 {fault}") if fault else (writes, "clean"), "in a log")
            return [f"refused: {fault}"] if fault else [write_line(write) for write in writes] or ["no writes"]

        return said

    @staticmethod
    def bytes_in(case: Case) -> bytes:
        records = b"".join(spelled_bytes(line) for line in case.input)
        if not case.has("sequence"):
            return records
        return case.number("sequence").to_bytes(8, "little") + case.number("count").to_bytes(4, "little") + records

    def do_batch(self, case: Case) -> Printed:
        return self.judged(self.bytes_in(case), case.number("last", 0))

    def do_cut_batch(self, case: Case) -> Printed:
        batch = self.bytes_in(case)
        tries = [(str(length), self.judged(batch[:length])) for length in range(len(batch) + 1)]
        return lambda: rows_of((length, ", ".join(said())) for length, said in tries)

    def do_end_batch(self, case: Case) -> Printed:
        """A batch with each byte after it. If that is no tag, it isn't named."""
        batch = self.bytes_in(case)
        tries = [(byte, self.judged(batch + bytes([byte]))) for byte in range(256)]

        def line(byte: int, lines: List[str]) -> str:
            return "refused: bad tag" if lines == [f"refused: bad tag {byte} {len(batch)}"] else ", ".join(lines)

        return lambda: rows_of((f"{byte:02x}", line(byte, said())) for byte, said in tries)

    def do_write_batch(self, case: Case) -> Printed:
        first = case.number("sequence")
        ops = [op for line in case.input for op in ops_of(line)]
        listed = Raw(number(len(ops)) + b"".join(op_spelling(op) for op in ops))
        written = self.desk.call(WRITE_BATCH, first, listed, name="write_batch")
        gathered = self.desk.call(GATHER, listed, name="WriteBatch")
        writes = [Write(first + place, op.kind, op.first, op.second) for place, op in enumerate(ops)]
        batch = batch_of(writes) if writes else first.to_bytes(8, "little") + bytes(4)
        fits = 0 < first < 2**56 and first + len(ops) <= 2**56
        said = self.judged(batch) if fits else None

        def printed() -> List[str]:
            wants(written.is_made, fits, "whether they fit")
            if said is None:
                return ["they don't fit"]
            none = (bytes(12), 0, True)
            wants((gathered.bytes(), gathered.number(), gathered.flag()), none, "cleared")
            wants((gathered.bytes(), gathered.number(), gathered.flag()), (bytes(8) + batch[8:], len(ops), not ops), "gathered")
            return [spell(written.bytes())] + said()

        return printed

    def do_dump(self, case: Case) -> Printed:
        lines, status = run_dump(log_of_lines(b"", case.input))
        return lambda: lines + [f"status {status}"]

    def do_taken(self, case: Case) -> Printed:
        payload = b"".join(spelled_bytes(line) for line in case.input)
        tries = [(length, self.desk.call(TAKEN, length, payload, name="payload_bytes")) for length in case.numbers("behind")]
        return lambda: [f"{length}: {len(reply.bytes())}" for length, reply in tries]

    def do_sizes(self, case: Case) -> Printed:
        others = payloads_of_lines(case.input)
        tries = []
        for size in range(case.number("from"), case.number("to") + 1):
            payloads = [bytes(size)] + others
            listed = number(len(payloads)) + b"".join(text(payload) for payload in payloads)
            log = log_of_payloads(payloads)
            written = self.desk.call(WRITE_LOG, Raw(listed), name="LogWriter")
            tries.append((size, log, written, self.desk.call(READ_LOG, log, name="read_log")))

        def line(size: int, log: bytes, written: Reply, read: Reply) -> str:
            wants(written.bytes(), log, "the log")
            payloads, name = log_read(read)
            return f"{len(log) - size} bytes more, payloads={len(payloads)} {ended_words(name)}"

        return lambda: rows_of((str(one[0]), line(*one)) for one in tries)

    def do_checksum(self, case: Case) -> Printed:
        message = b"".join(spelled_bytes(line) for line in case.input)
        sums = self.desk.call(SUM_UP, message, name="crc32c")
        places = range(len(message) + 1)
        pieces = [self.desk.call(EXTEND, message[:place], message[place:], name="extend") for place in places]

        def printed() -> List[str]:
            checksum, stored, unmasked = sums.numbers(3)
            wants({reply.number() for reply in pieces} | {unmasked}, {checksum}, "in pieces")
            return [f"{checksum:08x}, stored as {stored:08x}"]

        return printed

    def do_pieces(self, case: Case) -> Printed:
        steps = [line.split(" ", 1) for line in case.input]
        spelled = [
            number(2) + number(int(rest)) if word == "split" else number(("front", "back").index(word)) + text(spelled_bytes(rest))
            for word, rest in steps
        ]
        reply = self.desk.call(PIECES, Raw(number(len(steps)) + b"".join(spelled)), name="Pieces")
        count = 1 + sum(word == "split" for word, _ in steps)
        return lambda: [spell(reply.bytes()) for _ in range(count)]


def run_dump(log: bytes) -> Tuple[List[str], int]:
    ran = subprocess.run([PROGRAM, "dump"], input=log, stdout=subprocess.PIPE)
    return ran.stdout.decode().splitlines(), ran.returncode


def dump_of(left: Left) -> Tuple[List[str], int]:
    """The program's dump of a log with these contents."""
    lines = [write_line(write, lambda value: value.hex() or ".") for write in left.writes]
    return lines + [left.ended], 3 if "fault" in left.ended else 0


def played(path: Path) -> Tuple[int, List[str], Dict[str, List[str]]]:
    """The number of a file's cases, the faults, and the output of each case."""
    files, failures, lines = Files(), [], {}
    cases = read_cases(path)
    for case in cases:
        files.desk = Desk()
        files.desk.look = None
        try:
            printed = files.play(case)
            if files.desk.frames:
                failures += files.desk.play()
            lines[case.where] = printed()
            compare(case, lines[case.where])
        except Wrong as why:
            failures.append(f"{case.where}: {why}")
    return len(cases), failures, lines


def paths() -> List[Path]:
    return sorted(FOLDER.glob("*.txt"))


def rewrite_all() -> None:
    for path in paths():
        rewrite(path, played(path)[2])


def play(refuse: bool = False) -> Tuple[int, List[str], int]:
    """Plays all cases. Returns how many there are, what is wrong, and how many requests were refused, which is none."""
    count, failures = 0, []
    for path in paths():
        number_of_cases, wrong, _ = played(path)
        count, failures = count + number_of_cases, failures + wrong
    return count, failures, 0
