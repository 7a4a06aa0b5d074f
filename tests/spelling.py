"""Bytes as the files of runs spell them: pieces with `+` between them. A piece is `"text"`, hexadecimal, or `3*00` for bytes that
repeat. `""` is no bytes. `00..20` is one byte, each of these in turn: its line stands for one with each.
"""

import re
from typing import List, Optional, Tuple

from model import DELETE, KINDS, RANGE, Fragment, Run, Write
from play import Wrong

EACH = re.compile(r"([0-9a-f]{2})\.\.([0-9a-f]{2})")


def bytes_of(word: str, each: int = 0) -> bytes:
    found = b""
    for piece in word.split("+"):
        times, _, unit = piece.rpartition("*")
        if EACH.fullmatch(unit):
            one = bytes([each])
        elif re.fullmatch('"[^"]*"', unit):
            one = unit[1:-1].encode()
        else:
            one = bytes.fromhex(unit)
            if not one:
                raise Wrong(f"{word} isn't bytes")
        found += one * (int(times) if times else 1)
    return found


def each_in(line: str) -> List[int]:
    """The bytes that stand in turn in a line, rising or falling; one if it has none."""
    found = EACH.search(line)
    if not found:
        return [0]
    first, last = int(found[1], 16), int(found[2], 16)
    return list(range(first, last + 1)) if first < last else list(range(first, last - 1, -1))


def number_of(word: str, each: int) -> int:
    return each if EACH.fullmatch(word) else int(word)


def pieces_of(value: bytes) -> List[str]:
    pieces, place = [], 0
    while place < len(value):
        count = 1
        while value[place + count : place + count + 1] == value[place : place + 1]:
            count += 1
        if count < 3:
            count = 1
        pieces.append(f"{count}*{value[place]:02x}" if count > 1 else f"{value[place]:02x}")
        place += count
    return pieces


def spell(value: bytes) -> str:
    """The spelling of bytes: text at the front, and the others in hexadecimal."""
    front = re.match(rb"[0-9A-Za-z,/]*", value)
    length = front.end() if front else 0
    words = [f'"{value[:length].decode()}"'] if length or not value else []
    return "+".join(words + pieces_of(value[length:]))


# The fields of a line: sequences, a kind and two byte strings.
Said = Tuple[List[int], int, bytes, bytes]


def said(line: str, each: int) -> Said:
    seqs, word, *texts = line.split()
    kind = KINDS[word]
    if len(texts) != (1 if kind == DELETE else 2):
        raise Wrong(f"a line has other texts: {line}")
    first, second = [bytes_of(text, each) for text in texts + ['""']][:2]
    return [number_of(seq, each) for seq in seqs.split(",")], kind, first, second


def said_in(lines: List[str]) -> List[Said]:
    return [said(line, each) for line in lines for each in each_in(line)]


def writes_of(lines: List[str]) -> List[Write]:
    return [Write(seqs[0], kind, first, second) for seqs, kind, first, second in said_in(lines)]


def run_of(lines: List[str], low: Optional[int] = None, high: Optional[int] = None) -> Run:
    """The points and fragments that lines say, in the range of their sequences, or another."""
    parts = said_in(lines)
    points = [Write(seqs[0], kind, first, second) for seqs, kind, first, second in parts if kind != RANGE]
    fragments = [Fragment(tuple(seqs), first, second) for seqs, kind, first, second in parts if kind == RANGE]
    seqs = [seq for each, _, _, _ in parts for seq in each] or [2**64 - 1, 0]
    return Run(
        min(seqs) if parts and low is None else seqs[0] if low is None else low,
        max(seqs) if parts and high is None else 0 if high is None else high,
        tuple(points),
        tuple(fragments),
    )


def run_lines(run: Run, is_brief: bool) -> List[str]:
    """A run as lines: as a whole, and its points and fragments, if it isn't to be brief."""
    lines = [
        f"sequences {run.low} to {run.high}, points {len(run.points)} in blocks {run.blocks()}, "
        f"fragments {len(run.fragments)}, bytes {run.size()}"
    ]
    if is_brief:
        return lines
    names = {kind: name for name, kind in KINDS.items()}
    for point in run.points:
        texts = [point.first] if point.kind == DELETE else [point.first, point.second]
        lines.append(f"{point.seq} {names[point.kind]} " + " ".join(spell(text) for text in texts))
    for one in run.fragments:
        lines.append(f"{','.join(str(seq) for seq in one.seqs)} range {spell(one.begin)} {spell(one.end)}")
    return lines


def effect_words(effect: Tuple) -> str:
    if effect[0] == "keep":
        return "nothing"
    if effect[0] == "clear":
        return "no value"
    return ("operand " if effect[0] == "fold" else "value ") + spell(effect[1])
