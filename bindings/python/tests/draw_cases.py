"""Prints a file of random cases in the form of bindings/cases, with the answers of the model:

    draw_cases.py SEED CASES [OPERATOR] > FILE

All stores have the operator, if one is named. The model has no memtables, runs or logs. The players of C and Python play the file over a database.
"""

import random
import sys

from test_cases import rewritten, word_of

import mixed_model  # test_cases has its folder in the path.

KEYS = ["a", "ab", "abc", "b", "ba", "c", '""', '"\\x00"', '"a\\x00"', '"\\xff"', '"\\xff\\xff"', "20*k", "300*k"]
NAMES = ["one", "two", "three", "four", "five"]
TEXTS = ["1", "22", "333", '""', '"\\xff\\x00"', "40*v", "700*w"]
NUMBERS = ["u64:1", "u64:7", "u64:18446744073709551615", "no", '""']
OPTIONS = ["", " write_buffer_size=1", " write_buffer_size=64", " write_buffer_size=64 compacts_itself=0 compaction_trigger=2"]


class Drawn:
    """Returns the lines of a file."""

    def __init__(self, seed, operators):
        self.random = random.Random(seed)
        self.operators = operators
        self.lines = []
        self.names = []

    def texts(self):
        return NUMBERS if self.operator == "counter" else TEXTS

    def part(self):
        """A part, whose payload has its shape."""
        number = self.random.choice(mixed_model.NUMBERS)
        parameter = {mixed_model.APPEND: self.random.choice([0, 44]), mixed_model.TAIL: self.random.choice([0, 2, 300])}.get(number, 0)
        if number in mixed_model.OF_NUMBERS:
            payload = self.random.choice([1, 7, 2**63, 2**64 - 1]).to_bytes(8, "little")
        elif number == mixed_model.SET_UNION:
            payload = mixed_model.set_bytes(sorted({self.bytes() for _ in range(self.random.randrange(4))}))
        else:
            payload = self.bytes() * self.random.choice([1, 1, 1, 90])
        return mixed_model.spelled(mixed_model.Part(mixed_model.Kind(number, parameter), payload))

    def bytes(self):
        return bytes(self.random.choice([0, 1, 97, 98, 255]) for _ in range(self.random.randrange(4)))

    def operand(self):
        if self.operator != "mixed":
            return self.random.choice(self.texts())
        return word_of(b"".join(self.part() for _ in range(self.random.choice([1, 1, 1, 2, 3]))))

    def create(self):
        self.operator = self.random.choice(self.operators)
        self.names = []
        self.lines.append(f"create {self.operator}{self.random.choice(OPTIONS)}")

    def key(self):
        return self.random.choice(KEYS)

    def write(self, indent=""):
        """Adds a write of one operation."""
        kind = self.random.choice(["put", "put", "merge", "merge", "merge", "delete", "range"])
        text = self.operand() if kind == "merge" else self.random.choice(self.texts())
        second = {"delete": "", "range": f" {self.key()}"}.get(kind, f" {text}")
        self.lines.append(f"{indent}{kind} {self.key()}{second}")

    def batch(self):
        self.lines.append("batch")
        for _ in range(self.random.randrange(5)):
            self.write("  ")

    def read(self):
        at = f" at {self.random.choice(self.names)}" if self.names and self.random.random() < 0.5 else ""
        kind = self.random.randrange(4)
        if kind == 0:
            self.lines.append(f"get {self.key()}{at}")
        elif kind == 1:
            self.lines.append(f"scan {self.key()} {self.key()} limit {self.random.randrange(1, 5)}{at}")
        elif kind == 2:
            self.lines.append(f"count {self.key()}{at}")
        else:
            self.lines.append(f"prefix {self.key()}")

    def snapshot(self):
        """Takes a snapshot, or releases one."""
        free = [name for name in NAMES if name not in self.names]
        if free and self.random.random() < 0.6:
            self.names.append(free[0])
            self.lines.append(f"snapshot {free[0]}")
        elif self.names:
            self.lines.append(f"release {self.names.pop(self.random.randrange(len(self.names)))}")

    def step(self):
        steps = [self.write, self.batch, self.read, self.snapshot, lambda: self.lines.append(self.random.choice(["flush", "compact"]))]
        self.random.choices(steps, [8, 3, 5, 2, 1])[0]()

    def case(self):
        """Adds a case, which continues with the store of the previous case, or begins with a new one."""
        if not self.lines or self.random.random() < 0.2:
            self.create()
        for _ in range(self.random.randrange(5, 25)):
            self.step()
        self.lines += ["scan", "last", "----", ""]


drawn = Drawn(int(sys.argv[1]), sys.argv[3:] or ["append", "counter", "maximum", "tail", "mixed"])
for _ in range(int(sys.argv[2])):
    drawn.case()
print("\n".join(rewritten(drawn.lines)))
