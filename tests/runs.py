"""Plays the cases of memtables, runs and compactions in `cases/runs`, whose README has the commands.

Each file is played with byte strings that the memtable owns and with borrowed ones, and under each operator that it names. Whatever run a case
makes is read in each way, at each of its keys and beside them, and has to say what its plain writes do; what is compacted has to
read at its keeps as its inputs.
"""

from pathlib import Path
from typing import Callable, Dict, List, Optional, Tuple

from cases import Case, compare, read_cases, rewrite
from desk import ALONE, BUILD, COMPACT, COMPARE, FENCE, FLUSH, IN_THREADS, INSERT, LOOK, LOOK_UP, RENEW, SAME, SEEK, WALK
from desk import Demand, Desk, beside, keys_of, run_shown, run_spelling, sums_of
from model import OPERATORS, Run, Write, applied, effect_at, flushed, value_at
from play import TOP, Raw, Reply, number, text, wants
from spelling import bytes_of, each_in, effect_words, number_of, run_lines, run_of, spell, writes_of

FOLDER = TOP / "tests" / "cases" / "runs"

# The arguments of each command.
KNOWN = {
    "memtable": ["more"],
    "flush": ["brief"],
    "run": ["low", "high", "brief"],
    "same": ["low", "high"],
    "lookup": ["counter"],
    "compact": ["keeps", "oldest", "counter"],
}

# The output of a case, once the program has answered.
Printed = Callable[[], List[str]]

# The run that cases ask, one that is compared with it, and one that others become.
RUN, OTHER, OUTPUT = "run", "other", "output"


class Stories:
    """The cases of a file, over the memtable, the run and the inputs that earlier ones made."""

    def __init__(self, path: Path, operator: str, owns: bool, refuse: bool = False) -> None:
        self.desk = Desk(operator, refuse)
        self.owns = owns
        self.writes: List[Write] = []
        # The runs of the last compaction, the newest first. Each is kept under its place.
        self.inputs: List[Run] = []
        self.printed: Dict[str, List[str]] = {}
        self.cases = read_cases(path)
        for case in self.cases:
            self.add(case)

    @property
    def run(self) -> int:
        """The number of the run that cases ask."""
        return self.desk.number_of(RUN)

    def add(self, case: Case) -> None:
        case.allow(KNOWN.get(case.command, []))
        of_counter = self.desk.operator == "counter"
        printed = getattr(self, "add_" + case.command)(case)
        if case.command in ("lookup", "compact") and case.has("counter") != of_counter:
            return

        def check() -> None:
            self.printed[case.where] = printed()
            compare(case, self.printed[case.where])

        self.desk.check(case.where, check)

    def demand(self, case: Case, place: int, run: Run) -> None:
        if not self.desk.refuse:
            Demand(self.desk, case.where, place, run)

    def add_memtable(self, case: Case) -> Printed:
        if not case.has("more"):
            self.writes = []
            self.desk.call(RENEW)
        writes = writes_of(case.input)
        replies = [self.desk.insert(write, self.owns) for write in writes]
        self.writes += writes
        look = self.desk.call(LOOK, name="a look at the memtable")

        def printed() -> List[str]:
            if not all(reply.is_made for reply in replies):
                return ["error: a sequence isn't above the last"]
            size, last, is_empty = look.number(), look.number(), look.flag()
            wants(is_empty, not self_writes, "whether it is empty")
            return [f"{size} bytes, last {last}"]

        self_writes = list(self.writes)
        return printed

    def show_made(self, case: Case, made: Reply, run: Run, error: str) -> Printed:
        """Keeps the run that was made, and demands of it what each run is demanded."""
        is_brief = case.has("brief")
        if case.expected[:1] == [f"error: {error}"]:
            return lambda: [f"error: {error}"] if not made.is_made else ["a run is made"]
        place = self.desk.kept(RUN)
        shown = self.desk.show(place)
        self.demand(case, place, run)

        def printed() -> List[str]:
            if not made.is_made:
                return [f"error: {error}"]
            found, summed = run_shown(shown)
            wants(summed, sums_of(found), "what the run says of itself")
            return run_lines(found, is_brief)

        return printed

    def add_flush(self, case: Case) -> Printed:
        made = self.desk.call(FLUSH, name="flush")
        run = flushed(self.writes) if self.writes else None
        self.writes = []
        return self.show_made(case, made, run, "there is nothing to flush")

    def said_run(self, case: Case) -> Run:
        said = run_of(case.input)
        return said._replace(low=case.number("low", said.low), high=case.number("high", said.high))

    def add_run(self, case: Case) -> Printed:
        run = self.said_run(case)
        made = self.desk.call(BUILD, Raw(run_spelling(run)), name="build")
        return self.show_made(case, made, run, "they make no run")

    def add_same(self, case: Case) -> Printed:
        self.desk.call(BUILD, Raw(run_spelling(self.said_run(case))), name="build")
        run, other = self.run, self.desk.kept(OTHER)
        same = self.desk.call(SAME, run, other, name="same")
        back = self.desk.call(SAME, other, run, name="same")

        def printed() -> List[str]:
            is_same = same.flag()
            wants(back.flag(), is_same, "the other way round")
            return ["the same" if is_same else "another"]

        return printed

    def add_lookup(self, case: Case) -> Printed:
        asked: List[Tuple[bytes, int, Reply]] = []
        for line in case.input:
            word, at = line.split(" ")
            for each in each_in(line):
                key, seq = bytes_of(word, each), number_of(at, each)
                asked.append((key, seq, self.desk.look_up(self.run, key, seq)))
        return lambda: [f"{spell(key)} at {at}: {effect_words(reply.effect())}" for key, at, reply in asked]

    def add_seek(self, case: Case) -> Printed:
        keys = [bytes_of(line, each) for line in case.input for each in each_in(line)]
        replies = [self.desk.call(SEEK, self.run, key, name="seek") for key in keys]

        def place(reply: Reply) -> str:
            found, key = reply.number(), reply.some()
            return f"{found} {'the end' if key is None else spell(key)}"

        return lambda: [f"{spell(key)}: {place(reply)}, above it {place(reply)}" for key, reply in zip(keys, replies)]

    def add_fences(self, case: Case) -> Printed:
        fences = [self.desk.call(FENCE, self.run, block, name="fence") for block in range(len(case.expected))]

        def printed() -> List[str]:
            found = [reply.some() for reply in fences]
            return [f"{block}: {'none' if key is None else spell(key)}" for block, key in enumerate(found)]

        return printed

    def add_walk(self, case: Case) -> Printed:
        steps, verbs = [], []
        for line in case.input:
            verb, word, *at = line.split()
            kind = ("from", "seek", "pass", "hidden").index(verb)
            steps.append(number(kind) + text(bytes_of(word)) + b"".join(number(int(one)) for one in at))
            verbs.append(verb)
        reply = self.desk.call(WALK, self.run, len(steps), Raw(b"".join(steps)), name="walk")

        def printed() -> List[str]:
            lines = []
            for verb in verbs:
                hidden = reply.some() if verb == "hidden" else None
                key, none = (hidden, "not hidden") if verb == "hidden" else (None, "the end")
                there = reply.some()
                key = key if verb == "hidden" else there
                lines.append(none if key is None else spell(key))
            return lines

        return printed

    def add_compact(self, case: Case) -> Printed:
        if case.input:
            self.inputs = self.read_inputs(case)
        numbers = [self.desk.number_of(place) for place in range(len(self.inputs))]
        keeps, oldest = case.numbers("keeps"), case.has("oldest")
        if case.expected[:1] == ["error: they can't be compacted together"]:
            refused = self.desk.call(COMPACT, 0, numbers, keeps, int(oldest), ALONE, name="compact")
            return lambda: ["a run is made"] if refused.is_made else case.expected[:1]
        way = IN_THREADS if self.owns else ALONE
        made, reply = self.desk.compact(numbers, keeps, oldest, way, OUTPUT)
        shown = self.desk.show(made)
        reads = Reads(self.desk, made, self.inputs, keeps, oldest)

        def printed() -> List[str]:
            asked = (reply.number(), reply.numbers(), reply.flag())
            wants(asked, (len(numbers), keeps, oldest), "what was asked")
            found, summed = run_shown(shown)
            wants(summed, sums_of(found), "what the run says of itself")
            reads.check()
            return run_lines(found, False)

        if case.has("counter") == (self.desk.operator == "counter") and len(case.expected) > 1:
            self.demand(case, made, run_of(case.expected[1:], *self.range_of_inputs()))
        return printed

    def range_of_inputs(self) -> Tuple[int, int]:
        return min(run.low for run in self.inputs), max(run.high for run in self.inputs)

    def read_inputs(self, case: Case) -> List[Run]:
        """Builds and keeps the runs of a case, the newest first."""
        starts = [place for place, line in enumerate(case.input) if line == "run"]
        ends = starts[1:] + [len(case.input)]
        runs = [run_of(case.input[start + 1 : end]) for start, end in zip(starts, ends)]
        for place, run in enumerate(runs):
            self.desk.call(BUILD, Raw(run_spelling(run)), name="build")
            self.desk.kept(place)
        return runs

    def add_texts(self, case: Case) -> Printed:
        texts = [bytes_of(line) for line in case.input]
        pairs = [(place, other) for place in range(len(texts)) for other in range(len(texts))]
        replies = [self.desk.call(COMPARE, texts[place], texts[other], name="compare") for place, other in pairs]

        def printed() -> List[str]:
            for (place, other), reply in zip(pairs, replies):
                if (reply.flag(), reply.flag(), reply.flag()) != (place == other, place < other, other < place):
                    return [f"text {place + 1} isn't in order"]
            return ["in order"]

        return printed


class Reads:
    """A run that was made of others, which has to read as their plain writes do: at each keep and at the greatest sequence. With the
    oldest run only the values count."""

    def __init__(self, desk: Desk, made: int, inputs: List[Run], keeps: List[int], oldest: bool) -> None:
        self.writes = sorted((write for run in inputs for write in run.writes()), key=lambda write: write.seq)
        self.operator, self.oldest = OPERATORS[desk.operator], oldest
        keys = beside([key for run in inputs for key in keys_of(run)])
        top = max((run.high for run in inputs), default=0)
        self.asked = [(key, at, desk.look_up(made, key, at)) for key in keys for at in sorted({*keeps, top, top + 1})]

    def check(self) -> None:
        for key, at, reply in self.asked:
            effect = reply.effect()
            if self.oldest:
                wants(applied(self.operator, effect, None), value_at(self.operator, self.writes, key, at), reply.name)
            else:
                wants(effect, effect_at(self.operator, self.writes, key, at), reply.name)


# The calls that have to be refused memory somewhere.
REFUSES = {INSERT, FLUSH, BUILD, LOOK_UP, COMPACT}


def ways(path: Path) -> List[Tuple[str, bool]]:
    """The operators under which a file is played, and whether memtables own their byte strings."""
    with_counter = any(case.has("counter") for case in read_cases(path))
    return [("append", False), ("append", True)] + ([("counter", False)] if with_counter else [])


def play(refuse: bool = False, paths: Optional[List[Path]] = None) -> Tuple[int, List[str], int]:
    """Plays all files. Returns how many cases there are, what is wrong, and how many requests were refused."""
    count, failures, refused = 0, [], 0
    for path in paths or sorted(FOLDER.glob("*.txt")):
        count += len(read_cases(path))
        for operator, owns in ways(path):
            stories = Stories(path, operator, owns, refuse)
            failures += stories.desk.play()
            refused += stories.desk.refused
    return count, failures, refused


def rewrite_all() -> None:
    """Puts what is printed now into the files. Read the difference: what is printed has to be worked out."""
    for path in sorted(FOLDER.glob("*.txt")):
        printed: Dict[str, List[str]] = {}
        for operator, owns in ways(path):
            stories = Stories(path, operator, owns)
            stories.desk.play()
            printed.update(stories.printed)
        rewrite(path, printed)
