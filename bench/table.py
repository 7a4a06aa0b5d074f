"""The table of bench/FIGURES.md: which rows of the results make its lines, and how a line's cells are written."""

from decimal import ROUND_HALF_UP, Decimal
from fnmatch import fnmatchcase
from typing import NamedTuple, Optional

from results import OURS, as_list

# The machines' letters. The page says what they stand for.
LETTERS = {"Intel(R) Xeon(R) Processor @ 2.50GHz": "A", "Intel(R) Xeon(R) Processor": "B", None: "?"}

# The month whose dates are written by the day alone, as the page says.
MONTH = "2026-11"

# The page's name of a baseline, if it isn't the name in the results.
NAMES = {
    "AtomicU64": "`AtomicU64`", "BTreeMap": "`BTreeMap`", "RwLock": "`RwLock`",
    "RocksDB+filter": "RocksDB, Bloom filter", "RocksDB+flush": "RocksDB, flushed", "one worker": "one",
}

# The number of a unit in another one.
PARTS = {("ns", "µs"): 1000, ("ns", "ms"): 1000000}


class Line(NamedTuple):
    """A line of the table: the rows of a work, some cases and a baseline, or any baseline if it is None.

    How several rows make a cell: `each` writes all, `range` the least and the most, `first` the first, `mean` the mean,
    and `none` nothing. `worst` takes the row with the highest ratio alone. `ratio_style` is that of ratios, if it
    differs. `digits` are the decimals. `ratio_cases` have the ratio, if other cases than those of the values
    do. docs/figures/ratios.svg shows the lines that have a `name`.
    """

    benchmark: str
    label: str
    work: str
    cases: tuple = ("*",)
    baseline: Optional[str] = None
    units: tuple = ("ms",)
    shown: Optional[str] = None
    digits: Optional[int] = None
    style: str = "each"
    ratio_style: Optional[str] = None
    ratio_digits: int = 2
    ratio_cases: Optional[tuple] = None
    name: Optional[str] = None


TWICE = "half of them"
S, MIB, NS, RATE = ("s",), ("MiB",), ("ns",), ("M/s",)


def deleted(work, how, label, kind, baseline):
    """A line of scans over deleted keys: the times of 20,000 rows. RocksDB's ratio is that of all three scans."""
    ratio_cases = (kind,) if baseline == "RocksDB" else None
    name = f"scans over deleted {how}, {'not ' if kind == 'uncompacted' else ''}compacted"
    return Line("answers", label, work, (f"{kind}, 20,000 rows",), baseline, ratio_cases=ratio_cases, name=name)


def from_c(label, work, part, baseline, name):
    """A line of a store that is called from C, and compacts by itself."""
    return Line("c", label, work, (f"{part}, batches of 1,000",), baseline, name=name)


def pins(label, work, readers, name, **options):
    cases = tuple(f"{one} readers" for one in readers)
    return Line("share", label, work, cases, "RwLock", RATE, shown="", name=name, **options)


def pin_times(label, readers, name):
    cases = tuple(f"{one} readers 99.99" for one in readers)
    return Line("share", label, "pin times beside", cases, "RwLock", NS, shown="µs", digits=1, name=name)


LINES = (
    Line("dump", "`dump`, log of 64 MiB", "dump", ("* 64 MiB",), "plain Rust", S, digits=3, style="first",
         ratio_style="range", name="dump, log of 64 MiB"),
    Line("dump", "its memory", "dump", ("* 64 MiB",), "the log", MIB, style="range"),
    Line("crc", "CRC-32C, MiB/s", "CRC-32C", baseline="plain Rust", units=("MiB/s",), shown="", style="range",
         name="CRC-32C"),
    Line("run", "insert and flush, 1.3 million writes", "insert and flush", ("1300000 *",),
         name="insert and flush"),
    Line("run", "20,000 lookups in 10 runs", "lookups", ("1300000 *",), name="20,000 lookups in 10 runs"),
    Line("run", "memory", "memory", ("1300000 *",), units=MIB, name="its memory"),
    Line("run", "twice the writes", "insert and flush, twice the writes", baseline=TWICE),
    Line("compact", "compaction of ten runs", "compaction", ("counter 10 130000 *",), style="range",
         name="compaction of ten runs"),
    Line("report", "`report`, log of 60 MiB", "report", ("60 MiB",), "plain Rust", S, digits=2,
         name="report, log of 60 MiB"),
    Line("report", "the same", "report", ("60 MiB",), "RocksDB", S, digits=2, name="report, log of 60 MiB"),
    Line("report", "the same", "report", ("60 MiB",), "BTreeMap", S, digits=2, name="report, log of 60 MiB"),
    Line("report", "the same on one processor", "report, one processor", ("60 MiB",), "RocksDB", S, digits=2,
         name="report on one processor"),
    Line("report", "four processors", "report, four processors", ("60 MiB",), "one processor", S, digits=2),
    Line("report", "its memory", "report", ("60 MiB",), "RocksDB", MIB, name="its memory"),
    Line("report", "twice the log", "report, twice the log", ("60 MiB",), units=S, digits=2),
    Line("report", "a log whose keys are words", "report, words", ("60 MiB",), "RocksDB", S, digits=2,
         name="report, keys that are words"),
    Line("report", "the same", "report, words", ("60 MiB",), "BTreeMap", S, digits=2, name="report, keys that are words"),
    Line("report", "one with keys of 100 bytes", "report, long", ("60 MiB",), "RocksDB", S, digits=2,
         name="report, keys of 100 bytes"),
    Line("report", "the same", "report, long", ("60 MiB",), "BTreeMap", S, digits=2, name="report, keys of 100 bytes"),
    Line("answers", "lookups and scans, compacted", "answers", baseline="BTreeMap",
         name="lookups and scans, compacted"),
    Line("answers", "the same", "answers", baseline="RocksDB", name="lookups and scans, compacted"),
    Line("answers", "the same", "answers", baseline="LMDB", name="lookups and scans, compacted"),
    Line("answers", "the same, not compacted", "uncompacted", baseline="RocksDB",
         name="lookups and scans, not compacted"),
    Line("answers", "the same, 256 runs", "many", baseline="RocksDB+filter", name="lookups and scans, 256 runs"),
    Line("answers", "four workers", "four workers", style="range", ratio_style="mean", ratio_digits=1),
    deleted("deleted", "keys", "scans over deleted keys, compacted", "compacted", "RocksDB"),
    deleted("deleted", "keys", "the same", "compacted", "LMDB"),
    deleted("deleted", "keys", "the same, not compacted", "uncompacted", "RocksDB"),
    deleted("ranged", "ranges", "scans over deleted ranges, compacted", "compacted", "RocksDB"),
    deleted("ranged", "ranges", "the same", "compacted", "LMDB"),
    deleted("ranged", "ranges", "the same, not compacted", "uncompacted", "RocksDB"),
    Line("ranges", "`report`, 200,000 overlapping watermarks", "watermarks", ("200000",), OURS, ("s", "MiB")),
    Line("ranges", "twice the watermarks", "watermarks, twice as many", baseline=TWICE, units=S, ratio_digits=1,
         style="none", ratio_style="each"),
    Line("ranges", "the same over 100,000 points", "points, twice as many", baseline=TWICE, units=S,
         ratio_digits=1, style="none", ratio_style="each"),
    Line("ranges", "`report`, 10,000 watermarks", "ranges", ("10000",), "RocksDB", S, ratio_digits=4,
         name="report, 10,000 watermarks"),
    Line("ranges", "its memory", "ranges", ("10000",), "RocksDB", MIB, ratio_digits=4, name="its memory"),
    Line("ask", "`ask`, log of 60 MiB, 0 and 2 compactors", "ask", baseline="RocksDB", units=S, digits=2,
         name="ask, 0 and 2 compactors"),
    Line("ask", "its memory", "ask", ("0 compactors",), "RocksDB", MIB, name="its memory"),
    Line("live", "live writes, batches of 1,000", "live writes", ("batches of 1,000",), "RocksDB", S, digits=2,
         name="live writes, batches of 1,000"),
    Line("live", "live writes, shared, 2 readers", "live writes, shared", baseline="RocksDB", units=S, digits=2,
         name="live writes, shared"),
    Line("live", "lookups meanwhile, p50 to p99.9", "lookups beside feeds", ("median", "99", "99.9"), "RocksDB", NS,
         shown="µs", style="range", name="lookups beside feeds"),
    from_c("writes from C, in batches of 1,000", "writes from C", "counters", "RocksDB", "writes from C, batches of 1,000"),
    Line("c", "one by one", "writes from C", ("counters, one by one",), "RocksDB", name="writes from C, one by one"),
    from_c("a million lookups", "lookups from C", "counters", "RocksDB", "lookups from C"),
    from_c("10,000 scans", "scans from C", "counters", "RocksDB", "scans from C"),
    Line("views", "view, closed again", "views", ("view and close",), OURS, NS),
    Line("views", "job, its owner's part", "owner's part of a job", ("* median",), OURS, NS, shown="µs"),
    Line("views", "3 readers of views, M/s", "lookups on views", ("3 readers",), "RocksDB", RATE, shown="",
         name="lookups on views, 3 readers"),
    Line("views", "the same", "lookups on views", ("3 readers",), "one reader", RATE, shown=""),
    Line("views", "p99", "lookups on views", ("3 readers 99",), "RocksDB", NS, shown="µs",
         name="p99 of these lookups"),
    Line("views", "writes beside jobs", "single writes beside jobs", ("all",), "RocksDB",
         name="single writes beside jobs"),
    Line("shared", "batch, 2 workers, 1 compactor", "batches", ("workers 2 beside 1",), "RocksDB",
         name="batch, 2 workers, 1 compactor"),
    Line("shared", "the same", "batches", ("workers 2 beside 1",), "no compactor"),
    Line("shared", "batch, no compactor", "batches", ("* beside 0",), "one version", style="range"),
    Line("shared", "lookups, 1 compactor, p50 to p99.9", "lookups", ("beside 1 median", "beside 1 99",
         "beside 1 99.9"), "RocksDB", NS, shown="µs", style="range", name="lookups, 1 compactor, p50 to p99.9"),
    pins("pins, 1 reader, M/s", "pins alone", "1", "pins, 1 reader"),
    pins("pins beside an installer, 1 reader", "pins beside", "1", "pins beside an installer, 1 reader"),
    pins("2 and 4 readers", "pins beside", "24", "the same, 2 and 4 readers", ratio_digits=1),
    pin_times("p99.99 of these pins, 1 reader", "1", "p99.99 of these pins, 1 reader"),
    Line("share", "install, 1,000 points a run", "installs", ("1000 points",), "compaction", NS, shown="ms",
         digits=2),
    Line("hostile", "{count} hostile inputs, slowest", "hostile inputs", units=S, style="worst"),
    Line("hostile", "twice the input, worst", "twice the input", units=S, style="worst", ratio_digits=1),
    Line("hostile", "memory, worst", "memory", units=MIB, style="worst", ratio_digits=0),
)


def rows_of(line, results, cases=None):
    """The rows that a line is made of: none if its benchmark has no results yet. `ours` as its baseline asks for the
    rows without one.
    """
    baseline = None if line.baseline == OURS else line.baseline
    return [
        row for row in results.get(line.benchmark, {"rows": []})["rows"]
        if row["work"] == line.work and row["ours"]["unit"] in line.units
        and any(fnmatchcase(row["case"], case) for case in cases or line.cases)
        and (line.baseline is None or (row["baseline"] or {}).get("name") == baseline)
    ]


def rounded(number, digits):
    """A number with this many decimals, halves away from zero as in decimal notation."""
    return f"{Decimal(str(number)).quantize(Decimal(1).scaleb(-digits), ROUND_HALF_UP):,}"


def value_text(number, digits=None):
    """A figure. Whole numbers stay whole; others have fewer decimals the larger they are."""
    if isinstance(number, int):
        return f"{number:,}"
    if digits is None:
        digits = 0 if number >= 100 else 1 if number >= 1 else 2 if number >= 0.1 else 3
    return rounded(number, digits)


def joined(numbers, style, text):
    """Several numbers in a cell."""
    if not numbers or style == "none":
        return ""
    if style == "mean":
        return text(sum(numbers) / len(numbers)) + " (mean)"
    texts = [text(number) for number in numbers]
    if style == "range":
        texts = [text(min(numbers)), text(max(numbers))]
    if style in ("first", "worst"):
        texts = texts[:1]
    texts = list(dict.fromkeys(texts))
    return (" to " if style == "range" else ", ").join(texts)


def in_unit(number, unit, shown):
    parts = PARTS.get((unit, shown))
    return number / parts if parts else number


def values_text(line, rows, value_of):
    """The values of some rows with their unit."""
    cells = []
    for unit in line.units:
        shown = unit if line.shown is None else line.shown
        of_unit = [row for row in rows if row["ours"]["unit"] == unit]
        values = [in_unit(one, unit, shown) for row in of_unit for one in as_list(value_of(row))]
        cell = joined(values, line.style, lambda number: value_text(number, line.digits))
        if cell:
            cells.append(f"{cell} {shown}".rstrip())
    return ", ".join(cells)


def our_text(line, rows):
    return values_text(line, rows, lambda row: row["ours"]["value"])


def baseline_text(line, rows):
    if not rows[0]["baseline"]:
        return ""
    name = rows[0]["baseline"]["name"]
    value = values_text(line, rows, lambda row: row["baseline"]["value"])
    return ", ".join(filter(None, (NAMES.get(name, name), value)))


def ratio_text(line, rows):
    ratios = [ratio for row in rows for ratio in as_list(row["ratio"])]
    return joined(ratios, line.ratio_style or line.style, lambda number: rounded(number, line.ratio_digits))


def bound_text(row):
    goal = row["goal"]
    unit = " " + row["ours"]["unit"] if goal.get("of") == OURS else ""
    return ("≥" if goal["direction"] == "at least" else "") + str(goal["bound"]) + unit


def goal_text(rows, all_rows):
    """The goals of a line, and whether all rows that it stands for keep to them."""
    bounds = list(dict.fromkeys(bound_text(row) for row in rows if row["goal"]))
    if not bounds:
        return "none"
    missed = sum(row["met"] is False for row in all_rows)
    how_many = f"{missed} " if missed > 1 and len(all_rows) > len(rows) else ""
    return ", ".join(bounds + [f"{how_many}**missed**" if missed else "met"])


def measured_text(rows):
    """The machine's letter and the day, of each that rows have."""
    texts = []
    for row in rows:
        name = row["machine"]["name"]
        if name not in LETTERS:
            raise SystemExit(f"bench/plot: the machine {name} has no letter in bench/table.py and bench/FIGURES.md")
        day = row["date"][8:] if row["date"].startswith(MONTH) else row["date"]
        texts.append(f"{LETTERS[name]}-{day}")
    return ", ".join(dict.fromkeys(texts))


def worst_of(rows):
    """The row with the highest ratio, or with our highest figure if none has a ratio."""
    def badness(row):
        figures = as_list(row["ours"]["value"] if row["ratio"] is None else row["ratio"])
        return row["ratio"] is not None, max(figures, default=0)

    return max(rows, key=badness)


def line_text(line, results, is_first):
    """A line of the table, or nothing if none of its rows is there."""
    all_rows = rows_of(line, results)
    if not all_rows:
        return ""
    rows = [worst_of(all_rows)] if line.style == "worst" else all_rows
    over = rows_of(line, results, line.ratio_cases) if line.ratio_cases else rows
    link = f"[{line.benchmark}]({line.benchmark}/RESULTS.md)" if is_first else ""
    cells = [
        line.label.format(count=len(all_rows)), our_text(line, rows), baseline_text(line, rows), ratio_text(line, over),
        goal_text(rows, all_rows), link, measured_text(rows),
    ]
    return "|" + "|".join(cells) + "|\n"


def table_of(results):
    """The whole table. The first line of a benchmark links to all of its figures."""
    texts, linked = ["|Work|Ours|Baseline|Ratio|Goal|Script|Measured|\n|---|---|---|---|---|---|---|\n"], set()
    for line in LINES:
        text = line_text(line, results, line.benchmark not in linked)
        if text:
            linked.add(line.benchmark)
        texts.append(text)
    return "".join(texts)
