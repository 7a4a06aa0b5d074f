"""The plots of docs/BENCHMARKS.md, drawn from the benchmarks' results."""

from results import as_list
from svg import DARK, GREY, PALE, Drawing, Scale
from table import LINES, rounded, rows_of, value_text

OURS_COLOUR, RUST_COLOUR, OTHER_COLOUR, MISSED_COLOUR = "#1f4e8c", "#4d7a2a", "#b3541e", "#c0182b"


def found(results, benchmark, work, case, unit, baseline):
    """The row with these names."""
    for row in results[benchmark]["rows"]:
        names = (row["work"], row["case"], row["ours"]["unit"], (row["baseline"] or {}).get("name"))
        if names == (work, case, unit, baseline):
            return row
    raise SystemExit(f"bench/plot: bench/{benchmark}/results.json has no {work}, {case}, beside {baseline}")


def next_step(number, step):
    """The next whole step above a number: where an axis ends."""
    return (int(number / step) + 1) * step


# Ratios

ROW_HEIGHT = 17
LEAST_SHOWN = 0.04
NAME_AT, BASELINE_AT, AXIS_FROM, AXIS_TO, TEXT_AT = 12, 278, 392, 650, 660

# Baselines that have a shorter name here.
SHORT_NAMES = {"RocksDB+filter": "RocksDB, filter", "RocksDB+flush": "RocksDB, flushed"}


def slowness(number, row):
    """A ratio of times or memory. One of speeds is turned over."""
    return 1 / number if row["goal"] and row["goal"]["direction"] == "at least" else number


def ratios_of(line, results):
    rows = rows_of(line, results, line.ratio_cases)
    return rows, [slowness(ratio, row) for row in rows for ratio in as_list(row["ratio"])]


def ratio_word(ratio):
    return rounded(ratio, 2 if ratio >= 0.01 else 4)


def draw_ratio(drawing, scale, y, rows, ratios):
    """A row's ratios between the least and the most, and its goal as a vertical mark."""
    is_missed = any(row["met"] is False for row in rows)
    colour, shape = (MISSED_COLOUR, "diamond") if is_missed else (OURS_COLOUR, "circle")
    least, most, is_beyond = max(min(ratios), LEAST_SHOWN), max(ratios), min(ratios) < LEAST_SHOWN
    goals = {slowness(row["goal"]["bound"], row) for row in rows if row["goal"]}
    for goal in goals:
        drawing.line(scale(goal), y - 6, scale(goal), y + 6, stroke=DARK, width=2.5)
    if is_beyond:
        at = AXIS_FROM + 2
        drawing.path([(at, y), (at + 9, y - 5), (at + 9, y + 5)], colour, 1.0, "solid", colour)
    if most >= LEAST_SHOWN:
        drawing.line(AXIS_FROM + 10 if is_beyond else scale(least), y, scale(most), y, stroke=colour, width=3.0)
        for ratio in dict.fromkeys((most,) if is_beyond else (least, most)):
            drawing.mark(shape, scale(ratio), y, colour, 4.0)
    words = list(dict.fromkeys((ratio_word(min(ratios)), ratio_word(most))))
    drawing.text(TEXT_AT, y + 4, " to ".join(words), fill=colour)
    if is_missed:
        drawing.text(788, y + 4, "missed", "end", 11, fill=colour)


def ratio_legend(drawing, y):
    drawing.mark("circle", 18, y - 4, OURS_COLOUR, 4.0)
    drawing.text(28, y, "goal met, or none")
    drawing.mark("diamond", 152, y - 4, MISSED_COLOUR, 4.0)
    drawing.text(162, y, "goal missed")
    drawing.line(250, y - 10, 250, y + 2, stroke=DARK, width=2.5)
    drawing.text(258, y, "goal: the highest ratio allowed")
    drawing.text(468, y, "A bar joins several cases. An arrow: beyond the axis.", fill=GREY)


def draw_ratios(results):
    lines = [line for line in LINES if line.name and ratios_of(line, results)[1]]
    top, bottom = 62, 62 + ROW_HEIGHT * len(lines)
    drawing = Drawing(800, bottom + 48, "Our time or memory over the baseline's")
    ratio_legend(drawing, 46)
    most = max(ratio for line in lines for ratio in ratios_of(line, results)[1])
    scale = Scale(LEAST_SHOWN, max(2.5, most), AXIS_FROM, AXIS_TO, True)
    ticks = (0.05, 0.1, 0.2, 0.5, 1, 2)
    drawing.across(scale, ticks, top, bottom, [f"{tick:g}" for tick in ticks])
    drawing.line(scale(1), top, scale(1), bottom, stroke=GREY, width=1.5)
    said = "ratio, logarithmic: to the left is faster or smaller; ratios of rates are turned over"
    drawing.text(AXIS_TO, bottom + 38, said, "end")
    for index, line in enumerate(lines):
        y = top + ROW_HEIGHT * (index + 0.5)
        rows, ratios = ratios_of(line, results)
        if index and lines[index - 1].benchmark != line.benchmark:
            drawing.line(NAME_AT, y - ROW_HEIGHT / 2, 788, y - ROW_HEIGHT / 2, stroke=PALE)
        baseline = rows[0]["baseline"]["name"]
        drawing.text(NAME_AT, y + 4, line.name)
        drawing.text(BASELINE_AT, y + 4, SHORT_NAMES.get(baseline, baseline), fill=GREY)
        draw_ratio(drawing, scale, y, rows, ratios)
    return drawing.whole()


# Pins

READERS = (1, 2, 4)


def number_above(y, other):
    """Where a mark's number stands: above the mark, or below it if another mark is close above."""
    return 20 if 0 < y - other < 40 else -10


def pin_rows(results, work):
    return [found(results, "share", work, f"{readers} readers", "M/s", "RwLock") for readers in READERS]


def draw_pin_panel(drawing, rows, most, title, left, right):
    top, bottom = 84, 300
    x = Scale(0, len(READERS) - 1, left + 40, right - 60)
    y, ticks = Scale(0, most, bottom, top), range(0, most + 1, 15)
    drawing.text(left, top - 14, title, weight="bold")
    drawing.along(y, ticks, left, right, [str(tick) for tick in ticks])
    drawing.frame(left, top, right, bottom)
    for at, readers in enumerate(READERS):
        drawing.text(x(at), bottom + 16, str(readers), "middle", fill=GREY)
    drawing.text((left + right) / 2, bottom + 36, "readers", "middle")
    ours, others = [row["ours"]["value"] for row in rows], [row["baseline"]["value"] for row in rows]
    drawing.series([(x(at), y(one)) for at, one in enumerate(ours)], "circle", OURS_COLOUR)
    drawing.series([(x(at), y(one)) for at, one in enumerate(others)], "square", OTHER_COLOUR, "dashed")
    for at, (one, other) in enumerate(zip(ours, others)):
        drawing.text(x(at), y(one) + number_above(y(one), y(other)), value_text(one), "middle", fill=OURS_COLOUR)
        drawing.text(x(at), y(other) + number_above(y(other), y(one)), value_text(other), "middle", fill=OTHER_COLOUR)


def draw_pins(results):
    drawing = Drawing(800, 350, "Pins by readers")
    drawing.legend(560, 20, "circle", OURS_COLOUR, "solid", "ours")
    drawing.legend(660, 20, "square", OTHER_COLOUR, "dashed", "RwLock")
    drawing.text(20, 192, "million pins a second", "middle", turned=True)
    alone, beside = pin_rows(results, "pins alone"), pin_rows(results, "pins beside")
    most = next_step(max(max(row["ours"]["value"], row["baseline"]["value"]) for row in alone + beside), 15)
    draw_pin_panel(drawing, alone, most, "readers alone", 60, 400)
    draw_pin_panel(drawing, beside, most, "beside an installer", 446, 786)
    return drawing.whole()


# Range deletions

def seconds_by_count(results, works, baseline=None):
    """The seconds of a program by number of ranges: of a baseline, or ours. The first work that has a number counts."""
    seconds = {}
    for work in works:
        for row in results["ranges"]["rows"]:
            name = (row["baseline"] or {}).get("name")
            if row["work"] != work or row["ours"]["unit"] != "s" or (baseline and name != baseline):
                continue
            value = row["baseline"]["value"] if baseline else row["ours"]["value"]
            if value is not None:
                seconds.setdefault(int(row["case"]), value)
    return sorted(seconds.items())


def draw_range_panel(drawing, title, left, right, series):
    top, bottom = 90, 390
    x = Scale(2000, 500000, left, right, True)
    y = Scale(0.004, 100, bottom, top, True)
    drawing.text(left, top - 14, title, weight="bold")
    numbers, ticks = (2500, 10000, 50000, 200000), (0.01, 0.1, 1, 10, 100)
    drawing.across(x, numbers, top, bottom, [f"{number:,}" for number in numbers])
    drawing.along(y, ticks, left, right, [f"{tick:g}" for tick in ticks])
    drawing.frame(left, top, right, bottom)
    drawing.text((left + right) / 2, bottom + 36, "range deletions, logarithmic", "middle")
    for points, shape, colour, dash, note in series:
        places = [(x(count), y(seconds)) for count, seconds in points]
        drawing.series(places, shape, colour, dash)
        last = places[-1]
        for index, text in enumerate(note):
            drawing.text(last[0] + 10, last[1] + 4 + 15 * index, text, size=11, fill=colour)


def draw_ranges(results):
    drawing = Drawing(800, 444, "A report on range deletions that overlap")
    drawing.legend(392, 20, "circle", OURS_COLOUR, "solid", "ours")
    drawing.legend(476, 20, "triangle", RUST_COLOUR, "dotted", "plain Rust")
    drawing.legend(600, 20, "square", OTHER_COLOUR, "dashed", "RocksDB, no assertions")
    drawing.text(18, 240, "seconds, logarithmic", "middle", turned=True)
    ours = (seconds_by_count(results, ("ranges", "watermarks")), "circle", OURS_COLOUR, "solid", ())
    rust = (seconds_by_count(results, ("watermarks",), "plain Rust"), "triangle", RUST_COLOUR, "dotted",
            ("then over 12 s", "or 8,000 MiB"))
    points = seconds_by_count(results, ("ranges",), "RocksDB")
    memory = found(results, "ranges", "ranges", str(points[-1][0]), "MiB", "RocksDB")["baseline"]["value"]
    rocksdb = (points, "square", OTHER_COLOUR, "dashed", (f"{memory:,} MiB here,", "not run beyond"))
    draw_range_panel(drawing, "watermarks: each covers those before it", 66, 400, (ours, rust, rocksdb))
    ours = (seconds_by_count(results, ("stairs",)), "circle", OURS_COLOUR, "solid", ())
    rust = (seconds_by_count(results, ("stairs",), "plain Rust"), "triangle", RUST_COLOUR, "dotted", ())
    draw_range_panel(drawing, "stairs: each spans 1,000 keys, one further on", 452, 786, (ours, rust))
    return drawing.whole()


# Batches

WORKERS, COMPACTORS = (1, 2, 4), (0, 1, 2)
BAR = 30


def draw_bars(drawing, y, bottom, x, values):
    """Our bar and RocksDB's side by side, each with its number. RocksDB's is hollow."""
    styles = ((OURS_COLOUR, OURS_COLOUR), ("#ffffff", OTHER_COLOUR))
    for at, (value, (fill, colour)) in enumerate(zip(values, styles)):
        left = x + (at - 1) * BAR
        drawing.rect(left + 1, y(value), BAR - 2, bottom - y(value), fill, colour)
        drawing.text(left + BAR / 2, y(value) - 5, value_text(float(value)), "middle", 11, fill=colour)


def batch_values(results, workers, compactors):
    row = found(results, "shared", "batches", f"workers {workers} beside {compactors}", "ms", "RocksDB")
    return row["ours"]["value"], row["baseline"]["value"]


def draw_batch(results):
    top, bottom, width = 84, 330, 232
    drawing = Drawing(800, 384, "A batch of 200,000 lookups and 5,000 scans")
    drawing.rect(560, 14, 14, 12, OURS_COLOUR, OURS_COLOUR)
    drawing.text(580, 24, "ours")
    drawing.rect(640, 14, 14, 12, "#ffffff", OTHER_COLOUR)
    drawing.text(660, 24, "RocksDB")
    drawing.text(18, (top + bottom) / 2, "milliseconds a batch", "middle", turned=True)
    most = next_step(max(max(batch_values(results, workers, 0)) for workers in WORKERS), 1000)
    y, ticks = Scale(0, most, bottom, top), range(0, most + 1, 1000)
    drawing.along(y, ticks, 66, 788, [f"{tick:,}" for tick in ticks])
    for panel, workers in enumerate(WORKERS):
        left = 74 + panel * (width + 6)
        heading = f"{workers} workers" if workers > 1 else "1 worker"
        drawing.text(left + width / 2, top - 14, heading, "middle", weight="bold")
        for at, compactors in enumerate(COMPACTORS):
            x = left + width * (at + 0.5) / len(COMPACTORS)
            draw_bars(drawing, y, bottom, x, batch_values(results, workers, compactors))
            drawing.text(x, bottom + 16, str(compactors), "middle", fill=GREY)
        if panel:
            drawing.line(left - 3, top - 30, left - 3, bottom + 20, stroke=GREY)
    drawing.frame(66, top, 788, bottom)
    drawing.text(427, bottom + 38, "compactors beside the batch", "middle")
    return drawing.whole()


# Feeds

FEEDS = (1, 10, 100, 1000, 10000)
NAMES = {1000: "1,000", 10000: "10,000"}


def feed_rows(results, baseline):
    """The rows of feeds of a number of writes beside a baseline, with their numbers of writes."""
    return [(size, found(results, "live", "feeds", f"batches of {NAMES.get(size, size)}", "ns", baseline)) for size in FEEDS]


def figures_of(results):
    """The text of each figure by its file's name."""
    return {
        "ratios.svg": draw_ratios(results),
        "pins.svg": draw_pins(results),
        "ranges.svg": draw_ranges(results),
        "batch.svg": draw_batch(results),
    }
