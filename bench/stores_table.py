"""The databases side by side: the README's table and stores.svg, from the results of bench/db_bench and bench/ycsb."""

from svg import GREY, Drawing
from table import value_text

# The databases, in the order of the columns, with the colour of their bars.
STORES = (("ours", "ucstore", "#1f4e8c"), ("RocksDB", "RocksDB", "#b3541e"), ("LevelDB", "LevelDB", "#4d7a2a"),
          ("LMDB", "LMDB", "#8a6d1a"), ("SQLite", "SQLite", "#777777"))

# The works that are shown: what it is, its benchmark, its work and its case.
WORKS = (
    ("puts of one thread", "db_bench", "fillrandom", "files, 1 threads"),
    ("puts", "db_bench", "fillrandom", "files, 4 threads"),
    ("additions of one thread", "db_bench", "mergerandom", "files, 1 threads"),
    ("additions", "db_bench", "mergerandom", "files, 4 threads"),
    ("lookups of one thread", "db_bench", "readrandom", "files, 1 threads"),
    ("lookups", "db_bench", "readrandom", "files, 4 threads"),
    ("lookups beside a writer", "db_bench", "readwhilewriting", "files, 4 threads"),
    ("scans of ten rows", "db_bench", "seekrandom", "files, 4 threads"),
    ("half reads, half updates", "ycsb", "a", "files-100-bytes, 4 threads"),
)


def rates_of(results, benchmark, work, case):
    """Thousands of operations a second, by database."""
    rates = {}
    for row in results.get(benchmark, {"rows": []})["rows"]:
        if (row["work"], row["case"], row["ours"]["unit"]) == (work, case, "k/s"):
            rates["ours"] = row["ours"]["value"]
            if row["baseline"]:
                rates[row["baseline"]["name"]] = row["baseline"]["value"]
    return {name: rate for name, rate in rates.items() if rate}


def shown(results):
    """The works that were measured, with their rates."""
    rows = ((label, rates_of(results, *names)) for label, *names in WORKS)
    return [(label, rates) for label, rates in rows if "ours" in rates]


def stores_table(results):
    """The table, empty if nothing was measured."""
    rows = shown(results)
    if not rows:
        return ""
    measured = [(key, name) for key, name, _ in STORES if any(key in rates for _, rates in rows)]
    names = [name for _, name in measured]
    lines = ["|Thousands a second by four threads|" + "|".join(names) + "|", "|---|" + "---:|" * len(names)]
    for label, rates in rows:
        lines.append(f"|{label}|" + "|".join(value_text(round(rates[key])) if key in rates else "" for key, _ in measured) + "|")
    return "\n".join(lines) + "\n"


BAR, GAP, LEFT, RIGHT, TOP = 13, 14, 190, 560, 44


def draw_stores(results):
    """A group of bars for each work, each as long as its share of the fastest."""
    rows = shown(results)
    height = TOP + sum(len(rates) * BAR + GAP for _, rates in rows) + 10
    drawing = Drawing(680, height, "Thousands of operations a second in a folder, by four threads")
    y = TOP
    for label, rates in rows:
        most = max(rates.values())
        drawing.text(12, y + BAR - 2, label)
        for key, name, colour in STORES:
            if key not in rates:
                continue
            end = LEFT + (RIGHT - LEFT) * rates[key] / most
            drawing.rect(LEFT, y, end - LEFT, BAR - 3, colour, colour)
            drawing.text(end + 6, y + BAR - 4, f"{name} {value_text(round(rates[key]))}", size=10, fill=GREY)
            y += BAR
        y += GAP
    return drawing.whole()
