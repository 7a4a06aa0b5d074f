"""Draws batches.svg beside this file from results.json: how many writes and lookups there are in a second, by the size of a batch."""

import sys
from pathlib import Path

HERE = Path(__file__).resolve().parent
sys.dont_write_bytecode = True
sys.path.insert(0, str(HERE.parent))

from figures import OTHER_COLOUR, OURS_COLOUR, RUST_COLOUR, next_step
from results import read
from svg import Drawing, Scale

SIZES = (1000, 10000, 100000)
# The curves: numbers of workers, their names, and the marks. None is one store without Dask.
SERIES = (
    (None, "one store, no Dask", "square", OTHER_COLOUR, "dashed"),
    (1, "1 worker", "triangle", RUST_COLOUR, "dotted"),
    (2, "2 workers", "diamond", RUST_COLOUR, "dashed"),
    (4, "4 workers", "circle", OURS_COLOUR, "solid"),
)
# Where each stands in the legend.
LEGEND = (258, 432, 552, 678)


def rates(rows, work, workers):
    """The rates by the size of a batch: those of one store stand beside those of one worker."""
    found = {
        row["case"]: row["baseline"]["value"] if workers is None else row["ours"]["value"]
        for row in rows
        if row["work"] == f"{work}, {workers or 1} workers" and row["baseline"]["name"] == "one store"
    }
    return [(size, found[f"batches of {size:,}"]) for size in SIZES]


def draw_panel(drawing, title, left, right, rows, work):
    top, bottom = 84, 330
    series = [(rates(rows, work, workers), *style) for workers, _, *style in SERIES]
    most = next_step(max(rate for points, *_ in series for _, rate in points), 100)
    x, y = Scale(SIZES[0], SIZES[-1], left + 24, right - 24, True), Scale(0, most, bottom, top)
    drawing.text(left, top - 14, title, weight="bold")
    ticks = range(0, most + 1, 100 if most <= 600 else 200)
    drawing.across(x, SIZES, top, bottom, [f"{size:,}" for size in SIZES])
    drawing.along(y, ticks, left, right, [str(tick) for tick in ticks])
    drawing.frame(left, top, right, bottom)
    drawing.text((left + right) / 2, bottom + 36, "a batch, logarithmic", "middle")
    for points, shape, colour, dash in series:
        drawing.series([(x(size), y(rate)) for size, rate in points], shape, colour, dash)


def main():
    rows = read(HERE / "results.json")["rows"]
    drawing = Drawing(800, 384, "Shards by the size of a batch")
    for at, (_, name, *style) in zip(LEGEND, SERIES):
        drawing.legend(at, 20, *style, name)
    drawing.text(18, 207, "thousands a second", "middle", turned=True)
    draw_panel(drawing, "writes", 66, 410, rows, "writes")
    draw_panel(drawing, "lookups", 456, 786, rows, "lookups")
    (HERE / "batches.svg").write_text(drawing.whole())


if __name__ == "__main__":
    main()
