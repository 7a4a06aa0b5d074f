"""The plot of the guide's page on tuning, drawn from bench/tuning/results.json."""

from figures import OURS_COLOUR
from svg import GREY, Drawing, Scale

# The options, each with what is named below a row of its panels, and how a value is written there.
OPTIONS = (
    ("write_buffer_size", lambda value: f"{value / (1 << 20):g} MiB"),
    ("compaction_trigger", lambda value: f"{value} runs"),
    ("max_size_amplification_percent", lambda value: f"{value} %"),
)

# The columns of panels: a title, a work after the option, and by how much its values are divided.
COLUMNS = (
    ("a put, µs of processors", "put, of processors", 1000),
    ("a lookup, µs", "lookup", 1000),
    ("a scan of ten rows, µs", "scan", 1000),
    ("memory, MiB", "memory", 1),
)

LEFT, WIDTH, HEIGHT, ACROSS, DOWN = 20, 160, 90, 195, 160


def values_of(results, work):
    """The values of an option that were measured, each with its figure."""
    rows = [row for row in results["tuning"]["rows"] if row["work"] == work]
    return [(int(row["case"]), row["ours"]["value"]) for row in rows]


def draw_panel(drawing, left, top, title, points, name_of):
    """The figures of an option's values, from zero on."""
    bottom = top + HEIGHT
    x = Scale(0, max(len(points) - 1, 1), left + 18, left + WIDTH - 18)
    y = Scale(0, 1.25 * max(figure for _, figure in points), bottom, top)
    drawing.text(left, top - 6, title, size=11, fill=GREY)
    drawing.frame(left, top, left + WIDTH, bottom)
    drawing.series([(x(place), y(figure)) for place, (_, figure) in enumerate(points)], "circle", OURS_COLOUR)
    for place, (value, figure) in enumerate(points):
        drawing.text(x(place), y(figure) - 8, f"{figure:.3g}", "middle", 10, fill=OURS_COLOUR)
        drawing.text(x(place), bottom + 14, name_of(value).split()[0], "middle", 10, fill=GREY)


def draw_tuning(results):
    """A row of panels for each option."""
    drawing = Drawing(LEFT + ACROSS * len(COLUMNS), 50 + DOWN * len(OPTIONS), "What three options cost and gain")
    for row, (option, name_of) in enumerate(OPTIONS):
        top = 82 + DOWN * row
        points = values_of(results, f"{option}, runs")
        unit = name_of(points[0][0]).split()[1]
        drawing.text(LEFT, top - 24, f"{option}, {unit}", weight="bold")
        for column, (title, work, divisor) in enumerate(COLUMNS):
            figures = [(value, figure / divisor) for value, figure in values_of(results, f"{option}, {work}")]
            draw_panel(drawing, LEFT + ACROSS * column, top, title, figures, name_of)
    return drawing.whole()
