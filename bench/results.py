"""The figures of a benchmark as JSON: what bench/NAME/results.json holds, and how a script writes it.

    RESULTS=bench/NAME/results.json bench/NAME/run.sh

A script keeps its figures by results.sh, which runs this file at its end. bench/plot reads all files. One is

    {"benchmark": "run", "date": "2026-11-23",
     "machine": {"name": "Intel(R) Xeon(R) Processor @ 2.50GHz", "processors": 4},
     "rows": [{"work": "lookups", "case": "1300000 writes",
               "ours": {"value": 54, "unit": "ms"}, "baseline": {"name": "plain Rust", "value": 92},
               "ratio": 0.59, "goal": {"bound": 1.3, "direction": "at most"}, "met": true}]}

- `work` and `case` are the script's names for what is measured. A row has one baseline, or null if there is none.
- `ratio` is ours over the baseline. With a goal "at least" it is a ratio of speeds, and with "at most" one of times or
  memory, whichever the unit is.
- `goal` bounds the ratio, or our figure if it has "of": "ours". It is null if there is none, and `met` then too.
- A value or a ratio is a number, a list of the numbers of several runs, or null if it wasn't recorded.
- A row has its own `date` and `machine` if they differ from the file's, and a `note` if a reader needs one.
- A file has `libraries` and `options` if other databases were measured.

A run replaces the works that it measures. The file's other works stay, with the date and the machine that they had. If a script
measures parts of the cases alone (`part` of results.sh), rows of the same works with other parts stay too.
"""

import datetime
import json
import os
import sys
from fnmatch import fnmatchcase
from pathlib import Path

OURS = "ours"


def as_list(number):
    """The numbers of a value or a ratio."""
    if number is None:
        return []
    return number if isinstance(number, list) else [number]


def ratio_of(ours, baseline, unit, goal):
    """The ratio of two figures, with four digits."""
    if ours is None or baseline is None or ours <= 0 or baseline <= 0:
        return None
    is_speed = unit.endswith("/s")
    is_inverse = goal is not None and is_speed != (goal["direction"] == "at least")
    return float(f"{(baseline / ours if is_inverse else ours / baseline):.4g}")


def is_met(row):
    """Whether a row's figures keep to its goal, or None if there is nothing to compare."""
    goal = row["goal"]
    if goal is None:
        return None
    bounded = as_list(row["ours"]["value"] if goal.get("of") == OURS else row["ratio"])
    if not bounded:
        return None
    if goal["direction"] == "at least":
        return min(bounded) >= goal["bound"]
    return max(bounded) <= goal["bound"]


def read(file):
    """The results of a file, each row with its date and its machine."""
    results = json.loads(Path(file).read_text())
    for row in results["rows"]:
        row.setdefault("date", results["date"])
        row.setdefault("machine", results["machine"])
    return results


def text_of(results):
    """A file's text, with a line for each row. What its rows share stands in front of them."""
    head = {name: value for name, value in results.items() if name != "rows"}
    lines = []
    for row in results["rows"]:
        shown = {name: value for name, value in row.items() if name not in ("date", "machine") or value != head[name]}
        lines.append("    " + json.dumps(shown, ensure_ascii=False))
    fields = [f"  {json.dumps(name)}: {json.dumps(value, ensure_ascii=False)}," for name, value in head.items()]
    return "\n".join(["{", *fields, '  "rows": [', ",\n".join(lines), "  ]", "}"]) + "\n"


def number_of(text):
    return float(text) if "." in text or "e" in text else int(text)


def goal_of(goals, work, case, program, unit):
    """The first goal for a figure. `*` in its case is any text."""
    for goal in goals:
        if (goal[0], goal[2], goal[3]) == (work, program, unit) and fnmatchcase(case, goal[1]):
            of = {"of": OURS} if program == OURS else {}
            return {"bound": number_of(goal[5]), "direction": goal[4], **of}
    return None


def row_of(work, case, unit, ours, baseline, goal):
    value = baseline["value"] if baseline else None
    row = {"work": work, "case": case, "ours": {"value": ours, "unit": unit}, "baseline": baseline}
    row.update(ratio=ratio_of(ours, value, unit, goal), goal=goal)
    row["met"] = is_met(row)
    return row


def rows_of(kept, goals):
    """A row for each baseline's figure. Ours has a row alone if it has no baseline or a goal of its own."""
    groups = {}
    for work, case, program, unit, value in kept:
        groups.setdefault((work, case, unit), {})[program] = number_of(value)
    rows = []
    for (work, case, unit), figures in groups.items():
        ours = figures.pop(OURS, None)
        own_goal = goal_of(goals, work, case, OURS, unit)
        if own_goal or not figures:
            rows.append(row_of(work, case, unit, ours, None, own_goal))
        for name, value in figures.items():
            goal = goal_of(goals, work, case, name, unit)
            rows.append(row_of(work, case, unit, ours, {"name": name, "value": value}, goal))
    return rows


def lines_of(file):
    """The fields of a file's lines, or nothing if there is no such file."""
    file = Path(file)
    return [line.split("\t") for line in file.read_text().split("\n") if line] if file.exists() else []


def processor():
    """The processor's name, or null if the system says none."""
    for line in Path("/proc/cpuinfo").read_text().split("\n"):
        if line.startswith("model name"):
            return line.split(":", 1)[1].strip()
    return None


def is_measured(row, kept, parts):
    """Whether a run has figures of its own for a row: for its case, or for its work and the part that its case begins with."""
    if (row["work"], row["case"]) in {(line[0], line[1]) for line in kept}:
        return True
    is_in_part = not parts or [row["case"].split(", ")[0]] in parts
    return is_in_part and row["work"] in {line[0] for line in kept}


def write(benchmark, folder, file, libraries="", options=""):
    """Writes what a script kept in its folder. What it didn't measure stays as it is in the file."""
    file, kept, parts = Path(file), lines_of(Path(folder) / "kept"), lines_of(Path(folder) / "parts")
    if not kept:
        sys.exit("results.py: there are no figures")
    old = read(file) if file.exists() and file.stat().st_size else {"rows": []}
    results = {"benchmark": benchmark, "date": datetime.date.today().isoformat()}
    results["machine"] = {"name": processor(), "processors": os.cpu_count()}
    if libraries:
        results.update(libraries=libraries, options=options)
    elif "libraries" in old:
        results.update(libraries=old["libraries"], options=old["options"])
    results["rows"] = rows_of(kept, lines_of(Path(folder) / "goals"))
    results["rows"] += [row for row in old["rows"] if not is_measured(row, kept, parts)]
    file.write_text(text_of(results))


if __name__ == "__main__":
    write(*sys.argv[1:])
