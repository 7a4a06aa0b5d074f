"""Drawings as SVG: text, lines, marks of several shapes, and axes whose scale is linear or logarithmic."""

import math
from html import escape

DARK, GREY, PALE = "#222222", "#555555", "#dddddd"

# The meaning of a dash or a shape has to be readable without its colour.
DASHES = {"solid": "", "dashed": "6 4", "dotted": "2 3"}


def place(number):
    """A coordinate, with one decimal."""
    return f"{number:.1f}".rstrip("0").rstrip(".")


class Scale:
    """Where the values between two bounds lie on an axis."""

    def __init__(self, low, high, start, end, is_logarithmic=False):
        self.turn = math.log10 if is_logarithmic else float
        self.low, self.high = self.turn(low), self.turn(high)
        self.start, self.end = start, end

    def __call__(self, value):
        return self.start + (self.turn(value) - self.low) / (self.high - self.low) * (self.end - self.start)


class Drawing:
    """An SVG with a white ground and a title, to which the calls add."""

    def __init__(self, width, height, title):
        self.parts = [
            f'<svg xmlns="http://www.w3.org/2000/svg" width="{width}" height="{height}" viewBox="0 0 {width} {height}" '
            f'font-family="sans-serif" font-size="12" fill="{DARK}">',
            f"  <title>{escape(title)}</title>",
            f'  <rect width="{width}" height="{height}" fill="#ffffff"/>',
        ]
        self.text(12, 24, title, size=14, weight="bold", fill="#1f4e8c")

    def text(self, x, y, text, anchor="start", size=12, weight="normal", fill=DARK, turned=False):
        said = f' transform="rotate(-90 {place(x)} {place(y)})"' if turned else ""
        said += f' text-anchor="{anchor}"' if anchor != "start" else ""
        said += f' font-size="{size}"' if size != 12 else ""
        said += f' font-weight="{weight}"' if weight != "normal" else ""
        said += f' fill="{fill}"' if fill != DARK else ""
        self.parts.append(f'  <text x="{place(x)}" y="{place(y)}"{said}>{escape(text)}</text>')

    def path(self, points, stroke=GREY, width=1.0, dash="solid", fill="none"):
        way = "M" + "L".join(f"{place(x)} {place(y)}" for x, y in points) + ("Z" if fill != "none" else "")
        said = f' stroke-dasharray="{DASHES[dash]}"' if DASHES[dash] else ""
        self.parts.append(f'  <path d="{way}" stroke="{stroke}" stroke-width="{place(width)}" fill="{fill}"{said}/>')

    def line(self, x1, y1, x2, y2, **options):
        self.path([(x1, y1), (x2, y2)], **options)

    def rect(self, x, y, width, height, fill, stroke):
        self.path([(x, y), (x + width, y), (x + width, y + height), (x, y + height)], stroke, 1.0, "solid", fill)

    def mark(self, shape, x, y, colour, size=4.5):
        """A filled circle, or another shape, of which those that aren't circles are hollow."""
        if shape == "circle":
            self.parts.append(f'  <circle cx="{place(x)}" cy="{place(y)}" r="{place(size)}" fill="{colour}"/>')
            return
        corners = {
            "square": [(-1, -1), (1, -1), (1, 1), (-1, 1)],
            "triangle": [(0, -1.2), (1.1, 0.9), (-1.1, 0.9)],
            "diamond": [(0, -1.3), (1.3, 0), (0, 1.3), (-1.3, 0)],
        }[shape]
        self.path([(x + size * a, y + size * b) for a, b in corners], colour, 1.8, "solid", "#ffffff")

    def across(self, scale, values, top, bottom, texts):
        """Vertical lines at some values, with labels below them."""
        for value, text in zip(values, texts):
            self.line(scale(value), top, scale(value), bottom, stroke=PALE)
            self.text(scale(value), bottom + 16, text, "middle", fill=GREY)

    def along(self, scale, values, left, right, texts):
        """Horizontal lines at some values, with labels to the left of them."""
        for value, text in zip(values, texts):
            self.line(left, scale(value), right, scale(value), stroke=PALE)
            self.text(left - 6, scale(value) + 4, text, "end", fill=GREY)

    def frame(self, left, top, right, bottom):
        self.path([(left, top), (left, bottom), (right, bottom)], GREY)

    def series(self, points, shape, colour, dash="solid"):
        """A line through points, each with its mark."""
        if len(points) > 1:
            self.path(points, colour, 2.0, dash)
        for x, y in points:
            self.mark(shape, x, y, colour)

    def legend(self, x, y, shape, colour, dash, text):
        self.line(x, y, x + 30, y, stroke=colour, width=2.0, dash=dash)
        self.mark(shape, x + 15, y, colour)
        self.text(x + 38, y + 4, text)

    def whole(self):
        return "\n".join([*self.parts, "</svg>"]) + "\n"
