"""Plain line plots as SVG: labelled axes, a line and a label for each series."""

import math
from html import escape

WIDTH, HEIGHT = 800, 440
LEFT, RIGHT, TOP, BOTTOM = 80, 220, 44, 60
COLOURS = ["#1b4f8f", "#b3412b", "#2f7d4f", "#7a5195", "#b8860b", "#444444", "#0f8b8d", "#c2185b"]


def ticks_of(low, high, logarithmic):
    """Places for the marks of an axis."""
    if logarithmic:
        return [10 ** power for power in range(math.floor(math.log10(low)), math.ceil(math.log10(high)) + 1)]
    step = 10 ** math.floor(math.log10(high or 1))
    step = next(step * part for part in (0.1, 0.2, 0.25, 0.5, 1) if high / (step * part) <= 8)
    return [step * i for i in range(math.ceil(high / step) + 1)]


class Axis:
    def __init__(self, values, logarithmic, start, end, marks=None):
        self.logarithmic = logarithmic
        self.marks = marks or ticks_of(min(values), max(values), logarithmic)
        self.start, self.end = start, end
        self.low = self.scale(self.marks[0])
        self.high = self.scale(self.marks[-1])

    def scale(self, value):
        return math.log10(value) if self.logarithmic else value

    def at(self, value):
        return self.start + (self.end - self.start) * (self.scale(value) - self.low) / ((self.high - self.low) or 1)


def number(value):
    return f"{value:,.0f}" if value == int(value) else f"{value:,.1f}"


def frame(x, y, x_label, y_label):
    """Both axes with their marks and labels."""
    lines = []
    for mark in y.marks:
        at = y.at(mark)
        lines.append(f'<line x1="{LEFT}" y1="{at:.1f}" x2="{WIDTH - RIGHT}" y2="{at:.1f}" stroke="#dddddd"/>')
        lines.append(f'<text x="{LEFT - 8}" y="{at + 4:.1f}" text-anchor="end">{number(mark)}</text>')
    for mark in x.marks:
        at = x.at(mark)
        lines.append(f'<line x1="{at:.1f}" y1="{HEIGHT - BOTTOM}" x2="{at:.1f}" y2="{HEIGHT - BOTTOM + 5}" stroke="#000000"/>')
        lines.append(f'<text x="{at:.1f}" y="{HEIGHT - BOTTOM + 19}" text-anchor="middle">{number(mark)}</text>')
    lines.append(f'<polyline points="{LEFT},{TOP} {LEFT},{HEIGHT - BOTTOM} {WIDTH - RIGHT},{HEIGHT - BOTTOM}" fill="none" stroke="#000000"/>')
    middle = (LEFT + WIDTH - RIGHT) / 2
    lines.append(f'<text x="{middle}" y="{HEIGHT - 16}" text-anchor="middle">{escape(x_label)}</text>')
    height = (TOP + HEIGHT - BOTTOM) / 2
    lines.append(f'<text x="18" y="{height}" text-anchor="middle" transform="rotate(-90 18 {height})">{escape(y_label)}</text>')
    return lines


def spread(places):
    """Label places at least 14 apart, in the given order of heights."""
    order = sorted(range(len(places)), key=lambda i: places[i])
    result = list(places)
    for before, after in zip(order, order[1:]):
        result[after] = max(result[after], result[before] + 14)
    return result


def plot(path, title, x_label, y_label, series, logarithmic=(False, False), x_marks=None):
    """Writes one plot. `series` is a list of (label, [(x, y), ...])."""
    points = [point for _, line in series for point in line]
    x = Axis([p[0] for p in points], logarithmic[0], LEFT, WIDTH - RIGHT, x_marks)
    y = Axis([p[1] for p in points], logarithmic[1], HEIGHT - BOTTOM, TOP)
    lines = [f'<svg xmlns="http://www.w3.org/2000/svg" viewBox="0 0 {WIDTH} {HEIGHT}" font-family="sans-serif" font-size="12">',
             f'<rect width="{WIDTH}" height="{HEIGHT}" fill="#ffffff"/>',
             f'<text x="{LEFT}" y="24" font-size="15">{escape(title)}</text>']
    lines += frame(x, y, x_label, y_label)
    labels = spread([y.at(line[-1][1]) for _, line in series])
    for i, (label, line) in enumerate(series):
        colour = COLOURS[i % len(COLOURS)]
        path_points = " ".join(f"{x.at(a):.1f},{y.at(b):.1f}" for a, b in line)
        lines.append(f'<polyline points="{path_points}" fill="none" stroke="{colour}" stroke-width="2"/>')
        lines += [f'<circle cx="{x.at(a):.1f}" cy="{y.at(b):.1f}" r="3" fill="{colour}"/>' for a, b in line]
        lines.append(f'<text x="{WIDTH - RIGHT + 10}" y="{labels[i] + 4:.1f}" fill="{colour}">{escape(label)}</text>')
    lines.append("</svg>")
    with open(path, "w") as file:
        file.write("\n".join(lines) + "\n")
