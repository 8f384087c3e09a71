"""Pictures in SVG for bench/scale."""

import math
from html import escape

WIDTH, HEIGHT, LEFT, RIGHT, TOP, BOTTOM = 900, 460, 80, 24, 48, 56
COLORS = ("#2f6f9f", "#c0504d", "#5a9e4b", "#8064a2", "#d08a2e", "#4d4d4d")
BINS = 120


def text(x, y, words, size=12, more=""):
    return f'<text x="{x:.1f}" y="{y:.1f}" font-size="{size}" {more}>{escape(words)}</text>'


def sheet(height, drawn, title):
    head = (f'<svg xmlns="http://www.w3.org/2000/svg" width="{WIDTH}" height="{height}" viewBox="0 0 {WIDTH} {height}" '
            'font-family="ui-monospace, Menlo, Consolas, monospace" fill="#222">')
    ground = '<rect width="100%" height="100%" fill="#fff"/>'
    return "\n".join([head, ground, f"<title>{escape(title)}</title>", *drawn, "</svg>"])


class Axis:
    """Where numbers lie between two ends of a picture."""

    def __init__(self, values, begin, end, is_logarithmic):
        self.is_logarithmic, self.begin, self.end = is_logarithmic, begin, end
        least, most = min(values), max(values)
        if is_logarithmic:
            self.least, self.most = math.floor(math.log10(least)), math.ceil(math.log10(most))
        else:
            self.least, self.most = 0 if least < most / 3 else least, most

    def at(self, value):
        value = math.log10(value) if self.is_logarithmic else value
        return self.begin + (value - self.least) / (self.most - self.least) * (self.end - self.begin)

    def ticks(self):
        if self.is_logarithmic:
            return [10.0**it for it in range(self.least, self.most + 1)]
        step = 10.0**math.floor(math.log10((self.most - self.least) / 3))
        step = next(it for it in (step, 2 * step, 5 * step, 10 * step) if (self.most - self.least) / it <= 8)
        return [it * step for it in range(math.ceil(self.least / step - 1e-9), math.floor(self.most / step + 1e-9) + 1)]


def axes(x, y, across, up):
    drawn = []
    for tick in x.ticks():
        drawn.append(f'<line x1="{x.at(tick):.1f}" y1="{TOP}" x2="{x.at(tick):.1f}" y2="{HEIGHT - BOTTOM}" stroke="#e4e4e4"/>')
        drawn.append(text(x.at(tick), HEIGHT - BOTTOM + 18, f"{tick:,g}", 11, 'text-anchor="middle"'))
    for tick in y.ticks():
        drawn.append(f'<line x1="{LEFT}" y1="{y.at(tick):.1f}" x2="{WIDTH - RIGHT}" y2="{y.at(tick):.1f}" stroke="#e4e4e4"/>')
        drawn.append(text(LEFT - 8, y.at(tick) + 4, f"{tick:,g}", 11, 'text-anchor="end"'))
    drawn.append(text((LEFT + WIDTH - RIGHT) / 2, HEIGHT - 18, across, 12, 'text-anchor="middle"'))
    drawn.append(text(12, TOP - 10, up, 12))
    return drawn


def curves(title, across, up, lines, is_logarithmic=(False, False), most=math.inf, legend_at=None):
    """Lines through points, with a legend. Points above `most` aren't drawn."""
    shown = {name: [(a, b) for a, b in points if b <= most] for name, points in lines.items()}
    every = [point for points in shown.values() for point in points]
    x = Axis([a for a, _ in every], LEFT, WIDTH - RIGHT, is_logarithmic[0])
    y = Axis([b for _, b in every], HEIGHT - BOTTOM, TOP, is_logarithmic[1])
    drawn = [text(12, 18, title, 12, 'font-weight="bold"'), *axes(x, y, across, up)]
    left, down = legend_at or (WIDTH - RIGHT - 330, TOP + 14)
    high = 16 * len(shown) + 8
    drawn.append(f'<rect x="{left - 8}" y="{down - 14}" width="336" height="{high}" fill="#fff" fill-opacity="0.85"/>')
    for at, (name, points) in enumerate(shown.items()):
        color, dash = COLORS[at % len(COLORS)], ' stroke-dasharray="5 4"' if name.startswith("closed form") else ""
        path = " ".join(f"{x.at(a):.1f},{y.at(b):.1f}" for a, b in points)
        drawn.append(f'<polyline points="{path}" fill="none" stroke="{color}" stroke-width="2"{dash}/>')
        if not dash:
            drawn += [f'<circle cx="{x.at(a):.1f}" cy="{y.at(b):.1f}" r="3" fill="{color}"><title>{a:,g}: {b:,.3g}</title>'
                      "</circle>" for a, b in points]
        row = down + 16 * at
        drawn.append(f'<line x1="{left}" y1="{row}" x2="{left + 22}" y2="{row}" stroke="{color}" stroke-width="2"{dash}/>')
        drawn.append(text(left + 28, row + 4, name, 11))
    return sheet(HEIGHT, drawn, title)


def rates(phase, whole):
    """How many bytes of a part were done in each of equal spans of time."""
    bins = [0.0] * BINS
    for ended, size in phase.marks:
        bins[min(BINS - 1, int(ended / whole * BINS))] += size
    return bins


def timeline(title, recovery):
    """The parts of a recovery as bars over time, each with the rate at which it went on."""
    whole, bar, gap = recovery.seconds(), 40, 62
    x = Axis([0.0, whole], 130, WIDTH - RIGHT, False)
    drawn, words, row = [], title.split("; "), 18
    for words in ("; ".join(words[:2]), "; ".join(words[2:])):
        drawn.append(text(12, row, words, 11))
        row += 16
    bottom = row + 14 + gap * len(recovery.phases)
    for tick in x.ticks():
        drawn.append(f'<line x1="{x.at(tick):.1f}" y1="{row}" x2="{x.at(tick):.1f}" y2="{bottom}" stroke="#e4e4e4"/>')
        drawn.append(text(x.at(tick), bottom + 16, f"{tick:,g} s", 11, 'text-anchor="middle"'))
    for at, (name, phase) in enumerate(recovery.phases.items()):
        y, color = row + 12 + gap * at, COLORS[at]
        drawn.append(text(12, y + 24, name, 13))
        if not phase.last:
            drawn.append(text(130, y + 24, "nothing", 11, 'fill="#777"'))
            continue
        width = max(2.0, x.at(phase.last) - x.at(phase.first))
        drawn.append(f'<rect x="{x.at(phase.first):.1f}" y="{y}" width="{width:.1f}" height="{bar}" fill="{color}" '
                     'fill-opacity="0.15"/>')
        drawn += rate_line(x, y + bar, bar - 4, phase, whole, color)
        size = f", {phase.bytes / 1e9:,.1f} GB" if phase.bytes else ""
        drawn.append(text(min(x.at(phase.first), WIDTH - 260), y + bar + 13, f"{phase.first:.3f} to {phase.last:.3f} s{size}", 10,
                          'fill="#555"'))
    return sheet(bottom + 28, drawn, "The parts of a simulated recovery over time")


def rate_line(x, y, height, phase, whole, color):
    """How fast a part went on, as an area over its bar."""
    bins = rates(phase, whole)
    most = max(bins)
    if not most or phase.last - phase.first < 2 * whole / BINS:
        return []
    points = [f"{x.at(phase.first):.1f},{y}"]
    for at, size in enumerate(bins):
        middle = min(max((at + 0.5) * whole / BINS, phase.first), phase.last)
        points.append(f"{x.at(middle):.1f},{y - height * size / most:.1f}")
    return [f'<polygon points="{" ".join(points)} {x.at(phase.last):.1f},{y}" fill="{color}" fill-opacity="0.6"/>']
