"""The panels of a Grafana dashboard: what they ask of Prometheus, and a picture (SVG) of what that answered. See monitor.py.

An answer is a list of series, each its legend and its points; a point is a time in seconds and a value.
"""
import html, json, math, re

COLOURS = ["#1f78b4", "#e6550d", "#33a02c", "#6a3d9a", "#b15928", "#d6328c", "#17a2b8", "#7f7f7f", "#a5a51f"]
UNITS = {"bps": "bit/s", "pps": "packets/s", "ops": "errors/s", "none": ""}
# A cell of Grafana's grid of 24 columns; the edges of a panel around what it draws, and a row of its legend. In pixels.
WIDE, HIGH, GAP = 40, 26, 4
LEFT, RIGHT, TOP, BOTTOM, ROW = 62, 14, 34, 22, 15
# How wide a letter is, nearly.
LETTER = 6.2


def panels_of(file):
    """The panels of a dashboard, each with at least one query."""
    with open(file, encoding="utf-8") as text:
        panels = json.load(text)["panels"]
    assert panels and all(panel["targets"] for panel in panels)
    return panels


def query(target, variables):
    """What a panel asks, with a value for each variable of the dashboard."""
    text = target["expr"]
    for name, value in variables.items():
        text = text.replace("$" + name, value)
    assert "$" not in text, text
    return text


def legend(target, labels):
    return re.sub(r"\{\{(\w+)\}\}", lambda found: labels.get(found[1], ""), target["legendFormat"])


# ---- numbers


def ceiling(most):
    """The least of 1, 2 and 5 times a power of ten that has room for it."""
    if most <= 0:
        return 1
    power = 10.0 ** math.floor(math.log10(most))
    return next(it * power for it in (1, 2, 5, 10) if it * power >= most * (1 - 1e-9))


def short(value):
    for size, letter in ((1e9, " G"), (1e6, " M"), (1e3, " k")):
        if value >= size:
            return f"{value / size:.3g}{letter}"
    return f"{value:.3g}"


# ---- shapes


class Drawing:
    def __init__(self):
        self.parts = []

    def text(self, x, y, what, anchor="start", size=11, weight="normal"):
        self.parts.append(f'<text x="{x:.1f}" y="{y:.1f}" text-anchor="{anchor}" font-size="{size}" font-weight="{weight}">{html.escape(what)}</text>')

    def line(self, points, colour, wide=1.5):
        places = " ".join(f"{x:.1f},{y:.1f}" for x, y in points)
        self.parts.append(f'<polyline points="{places}" fill="none" stroke="{colour}" stroke-width="{wide}"/>')

    def box(self, x, y, wide, high, fill, edge="none"):
        self.parts.append(f'<rect x="{x:.1f}" y="{y:.1f}" width="{wide:.1f}" height="{high:.1f}" fill="{fill}" stroke="{edge}"/>')

    def whole(self, wide, high):
        head = f'<svg xmlns="http://www.w3.org/2000/svg" width="{wide}" height="{high}" viewBox="0 0 {wide} {high}" font-family="Helvetica,sans-Serif" fill="#222222">'
        return "\n".join([head, f'<rect width="{wide}" height="{high}" fill="#f4f5f5"/>', *self.parts, "</svg>", ""])


class Area:
    """Where a panel draws, and the times from its left edge to its right one."""

    def __init__(self, x, y, wide, high, begin, end):
        self.x, self.y, self.wide, self.high, self.begin, self.end = x, y, wide, high, begin, end

    def across(self, when):
        return self.x + self.wide * (when - self.begin) / (self.end - self.begin)

    def times(self, drawing):
        """The seconds since the beginning, below."""
        length = self.end - self.begin
        step = max(1, int(ceiling(length / 6)))
        for second in range(0, int(length) + 1, step):
            x = self.across(self.begin + second)
            drawing.line([(x, self.y + self.high), (x, self.y + self.high + 3)], "#999999", 1)
            drawing.text(x, self.y + self.high + 14, f"{second} s", "middle", 9)


# ---- panels


def rows_of(series, wide):
    """The legends in rows that aren't wider: each with its number, and where it stands."""
    rows, x = [[]], 0
    for number, (name, _) in enumerate(series):
        size = 22 + LETTER * len(name)
        if rows[-1] and x + size > wide:
            rows.append([])
            x = 0
        rows[-1].append((number, x, name))
        x += size
    return rows


def draw_lines(drawing, area, unit, series):
    rows = rows_of(series, area.wide + LEFT - 10)
    area.high -= ROW * len(rows)
    top = ceiling(max((value for _, points in series for _, value in points), default=0))
    for part in range(5):
        y = area.y + area.high * (1 - part / 4)
        drawing.line([(area.x, y), (area.x + area.wide, y)], "#dddddd", 1)
        drawing.text(area.x - 6, y + 3, short(top * part / 4), "end", 9)
    drawing.text(area.x, area.y - 5, UNITS[unit], size=9)
    area.times(drawing)
    for number, (_, points) in enumerate(series):
        drawn = [(area.across(when), area.y + area.high * (1 - value / top)) for when, value in points]
        drawing.line(drawn, COLOURS[number % len(COLOURS)])
    for place, row in enumerate(rows):
        y = area.y + area.high + BOTTOM + ROW * place + 8
        for number, x, name in row:
            x += area.x - LEFT + 10
            drawing.box(x, y - 5, 10, 3, COLOURS[number % len(COLOURS)])
            drawing.text(x + 14, y, name, size=10)


def draw_states(drawing, area, series):
    """A bar for each port from when it told its state, in the colour of that."""
    room = area.high / max(len(series), 1)
    for place, (name, points) in enumerate(series):
        y, high = area.y + room * place, min(room * 0.7, 34)
        drawing.text(area.x - 6, y + high / 2 + 4, name, "end", 10)
        changes = [(when, value) for (when, value), before in zip(points, [None, *(it for _, it in points)]) if value != before]
        until = [when for when, _ in changes[1:]] + [area.end]
        for (when, value), stop in zip(changes, until):
            drawing.box(area.across(when), y, area.across(stop) - area.across(when), high, "#4f9e4f" if value else "#cc4444")
            drawing.text(area.across(when) + 2, y + high + 11, "up" if value else "down", size=9)
    area.times(drawing)


def draw_bars(drawing, area, series):
    """The last value of each series."""
    room = area.high / max(len(series), 1)
    top = max((points[-1][1] for _, points in series), default=0) or 1
    for place, (name, points) in enumerate(series):
        y, high, value = area.y + room * place, room * 0.75, points[-1][1]
        drawing.text(area.x - 6, y + high / 2 + 4, name, "end", 10)
        drawing.box(area.x, y, (area.wide - 40) * value / top, high, COLOURS[0])
        drawing.text(area.x + (area.wide - 40) * value / top + 6, y + high / 2 + 4, short(value), size=10)


def draw(drawing, panel, series, begin, end):
    grid = panel["gridPos"]
    x, y, wide, high = grid["x"] * WIDE + GAP, grid["y"] * HIGH + GAP, grid["w"] * WIDE - 2 * GAP, grid["h"] * HIGH - 2 * GAP
    drawing.box(x, y, wide, high, "white", "#cccccc")
    drawing.text(x + 10, y + 17, panel["title"], size=12, weight="bold")
    named = panel["type"] != "timeseries"
    left = LEFT + (20 if named else 0)
    area = Area(x + left, y + TOP + 4, wide - left - RIGHT, high - TOP - BOTTOM - 4, begin, end)
    if panel["type"] == "timeseries":
        draw_lines(drawing, area, panel["fieldConfig"]["defaults"]["unit"], series)
    elif panel["type"] == "state-timeline":
        draw_states(drawing, area, series)
    else:
        assert panel["type"] == "bargauge", panel["type"]
        draw_bars(drawing, area, series)


def picture(answered, begin, end):
    """The picture of panels, each with its series."""
    drawing = Drawing()
    for panel, series in answered:
        draw(drawing, panel, series, begin, end)
    cells = [panel["gridPos"] for panel, _ in answered]
    return drawing.whole(max(it["x"] + it["w"] for it in cells) * WIDE, max(it["y"] + it["h"] for it in cells) * HIGH)
