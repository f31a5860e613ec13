# SPDX-License-Identifier: Apache-2.0
"""The chart: for each row the ratio of vdb to OpenVDB on one thread, as a bar from 1 on a logarithmic axis."""
import math
from html import escape

from .tables import compared

# pixels: how wide the names and the whole chart are, and how high a row and a heading are
NAMES, WIDTH, ROW, HEADING, MARGIN = 290, 860, 16, 34, 14

# the chart brings its own white ground, so that it reads alike on a light and on a dark page
GROUND, TEXT, FAINT, LINE = "#ffffff", "#24292f", "#57606a", "#d0d7de"
COLOURS = {"vdb": "#0969da", "peer": "#bc4c00", "tie": "#8c959f"}
MEANINGS = {"vdb": "vdb is ahead", "peer": "OpenVDB, or NumPy, is ahead", "tie": "tie"}

# tables of times, whose rows are drawn
DRAWN = ("Scripts", "Library", "C library", "Time by size", "Scene files", "Python package, arrays")


def rows_of(parts):
    """Returns the headings, each with its rows' names, ratios and verdicts."""
    found = []
    for part in parts.values():
        for table in part["tables"]:
            rows = [(row, by, ahead) for row, by, ahead in compared(table) if by and row["unit"] != "MB"]
            if rows and table["title"] in DRAWN:
                found.append((table["title"], rows))
    return found


def axis_of(ratios):
    """Returns the exponents of 2 between which all ratios lie, at least 1/4 to 4."""
    low = min([-2, *(math.floor(math.log2(it)) for it in ratios)])
    high = max([2, *(math.ceil(math.log2(it)) for it in ratios)])
    return low, high


def mark(power):
    return f"{2**power}" if power >= 0 else f"1/{2**-power}"


def text(x, y, content, **more):
    words = "".join(f' {name.replace("_", "-")}="{value}"' for name, value in more.items())
    return f'<text x="{x:.1f}" y="{y:.1f}"{words}>{escape(content)}</text>'


def draw_row(y, name, by, ahead, place):
    """Returns a row's name, bar and ratio."""
    one, end = place(1), place(by)
    left, wide = min(one, end), max(1.0, abs(end - one))
    beyond = end + 5 if by >= 1 else end - 5
    return [
        text(NAMES - 8, y + 12, name, text_anchor="end"),
        f'<rect x="{left:.1f}" y="{y + 3}" width="{wide:.1f}" height="{ROW - 5}" fill="{COLOURS[ahead]}"/>',
        text(beyond, y + 12, f"{by:.2f}", text_anchor="start" if by >= 1 else "end", fill=FAINT),
    ]


def draw(parts):
    """Returns the chart as the text of an SVG file."""
    groups = rows_of(parts)
    low, high = axis_of([by for _, rows in groups for _, by, _ in rows])
    left, right = NAMES + 40, WIDTH - MARGIN - 40

    def place(by):
        return left + (math.log2(by) - low) / (high - low) * (right - left)

    lines, y = [], 78
    for title, rows in groups:
        lines.append(text(MARGIN, y + 22, title, font_weight="600", font_size="13"))
        y += HEADING
        for row, by, ahead in rows:
            lines += draw_row(y, row["name"], by, ahead, place)
            y += ROW
    height = y + 34
    grid = []
    for power in range(low, high + 1):
        x = place(2.0**power)
        grid.append(f'<line x1="{x:.1f}" y1="72" x2="{x:.1f}" y2="{y + 6}" stroke="{TEXT if power == 0 else LINE}" stroke-width="1"/>')
        grid += [text(x, at, mark(power), text_anchor="middle", fill=FAINT) for at in (66, y + 20)]
    legend, x = [], MARGIN
    for ahead, meaning in MEANINGS.items():
        legend += [f'<rect x="{x}" y="34" width="11" height="11" fill="{COLOURS[ahead]}"/>', text(x + 16, 44, meaning)]
        x += 36 + 7 * len(meaning)
    head = text(MARGIN, 22, "Time of vdb divided by that of OpenVDB on one thread, or of NumPy (below 1: vdb is faster)", font_weight="600", font_size="14")
    return "\n".join(
        [
            f'<svg xmlns="http://www.w3.org/2000/svg" width="{WIDTH}" height="{height}" viewBox="0 0 {WIDTH} {height}"'
            f' font-family="-apple-system, Segoe UI, Helvetica, Arial, sans-serif" font-size="11" fill="{TEXT}" role="img">',
            "<title>Ratios of the times of vdb to those of OpenVDB on one thread</title>",
            f'<rect x="0.5" y="0.5" width="{WIDTH - 1}" height="{height - 1}" rx="6" fill="{GROUND}" stroke="{LINE}"/>',
            head,
            *legend,
            *grid,
            *lines,
            "</svg>",
            "",
        ]
    )
