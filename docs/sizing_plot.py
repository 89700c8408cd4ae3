"""Draws docs/sizing.svg: how many blocks a heap needs, against U, by both rules.

    python3 -B docs/sizing_plot.py          writes docs/sizing.svg

The rules are in docs/sizing_tables.py. Python's own library only; the same bytes
every time. A rule is told by its dashes and its colour, a K by its label, so that
the picture can be read in grey.
"""

import math
import os

from sizing_tables import LARGEST, least, smallest

LAST = 30                   # the values of U drawn; the axis starts at 0
LEFT, TOP, WIDTH, HEIGHT = 90, 56, 600, 430
LOW, HIGH = 90, 20000       # the blocks drawn, on a logarithmic scale
HELD = [6144, 2000, 614, 100]
SHARPER = 'stroke="#123f8c" stroke-width="2.6"'
DOCUMENT = 'stroke="#c25b00" stroke-width="2" stroke-dasharray="7 4"'
LIMIT = 'stroke="#000000" stroke-width="1.4" stroke-dasharray="2 4"'
NEITHER, ONE = "#cfcfcf", "#ececec"


def x_of(U):
    return LEFT + WIDTH * U / LAST


def y_of(blocks):
    return TOP + HEIGHT * (1 - math.log(blocks / LOW) / math.log(HIGH / LOW))


def line(x1, y1, x2, y2, style):
    return f'<line x1="{x1:.1f}" y1="{y1:.1f}" x2="{x2:.1f}" y2="{y2:.1f}" {style}/>'


def text(x, y, words, size=14, anchor="start", more=""):
    return (f'<text x="{x:.1f}" y="{y:.1f}" font-size="{size}" '
            f'text-anchor="{anchor}" {more}>{words}</text>')


def box(x, y, width, height, style):
    return f'<rect x="{x:.1f}" y="{y:.1f}" width="{width:.1f}" height="{height:.1f}" {style}/>'


def colour_of(style):
    return style.split('"')[1]


def axes():
    right, bottom = LEFT + WIDTH, TOP + HEIGHT
    yield box(LEFT, TOP, x_of(2.5) - LEFT, HEIGHT, f'fill="{NEITHER}"')
    yield box(x_of(2.5), TOP, x_of(4.5) - x_of(2.5), HEIGHT, f'fill="{ONE}"')
    grid = 'stroke="#d8d8d8" stroke-width="1"'
    for U in range(0, LAST + 1, 2):
        yield line(x_of(U), TOP, x_of(U), bottom, grid)
        yield text(x_of(U), bottom + 20, U, anchor="middle")
    for blocks in [100, 200, 500, 1000, 2000, 5000, 10000]:
        yield line(LEFT, y_of(blocks), right, y_of(blocks), grid)
        yield text(LEFT - 8, y_of(blocks) + 5, f"{blocks:,}", anchor="end")
    yield line(LEFT, y_of(LARGEST), right, y_of(LARGEST), LIMIT)
    yield box(LEFT, TOP, WIDTH, HEIGHT, 'fill="none" stroke="#444444"')
    yield text(LEFT + WIDTH / 2, bottom + 46, "U, units of collector work per block taken", 15, "middle")
    middle = TOP + HEIGHT / 2
    yield text(24, middle, "blocks that are enough (logarithmic)", 15, "middle",
               f'transform="rotate(-90 24 {middle:.1f})"')
    yield text(LEFT, 32, "How many blocks a heap needs", 18, "start", 'font-weight="bold"')


def curve(rule, K, style):
    points = [(U, rule(K, U)) for U in range(1, LAST + 1)]
    points = [(x_of(U), y_of(blocks)) for U, blocks in points if blocks]
    path = " ".join(f"{x:.1f},{y:.1f}" for x, y in points)
    yield f'<polyline points="{path}" fill="none" {style}/>'
    x, y = points[0]
    yield f'<circle cx="{x:.1f}" cy="{y:.1f}" r="4" fill="{colour_of(style)}"/>'


def label(K):
    return text(LEFT + WIDTH + 10, y_of(least(K, LAST)) + 5, f"K = {K:,}", 14)


def legend():
    x, y = LEFT + WIDTH + 110, TOP + 14
    entries = [(SHARPER, "the sharper rule:", "least P"),
               (DOCUMENT, "document 01's rule:", "smallest M"),
               (LIMIT, "16,384 blocks,", "the largest heap")]
    for style, first, second in entries:
        yield line(x, y - 5, x + 42, y - 5, style)
        yield text(x + 52, y, first)
        yield text(x + 52, y + 18, second)
        y += 52
    yield f'<circle cx="{x + 21:.1f}" cy="{y - 5:.1f}" r="4" fill="#444444"/>'
    yield text(x + 52, y, "the smallest U")
    yield text(x + 52, y + 18, "with a heap")
    y += 52
    for shade, first, second in [(NEITHER, "U up to 2: no heap", "by either rule"),
                                 (ONE, "U = 3 and 4: by the", "sharper rule alone")]:
        yield box(x, y - 14, 42, 20, f'fill="{shade}" stroke="#888888"')
        yield text(x + 52, y, first)
        yield text(x + 52, y + 18, second)
        y += 52
    yield text(x, y + 6, "K: the most blocks that")
    yield text(x, y + 24, "are reachable; B is 1")


def svg():
    width, height = LEFT + WIDTH + 320, TOP + HEIGHT + 64
    parts = [f'<svg xmlns="http://www.w3.org/2000/svg" viewBox="0 0 {width} {height}" '
             f'width="{width}" height="{height}" font-family="sans-serif" fill="#222222">',
             f'<rect width="{width}" height="{height}" fill="#ffffff"/>', *axes()]
    for K in HELD:
        parts.extend(curve(smallest, K, DOCUMENT))
        parts.extend(curve(least, K, SHARPER))
        parts.append(label(K))
    return "\n".join([*parts, *legend(), "</svg>"]) + "\n"


def main():
    here = os.path.dirname(os.path.abspath(__file__))
    with open(os.path.join(here, "sizing.svg"), "w", encoding="ascii", newline="\n") as file:
        file.write(svg())


if __name__ == "__main__":
    main()
