"""Pictures of figures as SVG: bars, and lines over two logarithmic axes. No library is needed."""

import html
import math

WIDTH, LEFT, RIGHT, TOP, ROW = 860, 190, 90, 56, 18
COLOURS = ["#0b5fa5", "#d1772b", "#3b8f4b", "#8a4fa0", "#777777"]


def text(x, y, words, anchor="start", size=12, extra=""):
    return f'<text x="{x:.1f}" y="{y:.1f}" text-anchor="{anchor}" font-size="{size}"{extra}>{html.escape(words)}</text>'


def picture(height, title, parts):
    """An SVG picture with a title, black on white, for screens and for paper."""
    return "\n".join(
        [
            f'<svg xmlns="http://www.w3.org/2000/svg" width="{WIDTH}" height="{height:.0f}" viewBox="0 0 {WIDTH} {height:.0f}" '
            f'font-family="sans-serif" role="img">',
            f"<title>{html.escape(title)}</title>",
            f'<rect width="{WIDTH}" height="{height:.0f}" fill="#ffffff"/>',
            text(16, 26, title, size=16),
            *parts,
            "</svg>\n",
        ]
    )


def legend(names):
    """The colour of each of some names, in a line below the title."""
    parts, x = [], 16.0
    for name, colour in zip(names, COLOURS):
        parts += [f'<rect x="{x:.1f}" y="36" width="10" height="10" fill="{colour}"/>', text(x + 14, 45, name)]
        x += 30 + 7 * len(name)
    return parts


def bars(title, groups):
    """Bars for each group: a list of pairs of a group's name and a dictionary from a bar's name to its value."""
    names = list(dict.fromkeys(name for _, values in groups for name in values))
    most = max((value for _, values in groups for value in values.values()), default=1) or 1
    parts, y = legend(names), float(TOP)
    for group, values in groups:
        parts.append(text(LEFT - 8, y + ROW * len(values) / 2 + 4, group, "end"))
        for name, value in values.items():
            width = (WIDTH - LEFT - RIGHT) * value / most
            colour = COLOURS[names.index(name) % len(COLOURS)]
            parts.append(f'<rect x="{LEFT}" y="{y + 2:.1f}" width="{max(width, 1):.1f}" height="{ROW - 4}" fill="{colour}"/>')
            parts.append(text(LEFT + width + 5, y + ROW - 5, f"{value:.3g}", size=11))
            y += ROW
        y += 8
    return picture(y + 8, title, parts)


def ticks(least, most):
    """The powers of ten from below one number to above another, at least two."""
    return range(math.floor(math.log10(least)), math.floor(math.log10(most)) + 2)


def lines(title, across, up, series):
    """Lines over two logarithmic axes: a dictionary from a line's name to its points. A dashed line shows growth with the input."""
    points = [point for made in series.values() for point in made]
    columns, rows = (ticks(min(numbers), max(numbers)) for numbers in zip(*points))
    low, high, bottom = 70, WIDTH - 20, 480

    def place(x, y):
        return (
            low + (high - low) * (math.log10(x) - columns[0]) / (len(columns) - 1),
            bottom - (bottom - TOP) * (math.log10(y) - rows[0]) / (len(rows) - 1),
        )

    parts = [text((low + high) / 2, bottom + 36, across, "middle"), text(16, 46, up)]
    for power in columns:
        x, _ = place(10.0**power, 10.0 ** rows[0])
        parts += [f'<path d="M{x:.1f} {TOP}V{bottom}" stroke="#dddddd"/>', text(x, bottom + 16, f"{10.0 ** power:g}", "middle")]
    for power in rows:
        _, y = place(10.0 ** columns[0], 10.0**power)
        parts += [f'<path d="M{low} {y:.1f}H{high}" stroke="#dddddd"/>', text(low - 6, y + 4, f"{10.0 ** power:g}", "end")]
    shared = min(len(columns), len(rows)) - 1
    start, end = (place(10.0 ** (columns[0] + step), 10.0 ** (rows[0] + step)) for step in (0, shared))
    parts.append(f'<path d="M{start[0]:.1f} {start[1]:.1f}L{end[0]:.1f} {end[1]:.1f}" stroke="#000000" stroke-dasharray="4 4"/>')
    for name, made in series.items():
        path = "L".join(f"{x:.1f} {y:.1f}" for x, y in (place(*point) for point in made))
        parts.append(f'<path d="M{path}" fill="none" stroke="{COLOURS[0]}" stroke-opacity="0.5"><title>{html.escape(name)}</title></path>')
    return picture(bottom + 50, title, parts)
