"""Pictures of figures, as SVG: points and lines over an axis, without a library."""

WIDTH, HEIGHT, LEFT, BOTTOM, TOP = 640, 240, 56, 34, 30
# what the name of the first line takes of the height; each other one takes 13 more
NAMED = 22


def picture(title, unit, across, lines, ticks=()):
    """Lines by their names, each of points, over what stands across. The y axis begins at 0."""
    points = [point for of in lines.values() for point in of]
    most_y, top = rounded(max((y for _, y in points), default=1)), max(TOP, NAMED + 13 * (len(lines) - 1))
    first, last = min(x for x, _ in points), max(x for x, _ in points)
    parts = [f'<svg xmlns="http://www.w3.org/2000/svg" viewBox="0 0 {WIDTH} {HEIGHT}" font-family="sans-serif"'
             f' font-size="11" fill="#333">', f'<rect width="{WIDTH}" height="{HEIGHT}" fill="#fff"/>',
             f'<text x="{LEFT}" y="16" font-size="13">{title}</text>',
             f'<text x="{WIDTH - 8}" y="{HEIGHT - 6}" text-anchor="end">{across}</text>']

    def place(x, y):
        wide, high = WIDTH - LEFT - 12, HEIGHT - BOTTOM - top
        return (LEFT + wide * (x - first) / max(1, last - first), HEIGHT - BOTTOM - high * y / most_y)
    parts += [grid(place(first, most_y * it / 4)[1], most_y * it / 4, unit) for it in range(5)]
    parts += [f'<text x="{place(x, 0)[0]:.0f}" y="{HEIGHT - BOTTOM + 14}" text-anchor="middle">{name}</text>'
              for x, name in ticks]
    for colour, (name, of), number in zip(("#1b6ca8", "#c0562f", "#4d8b31"), lines.items(), range(3)):
        drawn = " ".join(f"{x:.1f},{y:.1f}" for x, y in (place(*it) for it in of))
        parts.append(f'<polyline points="{drawn}" fill="none" stroke="{colour}" stroke-width="1.6"/>')
        parts.append(f'<text x="{WIDTH - 12}" y="{16 + 13 * number}" text-anchor="end" fill="{colour}">{name}</text>')
    return "\n".join([*parts, "</svg>\n"])


def grid(y, value, unit):
    return (f'<path d="M{LEFT} {y:.1f}H{WIDTH - 12}" stroke="#ddd"/>'
            f'<text x="{LEFT - 6}" y="{y + 4:.1f}" text-anchor="end">{value:g} {unit}</text>')


def rounded(most):
    """A round number that is at least as great."""
    power = 1e-3
    while power * 10 < most:
        power *= 10
    return next(power * it for it in (1, 1.2, 1.6, 2, 3, 4, 5, 6, 8, 10) if power * it >= most)
