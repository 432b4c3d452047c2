"""Charts of what an operation costs by what is held, as SVG. bench/run draws them from its figures."""

from html import escape

WIDTH, HEIGHT, LEFT, RIGHT, TOP, BOTTOM = 720, 380, 64, 130, 56, 56
# The colours of the ground, of text, of lines of the grid, and of the programs, the first one first.
LIGHT = ("#ffffff", "#1f2328", "#d0d7de", ("#0550ae", "#8250df", "#9a6700"))
DARK = ("#0d1117", "#e6edf3", "#30363d", ("#58a6ff", "#bc8cff", "#d29922"))


def steps_to(most):
    """Round numbers from 0 to past the most, four to eight of them."""
    step = next(step for power in range(12) for step in (10 ** power, 2 * 10 ** power, 5 * 10 ** power)
                if most / step <= 7)
    return [step * number for number in range(int(most / step) + 2)]


def text(x, y, words, colour, anchor="middle", size=13):
    return (f'<text x="{x:.0f}" y="{y:.0f}" fill="{colour}" text-anchor="{anchor}" font-size="{size}">'
            f"{escape(words)}</text>")


def apart(heights, least=16):
    """These heights, from the top, each at least so far from the one above it that their names can be read."""
    placed, order = list(heights), sorted(range(len(heights)), key=heights.__getitem__)
    for above, below in zip(order, order[1:]):
        placed[below] = max(placed[below], placed[above] + least)
    return placed


def drawn(title, beside, sizes, costs, colours):
    """A chart: the instructions of each program beside each of these sizes, which grow tenfold."""
    ground, ink, grid, lines = colours
    marks = steps_to(max(max(row) for row in costs.values()))

    def across(place):
        return LEFT + (WIDTH - LEFT - RIGHT) * place / (len(sizes) - 1)

    def up(cost):
        return HEIGHT - BOTTOM - (HEIGHT - TOP - BOTTOM) * cost / marks[-1]

    parts = [f'<svg xmlns="http://www.w3.org/2000/svg" viewBox="0 0 {WIDTH} {HEIGHT}" role="img" '
             f'font-family="system-ui, sans-serif">', f"<title>{escape(title)}</title>",
             f'<rect width="{WIDTH}" height="{HEIGHT}" fill="{ground}"/>',
             text(LEFT, 28, title, ink, "start", 16)]
    for mark in marks:
        parts += [f'<path d="M{LEFT} {up(mark):.0f}H{WIDTH - RIGHT}" stroke="{grid}"/>',
                  text(LEFT - 8, up(mark) + 4, f"{mark:,}", ink, "end")]
    parts += [text(across(place), HEIGHT - BOTTOM + 20, f"{size:,}", ink) for place, size in enumerate(sizes)]
    parts.append(text((LEFT + WIDTH - RIGHT) / 2, HEIGHT - 12, beside, ink))
    names = apart([up(row[-1]) + 4 for row in costs.values()])
    for (name, row), colour, height in zip(costs.items(), lines, names):
        points = " ".join(f"{across(place):.1f},{up(cost):.1f}" for place, cost in enumerate(row))
        parts += [f'<polyline points="{points}" fill="none" stroke="{colour}" stroke-width="2.5"/>',
                  text(WIDTH - RIGHT + 8, height, name, colour, "start")]
    return "\n".join([*parts, "</svg>", ""])


def write(folder, name, *what):
    """A chart for readers with a light and for those with a dark ground."""
    for suffix, colours in (("", LIGHT), ("-dark", DARK)):
        (folder / f"{name}{suffix}.svg").write_text(drawn(*what, colours))
