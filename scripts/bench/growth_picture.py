"""Draws tables of growth as one SVG picture: a panel for each kind of command, both scales by powers of ten."""
from math import ceil, floor, log10

WIDTH, HEIGHT, LEFT, TOP, GAP = 190, 130, 46, 34, 62
COLOURS = ("#0b5394", "#b45f06")


def panel(x, y, kind, label, sizes, pairs):
    """One panel: the figures of the program and of the other."""
    figures = [max(figure, 0.01) for pair in pairs for figure in pair]
    low, high = floor(log10(min(figures))), ceil(log10(max(figures)))
    high = max(high, low + 1)
    first, last = log10(sizes[0]), log10(sizes[-1])

    def across(size):
        return x + (log10(size) - first) / (last - first) * WIDTH

    def down(figure):
        return y + HEIGHT - (log10(max(figure, 0.01)) - low) / (high - low) * HEIGHT

    out = [f'<rect x="{x}" y="{y}" width="{WIDTH}" height="{HEIGHT}" fill="none" stroke="#999"/>']
    out.append(f'<text x="{x}" y="{y - 8}" font-weight="bold">{kind}</text>')
    for power in range(low, high + 1):
        at = down(10.0**power)
        out.append(f'<line x1="{x}" y1="{at:.1f}" x2="{x + WIDTH}" y2="{at:.1f}" stroke="#ddd"/>')
        out.append(f'<text x="{x - 4}" y="{at + 4:.1f}" text-anchor="end">{10.0**power:g}</text>')
    for size in sizes:
        out.append(f'<text x="{across(size):.1f}" y="{y + HEIGHT + 14}" text-anchor="middle">{size:,}</text>')
    out.append(f'<text x="{x + WIDTH / 2}" y="{y + HEIGHT + 28}" text-anchor="middle">{label}</text>')
    for which, colour in enumerate(COLOURS):
        points = [(across(size), down(pair[which])) for size, pair in zip(sizes, pairs)]
        out.append(f'<polyline points="{" ".join(f"{a:.1f},{b:.1f}" for a, b in points)}" fill="none" stroke="{colour}" stroke-width="2"/>')
        out += [f'<circle cx="{a:.1f}" cy="{b:.1f}" r="3" fill="{colour}"/>' for a, b in points]
    return out


def draw(tables):
    """The picture of tables (label, sizes, figures by kind)."""
    panels = [(kind, label, sizes, pairs) for label, sizes, figures in tables for kind, pairs in figures.items()]
    columns = 4
    rows = -(-len(panels) // columns)
    width, height = columns * (WIDTH + GAP) + 20, rows * (HEIGHT + GAP + 14) + TOP + 14
    out = [f'<svg xmlns="http://www.w3.org/2000/svg" viewBox="0 0 {width} {height}" font-family="sans-serif" font-size="11">']
    out.append(f'<rect width="{width}" height="{height}" fill="white"/>')
    out.append(f'<text x="{LEFT}" y="16">Microseconds of processor time for a command: <tspan fill="{COLOURS[0]}">baliseplan</tspan>, <tspan fill="{COLOURS[1]}">an independent program without proofs</tspan></text>')
    for i, one in enumerate(panels):
        out += panel(LEFT + i % columns * (WIDTH + GAP), TOP + 20 + i // columns * (HEIGHT + GAP + 14), *one)
    return "\n".join(out + ["</svg>", ""])
