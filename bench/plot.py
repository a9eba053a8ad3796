"""Charts of rates by clients, for the scripts in this folder."""

UNGROUPED = "a mutex and a write each"
# The colours of each program in all charts: one for each of its ways, in the order in which a chart has them.
COLOURS = {
    "Wolzenn": ["#1b6ca8", "#63b3e8"],
    "LevelDB": ["#d1495b"],
    "RocksDB": ["#b57d00"],
    UNGROUPED: ["#3f8a5f"],
}
INK, GREY, PALE = "#222222", "#767676", "#d9d9d9"
# A chart's columns and ticks are in a field of this size, from its left edge on. GAP is the distance between two
# charts.
WIDTH, HEIGHT, LEFT, TOP, GAP = 380, 280, 80, 60, 24
# How long the line before a name is, and about how wide a letter of it.
LINE, LETTER = 16, 7


def step_of(most):
    """The step between two ticks: 1, 2 or 5 times a power of ten, so that at most five reach the greatest rate."""
    power = 1
    while True:
        for step in (power, 2 * power, 5 * power):
            if 5 * step >= most:
                return step
        power *= 10


def strokes_of(series):
    """How the line of each of these names is drawn. A name begins with that of its program, up to a comma."""
    left = {program: list(colours) for program, colours in COLOURS.items()}
    strokes = []
    for name in series:
        program = name.split(",")[0]
        dashes = ' stroke-dasharray="6 4"' if program == UNGROUPED else ""
        strokes.append(f'stroke="{left[program].pop(0)}"{dashes}')
    return strokes


def text(x, y, words, fill=GREY, more=""):
    return f'<text x="{x:.0f}" y="{y:.0f}" fill="{fill}"{more}>{words}</text>'


def axes(x0, title, clients, step, top):
    """The parts of an empty chart up to this rate, and where its columns are."""
    bottom, middle, end = TOP + HEIGHT, ' text-anchor="middle"', ' text-anchor="end"'
    parts = [
        text(x0, 24, title, INK, ' font-size="14" font-weight="bold"'),
        text(x0, TOP - 12, "batches a second"),
        text(x0 + WIDTH / 2, bottom + 36, "clients", GREY, middle),
    ]
    for rate in range(0, top + 1, step):
        y = bottom - HEIGHT * rate / top
        parts.append(f'<path d="M{x0} {y:.0f}H{x0 + WIDTH}" stroke="{GREY if rate == 0 else PALE}" fill="none"/>')
        parts.append(text(x0 - 8, y + 4, f"{rate:,}", GREY, end))
    columns = [x0 + 10 + (WIDTH - 20) * i / max(1, len(clients) - 1) for i in range(len(clients))]
    parts += [text(x, bottom + 18, count, GREY, middle) for x, count in zip(columns, clients)]
    return parts, columns


def names(x0, series):
    """The series' names with their lines, in as many rows as they need, and how many rows these are."""
    parts, x, row = [], 0, 0
    for name, stroke in zip(series, strokes_of(series)):
        width = LINE + 8 + LETTER * len(name)
        if x > 0 and x + width > WIDTH:
            x, row = 0, row + 1
        y = TOP + HEIGHT + 62 + 20 * row
        parts.append(f'<path d="M{x0 + x} {y - 4}h{LINE}" {stroke} stroke-width="3"/>')
        parts.append(text(x0 + x + LINE + 5, y, name, INK))
        x += width + 10
    return parts, row + 1


def chart(x0, title, clients, rates):
    """The parts of a chart, and how many rows of names it has."""
    most = max(max(values) for values in rates.values())
    step = step_of(most)
    top = step * max(1, -int(-most // step))
    parts, columns = axes(x0, title, clients, step, top)
    for stroke, values in zip(strokes_of(rates), rates.values()):
        points = [f"{x:.0f},{TOP + HEIGHT - HEIGHT * rate / top:.0f}" for x, rate in zip(columns, values)]
        parts.append(f'<polyline points="{" ".join(points)}" fill="none" {stroke} stroke-width="2"/>')
    named, rows = names(x0, rates)
    return parts + named, rows


def plot(path, clients, tables):
    """Draws the batches a second by clients: a chart for each table, which has its title, and rates by name."""
    each = LEFT + WIDTH + GAP
    charts = [chart(at * each + LEFT, title, clients, rates) for at, (title, rates) in enumerate(tables)]
    height = TOP + HEIGHT + 54 + 20 * max(rows for _, rows in charts)
    lines = [
        f'<svg xmlns="http://www.w3.org/2000/svg" width="{len(tables) * each}" height="{height}"'
        ' font-family="Helvetica, Arial, sans-serif" font-size="12">',
        '<rect width="100%" height="100%" rx="6" fill="#ffffff"/>',
        *(part for parts, _ in charts for part in parts),
        "</svg>",
    ]
    with open(path, "w", encoding="utf-8") as file:
        file.write("\n".join(lines) + "\n")
