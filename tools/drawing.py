"""Parts of a picture in SVG, for the scripts in this folder.

Text stays text, in plain fonts. The ground is white, so that a picture can be read on dark pages too. Equal calls make
equal bytes.
"""

from html import escape

INK, GREY, PALE, GROUND = "#222222", "#767676", "#d9d9d9", "#ffffff"

# A strong colour and a light one for each client, which alternate.
CLIENT_COLOURS = [
    ("#0b62a4", "#cfe3f5"),
    ("#b8500b", "#fadfc9"),
    ("#1f7a3d", "#d0ecd8"),
    ("#7b3f9d", "#e8d8f2"),
    ("#8a6d00", "#f4e9b8"),
    ("#a3245c", "#f8d3e2"),
]
# A strong colour for each layer of crates, in turn: enough of them that none is used twice.
LAYER_COLOURS = [strong for strong, _ in CLIENT_COLOURS] + [
    "#007d80",
    "#6d4630",
    "#3c42c4",
    "#c2221f",
    "#4f5b66",
    "#5c8200",
]
# The size of the letters of a chip.
CHIP_SIZE = 10.5

SANS, MONO = "Helvetica, Arial, sans-serif", "Menlo, Consolas, DejaVu Sans Mono, monospace"


def colours_of(client):
    """The strong and the light colour of a client, who is numbered from 1."""
    return CLIENT_COLOURS[(client - 1) % len(CLIENT_COLOURS)]


def colour_of_layer(number):
    """The colour of a layer, which is numbered from 1. Two next to each other have different ones."""
    return LAYER_COLOURS[(number - 1) % len(LAYER_COLOURS)]


def number(value):
    """A length as text, with at most one decimal place."""
    return f"{round(value, 1):g}"


def chip_width(text):
    """How wide a chip with this text is, with room for the widest of the fonts."""
    return len(text) * CHIP_SIZE * 0.57 + 12


def shortened(text, most):
    return text if len(text) <= most else text[: most - 1] + "…"


class Picture:
    """Parts in the order in which they are painted."""

    def __init__(self, width, title):
        self.width, self.title, self.parts = width, title, []

    def box(self, x, y, width, height, fill=GROUND, stroke="none", radius=4, dashed=False, thickness=1):
        """A box. Where it is dashed, its edge is."""
        more = f' stroke-width="{number(thickness)}"' if thickness != 1 else ""
        more += ' stroke-dasharray="3 2"' if dashed else ""
        edge = f' stroke="{stroke}"{more}' if stroke != "none" else ""
        at = f'x="{number(x)}" y="{number(y)}" width="{number(width)}" height="{number(height)}"'
        self.parts.append(f'<rect {at} rx="{number(radius)}" fill="{fill}"{edge}/>')

    def line(self, points, stroke=GREY, thickness=1, dashed=False):
        """A line through these points."""
        path = "M" + "L".join(f"{number(x)} {number(y)}" for x, y in points)
        more = f' stroke-width="{number(thickness)}"' + (' stroke-dasharray="3 3"' if dashed else "")
        self.parts.append(f'<path d="{path}" fill="none" stroke="{stroke}"{more}/>')

    def arrow(self, points, stroke=GREY, thickness=1.2, dashed=False, size=6):
        """A line through these points with a head at the last one. Its last part is level or upright."""
        (x1, y1), (x2, y2) = points[-2:]
        right, down, half = (x2 > x1) - (x2 < x1), (y2 > y1) - (y2 < y1), size * 0.55
        x, y = x2 - right * size, y2 - down * size
        self.line([*points[:-1], (x, y)], stroke, thickness, dashed)
        corners = [(x + down * half, y + right * half), (x - down * half, y - right * half)]
        path = "M" + "L".join(f"{number(x)} {number(y)}" for x, y in [(x2, y2), *corners])
        self.parts.append(f'<path d="{path}Z" fill="{stroke}"/>')

    def dot(self, x, y, radius, fill, stroke="none"):
        edge = f' stroke="{stroke}"' if stroke != "none" else ""
        self.parts.append(f'<circle cx="{number(x)}" cy="{number(y)}" r="{number(radius)}" fill="{fill}"{edge}/>')

    def text(self, x, y, text, size=12, fill=INK, anchor="start", bold=False, mono=False):
        """A line of text: its anchor is `start`, `middle` or `end`."""
        more = f' font-size="{number(size)}"' if size != 12 else ""
        more += f' text-anchor="{anchor}"' if anchor != "start" else ""
        more += ' font-weight="bold"' if bold else ""
        more += f' font-family="{MONO}"' if mono else ""
        at, shown = f'x="{number(x)}" y="{number(y)}"', escape(text, quote=False)
        self.parts.append(f'<text {at} fill="{fill}"{more}>{shown}</text>')

    def chip(self, x, y, text, fill, stroke, ink):
        """A small box with a word or two, around this point."""
        width = chip_width(text)
        self.box(x - width / 2, y - 8, width, 16, fill, stroke, radius=8)
        self.text(x, y + 3.7, text, CHIP_SIZE, ink, "middle")

    def save(self, path, height):
        """Writes the picture, which has this height."""
        size = f"{number(self.width)} {number(height)}"
        lines = [
            f'<svg xmlns="http://www.w3.org/2000/svg" width="{number(self.width)}" height="{number(height)}"'
            f' viewBox="0 0 {size}" role="img" font-family="{SANS}" font-size="12">',
            f"<title>{escape(self.title)}</title>",
            f'<rect width="100%" height="100%" rx="6" fill="{GROUND}"/>',
            *self.parts,
            "</svg>",
        ]
        with open(path, "w", encoding="utf-8") as file:
            file.write("\n".join(lines) + "\n")
