"""Drawings of boxes, lines and words, as SVG."""
import html

FONT = "DejaVu Sans, Helvetica, Arial, sans-serif"
LINE = "#666666"


class Drawing:
    """A drawing of a width and a height, on white."""

    def __init__(self, width, height, title):
        self.parts = [
            f'<svg xmlns="http://www.w3.org/2000/svg" width="{width}" height="{height}" viewBox="0 0 {width} {height}" font-family="{FONT}">',
            f"<title>{html.escape(title)}</title>",
            f'<rect width="{width}" height="{height}" fill="#ffffff"/>',
        ]

    def box(self, x, y, width, height, colour, is_strong=False):
        """A box with its upper left corner at a place."""
        self.parts.append(
            f'<rect x="{x}" y="{y}" width="{width}" height="{height}" fill="{colour}" stroke="{LINE}" stroke-width="{2.5 if is_strong else 1}"/>')

    def text(self, x, y, words, size=13, anchor="middle", colour="#111111", bold=False):
        """Words of which the middle of a line stands at a height."""
        weight = ' font-weight="bold"' if bold else ""
        self.parts.append(
            f'<text x="{x}" y="{y + size * 0.35:g}" font-size="{size}" text-anchor="{anchor}" fill="{colour}"{weight}>{html.escape(words)}</text>')

    def path(self, steps):
        """A line along steps."""
        self.parts.append(f'<path d="{steps}" fill="none" stroke="{LINE}"/>')

    def brace(self, left, right, y, words, is_below=False):
        """A bracket over what stands below it, or under what stands above, with words beside it."""
        turn = -1 if is_below else 1
        self.path(f"M{left} {y + 8 * turn} V{y} H{right} V{y + 8 * turn}")
        self.text((left + right) / 2, y - 12 * turn, words, size=12)

    def links(self, x, y, count, width, pitch):
        """Short lines between boxes beside each other."""
        for at in range(count - 1):
            self.path(f"M{x + at * pitch + width} {y} H{x + (at + 1) * pitch}")

    def done(self):
        """The drawing as a text."""
        return "\n".join([*self.parts, "</svg>"]) + "\n"
