"""Draw pictures as SVG 1.1: boxes, lines and texts on a background of their own, readable in light and dark viewers.

Equal calls give equal text. The picture has no script, style sheet or font file. `texts` has all texts with their
estimated extent, for the check that they fit.
"""
from xml.sax.saxutils import escape, quoteattr

INK, SOFT, PAPER, EDGE = "#1d1d1f", "#5c5c61", "#fdfcf8", "#b9b7b0"
# The fill colours of the kinds of blocks, all light enough for dark letters.
FILLS = {"slot": "#d6d6da", "dir": "#f2cc6b", "rec": "#93bfe0", "chg": "#c2aee0", "pub": "#a3d6a9"}
FILLS |= {"body": "#f2ad96", "free": "#ffffff"}
HEAD = '<?xml version="1.0" encoding="UTF-8"?>\n'
FONTS = {True: "monospace", False: "sans-serif"}
# The estimated width of a letter, relative to the font size: an upper bound of the average in common fonts.
WIDTHS = {True: 0.61, False: 0.52}
ANCHORS = {"start": 0.0, "middle": 0.5, "end": 1.0}


def number(value):
    """Return a number with no more digits than it needs."""
    return f"{value:.1f}".removesuffix(".0")


def attributes(pairs):
    """Return the attributes of an element."""
    attributes = {name: value if isinstance(value, str) else number(value) for name, value in pairs.items()}
    return "".join(f" {name.replace('_', '-')}={quoteattr(value)}" for name, value in attributes.items())


def spelled(points):
    """Return points in the syntax of SVG."""
    return " ".join(f"{number(x)},{number(y)}" for x, y in points)


class Picture:
    """A picture with a width, a height, a title, and a description for screen readers."""

    def __init__(self, width, height, title, description):
        self.width, self.height, self.parts, self.texts = width, height, [], []
        self.title, self.description = title, description
        self.box(0.5, 0.5, width - 1, height - 1, PAPER, EDGE, rx=6)

    def element(self, name, **pairs):
        """Add an element."""
        self.parts.append(f"<{name}{attributes(pairs)}/>")

    def box(self, x, y, width, height, fill, stroke="none", **more):
        """Add a rectangle."""
        self.element("rect", x=x, y=y, width=width, height=height, fill=fill, stroke=stroke, **more)

    def line(self, x1, y1, x2, y2, stroke=SOFT, **more):
        """Add a line."""
        self.element("line", x1=x1, y1=y1, x2=x2, y2=y2, stroke=stroke, **more)

    def text(self, x, y, text, size=12, anchor="start", is_code=False, fill=INK, **more):
        """Add a text with its baseline at y."""
        width = len(text) * size * WIDTHS[is_code]
        left = x - width * ANCHORS[anchor]
        self.texts.append((text, left, left + width, y - size, y))
        pairs = {"x": x, "y": y, "font_size": size, "font_family": FONTS[is_code], "text_anchor": anchor, "fill": fill}
        usual = {"font_family": FONTS[False], "text_anchor": "start", "fill": INK}
        pairs = {name: value for name, value in pairs.items() if usual.get(name) != value} | more
        self.parts.append(f"<text{attributes(pairs)}>{escape(text)}</text>")

    def lines(self, x, y, texts, size=12, **more):
        """Add lines of text, one below another."""
        for number_of, text in enumerate(texts):
            self.text(x, y + number_of * (size + 3), text, size, **more)

    def hatch(self, x, y, width, height, step=5):
        """Add a hatch from the lower left to the upper right of a box."""
        strokes = []
        for at in range(step, int(width + height), step):
            x1, y1 = (x + at - height, y) if at > height else (x, y + height - at)
            x2, y2 = (x + at, y + height) if at < width else (x + width, y + height - (at - width))
            strokes.append(f"M{number(x1)} {number(y1)}L{number(x2)} {number(y2)}")
        self.element("path", d="".join(strokes), stroke=INK, stroke_width=0.7, fill="none")

    def arrow(self, points, stroke=INK, **more):
        """Add a line through points, with a vertical arrowhead at the last one."""
        (x, y), before = points[-1], points[-2]
        back = 7 if before[1] > y else -7
        self.element("polyline", points=spelled(points), fill="none", stroke=stroke, **more)
        self.element("polygon", points=spelled([(x, y), (x - 4, y + back), (x + 4, y + back)]), fill=stroke)

    def spelled(self):
        """Return the text of the picture."""
        size = {"width": self.width, "height": self.height, "viewBox": f"0 0 {self.width} {self.height}"}
        usual = attributes({**size, "font_family": FONTS[False], "fill": INK})
        head = f'{HEAD}<svg xmlns="http://www.w3.org/2000/svg" version="1.1"{usual}>'
        labels = [f"<title>{escape(self.title)}</title>", f"<desc>{escape(self.description)}</desc>"]
        return "\n".join([head, *labels, *self.parts, "</svg>\n"])
