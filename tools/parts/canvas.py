"""A little SVG: shapes in layers, and words broken to a width."""

from xml.sax.saxutils import escape

FONT_SIZE = 12
LINE_HEIGHT = 15
# A little more than what a character of a plain font takes, since the reader's font is not known.
CHARACTER = 6.5
BOLD_CHARACTER = 8

STYLE = """
text { font-family: Helvetica, Arial, sans-serif; font-size: 12px; fill: #123; }
.head { font-weight: bold; font-size: 14px; }
.bold { font-weight: bold; }
.faint { fill: #667; font-size: 11px; }
.post { fill: #fff; font-weight: bold; }
.life { stroke: #bbb; stroke-width: 1.2; }
.frame { fill: none; stroke-width: 1.6; }
.repeat { stroke-dasharray: 8 5; }
.refused { stroke-dasharray: 2 4; }
.paper { fill: #fff; fill-opacity: 0.88; }
"""


def wide(words, character=CHARACTER):
    return len(words) * character


def filled(words, width):
    """The lines into which words are broken when each takes what fits; a word that is too long stands by itself."""
    lines = [""]
    for word in words.split():
        longer = f"{lines[-1]} {word}".strip()
        if lines[-1] and wide(longer) > width:
            lines.append(word)
        else:
            lines[-1] = longer
    return lines


def broken(words, width):
    """As few lines as fit the width, of nearly the same length: no single digit is left over on a line of its own."""
    lines = filled(words, width)
    narrower = filled(words, width - CHARACTER)
    while len(narrower) == len(lines) > 1 and width > CHARACTER:
        lines, width = narrower, width - CHARACTER
        narrower = filled(words, width - CHARACTER)
    return lines


class Canvas:
    """Shapes are drawn layer by layer, so that words lie above arrows, arrows above the ledgers' lines, and nothing above a mark."""

    def __init__(self, width):
        self.width = width
        self.layers = {"lines": [], "arrows": [], "words": [], "marks": []}

    def add(self, layer, name, words=None, **attributes):
        told = "".join(f' {key.rstrip("_").replace("_", "-")}="{shown(value)}"' for key, value in attributes.items())
        body = "/>" if words is None else f">{escape(words)}</{name}>"
        self.layers[layer].append(f"<{name}{told}{body}")

    def line(self, layer, kind, x1, y1, x2, y2, **attributes):
        self.add(layer, "line", class_=kind, x1=x1, y1=y1, x2=x2, y2=y2, **attributes)

    def text(self, words, x, y, kind="plain", anchor="start"):
        self.add("words", "text", words, class_=kind, x=x, y=y, text_anchor=anchor)

    def box(self, x, y, width, height, **attributes):
        self.add("words", "rect", x=x, y=y, width=width, height=height, **attributes)

    def shape(self, path, **attributes):
        self.add("marks", "path", d=path, **attributes)

    def svg(self, height, title):
        body = "\n".join(line for layer in self.layers.values() for line in layer)
        return (f'<svg xmlns="http://www.w3.org/2000/svg" width="{self.width}" height="{shown(height)}" '
                f'viewBox="0 0 {self.width} {shown(height)}" role="img">\n<title>{escape(title)}</title>\n'
                f"<style>{STYLE}</style>\n"
                f'<rect width="100%" height="100%" fill="#fff"/>\n{body}\n</svg>\n')


def shown(value):
    """A number without needless digits, so that the same run gives the same bytes anywhere."""
    return f"{value:.1f}".removesuffix(".0") if isinstance(value, float) else escape(str(value), {'"': "&quot;"})
