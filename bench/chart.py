"""Panels with axes, lines and a legend, as SVG text."""
import math
from html import escape


def tag(name, body=None, **attributes):
    fields = "".join(' %s="%s"' % (n.replace("_", "-"), "%.1f" % v if isinstance(v, float) else escape(str(v))) for n, v in attributes.items())
    return "<%s%s/>" % (name, fields) if body is None else "<%s%s>%s</%s>" % (name, fields, escape(body), name)


class Panel:
    """A rectangle of the picture with its own axes. A span is (least, greatest); on a log axis each tenfold has the same height."""

    def __init__(self, box, xspan, yspan, log=False):
        self.left, self.top, self.width, self.height = map(float, box)
        self.right, self.bottom = self.left + self.width, self.top + self.height
        self.xspan, self.log = xspan, log
        self.yspan = tuple(map(math.log10, yspan)) if log else yspan
        self.parts = []

    def x(self, v):
        low, high = self.xspan
        return self.left + self.width * (v - low) / (high - low)

    def y(self, v):
        low, high = self.yspan
        return self.top + self.height * (high - (math.log10(v) if self.log else v)) / (high - low)

    # Drawing at places of the picture.

    def words(self, x, y, body, **attributes):
        self.parts.append(tag("text", body, x=x, y=y, **attributes))

    def stroke(self, x1, y1, x2, y2, **attributes):
        self.parts.append(tag("line", x1=x1, y1=y1, x2=x2, y2=y2, **attributes))

    def sign(self, x, y, stroke):
        """The sign of a line in the legend; {"cross": colour} is a cross and {"dot": colour} a dot."""
        if "cross" in stroke:
            for turn in (5, -5):
                self.stroke(x - 5, y - turn, x + 5, y + turn, stroke=stroke["cross"], stroke_width=2)
        elif "dot" in stroke:
            self.parts.append(tag("circle", cx=x, cy=y, r=5, fill=stroke["dot"]))
        else:
            self.stroke(x - 13, y, x + 13, y, stroke_width=2, **stroke)

    # Drawing by the axes.

    def axes(self, title, xlabel, ylabel, xticks, yticks):
        for v in xticks:
            self.stroke(self.x(v), self.bottom, self.x(v), self.bottom + 5, stroke="black")
            self.words(self.x(v), self.bottom + 19, f"{v:,}", text_anchor="middle")
        for v in yticks:
            self.stroke(self.left, self.y(v), self.right, self.y(v), stroke="#ddd")
            self.words(self.left - 7, self.y(v) + 4, f"{v:g}", text_anchor="end")
        self.parts.append(tag("rect", x=self.left, y=self.top, width=self.width, height=self.height, fill="none", stroke="black"))
        self.words(self.left, self.top - 28, title, font_size=15, font_weight="bold")
        self.words((self.left + self.right) / 2, self.bottom + 42, xlabel, text_anchor="middle")
        side, middle = self.left - 44, (self.top + self.bottom) / 2
        self.words(side, middle, ylabel, text_anchor="middle", transform="rotate(-90 %.1f %.1f)" % (side, middle))

    def line(self, points, **stroke):
        path = " ".join("%.1f,%.1f" % (self.x(a), self.y(b)) for a, b in points)
        self.parts.append(tag("polyline", points=path, fill="none", stroke_width=2, **stroke))

    def dot(self, point, colour):
        self.parts.append(tag("circle", cx=self.x(point[0]), cy=self.y(point[1]), r=2.5, fill=colour))

    def mark(self, point, stroke):
        self.sign(self.x(point[0]), self.y(point[1]), stroke)

    def legend(self, rows):
        """Below the axis, each row a list of (words, stroke, width)."""
        for i, row in enumerate(rows):
            x, y = self.left, self.bottom + 66 + 20 * i
            for words, stroke, width in row:
                self.sign(x + 13, y, stroke)
                self.words(x + 33, y + 4, words)
                x += width


def picture(width, height, panels):
    head = f'<svg xmlns="http://www.w3.org/2000/svg" viewBox="0 0 {width} {height}" width="{width}" height="{height}" font-family="DejaVu Sans, Verdana, Arial, sans-serif" font-size="12">'
    body = [part for panel in panels for part in panel.parts]
    return "\n".join([head, tag("rect", width=width, height=height, fill="white"), *body, "</svg>"]) + "\n"
