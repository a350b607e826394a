"""The few shapes that the pictures are made of, as SVG."""
from xml.sax.saxutils import escape

INK, FAINT, PAPER = "#222222", "#d5d5d5", "#ffffff"


def tag(name, inner=None, **attributes):
    given = "".join(f' {key.replace("_", "-")}="{value:g}"' if isinstance(value, (int, float)) else f' {key.replace("_", "-")}="{value}"' for key, value in attributes.items())
    return f"<{name}{given}/>" if inner is None else f"<{name}{given}>{inner}</{name}>"


def text(x, y, said, size=12, anchor="start", colour=INK, weight="normal"):
    return tag("text", escape(said), x=x, y=y, font_size=size, text_anchor=anchor, fill=colour, font_weight=weight)


def line(x1, y1, x2, y2, colour=FAINT, width=1):
    return tag("line", x1=x1, y1=y1, x2=x2, y2=y2, stroke=colour, stroke_width=width)


def path(d, colour=INK, width=1.5, **more):
    return tag("path", d=d, fill="none", stroke=colour, stroke_width=width, **more)


def drawing(width, height, title, shapes):
    head = f'<svg xmlns="http://www.w3.org/2000/svg" viewBox="0 0 {width} {height}" width="{width}" height="{height}" font-family="Helvetica, Arial, sans-serif" role="img">'
    return "\n".join([head, tag("title", escape(title)), tag("rect", width=width, height=height, fill=PAPER), *shapes, "</svg>", ""])
