"""SVG elements as text, and the look of the picture: colours and classes."""

from xml.sax.saxutils import escape, quoteattr

# A colour for each semaphore slot: its row and the tasks that wait for it.
WAIT_COLOURS = ("#f0a830", "#2fa58a", "#cf78b0", "#5aaee0", "#9a7fd1",
                "#a88463", "#d9c43c", "#6cc0bd", "#8fc46a", "#e58aa0",
                "#5f86c4", "#e98850", "#3f9a6e", "#b59a3a", "#b5a0dc",
                "#8d8a86")
POOL_COLOUR = "#5b8c85"
# And one for each queue slot, the same way.
QUEUE_COLOURS = ("#c2667a", "#4f9bb0", "#8c9b3f", "#b07cc6", "#d08a4a",
                 "#5fa36a", "#7f87c9", "#a59a8c")

STYLE = """
text{font-family:'DejaVu Sans',Verdana,Helvetica,Arial,sans-serif;fill:#243244}
.title{font-size:17px;font-weight:bold}
.note{font-size:12px;fill:#5b6878}
.head{font-size:11px;font-weight:bold;fill:#5b6878}
.name{font-size:12px}
.small{font-size:10px;fill:#5b6878}
.tiny{font-size:9px;fill:#5b6878}
.call{font-size:10px;fill:#33465c}
.refused{font-size:10px;fill:#c8102e}
.in{font-size:10px}
.inrun{font-size:10px;fill:#fff}
rect{shape-rendering:crispEdges}
.sheet{fill:#fff}
.stripe{fill:#f6f8fa}
.rule{stroke:#d5dbe2;stroke-width:1;fill:none}
.tick{stroke:#c3cfdd;stroke-width:1;stroke-dasharray:2 3;fill:none}
.run{fill:#1d3557}
.ready{fill:#b9cbe0}
.stopped{fill:url(#hatch);stroke:#97a2af;stroke-width:1}
.veil{fill:url(#veil)}
.unborn{fill:#fff;stroke:#9aa6b4;stroke-width:1;stroke-dasharray:3 2}
.idle{fill:#f3d9d9}
.held{fill-opacity:.3;stroke-width:1}
.cross{stroke:#c8102e;stroke-width:1.8;fill:none;stroke-linecap:round}
.scratch{fill:#e0142f}
.halo{stroke:#fff;stroke-width:4;fill:none;stroke-linecap:round}
.granted{fill:#2a9d3f;stroke:#fff;stroke-width:1}
.timed{fill:#fff;stroke:#d1660a;stroke-width:1.8}
.gone{fill:#c8102e;stroke:#fff;stroke-width:1}
.irq{fill:#6a4fb3}
.handed{fill:#2a9d3f;fill-opacity:.35;stroke:#2a9d3f;stroke-width:1.4}
"""

PATTERNS = """<defs>
<pattern id="hatch" width="6" height="6" patternUnits="userSpaceOnUse" \
patternTransform="rotate(45)"><rect width="6" height="6" fill="#eef1f4"/>\
<rect width="2" height="6" fill="#aab4c0"/></pattern>
<pattern id="veil" width="6" height="6" patternUnits="userSpaceOnUse" \
patternTransform="rotate(45)"><rect width="2.2" height="6" fill="#3b4552" \
fill-opacity=".55"/></pattern>
</defs>"""


def colour_of(kind, slot):
    """The colour of what a task waits for, a semaphore or a queue."""
    colours = QUEUE_COLOURS if kind == "queue" else WAIT_COLOURS
    return colours[slot % len(colours)]


def figure(number):
    """A coordinate with one decimal at most: long runs have many."""
    return ("%.1f" % number).rstrip("0").rstrip(".")


def element(name, title=None, text=None, **attributes):
    """An element; a title is what a pointer resting on it shows."""
    words = ["<" + name]
    for key, value in attributes.items():
        value = ('"%s"' % figure(value) if isinstance(value, float)
                 else quoteattr(str(value)))
        words.append(" %s=%s" % (key.rstrip("_").replace("_", "-"), value))
    inner = "<title>%s</title>" % escape(title) if title else ""
    inner += escape(text) if text else ""
    words.append(">%s</%s>" % (inner, name) if inner else "/>")
    return "".join(words)


def text(x, y, words, class_, **more):
    return element("text", x=float(x), y=float(y), class_=class_, text=words,
                   **more)


def box(x, y, width, height, title=None, **more):
    return element("rect", title, x=float(x), y=float(y), width=float(width),
                   height=float(height), **more)


def line(x1, y1, x2, y2, class_):
    return element("path", class_=class_, d="M%s %sL%s %s" % tuple(
        map(figure, (x1, y1, x2, y2))))


def cross(x, y, size, title):
    """A red cross on white, seen on any bar."""
    x0, y0, x1, y1 = map(figure, (x - size, y - size, x + size, y + size))
    path = "M%s %sL%s %sM%s %sL%s %s" % (x0, y0, x1, y1, x0, y1, x1, y0)
    return (element("path", class_="halo", d=path)
            + element("path", title, class_="cross", d=path))


def dot(x, y, size, class_, title):
    return element("circle", title, cx=float(x), cy=float(y), r=float(size),
                   class_=class_)


def page(width, height, parts, label):
    head = ('<svg xmlns="http://www.w3.org/2000/svg" width="%s" height="%s" '
            'viewBox="0 0 %s %s" role="img" aria-label=%s>'
            % (figure(width), figure(height), figure(width), figure(height),
               quoteattr(label)))
    sheet = box(0, 0, width, height, class_="sheet")
    return "\n".join([head, "<style>%s</style>" % STYLE, PATTERNS, sheet]
                     + parts + ["</svg>"]) + "\n"
