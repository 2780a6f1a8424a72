"""What the pictures of track.py are made of: colours, shapes, texts and their places, words for times and lengths.

Lengths are pixels unless a name says otherwise.
"""
import math
from datetime import datetime, timezone
from xml.sax.saxutils import escape

# For each class: the property, its value in light and its value in dark.
COLOURS = [
    ("paper", "fill", "#ffffff", "#0d1117"), ("panel", "fill", "#f6f8fa", "#151b23"),
    ("panel", "stroke", "#d5dce4", "#2d3743"), ("ink", "fill", "#17212b", "#e6edf3"),
    ("muted", "fill", "#55626f", "#9aa7b4"), ("grid", "stroke", "#dfe5eb", "#28323d"),
    ("axis", "stroke", "#8a97a5", "#66727f"), ("lost", "fill", "#e4e8ed", "#222b35"),
    ("track", "stroke", "#0b62c4", "#58a6ff"), ("gap", "stroke", "#0b62c4", "#58a6ff"),
    ("tint", "fill", "#0b62c4", "#58a6ff"), ("start", "fill", "#1a7f37", "#3fb950"),
    ("end", "fill", "#c2410c", "#ff8a4c"), ("edge", "stroke", "#ffffff", "#0d1117"),
]
# For each gnssid: name, shape, colour in light and in dark.
SYSTEMS = {
    0: ("GPS", "circle", "#0b62c4", "#58a6ff"), 6: ("GLONASS", "triangle", "#c2255c", "#ff7b9c"),
    2: ("Galileo", "square", "#9a5b00", "#e3b341"), 3: ("BeiDou", "diamond", "#0f766e", "#3dd6c3"),
    5: ("QZSS", "wedge", "#7c3aed", "#b69cff"), 1: ("SBAS", "hexagon", "#4d5a67", "#b3bec9"),
    7: ("NavIC", "star", "#a21caf", "#f0a0f5"), None: ("System not told", "cross", "#4d5a67", "#b3bec9"),
}
# The corners of each shape of half-width 1; a circle has none.
CORNERS = {
    "triangle": [(0, -1.15), (1.1, 0.8), (-1.1, 0.8)], "wedge": [(0, 1.15), (1.1, -0.8), (-1.1, -0.8)],
    "square": [(-0.9, -0.9), (0.9, -0.9), (0.9, 0.9), (-0.9, 0.9)], "diamond": [(0, -1.25), (1.25, 0), (0, 1.25), (-1.25, 0)],
    "hexagon": [(math.cos(k * math.pi / 3) * 1.1, math.sin(k * math.pi / 3) * 1.1) for k in range(6)],
    "star": [(math.sin(k * math.pi / 5) * (0.55 if k % 2 else 1.3), -math.cos(k * math.pi / 5) * (0.55 if k % 2 else 1.3)) for k in range(10)],
    "cross": [(-0.35, -1), (0.35, -1), (0.35, -0.35), (1, -0.35), (1, 0.35), (0.35, 0.35),
              (0.35, 1), (-0.35, 1), (-0.35, 0.35), (-1, 0.35), (-1, -0.35), (-0.35, -0.35)],
}


# Words

def clean(content):
    """A text as XML takes it, without control characters."""
    return escape("".join(c if c.isprintable() else "\N{REPLACEMENT CHARACTER}" for c in content))


def shortened(name, most=32):
    return name if len(name) <= most else name[:most - 1] + "…"


def date_words(time):
    moment = datetime.fromtimestamp(time, timezone.utc)
    return f"{moment.day} {moment:%B %Y}"


def clock_words(time, form="%H:%M:%S"):
    return datetime.fromtimestamp(time, timezone.utc).strftime(form)


def duration_words(seconds):
    hours, rest = divmod(int(seconds), 3600)
    minutes, left = divmod(rest, 60)
    if hours:
        return f"{hours} h {minutes:02d} min"
    return f"{minutes} min {left:02d} s" if minutes else f"{left} s"


def metres_words(metres):
    if metres >= 100_000:
        return f"{metres / 1000:.0f} km"
    if metres >= 1000:
        return f"{metres / 1000:.2f} km"
    return f"{metres:.0f} m" if metres >= 10 else f"{metres:.1f} m"


def scale_words(metres):
    """The length of a scale bar, which is 1, 2 or 5 times a power of ten."""
    return f"{metres / 1000:g} km" if metres >= 1000 else f"{metres:g} m"


# Shapes

def style():
    """The style sheet: every colour twice, as not every program that shows SVG knows variables."""
    rules = ["text{font-family:system-ui,-apple-system,'Segoe UI',Roboto,'Helvetica Neue',Arial,sans-serif;font-size:14px}",
             ".title{font-size:26px;font-weight:650}.lead{font-size:17px}.head{font-size:16px;font-weight:600}.small{font-size:13px}.tiny{font-size:11.5px}",
             ".grid,.axis{stroke-width:1;fill:none}.track,.gap{fill:none;stroke-width:3;stroke-linejoin:round;stroke-linecap:round}",
             ".thin{stroke-width:1.8}.gap{stroke-width:1.6;stroke-dasharray:2 6}.tint{opacity:.13}.edge{stroke-width:2}",
             ".halo{paint-order:stroke;stroke-width:4;stroke-linejoin:round}"]
    colours = list(COLOURS) + [("halo", "stroke", "#f6f8fa", "#151b23")]
    for system, (_, _, light, dark) in SYSTEMS.items():
        colours += [(f"used{key(system)}", "fill", light, dark), (f"used{key(system)}", "stroke", light, dark),
                    (f"seen{key(system)}", "stroke", light, dark)]
    rules += [f".seen{key(system)}{{fill:none}}" for system in SYSTEMS]
    rules += [f".{name}{{{what}:{light}}}" for name, what, light, _ in colours]
    dark = "".join(f".{name}{{{what}:{value}}}" for name, what, _, value in colours)
    return "\n".join(rules) + "\n@media (prefers-color-scheme:dark){" + dark + "}"


def key(system):
    """The end of the name of a system's classes."""
    return system if system in SYSTEMS and system is not None else "x"


def text(x, y, content, classes="ink", anchor="start"):
    where = "" if anchor == "start" else f' text-anchor="{anchor}"'
    return f'<text class="{classes}" x="{x:.1f}" y="{y:.1f}"{where}>{clean(content)}</text>'


def line(x1, y1, x2, y2, classes):
    return f'<path class="{classes}" d="M{x1:.1f},{y1:.1f}L{x2:.1f},{y2:.1f}"/>'


def points(pixels):
    return "L".join(f"{x:.1f},{y:.1f}" for x, y in pixels)


def panel(box, heading):
    left, top, width, height = box
    return [f'<rect class="panel" x="{left}" y="{top}" width="{width}" height="{height}" rx="10"/>',
            text(left + 16, top + 27, heading, "ink head")]


def empty_note(box, words):
    left, top, width, height = box
    return text(left + width / 2, top + height / 2 + 5, words, "muted lead", "middle")


def shape(kind, x, y, size, classes):
    """A satellite's mark; the stroke is inside its class."""
    if kind == "circle":
        return f'<circle class="{classes}" cx="{x:.1f}" cy="{y:.1f}" r="{size}" stroke-width="2"/>'
    corners = " ".join(f"{x + dx * size:.1f},{y + dy * size:.1f}" for dx, dy in CORNERS[kind])
    return f'<polygon class="{classes}" points="{corners}" stroke-width="2" stroke-linejoin="round"/>'


def text_width(content, size=14):
    """A width that the text stays within in any usual font."""
    return len(content) * size * 0.62


def label_box(x, y, width, height, side, gap):
    """The box (left, top, right, bottom) of a label at one of eight sides of a mark."""
    dx, dy = side
    left = x - width / 2 + dx * (width / 2 + gap)
    top = y - height / 2 + dy * (height / 2 + gap)
    return left, top, left + width, top + height


SIDES = [(1, 0), (0, -1), (0, 1), (-1, 0), (1, -0.8), (1, 0.8), (-1, -0.8), (-1, 0.8)]


def overlap(one, other):
    """The area that two boxes have in common."""
    return max(min(one[2], other[2]) - max(one[0], other[0]), 0) * max(min(one[3], other[3]) - max(one[1], other[1]), 0)


def free_place(x, y, width, height, gaps, crowd, boxes, bounds):
    """The best of the boxes at eight sides of a mark: within bounds, over as little of other boxes and of the points of a crowd
    as can be, and near; and how bad it is. Below 1 it covers nothing."""
    def cost(box, gap):
        outside = max(bounds[0] - box[0], 0) + max(bounds[1] - box[1], 0) + max(box[2] - bounds[2], 0) + max(box[3] - bounds[3], 0)
        covered = sum(box[0] - 3 < px < box[2] + 3 and box[1] - 3 < py < box[3] + 3 for px, py in crowd)
        return 1000 * outside + 10 * sum(overlap(box, other) for other in boxes) + covered + gap / 100
    places = [(label_box(x, y, width, height, side, gap), gap) for gap in gaps for side in SIDES]
    best, gap = min(places, key=lambda place: cost(*place))
    return best, cost(best, gap)


def dense(pixels, gap=6.0):
    """Points along a line of pixels, none farther from the next than the gap and few of them nearer."""
    found = pixels[:1]
    for x, y in pixels[1:]:
        from_x, from_y = found[-1]
        parts = math.floor(math.hypot(x - from_x, y - from_y) / gap)
        found += [(from_x + (x - from_x) * k / parts, from_y + (y - from_y) * k / parts) for k in range(1, parts + 1)]
    return found


def thinned(pixels):
    """The line with at most its first, lowest, highest and last point in each column of one pixel."""
    columns = {}
    for place in pixels:
        columns.setdefault(int(place[0]), []).append(place)
    found = []
    for column in columns.values():
        levels = [y for _, y in column]
        keep = {0, levels.index(min(levels)), levels.index(max(levels)), len(column) - 1}
        found += [column[number] for number in sorted(keep)]
    return found


def nice_step(least):
    """The smallest of 1, 2 and 5 times a power of ten that is at least this."""
    power = 10.0 ** math.floor(math.log10(least))
    return next((m * power for m in (1, 2, 5) if m * power >= least * (1 - 1e-9)), 10 * power)
