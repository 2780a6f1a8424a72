"""The picture that track.py draws: one SVG of 960 by 832 pixels, with its colours for light and for dark inside it.

`draw` makes it of the fixes and the last sky of one device. Lengths are pixels unless a name says metres.
"""
import math

from track_marks import (
    SYSTEMS, clean, clock_words, date_words, dense, duration_words, empty_note, free_place, key, line, metres_words, nice_step,
    panel, points, scale_words, shape, shortened, style, text, text_width, thinned)
from track_lines import GAP, segments

WIDTH, HEIGHT, MARGIN = 960, 832, 28
TRACK_BOX = (MARGIN, 96, 572, 420)  # left, top, width, height
SKY_BOX = (620, 96, 312, 420)
SPEED_BOX = (MARGIN, 532, 904, 126)
HEIGHT_BOX = (MARGIN, 670, 904, 150)

EQUATOR_RADIUS, ECCENTRICITY_SQUARED = 6_378_137.0, 0.00669437999014  # of WGS 84, metres
SMALLEST_VIEW = 10.0  # metres across the track's picture at least, so that noise does not look like a drive

TIME_STEPS = [1, 2, 5, 10, 15, 30, 60, 120, 300, 600, 900, 1800, 3600, 7200, 10800, 21600, 43200, 86400]


def draw(device, fixes, sky, wanted=None, gap=GAP):
    """The whole SVG as a text. `wanted` is its title, if that is not device and date; after `gap` seconds without a position the track is
    cut."""
    title, about = title_of(device, fixes)
    title = shortened(wanted, 60) if wanted else title
    parts = [
        f'<svg xmlns="http://www.w3.org/2000/svg" viewBox="0 0 {WIDTH} {HEIGHT}" width="{WIDTH}" height="{HEIGHT}" '
        'role="img" aria-labelledby="title about">',
        f"<title id=\"title\">{clean(title)}</title><desc id=\"about\">{clean(about)}</desc>",
        f"<style>{style()}</style>",
        f'<rect class="paper" width="{WIDTH}" height="{HEIGHT}" rx="10"/>',
        text(MARGIN, 48, title, "ink title"), text(MARGIN, 76, about, "muted lead"),
        *track_panel(fixes, gap), *sky_panel(sky), *strips(fixes, gap), "</svg>\n",
    ]
    return "\n".join(parts)


def title_of(device, fixes):
    """The two lines at the top: device and date; then from when to when, duration, distance and number of fixes."""
    name = shortened(device) or "No device"
    placed = [fix for fix in fixes if fix.has_place]
    times = [fix.time for fix in placed or fixes if fix.time is not None]
    title = f"{name}, {date_words(times[0])}" if times else name
    if not placed:
        return title, "No fix: no line tells a position." if fixes else "No fix: there are no fixes in these lines."
    about = [f"{metres_words(distance(placed))}", f"{len(placed):,} fix{'es' if len(placed) > 1 else ''}"]
    if times:
        first, last = min(times), max(times)
        about[:0] = [f"{clock_words(first)} to {clock_words(last)} UTC", duration_words(last - first)]
    return title, "  ·  ".join(about)


# Geometry

def radii(lat):
    """Metres a radian towards north and towards east at a latitude, on the ellipsoid of WGS 84."""
    phi = math.radians(lat)
    flat = 1 - ECCENTRICITY_SQUARED * math.sin(phi) ** 2
    return EQUATOR_RADIUS * (1 - ECCENTRICITY_SQUARED) / flat ** 1.5, EQUATOR_RADIUS / math.sqrt(flat) * math.cos(phi)


def turn(degrees):
    """A difference of longitudes within -180 and 180 degrees."""
    return (degrees + 180) % 360 - 180


def step_metres(one, other):
    """The distance of two near fixes, in metres."""
    north, east = radii((one.lat + other.lat) / 2)
    return math.hypot(math.radians(other.lat - one.lat) * north, math.radians(turn(other.lon - one.lon)) * east)


def distance(placed):
    """The way along all fixes, in metres; straight on if there was no fix for a while."""
    return sum(step_metres(one, other) for one, other in zip(placed, placed[1:]))


class Plan:
    """The local projection of fixes into a box: equal metres a pixel both ways, north up."""

    def __init__(self, placed, box):
        self.first = placed[0]
        self.north, self.east = radii((min(f.lat for f in placed) + max(f.lat for f in placed)) / 2)
        metres = [self.metres(fix) for fix in placed]
        xs, ys = [x for x, _ in metres], [y for _, y in metres]
        self.left, self.top, self.width, self.height = box
        self.centre = ((min(xs) + max(xs)) / 2, (min(ys) + max(ys)) / 2)
        across, along = max(max(xs) - min(xs), SMALLEST_VIEW), max(max(ys) - min(ys), SMALLEST_VIEW)
        self.scale = min(self.width / across, self.height / along)  # pixels a metre

    def metres(self, fix):
        return (math.radians(turn(fix.lon - self.first.lon)) * self.east, math.radians(fix.lat - self.first.lat) * self.north)

    def place(self, x, y):
        """The pixel of a place that is x metres east and y metres north of the first fix."""
        return (self.left + self.width / 2 + (x - self.centre[0]) * self.scale,
                self.top + self.height / 2 - (y - self.centre[1]) * self.scale)

    def pixel(self, fix):
        return self.place(*self.metres(fix))


# The track

def track_panel(fixes, gap):
    left, top, width, height = TRACK_BOX
    parts = panel(TRACK_BOX, "Track")
    placed = [fix for fix in fixes if fix.has_place]
    if not placed:
        return parts + [empty_note(TRACK_BOX, "No fix")]
    view = (left + 1, top + 40, width - 2, height - 84)
    plan = Plan(placed, (view[0] + 30, view[1] + 26, view[2] - 60, view[3] - 52))
    square = nice_step(70 / plan.scale)
    return (parts + grid(plan, view, square) + track_lines(plan, fixes, gap) + ends(plan, placed, view)
            + north_arrow(left + width - 26, top + 21) + scale_bar(plan, square, left + 16, top + height - 16)
            + [text(left + width - 16, top + height - 16, "Start at " + place_words(placed[0]), "muted small", "end")])


def place_words(fix):
    return f"{abs(fix.lat):.5f}° {'N' if fix.lat >= 0 else 'S'}, {abs(fix.lon):.5f}° {'E' if fix.lon >= 0 else 'W'}"


def grid(plan, view, square):
    """Lines each `square` metres north and east from the start on, and the view's own edges."""
    left, top, width, height = view
    start_x, start_y = plan.place(0, 0)
    pixels = square * plan.scale
    found = [line(left, top, left + width, top, "grid"), line(left, top + height, left + width, top + height, "grid")]
    for k in range(math.ceil((left - start_x) / pixels), math.floor((left + width - start_x) / pixels) + 1):
        found.append(line(start_x + k * pixels, top, start_x + k * pixels, top + height, "grid"))
    for k in range(math.ceil((top - start_y) / pixels), math.floor((top + height - start_y) / pixels) + 1):
        found.append(line(left, start_y + k * pixels, left + width, start_y + k * pixels, "grid"))
    return found


def track_lines(plan, fixes, gap):
    """One path with a point for each fix that has a position; and another, dotted, over the times without one."""
    runs = [[plan.pixel(fix) for fix in run] for run in segments(fixes, gap)]
    whole = "".join("M" + points(run) + ("Z" if len(run) == 1 else "") for run in runs)
    gaps = "".join("M" + points([one[-1], other[0]]) for one, other in zip(runs, runs[1:]))
    found = [f'<path id="track" class="track" d="{whole}"/>']
    return ([f'<path id="gaps" class="gap" d="{gaps}"/>'] if gaps else []) + found


def ends(plan, placed, view):
    """The marks and labels of the first and the last fix."""
    pixels = [plan.pixel(fix) for fix in placed]
    (sx, sy), (ex, ey) = pixels[0], pixels[-1]
    together = math.dist(pixels[0], pixels[-1]) < 8  # then the start's mark is a ring round that of the end
    marks = [f'<circle class="start edge" cx="{sx:.1f}" cy="{sy:.1f}" r="{13 if together and len(placed) > 1 else 8}"/>',
             f'<rect class="end edge" x="{ex - 7.5:.1f}" y="{ey - 7.5:.1f}" width="15" height="15" rx="2"/>']
    words = [(sx, sy, "Start", placed[0]), (ex, ey, "End", placed[-1])]
    if len(placed) == 1:
        words, marks = [(sx, sy, "The only fix", placed[0])], marks[:1]
    bounds = (view[0] + 6, view[1] + 6, view[0] + view[2] - 6, view[1] + view[3] - 6)
    crowd, boxes = dense(pixels), [(x - 9, y - 9, x + 9, y + 9) for x, y in (pixels[0], pixels[-1])]
    for x, y, word, fix in words:
        label = word if fix.time is None else f"{word} {clock_words(fix.time)}"
        box, _ = free_place(x, y, text_width(label), 18, [13], crowd, boxes, bounds)
        boxes.append(box)
        marks.append(text((box[0] + box[2]) / 2, box[3] - 4, label, "ink halo", "middle"))
    return marks


def north_arrow(x, y):
    return [f'<polygon class="muted" points="{x},{y - 12} {x + 6.5},{y + 5} {x},{y + 1} {x - 6.5},{y + 5}"/>',
            text(x - 14, y + 5, "N", "muted head", "end")]


def scale_bar(plan, square, x, y):
    length = square * plan.scale
    return [f'<path class="axis thin" d="M{x:.1f},{y - 10:.1f}v8h{length:.1f}v-8"/>',
            text(x + length + 10, y, scale_words(square), "ink")]


# The sky

def sky_panel(sky):
    left, top, width, height = SKY_BOX
    parts = panel(SKY_BOX, "Last sky")
    if sky is None or not sky.satellites:
        return parts + [empty_note(SKY_BOX, "No satellites")]
    used = f"{sum(satellite.used for satellite in sky.satellites)} of {len(sky.satellites)} used"
    dilution = "" if sky.hdop is None else f"HDOP {sky.hdop:.2f}, "
    parts.append(text(left + width - 16, top + 27, dilution + used, "muted", "end"))
    entries, legend_top = legend(sky)
    above, below = top + 58, legend_top - 34  # where the horizon may begin and end
    radius = min(124, (below - above) / 2)
    middle = (left + width / 2, (above + below) / 2, radius)
    return parts + satellites(sky, *middle) + entries


def rings(x, y, radius):
    """The horizon, the rings of 30 and 60 degrees and the quarters of the sky; and the boxes of their letters."""
    found = [f'<circle class="grid" cx="{x}" cy="{y:.1f}" r="{radius * part / 3:.1f}"/>' for part in (1, 2)]
    found += [f'<circle class="axis" cx="{x}" cy="{y:.1f}" r="{radius:.1f}"/>', line(x - radius, y, x + radius, y, "grid"),
              line(x, y - radius, x, y + radius, "grid")]
    letters = [("N", x, y - radius - 7), ("S", x, y + radius + 18), ("E", x + radius + 14, y + 5), ("W", x - radius - 14, y + 5)]
    return (found + [text(at_x, at_y, letter, "muted", "middle") for letter, at_x, at_y in letters],
            [(at_x - 7, at_y - 12, at_x + 7, at_y + 2) for _, at_x, at_y in letters])


def ring_labels(x, y, radius, spots):
    """The elevations of the two inner rings, where the fewest satellites are near; and their boxes."""
    def places(angle):
        return [(x + radius * part / 3 * math.sin(angle), y - radius * part / 3 * math.cos(angle)) for part in (1, 2)]

    def room(angle):
        return min((math.dist(place, spot) for place in places(angle) for spot in spots), default=0)
    best = max((math.radians(15 + 30 * k) for k in range(12)), key=room)
    found = [text(px, py + 4.5, f"{90 - 30 * part}°", "muted small halo", "middle") for part, (px, py) in enumerate(places(best), 1)]
    return found, [(px - 13, py - 8, px + 13, py + 8) for px, py in places(best)]


def sky_place(satellite, x, y, radius):
    """The pixel of a satellite: the zenith is the middle, the horizon the circle, and north is up."""
    out = radius * (90 - max(satellite.elevation, 0)) / 90
    angle = math.radians(satellite.azimuth)
    return x + out * math.sin(angle), y - out * math.cos(angle)


def satellites(sky, x, y, radius):
    """The plot: a mark for each satellite, filled if it is used, and its PRN beside it."""
    placed = [satellite for satellite in sky.satellites if satellite.has_place]
    spots = [sky_place(satellite, x, y, radius) for satellite in placed]
    circles, letter_boxes = rings(x, y, radius)
    elevations, elevation_boxes = ring_labels(x, y, radius, spots)
    boxes = letter_boxes + elevation_boxes + [(px - 7, py - 7, px + 7, py + 7) for px, py in spots]
    bounds = (SKY_BOX[0] + 4, SKY_BOX[1] + 34, SKY_BOX[0] + SKY_BOX[2] - 4, y + radius + 24)
    marks = [shape(SYSTEMS.get(satellite.system, SYSTEMS[None])[1], px, py, 6, f"{'used' if satellite.used else 'seen'}{key(satellite.system)}")
             for satellite, (px, py) in zip(placed, spots)]
    labels = prn_labels(sorted(zip(placed, spots), key=lambda pair: not pair[0].used), boxes, bounds)
    return [*circles, *elevations, *labels, '<g id="satellites">', *marks, "</g>"]


def prn_labels(placed, boxes, bounds):
    """The PRN beside each mark. In a crowd one that would cover another or a mark is left out."""
    size, found = (13, []) if len(placed) <= 20 else (11.5, [])
    for satellite, (x, y) in placed:
        label = str(satellite.prn)
        box, cost = free_place(x, y, text_width(label, size) + 2, size - 2, [8, 12], [], boxes, bounds)
        if cost < 200:
            boxes.append(box)
            found.append(text((box[0] + box[2]) / 2, box[3] - 1, label, f"ink halo {'small' if size == 13 else 'tiny'}", "middle"))
    return found


def legend(sky):
    """One entry for each system that is seen, and what filled and hollow marks mean; and the top of it all."""
    left, bottom = SKY_BOX[0] + 24, SKY_BOX[1] + SKY_BOX[3] - 18
    systems = [system for system in SYSTEMS if any(key(satellite.system) == key(system) for satellite in sky.satellites)]
    rows = (len(systems) + 1) // 2
    top = bottom - 22 * rows - 14
    missing = sum(not satellite.has_place for satellite in sky.satellites)
    found = [text(SKY_BOX[0] + 16, bottom, "Filled: used, hollow: seen", "muted small")]
    if missing:
        found.append(text(SKY_BOX[0] + SKY_BOX[2] - 16, bottom, f"not placed: {missing}", "muted small", "end"))
    for number, system in enumerate(systems):
        name, kind, _, _ = SYSTEMS[system]
        mine = [satellite for satellite in sky.satellites if key(satellite.system) == key(system)]
        x, y = left + 150 * (number // rows), top + 14 + 22 * (number % rows)
        found += [shape(kind, x, y - 5, 6, f"used{key(system)}"),
                  text(x + 14, y, f"{name} {sum(satellite.used for satellite in mine)} of {len(mine)}", "ink")]
    return found, top


# The strips

class Axis:
    """The axis of time of both strips: the seconds of the fixes, or their numbers if no line tells a time."""

    def __init__(self, fixes, left, width):
        self.timed = any(fix.time is not None for fix in fixes)
        values = [fix.time for fix in fixes if fix.time is not None] if self.timed else range(len(fixes))
        self.first, self.last = min(values), max(max(values), min(values) + 1)
        self.left, self.width = left, width

    def place(self, value):
        return self.left + (value - self.first) / (self.last - self.first) * self.width

    def ticks(self):
        """The places and words of at most nine ticks."""
        least = (self.last - self.first) / 8
        step = next((s for s in TIME_STEPS if s >= least), 86400 * math.ceil(least / 86400)) if self.timed else max(nice_step(least), 1)
        form = "%H:%M:%S" if step < 60 else "%H:%M" if step < 86400 else "%Y-%m-%d"
        at = math.ceil(self.first / step) * step
        while at <= self.last:
            yield self.place(at), clock_words(at, form) if self.timed else f"{at:.0f}"
            at += step


def strips(fixes, gap):
    if not any(fix.has_place for fix in fixes):
        return [*panel(SPEED_BOX, "Speed"), empty_note(SPEED_BOX, "No fix"), *panel(HEIGHT_BOX, "Height"), empty_note(HEIGHT_BOX, "No fix")]
    axis = Axis(fixes, MARGIN + 64, SPEED_BOX[2] - 96)
    over_sea = any(fix.msl is not None for fix in fixes)
    speeds = samples(fixes, axis, [None if fix.speed is None else fix.speed * 3.6 for fix in fixes], gap)
    heights = samples(fixes, axis, [fix.msl if over_sea else fix.hae for fix in fixes], gap)
    lost = lost_times(fixes, axis, gap)
    return (strip(SPEED_BOX, axis, "Speed", "km/h", speeds, lost, floor=0, least=5)
            + strip(HEIGHT_BOX, axis, f"Height above the {'sea' if over_sea else 'ellipsoid'}", "m", heights, lost, with_times=True))


def samples(fixes, axis, values, gap):
    """Runs of (time, value) of fixes that follow each other with a position and a value; time goes on in each, by at most a gap."""
    runs, open_run, longest = [], False, gap if axis.timed else math.inf
    for number, (fix, value) in enumerate(zip(fixes, values)):
        at = fix.time if axis.timed else number
        if not fix.has_place or value is None or at is None:
            open_run = False
            continue
        if not open_run or not 0 <= at - runs[-1][-1][0] <= longest:
            runs.append([])
        runs[-1].append((at, value))
        open_run = True
    return runs


def lost_times(fixes, axis, gap):
    """The times (from, to) over which lines tell no position, or no line tells one for longer than a gap."""
    found, since, last, longest = [], None, math.inf, gap if axis.timed else math.inf
    for number, fix in enumerate(fixes):
        at = fix.time if axis.timed else number
        if at is None:
            continue
        if not fix.has_place:
            since = at if since is None else since
            continue
        begun = last if since is None and at - last > longest else since
        if begun is not None and at > begun:
            found.append((begun, at))
        since, last = None, at
    return found if since is None or since >= axis.last else [*found, (since, axis.last)]


def value_range(values, floor, least):
    """The ends and the step of an axis that holds the values and is at least `least` long, with two to four steps."""
    low, high = (min(values) if floor is None else floor), max(values)
    if high - low < least:
        low, high = (low, low + least) if floor is not None else ((low + high - least) / 2, (low + high + least) / 2)
    step = nice_step((high - low) / 3)
    return math.floor(low / step) * step, math.ceil(high / step) * step, step


def strip(box, axis, heading, unit, runs, lost, floor=None, least=8, with_times=False):
    """One value over time. `floor` is the lower end of its axis if that is fixed, `least` the smallest length of its axis."""
    left, top, width, height = box
    parts = panel(box, f"{heading}, {unit}")
    if not runs:
        return parts + [empty_note(box, "Not in these lines")]
    values = [value for run in runs for _, value in run]
    low, high, step = value_range(values, floor, least)
    bottom, tall = top + height - (40 if with_times else 16), height - (80 if with_times else 56)

    def level(value):
        return bottom - (value - low) / (high - low) * tall

    parts.append(text(left + width - 16, top + 27, f"{min(values):.1f} to {max(values):.1f} {unit}", "muted", "end"))
    for k in range(round((high - low) / step) + 1):
        parts += [line(axis.left, level(low + k * step), axis.left + axis.width, level(low + k * step), "axis" if k == 0 else "grid"),
                  text(axis.left - 8, level(low + k * step) + 4.5, f"{low + k * step:g}", "muted small", "end")]
    parts += lost_bands(lost, axis, bottom - tall, bottom - 0.5)
    for x, words in axis.ticks():
        parts.append(line(x, bottom, x, bottom + 5, "axis"))
        if with_times:
            parts.append(text(x, bottom + 21, words, "muted small", "middle"))
    for run in runs:
        parts += strip_line(thinned([(axis.place(at), level(value)) for at, value in run]), bottom if floor is not None else None)
    return parts


def strip_line(pixels, bottom):
    """The line of one run, with a tint down to the bottom if that is given."""
    ended = "Z" if len(pixels) == 1 else ""
    found = [f'<path class="track thin" d="M{points(pixels)}{ended}"/>']
    if bottom is not None:
        found.insert(0, f'<path class="tint" d="M{pixels[0][0]:.1f},{bottom:.1f}L{points(pixels)}V{bottom:.1f}Z"/>')
    return found


def lost_bands(lost, axis, top, bottom):
    """A grey band over each time without a fix, with a word if there is room for it."""
    found = []
    for since, until in lost:
        x, width = axis.place(since), axis.place(until) - axis.place(since)
        found.append(f'<rect class="lost" x="{x:.1f}" y="{top}" width="{width:.1f}" height="{bottom - top}"/>')
        if width > 44:
            found.append(text(x + width / 2, (top + bottom) / 2 + 4, "no fix", "muted small", "middle"))
    return found
