"""The geometry of a picture: half-planes, what they leave of a polygon, and the part of the plane to show. Needs Python 3.8."""

import bisect
import itertools
import math
from dataclasses import dataclass

FEW_ROWS = 12  # up to here every row is named and shaded by itself
MOST_PAIRED = 60  # at most this many rows are paired for crossings
REACH = 1e6  # what lies this many times farther out than the typical boundary is left out of the view
ANSWER_REACH = 8  # an answer farther off than this many times the size of the rest is shown by an arrow
NOISE = 1e-9  # differences this small against the size of things come from rounding
NEARBY = 0.5  # crossings this near to the feasible corners, against their spread, are shown with them
MARGIN = 0.2  # free space on each side of what is shown, against its size
CLOSEST = 1e-5  # differences smaller than this against the coordinates are not shown, so that ticks stay short
LARGEST, SMALLEST = 1e300, 1e-300  # sizes kept clear of overflow and underflow
UNIT_SQUARE = [(0.0, 0.0), (1.0, 0.0), (1.0, 1.0), (0.0, 1.0)]


@dataclass
class HalfPlane:
    """The points with nx*x + ny*y <= distance; (nx, ny) has length 1, distance may be infinite."""

    number: int
    nx: float
    ny: float
    distance: float


@dataclass
class View:
    """The part of the plane that a picture shows."""

    left: float
    right: float
    bottom: float
    top: float

    def shares(self, x, y):
        """Where a point lies, from (0, 0) at the lower left corner to (1, 1) at the upper right."""
        return (x - self.left) / (self.right - self.left), (y - self.bottom) / (self.top - self.bottom)

    def cut(self, plane):
        """The half-plane in shares of this view, as a*u + b*v <= r with the larger of |a|, |b| equal to 1."""
        a = plane.nx * (self.right - self.left)
        b = plane.ny * (self.top - self.bottom)
        r = plane.distance - plane.nx * self.left - plane.ny * self.bottom
        size = max(abs(a), abs(b))
        return a / size, b / size, r / size


def half_plane(number, row, normalise):
    """The half-plane of a row, or else in words why it has no boundary."""
    a, b, c = row
    if not all(map(math.isfinite, row)):
        return None, "nan or inf"
    if a == 0 and b == 0:
        return None, "a = b = 0"
    squares = a * a + b * b
    if normalise and not 0 < squares < math.inf:
        return None, "normalised to zeros"
    size = max(abs(a), abs(b))  # divided out first, so that no length overflows or vanishes
    length = math.hypot(a / size, b / size)
    return HalfPlane(number, a / size / length, b / size / length, c / size / length), None


def clip(polygon, cut, slack=NOISE):
    """What a*u + b*v <= r + slack leaves of a convex polygon; the slack keeps a part as thin as rounding."""
    a, b, r = cut
    limit = r + slack
    # How far each corner lies on the wrong side.
    excess = [a * u + b * v - limit for u, v in polygon]
    if max(excess) <= 0:
        return polygon
    if min(excess) > 0:
        return []
    # The corners lost stand together around the one farthest out.
    count = len(polygon)
    first = last = excess.index(max(excess))
    while excess[first - 1] > 0:
        first -= 1
    while excess[(last + 1) % count] > 0:
        last += 1
    start = (last + 1) % count
    kept = (polygon[start:] + polygon[:start])[: count - (last - first + 1)]
    return kept + [edge_point(polygon, excess, first - 1, first), edge_point(polygon, excess, start, start - 1)]


def edge_point(polygon, excess, kept, lost):
    """The point without excess on the edge from a corner that is kept to one that is lost."""
    share = excess[kept] / (excess[kept] - excess[lost])
    (u, v), (other_u, other_v) = polygon[kept], polygon[lost]
    return u + share * (other_u - u), v + share * (other_v - v)


def clip_all(polygon, cuts, slack=NOISE):
    """What all the half-planes together leave of a convex polygon."""
    for cut in cuts:
        if not polygon:
            break
        polygon = clip(polygon, cut, slack)
    return polygon


def segment_in_box(start, end, box):
    """The part of a segment inside (left, low, right, high), or None."""
    enter, leave = 0.0, 1.0
    for axis in (0, 1):
        step = end[axis] - start[axis]
        low, high = box[axis] - start[axis], box[axis + 2] - start[axis]
        if step == 0:
            if low > 0 or high < 0:
                return None
            continue
        first, last = sorted((low / step, high / step))
        enter, leave = max(enter, first), min(leave, last)
    if enter > leave:
        return None
    across, up = end[0] - start[0], end[1] - start[1]
    return [(start[0] + share * across, start[1] + share * up) for share in (enter, leave)]


def boundary(cut):
    """The part of the line a*u + b*v = r inside the unit square, or None."""
    a, b, r = cut
    if not abs(r) <= 3:  # |a*u + b*v| is at most 2 inside
        return None
    nearest = r / (a * a + b * b)
    return segment_in_box(
        (nearest * a - 4 * b, nearest * b + 4 * a), (nearest * a + 4 * b, nearest * b - 4 * a), (0, 0, 1, 1)
    )


# The view


def typical_size(planes):
    """The distance from the origin that most boundaries share within the reach; of several, that nearest 1."""
    logs = sorted(math.log10(abs(p.distance)) for p in planes if 0 < abs(p.distance) < math.inf)
    reach = math.log10(REACH)

    def rank(log):
        near = bisect.bisect_right(logs, log + reach) - bisect.bisect_left(logs, log - reach)
        return near, -abs(log)

    size = 10 ** max(logs, key=rank) if logs else 1.0
    return min(max(size, SMALLEST), LARGEST)


def crossings(planes):
    """The points where boundaries cross, nearly parallel ones left out."""
    points = []
    for one, two in itertools.combinations(planes, 2):
        turn = one.nx * two.ny - one.ny * two.nx
        if abs(turn) > NOISE:
            x = (one.distance * two.ny - two.distance * one.ny) / turn
            y = (two.distance * one.nx - one.distance * two.nx) / turn
            points.append((x, y))
    return points


def feasible_corners(planes, size):
    """The corners of what all half-planes leave, as far as the reach."""
    far = REACH
    square = [(far * (2 * u - 1), far * (2 * v - 1)) for u, v in UNIT_SQUARE]
    corners = clip_all(square, ((p.nx, p.ny, p.distance / size) for p in planes), 0.0)
    return [(x * size, y * size) for x, y in corners if max(abs(x), abs(y)) < 0.999 * far]


def nearest_points(planes, x, y):
    """The point of each boundary that is nearest to (x, y)."""
    points = []
    for plane in planes:
        away = plane.distance - plane.nx * x - plane.ny * y
        points.append((x + away * plane.nx, y + away * plane.ny))
    return points


def usual_range(values):
    """From where to where most values lie, without those far out; None for no values."""
    if not values:
        return None
    values = sorted(values)
    centre = values[len(values) // 2]
    spreads = sorted(abs(v - centre) for v in values if abs(v - centre) > CLOSEST * max(abs(v), abs(centre)))
    if not spreads:
        return centre, centre
    limit = 6 * spreads[int(0.6 * len(spreads))]
    kept = [v for v in values if abs(v - centre) <= limit]
    return kept[0], kept[-1]


def range_about(corners, others):
    """The range of the feasible corners with what lies near them; of all values if corners tell no size."""
    span = usual_range(corners)
    if span is None or span[0] == span[1]:
        return usual_range(corners + others)
    room = NEARBY * (span[1] - span[0])
    kept = [v for v in others if span[0] - room <= v <= span[1] + room] + list(span)
    return min(kept), max(kept)


def other_points(planes, active, x, y):
    """Points besides the feasible corners: crossings, and where boundaries come nearest to (x, y)."""
    chosen = planes[:MOST_PAIRED] + [plane for plane in planes[MOST_PAIRED:] if plane.number in active]
    return crossings(chosen) + nearest_points(chosen, x, y)


def axis_values(points, axis, size):
    """One coordinate of each point within reach; what is as small as rounding is 0."""
    near = [point for point in points if all(abs(value) <= REACH * size for value in point)]
    return [without_noise(point[axis], size) for point in near]


def without_noise(value, size):
    """The value, or 0 where it is as small as rounding; None stays None."""
    return 0.0 if value is not None and abs(value) < NOISE * size else value


def with_answer(span, value, size):
    """The range, widened to hold the answer's coordinate unless that is far off or there is none."""
    low, high = span or (0.0, 0.0)
    reach = ANSWER_REACH * ((high - low) or size)
    if value is None or not low - reach <= value <= high + reach:
        return low, high
    return (min(low, value), max(high, value)) if span else (value, value)


def roomy(low, high, length):
    """A range of at least this length about the same middle, kept clear of overflow and of rounding."""
    low, high = (min(max(value, -LARGEST), LARGEST) for value in (low, high))
    length = max(length, CLOSEST * max(abs(low), abs(high)))
    more = max(0.0, length - (high - low)) / 2
    return low - more, high + more


def choose_view(planes, active, x, y, shape):
    """The view for these half-planes and the answer's coordinates, None where it has none.
    shape is the width of the picture over its height."""
    size = typical_size(planes)
    corners = feasible_corners(planes, size)
    x, y = without_noise(x, size), without_noise(y, size)

    def ranges_with(points):
        spans = (range_about(axis_values(corners, axis, size), axis_values(points, axis, size)) for axis in (0, 1))
        return [with_answer(span, value, size) for span, value in zip(spans, (x, y))]

    points = other_points(planes, active, 0.0, 0.0)
    ranges = ranges_with(points)
    if all(value is not None and low <= value <= high for value, (low, high) in zip((x, y), ranges)):
        ranges = ranges_with(points + nearest_points(planes[:MOST_PAIRED], x, y))
    return fit_shape(ranges, size, shape)


def fit_shape(ranges, size, shape):
    """The view of these two ranges with a margin. Sizes that differ little get one scale on both axes."""
    across, up = (high - low for low, high in ranges)
    if across == 0 and up == 0:
        across = up = size
    # Lengths in units of the height; an axis on which nothing differs takes the other's scale.
    if across == 0 or up == 0 or max(across / shape, up) <= 4 * min(across / shape, up):
        up = max(across / shape, up)
        across = up * shape
    grown = 1 + 2 * MARGIN
    left, right = roomy(*ranges[0], across * grown)
    bottom, top = roomy(*ranges[1], up * grown)
    return View(left, right, bottom, top)


def ticks(low, high, wanted):
    """Round numbers inside a range, about as many as wanted."""
    rough = (high - low) / wanted
    exponent = math.floor(math.log10(rough))
    # Of 1, 2, 5 and 10 the one that comes nearest to the wanted number of ticks.
    step = min((1, 2, 5, 10), key=lambda m: abs(math.log10(m) + exponent - math.log10(rough)))
    unit = float(f"{step}e{exponent}")
    counts = range(math.ceil(low / unit - NOISE), math.floor(high / unit + NOISE) + 1)
    return [float(f"{count * step}e{exponent}") for count in counts]
