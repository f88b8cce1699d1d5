"""One point of picture.py as a drawing in SVG: its axis, its bars, and what is told beside them."""

from dataclasses import dataclass
from decimal import ROUND_CEILING, ROUND_FLOOR, Decimal
from html import escape

from picture_points import Bin, round_step, shown

# In pixels.
WIDTH, HEIGHT = 1000, 246
LEFT, RIGHT = 130, 914  # of the axis; what lies beyond it is told outside
TOP, BASE = 58, 190
LEAST = 12  # a bar narrower than this can't carry its number
LETTER = 6.2  # the width of a letter


# ---- the axis


@dataclass(frozen=True)
class Axis:
    low: Decimal
    high: Decimal

    def at(self, x):
        return LEFT + float((min(max(x, self.low), self.high) - self.low) / (self.high - self.low)) * (RIGHT - LEFT)

    def least(self):
        """The millimetres of the narrowest bar."""
        return (self.high - self.low) * LEAST / (RIGHT - LEFT)

    def has(self, b):
        return self.low <= b.low and b.high <= self.high


def reach(point):
    """How far from zero the axis goes: to the outermost bound, unless all but a hundredth of the boards lie within 2/5 of that."""
    far = sorted((max(abs(b.low), abs(b.high)), b.count) for b in point.drawn())
    if not far:
        return None
    beyond = point.count // 100
    inner = len(far) - 1
    while inner > 0 and far[inner][1] <= beyond:
        beyond -= far[inner][1]
        inner -= 1
    return far[-1][0] if far[inner][0] * 5 > far[-1][0] * 2 else far[inner][0]


def axis_of(point, far):
    """Zero is in the middle where there are both signs, at the end where values of one sign are near it, and else not on the axis."""
    bins = point.drawn()
    below, above = any(b.low < 0 for b in bins), any(b.high > 0 for b in bins)
    if below and above:
        return Axis(-far, far)
    near = min(min(abs(b.low), abs(b.high)) for b in bins)
    margin = (far - near) / (1 if len(bins) == 1 else 10)
    ends = (near - margin, far + margin) if near > far / 2 and not point.zeros else (Decimal(0), far)
    return Axis(-ends[1], -ends[0]) if below else Axis(*ends)


def joined(side, least):
    """The bins of a side with neighbours joined until each is wide enough."""
    bars = []
    for b in side:
        if bars and bars[-1].width() < least:
            bars[-1] = bars[-1].join(b)
        else:
            bars.append(b)
    if len(bars) > 1 and bars[-1].width() < least:
        last = bars.pop()
        bars[-1] = bars[-1].join(last)
    return bars


def bars_on(point, axis):
    return [bar for side in point.sides for bar in joined([b for b in side if axis.has(b)], axis.least())]


def true_scale(point, far):
    """The axis to scale and its bars; None where it would hide over a quarter of the boards in bars of many buckets."""
    if far is None or not point.drawn():
        return None
    axis = axis_of(point, far)
    bars = bars_on(point, axis)
    hidden = sum(b.count for b in bars if b.hides(point.scale is not None))
    return None if 4 * hidden > point.count else (axis, bars)


def common_reach(points):
    """One reach for all points of a collection, so that blades compare at a glance, unless they differ much."""
    own = [far for far in map(reach, points) if far is not None]
    return max(own) if own and max(own) <= 4 * min(own) else None


# ---- drawing


def tag(name, text=None, **attributes):
    given = "".join(f' {key.rstrip("_").replace("_", "-")}="{escape(str(value))}"' for key, value in attributes.items())
    return f"<{name}{given}/>" if text is None else f"<{name}{given}>{text}</{name}>"


def px(number):
    return f"{number:.1f}"


def words(x, y, text, **attributes):
    return tag("text", escape(text), x=px(x), y=px(y), **attributes)


def line(x1, y1, x2, y2, kind):
    return tag("line", x1=px(x1), y1=px(y1), x2=px(x2), y2=px(y2), class_=kind)


def sign_of(b):
    return "below" if b.high <= 0 else "above" if b.low >= 0 else "across"


def bar(left, right, height, b, told):
    """One bar with its number: across where there is room, else upright."""
    top, middle, wide = BASE - height, (left + right) / 2, max(right - left, 3)
    parts = tag("title", escape(told))
    if b.count:
        tall = max(height, 2)
        parts += tag("rect", x=px(middle - wide / 2 + 0.5), y=px(BASE - tall), width=px(wide - 1), height=px(tall), class_=sign_of(b))
    number = str(b.count)
    if b.count and LETTER * len(number) + 2 <= max(right - left, LEAST):
        parts += words(middle, top - 4, number, class_="number", text_anchor="middle")
    elif b.count:
        parts += words(0, 0, number, class_="number", transform=f"translate({px(middle + 3.4)} {px(top - 4)}) rotate(-90)")
    return tag("g", parts)


def told_of(b):
    joined_ = f" ({b.buckets} buckets)" if b.buckets > 1 else ""
    return f"{b.text()}: {b.count} board{'' if b.count == 1 else 's'}{joined_}"


def grid(greatest, caption):
    """The lines behind the bars: some round numbers up to the greatest."""
    step = round_step(max(greatest, Decimal("1e-300")) / 2)
    parts, k = "", 1
    while k * step <= greatest * Decimal("1.01"):
        y = BASE - float(k * step / greatest) * (BASE - TOP)
        parts += line(LEFT, y, RIGHT, y, "grid") + words(LEFT - 6, y + 3.5, shown(k * step), text_anchor="end", class_="tick")
        k += 1
    return parts + words(LEFT - 6, BASE + 3.5, "0", text_anchor="end", class_="tick") + words(4, 12, caption, class_="caption")


def digits_for(bounds):
    """As many digits as tell the bounds apart."""
    return next((n for n in (4, 6, 9) if len({shown(x, n) for x in bounds}) == len(set(bounds))), 17)


def have_room(places):
    """Whether labels at these places stand apart."""
    ends = [(x - LETTER * len(text) / 2, x + LETTER * len(text) / 2) for x, text in places]
    return all(b[0] - a[1] > 6 for a, b in zip(ends, ends[1:]))


def ticks(axis, bars):
    """The bars' bounds where they have room, else round millimetres."""
    bounds = sorted({x for b in bars for x in (b.low, b.high)} | ({Decimal(0)} if axis.low <= 0 <= axis.high else set()))
    places = [(axis.at(x), shown(x, digits_for(bounds))) for x in bounds]
    if len(places) > 12 or not have_room(places):
        step = round_step((axis.high - axis.low) / 6)
        first = (axis.low / step).to_integral_value(ROUND_CEILING)
        last = (axis.high / step).to_integral_value(ROUND_FLOOR)
        places = [(axis.at(k * step), shown(k * step + 0)) for k in range(int(first), int(last) + 1)]
    parts = line(LEFT, BASE, RIGHT, BASE, "axis")
    for x, text in places:
        parts += line(x, BASE, x, BASE + 5, "axis") + words(x, BASE + 18, text, text_anchor="middle", class_="tick")
    return parts + words(RIGHT + 30, BASE + 18, "mm", class_="tick")


def beyond(point, axis):
    """What lies off the axis, in figures at its two edges."""
    parts = ""
    for x, off, inner, end, sign in (
        (4, [b for b in point.bins() if b.low < axis.low], max, point.least, "◂"),
        (RIGHT + 6, [b for b in point.bins() if b.high > axis.high], min, point.greatest, "▸"),
    ):
        count = sum(b.count for b in off)
        if count:
            edge = inner(b.high if inner is max else b.low for b in off if b.count)
            parts += tag("rect", x=x, y=BASE - 66, width=78, height=56, class_="beyond")
            parts += words(x + 39, BASE - 48, f"{sign} {count}", text_anchor="middle", class_="number")
            parts += words(x + 39, BASE - 34, f"beyond {shown(edge, 3)}", text_anchor="middle", class_="small")
            parts += words(x + 39, BASE - 20, "" if end is None else f"to {shown(end, 3)}", text_anchor="middle", class_="small")
    return parts


def zero_pin(point, x):
    if not point.zeros:
        return ""
    where = f"within ±{shown(point.threshold)}" if point.threshold else "at 0"
    return line(x, 17, x, BASE, "pin") + words(x, 13, f"{point.zeros} {where}", text_anchor="middle", class_="number")


def spread(point, axis):
    """Below the axis: from the least to the greatest, and the mean."""
    y, parts, mean = BASE + 32, "", point.mean()
    if point.count and point.least is not None:
        parts += line(axis.at(point.least), y, axis.at(point.greatest), y, "spread")
        ends = [axis.at(x) for x in (point.least, point.greatest) if axis.low <= x <= axis.high]
        parts += "".join(line(x, y - 4, x, y + 4, "spread") for x in ends)
    if mean is not None and axis.low <= mean <= axis.high:
        x = axis.at(mean)
        parts += tag("path", d=f"M{px(x)} {y - 6} l6 6 l-6 6 l-6 -6 z", class_="mean")
        parts += words(x, y + 17, f"mean {shown(mean, 3)}", text_anchor="middle", class_="small")
    return parts


def draw_true(point, axis, bars):
    """Area is boards. A side that is narrower than the narrowest bar is as high as if it were that wide, or it would dwarf the rest."""
    heights = [b.count / max(b.width(), axis.least()) for b in bars]
    greatest = max(heights, default=Decimal(0)) or Decimal(1)
    unit = max(round_step((axis.high - axis.low) / 20), round_step(2 / greatest))  # few boards: a unit in which there are some
    several = sum(b.count > 0 for b in bars) > 1  # the height of a lone bar tells nothing
    parts = grid(greatest * unit, f"boards per {shown(unit)} mm") if several else ""
    if axis.low < 0 < axis.high:
        parts += line(axis.at(Decimal(0)), TOP - 6, axis.at(Decimal(0)), BASE, "zero")
    for b, height in zip(bars, heights):
        parts += bar(axis.at(b.low), axis.at(b.high), float(height / greatest) * (BASE - TOP), b, told_of(b))
    return parts + ticks(axis, bars) + zero_pin(point, axis.at(Decimal(0))) + beyond(point, axis) + spread(point, axis)


def coarser(side, most):
    """As many neighbours joined, from the outermost on, as leave at most so many bars."""
    size = -(-len(side) // most) if side else 1
    groups = [side[i : i + size] for i in range(0, len(side), size)]
    return [Bin(min(b.low for b in g), max(b.high for b in g), sum(b.count for b in g), len(g)) for g in groups]


def even_places(point):
    """Each bar with its left and right edge, for bars of equal width; zero is in the middle where there are both signs."""
    if point.scale is None:
        bars = coarser(point.sides[0], (RIGHT - LEFT) // LEAST)
        wide = min((RIGHT - LEFT) / max(len(bars), 1), 80)
        return [(LEFT + i * wide, LEFT + (i + 1) * wide, b) for i, b in enumerate(bars)]
    middle, gap = (LEFT + RIGHT) / 2, 24
    half = (RIGHT - LEFT) / 2 - gap
    sides = [coarser(side, int(half // LEAST)) for side in point.sides]
    wide = min(half / max(1, *map(len, sides)), 80)
    below = [(middle - gap - (i + 1) * wide, middle - gap - i * wide, b) for i, b in enumerate(sides[0][::-1])]
    return below[::-1] + [(middle + gap + i * wide, middle + gap + (i + 1) * wide, b) for i, b in enumerate(sides[1][::-1])]


def even_ticks(places):
    """As many bounds as have room."""
    parts, free = line(LEFT, BASE, RIGHT, BASE, "axis"), 0
    edges = sorted({edge for left, right, b in places for edge in ((round(left, 3), b.low), (round(right, 3), b.high))})
    digits = digits_for([end for _, end in edges])
    for x, end in edges:
        text = shown(end, digits)
        if x - LETTER * len(text) / 2 > free:
            parts += line(x, BASE, x, BASE + 5, "axis") + words(x, BASE + 18, text, text_anchor="middle", class_="tick")
            free = x + LETTER * len(text) / 2 + 8
    return parts + words(RIGHT + 30, BASE + 18, "mm", class_="tick")


def draw_even(point):
    """Height is boards."""
    places = even_places(point)
    greatest = Decimal(max((b.count for _, _, b in places), default=0) or 1)
    most = max((b.buckets for _, _, b in places), default=1)
    parts = grid(greatest, f"boards in {'a bucket' if most == 1 else f'{most} buckets'}; every bucket drawn equally wide, not to scale")
    for left, right, b in places:
        parts += bar(left, right, float(b.count / greatest) * (BASE - TOP), b, told_of(b))
    return parts + even_ticks(places) + zero_pin(point, (LEFT + RIGHT) / 2)


def drawing(point, far):
    if not any(b.count for b in point.bins()):
        return ""
    scaled = true_scale(point, far or reach(point)) or (far and true_scale(point, reach(point)))
    parts = draw_true(point, *scaled) if scaled else draw_even(point)
    return tag("svg", parts, viewBox=f"0 0 {WIDTH} {HEIGHT}", width=WIDTH, height=HEIGHT, role="img", aria_label=point.title)
