"""Points as twelve words and their counts (docs/LIST.md), and what number 8 asks of them.

A level is a scale + 10; a row starts, in bins, at its lowest index + 2^(level + 1). The kind of an i64 point is 2 above that of an f64 one.
"""

from bits import GREATEST, SIGN, index, is_finite, to_bits, to_float
from points import ExplicitPoint, ExponentialPoint
from reference import rising

TOP = 20  # the level of scale 10
KINDS = [("e", "f"), ("x", "f"), ("e", "i"), ("x", "i")]


def bias(level):
    return 2 << level % 32


def words_of_set(attributes):
    words = [key * 2**32 + value for key, value in attributes]
    return words + [0] * (8 - len(words)) + [len(words)]


def set_of_words(words):
    return tuple(divmod(word, 2**32) for word in words[: words[8]])


def is_explicit(words):
    return words[0] in (1, 3)


def lengths(words):
    """The counts of a point in the two stores."""
    return (words[5] + 1 if words[5] else 0, 0) if is_explicit(words) else (words[5], words[7])


def is_point(words):
    kind, _, zeros, level, start, _, second, length, flags, low, high, total = words
    explicit = is_explicit(words)
    if kind >= len(KINDS) or flags > 3 or max(level, 0 if explicit else max(start, second)) >= 2**32:
        return False
    if explicit and (zeros or level or second or length):
        return False
    if flags < 2 and (low or high):
        return False
    return all(word_of(number_of(w, KINDS[kind][1])) == w for w in (low, high, total))


def word_of(number):
    """The bits of an f64, every NaN as the one, or of an i64, two's complement."""
    return to_bits(number) if isinstance(number, float) else number % 2**64


def number_of(word, kind):
    """The f64 or the i64 of a word."""
    return to_float(word) if kind == "f" else (word ^ SIGN) - SIGN


def held_words(extremes, sum_, switch):
    """Flags, minimum, maximum and sum; extremes are a pair or None."""
    flags = (1 if switch else 0) + (2 if extremes else 0)
    return [flags, *map(word_of, extremes or (0, 0)), word_of(sum_)]


def encoded(point, start=0):
    """A point's words and counts; the bounds of an explicit one lie from `start` on."""
    extremes = None if point.min is None else (point.min, point.max)
    held, kind = held_words(extremes, point.sum, point.switch), KINDS.index((point.kind, point.number))
    if point.kind == "x":
        return [kind, point.count, 0, 0, start, len(point.bounds), 0, 0, *held], (point.buckets, ())
    level = point.scale + 10
    rows = [[offset + bias(level) if counts else 0, len(counts)] for offset, counts in (point.positive, point.negative)]
    return [kind, point.count, point.zeros, level, *rows[0], *rows[1], *held], (point.positive[1], point.negative[1])


def decoded(words, attributes, rows, bounds):
    """The point of words that are one's, with its counts in the two stores and what bounds there are."""
    kind, number = KINDS[words[0]]
    extremes = [number_of(w, number) if words[8] & 2 else None for w in words[9:11]]
    held, switch = (*extremes, number_of(words[11], number)), bool(words[8] & 1)
    if kind == "x":
        return ExplicitPoint(attributes, number, switch, words[1], *held, rows[0], tuple(map(to_bits, bounds[: words[5]])))
    both = [(start - bias(words[3]) if counts else 0, counts) for start, counts in zip((words[4], words[6]), rows)]
    return ExponentialPoint(attributes, number, switch, 0.0, words[1], words[2], words[3] - 10, *held, *both)


# Agreement.


def extremes_agree(low, high):
    """Finite, both or neither: of a series, which holds numbers, and of a point. Every i64 is finite."""
    return (low is None) == (high is None) and all(is_finite(to_bits(x)) for x in (low, high) if isinstance(x, float))


def shown_agrees(point):
    """Of a point also: there just where the switch is on and the count is not 0 (request L4)."""
    due = point.switch and point.count > 0
    return extremes_agree(point.min, point.max) and (point.min is not None) == due


def row_agrees(start, counts, level, size):
    if not counts:
        return start == 0
    low, scale = start - bias(level), level - 10
    inside = index(1, scale) <= low and low + len(counts) - 1 <= index(GREATEST, scale)
    return inside and len(counts) <= size and counts[0] > 0 and counts[-1] > 0


def buckets_agree(count, buckets, bounds):
    """Bounds are bits."""
    return rising(bounds, 159) and (not bounds or sum(buckets) == count)


def rows_agree(figures, rows, size, top):
    """Figures are count, zero count, level, then start and length of either row."""
    count, zeros, level, *spans = figures
    if level > top or not all(row_agrees(start, counts, level, size) for start, counts in zip(spans[::2], rows)):
        return False
    return count == zeros + sum(map(sum, rows))


def point_agrees(point, words, size):
    """What number 8 asks of a point in a merge."""
    if not shown_agrees(point):
        return False
    if point.kind == "x":
        return buckets_agree(point.count, point.buckets, point.bounds)
    return rows_agree(words[1:8], (point.positive[1], point.negative[1]), size, TOP)
