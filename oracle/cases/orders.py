"""Document 01's orders of refusals, every pair of numbers: a call to which both apply answers the earlier, without that the later, and
without either it is accepted."""

from itertools import combinations

from cases.lines import MOST, NAN, NINE, bits_of

# Lines that make a number apply, and that undo it. The map holds one set, in slot 1, with a binding and the value 1.0. A sum or last value has
# no count that could be full, so that 9 is a new set's when the birth numbers are spent; and any f64 may be a sum.
SHORT = ["m 0 0"], ["m - -"]
DIRECTORY = ["d o 0 0 7"], ["d o 0 0 1"]
FULL = {
    "e": ([f"d f 1 0 {MOST}", f"d f 1 1 {MOST - 1}"], ["d f 1 0 1", "d f 1 1 0"]),
    "x": ([f"d t 1 0 {MOST}", f"d p 4 0 {MOST}"], ["d t 1 0 1", "d p 4 0 1"]),
}
SERIES = {
    "e": (["d f 1 2 21"], ["d f 1 2 20"]),
    "x": (["d p 3 0 5"], ["d p 3 0 0"]),
    "l": ([f"d l 1 0 {NAN:016X}"], ["d l 1 0 3FF0000000000000"]),
}
UNBOUND = ["d e 1 1 0"], ["d e 1 1 1"]
BOUND_FULL = [f"d e 1 1 {MOST}"], ["d e 1 1 1"]
SPENT = [f"d v 0 2 {MOST}"], ["d v 0 2 1"]
ARGUMENT = [], []  # said in the call itself


def recording(active):
    return [f"r {'7FF0000000000000' if 6 in active else '3FF0000000000000'} {NINE if 5 in active else '1:1'}"]


def recording_single(active):
    return recording(active) if 5 in active or 9 not in active else [line.replace("1:1", "1:9") for line in recording(active)]


def by_handle(active):
    return [f"h 0 {'7FF0000000000000' if 6 in active else '3FF0000000000000'}"]


def binding(active):
    return [f"b 1 {NINE if 5 in active else '1:1'}"]


def releasing(_active):
    return ["u 0"]


def collecting(active):
    return [f"c 5 {0 if 10 in active else '-'} -"]


def map_calls(kind):
    """Each call of the map with its numbers in order."""
    full = {9: FULL[kind]} if kind in FULL else {}
    if full:
        yield "recording", recording, {12: SHORT, 6: ARGUMENT, 5: ARGUMENT, 8: DIRECTORY} | full
    else:
        yield "recording", recording_single, {12: SHORT, 6: ARGUMENT, 5: ARGUMENT, 8: DIRECTORY, 9: SPENT}
    if kind in SERIES:
        yield "recording_series", recording, {12: SHORT, 6: ARGUMENT, 5: ARGUMENT, 8: SERIES[kind]} | full
    yield "by_handle", by_handle, {12: SHORT, 6: ARGUMENT, 8: DIRECTORY, 7: UNBOUND} | full
    yield "binding", binding, {12: SHORT, 5: ARGUMENT, 8: DIRECTORY, 9: BOUND_FULL}
    yield "releasing", releasing, {12: SHORT, 8: DIRECTORY, 7: UNBOUND}
    yield "collecting", collecting, {12: SHORT, 8: DIRECTORY, 10: ARGUMENT}
    if kind in SERIES:
        yield "collecting_series", collecting, {12: SHORT, 8: SERIES[kind], 10: ARGUMENT}


def tried(s, call, applies, numbers):
    """All apply, then all but the earliest, and so on, then none."""
    for number in numbers:
        s += applies[number][0]
    for place in range(len(numbers) + 1):
        s += call(numbers[place:])
        if place < len(numbers):
            s += applies[numbers[place]][1]


def maps(book):
    for kind in "exsl":
        for name, call, applies in map_calls(kind):
            for pair in combinations(applies, 2):
                if name.endswith("series") and 8 not in pair:
                    continue
                s = book.new(f"order_{name}_{kind}_{pair[0]}_{pair[1]}")
                s.filter(1)
                s.configure(kind)
                s.bind(0, "1:1")
                s.by(0, 1.0)
                tried(s, call, applies, pair)
                s.show()


def exponential(active):
    return [f"n e f {2 if 1 in active else 4} {11 if 2 in active else 10} - {63 if 4 in active else 2} d 1 1 0"]


def explicit(active):
    bounds = "4014000000000000,4014000000000000" if 3 in active else "4014000000000000"
    return [f"g {bounds}", f"n x f - - - {63 if 4 in active else 2} d 1 1 0"]


def single(active):
    return [f"n s f - - - {63 if 4 in active else 2} d 1 1 0"]


def configurings(book):
    for call, numbers in ((exponential, (1, 2, 4, 12)), (explicit, (3, 4, 12)), (single, (4, 12))):
        applies = dict.fromkeys(numbers, ARGUMENT) | {12: SHORT}
        for pair in combinations(numbers, 2):
            s = book.new(f"order_configuring_{call.__name__}_{pair[0]}_{pair[1]}")
            tried(s, call, applies, pair)
            s.record("-", 1.0)
            s.collect()


# Points 0 and 1 of the value 1; the explicit ones have it in bucket 1. Unlike: the second's switch off, and then it shows no extremes.
ONE = bits_of(1.0)
UNLIKE = ["d w 1 8 0", "d w 1 9 0", "d w 1 10 0"], ["d w 1 8 3", f"d w 1 9 {ONE}", f"d w 1 10 {ONE}"]
POINTS = {
    "e": {
        1: ARGUMENT,
        8: (["d w 0 3 21"], ["d w 0 3 20"]),
        11: UNLIKE,
        9: ([f"d w 0 1 {MOST}", f"d w 0 2 {MOST - 1}"], ["d w 0 1 1", "d w 0 2 0"]),
        10: ARGUMENT,
    },
    "x": {
        8: ([f"d B 0 0 {NAN:016X}"], ["d B 0 0 0000000000000000"]),
        11: UNLIKE,
        9: ([f"d w 0 1 {MOST}", f"d P 0 1 {MOST}"], ["d w 0 1 1", "d P 0 1 1"]),
        10: ARGUMENT,
    },
}


def merging(active):
    return [f"j 2 0 1 {2 if 1 in active else 160} {0 if 10 in active else '-'}"]


def merges(book):
    for kind, applies in POINTS.items():
        for pair in combinations(applies, 2):
            s = book.new(f"order_merging_{kind}_{pair[0]}_{pair[1]}")
            s.configure(kind)
            s.record("1:1", 1.0)
            s.record("2:1", 1.0)
            s.collect()
            s.keep(0, 1)
            tried(s, merging, applies, pair)


def write(book):
    maps(book)
    configurings(book)
    merges(book)
