#!/usr/bin/env python3
"""Plan files, and what the program `shadow` prints for each of them.

This program is made apart from the library and shares no code with it. It is
written from docs/PLAN-FILES.md (the files, the checks, the lines that are
printed) and from docs/SPECIFICATION.md (axes, directions, landed edges, weights,
kinds of value), and from nothing else. Part 1 says what `shadow` prints for
any input: straight from the definitions, every voxel with every cell, in exact
whole numbers. Part 2 makes several hundred inputs, some by hand and some by
chance from a fixed seed, and writes them as text, each with its answer.

    python3 tools/plan_files.py

makes all inputs and answers anew in memory, compares them with what lies in
crates/plan_files (`data/` and `stdout`), and names each file that differs, is
missing or is too many. It ends with status 1 if there is any, and else prints
`nothing differs`.

    python3 tools/plan_files.py --write

writes them, and removes the files of data/ that are not made.

`data/` holds three texts: `by-hand.txt` and `by-chance.txt`, with the inputs
and their answers, and `wrong.txt`, with a few whose answers there are wrong on
purpose. The first lines of each text tell its form. The program of
crates/plan_files answers every input by the library. `stdout` is what it must
print: of each text how many answers are as told there, and before that, for
each that is not, its name and the right answer.

Before anything else the program checks itself against the figures in the two
documents, and every case made by hand against what it was made to show. Where
one of these fails it ends with an error.
"""

import random
import re
import sys
from collections import namedtuple
from math import isqrt
from pathlib import Path

# ---------------------------------------------------------------------------
# Part 1: the answer to an input
# ---------------------------------------------------------------------------

R = 16384
SINES = (0, 1606, 3196, 4756, 6270, 7723, 9102, 10394, 11585, 12665, 13623,
         14449, 15137, 15679, 16069, 16305, 16384)

MOST_SOURCE = 2**24      # the greatest D
MOST_PANEL = 2**25       # the greatest F
MOST_EDGE = 4_194_304    # the greatest |edge|
MOST_EDGES = 513         # edges of one axis
MOST_DIRECTIONS = 1_024  # of a list; a file has two numbers for each
MOST_OFF = 32_768        # the most that c*c + s*s may differ from R*R
MOST_VIEWS = 1_024
MOST_SHOWN = 4_096       # voxels, and cells over all views, that `shadow` takes
LONGEST = 30_840         # bytes; of a longer input one byte more is read

# `directions` has c and s of each direction that a step can name.
Plan = namedtuple("Plan", "source panel x y z columns rows directions steps")


def cosine_and_sine(step):
    """c and s of a step of the turn table."""
    h, r = divmod(step, 16)
    up, down = SINES[r], SINES[16 - r]
    s, c = ((up, down), (down, -up), (-up, -down), (-down, up))[h]
    return c, s


TURN_TABLE = [cosine_and_sine(step) for step in range(64)]


class Refused(Exception):
    """A check that failed: its number, and the byte it is about."""

    def __init__(self, number, place):
        super().__init__(number, place)
        self.number = number
        self.place = place


class Reader:
    """Takes the sections of a file one after the other."""

    def __init__(self, data):
        self.data = data
        self.at = 0

    def section(self, least, most, unit=1):
        """The next section's numbers, and the place of the first of them.

        Their count has to be a multiple of `unit`.
        """
        count_at = self.at
        if len(self.data) < count_at + 4:
            raise Refused(1, count_at)
        count = int.from_bytes(self.data[count_at:count_at + 4], "little")
        if not least <= count <= most or count % unit > 0:
            raise Refused(2, count_at)
        first = count_at + 4
        whole = (len(self.data) - first) // 4
        if whole < count:
            raise Refused(1, first + 4 * whole)
        self.at = first + 4 * count
        return [self.number(first + 4 * i) for i in range(count)], first

    def number(self, place):
        """The signed number at a place."""
        return int.from_bytes(self.data[place:place + 4], "little", signed=True)


def refuse_first(number, first, faults, size=4):
    """Refuses at the first entry with a fault; entry 0 stands at `first`, and each has `size`."""
    for i, fault in enumerate(faults):
        if fault:
            raise Refused(number, first + size * i)


def read_distances(reader):
    """Section 1: D and F, and the place of D."""
    (source, panel), first = reader.section(2, 2)
    if not 1 <= source <= MOST_SOURCE:
        raise Refused(6, first)
    if not source <= panel <= MOST_PANEL:
        raise Refused(6, first + 4)
    return source, panel, first


def read_edges(reader):
    """One of sections 2 to 6: the edges, and the place of the first."""
    edges, first = reader.section(2, MOST_EDGES)
    refuse_first(5, first, [abs(edge) > MOST_EDGE for edge in edges])
    refuse_first(4, first, [i > 0 and edges[i] <= edges[i - 1] for i in range(len(edges))])
    return edges, first


def off_circle(c, s):
    """How much c*c + s*s differs from R*R."""
    return abs(c * c + s * s - R * R)


def read_directions(reader):
    """Section 7: the directions of the list, or those of the turn table where there is none."""
    numbers, first = reader.section(0, 2 * MOST_DIRECTIONS, unit=2)
    directions = list(zip(numbers[::2], numbers[1::2]))
    refuse_first(11, first, [off_circle(c, s) > MOST_OFF for c, s in directions], size=8)
    return directions or TURN_TABLE


def read_steps(reader, directions):
    """Section 8: the steps of the views."""
    steps, first = reader.section(0, MOST_VIEWS)
    refuse_first(9, first, [not 0 <= step < len(directions) for step in steps])
    return steps


def read_plan(reader):
    """Sections 1 to 8."""
    source, panel, source_at = read_distances(reader)
    x, _ = read_edges(reader)
    y, _ = read_edges(reader)
    z, _ = read_edges(reader)
    columns, columns_at = read_edges(reader)
    rows, _ = read_edges(reader)
    if source <= 2 * max(abs(edge) for edge in x + y):
        raise Refused(7, source_at)
    refuse_first(8, columns_at, [abs(edge) >= panel for edge in columns])
    directions = read_directions(reader)
    steps = read_steps(reader, directions)
    return Plan(source, panel, x, y, z, columns, rows, directions, steps)


def cells_along(edges):
    """The number of cells of an axis."""
    return len(edges) - 1


def voxels_of(plan):
    """The plan's number of voxels."""
    return cells_along(plan.x) * cells_along(plan.y) * cells_along(plan.z)


def places_of(plan):
    """The plan's number of cells over all its views."""
    return len(plan.steps) * cells_along(plan.rows) * cells_along(plan.columns)


def read_file(data):
    """The plan and the values of its voxels."""
    reader = Reader(data)
    plan = read_plan(reader)
    if voxels_of(plan) > MOST_SHOWN or places_of(plan) > MOST_SHOWN:
        raise Refused(10, reader.at)
    values, _ = reader.section(voxels_of(plan), voxels_of(plan))
    if reader.at < len(data):
        raise Refused(3, reader.at)
    return plan, values


def stretches(edges):
    """Each edge with the one after it."""
    return list(zip(edges, edges[1:]))


def overlap(one, other):
    """The overlap of two stretches, whose ends may stand in either order."""
    return max(0, min(max(one), max(other)) - max(min(one), min(other)))


def nearest(n, d):
    """The whole number nearest to n/d, and of two equally near ones that farther from zero."""
    size = (2 * abs(n) + abs(d)) // (2 * abs(d))
    return size if n * d >= 0 else -size


class View:
    """One view: its stretches between landed edges, and the weights."""

    def __init__(self, plan, step):
        c, s = plan.directions[step]
        self.slabs_of_y = abs(c) >= abs(s)
        if self.slabs_of_y:
            a, b, sign, slabs, cross = c, s, 1, plan.y, plan.x
        else:
            a, b, sign, slabs, cross = s, -c, -1, plan.x, plan.y
        d, f = plan.source, plan.panel
        sums = [sign * (p + q) for p, q in stretches(slabs)]
        self.u = [stretches([nearest(d * (2 * e * a + q * b), 2 * d * a - R * q) for e in cross])
                  for q in sums]
        self.w = [stretches([nearest(2 * d * a * z, 2 * d * a - R * q) for z in plan.z])
                  for q in sums]
        self.s = stretches([nearest(d * R * k, f * a - k * b) for k in plan.columns])
        self.t = [stretches([nearest(2 * d * a * g, 2 * f * a - (k + next_k) * b) for g in plan.rows])
                  for k, next_k in stretches(plan.columns)]

    def weight(self, voxel, cell):
        """The weight of voxel (i, j, l) and the cell of row m and column k."""
        i, j, l = voxel
        m, k = cell
        slab, across = (j, i) if self.slabs_of_y else (i, j)
        return overlap(self.u[slab][across], self.s[k]) * overlap(self.w[slab][l], self.t[k][m])


def as_count(number):
    """A whole number modulo 2^64, as a signed one."""
    return (number + 2**63) % 2**64 - 2**63


def voxels_in_order(plan):
    """All voxels (i, j, l) in the order of their places: x first, then y, then z."""
    return [(i, j, l)
            for l in range(cells_along(plan.z))
            for j in range(cells_along(plan.y))
            for i in range(cells_along(plan.x))]


def cells_in_order(plan):
    """All cells (m, k) of one view in the order of their places: row, then column."""
    return [(m, k)
            for m in range(cells_along(plan.rows))
            for k in range(cells_along(plan.columns))]


def seen_from(plan, values, step):
    """The value of each cell in a view from a step, and the voxels that it hits."""
    view, voxels = View(plan, step), voxels_in_order(plan)
    totals, hit = [], set()
    for cell in cells_in_order(plan):
        weights = [view.weight(voxel, cell) for voxel in voxels]
        totals.append(sum(value * weight for value, weight in zip(values, weights)))
        # Back as Reach: yes times any weight but 0 is yes.
        hit.update(voxel for voxel, weight in zip(voxels, weights) if weight > 0)
    return totals, hit


def shadow(plan, values):
    """The lines for a plan and the values of its voxels."""
    seen = {step: seen_from(plan, values, step) for step in set(plan.steps)}
    lines = [f"views {len(plan.steps)} rows {cells_along(plan.rows)}"
             f" columns {cells_along(plan.columns)}"]
    for v, step in enumerate(plan.steps):
        for (m, k), total in zip(cells_in_order(plan), seen[step][0]):
            lines.append(f"{v} {m} {k} {as_count(total)}")
    hit = set().union(*(voxels for _, voxels in seen.values()))
    lines.append(f"hit {len(hit)}")
    return lines


def answer(data: bytes) -> str:
    """What `shadow` prints for an input."""
    try:
        plan, values = read_file(data[:LONGEST + 1])
    except Refused as refusal:
        return f"refused {refusal.number} at {refusal.place}\n"
    return "".join(line + "\n" for line in shadow(plan, values))


# ---------------------------------------------------------------------------
# Part 2: making inputs
# ---------------------------------------------------------------------------

# A file to be is a list of nine lists of numbers, its sections.
DISTANCES, X, Y, Z, COLUMNS, ROWS, DIRECTIONS, STEPS, VALUES = range(9)
NAMES = ("distances", "x", "y", "z", "columns", "rows", "directions", "steps", "values")
AXES = (X, Y, Z, COLUMNS, ROWS)

GREATEST, LEAST = 2**31 - 1, -2**31    # of the signed numbers
HUGE = 2**32 - 1                       # the greatest count

# The plan of both documents' examples.
EXAMPLE = [[1000, 2000], [-100, 0, 100], [-100, 0, 100], [-50, 50],
           [-200, 0, 200], [-100, 100], [], [0, 16], [1, 1, 1, 1]]

# Their list of three directions, at 0, 11.25 and 30 degrees.
EXAMPLE_LIST = [16384, 0, 16069, 3196, 14189, 8192]

# A plan with three uneven cells along each axis and three views, so that
# every section but that of directions has a first, a middle and a last number.
BASE = [[1000, 2000], [-120, -50, 10, 100], [-90, -20, 40, 110], [-60, -10, 30, 70],
        [-250, -60, 70, 260], [-140, -30, 50, 150], [], [3, 16, 40], list(range(-9, 18))]

# The same with a list of three directions, in three quarters.
LISTED = [*BASE[:DIRECTIONS], [-3196, 16069, 14189, -8192, -11585, -11585], [2, 0, 1],
          BASE[VALUES]]


def unsigned(number):
    """The four bytes of a count."""
    return number.to_bytes(4, "little")


def signed(number):
    """The four bytes of any other number."""
    return number.to_bytes(4, "little", signed=True)


def packed(sections):
    """The file of nine sections, or the front of a file where there are fewer."""
    return b"".join(unsigned(len(section)) + b"".join(map(signed, section))
                    for section in sections)


def count_place(sections, section):
    """The place of a section's count."""
    return sum(4 + 4 * len(earlier) for earlier in sections[:section])


def number_place(sections, section, i):
    """The place of a section's number i."""
    return count_place(sections, section) + 4 + 4 * i


def replaced(sections, by):
    """The sections with some of them replaced: `by` has the new ones by section."""
    return [list(by.get(s, section)) for s, section in enumerate(sections)]


def changed(sections, *changes):
    """The sections with some numbers changed: each is (section, i, number)."""
    result = [list(section) for section in sections]
    for section, i, number in changes:
        result[section][i] = number
    return result


def miscounted(sections, section, count):
    """The file with one count changed and all else as it was."""
    data, place = packed(sections), count_place(sections, section)
    return data[:place] + unsigned(count) + data[place + 4:]


def voxels_in(sections):
    """The number of voxels of the sections' plan."""
    return cells_along(sections[X]) * cells_along(sections[Y]) * cells_along(sections[Z])


def filled(sections, by, value_at=lambda place: 1):
    """The sections with some replaced, and a value for each voxel by its place."""
    result = replaced(sections, by)
    result[VALUES] = [value_at(place) for place in range(voxels_in(result))]
    return result


def around(cells, pitch=1):
    """The edges of an even axis with 0 in its middle, or beside it."""
    return [pitch * (i - cells // 2) for i in range(cells + 1)]


def flat(directions):
    """The numbers of section 7: c and s of each direction."""
    return [number for direction in directions for number in direction]


def beside_circle(c):
    """The direction of this c, -R to R, with the s, not below 0, that is nearest to the circle.

    A step of s by one moves c*c + s*s by 2*R at most, and the nearest is half of
    that off at most, so it is accepted.
    """
    s = isqrt(R * R - c * c)
    return c, min(s, s + 1, key=lambda number: off_circle(c, number))


def fan(number):
    """So many directions, no two the same; four or more of them are in all quarters."""
    result = []
    for i in range(number):
        c, s = beside_circle(R - 1 - 2 * R * i // number)
        result.append((c, s) if i % 2 == 0 else (c, -s))
    return result


def all_forms(c, s):
    """The eight directions that have these two numbers, with each sign and in either order."""
    return [(p * one, q * other) for one, other in ((c, s), (s, c))
            for p in (1, -1) for q in (1, -1)]


def with_direction(sections, i, direction):
    """The sections with direction i of the list changed."""
    c, s = direction
    return changed(sections, (DIRECTIONS, 2 * i, c), (DIRECTIONS, 2 * i + 1, s))


# --- cases made by hand ----------------------------------------------------

# A name, an input, and the first line that the answer has to have.
Case = namedtuple("Case", "name data first_line")


def refused(name, data, number, place):
    """A case that is refused."""
    return Case(name, data, f"refused {number} at {place}")


def refused_at_count(name, sections, number, section):
    """A case that is refused at a section's count."""
    return refused(name, packed(sections), number, count_place(sections, section))


def refused_at(name, sections, number, section, i):
    """A case that is refused at a section's number i."""
    return refused(name, packed(sections), number, number_place(sections, section, i))


def accepted(name, sections):
    """A case that is not refused."""
    return Case(name, packed(sections),
                f"views {len(sections[STEPS])} rows {cells_along(sections[ROWS])}"
                f" columns {cells_along(sections[COLUMNS])}")


def worked_cases():
    """The worked example, and what the documents change in it."""
    data = packed(EXAMPLE)
    yield accepted("worked-example", EXAMPLE)
    yield refused_at("worked-source-too-near", changed(EXAMPLE, (DISTANCES, 0, 200)),
                     7, DISTANCES, 0)
    yield accepted("worked-source-far-enough", changed(EXAMPLE, (DISTANCES, 0, 201)))
    yield refused_at("worked-column-at-panel", changed(EXAMPLE, (COLUMNS, 2, 2000)),
                     8, COLUMNS, 2)
    yield accepted("worked-column-below-panel", changed(EXAMPLE, (COLUMNS, 2, 1999)))
    yield refused_at("worked-step-sixty-four", changed(EXAMPLE, (STEPS, 1, 64)), 9, STEPS, 1)
    yield refused("worked-without-last-byte", data[:-1], 1, 116)
    yield refused("worked-with-a-byte-more", data + b"\x00", 3, 120)
    yield accepted("worked-step-eight", replaced(EXAMPLE, {STEPS: [8]}))
    yield accepted("worked-step-thirty-two", replaced(EXAMPLE, {STEPS: [32]}))
    three = replaced(EXAMPLE, {DIRECTIONS: EXAMPLE_LIST, STEPS: [0, 1, 2]})
    yield accepted("worked-three-directions", three)
    yield refused_at("worked-three-directions-and-step-three", changed(three, (STEPS, 2, 3)),
                     9, STEPS, 2)


def short_cases():
    """Inputs of 0 to 4 bytes."""
    yield refused("empty-input", b"", 1, 0)
    yield refused("one-byte", b"\x02", 1, 0)
    yield refused("two-bytes", b"\x02\x00", 1, 0)
    yield refused("three-bytes", b"\x02\x00\x00", 1, 0)
    yield refused("three-bytes-all-ones", b"\xff\xff\xff", 1, 0)
    yield refused("four-bytes-right-count", b"\x02\x00\x00\x00", 1, 4)
    yield refused("four-bytes-wrong-count", b"\xff\xff\xff\xff", 2, 0)
    yield refused("four-bytes-high-byte-first", b"\x00\x00\x00\x02", 2, 0)


def ends_in(sections, section, name):
    """Refusal 1 in a section: the bytes end at its count, and at its first and last number."""
    data, last = packed(sections), len(sections[section]) - 1
    ends = [("count", count_place(sections, section))]
    if last >= 0:
        ends.append(("first-number", number_place(sections, section, 0)))
        ends.append(("last-number", number_place(sections, section, last)))
    for where, place in ends:
        yield refused(f"{name}-{where}-absent", data[:place], 1, place)
        yield refused(f"{name}-{where}-of-three-bytes", data[:place + 3], 1, place)


def end_cases():
    """Refusal 1: the bytes end in each section, at its first and last places."""
    data = packed(BASE)
    for section, name in enumerate(NAMES):
        yield from ends_in(BASE, section, name)
    for section in AXES:
        yield refused(f"{NAMES[section]}-count-most-and-bytes-end",
                      miscounted(BASE, section, MOST_EDGES), 1, len(data))
    for section, most in ((DIRECTIONS, 2 * MOST_DIRECTIONS), (STEPS, MOST_VIEWS)):
        name, whole_numbers = NAMES[section], miscounted(BASE, section, most)
        yield refused(f"{name}-count-most-and-bytes-end", whole_numbers, 1, len(data))
        yield refused(f"{name}-count-most-and-bytes-end-unevenly",
                      whole_numbers + b"\x00\x00", 1, len(data))


def listed_end_cases():
    """Refusal 1 where there is a list: in each of its numbers, and in the sections after it."""
    data = packed(LISTED)
    for section in (DIRECTIONS, STEPS, VALUES):
        yield from ends_in(LISTED, section, f"listed-{NAMES[section]}")
    count = count_place(LISTED, DIRECTIONS)
    yield refused("listed-directions-count-of-one-byte", data[:count + 1], 1, count)
    yield refused("listed-directions-count-of-two-bytes", data[:count + 2], 1, count)
    for i, name in enumerate(("first-c", "first-s", "middle-c", "middle-s", "last-c", "last-s")):
        place = number_place(LISTED, DIRECTIONS, i)
        for word, rest in (("absent", 0), ("of-one-byte", 1), ("of-two-bytes", 2),
                           ("of-three-bytes", 3)):
            yield refused(f"listed-directions-{name}-{word}", data[:place + rest], 1, place)


def distance_count_cases():
    """Refusal 2 at the count of section 1."""
    for word, numbers in (("none", []), ("one", [1000]), ("three", [1000, 2000, 3000])):
        yield refused_at_count(f"distances-count-{word}", replaced(BASE, {DISTANCES: numbers}),
                               2, DISTANCES)
    for word, count in (("one-alone", 1), ("three-alone", 3), ("huge", HUGE),
                        ("two-and-high-bit", 2**31 + 2)):
        yield refused(f"distances-count-{word}", miscounted(BASE, DISTANCES, count), 2, 0)


def axis_count_cases():
    """Refusal 2 at the counts of sections 2 to 6, and their limits accepted."""
    for section in AXES:
        name, place = NAMES[section], count_place(BASE, section)
        for word, numbers in (("none", []), ("one", [5]), ("above-most", around(513))):
            yield refused_at_count(f"{name}-count-{word}", replaced(BASE, {section: numbers}),
                                   2, section)
        for word, count in (("above-most-alone", 514), ("half-of-all", 2**31), ("huge", HUGE)):
            yield refused(f"{name}-count-{word}", miscounted(BASE, section, count), 2, place)
        yield accepted(f"{name}-two-edges", filled(BASE, {section: [-40, 60]}))
        small = {X: [-60, 60], Y: [-60, 60], Z: [-60, 60], COLUMNS: [-150, 150],
                 ROWS: [-150, 150], STEPS: [21]}
        yield accepted(f"{name}-most-edges", filled(BASE, {**small, section: around(512)}))
    fallen = changed(BASE, (X, 1, -500), (X, 2, MOST_EDGE + 1))
    yield refused("x-count-wrong-and-faults-after-it", miscounted(fallen, X, 514),
                  2, count_place(BASE, X))


def direction_count_cases():
    """Refusal 2 at the count of section 7: it is odd or above the most."""
    place = count_place(LISTED, DIRECTIONS)
    for word, count in (("one", 1), ("three", 3), ("five", 5), ("seven", 7)):
        numbers = flat(fan(4))[:count]
        yield refused_at_count(f"directions-count-{word}",
                               replaced(LISTED, {DIRECTIONS: numbers}), 2, DIRECTIONS)
    yield refused_at_count("directions-count-above-most",
                           replaced(EXAMPLE, {DIRECTIONS: flat(fan(1025))}), 2, DIRECTIONS)
    for word, count in (("one", 1), ("three", 3), ("five", 5), ("seven", 7),
                        ("below-most", 2047), ("odd-above-most", 2049), ("above-most", 2050),
                        ("half-of-all", 2**31), ("half-of-all-and-one", 2**31 + 1),
                        ("six-and-high-bit", 2**31 + 6), ("huge", HUGE), ("huge-even", HUGE - 1)):
        data = miscounted(LISTED, DIRECTIONS, count)
        yield refused(f"directions-count-{word}-alone", data, 2, place)
        yield refused(f"directions-count-{word}-and-nothing-more", data[:place + 4], 2, place)
    for word, count in (("two", 2), ("most", 2048)):
        yield refused(f"directions-count-{word}-and-nothing-more",
                      miscounted(LISTED, DIRECTIONS, count)[:place + 4], 1, place + 4)
    for word, numbers in (("zero", [0] * 5), ("least", [LEAST] * 3), ("a-c-alone", [16385])):
        yield refused_at_count(f"directions-count-odd-and-all-{word}",
                               replaced(LISTED, {DIRECTIONS: numbers}), 2, DIRECTIONS)


def direction_count_limit_cases():
    """Counts of section 7 that are accepted, and such that say too few or too many directions."""
    for word, number in (("one", 1), ("two", 2), ("seven", 7)):
        yield accepted(f"directions-{word}",
                       replaced(BASE, {DIRECTIONS: flat(fan(number)), STEPS: [0, number - 1]}))
    yield accepted("directions-most",
                   replaced(EXAMPLE, {DIRECTIONS: flat(fan(1024)), STEPS: [1023, 0, 512]}))
    # The first number that is left over is taken for the count of the steps, and is too great.
    for word, count in (("none", 0), ("one", 2), ("two", 4)):
        start = replaced(LISTED, {DIRECTIONS: flat([(-3196, 16069), (-16384, 9), (-9, 16384)])})
        yield refused(f"directions-count-says-{word}-of-three",
                      miscounted(start, DIRECTIONS, count),
                      2, number_place(start, DIRECTIONS, count))
    # The count of the steps and the first step, 3 and 2, are taken for a direction.
    yield refused("directions-count-says-four-of-three", miscounted(LISTED, DIRECTIONS, 8),
                  11, number_place(LISTED, DIRECTIONS, 6))


def step_count_cases():
    """Refusal 2 at the count of section 8."""
    place = count_place(BASE, STEPS)
    yield refused_at_count("steps-count-above-most", replaced(BASE, {STEPS: [16] * 1025}),
                           2, STEPS)
    yield refused_at_count("steps-count-above-most-and-wrong-steps",
                           replaced(BASE, {STEPS: [64] * 1025}), 2, STEPS)
    for word, count in (("above-most-alone", 1025), ("half-of-all", 2**31), ("huge", HUGE)):
        yield refused(f"steps-count-{word}", miscounted(BASE, STEPS, count), 2, place)


def value_count_cases():
    """Refusal 2 at the count of section 9."""
    place = count_place(BASE, VALUES)
    for word, values in (("none", []), ("one-fewer", [1] * 26), ("one-more", [1] * 28)):
        yield refused_at_count(f"values-count-{word}", replaced(BASE, {VALUES: values}),
                               2, VALUES)
    for word, count in (("none-alone", 0), ("one-fewer-alone", 26), ("one-more-alone", 28),
                        ("high-bit", 2**31 + 27), ("huge", HUGE)):
        yield refused(f"values-count-{word}", miscounted(BASE, VALUES, count), 2, place)


def rest_cases():
    """Refusal 3: bytes follow section 9."""
    data = packed(BASE)
    unseen = packed(replaced(BASE, {STEPS: []}))
    expect("whether 31,000 bytes are more than is read", 31_000 > LONGEST + 1, True)
    for word, rest in (("one-byte", b"\xff"), ("three-bytes", b"\x00\x00\x00"),
                       ("four-bytes", signed(1)), ("many-bytes", bytes(range(250)) * 4),
                       ("the-file-again", data), ("more-than-is-read", bytes(31_000))):
        yield refused(f"rest-of-{word}", data + rest, 3, len(data))
    yield refused("rest-of-one-byte-and-no-views", unseen + b"\x00", 3, len(unseen))
    listed = packed(LISTED)
    for word, rest in (("one-byte", b"\x00"), ("four-bytes", signed(7))):
        yield refused(f"rest-of-{word}-and-directions", listed + rest, 3, len(listed))


def source_cases():
    """Refusal 6 for D, and the values of D that are accepted."""
    for word, source in (("zero", 0), ("minus-one", -1), ("above-most", MOST_SOURCE + 1),
                         ("least", LEAST), ("greatest", GREATEST)):
        yield refused_at(f"source-{word}", changed(BASE, (DISTANCES, 0, source)),
                         6, DISTANCES, 0)
    for word, panel in (("panel-below-it", MOST_SOURCE - 1), ("panel-above-most", MOST_PANEL + 1)):
        yield refused_at(f"source-most-and-{word}",
                         replaced(BASE, {DISTANCES: [MOST_SOURCE, panel]}), 6, DISTANCES, 1)
    for word, panel in (("the-same", MOST_SOURCE), ("most", MOST_PANEL)):
        yield accepted(f"source-most-and-panel-{word}",
                       replaced(BASE, {DISTANCES: [MOST_SOURCE, panel]}))
    yield refused_at("source-one-is-too-near", changed(BASE, (DISTANCES, 0, 1)), 7, DISTANCES, 0)
    yield refused_at_count("source-one-and-x-count-wrong",
                           replaced(BASE, {DISTANCES: [1, 1], X: [0]}), 2, X)
    unit = {X: [0, 1], Y: [-1, 0], Z: [-1, 0, 1], COLUMNS: [-1, 0, 1], ROWS: [-2, 0, 2]}
    yield refused_at("source-two-is-too-near", filled(BASE, {**unit, DISTANCES: [2, 5]}),
                     7, DISTANCES, 0)
    yield accepted("source-three-is-far-enough", filled(BASE, {**unit, DISTANCES: [3, 5]}))
    yield refused_at("source-three-and-column-at-panel",
                     filled(BASE, {**unit, DISTANCES: [3, 3], COLUMNS: [-2, 3]}), 8, COLUMNS, 1)


def panel_cases():
    """Refusal 6 for F, and the values of F that are accepted."""
    for word, panel in (("below-source", 999), ("zero", 0), ("minus-one", -1),
                        ("above-most", MOST_PANEL + 1), ("least", LEAST), ("greatest", GREATEST)):
        yield refused_at(f"panel-{word}", changed(BASE, (DISTANCES, 1, panel)), 6, DISTANCES, 1)
    yield accepted("panel-at-source", changed(BASE, (DISTANCES, 1, 1000)))
    wide = [-4_000_000, -1_000_000, 900_000, 3_000_000]
    yield accepted("panel-most",
                   replaced(BASE, {DISTANCES: [1000, MOST_PANEL], COLUMNS: wide, ROWS: wide}))
    for word, pair in (("low", [0, -1]), ("high", [MOST_SOURCE + 1, MOST_PANEL + 1]),
                       ("crossed", [MOST_PANEL + 1, 0])):
        yield refused_at(f"source-and-panel-wrong-{word}", replaced(BASE, {DISTANCES: pair}),
                         6, DISTANCES, 0)
    wrong = packed(changed(BASE, (DISTANCES, 0, 0)))
    yield refused("source-wrong-and-panel-absent", wrong[:8], 1, 8)
    yield refused("source-wrong-and-nothing-more", wrong[:12], 6, 4)
    wrong = packed(changed(BASE, (DISTANCES, 1, 999)))
    yield refused("panel-wrong-and-nothing-more", wrong[:12], 6, 8)


def range_cases():
    """Refusal 5 along each axis, at its first and its last edge."""
    for section in AXES:
        name, last = NAMES[section], len(BASE[section]) - 1
        for where, i in (("first", 0), ("last", last)):
            for word, edge in (("above-range", MOST_EDGE + 1), ("below-range", -MOST_EDGE - 1)):
                yield refused_at(f"{name}-{where}-edge-{word}",
                                 changed(BASE, (section, i, edge)), 5, section, i)
        yield refused_at(f"{name}-first-edge-least", changed(BASE, (section, 0, LEAST)),
                         5, section, 0)
        yield refused_at(f"{name}-last-edge-greatest", changed(BASE, (section, last, GREATEST)),
                         5, section, last)
        yield refused_at(f"{name}-two-edges-out-of-range",
                         changed(BASE, (section, 1, LEAST), (section, last, GREATEST)),
                         5, section, 1)


def range_limit_cases():
    """The outermost edges that are accepted, along each axis."""
    ends = (("first", 0, -MOST_EDGE), ("last", -1, MOST_EDGE))
    for where, i, edge in ends:
        for section in AXES:
            far = changed(BASE, (DISTANCES, 0, MOST_SOURCE), (DISTANCES, 1, MOST_PANEL))
            start = BASE if section in (Z, ROWS) else far
            yield accepted(f"{NAMES[section]}-{where}-edge-at-limit",
                           changed(start, (section, i, edge)))
        for section in (X, Y):
            yield refused_at(f"{NAMES[section]}-{where}-edge-at-limit-and-source-near",
                             changed(BASE, (section, i, edge)), 7, DISTANCES, 0)
    yield refused_at("columns-first-edge-at-limit-and-panel-near",
                     changed(BASE, (COLUMNS, 0, -MOST_EDGE)), 8, COLUMNS, 0)
    yield refused_at("columns-last-edge-at-limit-and-panel-near",
                     changed(BASE, (COLUMNS, 3, MOST_EDGE)), 8, COLUMNS, 3)


def rise_cases():
    """Refusal 4 along each axis, at its edge 1 and at its last edge."""
    for section in AXES:
        name, edges = NAMES[section], BASE[section]
        last = len(edges) - 1
        for where, i in (("second", 1), ("last", last)):
            for word, edge in (("equal", edges[i - 1]), ("falling", edges[i - 1] - 1)):
                yield refused_at(f"{name}-{where}-edge-{word}",
                                 changed(BASE, (section, i, edge)), 4, section, i)
        yield refused_at(f"{name}-two-edges-not-rising",
                         replaced(BASE, {section: [0, -3, -2, -2]}), 4, section, 1)
        yield refused_at(f"{name}-edge-not-rising-before-one-out-of-range",
                         changed(BASE, (section, 1, edges[0]), (section, last, MOST_EDGE + 1)),
                         5, section, last)
        yield refused_at(f"{name}-of-two-edges-equal", replaced(BASE, {section: [7, 7]}),
                         4, section, 1)


def near_cases():
    """Refusal 7: D against twice the greatest |edge| of x and y."""
    for section, where, i, edge in ((X, "first", 0, -300), (X, "last", -1, 300),
                                    (Y, "first", 0, -300), (Y, "last", -1, 300)):
        name = f"source-by-{NAMES[section]}-{where}-edge"
        start = changed(BASE, (section, i, edge))
        yield refused_at(f"{name}-too-near", changed(start, (DISTANCES, 0, 600)), 7, DISTANCES, 0)
        yield accepted(f"{name}-far-enough", changed(start, (DISTANCES, 0, 601)))
    wide = changed(BASE, (X, -1, 200), (Y, -1, 300), (DISTANCES, 0, 500))
    yield refused_at("source-between-x-and-y", wide, 7, DISTANCES, 0)
    yield refused_at("source-too-near-and-column-beyond", changed(wide, (COLUMNS, 3, 2000)),
                     7, DISTANCES, 0)
    yield refused_at("source-too-near-and-step-wrong", changed(wide, (STEPS, 0, 64)),
                     7, DISTANCES, 0)
    yield accepted("source-near-by-z-only", changed(BASE, (Z, 0, -5000), (Z, 3, 5000)))
    yield accepted("source-near-by-columns-only",
                   changed(BASE, (COLUMNS, 0, -1500), (COLUMNS, 3, 1500)))


def beyond_cases():
    """Refusal 8: column edges against F."""
    for where, i, sign in (("first", 0, -1), ("last", 3, 1)):
        yield refused_at(f"columns-{where}-edge-at-panel",
                         changed(BASE, (COLUMNS, i, sign * 2000)), 8, COLUMNS, i)
        yield refused_at(f"columns-{where}-edge-past-panel",
                         changed(BASE, (COLUMNS, i, sign * 2001)), 8, COLUMNS, i)
        yield accepted(f"columns-{where}-edge-below-panel",
                       changed(BASE, (COLUMNS, i, sign * 1999)))
    for word, edges, i in (("both-ends", [-2000, -60, 70, 2000], 0),
                           ("last-three", [-1999, 2000, 2001, 2002], 1),
                           ("all-high", [2000, 2001, 2002, 2003], 0),
                           ("all-low", [-2003, -2002, -2001, -2000], 0)):
        yield refused_at(f"columns-beyond-{word}", replaced(BASE, {COLUMNS: edges}),
                         8, COLUMNS, i)
    yield accepted("columns-all-but-at-panel",
                   replaced(BASE, {COLUMNS: [-1999, -1998, 1998, 1999]}))
    yield accepted("rows-beyond-panel", changed(BASE, (ROWS, 0, -2000), (ROWS, 3, 2001)))


# Directions that are not accepted. The last four would be, if only the low bits of their
# numbers or of their squares were looked at.
OFF = (("zero", (0, 0)), ("c-too-great", (16385, 0)), ("s-too-great", (0, -16385)),
       ("both-too-small", (-11585, 11584)), ("both-too-great", (11586, -11586)),
       ("both-least", (LEAST, LEAST)), ("both-greatest", (GREATEST, GREATEST)),
       ("greatest-and-least", (GREATEST, LEAST)), ("wrapped-by-c", (65536, 16384)),
       ("wrapped-by-s", (-16384, -65536)), ("c-wide", (16384 + 65536, 0)),
       ("s-wide", (16384, LEAST)))


def circle_cases():
    """Refusal 11 at the first, the middle and the last direction."""
    for where, i in (("first", 0), ("middle", 1), ("last", 2)):
        for word, direction in OFF:
            yield refused_at(f"directions-{where}-{word}", with_direction(LISTED, i, direction),
                             11, DIRECTIONS, 2 * i)
        for word, direction in (("on-axis", (16384, 0)), ("on-axis-behind", (-16384, 0)),
                                ("at-tie", (11585, -11585))):
            yield accepted(f"directions-{where}-{word}", with_direction(LISTED, i, direction))
    zeros = [0] * 6
    yield refused_at("directions-all-zero", replaced(LISTED, {DIRECTIONS: zeros}),
                     11, DIRECTIONS, 0)
    yield refused_at("directions-last-two-zero",
                     replaced(LISTED, {DIRECTIONS: [0, 16384, *zeros[:4]]}), 11, DIRECTIONS, 2)
    yield refused_at("directions-first-and-last-wrong",
                     with_direction(with_direction(LISTED, 0, (1, -1)), 2, (16385, 1)),
                     11, DIRECTIONS, 0)
    yield refused_at("directions-only-one-wrong",
                     replaced(BASE, {DIRECTIONS: [16384, 182], STEPS: [0]}), 11, DIRECTIONS, 0)
    yield refused_at("directions-last-of-most-wrong",
                     replaced(EXAMPLE, {DIRECTIONS: [*flat(fan(1023)), 16384, -182]}),
                     11, DIRECTIONS, 2046)


def directions_off_by(off):
    """All c >= s >= 0 with c*c + s*s = R*R + off."""
    total = R * R + off
    found = [(isqrt(total - s * s), s) for s in range(isqrt(total // 2) + 1)]
    return [(c, s) for c, s in found if c * c + s * s == total]


def circle_limit_cases():
    """Both sides of refusal 11's limits.

    No two squares come to 32,768 above or below R*R, and none to 32,769 below it. The
    sums nearest to the limits are 32,762 above and 32,767 below R*R on the accepted
    side, and 32,769 above and 32,771 below it on the other.
    """
    for off in (*range(32_763, 32_769), *range(-32_770, -32_767)):
        expect(f"directions with {off}", directions_off_by(off), [])
    block = {X: [-90, -20, 70], Y: [-50, 10, 100], Z: [-30, 40], COLUMNS: [-130, 20, 170],
             ROWS: [-60, 50]}
    for word, off, inside in (("upper", 32_762, (14193, 8187)), ("lower", -32_767, (16383, 0)),
                              ("axis-upper", 32_761, (16384, 181))):
        expect(f"{inside} among directions", inside in directions_off_by(off), True)
        yield accepted(f"directions-at-{word}-limit",
                       filled(BASE, {**block, DIRECTIONS: flat(all_forms(*inside)),
                                     STEPS: range(8)}, lambda place: place + 1))
    signs = ("plus-plus", "plus-minus", "minus-plus", "minus-minus")
    forms = (*signs, *(f"exchanged-{word}" for word in signs))
    for word, off, outside in (("upper", 32_769, (16383, 256)), ("upper", 32_769, (11687, 11484)),
                               ("lower", -32_771, (16382, 181)),
                               ("lower", -32_771, (11611, 11558))):
        expect(f"{outside} among directions", outside in directions_off_by(off), True)
        place = "axis" if outside[0] > 12_000 else "tie"
        for form, direction in zip(forms, all_forms(*outside)):
            yield refused_at(f"directions-past-{word}-limit-near-{place}-{form}",
                             replaced(EXAMPLE, {DIRECTIONS: flat([(16384, 0), direction])}),
                             11, DIRECTIONS, 2)


def step_cases():
    """Refusal 9 at the first, a middle and the last step."""
    wrong = (("minus-one", -1), ("sixty-four", 64), ("two-hundred-fifty-six", 256),
             ("greatest", GREATEST), ("least", LEAST))
    for where, i in (("first", 0), ("middle", 1), ("last", 2)):
        for word, step in wrong:
            yield refused_at(f"steps-{where}-{word}", changed(BASE, (STEPS, i, step)), 9, STEPS, i)
        yield accepted(f"steps-{where}-sixty-three", changed(BASE, (STEPS, i, 63)))
    yield refused_at("steps-all-wrong", replaced(BASE, {STEPS: [64, -1, 65]}), 9, STEPS, 0)
    yield refused_at("steps-last-two-wrong", replaced(BASE, {STEPS: [0, -1, 64]}), 9, STEPS, 1)
    yield refused_at("steps-only-one-wrong", replaced(BASE, {STEPS: [64]}), 9, STEPS, 0)
    yield refused_at("steps-last-of-most-wrong", replaced(BASE, {STEPS: [0] * 1023 + [64]}),
                     9, STEPS, 1023)


def listed_step_cases():
    """Refusal 9 where there is a list: steps against its length."""
    for word, number in (("one", 1), ("two", 2), ("three", 3), ("sixty-three", 63),
                         ("sixty-four", 64), ("sixty-five", 65)):
        start = replaced(EXAMPLE, {DIRECTIONS: flat(fan(number))})
        yield accepted(f"steps-last-of-{word}", replaced(start, {STEPS: [number - 1, 0]}))
        yield refused_at(f"steps-past-{word}", replaced(start, {STEPS: [0, number]}),
                         9, STEPS, 1)
        yield refused_at(f"steps-minus-one-of-{word}", replaced(start, {STEPS: [-1, 0]}),
                         9, STEPS, 0)
    most = replaced(EXAMPLE, {DIRECTIONS: flat(fan(1024))})
    # That 1,023 is accepted is among the counts of directions.
    yield refused_at("steps-past-most", replaced(most, {STEPS: [1023, 1024]}), 9, STEPS, 1)
    many = replaced(EXAMPLE, {DIRECTIONS: flat(fan(65))})
    for word, step in (("sixty-three", 63), ("sixty-four", 64)):
        yield refused_at(f"steps-{word}-of-one",
                         replaced(EXAMPLE, {DIRECTIONS: [0, 16384], STEPS: [step]}), 9, STEPS, 0)
        yield accepted(f"steps-{word}-of-sixty-five", replaced(many, {STEPS: [step, step]}))


def listed_wrong_step_cases():
    """Refusal 9 at the first, the middle and the last step where there are three directions."""
    for where, i in (("first", 0), ("middle", 1), ("last", 2)):
        for word, step in (("three", 3), ("minus-one", -1), ("six", 6), ("sixty-three", 63),
                           ("sixty-four", 64), ("high-byte", 2**24), ("greatest", GREATEST),
                           ("least", LEAST)):
            yield refused_at(f"listed-steps-{where}-{word}", changed(LISTED, (STEPS, i, step)),
                             9, STEPS, i)
        for word, step in (("zero", 0), ("two", 2)):
            yield accepted(f"listed-steps-{where}-{word}", changed(LISTED, (STEPS, i, step)))


def much_voxel_cases():
    """Refusal 10 for the number of voxels."""
    unit = {X: [-20, 20], Y: [-20, 20], Z: [-20, 20], COLUMNS: [-200, 0, 200],
            ROWS: [-200, 0, 200], STEPS: [5]}
    yield accepted("voxels-most-as-cube",
                   filled(BASE, {**unit, X: around(16, 9), Y: around(16, 10), Z: around(16, 11)},
                          lambda place: place % 7 - 3))
    yield accepted("voxels-most-as-plate",
                   filled(BASE, {**unit, Y: around(8, 50), X: around(512)}, lambda place: place))
    yield accepted("voxels-most-and-no-views",
                   filled(BASE, {**unit, Z: around(512, 50), Y: around(8), STEPS: []}))
    wide, high = around(17, 9), around(241)
    yield refused_at_count("voxels-one-too-many",
                           filled(BASE, {**unit, X: wide, Y: high}), 10, VALUES)
    for word, by in (("x-and-y", {X: high, Y: wide}), ("x-and-z", {X: wide, Z: high}),
                     ("y-and-z", {Y: wide, Z: high}),
                     ("all-three", {X: around(17), Y: around(17), Z: around(15)}),
                     ("no-views", {X: wide, Z: high, STEPS: []}),
                     ("most-of-all", {X: around(512), Y: around(512), Z: around(512)})):
        sections = replaced(BASE, {**unit, **by})[:VALUES]
        yield refused_at_count(f"voxels-too-many-by-{word}", sections, 10, VALUES)
    sections = replaced(BASE, {**unit, X: wide, Y: high, VALUES: [1, 2, 3]})
    yield refused_at_count("voxels-too-many-before-values-count", sections, 10, VALUES)
    data = packed(sections)
    place = count_place(sections, VALUES)
    yield refused("voxels-too-many-and-values-count-cut", data[:place + 3], 10, place)
    yield refused("voxels-too-many-and-steps-count-absent", data[:place - 8], 1, place - 8)


def much_cell_cases():
    """Refusal 10 for the number of cells over all views."""
    block = {X: [-50, 0, 60], Y: [-70, 80], Z: [-40, 50]}
    many = [q * 5 % 64 for q in range(1024)]
    yield accepted("cells-most-by-most-views",
                   filled(BASE, {**block, COLUMNS: [-150, 0, 100], ROWS: [-70, 0, 90],
                                 STEPS: many}))
    yield accepted("cells-most-by-one-view",
                   filled(BASE, {**block, COLUMNS: around(64, 3), ROWS: around(64, 2),
                                 STEPS: [61]}))
    wide, high = around(17, 10), around(241)
    pair = [-70, 90]
    for word, by in (("most-views", {COLUMNS: around(5, 50), ROWS: pair, STEPS: many}),
                     ("most-views-of-five-rows", {COLUMNS: pair, ROWS: around(5), STEPS: many}),
                     ("one-view", {COLUMNS: wide, ROWS: high, STEPS: [0]}),
                     ("two-views", {COLUMNS: around(64), ROWS: around(64), STEPS: [0, 16]}),
                     ("a-view-more", {COLUMNS: around(8), ROWS: around(8), STEPS: [9] * 65}),
                     ("most-of-all", {COLUMNS: around(512), ROWS: around(512), STEPS: many})):
        sections = filled(BASE, {**block, **by})
        yield refused_at_count(f"cells-too-many-by-{word}", sections, 10, VALUES)
    sections = replaced(BASE, {COLUMNS: wide, ROWS: high})
    place = count_place(sections, VALUES)
    yield refused("cells-too-many-and-values-absent", packed(sections)[:place], 10, place)
    yield refused("cells-too-many-before-values-count", miscounted(sections, VALUES, 28),
                  10, place)
    yield refused("cells-too-many-and-a-byte-more", packed(sections) + b"\x00", 10, place)
    yield refused_at("cells-too-many-and-step-wrong", changed(sections, (STEPS, 2, 64)),
                     9, STEPS, 2)
    both = replaced(sections, {X: wide, Y: high})[:VALUES]
    yield refused_at_count("cells-and-voxels-too-many", both, 10, VALUES)


def much_listed_cases():
    """Refusal 10 where there is a list: its place is where section 9 begins."""
    voxels = replaced(LISTED, {X: around(16), Y: around(16), Z: around(17)})
    cells = replaced(LISTED, {COLUMNS: around(37), ROWS: around(37)})
    for name, sections in (("voxels", voxels), ("cells", cells)):
        data, place = packed(sections), count_place(sections, VALUES)
        yield refused(f"{name}-too-many-after-directions", data, 10, place)
        yield refused(f"{name}-too-many-after-directions-and-values-absent", data[:place],
                      10, place)
        yield refused(f"{name}-too-many-after-directions-and-steps-cut", data[:place - 1],
                      1, place - 4)
        yield refused_at(f"{name}-too-many-after-directions-and-step-wrong",
                         changed(sections, (STEPS, 0, 3)), 9, STEPS, 0)
        yield refused_at(f"{name}-too-many-and-direction-wrong",
                         with_direction(sections, 1, (0, 0)), 11, DIRECTIONS, 2)
        yield refused(f"{name}-too-many-and-directions-odd", miscounted(sections, DIRECTIONS, 5),
                      2, count_place(sections, DIRECTIONS))
    yield accepted("voxels-and-cells-few-of-many-directions",
                   replaced(BASE, {DIRECTIONS: flat(fan(300)), STEPS: [299]}))


def longest_cases():
    """The longest file that is accepted, and a byte more."""
    # Each direction that is seen takes a while, so the views have 16 of the 1,024.
    longest = filled(BASE, {X: around(512), Y: around(8, 20), Z: [-60, 60], COLUMNS: [-150, 150],
                            ROWS: around(4, 40), DIRECTIONS: flat(fan(MOST_DIRECTIONS)),
                            STEPS: [1023 - 68 * (v % 16) for v in range(MOST_VIEWS)]},
                     lambda place: place % 7 - 3)
    data = packed(longest)
    expect("length of the longest file", len(data), LONGEST)
    yield accepted("longest-file", longest)
    yield refused("longest-file-and-a-byte-more", data + b"\xff", 3, LONGEST)


def order_cases():
    """Two faults in different sections: the earlier section's is told."""
    yield refused("panel-wrong-and-x-count-huge",
                  miscounted(changed(BASE, (DISTANCES, 1, 999)), X, HUGE), 6, 8)
    yield refused_at("x-falling-and-y-out-of-range",
                     changed(BASE, (X, 3, -500), (Y, 0, LEAST)), 4, X, 3)
    yield refused_at("x-out-of-range-and-source-near",
                     changed(BASE, (X, 3, GREATEST), (DISTANCES, 0, 3)), 5, X, 3)
    yield refused("y-falling-and-z-count-wrong",
                  miscounted(changed(BASE, (Y, 1, -90)), Z, 1), 4, number_place(BASE, Y, 1))
    yield refused("z-count-wrong-and-columns-falling",
                  miscounted(changed(BASE, (COLUMNS, 1, -300)), Z, 1), 2, count_place(BASE, Z))
    yield refused_at("columns-falling-and-columns-beyond",
                     changed(BASE, (COLUMNS, 0, -2000), (COLUMNS, 3, 0)), 4, COLUMNS, 3)
    yield refused_at("rows-equal-and-columns-beyond",
                     changed(BASE, (ROWS, 1, -140), (COLUMNS, 0, -2000)), 4, ROWS, 1)
    yield refused_at("rows-out-of-range-and-source-near",
                     changed(BASE, (ROWS, 0, LEAST), (DISTANCES, 0, 240)), 5, ROWS, 0)
    beyond = changed(BASE, (COLUMNS, 3, 2000))
    near = changed(beyond, (DISTANCES, 0, 240))
    rows, steps = count_place(BASE, ROWS), count_place(BASE, STEPS)
    yield refused("source-near-and-rows-absent", packed(near)[:rows], 1, rows)
    yield refused("source-near-and-steps-absent", packed(near)[:steps], 7, 4)
    yield refused("columns-beyond-and-rows-count-cut", packed(beyond)[:rows + 2], 1, rows)
    yield refused("columns-beyond-and-steps-absent", packed(beyond)[:steps],
                  8, number_place(BASE, COLUMNS, 3))
    yield refused_at("columns-beyond-and-step-wrong", changed(beyond, (STEPS, 0, -1)),
                     8, COLUMNS, 3)
    wrong = changed(BASE, (STEPS, 1, 64))
    data, step = packed(wrong), number_place(BASE, STEPS, 1)
    yield refused("step-wrong-and-last-step-cut", data[:step + 7], 1, step + 4)
    yield refused("step-wrong-and-values-absent", data[:step + 8], 9, step)
    yield refused("step-wrong-and-values-count-wrong", miscounted(wrong, VALUES, 26), 9, step)
    yield refused("step-wrong-and-a-byte-more", data + b"\x00", 9, step)
    yield refused("values-count-wrong-and-a-byte-more",
                  miscounted(BASE, VALUES, 28) + b"\x00", 2, count_place(BASE, VALUES))


def direction_order_cases():
    """A wrong direction, or a wrong count of them, and a fault before or after it."""
    wrong = with_direction(LISTED, 1, (16383, 257))
    data, place = packed(wrong), number_place(LISTED, DIRECTIONS, 2)
    last, end = number_place(LISTED, DIRECTIONS, 5), count_place(LISTED, STEPS)
    yield refused("direction-wrong-and-last-s-absent", data[:last], 1, last)
    yield refused("direction-wrong-and-last-s-cut", data[:last + 3], 1, last)
    yield refused("direction-wrong-and-its-s-absent", data[:place + 4], 1, place + 4)
    yield refused("direction-wrong-and-nothing-more", data[:end], 11, place)
    yield refused("direction-wrong-and-steps-count-cut", data[:end + 2], 11, place)
    yield refused("direction-wrong-and-steps-cut", data[:end + 6], 11, place)
    yield refused("direction-wrong-and-steps-count-wrong", miscounted(wrong, STEPS, 1025),
                  11, place)
    yield refused("direction-wrong-and-values-absent", data[:count_place(wrong, VALUES)],
                  11, place)
    yield refused("direction-wrong-and-values-count-wrong", miscounted(wrong, VALUES, 26),
                  11, place)
    yield refused("direction-wrong-and-values-cut", data[:-3], 11, place)
    yield refused("direction-wrong-and-a-byte-more", data + b"\x00", 11, place)
    yield refused_at("direction-wrong-and-no-views", replaced(wrong, {STEPS: []}),
                     11, DIRECTIONS, 2)
    for i, where in enumerate(("first", "middle", "last")):
        for word, step in (("minus-one", -1), ("three", 3)):
            yield refused_at(f"direction-wrong-and-{where}-step-{word}",
                             changed(wrong, (STEPS, i, step)), 11, DIRECTIONS, 2)
    yield refused("directions-odd-and-step-wrong",
                  miscounted(changed(LISTED, (STEPS, 0, 3)), DIRECTIONS, 5),
                  2, count_place(LISTED, DIRECTIONS))


def before_direction_cases():
    """A fault of sections 1 to 6, or one of 7 and 8, comes before any of section 7."""
    wrong, count = with_direction(LISTED, 0, (0, 0)), count_place(LISTED, DIRECTIONS)
    for name, change, number in (
            ("source-wrong", (DISTANCES, 0, 0), 6), ("panel-wrong", (DISTANCES, 1, 999), 6),
            ("x-out-of-range", (X, 0, LEAST), 5), ("rows-falling", (ROWS, 3, -500), 4),
            ("source-near", (DISTANCES, 0, 240), 7), ("columns-beyond", (COLUMNS, 3, 2000), 8)):
        section, i, _ = change
        both, place = changed(wrong, change), number_place(LISTED, section, i)
        data = packed(both)
        yield refused(f"{name}-and-direction-wrong", data, number, place)
        yield refused(f"{name}-and-directions-odd", miscounted(both, DIRECTIONS, 5),
                      number, place)
        yield refused(f"{name}-and-directions-count-huge", miscounted(both, DIRECTIONS, HUGE),
                      number, place)
        yield refused(f"{name}-and-directions-absent", data[:count], number, place)
        yield refused(f"{name}-and-directions-count-cut", data[:count + 1], number, place)
        yield refused(f"{name}-and-directions-cut", data[:count + 9], number, place)
    yield refused_at_count("rows-count-wrong-and-direction-wrong", replaced(wrong, {ROWS: [0]}),
                           2, ROWS)


def without_directions(sections):
    """The sections but that of directions: a file as it was before there was one."""
    return sections[:DIRECTIONS] + sections[STEPS:]


def earlier_cases():
    """Files without section 7: what was their section of steps is taken for it."""
    yield refused("earlier-example", packed(without_directions(EXAMPLE)),
                  11, number_place(EXAMPLE, DIRECTIONS, 0))
    yield refused("earlier-base-with-three-steps", packed(without_directions(BASE)),
                  2, count_place(BASE, DIRECTIONS))
    # The section of no steps is taken for no directions, and the values for the steps.
    unseen = replaced(BASE, {STEPS: []})
    yield refused("earlier-base-with-no-steps", packed(without_directions(unseen)),
                  9, number_place(unseen, STEPS, 0))
    data = packed(without_directions(replaced(EXAMPLE, {STEPS: []})))
    yield refused("earlier-example-with-no-steps", data, 1, len(data))


def no_view_cases():
    """Plans of no views."""
    unseen = replaced(BASE, {STEPS: []})
    place = count_place(unseen, VALUES)
    yield accepted("no-views", unseen)
    yield refused("no-views-and-values-absent", packed(unseen)[:place], 1, place)
    yield refused("no-views-and-values-count-wrong", miscounted(unseen, VALUES, 0), 2, place)
    yield accepted("no-views-and-largest-panel",
                   replaced(EXAMPLE, {COLUMNS: around(512, 3), ROWS: around(512, 3), STEPS: []}))
    yield accepted("no-views-and-panel-of-one-cell",
                   replaced(EXAMPLE, {COLUMNS: [-5, 5], ROWS: [-5, 5], STEPS: []}))


def view_cases():
    """Views: many, the same, every step, and those with a negative."""
    block = {X: [-90, -20, 70], Y: [-50, 10, 100], Z: [-30, 40]}
    yield accepted("views-most",
                   filled(BASE, {X: [-9, 70], Y: [-50, 20], Z: [-3, 40], COLUMNS: [-160, 90],
                                 ROWS: [-30, 50], STEPS: [q * 7 % 64 for q in range(1024)]}))
    yield accepted("steps-every-one",
                   filled(BASE, {**block, COLUMNS: [-130, 20, 170], ROWS: [-60, 5, 50],
                                 STEPS: range(64)}, lambda place: place + 1))
    yield accepted("steps-every-one-backwards",
                   filled(BASE, {**block, COLUMNS: [-130, 20, 170], ROWS: [-60, 50],
                                 STEPS: range(63, -1, -1)}, lambda place: 5 - 3 * place))
    yield accepted("steps-the-same-twice", replaced(BASE, {STEPS: [13, 13]}))
    yield accepted("steps-the-same-apart", replaced(BASE, {STEPS: [50, 7, 50]}))
    yield accepted("steps-of-negative-a", replaced(BASE, {STEPS: [24, 32, 40, 48, 30, 60]}))
    yield accepted("steps-of-quarter-turns", replaced(BASE, {STEPS: [0, 16, 32, 48]}))
    yield accepted("steps-of-ties", replaced(BASE, {STEPS: [8, 24, 40, 56]}))
    yield accepted("steps-beside-ties", replaced(BASE, {STEPS: [7, 9, 23, 25, 39, 41, 55, 57]}))


def seen_from_all(directions, steps=None):
    """A small plan with a list of directions, and a view from each or from these steps."""
    steps = range(len(directions)) if steps is None else steps
    return filled(BASE, {X: [-90, -20, 70], Y: [-50, 10, 100], Z: [-30, 40],
                         COLUMNS: [-130, 20, 170], ROWS: [-60, 5, 50],
                         DIRECTIONS: flat(directions), STEPS: steps}, lambda place: place + 1)


def listed_view_cases():
    """Views from directions of a list."""
    yield accepted("listed-base-plan", LISTED)
    yield accepted("directions-and-no-views", replaced(LISTED, {STEPS: []}))
    yield accepted("directions-of-ties", seen_from_all(all_forms(11585, 11585)[:4]))
    for word, c, s in (("a-unit-beside-ties", 11586, 11585),
                       ("two-units-beside-ties", 11586, 11584),
                       ("three-units-beside-ties", 11587, 11584),
                       ("far-from-ties", 16069, 3196), ("at-thirty-degrees", 14189, 8192),
                       ("a-unit-beside-axes", 16384, 1), ("farthest-beside-axes", 16384, 181)):
        yield accepted(f"directions-{word}", seen_from_all(all_forms(c, s)))
    yield accepted("directions-on-axes", seen_from_all([(R, 0), (0, R), (-R, 0), (0, -R)]))
    yield accepted("directions-of-greatest-and-least-a",
                   seen_from_all([(16384, 0), (11585, 11585), (0, -16384), (-11585, 11585)]))
    pair = [(14189, 8192), (-9102, 13623)]
    yield accepted("directions-repeated",
                   seen_from_all([pair[0], pair[1], pair[0], pair[0], pair[1]]))
    yield accepted("directions-repeated-and-one-used", seen_from_all([pair[0]] * 4, [2]))
    yield accepted("directions-used-backwards", seen_from_all(fan(7), range(6, -1, -1)))
    yield accepted("directions-some-unused", seen_from_all(fan(7), [5, 1, 5, 3]))
    yield accepted("directions-not-one-way",
                   seen_from_all([(16384, 0), (0, 16384), (16305, 1606), (-16305, -1606)]))
    yield accepted("directions-many", seen_from_all(fan(90)))


def own_table_cases():
    """The turn table's directions as a list: the answers are those without a list."""
    for name, turned in (("base", BASE), ("every-step", seen_from_all([], range(64)))):
        listed = replaced(turned, {DIRECTIONS: flat(TURN_TABLE)})
        expect(f"{name} by the table as a list", answer(packed(listed)), answer(packed(turned)))
        yield accepted(f"directions-of-turn-table-{name}", listed)
    yield accepted("directions-of-turn-table-backwards",
                   seen_from_all(TURN_TABLE[::-1], [63, 0, 20, 43]))


def far_direction_cases():
    """The widest edges, seen from directions at the limits of what is accepted."""
    ends = [-MOST_EDGE, 1 - MOST_EDGE, 5, MOST_EDGE - 1, MOST_EDGE]
    directions = [(16384, 181), (-181, 16384), (-16383, 0), (11585, 11585), (-11585, 11585),
                  (-11586, -11585), (14193, -8187), (8187, 14193)]
    far = {X: ends, Y: ends, Z: [-MOST_EDGE, 0, MOST_EDGE], COLUMNS: ends,
           ROWS: [-MOST_EDGE, 2, MOST_EDGE], DIRECTIONS: flat(directions),
           STEPS: range(len(directions))}
    for word, distances in (("nearest", [2 * MOST_EDGE + 1, 2 * MOST_EDGE + 1]),
                            ("farthest", [MOST_SOURCE, MOST_PANEL])):
        yield accepted(f"directions-at-limits-and-source-{word}",
                       filled(BASE, {**far, DISTANCES: distances}))


def axis_cases():
    """Axes and panels of many shapes."""
    yield accepted("base-plan", BASE)
    yield accepted("one-voxel-and-one-cell",
                   filled(BASE, {X: [3, 40], Y: [-50, -1], Z: [-9, 2], COLUMNS: [-90, 100],
                                 ROWS: [-60, 40], STEPS: [18]}))
    yield accepted("uneven-axes",
                   filled(BASE, {X: [-150, -149, 0, 2, 90], Y: [-7, 100, 101, 170],
                                 Z: [-90, -2, 0, 1, 60], COLUMNS: [-300, -299, -20, 0, 1, 310],
                                 ROWS: [-200, -1, 0, 3, 190], STEPS: [0, 6, 20, 37, 59]},
                          lambda place: place * place - 40))
    yield accepted("axes-to-one-side",
                   filled(BASE, {X: [20, 60, 130], Y: [30, 90, 100], Z: [5, 60, 61],
                                 COLUMNS: [10, 90, 240], ROWS: [2, 50, 150],
                                 STEPS: [0, 12, 28, 45, 62]}, lambda place: 1 - place))
    yield accepted("panel-sees-some-voxels", replaced(BASE, {COLUMNS: [50, 90], ROWS: [20, 60]}))
    yield accepted("panel-sees-no-voxel",
                   replaced(BASE, {COLUMNS: [1500, 1600], ROWS: [900, 950]}))
    yield accepted("panel-wider-than-all-shadows",
                   replaced(BASE, {COLUMNS: [-900, 900], ROWS: [-800, 800]}))
    yield accepted("cells-thinner-than-a-unit",
                   replaced(BASE, {DISTANCES: [1000, 9000], COLUMNS: around(9, 2),
                                   ROWS: around(9, 3)}))
    yield accepted("voxels-of-one-unit",
                   filled(BASE, {X: around(4), Y: around(3), Z: around(2), COLUMNS: around(3, 2),
                                 ROWS: around(3, 2), DISTANCES: [5, 11], STEPS: [0, 10, 35]}))


def far_axis_cases():
    """The widest edges, and edges that land on halves."""
    # Thin cells at both ends: the slabs nearest to the source and farthest from it.
    ends = [-MOST_EDGE, 1 - MOST_EDGE, 5, MOST_EDGE - 1, MOST_EDGE]
    far = {DISTANCES: [2 * MOST_EDGE + 1, 2 * MOST_EDGE + 1], X: ends, Y: ends,
           Z: [-MOST_EDGE, 0, MOST_EDGE], COLUMNS: ends, ROWS: [-MOST_EDGE, 2, MOST_EDGE],
           STEPS: [0, 8, 24, 40, 47, 56, 63]}
    yield accepted("edges-widest-and-source-nearest", filled(BASE, far))
    # Edges whose fractions end in a half, on both sides of zero and before and behind the axis.
    yield accepted("edges-that-land-on-halves",
                   filled(BASE, {DISTANCES: [1500, 3000], X: [-6, -3, -1, 1, 3, 6],
                                 Y: [-600, -400, 400, 600], Z: [-3, -1, 1, 3],
                                 COLUMNS: [-5, -3, -1, 1, 3, 5], ROWS: [-3, -1, 1, 3],
                                 STEPS: [0, 16, 32, 48]}, lambda place: place * place + 1))
    yield accepted("edges-widest-and-source-farthest",
                   filled(BASE, {**far, DISTANCES: [MOST_SOURCE, MOST_PANEL]}))
    yield accepted("edges-widest-and-values-that-wrap",
                   filled(BASE, far, lambda place: (GREATEST, LEAST, -1, 7)[place % 4]))


def value_cases():
    """Values, their order and their range."""
    cube = {X: [-90, 0, 90], Y: [-90, 0, 90], Z: [-60, 0, 60], COLUMNS: [-220, 0, 220],
            ROWS: [-150, 0, 150], STEPS: [0, 16]}
    yield accepted("values-in-order", filled(BASE, cube, lambda place: 10**place))
    for word, lit in (("first", 0), ("next-along-x", 1), ("next-along-y", 2), ("next-along-z", 4)):
        yield accepted(f"values-only-{word}", filled(BASE, cube, lambda place: int(place == lit)))
    long = {**cube, X: [-90, -30, 10, 60, 90], Y: [-90, 20, 90], Z: [-60, -20, 10, 60]}
    yield accepted("values-in-order-of-unlike-axes", filled(BASE, long, lambda place: place**3))
    for word, value in (("zero", 0), ("minus-one", -1), ("greatest", GREATEST), ("least", LEAST)):
        yield accepted(f"values-all-{word}", filled(BASE, cube, lambda place: value))
    yield accepted("values-of-both-signs",
                   filled(BASE, cube, lambda place: (GREATEST, LEAST, -1, 1)[place % 4]))
    yield accepted("values-of-high-bytes",
                   filled(BASE, cube, lambda place: (-1)**place * 0x7A3B5C00 // 2**place))


GROUPS = (worked_cases, short_cases, end_cases, listed_end_cases, distance_count_cases,
          axis_count_cases, direction_count_cases, direction_count_limit_cases, step_count_cases,
          value_count_cases, rest_cases, source_cases, panel_cases, range_cases,
          range_limit_cases, rise_cases, near_cases, beyond_cases, circle_cases,
          circle_limit_cases, step_cases, listed_step_cases, listed_wrong_step_cases,
          much_voxel_cases, much_cell_cases, much_listed_cases, longest_cases, order_cases,
          direction_order_cases, before_direction_cases, earlier_cases, no_view_cases, view_cases,
          listed_view_cases, own_table_cases, far_direction_cases, axis_cases, far_axis_cases,
          value_cases)


# --- inputs made by chance -------------------------------------------------

SEED = 20261127
RANDOM_FILES = 402

# Numbers at or beside a limit.
EXTREMES = (0, 1, 2, -1, 63, 64, 256, 513, 514, 1024, 1025, 2048, 2049, 2050, 11_585, R, R + 1,
            -R, MOST_EDGE, MOST_EDGE + 1, -MOST_EDGE, -MOST_EDGE - 1, MOST_SOURCE,
            MOST_SOURCE + 1, MOST_PANEL, MOST_PANEL + 1, GREATEST, LEAST)


def rising(rng, half):
    """The edges of 1 to 5 cells, from -half to half, mostly on both sides of 0."""
    cells = rng.randrange(1, 6)
    edges = set()
    if rng.randrange(5) > 0:
        edges = {rng.randrange(-half, 0), rng.randrange(1, half + 1)}
    while len(edges) <= cells:
        edges.add(rng.randrange(-half, half + 1))
    return sorted(edges)


def random_values(rng, number):
    """Values of one of four ranges."""
    low, high = rng.choice(((1, 1), (-1, 1), (-1000, 1000), (LEAST, GREATEST)))
    return [rng.randrange(low, high + 1) for _ in range(number)]


def random_direction(rng):
    """A direction beside the circle, in any quarter."""
    c, s = beside_circle(rng.randrange(-R, R + 1))
    return rng.choice(((c, s), (c, -s), (s, c), (-s, c)))


def random_directions(rng):
    """1 to 6 directions, and now and then up to 100."""
    number = rng.randrange(1, 7) if rng.randrange(12) > 0 else rng.randrange(7, 101)
    return [random_direction(rng) for _ in range(number)]


def random_sections(rng, listed):
    """A file that is not refused, with a panel about as wide as the shadows."""
    half = min(MOST_EDGE, 16 + rng.randrange(1 << rng.randrange(5, 24)))
    x, y, z = rising(rng, half), rising(rng, half), rising(rng, half)
    widest = max(abs(edge) for edge in x + y)
    nearest = max(20, 2 * widest + 1)
    source = rng.randrange(nearest, min(MOST_SOURCE, 4 * nearest) + 1)
    panel = rng.randrange(source, min(MOST_PANEL, 3 * source) + 1)
    shade = min(MOST_EDGE, half * panel // source)
    columns, rows = rising(rng, min(panel - 1, shade)), rising(rng, shade)
    directions = random_directions(rng) if listed else []
    steps = [rng.randrange(len(directions or TURN_TABLE)) for _ in range(rng.randrange(5))]
    sections = [[source, panel], x, y, z, columns, rows, flat(directions), steps, []]
    sections[VALUES] = random_values(rng, voxels_in(sections))
    return sections


def sections_of(data):
    """The places of the counts that data has, each with its number of whole numbers."""
    found, at = [], 0
    while len(found) < len(NAMES) and at + 4 <= len(data):
        count = int.from_bytes(data[at:at + 4], "little")
        found.append((at, min(count, (len(data) - at - 4) // 4)))
        at += 4 + 4 * count
    return found


def some_place(rng, data):
    """The place of a number, each section as likely as any other."""
    count_at, numbers = rng.choice(sections_of(data))
    return count_at + 4 * rng.randrange(numbers + 1)


def number_replaced(rng, data):
    """A number replaced by a random one or one beside a limit."""
    place = some_place(rng, data)
    number = rng.choice((rng.choice(EXTREMES), rng.randrange(LEAST, GREATEST + 1)))
    return data[:place] + signed(number) + data[place + 4:]


def number_altered(rng, data):
    """A number replaced by one beside it, its double, its half or its negative."""
    place = some_place(rng, data)
    number = int.from_bytes(data[place:place + 4], "little", signed=True)
    number = rng.choice((number - 1, number + 1, number * 2, number // 2, -number))
    return data[:place] + unsigned(number % 2**32) + data[place + 4:]


def view_altered(rng, data):
    """A number of the directions or of the steps moved by one or two, or else any number altered."""
    section = rng.choice((DIRECTIONS, STEPS))
    for count_at, numbers in sections_of(data)[section:section + 1]:
        if numbers > 0:
            place = count_at + 4 + 4 * rng.randrange(numbers)
            number = int.from_bytes(data[place:place + 4], "little") + rng.choice((-2, -1, 1, 2))
            return data[:place] + unsigned(number % 2**32) + data[place + 4:]
    return number_altered(rng, data)


def distance_lowered(rng, data):
    """D or F replaced by a number below it."""
    place = rng.choice((4, 8))
    number = int.from_bytes(data[place:place + 4], "little")
    return data[:place] + unsigned(rng.randrange(max(number, 1))) + data[place + 4:]


def count_changed(rng, data):
    """A count changed by one or two, or replaced by one beside a limit."""
    place, _ = rng.choice(sections_of(data))
    count = int.from_bytes(data[place:place + 4], "little")
    count = rng.choice((count - 2, count - 1, count + 1, count + 2, rng.choice(EXTREMES))) % 2**32
    return data[:place] + unsigned(count) + data[place + 4:]


def number_inserted(rng, data):
    """Four bytes inserted: a number said twice, or a small one."""
    place = some_place(rng, data)
    number = rng.choice((data[place:place + 4], signed(rng.randrange(-9, 10))))
    return data[:place] + number + data[place:]


def number_removed(rng, data):
    """Four bytes removed."""
    place = some_place(rng, data)
    return data[:place] + data[place + 4:]


def bit_flipped(rng, data):
    """One bit changed."""
    place = some_place(rng, data) + rng.randrange(4)
    return data[:place] + bytes([data[place] ^ 1 << rng.randrange(8)]) + data[place + 1:]


def bytes_appended(rng, data):
    """One to twelve bytes appended."""
    return data + bytes(rng.randrange(256) for _ in range(rng.randrange(1, 13)))


DAMAGES = (number_replaced, number_altered, number_altered, view_altered, view_altered,
           distance_lowered, count_changed, number_inserted, number_removed, bit_flipped,
           bit_flipped, bytes_appended)


def whole(rng, listed):
    """A file that is not refused, with a list of directions or without one."""
    return packed(random_sections(rng, listed))


def cut(rng, listed):
    """A file cut at a random byte, which is after the count of directions if there is a list."""
    sections = random_sections(rng, listed)
    data = packed(sections)
    # Cut before that count it would have no list; the files without one are cut there.
    least = number_place(sections, DIRECTIONS, 0) if listed else 0
    return data[:rng.randrange(least, len(data))]


def has_list(data):
    """Whether section 7 is where the counts before it say, and its count is not 0."""
    return any(data[count_at:count_at + 4] != unsigned(0)
               for count_at, _ in sections_of(data)[DIRECTIONS:STEPS])


def damaged(rng, listed):
    """A file damaged once or twice, and still with a list of directions where it had one."""
    data = whole(rng, listed)
    while True:
        result = data
        for _ in range(rng.randrange(1, 3)):
            result = rng.choice(DAMAGES)(rng, result)
        if has_list(result) or not listed:
            return result


def random_files():
    """The names and bytes of all inputs made by chance: whole, cut and damaged in turn.

    One in three of each kind has a list of directions, whatever else is done to it.
    """
    rng = random.Random(SEED)
    for i in range(RANDOM_FILES):
        listed = i // 3 % 3 == 0
        yield f"random-{i:03}", (whole, cut, damaged)[i % 3](rng, listed)


# --- checks of this program ------------------------------------------------

EXAMPLE_FILE = bytes.fromhex("""
    02 00 00 00  E8 03 00 00  D0 07 00 00
    03 00 00 00  9C FF FF FF  00 00 00 00  64 00 00 00
    03 00 00 00  9C FF FF FF  00 00 00 00  64 00 00 00
    02 00 00 00  CE FF FF FF  32 00 00 00
    03 00 00 00  38 FF FF FF  00 00 00 00  C8 00 00 00
    02 00 00 00  9C FF FF FF  64 00 00 00
    00 00 00 00
    02 00 00 00  00 00 00 00  10 00 00 00
    04 00 00 00  01 00 00 00  01 00 00 00  01 00 00 00  01 00 00 00
""")

# Section 7 of the same plan with a list of three directions.
EXAMPLE_LIST_SECTION = bytes.fromhex("""
    06 00 00 00  00 40 00 00  00 00 00 00  C5 3E 00 00  7C 0C 00 00  6D 37 00 00  00 20 00 00
""")

EXAMPLE_ANSWER = """\
views 2 rows 1 columns 2
0 0 0 19120
0 0 1 19120
1 0 0 19120
1 0 1 19120
hit 4
"""


def expect(what, found, wanted):
    """Ends with an error where a figure is not the one wanted."""
    if found != wanted:
        sys.exit(f"check failed: {what}: found {found!r}, wanted {wanted!r}")


def check_example():
    """The example of PLAN-FILES.md, and the five refusals named after it."""
    expect("length of the example", len(EXAMPLE_FILE), 120)
    expect("bytes of the example", packed(EXAMPLE), EXAMPLE_FILE)
    expect("place of section 9", count_place(EXAMPLE, VALUES), 100)
    expect("the example", answer(EXAMPLE_FILE), EXAMPLE_ANSWER)
    for what, data, wanted in (
            ("D 200", packed(changed(EXAMPLE, (DISTANCES, 0, 200))), "refused 7 at 4\n"),
            ("column edge 2,000", packed(changed(EXAMPLE, (COLUMNS, 2, 2000))),
             "refused 8 at 68\n"),
            ("step 64", packed(changed(EXAMPLE, (STEPS, 1, 64))), "refused 9 at 96\n"),
            ("without the last byte", EXAMPLE_FILE[:-1], "refused 1 at 116\n"),
            ("a byte more", EXAMPLE_FILE + b"\x00", "refused 3 at 120\n")):
        expect(what, answer(data), wanted)


def check_example_list():
    """The list of three directions in PLAN-FILES.md."""
    expect("bytes of the list", packed([EXAMPLE_LIST]), EXAMPLE_LIST_SECTION)
    expect("the list's 11.25 degrees", tuple(EXAMPLE_LIST[2:4]), TURN_TABLE[2])
    expect("the list's 30 degrees", tuple(EXAMPLE_LIST[:3:-1]), beside_circle(R // 2))
    three = replaced(EXAMPLE, {DIRECTIONS: EXAMPLE_LIST, STEPS: [0, 1, 2]})
    plan, _ = read_file(packed(three))
    expect("directions read", plan.directions, [(16384, 0), (16069, 3196), (14189, 8192)])
    expect("the list with step 3", answer(packed(changed(three, (STEPS, 2, 3))))[:9], "refused 9")


def check_turn_table():
    """The circle rule of SPECIFICATION.md: how far the turn table's steps are off at most."""
    expect("most off of the turn table", max(off_circle(c, s) for c, s in TURN_TABLE), 17_126)


def check_figures():
    """The worked figures of SPECIFICATION.md that are landed edges or weights."""
    plan, _ = read_file(EXAMPLE_FILE)
    ahead, tie, behind = View(plan, 0), View(plan, 8), View(plan, 32)
    expect("U and W of slab 0 to 100", (ahead.u[1], ahead.w[1]),
           ([(-105, 0), (0, 105)], [(-53, 53)]))
    expect("U and W of slab -100 to 0", (ahead.u[0], ahead.w[0]),
           ([(-95, 0), (0, 95)], [(-48, 48)]))
    expect("step 0, back from ones",
           [sum(ahead.weight(voxel, cell) for cell in cells_in_order(plan))
            for voxel in voxels_in_order(plan)], [9120, 9120, 10000, 10000])
    expect("step 8, slab 0 to 100",
           [tie.weight((i, 1, 0), (0, k)) for i in range(2) for k in range(2)],
           [5184, 5724, 0, 10918])
    expect("S of step 32", behind.s, [(100, 0), (0, -100)])
    expect("step 32, voxel (0, 0) on column 1", behind.weight((0, 0, 0), (0, 1)), 10000)


def check_limits():
    """The limits that SPECIFICATION.md names with its worked figures and its acceptance rule."""
    for what, change, wanted in (
            ("D 201", (DISTANCES, 0, 201), "views"),
            ("column edge 1,999", (COLUMNS, 2, 1999), "views"),
            ("step 63", (STEPS, 1, 63), "views"),
            ("step -1", (STEPS, 1, -1), "refused 9"),
            ("edge 4,194,304", (Z, 1, 4_194_304), "views"),
            ("edge 4,194,305", (Z, 1, 4_194_305), "refused 5")):
        found = answer(packed(changed(EXAMPLE, change)))
        expect(what, found[:len(wanted)], wanted)
    expect("greatest sum of squares below a 11,585", 2 * 11_584**2, 268_378_112)
    expect("least sum of squares above a 16,384", 16_385**2, 268_468_225)
    for (c, s), wanted in (((16_384, 0), True), ((11_585, 11_585), True),
                           ((11_584, 11_584), False), ((16_385, 0), False)):
        expect(f"direction {c}, {s} accepted", off_circle(c, s) <= MOST_OFF, wanted)


def check_case(case, found):
    """A case made by hand has a plain name and shows what it was made for."""
    expect(f"name {case.name}", bool(re.fullmatch("[a-z]+(-[a-z]+)*", case.name)), True)
    expect(case.name, found.split("\n", 1)[0], case.first_line)


# --- the entries of the texts ----------------------------------------------

# A name, an input, the answer that the text tells, and the right one.
Entry = namedtuple("Entry", "name data told right")


def right_entry(name, data):
    """An entry that tells the right answer."""
    right = answer(data)
    return Entry(name, data, right, right)


def wrong_entry(name, data, told):
    """An entry that tells another answer than the right one."""
    right = answer(data)
    expect(f"whether {name} is wrong", told != right, True)
    return Entry(name, data, told, right)


def entries_by_hand():
    """The inputs made by hand."""
    for group in GROUPS:
        for case in group():
            entry = right_entry(case.name, case.data)
            check_case(case, entry.right)
            yield entry


def entries_by_chance():
    """The inputs made by chance."""
    for name, data in random_files():
        yield right_entry(name, data)


def wrong_entries():
    """Inputs with an answer that is nearly right, each wrong in its own way."""
    near = packed(changed(EXAMPLE, (DISTANCES, 0, 200)))
    yield wrong_entry("another-refusal", near, "refused 6 at 4\n")
    yield wrong_entry("another-place", near, "refused 7 at 8\n")
    yield wrong_entry("another-value", EXAMPLE_FILE,
                      EXAMPLE_ANSWER.replace("0 0 1 19120", "0 0 1 19121"))
    unseen = packed(replaced(EXAMPLE, {STEPS: []}))
    for name, last in (("another-last-line", "hit 1\n"), ("a-line-less", ""),
                       ("a-line-more", "hit 0\nhit 0\n")):
        yield wrong_entry(name, unseen, "views 0 rows 1 columns 2\n" + last)


# --- the texts -------------------------------------------------------------

# The name of a file, what its first line says of the entries, and the entries.
Text = namedtuple("Text", "name what entries")

HEAD = """\
# Plan files {}. tools/plan_files.py makes this text.
# An entry is a name in brackets, the bytes of a file in hex, and the lines of its answer, each after "= ".
# Eight digits are the four bytes of a number, low byte first; bytes that make no whole number end as a
# shorter group. A section begins a line, with its count and 16 numbers at most, and has 16 in each line
# below; it is as long as its count says, right or wrong. Bytes after section 9 begin a line too. Between
# two entries is an empty line. docs/PLAN-FILES.md says what the sections are.
"""
LINE = 4 * 16    # the bytes of a line's numbers


def made_texts():
    """The three texts."""
    texts = [Text("by-hand.txt", "made by hand, and what `shadow` prints for each",
                  list(entries_by_hand())),
             Text("by-chance.txt", "made by chance, and what `shadow` prints for each",
                  list(entries_by_chance())),
             Text("wrong.txt", "with answers that are all wrong, which the comparison has to tell",
                  list(wrong_entries()))]
    names = [entry.name for text in texts for entry in text.entries]
    expect("number of different names", len(set(names)), len(names))
    return texts


def bytes_of_sections(data):
    """The bytes of each section, as far as there are any, and the bytes after the last.

    A count that is too great takes in all that follows.
    """
    at = 0
    for _ in NAMES:
        end = at + 4 + 4 * int.from_bytes(data[at:at + 4], "little")
        yield data[at:end]
        at = end
    yield data[at:]


def hex_lines(section):
    """The lines of a section: its count and 16 numbers, and then 16 below these in each."""
    yield section[:4 + LINE].hex(" ", -4)
    for at in range(4 + LINE, len(section), LINE):
        yield " " * len("00000000 ") + section[at:at + LINE].hex(" ", -4)


def written_entry(entry):
    """The lines of an entry."""
    lines = [f"[{entry.name}]"]
    for section in filter(None, bytes_of_sections(entry.data)):
        lines.extend(hex_lines(section))
    lines.extend(f"= {line}" for line in entry.told.splitlines())
    return "".join(f"{line}\n" for line in lines)


def written(text):
    """A text, whose first lines and entries have an empty line between them."""
    return "\n".join([HEAD.format(text.what), *map(written_entry, text.entries)])


def check_written(text):
    """What is written of a text tells its entries: names, bytes and answers."""
    for entry, lines in zip(text.entries, written(text).split("\n\n")[1:], strict=True):
        name, *rest = lines.splitlines()
        data = bytes.fromhex("".join(line for line in rest if not line.startswith("= ")))
        told = "".join(f"{line[2:]}\n" for line in rest if line.startswith("= "))
        expect(f"text of {entry.name}", (name, data, told),
               (f"[{entry.name}]", entry.data, entry.told))


def printed(text):
    """What the program of crates/plan_files has to print for a text."""
    others = [f"[{entry.name}]\n{entry.right}" for entry in text.entries
              if entry.told != entry.right]
    number = len(text.entries)
    return "".join(others) + f"{text.name}: {number - len(others)} of {number} answers as told\n"


# --- the files -------------------------------------------------------------

def wanted_files(data_dir, stdout_file):
    """The bytes of every file that is kept, by its path."""
    texts = made_texts()
    for text in texts:
        check_written(text)
    files = {data_dir / text.name: written(text).encode() for text in texts}
    files[stdout_file] = "".join(map(printed, texts)).encode()
    return files


def too_many(data_dir, files):
    """The files that lie in the directory and are not made."""
    return [path for path in sorted(data_dir.glob("*")) if path not in files]


def write(data_dir, files):
    """Writes all files and removes those that are too many."""
    data_dir.mkdir(parents=True, exist_ok=True)
    for path in too_many(data_dir, files):
        path.unlink()
    for path, data in files.items():
        path.write_bytes(data)


def compare(data_dir, files):
    """Prints what differs; answers whether anything does."""
    faults = []
    for path, data in files.items():
        if not path.is_file():
            faults.append(f"missing: {path}")
        elif path.read_bytes() != data:
            faults.append(f"differs: {path}")
    faults.extend(f"too many: {path}" for path in too_many(data_dir, files))
    print("\n".join(faults or ["nothing differs"]))
    return bool(faults)


def main(arguments):
    """Runs the program; answers its status."""
    if arguments not in ([], ["--write"]):
        print("usage: plan_files.py [--write]", file=sys.stderr)
        return 2
    check_example()
    check_example_list()
    check_turn_table()
    check_figures()
    check_limits()
    crate = Path(__file__).resolve().parent.parent / "crates" / "plan_files"
    data_dir = crate / "data"
    files = wanted_files(data_dir, crate / "stdout")
    if arguments:
        write(data_dir, files)
        return 0
    return 1 if compare(data_dir, files) else 0


if __name__ == "__main__":
    sys.exit(main(sys.argv[1:]))
