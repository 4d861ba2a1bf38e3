#!/usr/bin/env python3
"""Expected figures of the six calls and of rows of them, for comparison with the library.

Written from the definitions in docs/SPECIFICATION.md; it shares no code with the library. It takes every voxel with
every cell, in exact whole numbers; each landed edge is rounded from its exact fraction. Run it as
`python3 tools/oracle.py`; its output is kept in tools/oracle.txt. A failed self-check ends it with an error.
"""

import random
from fractions import Fraction
from functools import cache
from math import isqrt

R = 16384
SINES = [0, 1606, 3196, 4756, 6270, 7723, 9102, 10394, 11585, 12665, 13623, 14449, 15137, 15679, 16069, 16305, 16384]


# Kinds of value: zero, plus, times, multiple, and how a value is printed.
class Count:
    zero = 0
    plus = staticmethod(lambda p, q: (p + q) % 2**64)
    times = staticmethod(lambda p, q: p * q % 2**64)
    multiple = staticmethod(lambda p, n: p * n % 2**64)
    of = staticmethod(lambda n: n % 2**64)
    show = staticmethod(lambda p: str(p - 2**64 if p >= 2**63 else p))


class Pair:
    zero = (0, 0)
    plus = staticmethod(lambda p, q: (Count.plus(p[0], q[0]), Count.plus(p[1], q[1])))
    times = staticmethod(lambda p, q: (Count.times(p[0], q[0]), Count.times(p[1], q[1])))
    multiple = staticmethod(lambda p, n: (Count.multiple(p[0], n), Count.multiple(p[1], n)))
    of = staticmethod(lambda n: (Count.of(n), Count.of(2 * n + 1)))
    show = staticmethod(lambda p: "(%s,%s)" % (Count.show(p[0]), Count.show(p[1])))


class Reach:
    zero = False
    plus = staticmethod(lambda p, q: p or q)
    times = staticmethod(lambda p, q: p and q)
    multiple = staticmethod(lambda p, n: p if n else False)
    of = staticmethod(lambda n: n % 2 == 1)
    show = staticmethod(lambda p: "yes" if p else "no")


# Geometry.
@cache
def nearest(n, d):  # the whole number nearest to n / d, of two that are equally near the one farther from zero
    exact = Fraction(n, d)
    below = exact.numerator // exact.denominator
    return min((below, below + 1), key=lambda whole: (abs(exact - whole), -abs(whole)))


def heading(q):
    h, r = divmod(q, 16)
    up, down = SINES[r], SINES[16 - r]
    return [(up, down), (down, -up), (-up, -down), (-down, up)][h]


def is_accepted(c, s):  # as a direction of a list
    return abs(c * c + s * s - 2**28) <= 32768


def list_refusal(directions):  # number and place, and what is known of it, or none
    if not 1 <= len(directions) <= 1024:
        return 2, 0, len(directions)
    return next(((11, 0, d, pair) for d, pair in enumerate(directions) if not is_accepted(*pair)), None)


def overlap(p0, p1, q0, q1):
    return max(0, min(max(p0, p1), max(q0, q1)) - max(min(p0, p1), min(q0, q1)))


class View:
    def __init__(self, plan, step):
        self.plan = plan
        c, s = plan.direction(step)
        self.slabs_along_y = abs(c) >= abs(s)
        self.a, self.b = (c, s) if self.slabs_along_y else (s, -c)

    def slab_sum(self, j):
        edges = self.plan.y if self.slabs_along_y else self.plan.x
        total = edges[j] + edges[j + 1]
        return total if self.slabs_along_y else -total

    def U(self, j, i):
        D, a, b, Q = self.plan.D, self.a, self.b, self.slab_sum(j)
        e = (self.plan.x if self.slabs_along_y else self.plan.y)[i]
        return nearest(D * (2 * e * a + Q * b), 2 * D * a - R * Q)

    def W(self, j, l):
        D, a, Q = self.plan.D, self.a, self.slab_sum(j)
        return nearest(2 * D * a * self.plan.z[l], 2 * D * a - R * Q)

    def S(self, k):
        edge = self.plan.column[k]
        return nearest(self.plan.D * R * edge, self.plan.F * self.a - edge * self.b)

    def T(self, k, m):
        K = self.plan.column[k] + self.plan.column[k + 1]
        return nearest(2 * self.plan.D * self.a * self.plan.row[m], 2 * self.plan.F * self.a - K * self.b)

    def weight(self, i, j, l, m, k):
        slab, cross = (j, i) if self.slabs_along_y else (i, j)
        across = overlap(self.U(slab, cross), self.U(slab, cross + 1), self.S(k), self.S(k + 1))
        return across * overlap(self.W(slab, l), self.W(slab, l + 1), self.T(k, m), self.T(k, m + 1))


class Plan:
    def __init__(self, D, F, x, y, z, column, row, steps, directions=None):  # none is the turn table
        self.D, self.F, self.x, self.y, self.z, self.column, self.row = D, F, x, y, z, column, row
        self.directions = directions
        self.nx, self.ny, self.nz = len(x) - 1, len(y) - 1, len(z) - 1
        self.columns, self.rows = len(column) - 1, len(row) - 1
        self.views = [View(self, step) for step in steps]
        self.steps = steps

    def direction(self, step):  # c and s
        return heading(step)[::-1] if self.directions is None else self.directions[step]

    def voxels(self):  # place and numbers
        return [((l * self.ny + j) * self.nx + i, i, j, l)
                for l in range(self.nz) for j in range(self.ny) for i in range(self.nx)]

    def cells(self, v):
        return [((v * self.rows + m) * self.columns + k, m, k)
                for m in range(self.rows) for k in range(self.columns)]

    def refusal(self):  # of a draft whose axes are in order: number and place, for a list what is known too, or none
        if not 1 <= self.D <= 2**24:
            return 6, 0
        if not self.D <= self.F <= 2**25:
            return 6, 1
        if self.D <= 2 * max(abs(e) for e in self.x + self.y):
            return 7, 0
        for k, e in enumerate(self.column):
            if abs(e) >= self.F:
                return 8, k
        return None if self.directions is None else list_refusal(self.directions)

    def step_refusal(self, step):  # number and place, and what is known of it, or none
        directions = 64 if self.directions is None else len(self.directions)
        return None if 0 <= step < directions else (9, 0, step, directions)


# Sweeps.
def forward(kind, plan, v, factor, volume, working):
    out = list(working)
    for c, m, k in plan.cells(v):
        total = kind.zero
        for p, i, j, l in plan.voxels():
            total = kind.plus(total, kind.multiple(volume[p], plan.views[v].weight(i, j, l, m, k)))
        out[c] = kind.plus(working[c], kind.times(factor, total))
    return out


def back(kind, plan, v, factor, volume, working):
    out = list(volume)
    for p, i, j, l in plan.voxels():
        total = kind.zero
        for c, m, k in plan.cells(v):
            total = kind.plus(total, kind.multiple(working[c], plan.views[v].weight(i, j, l, m, k)))
        out[p] = kind.plus(volume[p], kind.times(factor, total))
    return out


def inner(kind, xs, ys):
    total = kind.zero
    for x, y in zip(xs, ys, strict=True):
        total = kind.plus(total, kind.times(x, y))
    return total


# The calls between sweeps.
def take(kind, plan, v, factor, measured, working):
    out = list(working)
    for c, m, k in plan.cells(v):
        out[c] = kind.plus(working[c], kind.times(factor, measured[c]))
    return out


def give(kind, plan, v, factor, measured, working):
    out = list(measured)
    for c, m, k in plan.cells(v):
        out[c] = kind.plus(measured[c], kind.times(factor, working[c]))
    return out


def scale(kind, plan, v, factor, working):
    out = list(working)
    for c, m, k in plan.cells(v):
        out[c] = kind.times(factor, working[c])
    return out


def trim(kind, plan, box, volume):
    out = list(volume)
    for p, i, j, l in plan.voxels():
        if not all(lower <= n < upper for n, (lower, upper) in zip((i, j, l), box)):
            out[p] = kind.zero
    return out


# Rows. A call is its name, then its view and factor, or its box: (lower, upper) along x, y and z. Stores are volume,
# measured and working, in this order.
STORES = dict(forward=(0, 2), back=(0, 2), take=(1, 2), give=(1, 2), scale=(2,), trim=(0,), run=(0, 1, 2))
TURNED = dict(forward="back", back="forward", take="give", give="take", scale="scale", trim="trim")


def refusal(plan, call, lengths):  # number and place, and what is known of it, or none
    name = call[0]
    if name not in ("trim", "run") and call[1] >= len(plan.views):
        return 22, 0, call[1], len(plan.views)
    wanted = [plan.nx * plan.ny * plan.nz] + [len(plan.views) * plan.rows * plan.columns] * 2
    for s in STORES[name]:
        if lengths[s] != wanted[s]:
            return 23, 0, ("volume", "measured", "working")[s], lengths[s], wanted[s]
    if name == "trim":
        for axis, (lower, upper), n in zip("xyz", call[1], (plan.nx, plan.ny, plan.nz)):
            if not lower <= upper <= n:
                return 24, 0, axis, lower, upper, n
    return None


def called(kind, plan, call, stores):
    volume, measured, working = stores
    name, *rest = call
    if name == "forward":
        return volume, measured, forward(kind, plan, *rest, volume, working)
    if name == "back":
        return back(kind, plan, *rest, volume, working), measured, working
    if name == "take":
        return volume, measured, take(kind, plan, *rest, measured, working)
    if name == "give":
        return volume, give(kind, plan, *rest, measured, working), working
    if name == "scale":
        return volume, measured, scale(kind, plan, *rest, working)
    return trim(kind, plan, *rest, volume), measured, working


def run(kind, plan, row, stores):  # the outcome, and how many calls were refused
    refused = 0
    for call in row:
        if refusal(plan, call, [len(store) for store in stores]):
            refused += 1
        else:
            stores = called(kind, plan, call, stores)
    return stores, refused


def mirrored(row):
    return [(TURNED[call[0]], *call[1:]) for call in reversed(row)]


def inner_of_stores(kind, a, b):
    return inner(kind, [x for store in a for x in store], [y for store in b for y in store])


def sides(kind, plan, row, start, test):  # of the mirrored row's law
    there, refused = run(kind, plan, row, start)
    here, again = run(kind, plan, mirrored(row), test)
    check(refused == again, "a row and its mirrored row have as many refused calls")
    return inner_of_stores(kind, there, test), inner_of_stores(kind, start, here)


# Self-checks.
def check(holds, what):
    if not holds:
        raise SystemExit("self-check failed: " + what)


def mirrored_edges(edges, landed):
    return all(landed(edges.index(-e)) == -landed(i) for i, e in enumerate(edges) if -e in edges)


def check_mirrors(plan, view, slabs):
    check(all(mirrored_edges(plan.z, lambda l: view.W(j, l)) for j in range(slabs)), "W mirrors z")
    check(all(mirrored_edges(plan.row, lambda m: view.T(k, m)) for k in range(plan.columns)), "T mirrors the rows")
    if view.b == 0:
        crosses = plan.x if view.slabs_along_y else plan.y
        check(all(mirrored_edges(crosses, lambda i: view.U(j, i)) for j in range(slabs)), "U mirrors the cross axis")
        check(mirrored_edges(plan.column, view.S), "S mirrors the columns")


def check_directions(plan):  # of the turn table, which every plan may have, and of the plan's own views
    for up, down in zip(SINES, reversed(SINES), strict=True):
        check(abs(up * up + down * down - 2**28) <= 17126, "circle rule of the entries")
    for q in range(64):
        s, c = heading(q)
        check(abs(c * c + s * s - 2**28) <= 17126, "circle rule")
        check(is_accepted(c, s), "directions of the turn table are accepted")
    for step, view in zip(plan.steps, plan.views, strict=True):
        check(plan.step_refusal(step) is None, "steps are places in the list")
        check(11585 <= abs(view.a) <= 16384 and abs(view.b) <= abs(view.a), "a and b keep their bounds")


def check_columns(plan, view):
    S = [view.S(k) for k in range(plan.columns + 1)]
    check(S == sorted(S, reverse=view.a < 0), "S goes one way, down when a is negative")
    for k in range(plan.columns):
        T = [view.T(k, m) for m in range(plan.rows + 1)]
        check(T == sorted(T), "T never goes down")


def check_slab(plan, view, j, crosses):
    S = [view.S(k) for k in range(plan.columns + 1)]
    U = [view.U(j, i) for i in range(crosses + 1)]
    W = [view.W(j, l) for l in range(plan.nz + 1)]
    check(U == sorted(U) and W == sorted(W), "U and W never go down")
    check(all(abs(e) < 2**25 for e in U + W), "U and W are below 2^25")
    for i in range(crosses):
        parts = [overlap(U[i], U[i + 1], S[k], S[k + 1]) for k in range(plan.columns)]
        check(sum(parts) == overlap(U[i], U[i + 1], S[0], S[-1]), "overlaps with columns add up")
    for k in range(plan.columns):
        T = [view.T(k, m) for m in range(plan.rows + 1)]
        for l in range(plan.nz):
            parts = [overlap(W[l], W[l + 1], T[m], T[m + 1]) for m in range(plan.rows)]
            check(sum(parts) == overlap(W[l], W[l + 1], T[0], T[-1]), "overlaps with rows add up")


def check_transpose(kind, plan, v):
    n, places = len(plan.voxels()), len(plan.views) * plan.rows * plan.columns
    volume = [kind.of(5 * p * p - 7) for p in range(n)]
    test = [kind.of(3 * c - 4) for c in range(places)]
    f = kind.of(-3)
    mine = [c for c, m, k in plan.cells(v)]
    there = forward(kind, plan, v, f, volume, [kind.zero] * places)
    here = back(kind, plan, v, f, [kind.zero] * n, test)
    check(inner(kind, [there[c] for c in mine], [test[c] for c in mine]) == inner(kind, volume, here),
          "forward and back are transposes")


def check_plan(name, plan):
    check(plan.refusal() is None, name + " is admitted")
    check_directions(plan)
    for v, view in enumerate(plan.views):
        slabs, crosses = (plan.ny, plan.nx) if view.slabs_along_y else (plan.nx, plan.ny)
        check_columns(plan, view)
        for j in range(slabs):
            check_slab(plan, view, j, crosses)
        check_mirrors(plan, view, slabs)
        for kind in (Count, Pair, Reach):
            check_transpose(kind, plan, v)
        for p, i, j, l in plan.voxels():
            for c, m, k in plan.cells(v):
                check(view.weight(i, j, l, m, k) < 2**52, "weights are below 2^52")


def line(name, kind, store):
    print(name + ":", " ".join(kind.show(p) for p in store))


def numbers(name, store):
    print(name + ":", " ".join(str(p) for p in store))


SMALL = dict(x=[-100, 0, 100], y=[-100, 0, 100], z=[-50, 50], column=[-200, 0, 200], row=[-100, 100])
UNEVEN = dict(x=[-100, -20, 50, 100], y=[-90, 0, 30], z=[-50, 10, 50], column=[-200, -50, 60, 200], row=[-100, 0, 100])


def small():
    plan = Plan(D=1000, F=2000, **SMALL, steps=[0, 16, 8, 32])
    check_plan("small", plan)
    print("case small: steps 0 16 8 32")
    for slab in (1, 0):
        numbers("step 0 slab %d U" % slab, [plan.views[0].U(slab, i) for i in range(3)])
        numbers("step 0 slab %d W" % slab, [plan.views[0].W(slab, l) for l in range(2)])
    ones, cells = [1] * 4, [1] * 8
    working = forward(Count, plan, 1, 1, ones, forward(Count, plan, 0, 1, ones, [0] * 8))
    line("step 0 forward of ones", Count, working[0:2])
    line("step 16 forward of ones", Count, working[2:4])
    volume = back(Count, plan, 0, 1, [0] * 4, cells)
    line("step 0 back of ones", Count, volume)
    line("step 0 inner product of back with ones", Count, [inner(Count, volume, ones)])
    line("step 0 inner product of forward with ones", Count, [inner(Count, working[0:2], [1, 1])])
    for i in (0, 1):
        numbers("step 8 weights of voxel (%d, 1) on columns" % i, [plan.views[2].weight(i, 1, 0, 0, k) for k in (0, 1)])
    numbers("step 32 S", [plan.views[3].S(k) for k in range(3)])
    numbers("step 32 weights of voxel (0, 0) on columns", [plan.views[3].weight(0, 0, 0, 0, k) for k in (0, 1)])
    hit = [False] * 4
    for v in (0, 1):
        hit = back(Reach, plan, v, True, hit, [True] * 8)
    line("steps 0 16 back of Reach", Reach, hit)
    numbers("tally", [sum(hit)])
    for D in (200, 201):
        print("D %d: %s" % (D, Plan(D=D, F=2000, **SMALL, steps=[]).refusal()))
    for last in (2000, 1999):
        wide = dict(SMALL, column=[-200, 0, last])
        print("last column edge %d: %s" % (last, Plan(D=1000, F=2000, **wide, steps=[]).refusal()))


def x_slabs():
    plan = Plan(D=1000, F=2000, **SMALL, steps=[20])
    check_plan("x slabs", plan)
    view = plan.views[0]
    print("case x slabs: step 20, factor 3")
    numbers("a b", [view.a, view.b])
    for slab in (0, 1):
        numbers("slab %d U" % slab, [view.U(slab, i) for i in range(3)])
        numbers("slab %d W" % slab, [view.W(slab, l) for l in range(2)])
    numbers("S", [view.S(k) for k in range(3)])
    for k in (0, 1):
        numbers("column %d T" % k, [view.T(k, m) for m in range(2)])
    line("forward of 1 2 3 4 onto 5 5", Count, forward(Count, plan, 0, 3, [1, 2, 3, 4], [5, 5]))
    line("back of 7 -2 onto 1 2 3 4", Count, back(Count, plan, 0, 3, [1, 2, 3, 4], [7, Count.of(-2)]))


def uneven():
    plan = Plan(D=1000, F=2000, **UNEVEN, steps=[0, 5, 20, 40, 63])
    check_plan("uneven", plan)
    print("case uneven: steps 0 5 20 40 63, factor -1")
    for name, kind in (("Count", Count), ("Pair", Pair), ("Reach", Reach)):
        volume = [kind.of(p * p + 1) for p in range(12)]
        working = [kind.of(2 * c - 3) for c in range(30)]
        factor = kind.of(-1)
        line(name + " volume", kind, volume)
        line(name + " working", kind, working)
        line(name + " factor", kind, [factor])
        for v in range(5):
            line("%s forward of view %d onto zeros" % (name, v), kind,
                 forward(kind, plan, v, factor, volume, [kind.zero] * 30))
        line(name + " forward of view 1 onto working", kind, forward(kind, plan, 1, factor, volume, working))
        for v in range(5):
            line("%s back of view %d onto zeros" % (name, v), kind,
                 back(kind, plan, v, factor, [kind.zero] * 12, working))
        line(name + " back of view 1 onto volume", kind, back(kind, plan, 1, factor, volume, working))


def two_more():
    plan = Plan(D=500, F=2000, x=[-100, 0, 100], y=[-100, 0, 100], z=[-50, 0, 50],
                column=[-1000, 0, 1000], row=[-50, 0, 50], steps=[0])
    check_plan("first edges", plan)
    view = plan.views[0]
    print("case first edges: D 500, step 0")
    numbers("U W S T of edge 0, slab 0, column 0", [view.U(0, 0), view.W(0, 0), view.S(0), view.T(0, 0)])
    plan = Plan(D=1000, F=2000, **UNEVEN, steps=[5, 20])
    volume = [p % 2 == 0 for p in range(12)]
    working = forward(Reach, plan, 1, True, volume, [False] * 12)
    print("case reaches: uneven plan, view 1 at step 20, every other voxel yes")
    numbers("tally of forward onto no", [sum(working)])
    numbers("tally of back of that onto the volume", [sum(back(Reach, plan, 1, True, volume, working))])


def halves():
    plan = Plan(D=1500, F=3000, x=[-6, -3, -1, 1, 3, 6], y=[-600, -400, 400, 600], z=[-3, -1, 1, 3],
                column=[-5, -3, -1, 1, 3, 5], row=[-3, -1, 1, 3], steps=[0, 32])
    check_plan("halves", plan)
    print("case halves: D 1500, F 3000, fractions that end in a half")
    for step, view in zip(plan.steps, plan.views):
        for slab in range(3):
            numbers("step %d slab %d U" % (step, slab), [view.U(slab, i) for i in range(6)])
            numbers("step %d slab %d W" % (step, slab), [view.W(slab, l) for l in range(4)])
        numbers("step %d S" % step, [view.S(k) for k in range(6)])
        numbers("step %d column 0 T" % step, [view.T(0, m) for m in range(4)])


THREE = [(16384, 0), (16069, 3196), (14189, 8192)]  # at 0, 11.25 and 30 degrees


def three_directions():
    plan = Plan(D=1000, F=2000, **SMALL, steps=[0, 1, 2], directions=THREE)
    check_plan("directions", plan)
    print("case directions: small plan, a list of three at 0, 11.25 and 30 degrees, steps 0 1 2")
    numbers("list", THREE)
    for v, view in enumerate(plan.views):
        numbers("view %d a b" % v, [view.a, view.b])
        numbers("view %d slab 1 U" % v, [view.U(1, i) for i in range(3)])
        numbers("view %d slab 1 W" % v, [view.W(1, l) for l in range(2)])
        numbers("view %d S" % v, [view.S(k) for k in range(3)])
    working, hit = [0] * 6, [False] * 4
    for v in range(3):
        working = forward(Count, plan, v, 1, [1] * 4, working)
        hit = back(Reach, plan, v, True, hit, [True, False] * 3)
    line("forward of ones onto zeros, the three views in turn", Count, working)
    for v in range(3):
        line("back of ones of view %d onto zeros" % v, Count, back(Count, plan, v, 1, [0] * 4, [1] * 6))
    line("back of Reach from the first column of the three views", Reach, hit)
    numbers("tally", [sum(hit)])


def ends(a):  # of the b from 0 to a that are accepted with a: the least and the greatest
    taken = [b for b in range(a + 1) if is_accepted(a, b)]
    return taken[0], taken[-1]


def ties_and_quarters():
    most = ends(16384)[1]
    # With |a| at its least, 11,585, b can be a or -a alone: the ties are that end.
    check(ends(11585) == (11585, 11585), "only ties have the least |a|")
    ties = [(11585, 11585), (-11585, 11585), (-11585, -11585), (11585, -11585)]
    pairs = ties + [(11586, 11584), (11584, 11586), (16384, most), (most, -16384)]
    plan = Plan(D=1000, F=2000, **UNEVEN, steps=list(range(8)), directions=pairs)
    check_plan("ties and quarters", plan)
    print("case directions at ties and quarters: uneven plan, a list of 8, steps in its order, factor 1")
    for a in (11585, 11586, 16384):
        numbers("least and greatest |b| accepted with |a| %d" % a, ends(a))
    numbers("list", pairs)
    volume = [p * p + 1 for p in range(12)]
    for v, view in enumerate(plan.views):
        numbers("view %d a b" % v, [view.a, view.b])
        print("view %d slabs: %s" % (v, "y" if view.slabs_along_y else "x"))
        numbers("view %d S" % v, [view.S(k) for k in range(4)])
        working = forward(Count, plan, v, 1, volume, [0] * 48)
        cells = [working[c] for c, m, k in plan.cells(v)]
        line("view %d forward of the volume onto zeros, its cells" % v, Count, cells)


def landed(plan, view):  # every landed edge of a view
    slabs, crosses = (plan.ny, plan.nx) if view.slabs_along_y else (plan.nx, plan.ny)
    return ([[view.U(j, i) for i in range(crosses + 1)] for j in range(slabs)],
            [[view.W(j, l) for l in range(plan.nz + 1)] for j in range(slabs)],
            [view.S(k) for k in range(plan.columns + 1)],
            [[view.T(k, m) for m in range(plan.rows + 1)] for k in range(plan.columns)])


def turntable():
    steps = list(range(64))
    table = [(c, s) for s, c in map(heading, steps)]
    told = 0
    for axes in (SMALL, UNEVEN):
        plan = Plan(D=1000, F=2000, **axes, steps=steps)
        listed = Plan(D=1000, F=2000, **axes, steps=steps, directions=table)
        check(listed.refusal() is None, "the turn table is accepted as a list")
        for one, other in zip(plan.views, listed.views, strict=True):
            check((one.a, one.b, one.slabs_along_y) == (other.a, other.b, other.slabs_along_y), "a list of the table")
            check(landed(plan, one) == landed(listed, other), "a list of the table lands edges as the table does")
            told += 1
    print("case turntable: views whose U, W, S and T are the same from the table as from a list of it: %d" % told)


def wide():
    plan = Plan(D=1000, F=2000, **dict(UNEVEN, column=list(range(-180, 181, 20))), steps=[40])
    check_plan("wide", plan)
    print("case wide: the uneven plan with 18 columns from -180 on, 20 each, step 40, factor 2")
    numbers("S", [plan.views[0].S(k) for k in range(19)])
    volume = [p * p + 1 for p in range(12)]
    working = forward(Count, plan, 0, 2, volume, [0] * 36)
    line("forward of the volume onto zeros", Count, working)
    line("back of 1 .. 36 onto zeros", Count, back(Count, plan, 0, 2, [0] * 12, list(range(1, 37))))


BOX = ((0, 2), (0, 2), (1, 2))


def six(kind):  # the six calls, each on what the others leave
    return [("forward", 1, kind.of(-1)), ("take", 1, kind.of(5)), ("scale", 1, kind.of(-7)), ("give", 1, kind.of(9)),
            ("back", 1, kind.of(3)), ("trim", BOX)]


def with_refused(kind, row):
    beyond = ("trim", ((0, 4), (0, 0), (0, 0)))
    return [each for call in row for each in (call, ("back", 2, kind.of(11)), beyond)]


def stores_of(kind, numbers):
    return tuple([kind.of(n) for n in store] for store in numbers)


# For Reach yes is an odd number: one voxel of the start, and of the test stores one working cell that it reaches.
START = [4, 2, 6, 8, 9, 14, 12, 18, 16, 20, 26, 22], range(100, 124, 2), range(-30, -6, 2)
TEST = [2, -4, 6, 8, 10, -2, 4, -6, 2, 8, -8, 6], range(-12, 12, 2), [4, 6, -2, 8, 2, 10, -6, 2, 12, -4, 3, 8]


def calls():
    plan = Plan(D=1000, F=2000, **UNEVEN, steps=[5, 20])
    print("case calls: uneven plan, steps 5 20, view 1")
    volume, measured, working = stores_of(Count, START)
    line("volume", Count, volume)
    line("measured", Count, measured)
    line("working", Count, working)
    line("take, factor 5", Count, take(Count, plan, 1, 5, measured, working))
    line("give, factor -2", Count, give(Count, plan, 1, Count.of(-2), measured, working))
    line("scale, factor -7", Count, scale(Count, plan, 1, Count.of(-7), working))
    whole = (0, 3), (0, 2), (0, 2)
    for box in (((1, 3), (1, 2), (0, 2)), ((1, 1), *whole[1:]), ((3, 3), *whole[1:]), whole,
                ((2, 3), *whole[1:]), ((0, 3), (0, 1), (0, 2)), ((0, 3), (0, 2), (1, 2)), ((2, 3), (1, 2), (1, 2))):
        line("trim to %s" % " ".join("%d..%d" % bounds for bounds in box), Count, trim(Count, plan, box, volume))


def refused_calls():
    plan = Plan(D=1000, F=2000, **UNEVEN, steps=[5, 20])
    print("case refusals of calls: uneven plan, steps 5 20; stores of so many places")
    fits, short = [12, 12, 12], [11, 11, 11]
    for name in ("take", "give", "scale"):
        for view, lengths in ((2, short), (1, [12, 11, 13]), (1, [12, 12, 13])):
            print("%s of view %d, %s: %s" % (name, view, lengths, refusal(plan, (name, view, 1), lengths)))
    whole = [(0, 3), (0, 2), (0, 2)]
    for lengths, *box in ((short, (2, 1), *whole[1:]), (fits, (2, 1), *whole[1:]), (fits, (0, 4), *whole[1:]),
                          (fits, (0, 3), (2, 1), (0, 2)), (fits, (0, 3), (0, 3), (0, 2)),
                          (fits, (0, 3), (0, 2), (2, 1)), (fits, (0, 3), (0, 2), (0, 3)),
                          (fits, (3, 2), (3, 3), (4, 2)), (fits, (3, 3), (3, 3), (4, 2))):
        print("trim to %s, %s: %s" % (box, lengths, refusal(plan, ("trim", box), lengths)))
    for lengths in ([11, 13, 12], [12, 13, 11], [12, 12, 11], fits):
        print("row, %s: %s" % (lengths, refusal(plan, ("run",), lengths)))


def pair_of(total):  # c and s whose squares come to it, or none
    for c in range(isqrt(total) + 1):
        s = isqrt(total - c * c)
        if c * c + s * s == total:
            return c, s
    return None


def sums_at_limits():  # on each side of each limit the nearest sum that some pair has, with a pair of it
    found = []
    for beyond, way in ((-32769, -1), (-32768, 1), (32768, -1), (32769, 1)):
        while pair_of(2**28 + beyond) is None:
            beyond += way
        found.append((beyond, pair_of(2**28 + beyond)))
    return found


def refused_directions():
    print("case refusals of directions: small plan; number, place, and the length, or which direction and its pair")
    good, bad = (16384, 0), (16385, 0)

    def tell(name, pairs, **other):
        plan = Plan(**dict(dict(SMALL, D=1000, F=2000), **other), steps=[], directions=pairs)
        print("%s: %s" % (name, plan.refusal()))

    tell("no pair", [])
    for length in (1, 1024, 1025):
        tell("%d times %s" % (length, good), [good] * length)
    for beyond, pair in sums_at_limits():
        tell("%s, sum 2^28 %+d" % (pair, beyond), [pair])
    for pair in (bad, (0, 0)):
        tell("%s" % (pair,), [pair])
    tell("both -2^31", [(-2**31, -2**31)])
    tell("a sum that is 2^28 modulo 2^32", [(278528, 0)])
    tell("%s, then two that are not accepted" % (good,), [good, bad, (0, 0)])
    tell("1023 times %s, then %s" % (good, bad), [good] * 1023 + [bad])
    tell("1025 pairs, the first not accepted", [bad] + [good] * 1024)
    for other in (dict(D=0), dict(F=999), dict(D=200), dict(column=[-200, 0, 2000])):
        what = ", ".join("%s %s" % each for each in other.items())
        tell("no pair, " + what, [], **other)
        tell("%s, %s" % (bad, what), [bad], **other)
    for name, pairs in (("a list of three", THREE), ("the turn table", None)):
        plan = Plan(D=1000, F=2000, **SMALL, steps=[], directions=pairs)
        for step in (0, 2, 3, -1, 63, 64):
            print("step %d of %s: %s" % (step, name, plan.step_refusal(step)))


def six_calls(plan, lengths):  # what they leave, and both sides of the mirrored row's law for the first so many
    outcome, refused = run(Count, plan, six(Count), stores_of(Count, START))
    check(refused == 0, "the six calls are accepted")
    for name, store in zip(("volume", "measured", "working"), outcome):
        line("outcome " + name, Count, store)
    again, refused = run(Count, plan, with_refused(Count, six(Count)), stores_of(Count, START))
    check(again == outcome, "refused calls alter nothing")
    numbers("refused of the row with two refused calls after each", [refused])
    for name, kind in (("Count", Count), ("Pair", Pair), ("Reach", Reach)):
        both_sides(name, kind, plan, lengths)


def both_sides(name, kind, plan, lengths):
    start, test = stores_of(kind, START), stores_of(kind, TEST)
    for length in lengths:
        row = with_refused(kind, six(kind))[:length]
        there, here = sides(kind, plan, row, start, test)
        check(there == here, "both sides are equal")
        check(length == 0 or there != kind.zero, "they are not zero")
        line("%s both sides of the first %d calls" % (name, length), kind, [there, here])
    turned = [(TURNED[call[0]], *call[1:]) for call in row]
    check(inner_of_stores(kind, start, run(kind, plan, turned, test)[0]) != there, "the order counts")
    if kind is not Reach:
        backwards = run(kind, plan, list(reversed(row)), test)[0]
        check(inner_of_stores(kind, start, backwards) != there, "the turning counts")


def rows():
    plan = Plan(D=1000, F=2000, **SMALL, steps=[0])
    print("case rows: small plan, step 0: forward and back of ones, test cells 1 0")
    row = [("forward", 0, 1), ("back", 0, 1)]
    line("inner products of both sides", Count,
         sides(Count, plan, row, ([1] * 4, [0] * 2, [0] * 2), ([0] * 4, [0] * 2, [1, 0])))
    plan = Plan(D=1000, F=2000, **UNEVEN, steps=[5, 20])
    check_plan("rows", plan)
    print("case rows: uneven plan, steps 5 20, the six calls")
    six_calls(plan, (0, 1, 18))


def rows_with_list():
    pairs = [(5334, 15491), (15396, 5604)]  # at 71 and 20 degrees
    plan = Plan(D=1000, F=2000, **UNEVEN, steps=[1, 0], directions=pairs)
    check_plan("rows with a list", plan)
    print("case rows with a list: uneven plan, a list of two at 71 and 20 degrees, steps 1 0, the six calls")
    numbers("list", pairs)
    numbers("view 1 a b", [plan.views[1].a, plan.views[1].b])
    six_calls(plan, (1, 6, 18))


def added(kind, a, b):
    return tuple([kind.plus(x, y) for x, y in zip(*two)] for two in zip(a, b))


def multiplied(kind, f, a):
    return tuple([kind.times(f, x) for x in store] for store in a)


def check_linear(kind, plan, row, start, other, f):
    outcome, second = run(kind, plan, row, start)[0], run(kind, plan, row, other)[0]
    check(run(kind, plan, row, added(kind, start, other))[0] == added(kind, outcome, second),
          "the outcome of a sum is the sum of the outcomes")
    check(run(kind, plan, row, multiplied(kind, f, start))[0] == multiplied(kind, f, outcome),
          "the outcome of a multiple is the multiple of the outcome")


def random_rows():
    rng = random.Random(1)
    plans = [Plan(D=1000, F=2000, **SMALL, steps=[0, 20]), Plan(D=1000, F=2000, **UNEVEN, steps=[5, 20]),
             Plan(D=1000, F=2000, **UNEVEN, steps=[2, 0], directions=[(5334, -15491), THREE[1], (-11585, 11585)])]

    def number(share):  # zero but for a share
        return rng.randrange(2**64) if rng.random() < share else 0

    def stores(kind, plan, share):
        places = len(plan.views) * plan.rows * plan.columns
        return stores_of(kind, [[number(share) for p in range(n)] for n in (len(plan.voxels()), places, places)])

    def call(kind, plan):
        name = rng.choice(sorted(TURNED))
        if name == "trim":
            return name, [(rng.randint(0, 1), rng.randint(n - 1, n) + (rng.random() < 0.05))
                          for n in (plan.nx, plan.ny, plan.nz)]
        return name, rng.randrange(len(plan.views) + (rng.random() < 0.2)), kind.of(number(0.9))

    tried = told = refusing = 0
    for kind in (Count, Pair, Reach):
        for _ in range(200):
            plan, share = rng.choice(plans), rng.choice((0.1, 0.3, 1))
            row = [call(kind, plan) for _ in range(rng.randint(0, 9))]
            start, other, test = [stores(kind, plan, share) for _ in range(3)]
            there, here = sides(kind, plan, row, start, test)
            check(there == here, "the mirrored row is the transpose")
            check_linear(kind, plan, row, start, other, kind.of(rng.randrange(2**64)))
            refused = run(kind, plan, row, start)[1]
            tried, told, refusing = tried + 1, told + (there != kind.zero), refusing + (refused > 0)
    check(2 * told > tried and 5 * refusing > tried, "random rows tell something")
    print("random rows of Count, Pair and Reach, matched and linear: %d, all equal" % tried)


def iterate(plan):
    views, zeros = range(len(plan.views)), [0] * (len(plan.views) * plan.rows * plan.columns)
    shadow = run(Count, plan, [("forward", v, 1) for v in views], ([1] * 4, zeros, zeros))[0][2]
    row = [(name, v, f) for name, f in (("forward", Count.of(-1)), ("take", 1), ("back", 1)) for v in views]
    (image, _, working), refused = run(Count, plan, row, ([2] * 4, shadow, zeros))
    line("image", Count, image)
    line("working", Count, working)
    numbers("refused", [refused])


def landweber():
    plan = Plan(D=1000, F=2000, **SMALL, steps=[0, 16])
    print("case iteration: small plan, steps 0 16, Landweber from an image of twos, measured is the forward of ones")
    iterate(plan)
    row = [("back", v, True) for v in (0, 1)]
    (reached, _, _), _ = run(Reach, plan, row, ([False] * 4, [False] * 4, [True, False] * 2))
    line("voxels that the first column of some view reaches", Reach, reached)


def landweber_with_list():
    plan = Plan(D=1000, F=2000, **SMALL, steps=[0, 1, 2], directions=THREE)
    print("case iteration with a list: small plan, the list of three, steps 0 1 2, Landweber as before")
    iterate(plan)


def first_cells():
    steps = [0, 8, 16, 24, 32]
    plan = Plan(D=1000, F=2000, **SMALL, steps=steps)
    print("case first cells: small plan, where cell (0, 0) starts and ends: S 0, S 1, T 0 0, T 0 1")
    for step, view in zip(steps, plan.views):
        numbers("step %d" % step, [view.S(0), view.S(1), view.T(0, 0), view.T(0, 1)])


small()
first_cells()
x_slabs()
uneven()
two_more()
halves()
three_directions()
ties_and_quarters()
turntable()
wide()
calls()
refused_calls()
refused_directions()
rows()
rows_with_list()
random_rows()
landweber()
landweber_with_list()
