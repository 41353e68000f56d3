"""rows.py: crates in rows, each above all that it stands on, with lines that pass beside the boxes. Used by pictures.py.

First the lines: without those that others make needless, and cut at the rows that they pass. Then the order in each row, so that few lines cross;
then the place in the row, so that most lines are straight. Everything is in whole numbers, and nothing depends on the order of a set, so that
every machine gives the same.
"""
import functools
from fractions import Fraction

TALL = 34  # a box's height
GAP = 56  # between two rows, at least
SPACE = 26  # between two boxes, or a box and a line that passes
STEM = 14  # how far a line goes straight before it ends
FINE = 64  # places are sought in parts of the picture's unit


# --- the lines ---

def heights(deps):
    """The row of each crate: one above the highest that it stands on."""
    @functools.cache
    def height(n):
        return 1 + max((height(d) for d in deps[n]), default=-1)
    return {n: height(n) for n in deps}


def direct(deps):
    """Without what is reached through another crate: that needs no arrow of its own."""
    @functools.cache
    def reached(n):
        return set().union(*({d} | reached(d) for d in deps[n]))
    return {n: [d for d in ds if not any(d in reached(o) for o in ds)] for n, ds in deps.items()}


class Net:
    """The crates and the lines between them, cut at the rows.

    A knot is a crate, or (crate, row): the place where lines to that crate pass a row. All of them pass there, and are one from there on."""

    def __init__(self, deps, width):
        height = heights(deps)
        self.ways = [[n] + [(d, r) for r in range(height[n] - 1, height[d], -1)] + [d] for n, ds in direct(deps).items() for d in ds]
        self.strands = list(dict.fromkeys(pair for way in self.ways for pair in zip(way, way[1:])))
        self.row = height | {k: k[1] for way in self.ways for k in way[1:-1]}
        self.width = width  # of a box
        self.reach = width // 2 - STEM  # how far from a box's middle a line may leave it
        self.up, self.down = {k: [] for k in self.row}, {k: [] for k in self.row}
        for a, b in self.strands:
            self.down[a].append(b)
            self.up[b].append(a)

    def near(self, k):
        return self.up[k] + self.down[k]

    def far(self, a, b):
        """How far apart the middles of two neighbours in a row are, at least."""
        return SPACE + sum(self.width // 2 for k in (a, b) if not passes(k))


def passes(k):
    return isinstance(k, tuple)


def stiff(a, b):
    """How much a line wants to be straight: most where it only passes."""
    return (1, 2, 8)[passes(a) + passes(b)]


# --- the order in a row ---

def crossings(net, rows):
    place = {k: i for row in rows for i, k in enumerate(row)}
    return sum(net.row[a] == net.row[c] and (place[a] - place[c]) * (place[b] - place[d]) < 0
               for i, (a, b) in enumerate(net.strands) for c, d in net.strands[:i])


def price(net, rows, most=None):
    """Few crossings first, then short lines. Where there are more crossings than in most, that is enough to know."""
    crossed = crossings(net, rows)
    if most and crossed > most[0]:
        return crossed, 0
    x = settled(net, rows)
    return crossed, sum(stiff(a, b) * (x[a] - x[b]) ** 2 for a, b in net.strands)


def by_neighbours(row, near, known):
    """The row, each one where the middle of its neighbours in the row known is."""
    place = {k: i for i, k in enumerate(known)}

    def middle(i):
        at = [place[n] for n in near[row[i]]]
        return Fraction(sum(at), len(at)) if at else Fraction(i)
    return [row[i] for i in sorted(range(len(row)), key=middle)]


def sweeps(net):
    """Orders to choose from: row by row after the row below, then after the row above, and again."""
    rows = [[k for k in net.row if net.row[k] == r] for r in range(max(net.row.values()) + 1)]
    for _ in range(6):
        for r in range(1, len(rows)):
            rows[r] = by_neighbours(rows[r], net.down, rows[r - 1])
        yield [list(row) for row in rows]
        for r in range(len(rows) - 2, -1, -1):
            rows[r] = by_neighbours(rows[r], net.up, rows[r + 1])
        yield [list(row) for row in rows]


def ordered(net):
    """The best of the sweeps, and then two that stand side by side change places wherever that is better."""
    least, rows = min(((price(net, rows), rows) for rows in sweeps(net)), key=lambda pair: pair[0])
    before = None
    while before != least:
        before = least
        for row in rows:
            for i in range(len(row) - 1):
                row[i], row[i + 1] = row[i + 1], row[i]
                now = price(net, rows, least)
                if now < least:
                    least = now
                else:
                    row[i], row[i + 1] = row[i + 1], row[i]
    return rows


# --- the place in a row ---

def spread(wanted, weights, gaps):
    """Places near the wanted ones, each at least its gap after the one before: those that would come too near form a block that moves as one."""
    blocks, offsets = [], []
    for place, weight, gap in zip(wanted, weights, gaps):
        offsets.append(gap + (offsets[-1] if offsets else 0))
        total, count = weight * (place - offsets[-1]), 1
        while blocks and blocks[-1][0] * weight >= total * blocks[-1][1]:
            t, w, c = blocks.pop()
            total, weight, count = total + t, weight + w, count + c
        blocks.append((total, weight, count))
    starts = [(2 * total + weight) // (2 * weight) for total, weight, count in blocks for _ in range(count)]
    return [s + o for s, o in zip(starts, offsets)]


def settled(net, rows):
    """Where each knot stands: row by row, down and up, as near to the middle of its neighbours as the row allows."""
    gaps = [[0] + [FINE * net.far(a, b) for a, b in zip(row, row[1:])] for row in rows]
    pulls = {k: [(n, stiff(k, n)) for n in net.near(k)] for k in net.row}
    weight = {k: sum(w for _, w in pulls[k]) or 1 for k in net.row}
    x = dict.fromkeys(net.row, 0)

    def settle(row, gap):
        wanted = [sum(w * x[n] for n, w in pulls[k]) // weight[k] for k in row]
        x.update(zip(row, spread(wanted, [weight[k] for k in row], gap)))

    for _ in range(20):
        for row, gap in [*zip(rows, gaps), *zip(rows[::-1], gaps[::-1])]:
            settle(row, gap)
    return {k: v // FINE for k, v in x.items()}


def bends(net, a, b, x):
    return abs(x[a] - x[b]) > (0 if passes(a) else net.reach)


def groups(net, k, x):
    """What may move as one: k alone; with the part of a passing line that is upright with it; with all that hang on it by upright lines."""
    yield {k}
    for only in (True, False):
        group, todo = {k}, [k]
        while todo:
            for n in net.near(todo.pop()):
                if n not in group and x[n] == x[k] and (not only or passes(n)):
                    group.add(n)
                    todo.append(n)
        yield group


def pushed(net, rows, group, place, x):
    """The group at a place, and what comes too near to it moved aside in its row."""
    x = x | {k: place for k in group}
    for row in rows:
        at = next((i for i, k in enumerate(row) if k in group), None)
        if at is not None:
            for a, b in zip(row[at:], row[at + 1:]):
                x[b] = max(x[b], x[a] + net.far(a, b))
            for a, b in zip(row[at::-1], row[at - 1::-1] if at else []):
                x[b] = min(x[b], x[a] - net.far(a, b))
    return x


def trouble(net, x):
    """Ways aside, and bends, which weigh more."""
    return sum(stiff(a, b) * (abs(x[a] - x[b]) + 10 * (x[a] != x[b]) + 40 * bends(net, a, b, x)) for a, b in net.strands)


def straightened(net, rows, x):
    """Groups move to where a neighbour stands, as long as that saves trouble."""
    for _ in range(20):
        before = x
        for k in net.row:
            for group in groups(net, k, x):
                places = dict.fromkeys(x[n] for m in net.row if m in group for n in net.near(m))
                x = min([x] + [pushed(net, rows, group, place, x) for place in places], key=lambda x: trouble(net, x))
        if x == before:
            break
    return x


# --- the ways ---

def ports(net, n, x):
    """Where each line leaves a crate: above the place that it goes to, if that makes it straight, else near the middle."""
    outs = sorted(net.down[n], key=lambda k: x[k])
    gap = min(16, 2 * net.reach // max(1, len(outs) - 1))
    wanted = [x[n] + (20 if x[k] > x[n] else -20) if bends(net, n, k, x) else x[k] for k in outs]
    weights = [1 if bends(net, n, k, x) else 1000 for k in outs]
    out = {}
    for i, (k, place) in enumerate(zip(outs, spread(wanted, weights, [gap] * len(outs)))):
        out[k] = min(max(place, x[n] - net.reach + gap * i), x[n] + net.reach - gap * (len(outs) - 1 - i))
    return out


def curve(a, b):
    """A piece from a down to b, upright at both ends: from row to row it stays between the rows."""
    third = (b[1] - a[1]) // 3
    return (b,) if a[0] == b[0] else ((a[0], a[1] + third), (b[0], b[1] - third), b)


def line_down(net, way, x, y):
    n = way[0]
    here = (ports(net, n, x)[way[1]], y[n] + TALL // 2)
    out = [(here,)]
    for k in way[1:]:
        top = y[k] - TALL // 2
        out.append(curve(here, (x[k], top - STEM)))
        here = (x[k], top + TALL if passes(k) else top)
        out.append((here,))
    return out


def row_heights(net, rows, x):
    """How low each knot stands: rows are farther apart where lines go far aside."""
    y, low = {}, TALL // 2
    for row in reversed(rows):
        y.update((k, low) for k in row)
        low += TALL + GAP + max((abs(x[k] - x[n]) // 10 for k in row for n in net.down[k]), default=0)
    return y


def layout(deps, width):
    """The middle of each crate's box, with the left and the top at 0; and for each line where it begins, where it ends, and its way."""
    net = Net(deps, width)
    rows = ordered(net)
    x = straightened(net, rows, settled(net, rows))
    left = min(x[k] - (0 if passes(k) else width // 2) for k in x)
    x = {k: place - left for k, place in x.items()}
    y = row_heights(net, rows, x)
    return {n: (x[n], y[n]) for n in deps}, [(way[0], way[-1], line_down(net, way, x, y)) for way in net.ways]
