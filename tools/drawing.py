"""drawing.py: a picture of boxes, arrows and labels: as SVG, and whether it is clean. Used by pictures.py."""
from dataclasses import dataclass, field

SIZE, LINE = 13, 17  # a letter's height and a line's, in the picture's units
BLACK, BLUE, RED, GREY = '#000', '#1a4f9c', '#b3261e', '#444'
EDGE = 20  # around a picture
SKY, SAND = '#e9f0fa', '#f8eeda'


@dataclass
class Box:
    """A box by its middle."""
    x: int
    y: int
    w: int
    h: int
    corner: int
    fill: str
    border: float = 1.2

    def rect(self):
        return self.x - self.w // 2, self.y - self.h // 2, self.x + self.w // 2, self.y + self.h // 2


@dataclass
class Arrow:
    """From a box, by name, to a box. The way is the first point, and then the points of each piece: one of a line, three of a cubic curve."""
    start: str
    end: str
    way: list

    def points(self):
        """The way as points with straight lines between them; a curve as 24 of these."""
        out = list(self.way[0])
        for piece in self.way[1:]:
            out += piece if len(piece) == 1 else [on_curve((out[-1], *piece), i / 24) for i in range(1, 25)]
        return out

    def lines(self):
        points = self.points()
        return zip(points, points[1:])


def on_curve(four, t):
    shares = (1 - t) ** 3, 3 * t * (1 - t) ** 2, 3 * t * t * (1 - t), t ** 3
    return tuple(sum(share * point[k] for share, point in zip(shares, four)) for k in (0, 1))


@dataclass
class Label:
    """Lines of text; a line is parts (text, colour). x is where its left end, middle or right end stands, y the top."""
    x: int
    y: int
    lines: list
    anchor: str = 'middle'
    size: int = SIZE
    box: str = ''  # the name of the box that it stands in

    def rect(self):
        """Where it stands, with 0.55 em for a letter: how wide it is drawn depends on the reader's fonts."""
        w = max(sum(len(text) for text, _ in line) for line in self.lines) * self.size * 0.55
        left = self.x - {'start': 0, 'middle': w / 2, 'end': w}[self.anchor]
        return left, self.y, left + w, self.y + LINE * len(self.lines)


@dataclass
class Picture:
    title: str
    boxes: dict = field(default_factory=dict)
    arrows: list = field(default_factory=list)
    labels: list = field(default_factory=list)


def above(x, y, lines):
    return Label(x, y - 5 - LINE * len(lines), lines)


def below(x, y, lines):
    return Label(x, y + 5, lines)


def beside(x, y, lines, side):
    """Left (-1) or right (1) of a line that goes down at x."""
    return Label(x + side * 8, y - LINE * len(lines) // 2, lines, 'start' if side > 0 else 'end')


def sheet(p):
    """Left, top, right and bottom of all that is there, with an edge around it."""
    rects = [thing.rect() for thing in [*p.boxes.values(), *p.labels]] + [point * 2 for a in p.arrows for point in a.points()]
    lefts, tops, rights, bottoms = zip(*rects)
    return int(min(lefts)) - EDGE, int(min(tops)) - EDGE, int(max(rights)) + EDGE, int(max(bottoms)) + EDGE


def plain(*lines, colour=BLACK):
    return [[(line, colour)] for line in lines]


# --- as SVG ---

def escaped(s):
    return s.replace('&', '&amp;').replace('<', '&lt;')


def box_svg(b):
    left, top, _, _ = b.rect()
    return (f'<rect x="{left}" y="{top}" width="{b.w}" height="{b.h}" rx="{b.corner}" fill="{b.fill}" stroke="black"'
            f' stroke-width="{b.border}"/>\n')


def arrow_svg(arrow, drawn):
    """The arrow, up to where it joins one that is drawn already."""
    here = arrow.way[0][0]
    path, head = f'M{here[0]},{here[1]}', ' marker-end="url(#a)"'
    for piece in arrow.way[1:]:
        if (here, piece) in drawn:
            head = ''
            break
        drawn.add((here, piece))
        path += ('L' if len(piece) == 1 else 'C') + ' '.join(f'{x},{y}' for x, y in piece)
        here = piece[-1]
    return f'<path d="{path}"{head}/>\n'


def label_svg(label):
    out = ''
    for i, line in enumerate(label.lines):
        parts = ''.join(f'<tspan fill="{colour}">{escaped(text)}</tspan>' for text, colour in line)
        y = label.y + LINE * i + LINE / 2 + label.size * 0.36
        out += f'<text x="{label.x:g}" y="{y:.1f}" text-anchor="{label.anchor}" font-size="{label.size}">{parts}</text>\n'
    return out


def svg(p):
    left, top, right, bottom = sheet(p)
    size, drawn = f'width="{right - left}" height="{bottom - top}"', set()
    return (f'<svg xmlns="http://www.w3.org/2000/svg" {size} viewBox="{left} {top} {right - left} {bottom - top}" font-family="sans-serif"'
            f' xml:space="preserve">\n<title>{escaped(p.title)}</title>\n'
            # The point of the arrowhead is the end of the line.
            '<defs><marker id="a" markerUnits="userSpaceOnUse" markerWidth="11" markerHeight="10" refX="11" refY="5" orient="auto">'
            '<path d="M0,0 L11,5 L0,10 z"/></marker></defs>\n'
            f'<rect x="{left}" y="{top}" {size} fill="white"/>\n'
            + ''.join(box_svg(b) for b in p.boxes.values())
            + '<g fill="none" stroke="black" stroke-width="1.2">\n' + ''.join(arrow_svg(a, drawn) for a in p.arrows) + '</g>\n'
            + ''.join(label_svg(l) for l in p.labels) + '</svg>\n')


# --- clean ---

def grown(rect, by):
    return rect[0] - by, rect[1] - by, rect[2] + by, rect[3] + by


def overlap(r, s):
    return r[0] < s[2] and s[0] < r[2] and r[1] < s[3] and s[1] < r[3]


def within(r, s):
    return s[0] <= r[0] and s[1] <= r[1] and r[2] <= s[2] and r[3] <= s[3]


def line_meets(a, b, rect):
    """Whether the line from a to b has a point inside: what is left of it after each side has cut its part off."""
    first, last = 0.0, 1.0
    for k in (0, 1):
        step = b[k] - a[k]
        if step == 0:
            if not rect[k] < a[k] < rect[k + 2]:
                return False
            continue
        t, u = sorted(((rect[k] - a[k]) / step, (rect[k + 2] - a[k]) / step))
        first, last = max(first, t), min(last, u)
    return first < last


def meets(arrow, rect):
    return any(line_meets(a, b, rect) for a, b in arrow.lines())


def on_border(point, box):
    """On a straight part of the border, so not where a corner is round."""
    (x, y), (left, top, right, bottom) = point, box.rect()
    return (x in (left, right) and top + box.corner <= y <= bottom - box.corner
            or y in (top, bottom) and left + box.corner <= x <= right - box.corner)


def arrow_faults(p):
    for a in p.arrows:
        said = f'the arrow from {a.start} to {a.end}'
        for name, b in p.boxes.items():
            # It touches the boxes that it joins, and keeps 4 away from the others.
            if meets(a, grown(b.rect(), -1 if name in (a.start, a.end) else 4)):
                yield f'{said} runs behind the box {name}'
        if a.start in p.boxes and not on_border(a.way[0][0], p.boxes[a.start]):
            yield f'{said} does not begin at the border of its box'
        if not on_border(a.way[-1][-1], p.boxes[a.end]):
            yield f'{said} does not end at the border of its box'


def stretches(arrow, k):
    """The lines along which coordinate k stays: where that is, and from where to where they go."""
    return [(a[k], *sorted((a[1 - k], b[1 - k]))) for a, b in arrow.lines() if a[k] == b[k]]


def side_by_side(a, b):
    """Whether two arrows run along each other so near that they seem to be one."""
    return any(abs(c - d) < 6 and low < top and bottom < high
               for k in (0, 1) for c, low, high in stretches(a, k) for d, bottom, top in stretches(b, k))


def pair_faults(p):
    """Arrows to the same box may join; others may only cross."""
    for i, a in enumerate(p.arrows):
        for b in p.arrows[:i]:
            if a.end != b.end and side_by_side(a, b):
                yield f'the arrows from {b.start} to {b.end} and from {a.start} to {a.end} lie on each other'


def label_faults(p):
    for i, l in enumerate(p.labels):
        said = "the label '" + ' '.join(text for line in l.lines for text, _ in line) + "'"
        if any(overlap(l.rect(), m.rect()) for m in p.labels[:i]):
            yield f'{said} overlaps a label'
        if any(meets(a, grown(l.rect(), 3)) for a in p.arrows):
            yield f'{said} is crossed by an arrow'
        if any(overlap(l.rect(), b.rect()) for name, b in p.boxes.items() if name != l.box):
            yield f'{said} overlaps a box'
        if l.box and not within(l.rect(), p.boxes[l.box].rect()):
            yield f'{said} is too long for its box'


def box_faults(p):
    boxes = list(p.boxes.items())
    for i, (name, b) in enumerate(boxes):
        for other, c in boxes[:i]:
            if overlap(b.rect(), c.rect()):
                yield f'the boxes {other} and {name} overlap'


def faults(p):
    """What is not clean: arrows behind boxes, with loose ends or on each other; labels over anything; boxes over boxes."""
    yield from arrow_faults(p)
    yield from pair_faults(p)
    yield from label_faults(p)
    yield from box_faults(p)
