#!/usr/bin/env python3
"""Writes the list of cases that the program `comparison` replays.

    make_cases.py ORACLE > crates/comparison/stdin

ORACLE is a program that answers cases with kurbo 0.13.1's own code, built without its `std` and with the
elementary functions of docs/RULES.md. It takes a case a line on its standard input, SHAPE WHAT NUMBERS.., a number
being `0x` and the digits of its bits, and answers each on a line. It is not part of the repository.

An answer is kurbo's, or follows from kurbo's by a rule of docs/RULES.md that is written out below; none is the
answer of the code under test. Where the two differ, the case goes to the last part of the list, under the rule.
The same random numbers come at each run.
"""

import math
import random
import struct
import subprocess
import sys

RNG = random.Random(1834)
TINIEST = 5e-324
SMALLEST_NORMAL = 2.2250738585072014e-308
LARGEST = sys.float_info.max
STEP = 1 / 256
MOST_STRETCHED = 2.0**36
MOST_STEPS = 64


# ---- numbers


def bits(x):
    return struct.unpack("<Q", struct.pack("<d", x))[0]


def word(x):
    return "nan" if math.isnan(x) else f"{bits(x):016x}"


def number(text):
    return math.nan if text == "nan" else struct.unpack("<d", struct.pack("<Q", int(text, 16)))[0]


def negative_zero(x):
    return x == 0 and math.copysign(1, x) < 0


def finite(numbers):
    return all(math.isfinite(x) for x in numbers)


# ---- what kurbo answers


class Oracle:
    def __init__(self, program):
        self.program = program

    def ask(self, questions):
        """The answers to questions (shape, what, numbers), in their order."""
        text = ""
        for shape, what, numbers in questions:
            text += " ".join([shape, what, *(f"0x{bits(x):016x}" for x in numbers)]) + "\n"
        run = subprocess.run([self.program], input=text, capture_output=True, text=True, timeout=60, check=True)
        answers = run.stdout.splitlines()
        assert len(answers) == len(questions)
        return answers


# ---- what a list is made of


HEAD = """\
# The shapes and the affine maps: what each answers, at parameters of every kind.
# A case is SHAPE WHAT NUMBER.. -> ANSWER.. with numbers by their bits. docs/COMPARISON.md says
# which numbers, and where the answers come from."""

DEPARTING = """
# Where the rules depart from kurbo: the answers below are the rules', and kurbo's are others."""


class List:
    """Cases in parts: those on which kurbo and the rules agree, and for each rule those on which they do not."""

    def __init__(self):
        self.parts = {}
        self.departing = {}
        self.seen = set()

    def add(self, part, shape, what, numbers, expected, source, rule=None):
        question = f"{shape} {what} " + " ".join(word(x) for x in numbers)
        if question in self.seen:
            return False
        self.seen.add(question)
        if source == expected:
            self.parts.setdefault(part, []).append(f"{question} -> {expected}")
        else:
            assert rule is not None, (question, expected, source)
            self.departing.setdefault(rule, []).append(f"{question} -> {expected}")
        return True

    def write(self, out):
        print(HEAD, file=out)
        for part, cases in self.parts.items():
            print(f"\n# {part}", file=out)
            print("\n".join(cases), file=out)
        print(DEPARTING, file=out)
        for rule, cases in self.departing.items():
            print(f"\n# {rule}", file=out)
            print("\n".join(cases), file=out)


# ---- parameters


def grid(limit=8388608):
    return RNG.randint(-limit, limit) / 256


def decimal(limit=4096):
    return round(RNG.uniform(-limit, limit), RNG.choice([0, 1, 2, 3, 6]))


def tiny():
    sign = RNG.choice([1, -1])
    subnormal = RNG.randint(1, 2**52 - 1) * TINIEST
    any_size = RNG.uniform(1, 2) * 2.0 ** RNG.randint(-1074, -900)
    return sign * RNG.choice([TINIEST, 3 * TINIEST, subnormal, SMALLEST_NORMAL, 1e-300, any_size])


def huge():
    sign = RNG.choice([1, -1])
    any_size = RNG.uniform(1, 2) * 2.0 ** RNG.randint(400, 1022)
    return sign * RNG.choice([LARGEST, 1e308, 1.2e154, any_size])


def zero():
    return RNG.choice([0.0, -0.0])


def small():
    return grid(2048)


def mixed():
    return RNG.choice([grid, decimal, tiny, huge, zero, small])()


KINDS = {
    "grid numbers": grid,
    "small grid numbers": small,
    "page-sized decimals": decimal,
    "tiny numbers": tiny,
    "huge numbers": huge,
    "numbers of all kinds": mixed,
}

# how many of each kind, where a shape is made `count` times
SHARES = {
    "grid numbers": 0.2,
    "small grid numbers": 0.25,
    "page-sized decimals": 0.25,
    "tiny numbers": 0.1,
    "huge numbers": 0.1,
    "numbers of all kinds": 0.1,
}


def made(count, make):
    """`count` parameter lists, by the shares of the kinds."""
    return [make(KINDS[kind]) for kind, share in SHARES.items() for _ in range(max(1, round(count * share)))]


def four(pick):
    return [pick() for _ in range(4)]


def rects(count):
    flat = [
        [1.0, 2.0, 1.0, 5.0],
        [0.0, -0.0, -0.0, 0.0],
        [3.0, 1.0, 7.0, 1.0],
        [-0.0, -0.0, 2.0, 1.0],
        [0.0, 0.0, 0.0, 0.0],
    ]
    turned = [[2.0, 0.0, 0.0, 1.0], [0.0, 1.0, 2.0, 0.0], [2.0, 1.0, 0.0, 0.0]]
    return flat + turned + made(count, four)


def circles(count):
    known = [
        [0.0, 0.0, 1.0],
        [0.0, 0.0, 0.0],
        [1.0, -2.0, -0.0],
        [0.5, 0.25, -1.5],
        [-0.0, 0.0, TINIEST],
        [3.0, 4.0, -5.0],
    ]
    return known + made(count, lambda pick: [pick() for _ in range(3)])


def triangles(count):
    known = [
        [0.0, 0.0, 4.0, 0.0, 0.0, 3.0],
        [0.0, 0.0, 0.0, 3.0, 4.0, 0.0],
        [2.0, 0.0, 0.0, 0.0, 0.0, -2.0],
        [0.0, 0.0, 1.0, 1.0, 2.0, 2.0],
        [1.0, 1.0, 1.0, 1.0, 1.0, 1.0],
        [-0.0, 0.0, 2.0, -0.0, 0.0, 2.0],
        [-4096.0, -4096.0, 4096.0, -4096.0, 0.0, 4096.0],
    ]
    return known + made(count, lambda pick: [pick() for _ in range(6)])


def radius(pick):
    return RNG.choice([pick(), abs(pick()) / 16, zero(), small(), RNG.choice([0.5, 1.0, -1.0, 1e9])])


def roundeds(count):
    known = [
        [0.0, 0.0, 4.0, 2.0, 5.0, 5.0, 5.0, 5.0],
        [0.0, 0.0, 4.0, 2.0, 0.0, 0.0, 0.0, 0.0],
        [0.0, 0.0, 4.0, 4.0, 2.0, 0.0, 2.0, 0.0],
        [4.0, 2.0, 0.0, 0.0, 1.0, -0.5, 0.25, -0.0],
        [1.0, 1.0, 1.0, 5.0, 1.0, 1.0, 1.0, 1.0],
        [-0.0, 0.0, 3.0, 3.0, -1.0, 1.0, -1.5, 9.0],
    ]
    return known + made(count, lambda pick: four(pick) + [radius(pick) for _ in range(4)])


def maps(count):
    known = [
        [1.0, 0.0, 0.0, 1.0, 0.0, 0.0],
        [3.0, 0.0, 0.0, 0.0, 0.0, 0.0],
        [0.0, 1.0, -1.0, 0.0, 1.0, 0.0],
        [2.0, 0.0, 0.0, -1.0, 0.5, -0.25],
        [-2.0, -0.0, 0.0, 3.0, 0.0, -0.0],
        [1.0, 2.0, 2.0, 4.0, 1.0, 1.0],
        [0.0, 0.0, -0.0, 0.0, 7.0, 8.0],
        [10.0, 0.0, 0.0, 1.0, 0.0, 0.0],
    ]
    return known + made(count, lambda pick: [pick() for _ in range(6)])


def ovals(count):
    """Numbers for Ellipse::new: centre, radii, angle."""
    known = [
        [0.0, 0.0, 3.0, 0.0, 0.0],
        [0.0, 0.0, 2.0, 1.0, -0.0],
        [1.0, -1.0, -2.0, 1.0, math.pi / 2],
        [0.5, 0.25, 1.0, 1.0, 1.0],
        [-0.0, 0.0, -0.0, 0.0, math.pi],
    ]

    def make(pick):
        uniform = [RNG.uniform(-limit, limit) for limit in (math.pi, 100, 2.0**20)]
        angle = RNG.choice([zero(), RNG.randint(-8, 8) * math.pi / 4, 2.0**20, tiny(), *uniform])
        return [pick() for _ in range(4)] + [angle]

    return known + made(count, make)


# ---- points


def to_grid(x):
    return round(x * 256) / 256 if abs(x) < 2.0**40 else x


def around(x0, y0, x1, y1):
    """Points about a box: its corners, the middles of its sides, its centre, just beside those, and far away."""
    if not finite([x0, y0, x1, y1]):
        return [(zero(), zero()), (mixed(), mixed())]
    cx, cy = x0 + (x1 - x0) / 2, y0 + (y1 - y0) / 2
    marks = [(x0, y0), (x1, y0), (x1, y1), (x0, y1), (cx, y0), (x1, cy), (cx, y1), (x0, cy), (cx, cy)]
    x, y = RNG.choice(marks)
    dx, dy = RNG.choice([(STEP, 0), (-STEP, 0), (0, STEP), (0, -STEP), (STEP, STEP), (-STEP, -STEP)])
    within = (x0 + RNG.random() * (x1 - x0), y0 + RNG.random() * (y1 - y0))
    on_grid = tuple(to_grid(u) for u in within)
    far = (RNG.choice([grid(), huge()]), RNG.choice([decimal(), grid()]))
    return [p for p in [RNG.choice(marks), RNG.choice(marks), (x + dx, y + dy), within, on_grid, far] if finite(p)]


def picked(points, count):
    return RNG.sample(points, min(count, len(points)))


# ---- the rules


def in_closed(box, point):
    x0, y0, x1, y1 = box
    x, y = point
    return x0 <= x <= x1 and y0 <= y <= y1


def cross(p, q, r):
    """The side of the line from p to q on which r lies."""
    return (q[0] - p[0]) * (r[1] - p[1]) - (q[1] - p[1]) * (r[0] - p[0])


def triangle_rule(corners, box, point):
    """The winding by the rule, and why it may differ from kurbo's."""
    a, b, c = corners[0:2], corners[2:4], corners[4:6]
    if cross(a, b, c) == 0:
        return 0, "triangle: without an area it holds nothing"
    if not in_closed(box, point):
        return 0, "triangle: 0 outside the closed box"
    sides = [cross(a, b, point), cross(b, c, point), cross(c, a, point)]
    why = "triangle: a cross product of zero counts as positive, whichever its sign"
    if all(s >= 0 for s in sides):
        return 1, why
    return (-1 if all(s < 0 for s in sides) else 0), why


def stretched(size, tolerance):
    return 1.1163 * (size / tolerance)


def too_fine(size, tolerance):
    return not stretched(size, tolerance) <= MOST_STRETCHED


def path_refusal(numbers, sizes, tolerance, corners):
    """The refusal of a path, or none: `numbers` are the shape's, and `sizes` what is counted in tolerances."""
    if not (math.isfinite(tolerance) and tolerance > 0):
        return "refused 1 TOLERANCE"
    if not finite(numbers):
        return "refused 2 NOT FINITE"
    for corner, size in enumerate(sizes):
        if too_fine(size, tolerance):
            return f"refused 3 TOO FINE corner {corner}" if corners else "refused 3 TOO FINE"
    return None


def turns(x, y, accuracy):
    """How many turns the length of an ellipse takes by the rule: none if they are more than the most."""
    if not finite([x, y]) or x == 0 or y == 0:
        return 0
    h = ((x - y) / (x + y)) ** 2
    if math.pi * 0.00101416479131503 * ((h * (h * h)) * ((h * h) * (h * h))) * (x + y) <= accuracy:
        return 0
    x, y = max(x, y), min(x, y)
    tolerance = accuracy / (2 * math.pi * x)
    a, g, weight = 1.0, y / x, 0.5
    c = math.sqrt(1 - g * g)
    for made_so_far in range(MOST_STEPS):
        if weight * (c * c) <= tolerance * g:
            return made_so_far + 1
        a, g, c, weight = (a + g) / 2, math.sqrt(a * g), (a - g) / 2, weight * 2
    return None


# ---- the cases of measures and boxes, on which kurbo and the rules never differ


def plain(cases, oracle, shape, what, parameters, accuracy=None):
    extra = [] if accuracy is None else [accuracy]
    answers = oracle.ask([(shape, what, p + extra) for p in parameters])
    for p, answer in zip(parameters, answers):
        cases.add(f"{shape} {what}", shape, what, p, answer, answer)


# ---- windings


def placed(parameters, boxes, count):
    """Each list of parameters with some points about its box."""
    return [(p, box, point) for p, box in zip(parameters, boxes) for point in picked(around(*box), count)]


def answers_of(oracle, shape, what, parameters):
    """Answers that are numbers."""
    return [[number(w) for w in a.split()] for a in oracle.ask([(shape, what, p) for p in parameters])]


def boxes_of(oracle, shape, parameters):
    return answers_of(oracle, shape, "box", parameters)


def windings(cases, oracle, shape, asked, rule):
    """`asked` are parameters with their box and a point. Every fourth is asked by `contains` too."""
    points = [(shape, "winding", p + list(point)) for p, _, point in asked]
    contained = [(shape, "contains", p + list(point)) for p, _, point in asked]
    both = zip(asked, oracle.ask(points), oracle.ask(contained))
    for place, ((p, box, point), winding, holds) in enumerate(both):
        expected, why = rule(p, box, point, int(winding))
        cases.add(f"{shape} winding", shape, "winding", p + list(point), str(expected), winding, why)
        if place % 4 == 0 or (holds == "true") != (int(winding) != 0):
            held = "true" if expected else "false"
            cases.add(f"{shape} contains", shape, "contains", p + list(point), held, holds, why)


def rect_winding(p, box, point, winding):
    return winding, "rect: contains is winding other than 0, of a reversed rectangle too"


def circle_winding(p, box, point, winding):
    return winding, None


def triangle_winding(p, box, point, winding):
    return triangle_rule(p, box, point)


def boxed(shape):
    def rule(p, box, point, winding):
        return (winding if in_closed(box, point) else 0), f"{shape}: 0 outside the closed box"

    return rule


# ---- paths

TOLERANCES = [1e-9, 1e-8, 1e-6, 1e-5, 0.0001, 0.001, 0.01, 0.05, 0.1, 0.25, 0.5, 1.0, 3.0, 10.0, 100.0]
NO_TOLERANCES = [0.0, -0.0, -1.0, -TINIEST, math.inf, -math.inf, math.nan]


def paths(cases, oracle, shape, asked, held, sizes):
    """`asked` are parameters with a tolerance, `held` what has to be finite, `sizes` what is counted in tolerances."""
    refusals = [path_refusal(h, s, t, shape == "rounded") for (_, t), h, s in zip(asked, held, sizes)]
    answered = iter(oracle.ask([(shape, "path", p + [t]) for (p, t), no in zip(asked, refusals) if no is None]))
    for (p, t), no in zip(asked, refusals):
        answer = no or next(answered)
        source = None if no else answer
        cases.add(f"{shape} path", shape, "path", p + [t], answer, source, f"{shape}: paths that are refused")


def own(asked):
    return [p for p, _ in asked]


def with_tolerances(parameters, each):
    return [(p, t) for p in parameters for t in RNG.sample(TOLERANCES, each)]


def spoilt(parameters):
    """Each with one number that is not finite."""
    out = []
    for p in parameters:
        q = list(p)
        q[RNG.randrange(len(q))] = RNG.choice([math.inf, -math.inf, math.nan])
        out.append((q, RNG.choice(TOLERANCES + [0.0])))
    return out


# ---- the shapes


def rect_cases(cases, oracle):
    for what, count, accuracy in [("area", 90, None), ("perimeter", 90, 0.1), ("box", 90, None)]:
        plain(cases, oracle, "rect", what, rects(count), accuracy)
    shown = rects(80)
    asked = [([2.0, 0.0, 0.0, 1.0], None, (1.0, 0.5))] + placed(shown, boxes_of(oracle, "rect", shown), 4)
    windings(cases, oracle, "rect", asked, rect_winding)
    asked = with_tolerances(rects(40), 1) + [([0.0, 0.0, 2.0, 1.0], t) for t in NO_TOLERANCES] + spoilt(rects(1))
    paths(cases, oracle, "rect", asked, own(asked), [[] for _ in asked])


def circle_cases(cases, oracle):
    for what, count, accuracy in [("area", 80, None), ("perimeter", 80, 0.1), ("box", 90, None)]:
        plain(cases, oracle, "circle", what, circles(count), accuracy)
    shown = circles(80)
    asked = placed(shown, boxes_of(oracle, "circle", shown), 3)
    for x, y, r in shown:
        for _ in range(2):
            turn = RNG.uniform(0, 2 * math.pi)
            point = (x + r * math.cos(turn), y + r * math.sin(turn))
            if finite(point):
                asked.append(([x, y, r], None, point))
    windings(cases, oracle, "circle", asked, circle_winding)
    page = [[decimal(), decimal(), RNG.choice([decimal(64), small(), grid()])] for _ in range(60)]
    asked = with_tolerances(page, 2) + with_tolerances(circles(40), 1)
    asked += [([0.0, 0.0, 1.0], t) for t in NO_TOLERANCES] + spoilt(circles(1))
    asked += [([0.0, 0.0, math.inf], 0.1), ([0.0, 0.0, 4096.0], 1e-10)]
    # about the finest that is answered
    asked += [([0.0, 0.0, MOST_STRETCHED / 1.1163], 1.0), ([0.0, 0.0, 1.0], 1 / 61560000000)]
    # a count of curves that just grows, and 1 / 1.9608e-4 on both sides
    asked += [([1.0, 2.0, r], t) for r, t in [(1.0, 1.9608e-4), (1.0, 1.9609e-4), (1.0, 1.9607e-4), (-1.0, 1e-4)]]
    paths(cases, oracle, "circle", asked, own(asked), [[abs(p[2])] for p, _ in asked])


def triangle_cases(cases, oracle):
    for what, count, accuracy in [("area", 90, None), ("perimeter", 90, 0.1), ("box", 70, None)]:
        plain(cases, oracle, "triangle", what, triangles(count), accuracy)
    shown = triangles(80)
    asked = [([2.0, 0.0, 0.0, 0.0, 0.0, -2.0], (0.0, -2.0, 2.0, 0.0), (2.0, 0.0))]
    asked += placed(shown, boxes_of(oracle, "triangle", shown), 3)
    asked += corner_points(oracle, triangles(60)) + flat_triangles(oracle)
    windings(cases, oracle, "triangle", asked, triangle_winding)
    thin_triangles(cases, oracle)
    asked = with_tolerances(triangles(30), 1) + spoilt(triangles(1))
    asked += [([0.0, 0.0, 4.0, 0.0, 0.0, 3.0], t) for t in NO_TOLERANCES]
    paths(cases, oracle, "triangle", asked, own(asked), [[] for _ in asked])


def corner_points(oracle, parameters):
    """Triangles with a corner, the middle of a side, and a mean of the corners."""
    asked = []
    for p, box in zip(parameters, boxes_of(oracle, "triangle", parameters)):
        a, b, c = p[0:2], p[2:4], p[4:6]
        u, v, w = [RNG.random() for _ in range(3)]
        mean = [(u * a[i] + v * b[i] + w * c[i]) / (u + v + w) for i in range(2)]
        middle = [a[i] / 2 + b[i] / 2 for i in range(2)]
        asked += [(p, box, tuple(point)) for point in [RNG.choice([a, b, c]), middle, mean] if finite(point)]
    return asked


def flat_triangles(oracle):
    """Triangles whose corners lie on a line, at points of the line."""
    asked = []
    for _ in range(20):
        x, y, dx, dy = small(), small(), small(), small()
        i, j, k, at = RNG.randint(-4, 4), RNG.randint(-4, 4), RNG.randint(-4, 4), RNG.randint(-9, 9)
        p = [x + i * dx, y + i * dy, x + j * dx, y + j * dy, x + k * dx, y + k * dy]
        asked.append((p, boxes_of(oracle, "triangle", [p])[0], (x + at * dx, y + at * dy)))
    asked.append(([0.0, 0.0, 1.0, 1.0, 2.0, 2.0], (0.0, 0.0, 2.0, 2.0), (100.0, 100.0)))
    return asked


def thin_triangles(cases, oracle):
    """Triangles that are nearly a line, at points far along it: rounded cross products can agree there."""
    parameters = [[0.4, 0.0, 2.4, 0.6, 1.4, 0.3]]
    for _ in range(4000):
        x, y, dx, dy = decimal(9), decimal(9), decimal(9), decimal(9)
        s, t = RNG.choice([0.1, 0.3, 0.5, 0.7, 1.7]), RNG.choice([0.2, 0.6, 0.9, 1.1])
        u, v = RNG.choice([s, t]), s if RNG.random() < 0.1 else t
        parameters.append([x, y, x + dx, y + dy, x + u * dx, y + v * dy])
    found = []
    for p, box in zip(parameters, boxes_of(oracle, "triangle", parameters)):
        for k in [2.5, 5.0, -3.0]:
            found.append((p, box, (p[0] + k * (p[2] - p[0]), p[1] + k * (p[3] - p[1]))))
    found[0] = (parameters[0], found[0][1], (5.4, 1.5))
    outside = [f for f in found if not in_closed(f[1], f[2]) and cross(f[0][0:2], f[0][2:4], f[0][4:6]) != 0]
    answers = oracle.ask([("triangle", "winding", p + list(point)) for p, _, point in outside])
    differing = [f for f, winding in zip(outside, answers) if winding != "0"]
    windings(cases, oracle, "triangle", differing[:12], triangle_winding)


def rounded_cases(cases, oracle):
    for what, count, accuracy in [("radii", 130, None), ("area", 90, None), ("perimeter", 90, 0.1), ("box", 60, None)]:
        plain(cases, oracle, "rounded", what, roundeds(count), accuracy)
    shown = roundeds(90)
    asked = placed(shown, boxes_of(oracle, "rounded", shown), 3) + arc_points(oracle, roundeds(60))
    windings(cases, oracle, "rounded", asked, boxed("rounded"))
    flat_roundeds(cases, oracle)
    page = [four(lambda: decimal(64)) + four(lambda: radius(lambda: decimal(32))) for _ in range(50)]
    asked = with_tolerances(page, 2) + with_tolerances(roundeds(30), 1)
    asked += [([0.0, 0.0, 4.0, 2.0, 0.0, 0.0, 0.0, 0.0], t) for t in [0.1] + NO_TOLERANCES]
    too_large = [
        [1e5, 0.0, 0.0, 0.0],
        [0.0, 1e5, 0.0, 2e5],
        [0.0, 0.0, 1e5, 1e5],
        [0.0, 0.0, 0.0, 1e5],
        [500.0, 600.0, 617.0, 1e4],
    ]
    asked += [([0.0, 0.0, 1e6, 1e6] + radii, 1e-8) for radii in too_large]
    # of the radii that are not finite none is left: only the sides count
    not_finite = [[math.nan, 0.0, math.nan, 2.0], [0.0, 0.0, math.inf, 2.0], [0.0, -math.inf, 4.0, 2.0]]
    asked += [(sides + [1.0, 1.0, 1.0, 1.0], 0.1) for sides in not_finite]
    held = answers_of(oracle, "rounded", "radii", [p for p, _ in asked])
    paths(cases, oracle, "rounded", asked, held, [h[4:] for h in held])


def arc_points(oracle, parameters):
    """Rounded rectangles with points on and beside the arc of a corner."""
    asked = []
    held = answers_of(oracle, "rounded", "radii", parameters)
    for p, (x0, y0, x1, y1, *radii), box in zip(parameters, held, boxes_of(oracle, "rounded", parameters)):
        corner = RNG.randrange(4)
        r = radii[corner]
        x, sx = (x0 + r, -1) if corner in (0, 3) else (x1 - r, 1)
        y, sy = (y0 + r, -1) if corner in (0, 1) else (y1 - r, 1)
        turn = RNG.uniform(0, math.pi / 2)
        point = (x + sx * r * math.cos(turn), y + sy * r * math.sin(turn))
        beside = (point[0] + sx * STEP, point[1] + sy * STEP)
        asked += [(p, box, q) for q in (point, beside, (x + sx * r, y)) if finite(q)]
    return asked


def held_outside(oracle, shape, shown):
    """Of parameters with a point those that kurbo holds the point of, though it lies outside the box."""
    boxes = boxes_of(oracle, shape, [p for p, _ in shown])
    answers = oracle.ask([(shape, "winding", p + list(point)) for p, point in shown])
    return [
        (p, box, point)
        for (p, point), box, winding in zip(shown, boxes, answers)
        if winding != "0" and not in_closed(box, point)
    ]


def flat_roundeds(cases, oracle):
    """Rounded rectangles at points outside their box that kurbo holds, since half widths are rounded."""
    sides = [0.0, 3.3871092011447e-15, 0.0, 2000.283640779555]
    shown = [(sides + [0.032041614572696685, math.inf, 3.309594955814074, -TINIEST], (0.0, 0.0))]
    for _ in range(6000):
        y0, y1 = RNG.uniform(0, 1) * 2.0 ** RNG.randint(-60, -40), RNG.uniform(1, 4096)
        x = small()
        shown.append(([x, y0, x, y1] + [radius(small) for _ in range(4)], (x, RNG.choice([0.0, y0 / 2]))))
    windings(cases, oracle, "rounded", held_outside(oracle, "rounded", shown)[:10], boxed("rounded"))


def ellipse_cases(cases, oracle):
    new = ovals(110)
    for p, answer in zip(new, oracle.ask([("ellipse", "new", p) for p in new])):
        *numbers, same = answer.split()
        # kurbo's equality of ellipses does not hold of not-a-numbers
        assert same == "true" or "nan" in numbers
        cases.add("ellipse new", "ellipse", "new", p, " ".join(numbers), " ".join(numbers))
    for what, count in [("radii", 130), ("area", 80), ("box", 100)]:
        plain(cases, oracle, "ellipse", what, ellipse_maps(oracle, count))
    lengths(cases, oracle)
    shown = ellipse_maps(oracle, 110)
    asked = placed(shown, boxes_of(oracle, "ellipse", shown), 3) + rim_points(oracle, ellipse_maps(oracle, 50))
    windings(cases, oracle, "ellipse", asked, boxed("ellipse"))
    skew_ellipses(cases, oracle)
    asked = with_tolerances(ellipse_maps(oracle, 110), 1) + spoilt(maps(1))
    asked += [([2.0, 0.0, 0.0, 1.0, 0.0, 0.0], t) for t in NO_TOLERANCES]
    radii = answers_of(oracle, "ellipse", "radii", [p for p, _ in asked])
    # of a number and not-a-number the number is the greater
    greater = [[max((r for r in (x, y) if not math.isnan(r)), default=math.nan)] for x, y, _ in radii]
    paths(cases, oracle, "ellipse", asked, own(asked), greater)


def ellipse_maps(oracle, count):
    """Maps of ellipses, half of them made of centre, radii and angle."""
    answers = oracle.ask([("ellipse", "new", p) for p in ovals(count // 2)])
    made_of = [[number(w) for w in a.split()[0:6]] for a in answers]
    return [m for m in made_of if finite(m)] + maps(count // 2)


def rim_points(oracle, parameters):
    """Ellipses with points on, just within and just without the rim."""
    asked = []
    for p, box in zip(parameters, boxes_of(oracle, "ellipse", parameters)):
        turn, size = RNG.uniform(0, 2 * math.pi), RNG.choice([1.0, 0.999, 1.001, 0.5])
        u, v = size * math.cos(turn), size * math.sin(turn)
        a, b, c, d, e, f = p
        point = (a * u + c * v + e, b * u + d * v + f)
        if finite(point):
            asked.append((p, box, point))
    return asked


def skew_ellipses(cases, oracle):
    """Ellipses that are nearly flat, at points outside their box that kurbo holds, since the map back is rounded."""
    shown = [([3.0, 1.0, 3.0, 1.00000001, -7.1, -5.2], (-11.342640687119289, -6.614213569444163))]
    for _ in range(6000):
        a, b, k = RNG.uniform(-4, 4), RNG.uniform(-4, 4), RNG.choice([1.0, 2.0, 0.5])
        m = [a, b, k * a, k * b * (1 + RNG.choice([1e-8, 1e-9, 3e-10])), decimal(9), decimal(9)]
        x0, y0, x1, y1 = boxes_of_map(m)
        corner = RNG.choice([(x0, y0), (x1, y1)]) if a * b > 0 else RNG.choice([(x0, y1), (x1, y0)])
        shown.append((m, (corner[0] * (1 + RNG.choice([1, -1]) * 2.0**-52), corner[1])))
    windings(cases, oracle, "ellipse", held_outside(oracle, "ellipse", shown)[:10], boxed("ellipse"))


def boxes_of_map(m):
    a, b, c, d, e, f = m
    x, y = math.hypot(a, c), math.hypot(b, d)
    return e - x, f - y, e + x, f + y


ACCURACIES = [1e-9, 1e-8, 1e-6, 0.0001, 0.001, 0.01, 0.1, 0.5, 1.0]


def lengths(cases, oracle):
    """Lengths with an allowance that is ample, that is just enough, and that is one short."""
    long = [(10.0, 1.0), (1.0, 10.0), (1000.0, 1.0), (4096.0, STEP), (1.0, 1e-9), (2.0, 1.0), (1.0, 1.0), (3.0, 0.0)]
    asked = [([rx, 0.0, 0.0, ry, 0.0, 0.0], a) for rx, ry in long for a in ACCURACIES]
    asked += [(m, RNG.choice(ACCURACIES)) for m in ellipse_maps(oracle, 200)]
    asked += [([2.0, 0.0, 0.0, 1.0, 0.0, 0.0], accuracy) for accuracy in [-1.0, 0.0, math.nan]]
    radii = answers_of(oracle, "ellipse", "radii", [m for m, _ in asked])
    counts = [turns(x, y, accuracy) for (x, y, _), (_, accuracy) in zip(radii, asked)]
    answers = iter(oracle.ask([("ellipse", "perimeter", m + [a]) for (m, a), n in zip(asked, counts) if n is not None]))
    rule = "ellipse: 9 STEPS where the allowance is spent"
    for (m, accuracy), count in zip(asked, counts):
        if count is None:
            allowance = RNG.choice([64.0, 65.0, 4294967295.0])
            cases.add("", "ellipse", "perimeter", m + [accuracy, allowance], "refused 9 STEPS", None, rule)
            continue
        answer = next(answers)
        assert int(answer.split()[1]) == count, (m, accuracy, answer, count)
        for allowance in [RNG.choice([64.0, 100.0, 4294967295.0]), float(count)]:
            cases.add("ellipse perimeter", "ellipse", "perimeter", m + [accuracy, allowance], answer, answer)
        if count > 0:
            cases.add("", "ellipse", "perimeter", m + [accuracy, count - 1.0], "refused 9 STEPS", answer, rule)


def affine_cases(cases, oracle):
    points = [[mixed(), mixed()] if i % 3 == 0 else [decimal(), grid()] for i in range(140)]
    plain(cases, oracle, "affine", "point", [m + p for m, p in zip(maps(130), points)])
    plain(cases, oracle, "affine", "mul", [m + n for m, n in zip(maps(130), RNG.sample(maps(130), 130))])
    plain(cases, oracle, "affine", "inverse", maps(130))
    plain(cases, oracle, "affine", "determinant", maps(120))
    plain(cases, oracle, "affine", "bbox", [m + r for m, r in zip(maps(130), RNG.sample(rects(130), 130))])


def specimens(cases, oracle):
    """Answers that are known: so many elements, or just this length."""
    round_one = "a circle of radius 1 has 6 elements at the tolerance 0.001, and 7 at 0.0001"
    unrounded = "a rounded rectangle without radii has nine elements"
    flat = "an ellipse with the radii 3 and 0 has the length 12, without a step"
    for shape, numbers, elements, why in [
        ("circle", [0.0, 0.0, 1.0, 0.001], 6, round_one),
        ("circle", [0.0, 0.0, 1.0, 0.0001], 7, round_one),
        ("rounded", [0.0, 0.0, 4.0, 2.0, 0.0, 0.0, 0.0, 0.0, 0.1], 9, unrounded),
    ]:
        [answer] = oracle.ask([(shape, "path", numbers)])
        assert sum(w in "MLCZ" for w in answer.split()) == elements
        cases.add(f"specimens: {why}", shape, "path", numbers, answer, answer)
    numbers = [3.0, 0.0, 0.0, 0.0, 0.0, 0.0, 0.001]
    [answer] = oracle.ask([("ellipse", "perimeter", numbers)])
    assert answer == word(12.0) + " 0"
    cases.add(f"specimens: {flat}", "ellipse", "perimeter", numbers + [0.0], answer, answer)


def main():
    oracle = Oracle(sys.argv[1])
    cases = List()
    for part in [specimens, rect_cases, circle_cases, triangle_cases, rounded_cases, ellipse_cases, affine_cases]:
        part(cases, oracle)
    cases.write(sys.stdout)
    for name, lines in [*cases.parts.items(), *cases.departing.items()]:
        print(f"{len(lines):5} {name}", file=sys.stderr)
    print(f"{len(cases.seen):5} in all", file=sys.stderr)


if __name__ == "__main__":
    main()
