#!/usr/bin/env python3.11
"""The examination room told a second time: a plain model that answers a sitting.

    model.py [--strict] [FILE..] > ANSWERS

It reads the files in turn, `-` being standard input, or standard input alone if none is named. Each line that cannot be
read is told on standard error too, as FILE:LINE: REASON, and with --strict the first of them ends the sitting. The exit
status is 0 if every line was read, and else 1.

It keeps the book and no table: a row is a mark and all moves that it was ever given, oldest first. A point is
taken back through them one by one. Nothing here was made from the port's code: it was written from the rules, and
for the order of operations within a shape from the source of the Rust crate kurbo 0.13.1.

Python's floats are IEEE 754's doubles, and its +, -, * and math.sqrt round as the standard says. What Python
refuses, as a division by zero, is written out below. Where parameters and point are grid numbers in the field, a
winding is worked out twice, in floats and in whole numbers, and the two have to agree.
"""

import math
import re
import sys
from pathlib import Path

NAN = math.nan
INFINITY = math.inf

PI = 3.141592653589793
FRAC_PI_2 = 1.5707963267948966
FRAC_PI_4 = 0.7853981633974483
FRAC_2_PI = 0.6366197723675814
PI_2_REST = 6.123233995736766e-17  # what FRAC_PI_2 lacks of half of pi

GRID = 256  # a grid number is a multiple of 1/256
PAGE = 4096.0
FIELD = 32768.0
USABLE = 65536  # entries of a table that a sheet uses at most
MOST_STRETCHED = 2.0**36
MOST_STEPS = 64


# ---- floats as the standard has them


def div(x, y):
    """x / y for all floats, zero and the infinities included."""
    if y != 0 or y != y:
        return x / y
    if x == 0 or x != x:
        return NAN
    return math.copysign(INFINITY, x) * math.copysign(1.0, y)


def root(x):
    """The square root, correctly rounded; of a number below zero not-a-number."""
    return NAN if x < 0 else math.sqrt(x)


def least(x, y):
    """The lesser number; of a number and not-a-number the number, of two equal ones the first."""
    if x != x:
        return y
    return y if y < x else x


def greatest(x, y):
    """The greater number; of a number and not-a-number the number, of two equal ones the first."""
    if x != x:
        return y
    return y if y > x else x


def finite(*numbers):
    return all(map(math.isfinite, numbers))


def is_grid(x):
    """Whether x is a multiple of 1/256. From 2^44 on every finite float is one."""
    return math.isfinite(x) and (abs(x) >= 2.0**44 or (x * GRID).is_integer())


def on_page(x):
    return -PAGE <= x <= PAGE


def in_field(x):
    return -FIELD <= x <= FIELD


def grid_in_field(*numbers):
    """Whether all are grid numbers in the field, where the rules over whole numbers decide."""
    return all(in_field(x) and is_grid(x) for x in numbers)


def whole(x, unit=GRID):
    """x counted in units of 1/unit, exactly."""
    numerator, denominator = x.as_integer_ratio()
    assert numerator * unit % denominator == 0
    return numerator * unit // denominator


# ---- the elementary functions, by their steps


def powi2(h):
    return h * h


def powi7(h):
    h2 = h * h
    return (h * h2) * (h2 * h2)


def sixth_root(v):
    """k/16 for the least whole k from 1 to 1024 with k^6 >= v * 2^24."""
    if not 0 <= v <= MOST_STRETCHED:
        return NAN
    numerator, denominator = v.as_integer_ratio()
    wanted = numerator << 24
    low, high = 1, 1024
    while low < high:
        middle = (low + high) // 2
        if middle**6 * denominator >= wanted:
            high = middle
        else:
            low = middle + 1
    return low / 16.0


def sin_cos(th):
    if not abs(th) <= 1048576.0:
        return NAN, NAN
    turns = round(th * FRAC_2_PI)  # to a whole number, halves to even
    k = float(turns)
    r = (th - k * FRAC_PI_2) - k * PI_2_REST
    q = r * r
    p = 1.0
    for d in (210.0, 156.0, 110.0, 72.0, 42.0, 20.0, 6.0):
        p = 1.0 - (q / d) * p
    s = r * p
    p = 1.0
    for d in (240.0, 182.0, 132.0, 90.0, 56.0, 30.0, 12.0, 2.0):
        p = 1.0 - (q / d) * p
    c = p
    return ((s, c), (c, -s), (-s, -c), (-c, s))[turns % 4]


def tan(th):
    s, c = sin_cos(th)
    return div(s, c)


def atan2(y, x):
    if x != x or y != y:
        return NAN
    small, large = sorted((abs(x), abs(y)))
    if small == INFINITY:
        t = 1.0
    elif large == 0:
        t = 0.0
    else:
        t = small / large
    a = t * FRAC_PI_4
    for _ in range(2):
        s, c = sin_cos(a)
        d = div(t * c - s, c + t * s)
        a = a + (d - d * d * d / 3.0)
    if abs(y) > abs(x):
        a = FRAC_PI_2 - a
    if math.copysign(1.0, x) < 0:
        a = PI - a
    return math.copysign(a, y)


# ---- refusals

NAMES = {
    1: "TOLERANCE",
    2: "NOT FINITE",
    3: "TOO FINE",
    4: "FULL",
    5: "NO MARK",
    6: "OFF GRID",
    7: "OFF PAGE",
    8: "TOO SMALL",
    9: "STEPS",
    10: "NOT A TURN",
}


class Refusal(Exception):
    """A refusal by its number, with the mark's position and the corner that it names."""

    def __init__(self, number, mark=None, corner=None):
        super().__init__(number)
        self.number = number
        self.mark = mark
        self.corner = corner

    def __str__(self):
        text = f"refused {self.number} {NAMES[self.number]}"
        if self.mark is not None:
            text += f" at mark {self.mark}"
        if self.corner is not None:
            text += f" corner {self.corner}"
        return text


# ---- boxes: x0, y0, x1, y1


def box_abs(box):
    x0, y0, x1, y1 = box
    return (least(x0, x1), least(y0, y1), greatest(x0, x1), greatest(y0, y1))


def box_union(one, other):
    return (
        least(one[0], other[0]),
        least(one[1], other[1]),
        greatest(one[2], other[2]),
        greatest(one[3], other[3]),
    )


def box_holds(box, x, y):
    """Whether the point lies in the closed box."""
    x0, y0, x1, y1 = box
    return x0 <= x <= x1 and y0 <= y <= y1


# ---- affine maps: a, b, c, d, e, f


def affine_point(m, x, y):
    a, b, c, d, e, f = m
    return a * x + c * y + e, b * x + d * y + f


def affine_mul(n, m):
    """The product: first m, then n."""
    return (
        n[0] * m[0] + n[2] * m[1],
        n[1] * m[0] + n[3] * m[1],
        n[0] * m[2] + n[2] * m[3],
        n[1] * m[2] + n[3] * m[3],
        n[0] * m[4] + n[2] * m[5] + n[4],
        n[1] * m[4] + n[3] * m[5] + n[5],
    )


def affine_determinant(m):
    return m[0] * m[3] - m[1] * m[2]


def affine_inverse(m):
    a, b, c, d, e, f = m
    i = div(1.0, affine_determinant(m))
    return (i * d, -i * b, -i * c, i * a, i * (c * f - d * e), i * (b * e - a * f))


def affine_svd(m):
    """The radii of the ellipse that the unit circle becomes, and its angle."""
    a, b, c, d, _, _ = m
    a2 = a * a
    b2 = b * b
    c2 = c * c
    d2 = d * d
    ab = a * b
    cd = c * d
    angle = 0.5 * atan2(2.0 * (ab + cd), a2 - b2 + c2 - d2)
    s1 = root(powi2(a + d) + powi2(b - c))
    s2 = root(powi2(a - d) + powi2(b + c))
    return 0.5 * (s1 + s2), 0.5 * abs(s1 - s2), angle


def transform_rect_bbox(m, box):
    x0, y0, x1, y1 = box
    p00 = affine_point(m, x0, y0)
    p01 = affine_point(m, x0, y1)
    p10 = affine_point(m, x1, y0)
    p11 = affine_point(m, x1, y1)
    return box_union(box_abs(p00 + p01), box_abs(p10 + p11))


# ---- paths: elements such as ("M", x, y) and ("C", x, y, x, y, x, y)


def moved_path(m, path):
    """The path with each point sent by m."""
    moved = []
    for letter, *numbers in path:
        points = []
        for i in range(0, len(numbers), 2):
            points += affine_point(m, numbers[i], numbers[i + 1])
        moved.append((letter, *points))
    return moved


def check_tolerance(tolerance):
    if not (math.isfinite(tolerance) and tolerance > 0):
        raise Refusal(1)


def stretched(radius, tolerance, corner=None):
    """1.1163 times the radius counted in tolerances, or 3 TOO FINE."""
    v = 1.1163 * div(radius, tolerance)
    if not v <= MOST_STRETCHED:
        raise Refusal(3, corner=corner)
    return v


def sample_ellipse(rx, ry, x_rotation, angle):
    angle_sin, angle_cos = sin_cos(angle)
    u = rx * angle_cos
    v = ry * angle_sin
    rotation_sin, rotation_cos = sin_cos(x_rotation)
    return u * rotation_cos - v * rotation_sin, u * rotation_sin + v * rotation_cos


def arc_curves(cx, cy, rx, ry, start_angle, sweep_angle, x_rotation, tolerance, corner=None):
    """The curves of an arc that sweeps forward, each from where the one before it ended."""
    v = stretched(greatest(rx, ry), tolerance, corner)
    n_err = greatest(sixth_root(v), 3.999_999)
    n = float(math.ceil(n_err * abs(sweep_angle) * (1.0 / (2.0 * PI))))
    angle_step = sweep_angle / n
    arm_len = (4.0 / 3.0) * tan(abs(0.25 * angle_step)) * 1.0  # the sign of the sweep
    angle0 = start_angle
    p0x, p0y = sample_ellipse(rx, ry, x_rotation, angle0)
    curves = []
    for _ in range(int(n)):
        angle1 = angle0 + angle_step
        tx, ty = sample_ellipse(rx, ry, x_rotation, angle0 + FRAC_PI_2)
        p1x, p1y = p0x + tx * arm_len, p0y + ty * arm_len
        p3x, p3y = sample_ellipse(rx, ry, x_rotation, angle1)
        tx, ty = sample_ellipse(rx, ry, x_rotation, angle1 + FRAC_PI_2)
        p2x, p2y = p3x - tx * arm_len, p3y - ty * arm_len
        angle0 = angle1
        p0x, p0y = p3x, p3y
        curves.append(("C", cx + p1x, cy + p1y, cx + p2x, cy + p2y, cx + p3x, cy + p3y))
    return curves


# ---- the shapes


class Shape:
    """What the five shapes have in common.

    `parameters` has to be finite for a path. `given` are the numbers as they were given: where they and a point
    are grid numbers in the field, `on_grid` says the winding there in whole numbers.
    """

    parameters = ()
    given = ()

    def winding(self, x, y):
        answer = self.by_floats(x, y)
        if self.grid is None:
            self.grid = grid_in_field(*self.given)
        if grid_in_field(x, y):
            box = self.bounding_box()
            assert answer == 0 or not finite(*box) or box_holds(box, x, y), (self, x, y)
            if self.grid:
                by_numbers = self.on_grid(whole(x), whole(y))
                assert by_numbers is None or by_numbers == answer, (self.given, x, y, answer, by_numbers)
        return answer

    def path(self, tolerance):
        check_tolerance(tolerance)
        if not finite(*self.parameters):
            raise Refusal(2)
        return self.elements(tolerance)

    def on_grid(self, x, y):
        return None

    def perimeter(self):
        raise NotImplementedError

    grid = None


class Rect(Shape):
    def __init__(self, x0, y0, x1, y1):
        self.given = self.parameters = (x0, y0, x1, y1)

    def by_floats(self, x, y):
        x0, y0, x1, y1 = self.given
        if least(x0, x1) <= x < greatest(x0, x1) and least(y0, y1) <= y < greatest(y0, y1):
            return -1 if (x1 > x0) != (y1 > y0) else 1
        return 0

    def on_grid(self, x, y):
        x0, y0, x1, y1 = map(whole, self.given)
        across = range(min(x0, x1), max(x0, x1))
        down = range(min(y0, y1), max(y0, y1))
        if x not in across or y not in down:
            return 0
        return -1 if (x0 > x1) + (y0 > y1) == 1 else 1

    def bounding_box(self):
        return box_abs(self.given)

    def elements(self, tolerance):
        x0, y0, x1, y1 = self.given
        return [("M", x0, y0), ("L", x1, y0), ("L", x1, y1), ("L", x0, y1), ("Z",)]

    def area(self):
        x0, y0, x1, y1 = self.given
        return (x1 - x0) * (y1 - y0)

    def perimeter(self):
        x0, y0, x1, y1 = self.given
        return 2.0 * (abs(x1 - x0) + abs(y1 - y0))


class Circle(Shape):
    def __init__(self, cx, cy, radius):
        self.given = self.parameters = (cx, cy, radius)

    def by_floats(self, x, y):
        cx, cy, radius = self.given
        dx = x - cx
        dy = y - cy
        return 1 if dx * dx + dy * dy < powi2(radius) else 0

    def on_grid(self, x, y):
        cx, cy, radius = map(whole, self.given)
        return 1 if (x - cx) ** 2 + (y - cy) ** 2 < radius**2 else 0

    def bounding_box(self):
        x, y, radius = self.given
        r = abs(radius)
        return (x - r, y - r, x + r, y + r)

    def elements(self, tolerance):
        x, y, r = self.given
        scaled_err = div(abs(r), tolerance)
        v = stretched(abs(r), tolerance)
        if scaled_err < 1.0 / 1.9608e-4:
            n, a = 4, 0.551915024494
        else:
            n = math.ceil(sixth_root(v))
            a = (4.0 / 3.0) * tan(FRAC_PI_2 / float(n))
        delta_th = 2.0 * PI / float(n)
        path = [("M", x + r, y)]
        for ix in range(1, n + 1):
            th1 = delta_th * float(ix)
            th0 = th1 - delta_th
            s0, c0 = sin_cos(th0)
            s1, c1 = (0.0, 1.0) if ix == n else sin_cos(th1)
            path.append(
                (
                    "C",
                    x + r * (c0 - a * s0),
                    y + r * (s0 + a * c0),
                    x + r * (c1 + a * s1),
                    y + r * (s1 - a * c1),
                    x + r * c1,
                    y + r * s1,
                )
            )
        path.append(("Z",))
        return path

    def area(self):
        return PI * powi2(self.given[2])

    def perimeter(self):
        return abs(2.0 * PI * self.given[2])


def cross(vx, vy, wx, wy):
    return vx * wy - vy * wx


def side(px, py, qx, qy, rx, ry):
    """On which side of the line from p to q the point r lies: the cross product of p to q and p to r."""
    return cross(qx - px, qy - py, rx - px, ry - py)


class Triangle(Shape):
    def __init__(self, ax, ay, bx, by, cx, cy):
        self.given = self.parameters = (ax, ay, bx, by, cx, cy)

    def by_floats(self, x, y):
        ax, ay, bx, by, cx, cy = self.given
        if side(ax, ay, bx, by, cx, cy) == 0 or not box_holds(self.bounding_box(), x, y):
            return 0
        sides = (side(ax, ay, bx, by, x, y), side(bx, by, cx, cy, x, y), side(cx, cy, ax, ay, x, y))
        if all(s >= 0 for s in sides):
            return 1
        if all(s < 0 for s in sides):
            return -1
        return 0

    def on_grid(self, x, y):
        # The edges belong to a triangle of positive area, and not to one of negative area.
        ax, ay, bx, by, cx, cy = map(whole, self.given)
        sides = (side(ax, ay, bx, by, x, y), side(bx, by, cx, cy, x, y), side(cx, cy, ax, ay, x, y))
        twice = sum(sides)
        assert twice == side(ax, ay, bx, by, cx, cy)
        if twice > 0 and min(sides) >= 0:
            return 1
        if twice < 0 and max(sides) < 0:
            return -1
        return 0

    def bounding_box(self):
        ax, ay, bx, by, cx, cy = self.given
        return (
            least(ax, least(bx, cx)),
            least(ay, least(by, cy)),
            greatest(ax, greatest(bx, cx)),
            greatest(ay, greatest(by, cy)),
        )

    def elements(self, tolerance):
        ax, ay, bx, by, cx, cy = self.given
        return [("M", ax, ay), ("L", bx, by), ("L", cx, cy), ("Z",)]

    def area(self):
        ax, ay, bx, by, cx, cy = self.given
        return 0.5 * side(ax, ay, bx, by, cx, cy)

    def perimeter(self):
        ax, ay, bx, by, cx, cy = self.given
        return distance(ax, ay, bx, by) + distance(bx, by, cx, cy) + distance(cx, cy, ax, ay)


def distance(px, py, qx, qy):
    dx = px - qx
    dy = py - qy
    return root(dx * dx + dy * dy)


class RoundedRect(Shape):
    """Holds its sides in order, and its radii by their size, up to half the shorter side."""

    def __init__(self, x0, y0, x1, y1, tl, tr, br, bl):
        self.given = (x0, y0, x1, y1, tl, tr, br, bl)
        self.rect = box_abs((x0, y0, x1, y1))
        x0, y0, x1, y1 = self.rect
        most = least(x1 - x0, y1 - y0) / 2.0
        self.radii = tuple(least(abs(r), most) for r in (tl, tr, br, bl))
        self.parameters = self.rect + self.radii

    def by_floats(self, x, y):
        if not box_holds(self.bounding_box(), x, y):
            return 0
        x0, y0, x1, y1 = self.rect
        tl, tr, br, bl = self.radii
        x -= 0.5 * (x0 + x1)
        y -= 0.5 * (y0 + y1)
        radius_top = tr if x >= 0 else tl
        radius_bottom = br if x >= 0 else bl
        radius = radius_bottom if y >= 0 else radius_top
        inside_half_width = greatest((x1 - x0) / 2.0 - radius, 0.0)
        inside_half_height = greatest((y1 - y0) / 2.0 - radius, 0.0)
        px = greatest(abs(x) - inside_half_width, 0.0)
        py = greatest(abs(y) - inside_half_height, 0.0)
        return 1 if px * px + py * py <= radius * radius else 0

    def on_grid(self, x, y):
        # Half an odd side is a radius too: all is counted in units of 1/512.
        x0, y0, x1, y1 = (whole(side, 512) for side in self.rect)
        tl, tr, br, bl = (whole(radius, 512) for radius in self.radii)
        x, y = 2 * x, 2 * y
        if 2 * y >= y0 + y1:
            r = br if 2 * x >= x0 + x1 else bl
        else:
            r = tr if 2 * x >= x0 + x1 else tl
        dx = max(x0 + r - x, x - (x1 - r), 0)
        dy = max(y0 + r - y, y - (y1 - r), 0)
        return 1 if dx * dx + dy * dy <= r * r else 0

    def bounding_box(self):
        return box_abs(self.rect)

    def elements(self, tolerance):
        x0, y0, x1, y1 = self.rect
        tl, tr, br, bl = self.radii
        top_left = self.corner(0, x0 + tl, y0 + tl, tl, tolerance)
        top_right = self.corner(1, x1 - tr, y0 + tr, tr, tolerance)
        bottom_right = self.corner(2, x1 - br, y1 - br, br, tolerance)
        bottom_left = self.corner(3, x0 + bl, y1 - bl, bl, tolerance)
        return [
            ("M", x0, y0 + tl),
            *top_left,
            ("L", x1 - tr, y0),
            *top_right,
            ("L", x1, y1 - br),
            *bottom_right,
            ("L", x0 + bl, y1),
            *bottom_left,
            ("Z",),
        ]

    @staticmethod
    def corner(number, cx, cy, r, tolerance):
        quarters = (2, 3, 0, 1)[number]
        return arc_curves(cx, cy, r, r, FRAC_PI_2 * float(quarters), FRAC_PI_2, 0.0, tolerance, number)

    def area(self):
        x0, y0, x1, y1 = self.rect
        corners = 0.0
        for radius in self.radii:
            corners += (FRAC_PI_4 - 1.0) * radius * radius
        return (x1 - x0) * (y1 - y0) + corners

    def perimeter(self):
        x0, y0, x1, y1 = self.rect
        corners = 0.0
        for radius in self.radii:
            corners += (-2.0 + FRAC_PI_2) * radius
        return 2.0 * (abs(x1 - x0) + abs(y1 - y0)) + corners


class Ellipse(Shape):
    """Held as the map that makes it of the unit circle. No rule in whole numbers decides here."""

    def __init__(self, cx, cy, rx, ry, rotation):
        self.given = (cx, cy, rx, ry, rotation)
        s, c = sin_cos(rotation)
        translate = (1.0, 0.0, 0.0, 1.0, cx, cy)
        rotate = (c, s, -s, c, 0.0, 0.0)
        scale = (abs(rx), 0.0, 0.0, abs(ry), 0.0, 0.0)
        self.parameters = self.map = affine_mul(affine_mul(translate, rotate), scale)

    def by_floats(self, x, y):
        if not box_holds(self.bounding_box(), x, y):
            return 0
        x, y = affine_point(affine_inverse(self.map), x, y)
        return 1 if x * x + y * y < 1.0 else 0

    def bounding_box(self):
        a, b, c, d, cx, cy = self.map
        range_x = root(a * a + c * c)
        range_y = root(b * b + d * d)
        return (cx - range_x, cy - range_y, cx + range_x, cy + range_y)

    def elements(self, tolerance):
        cx, cy = self.map[4:]
        rx, ry, x_rotation = affine_svd(self.map)
        start_angle, sweep_angle = 0.0, 2.0 * PI
        curves = arc_curves(cx, cy, rx, ry, start_angle, sweep_angle, x_rotation, tolerance)
        sx, sy = sample_ellipse(rx, ry, x_rotation, start_angle + sweep_angle * 0.0)
        return [("M", cx + sx, cy + sy), *curves]

    def area(self):
        return PI * abs(affine_determinant(self.map))

    def perimeter_in_steps(self, accuracy, allowance):
        """The length and the steps that it took; 9 STEPS if the allowance does not suffice."""
        x, y, _ = affine_svd(self.map)
        if not finite(x, y):
            return NAN, 0
        if x == 0 or y == 0:
            return 4.0 * greatest(x, y), 0
        if kummer_range(x, y) <= accuracy:
            return kummer(x, y), 0
        return agm(accuracy, x, y, min(allowance, MOST_STEPS))


def kummer(x, y):
    h = powi2(div(x - y, x + y))
    h2 = h * h
    h3 = h2 * h
    h4 = h3 * h
    h5 = h4 * h
    h6 = h5 * h
    lower = (
        PI
        + h * (PI / 4.0)
        + h2 * (PI / 64.0)
        + h3 * (PI / 256.0)
        + h4 * (PI * 25.0 / 16384.0)
        + h5 * (PI * 49.0 / 65536.0)
        + h6 * (PI * 441.0 / 1048576.0)
    )
    return (x + y) * lower


def kummer_range(x, y):
    h = powi2(div(x - y, x + y))
    return PI * 0.00101416479131503 * powi7(h) * (x + y)


def agm(accuracy, x, y, allowance):
    if not x >= y:
        x, y = y, x
    accuracy = div(accuracy, 2.0 * PI * x)
    total = 1.0
    a = 1.0
    g = div(y, x)
    c = root(1.0 - powi2(g))
    mul = 0.5
    for step in range(1, allowance + 1):
        term = mul * powi2(c)
        total -= term
        if term <= accuracy * g:
            total -= term
            return div(2.0 * PI * x, a) * total, step
        mul *= 2.0
        c = (a - g) / 2.0
        a_next = (a + g) / 2.0
        g = root(a * g)
        a = a_next
    raise Refusal(9)


# ---- moves

TURNS = (
    (1, 0, 0, 1),
    (0, 1, -1, 0),
    (-1, 0, 0, -1),
    (0, -1, 1, 0),
    (1, 0, 0, -1),
    (-1, 0, 0, 1),
    (0, 1, 1, 0),
    (0, -1, -1, 0),
)
STAY = (1.0, 0.0, 0.0, 1.0, 0.0, 0.0)


def check_page_point(x, y):
    if not (is_grid(x) and is_grid(y)):
        raise Refusal(6)
    if not (on_page(x) and on_page(y)):
        raise Refusal(7)


def check_move(m):
    """10 NOT A TURN, 6 OFF GRID, 7 OFF PAGE, in that order."""
    if m[:4] not in TURNS:
        raise Refusal(10)
    check_page_point(m[4], m[5])


def sign(m):
    answer = affine_determinant(m)
    assert answer in (1, -1)
    return int(answer)


def back(m, x, y):
    """The point taken back through a move: the offset subtracted, then the turn undone."""
    a, b, c, d, e, f = m
    x = x - e
    y = y - f
    return a * x + b * y, c * x + d * y


# ---- layers


class Placing:
    """A shape as one move has placed it."""

    def __init__(self, below, move):
        check_move(move)
        self.below = below
        self.move = move

    def winding(self, x, y):
        x, y = back(self.move, x, y)
        if not (in_field(x) and in_field(y)):
            return 0
        return sign(self.move) * self.below.winding(x, y)

    def bounding_box(self):
        box = self.below.bounding_box()
        return transform_rect_bbox(self.move, box) if finite(*box) else (NAN,) * 4

    def path(self, tolerance):
        return moved_path(self.move, self.below.path(tolerance))


class Covering:
    """An upper shape over a lower one."""

    def __init__(self, upper, lower):
        self.upper = upper
        self.lower = lower

    def winding(self, x, y):
        return self.upper.winding(x, y) or self.lower.winding(x, y)

    def bounding_box(self):
        upper, lower = self.upper.bounding_box(), self.lower.bounding_box()
        return box_union(upper, lower) if finite(*upper, *lower) else (NAN,) * 4

    def path(self, tolerance):
        upper = self.upper.path(tolerance)
        return upper + self.lower.path(tolerance)


# ---- the book


class Row:
    """A mark and its moves, oldest first. The product of the moves is kept beside them, and is checked."""

    def __init__(self, mark, move):
        self.mark = mark
        self.moves = [move]
        self.signs = [sign(move)]
        self.product = move

    def add(self, move, product):
        self.moves.append(move)
        self.signs.append(sign(move))
        self.product = product

    def winding(self, x, y):
        answer = 1
        for move, s in zip(reversed(self.moves), reversed(self.signs)):
            x, y = back(move, x, y)
            answer *= s
        return answer * self.mark.winding(x, y)

    def bounding_box(self):
        return transform_rect_bbox(self.product, self.mark.bounding_box())

    def check(self):
        product = self.moves[0]
        for move in self.moves[1:]:
            product = affine_mul(move, product)
            assert on_page(product[4]) and on_page(product[5])
        assert all(x == y and math.copysign(1.0, x) == math.copysign(1.0, y) for x, y in zip(product, self.product))


class Book:
    """A sheet's rows, lowest first. What is refused leaves them as they are."""

    def __init__(self, entries, places):
        self.capacity = min(entries, USABLE)
        self.places = places
        self.rows = []

    def check(self):
        for row in self.rows:
            row.check()

    def put(self, mark, move):
        if len(self.rows) == self.capacity:
            raise Refusal(4)
        if not finite(*mark.bounding_box()):
            raise Refusal(2)
        self.rows.append(Row(mark, move))
        return len(self.rows) - 1

    def shift(self, position, move):
        if position >= len(self.rows):
            raise Refusal(5)
        row = self.rows[position]
        product = affine_mul(move, row.product)
        if not (on_page(product[4]) and on_page(product[5])):
            raise Refusal(7)
        row.add(move, product)
        return position

    def shift_all(self, move):
        products = [affine_mul(move, row.product) for row in self.rows]
        for position, product in enumerate(products):
            if not (on_page(product[4]) and on_page(product[5])):
                raise Refusal(7, mark=position)
        for row, product in zip(self.rows, products):
            row.add(move, product)
        return len(self.rows)

    def lift(self, position):
        if position >= len(self.rows):
            raise Refusal(5)
        self.rows[position].check()
        del self.rows[position]
        return len(self.rows)

    def winding(self, x, y):
        check_page_point(x, y)
        return sum(row.winding(x, y) for row in self.rows)

    def top(self, x, y):
        check_page_point(x, y)
        for position in reversed(range(len(self.rows))):
            if self.rows[position].winding(x, y) != 0:
                return position
        return None

    def bounding_box(self):
        union = None
        for row in self.rows:
            box = row.bounding_box()
            union = box if union is None else box_union(union, box)
        return union

    def draw(self, tolerance):
        check_tolerance(tolerance)
        drawing = []
        for position, row in enumerate(self.rows):
            row.check()
            try:
                path = row.mark.path(tolerance)
            except Refusal as refusal:
                raise Refusal(refusal.number, mark=position, corner=refusal.corner) from None
            drawing += moved_path(row.product, path)
        if len(drawing) > self.places:
            raise Refusal(8)
        return drawing


# ---- orders as text

# Unicode's white space, which Rust's split_whitespace takes for blanks.
BLANKS = "\t\n\x0b\x0c\r \x85\xa0\u1680\u2000-\u200a\u2028\u2029\u202f\u205f\u3000"
WORD = re.compile(f"[^{BLANKS}]+")
TRIM = re.compile(f"^[{BLANKS}]+|[{BLANKS}]+\\Z")
NUMBER = re.compile(r"[+-]?(([0-9]+\.?[0-9]*|\.[0-9]+)(e[+-]?[0-9]+)?|inf|infinity|nan)", re.ASCII | re.IGNORECASE)
DIGITS = re.compile(r"\+?[0-9]+", re.ASCII)
CONTROL = re.compile("[\x00-\x1f\x7f-\x9f]")
LINE_END = re.compile(rb"\r\n|\r|\n")
BYTE_ORDER_MARK = b"\xef\xbb\xbf"

SHAPES = {
    "rect": (Rect, 4),
    "circle": (Circle, 3),
    "triangle": (Triangle, 6),
    "rounded": (RoundedRect, 8),
    "ellipse": (Ellipse, 5),
}
ALTERING = ("put", "shift", "shift_all", "lift")
QUESTIONS = ("winding", "top", "bounding_box", "draw", "set")  # asked of a sheet, and altering none
ENTRIES = (65536, 131072)  # as a rule, and at most
PLACES = (262144, 1048576)


class Unreadable(Exception):
    pass


def whole_number(word, most):
    """The whole number from 0 to most that the word is, or nothing."""
    if DIGITS.fullmatch(word) is None:
        return None
    number = int(word)
    return number if number <= most else None


def number(word):
    if NUMBER.fullmatch(word) is None:
        raise Unreadable(f"'{word}' is no number")
    return float(word)


def position(word):
    answer = whole_number(word, 2**64 - 1)
    if answer is None:
        raise Unreadable(f"'{word}' is no position")
    return answer


def allowance(word):
    answer = whole_number(word, 2**32 - 1)
    if answer is None:
        raise Unreadable(f"'{word}' is no allowance")
    return answer


def words_of(text):
    return WORD.findall(text)


class Words:
    """The words of an order, read from left to right."""

    def __init__(self, words):
        self.words = words
        self.at = 0

    def peek(self):
        """The next word, or nothing at the end."""
        return self.words[self.at] if self.at < len(self.words) else None

    def next(self):
        """The next word; a missing one is empty."""
        word = self.peek()
        self.at += 1
        return "" if word is None else word

    def left(self):
        return max(len(self.words) - self.at, 0)

    def run(self, readers, follow=()):
        """A run of numbers, one reader a number. Behind it nothing may stand but the words that may follow."""
        wanted = "1 number wanted" if len(readers) == 1 else f"{len(readers)} numbers wanted"
        numbers = []
        for reader in readers:
            word = self.peek()
            if word is None:
                raise Unreadable(f"{wanted}, {len(numbers)} there")
            numbers.append(reader(word))
            self.at += 1
        if follow is not None and self.left() > 0 and self.peek() not in follow:
            raise Unreadable(f"{wanted}, {len(readers) + self.left()} there")
        return numbers


def read_shape(words, follow, behind=(), shapes=SHAPES):
    """A shape with the numbers that stand behind its own, if `behind` has readers for its kind."""
    kind = words.next()
    if kind not in shapes:
        raise Unreadable(f"'{kind}' is no shape")
    made, count = shapes[kind]
    more = list(behind) if made is Ellipse else []
    numbers = words.run([number] * count + more, follow)
    return made(*numbers[:count]), numbers[count:]


def read_move(words, follow):
    return tuple(words.run([number] * 6, follow))


def read_placed(words, follow, shapes=SHAPES):
    """SHAPE NUMBERS [by A B C D E F], and what may follow; with follow None anything may."""
    shape, _ = read_shape(words, None if follow is None else ("by", *follow), shapes=shapes)
    if words.peek() != "by":
        return shape, STAY
    words.next()
    return shape, read_move(words, follow)


def read_point(words, follow=()):
    return words.run([number] * 2, follow)


# Each order is read into a function that, called with the sitting, answers it.


def read_page(words):
    if words.left() == 0:
        raise Unreadable("a page has a name, and then at most two sizes")
    name = words.next()
    sizes = []
    for usual, most in (ENTRIES, PLACES):
        word = words.peek()
        size = usual if word is None else whole_number(word, most)
        if size is None:
            raise Unreadable(f"'{word}' is no size up to {most}")
        words.next()
        sizes.append(size)
    if words.left() > 0:
        raise Unreadable("a page has a name, and then at most two sizes")

    def turn(sitting):
        sitting.page = Page(name, *sizes)
        return "0 marks"

    return turn


def read_sheet_order(words, sheet):
    kind = words.next()
    if kind not in ALTERING + QUESTIONS:
        raise Unreadable(f"'{kind}' is no order")
    if kind == "put":
        shapes = SHAPES if sheet == "marks" else {"rect": SHAPES["rect"]}
        mark, move = read_placed(words, (), shapes)

        def put(sitting):
            check_move(move)
            return f"position {sitting.page.sheets[sheet].put(mark, move)}"

        return put
    if kind == "shift":
        at, *numbers = words.run([position] + [number] * 6)

        def shift(sitting):
            check_move(tuple(numbers))
            return f"position {sitting.page.sheets[sheet].shift(at, tuple(numbers))}"

        return shift
    if kind == "shift_all":
        move = read_move(words, ())

        def shift_all(sitting):
            check_move(move)
            return f"{sitting.page.sheets[sheet].shift_all(move)} marks"

        return shift_all
    if kind == "lift":
        (at,) = words.run([position])
        return lambda sitting: f"{sitting.page.sheets[sheet].lift(at)} marks"
    if kind == "winding":
        x, y = read_point(words)
        return lambda sitting: f"winding {sitting.page.sheets[sheet].winding(x, y)}"
    if kind == "top":
        x, y = read_point(words)
        return lambda sitting: f"top {or_none(sitting.page.sheets[sheet].top(x, y))}"
    if kind == "set":
        return read_set(words, sheet)
    if kind == "bounding_box":
        words.run([])
        return lambda sitting: f"box {box_text(sitting.page.sheets[sheet].bounding_box())}"
    (tolerance,) = words.run([number])
    return lambda sitting: drawing_text(sitting.page.sheets[sheet].draw(tolerance))


def read_set(words, sheet):
    x, y = read_point(words, None)
    bad_key = Unreadable("a key is 'within POSITION' or 'outside'")
    word = words.next()
    if word == "outside":
        key = None
    elif word == "within" and words.left() > 0:
        key = position(words.next())
    else:
        raise bad_key
    if words.left() > 0:
        raise bad_key

    return lambda sitting: "right" if sitting.page.set_point(sheet, x, y, key) else "wrong"


def read_measure(words):
    shape, behind = read_shape(words, (), (number, allowance))

    def measure(sitting):
        if isinstance(shape, Ellipse):
            perimeter, steps = shape.perimeter_in_steps(*behind)
            tail = f" steps {steps}"
        else:
            perimeter, tail = shape.perimeter(), ""
        box = box_text(shape.bounding_box())
        return f"area {number_text(shape.area())} perimeter {number_text(perimeter)} box {box}{tail}"

    return measure


def read_cover(words):
    upper = read_placed(words, ("over",))
    if words.peek() is None:
        raise Unreadable("'over' is wanted")
    words.next()
    lower = read_placed(words, None)
    question = words.next()
    if question == "winding":
        x, y = read_point(words)
    elif question == "bounding_box":
        words.run([])
    elif question == "draw":
        (tolerance,) = words.run([number])
    else:
        raise Unreadable(f"'{question}' is no question")

    def cover(sitting):
        covering = Placing(Covering(Placing(*upper), Placing(*lower)), STAY)
        if question == "winding":
            check_page_point(x, y)
            return f"winding {covering.winding(x, y)}"
        if question == "bounding_box":
            return f"box {box_text(covering.bounding_box())}"
        drawing = covering.path(tolerance)
        if len(drawing) > sitting.page.places:
            raise Refusal(8)
        return drawing_text(drawing)

    return cover


def read_order(text):
    """What answers the order, asked of a sitting."""
    words = Words(words_of(text))
    kind = words.next()
    if kind == "page":
        return read_page(words)
    if kind in ("marks", "frames"):
        return read_sheet_order(words, kind)
    if kind == "set":
        return read_set(words, "marks")
    if kind == "measure":
        return read_measure(words)
    if kind == "cover":
        return read_cover(words)
    raise Unreadable(f"'{kind}' is no order")


# ---- answers as text


def shortest(x):
    """The fewest digits of x > 0 that read back as x, and where the point stands among them.

    Of two that are equally near, the one whose last digit is even, which is what `repr` gives.
    """
    mantissa, _, exponent = repr(x).partition("e")
    before, _, after = mantissa.partition(".")
    point = len(before) + int(exponent or 0)
    digits = (before + after).lstrip("0")
    point -= len(before + after) - len(digits)  # the digits start with one that counts
    return digits.rstrip("0"), point


def number_text(x):
    """The fewest digits that read back as x, with an exponent if its size is below 10^-5, or 10^16 and more."""
    if x != x:
        return "nan"
    minus, size = "-" if math.copysign(1.0, x) < 0 else "", abs(x)
    if size == INFINITY:
        return minus + "inf"
    if size == 0:
        return minus + "0"
    digits, point = shortest(size)
    if not 1e-5 <= size < 1e16:
        text = ".".join(filter(None, (digits[0], digits[1:]))) + f"e{point - 1}"
    elif point <= 0:
        text = "0." + "0" * -point + digits
    elif point >= len(digits):
        text = digits + "0" * (point - len(digits))
    else:
        text = digits[:point] + "." + digits[point:]
    assert float(text) == size
    return minus + text


def or_none(answer):
    return "none" if answer is None else str(answer)


def box_text(box):
    return "none" if box is None else " ".join(map(number_text, box))


def drawing_text(drawing):
    lines = [f"{len(drawing)} elements"]
    for letter, *numbers in drawing:
        lines.append(" ".join([letter, *map(number_text, numbers)]))
    return "\n".join(lines)


def escaped(text):
    """The text with its control characters written as escapes."""
    return CONTROL.sub(lambda found: "\\t" if found[0] == "\t" else f"\\u{{{ord(found[0]):x}}}", text)


# ---- pages


class Page:
    """A page with its two sheets, and what its sum tells.

    If no page line begins it, it has no name before its first order. `unread` is the number of the page line that
    began it, if that cannot be read: then nothing on the page is marked.
    """

    def __init__(self, name, entries=ENTRIES[0], places=PLACES[0], unread=None):
        self.name = name
        self.places = places
        self.sheets = {"marks": Book(entries, places), "frames": Book(entries, places)}
        self.unread = unread
        self.doubt = False  # whether an unreadable line may have been meant to alter a sheet
        self.set_points = self.right = self.refused = self.unreadable = self.not_marked = self.doubtful = 0

    def set_point(self, sheet, x, y, key):
        """Whether the key says what is uppermost at the point."""
        self.set_points += 1
        self.doubtful += self.doubt
        sheet = self.sheets[sheet]
        top = sheet.top(x, y)
        if key is not None and key >= len(sheet.rows):
            raise Refusal(5)
        self.right += top == key
        return top == key

    def summed_up(self):
        for sheet in self.sheets.values():
            sheet.check()
        text = f"page {escaped(self.name)}: right {self.right} of {self.set_points}"
        text += f", refused {self.refused}, unreadable {self.unreadable}"
        if self.not_marked > 0:
            text += f", not marked {self.not_marked}"
        if self.doubtful > 0:
            text += f", doubtful {self.doubtful}"
        return text


def may_alter(words):
    """Whether a line that cannot be read, of these words, may have been meant to alter a sheet."""
    if words[:1] in (["set"], ["measure"], ["cover"]):
        return False
    return not (words[:1] in (["marks"], ["frames"]) and words[1:2] and words[1] in QUESTIONS)


class Sitting:
    """The page that is open, and the counts over all pages of all files.

    `tell` hears of each line that cannot be read: its file, its number and why.
    """

    def __init__(self, tell=lambda file, line, why: None):
        self.tell = tell
        self.pages = self.orders = self.refused = self.unreadable = self.not_marked = 0
        self.set_points = self.right = 0
        self.open_file("-")

    def open_file(self, name):
        self.file = name
        self.lines = 0
        self.page = Page(None)

    def end_page(self):
        """The sum of the page, in a list; none of one that nothing has begun."""
        page = self.page
        if page.name is None:
            return []
        self.pages += 1
        self.refused += page.refused
        self.not_marked += page.not_marked
        self.set_points += page.set_points
        self.right += page.right
        return [page.summed_up()]

    def close_file(self):
        answers = self.end_page()
        self.page = Page(None)
        return answers

    def take(self, line):
        """What is written where a line of bytes is read: the sum of a page that ends there, and the line's answer.

        An answer may have several lines itself.
        """
        self.lines += 1
        data = line.partition(b"#")[0]
        try:
            text, fault = data.decode("utf-8"), None
        except UnicodeDecodeError as error:
            text, fault = data[: error.start].decode("utf-8"), "not UTF-8 text"
        words = words_of(text)
        if not words and fault is None:
            return []
        try:
            if fault is not None:
                raise Unreadable(fault)
            asked = read_order(text)
        except Unreadable as why:
            return self.take_unreadable(words, escaped(str(why)))
        ended = self.end_page() if words[0] == "page" else []
        return [*ended, f"{self.lines} {escaped(TRIM.sub('', text))} -> {self.take_order(asked, words[0])}"]

    def take_unreadable(self, words, why):
        ended = []
        if words[:1] == ["page"]:
            ended = self.end_page()
            self.page = Page(f"line {self.lines}", unread=self.lines)
        elif may_alter(words):
            self.page.doubt = True
        self.unreadable += 1
        self.page.unreadable += 1
        self.tell(self.file, self.lines, why)
        return [*ended, f"{self.lines} unreadable: {why}"]

    def take_order(self, asked, kind):
        self.orders += 1
        page = self.page
        if kind != "page" and page.name is None:
            page.name = f"line {self.lines}"
        if kind != "page" and page.unread is not None:
            page.not_marked += 1
            return f"not marked: line {page.unread}"
        try:
            return asked(self)
        except Refusal as refusal:
            page.refused += 1
            return str(refusal)

    def tally(self):
        text = f"pages {self.pages}, orders {self.orders}, refused {self.refused}, unreadable lines {self.unreadable}"
        if self.not_marked > 0:
            text += f", not marked {self.not_marked}"
        return [text, f"right {self.right} of {self.set_points}"]


def lines_of(data):
    """The lines of a file. What stands behind the last end of a line is a line if it is not empty."""
    lines = LINE_END.split(data.removeprefix(BYTE_ORDER_MARK))
    return lines[:-1] if lines[-1] == b"" else lines


def answers_of(files, strict=False, **how):
    """All that is written of files, pairs of a name and the bytes; and whether every line was read."""
    sitting = Sitting(**how)
    written = []
    for name, data in files:
        sitting.open_file(name)
        for line in lines_of(data):
            written += sitting.take(line)
            if strict and sitting.unreadable > 0:
                break
        written += sitting.close_file()
        if strict and sitting.unreadable > 0:
            break
    written += sitting.tally()
    return written, sitting.unreadable == 0


def contents(name):
    return sys.stdin.buffer.read() if name == "-" else Path(name).read_bytes()


def tell(file, line, why):
    print(f"{file}:{line}: {why}", file=sys.stderr)


def main(arguments):
    names = [argument for argument in arguments if argument != "--strict"] or ["-"]
    files = ((name, contents(name)) for name in names)
    written, well = answers_of(files, "--strict" in arguments, tell=tell)
    sys.stdout.buffer.write(("\n".join(written) + "\n").encode("utf-8"))
    return 0 if well else 1


if __name__ == "__main__":
    sys.exit(main(sys.argv[1:]))
