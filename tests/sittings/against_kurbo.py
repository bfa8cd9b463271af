#!/usr/bin/env python3.11
"""Compares the model's shapes and maps with kurbo's own.

    against_kurbo.py ORACLE

ORACLE is a program that answers cases with kurbo 0.13.1's own code, built without its `std` and with the
elementary functions of docs/RULES.md; it is not part of the repository. It takes a case a line on its standard
input, SHAPE WHAT NUMBERS.., a number being `0x` and the digits of its bits, and answers each on a line. All are
compared bit for bit, zeros by their signs, every not-a-number as one. Where the rules depart from kurbo
(docs/DIFFERENCES.md) the answer is worked out from kurbo's by the rule, or the case is passed over and counted.
"""

import math
import struct
import subprocess
import sys
from collections import Counter

sys.dont_write_bytecode = True  # leave nothing beside the scripts

import model
from dice import Dice

ROUNDS = 6000


def bits(x):
    return "nan" if x != x else struct.pack(">d", x).hex()


def words(numbers):
    return " ".join(map(bits, numbers))


class Numbers:
    """Parameters of every kind; within one shape mostly of one kind."""

    def __init__(self, dice):
        self.dice = dice

    def number(self, kind):
        dice = self.dice
        if kind == "grid":
            return dice.between(-8 * 256, 8 * 256) / 256
        if kind == "few":
            return float(dice.between(-4, 4))
        if kind == "page":
            return dice.between(-4096 * 256, 4096 * 256) / 256
        if kind == "field":
            return dice.between(-32768 * 256, 32768 * 256) / 256
        if kind == "decimals":
            return dice.between(-409600, 409600) / 100
        if kind == "any":
            return (dice.part() - 0.5) * 2.0 ** dice.between(-20, 20)
        if kind == "tiny":
            return (dice.part() - 0.5) * 2.0 ** dice.between(-1074, -500)
        if kind == "huge":
            return (dice.part() - 0.5) * 2.0 ** dice.between(500, 1023)
        if kind == "odd":
            return dice.pick((0.0, -0.0, 5e-324, -5e-324, 1.0, -1.0, 1.7976931348623157e308, -1.7976931348623157e308))
        return dice.pick((math.inf, -math.inf, math.nan, 0.0, 1.0))

    def some(self, count, infinite=False):
        kinds = {"grid": 30, "few": 20, "page": 10, "field": 4, "decimals": 15, "any": 15}
        kinds |= {"tiny": 4, "huge": 4, "odd": 4}
        if infinite:
            kinds["infinite"] = 10
        kind = self.dice.weighted(kinds)
        return [self.number(kind if self.dice.chance(90) else self.dice.weighted(kinds)) for _ in range(count)]

    def point(self, shape):
        """A point near the shape: a corner of its box, one of its points, or one between; or anywhere."""
        box = shape.bounding_box()
        where = self.dice.below(10)
        if where < 2 or not model.finite(*box):
            return self.some(2, True)
        if where < 4:
            i = self.dice.below(len(shape.given) - 1)
            return [shape.given[i], shape.given[i + 1]]
        x0, y0, x1, y1 = box
        x = self.dice.pick((x0, x1, x0 + (x1 - x0) * self.dice.part(), x0 + (x1 - x0) * 0.5))
        y = self.dice.pick((y0, y1, y0 + (y1 - y0) * self.dice.part(), y0 + (y1 - y0) * 0.5))
        if self.dice.chance(50) and abs(x) < 1e9 and abs(y) < 1e9:
            x, y = math.floor(x * 256) / 256, math.floor(y * 256) / 256
        return [x, y]


def expected_winding(shape, kurbo, x, y):
    """The winding by kurbo's and the rules that depart from it; nothing where they can't be told from kurbo's."""
    if isinstance(shape, (model.Rect, model.Circle)):
        return kurbo
    if not model.box_holds(shape.bounding_box(), x, y):
        return 0
    if isinstance(shape, model.Triangle):
        ax, ay, bx, by, cx, cy = shape.given
        side = model.side
        if side(ax, ay, bx, by, cx, cy) == 0:
            return 0
        if 0 in (side(ax, ay, bx, by, x, y), side(bx, by, cx, cy, x, y), side(cx, cy, ax, ay, x, y)):
            return None
    return kurbo


def path_text(path):
    return " ".join(letter + "".join(" " + bits(x) for x in numbers) for letter, *numbers in path)


def main(program):
    dice = Dice(1844)
    numbers = Numbers(dice)
    asked = []  # the case, what it is counted as, and what makes the answer of kurbo's

    def ask(case, given, expected):
        numbers = " ".join(x if x == "nan" else "0x" + x for x in map(bits, given))
        asked.append((f"{case} {numbers}", case, expected))

    for _ in range(ROUNDS):
        kind = dice.pick(("rect", "circle", "triangle", "rounded", "ellipse"))
        maker, count = model.SHAPES[kind]
        given = numbers.some(count, infinite=True)
        if kind == "triangle" and dice.chance(30):
            given[dice.below(6)] = given[dice.below(6)]
        if kind == "ellipse" and dice.chance(50):
            given[4] = dice.pick((0.0, -0.0, math.pi / 2, -math.pi / 4, math.pi, 0.1))
        if kind == "ellipse" and dice.chance(20):
            given[3] = given[2] * dice.pick((0.0, 1.0, -1.0, 0.1, 0.001, 1e-9))
        shape = maker(*given)
        own = given
        if kind == "ellipse":
            own = shape.map
            ask("ellipse new", given, lambda shape=shape: words(shape.map) + " *")
            ask("ellipse radii", own, lambda shape=shape: words(model.affine_svd(shape.map)))
        if kind == "rounded":
            ask("rounded radii", own, lambda shape=shape: words(shape.rect + shape.radii))
        ask(f"{kind} area", own, lambda shape=shape: bits(shape.area()))
        ask(f"{kind} box", own, lambda shape=shape: words(shape.bounding_box()))
        if kind == "ellipse":
            accuracy = dice.pick((1.0, 0.1, 1e-3, 1e-6, 1e-9, 1e-12, 1e-15, 1e-18, 1e300, 0.0, -1.0))
            try:
                length, steps = shape.perimeter_in_steps(accuracy, 64)
                # a length that takes a step has the series' range asked, and no more
                ask("ellipse perimeter", (*own, accuracy), lambda l=length, s=steps: f"{bits(l)} {s}")
            except model.Refusal:
                asked.append((None, "ellipse perimeter: 9 STEPS", None))
        else:
            ask(f"{kind} perimeter", [*own, 1.0], lambda shape=shape: bits(shape.perimeter()))
        for _ in range(3):
            x, y = numbers.point(shape)
            ask(f"{kind} winding", [*own, x, y], (shape, x, y))
        tolerance = dice.pick((0.1, 1.0, 10.0, 1e-3, 1e-6, 1e-9, 3e300))
        try:
            path = shape.path(tolerance)
            ask(f"{kind} path", [*own, tolerance], lambda path=path: path_text(path))
        except model.Refusal as refusal:
            asked.append((None, f"{kind} path: {str(refusal).removeprefix('refused ')}", None))
    for _ in range(ROUNDS):
        m, n, box = numbers.some(6, True), numbers.some(6, True), numbers.some(4, True)
        ask("affine point", [*m, *box[:2]], lambda m=m, p=box[:2]: words(model.affine_point(m, *p)))
        ask("affine mul", m + n, lambda m=m, n=n: words(model.affine_mul(m, n)))
        ask("affine inverse", m, lambda m=m: words(model.affine_inverse(m)))
        ask("affine determinant", m, lambda m=m: bits(model.affine_determinant(m)))
        ask("affine bbox", m + box, lambda m=m, box=box: words(model.transform_rect_bbox(m, box)))
        (x,), (y,) = numbers.some(1, True), numbers.some(1, True)
        ask("f sqrt", [x], lambda x=x: bits(model.root(x)))
        ask("f sin_cos", [x], lambda x=x: words(model.sin_cos(x)))
        ask("f tan", [x], lambda x=x: bits(model.tan(x)))
        ask("f atan2", [x, y], lambda x=x, y=y: bits(model.atan2(x, y)))
        v = abs(x) if dice.chance(50) else float(dice.between(0, 1024) ** 6 >> dice.between(0, 24))
        ask("f sixth_root", [v], lambda v=v: bits(model.sixth_root(v)))

    cases = [case for case, _, _ in asked if case is not None]
    run = subprocess.run([program], input="\n".join(cases) + "\n", capture_output=True, text=True, check=True)
    answers = iter(run.stdout.splitlines())
    agreed, passed, differed, windings = Counter(), Counter(), 0, Counter()
    for case, count, expected in asked:
        if case is None:
            passed[count] += 1
            continue
        kurbo = next(answers)
        if isinstance(expected, tuple):
            shape, x, y = expected
            ours = shape.winding(x, y)
            wanted = expected_winding(shape, int(kurbo), x, y)
            if wanted is None:
                passed[f"{count}: a cross product of zero"] += 1
                continue
            if wanted != int(kurbo):
                passed[f"{count}: 0 by the rules, {kurbo} by kurbo"] += 1
            windings[f"{count} {ours}"] += 1
            same = ours == wanted
        else:
            ours = expected()
            # whether the oracle could make the same ellipse says nothing of not-a-numbers
            same = ours == (kurbo.rsplit(" ", 1)[0] + " *" if count == "ellipse new" else kurbo)
        if same:
            agreed[count] += 1
        else:
            differed += 1
            if differed <= 20:
                print(f"{case}\n  kurbo {kurbo}\n  model {ours}")
    for name, counts in (("agree", agreed), ("windings", windings), ("by the rules, not kurbo's", passed)):
        print(f"{name}: {sum(counts.values())}")
        for count, times in sorted(counts.items()):
            print(f"  {count}: {times}")
    print(f"differ: {differed}")
    return differed == 0


if __name__ == "__main__":
    sys.exit(0 if main(sys.argv[1]) else 1)
