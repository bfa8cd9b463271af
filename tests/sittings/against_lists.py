#!/usr/bin/env python3.11
"""Compares the model with the stored lists of cases: what kurbo's own code, or by a rule above it the rules, answer.

    against_lists.py

The lists are crates/comparison/stdin, the shapes and maps, and crates/vectors/stdin, the elementary functions;
docs/COMPARISON.md and docs/VECTORS.md say what a case is and where its answer comes from. Answers are compared bit
for bit, zeros by their signs, every not-a-number as one.
"""

import math
import struct
import sys
from pathlib import Path

sys.dont_write_bytecode = True  # leave nothing beside the scripts

import model

CRATES = Path(__file__).resolve().parents[2] / "crates"


def bits(x):
    return "nan" if x != x else struct.pack(">d", x).hex()


def words(numbers):
    return " ".join(map(bits, numbers))


def number(word):
    return math.nan if word == "nan" else struct.unpack(">d", bytes.fromhex(word))[0]


def path_text(path):
    return " ".join(letter + "".join(" " + bits(x) for x in numbers) for letter, *numbers in path)


def ellipse_of(numbers):
    ellipse = model.Ellipse(0.0, 0.0, 1.0, 1.0, 0.0)
    ellipse.parameters = ellipse.map = tuple(numbers)
    return ellipse


def shape_answer(kind, what, v):
    if kind == "affine":
        m = v[:6]
        if what == "point":
            return words(model.affine_point(m, *v[6:]))
        if what == "mul":
            return words(model.affine_mul(m, v[6:]))
        if what == "inverse":
            return words(model.affine_inverse(m))
        if what == "determinant":
            return bits(model.affine_determinant(m))
        assert what == "bbox"
        return words(model.transform_rect_bbox(m, v[6:]))
    if (kind, what) == ("ellipse", "new"):
        return words(model.Ellipse(*v).map)
    maker, count = (ellipse_of, 6) if kind == "ellipse" else model.SHAPES[kind]
    shape = maker(v[:6]) if kind == "ellipse" else maker(*v[:count])
    v = v[count:]
    if what == "area":
        return bits(shape.area())
    if what == "box":
        return words(shape.bounding_box())
    if what == "winding":
        return str(shape.winding(*v))
    if what == "contains":
        return "true" if shape.winding(*v) != 0 else "false"
    if what == "path":
        return path_text(shape.path(*v))
    if what == "radii":
        return words(model.affine_svd(shape.map)) if kind == "ellipse" else words(shape.rect + shape.radii)
    assert what == "perimeter"
    if kind != "ellipse":
        return bits(shape.perimeter())
    length, steps = shape.perimeter_in_steps(*v)
    return f"{bits(length)} {steps}"


def vector_answer(name, v):
    answers = {
        "sqrt": model.root,
        "powi2": model.powi2,
        "powi7": model.powi7,
        "sixth_root": model.sixth_root,
        "sin_cos": model.sin_cos,
        "tan": model.tan,
        "atan2": model.atan2,
    }
    answer = answers[name](*v)
    return words(answer) if isinstance(answer, tuple) else bits(answer)


def cases(name):
    for line in (CRATES / name / "stdin").read_text().splitlines():
        case, arrow, answer = line.partition("#")[0].partition(" -> ")
        if arrow:
            yield case.split(), answer.strip()


def main():
    agree = differ = 0
    for name in ("comparison", "vectors"):
        for case, answer in cases(name):
            try:
                if name == "vectors":
                    ours = vector_answer(case[0], [number(word) for word in case[1:]])
                else:
                    numbers = [number(word) for word in case[2:]]
                    if case[:2] == ["ellipse", "perimeter"]:
                        # its last number is the allowance; without one all steps are allowed
                        numbers[7:] = [int(numbers[7])] if len(numbers) == 8 else [model.MOST_STEPS]
                    ours = shape_answer(case[0], case[1], numbers)
            except model.Refusal as refusal:
                ours = str(refusal)
            agree += ours == answer
            differ += ours != answer
            if ours != answer and differ <= 20:
                print(f"{' '.join(case)}\n  list  {answer}\n  model {ours}")
    print(f"agree {agree}, differ {differ}")
    return differ == 0


if __name__ == "__main__":
    sys.exit(0 if main() else 1)
