#!/usr/bin/env python3.11
"""Writes random sittings, the same at each run.

    make.py FILE

The model answers each line as it is written: so points can be chosen near the marks as they lie, and keys so that
many of them are right. What the sittings have is said at each page below; tally.py counts what came of it.
"""

import math
import struct
import sys

sys.dont_write_bytecode = True  # leave nothing beside the scripts

import model
from dice import Dice

STEP = 1 / 256
BEYOND = 4096 + STEP
WORD_END = 2**64

HUGE = (1e300, -1e300, 1.7976931348623157e308, -1.7976931348623157e308, 1e155, -3e154, 1e18)
TINY = (5e-324, -5e-324, 1e-300, -1e-300, 2.2250738585072014e-308, 1e-170, -1e-9)
ENDLESS = (math.inf, -math.inf, math.nan)
ANGLES = (0.0, -0.0, math.pi / 2, -math.pi / 2, math.pi, math.pi / 4, 0.3, -1.25, 2.0, 100.0, -5000.0, 1e-9, 1048576.0)
NO_ANGLES = (1048577.0, -2e9, math.inf, math.nan)

NO_TURNS = (
    (1, 0, 0, 0),
    (0, 0, 0, 0),
    (2, 0, 0, 2),
    (0.5, 0, 0, 0.5),
    (1, 1, 0, 1),
    (0.6, 0.8, -0.8, 0.6),
    (1, 0, 0, math.nan),
    (math.inf, 0, 0, 1),
    (0, 1, 1, 1),
    (-1, 0, 0, 1.0000000000000002),
    (0, 1, -1, 5e-324),
    (1, 0, -STEP, 1),
    (1, 0, 1, 0),
    (0, 0, 1, 1),
    (-1, 0, 0, 0.9999999999999999),
)
OFF_GRID = (0.1, 1 / 512, -1 / 512, 4095.999, -0.003, 1e-300, math.nan, math.inf, -math.inf, 5000.1, 4096 + 1 / 512)
OFF_PAGE = (BEYOND, -BEYOND, 5000.0, -4097.0, 32768.0, 1e300, -(2.0**60), 1e18)
NO_TOLERANCES = (0.0, -0.0, -1.0, math.nan, math.inf, -math.inf, -5e-324, -1e300)


# Numbers as text: halves between two floats, the ends of the format, all ways of writing.
NUMBERS_AS_TEXT = (
    *"1e400 -1e400 1e-400 -1e-400 0.1e1 1e+05 00012.50 .5 5. 5.e3 -.5e-1 +7 -0 -0.0".split(),
    *"123456789012345678901234567890 9007199254740993 9007199254740992.5 9007199254740993.00000000000000001".split(),
    *"1.7976931348623157e308 1.7976931348623158e308 1.7976931348623159e308 4.9e-324 5e-324".split(),
    *"2.4703282292062327e-324 2.4703282292062328e-324 2.2250738585072011e-308 2.2250738585072014e-308".split(),
    *"1e16 1e17 1e21 1e22 1e23 8.41e21 9.5e-3 0.3 1E5 123456.789e3 0.00000001 100 1e-7 4503599627370497.5".split(),
    *"0.1000000000000000055511151231257827021181583404541015625 1.0000000000000002 0.9999999999999999".split(),
    *"1e0000000000000000000002 0e999999999999 nan -nan NaN inf -inf infinity -Infinity".split(),
    "0" * 400 + "1." + "0" * 400,
    "1" + "0" * 308,
    "0." + "0" * 330 + "1",
)

# Words that stand in no place of an order, or in few.
SLIPS = "x 1O --1 1e 0x1 1,5 by over outside \u00bd \u22121 1_000 e5 . + putt".split()
# Bytes that are no text, and control characters that are no blanks.
STRAY = (b"\xe9", b"\xff", b"\xc3", b"\xed\xa0\x80", b"\xf0\x9f\x8e")
STRAY += (b"\x07", b"\x08", b"\x1b", b"\x1c", b"\x7f", b"\xc2\x9f")
LATIN_1 = "\u00e0 2 voix, tr\u00e8s lent".encode("latin-1")

# Page lines that cannot be read.
NO_PAGES = (
    "page",
    "page#",
    "\tpage   # without a name",
    "page Too many sizes 8",
    "page Many 8 30 1",
    "page Many 8 30 8 30",
    "page Many 8 30 1 # one size too many",
    "page second verse",
    "page Wide 131073",
    "page Wide -1",
    "page Wide 8.0",
    "page Wide 18446744073709551616",
    "page Wide 1e3 8",
    "page Wide 131072 1048577",
    "page Wide 0 1048577",
    "page Wide 8 x",
    "page Wide 8 -0",
    "page Wide 8 30.0",
    "page Wide 131072 99999999999999999999",
    "page Bell 8 3\x070",
    "page Bell \x1b[8 30",
    "page Bell 8 30\x00",
    b"page \xe9tude",
    b"page \xe9tude # \xe9tude",
    b"page \xff",
    b"page\xff",
    b"page Wide 8 30 \xc3",
    b"  page\tWide 8 \xe2\x82",
)
# Lines that are none of them, though they begin like one.
NO_PAGE_LINES = ("pages 8 30", "Page Wide 8", "pag\u00e9 Wide", b"pag\xe9 Wide", b"\xffpage Wide", "page\x07 Wide")
# Lines that cannot be read and begin as a question does.
NO_QUESTIONS = (
    *("set 1 1", "set x", "set", "measure", "measure 1", "cover", "cover rect", "cover over", "set 1 1 within 9 9"),
    *(f"{sheet} {question} x y z" for sheet in ("marks", "frames") for question in model.QUESTIONS),
    *(b"set \xff", b"set\xff", b"measure\xe9", b"cover rect \xe9", b"marks top\xff"),
    *(b"frames \tset\xe9 0", b"marks set 0 0 \xff"),
)
# Lines that cannot be read and may have been meant to alter a sheet.
MAY_ALTER = (
    *("marks", "frames", "marks x", "frames putt", "marks put", "marks shift 0", "frames shift_all", "frames lift"),
    *("Marks top 0 0", "marks Top 0 0", "sett 0 0 outside", "x", "marks bounding box", "measures", "sets", "over"),
    *(b"\xff", b"marks \xe9", b"marks \xfftop 0 0", b"\xffset 0 0 outside", b"marks\xff top 0 0"),
    *(b"marks dra\xff", b"se\xff"),
)

# Shapes, and grid points outside their boxes, where a test without the box says 1.
BEYOND_THE_BOX = (
    ("triangle", (-4.2, 0.7000000000000002, -2.8000000000000003, 5.299999999999999, -8.4, -13.1), 7.0, 37.5),
    ("triangle", (-2.6, 5.8, 21.4, -6.2, -14.6, 11.8), 113.3984375, -52.19921875),
    ("triangle", (-14.0, -8.8, 10.5, -3.2, -21.0, -10.4), 77.0, 12.0),
    (
        "rounded",
        (-0.15624999999999992, -710.7954091260041, 167.09375, 2256.7789225304355, 55.75, 1573.535, 83.625, 167.25),
        -0.15625,
        2.75,
    ),
    (
        "rounded",
        (3.8203125000000013, -151.54120584469612, 1979.4603125, 189.89708914555976, 0, 987.82, 1, 987.82),
        3.8203125,
        -2.5390625,
    ),
    (
        "rounded",
        (0, 3.3871092011447e-15, 0, 2000.283640779555, 0.032041614572696685, math.inf, 3.309594955814074, -5e-324),
        0.0,
        0.0,
    ),
    ("ellipse", (-63.2, 0.0, 54.121874999999996, 54.121874999999996, 1.0), -9.078125, 0.0),
    ("ellipse", (0.0, 0.0, 6.453124999999999, 6.453124999999999, 0.5), -6.453125, 0.0),
    ("ellipse", (36.2, 0.0, 29.590625, 29.590625, 0.0), 6.609375, 0.0),
)


def spelled(x):
    """A number as a candidate would write it: with an exponent where the digits are many."""
    if x != x or math.isinf(x) or 1e-5 <= abs(x) < 1e16 or x == 0:
        return model.number_text(x)
    return repr(x)


class Room:
    """Writes lines, and has the model answer them."""

    def __init__(self):
        self.dice = Dice(1835)
        self.sitting = model.Sitting()
        self.lines = []  # each with its end
        self.answers = []
        self.slips = 0  # in so many of a hundred orders the pen slips
        self.ends = (b"\n",)

    # ---- lines

    def line(self, text):
        """A line as it stands, and the answer to it."""
        data = text if isinstance(text, bytes) else text.encode("utf-8")
        assert model.LINE_END.search(data) is None
        end = self.dice.pick(self.ends) if len(self.ends) > 1 else self.ends[0]
        if data == b"" and end == b"\n" and self.lines and self.lines[-1].endswith(b"\r"):
            end = b"\r\n"  # CR and LF next to each other would end one line
        self.lines.append(data + end)
        answers = self.sitting.take(data)
        self.answers += answers
        return answers[-1] if answers else None

    def file(self):
        """All lines, behind a byte order mark. The last one has no end."""
        data = model.BYTE_ORDER_MARK + b"".join(self.lines).rstrip(b"\r\n")
        self.answers += self.sitting.close_file() + self.sitting.tally()
        assert model.answers_of([("-", data)])[0] == self.answers
        return data

    def lines_of(self, text):
        for line in text.strip("\n").split("\n"):
            self.line(line)

    def order(self, *words):
        """An order of words and numbers; now and then with other blanks than one, or a comment behind it."""
        dice = self.dice
        words = [word if isinstance(word, str) else self.number(word) for word in words]
        if self.slips > 0 and dice.chance(self.slips):
            return self.line(self.slip(words))
        if dice.chance(96):
            return self.line(" ".join(words))
        between = dice.pick(("  ", " ", "\t", " \t ", "\u00a0", "\u3000", "\x0b", "\x0c ", "\u0085"))
        text = dice.pick(("", " ", "\t", "  ")) + between.join(words)
        comments = ("", " ", "\t", "\x0c", "  # seen", "# again", " # \u00e0 2 voix")
        behind = b"# " + LATIN_1 if dice.chance(25) else dice.pick(comments).encode("utf-8")
        return self.line(text.encode("utf-8") + behind)

    def slip(self, words):
        """An order of these words in which the pen slips; now and then it is an order still."""
        dice = self.dice
        words = [word.encode("utf-8") for word in words]
        at = dice.below(len(words))
        way = dice.below(6)
        if way == 0:
            del words[at]
        elif way == 1:
            words.insert(at + 1, dice.pick(SLIPS).encode("utf-8"))
        elif way == 2:
            words[at] = dice.pick(SLIPS).encode("utf-8")
        else:
            cut = dice.between(0, len(words[at]))
            words[at] = words[at][:cut] + dice.pick(STRAY) + words[at][cut:]
        return b" ".join(words)

    def number(self, x):
        if isinstance(x, int):
            return str(x)
        text = spelled(x)
        if self.dice.chance(97) or not math.isfinite(x):
            if x != x and self.dice.chance(20):
                return self.dice.pick(("NaN", "NAN", "-nan", "+nan"))
            if math.isinf(x) and self.dice.chance(20):
                return self.dice.pick(("Infinity", "INF", "infinity") if x > 0 else ("-Infinity", "-INF", "-infinity"))
            return text
        if "e" in text:
            return text.replace("e", "E")
        ways = [text + ("" if "." in text else ".") + "0", text + "e0", text + "E+00"]
        if not text.startswith("-"):
            ways.append("+" + text)
        if text.startswith("0."):
            ways.append(text[1:])
        if "." not in text:
            ways.append(text + ".")
        return self.dice.pick(ways)

    def page(self, name, *sizes, why=None):
        """A page line. Each page has dice of its own, so that a change of one page leaves the others alone."""
        self.dice = Dice(int.from_bytes(f"1835 {name}".encode(), "big") % (2**61 - 1))
        self.slips, self.ends = 0, (b"\n",)
        self.line("")
        if why is not None:
            self.line(f"# {why}")
        self.line(" ".join(["page", name, *map(str, sizes)]))

    def rows(self, sheet="marks"):
        return self.sitting.page.sheets[sheet].rows

    # ---- numbers

    def near(self, reach=24):
        """A grid number near the middle of the page, most often a multiple of 1/4."""
        if self.dice.chance(60):
            return self.dice.between(-4 * reach, 4 * reach) / 4
        return self.dice.between(-256 * reach, 256 * reach) / 256

    def size(self, most=12):
        if self.dice.chance(60):
            return self.dice.between(1, 4 * most) / 4
        return self.dice.between(1, 256 * most) / 256

    def decimal(self, reach=30):
        return self.dice.between(-100 * reach, 100 * reach) / 100

    def across(self, reach):
        return self.dice.between(-256 * reach, 256 * reach) / 256

    # ---- shapes: a kind and its numbers

    def shape(self, style, kinds=("rect", "circle", "triangle", "rounded", "ellipse")):
        kind = self.dice.pick(kinds)
        if style == "grid":
            numbers = self.drawn(kind, self.near, self.size)
        elif style == "decimals":
            numbers = self.drawn(kind, self.decimal, lambda: self.dice.between(1, 1500) / 100)
        elif style == "fine":
            numbers = self.drawn(kind, lambda: (self.dice.part() - 0.5) * 60, lambda: self.dice.part() * 15)
        elif style == "page":
            numbers = self.drawn(kind, lambda: self.across(4096), lambda: abs(self.across(4096)) + STEP)
        elif style == "field":
            numbers = self.drawn(kind, lambda: self.across(32768), lambda: abs(self.across(32768)) + STEP)
        elif style == "large decimals":
            numbers = self.drawn(kind, lambda: self.decimal(4096), lambda: abs(self.decimal(4096)))
        elif style == "degenerate":
            numbers = self.flat(kind)
        else:
            numbers = self.drawn(kind, self.near, self.size)
            for _ in range(self.dice.between(1, 2)):
                numbers[self.dice.below(len(numbers))] = self.dice.pick(
                    {"tiny": TINY, "huge": HUGE, "endless": ENDLESS, "zeros": (0.0, -0.0)}[style]
                )
        if kind == "ellipse" and style not in ("fine", "endless"):
            numbers[4] = self.dice.pick(ANGLES)
        return kind, numbers

    def drawn(self, kind, place, size):
        """Numbers that are most often a proper shape, in either direction."""
        dice = self.dice
        x, y = place(), place()
        if kind in ("rect", "rounded"):
            x1 = x + size() * dice.pick((1, 1, 1, -1))
            y1 = y + size() * dice.pick((1, 1, 1, -1))
            box = [x, y, x1, y1]
            if kind == "rect":
                return box
            half = min(abs(x1 - x), abs(y1 - y)) / 2
            way = dice.below(6)
            if way == 0:
                radii = [size()] * 4
            elif way == 1:
                radii = [0.0] * 4
            elif way == 2:
                radii = [dice.pick((half, 2 * half, -half, 0.0)) for _ in range(4)]
            else:
                radii = [size() / 4 * dice.pick((1, 1, 1, 0, -1)) for _ in range(4)]
            return box + radii
        if kind == "circle":
            return [x, y, size() * dice.pick((1, 1, 1, 1, 1, -1))]
        if kind == "triangle":
            return [x, y] + [at + size() * dice.pick((1, -1)) for at in (x, y, x, y)]
        return [x, y, size() * dice.pick((1, 1, 1, 1, -1)), size(), dice.pick(ANGLES)]

    def flat(self, kind):
        """A shape without an area."""
        dice = self.dice
        x, y, w, h = self.near(), self.near(), self.size(), self.size()
        way = dice.below(4)
        if kind in ("rect", "rounded"):
            box = ([x, y, x, y + h], [x, y, x + w, y], [x, y, x, y], [x + w, y, x, y])[way]
            return box if kind == "rect" else box + [dice.pick((0.0, 1.0, w))] * 4
        if kind == "circle":
            return [x, y, dice.pick((0.0, -0.0))]
        if kind == "triangle":
            return [
                [x, y, x + w, y + h, x + 2 * w, y + 2 * h],
                [x, y, x, y, x + w, y],
                [x, y, x, y, x, y],
                [x + 2 * w, y, x, y, x + w, y],
            ][way]
        radii = ([w, 0.0], [0.0, h], [0.0, 0.0], [w, w])[way]
        return [x, y, *radii, dice.pick(ANGLES + NO_ANGLES)]

    # ---- moves

    def move(self, style="small"):
        dice = self.dice
        turn = list(map(float, dice.pick(model.TURNS)))
        if dice.chance(5):
            turn = [-0.0 if x == 0 and dice.chance(50) else x for x in turn]
        if style == "no turn":
            turn = list(dice.pick(NO_TURNS))
        if style in ("small", "no turn"):
            e, f = self.near(16), self.near(16)
            if style == "no turn" and dice.chance(30):
                e = dice.pick(OFF_GRID + OFF_PAGE)
        elif style == "offset":
            turn, e, f = [1.0, 0.0, 0.0, 1.0], self.near(8), self.near(8)
        elif style == "page":
            e, f = self.across(4096), self.across(4096)
        elif style == "edge":
            edge = (4096.0, -4096.0, 4096 - STEP, STEP - 4096, 0.0, STEP, -STEP)
            e, f = dice.pick(edge), dice.pick(edge)
        elif style == "grain":
            turn, (e, f) = [1.0, 0.0, 0.0, 1.0], dice.pick(((STEP, 0.0), (-STEP, 0.0), (0.0, STEP), (0.0, -STEP)))
        elif style == "off grid":
            e, f = dice.pick(OFF_GRID), dice.pick((self.near(16), dice.pick(OFF_PAGE)))
            if dice.chance(50):
                e, f = f, e
        elif style == "off page":
            e, f = dice.pick(OFF_PAGE), self.near(16)
            if dice.chance(50):
                e, f = f, e
        return [*turn, e, f]

    def by(self, style):
        """`by` and a move, or nothing."""
        return [] if style is None else ["by", *self.move(style)]

    def some_move(self, bad=6, usual=None):
        """The style of a move, bad in so many of a hundred cases."""
        if self.dice.chance(bad):
            return self.dice.pick(("no turn", "off grid", "off page"))
        return self.dice.weighted(usual or {"small": 12, "offset": 5, "page": 1, "edge": 1})

    # ---- points

    def feature(self, shape):
        """A point of a shape: a corner, a middle of an edge or of the rim, its centre, or one anywhere in its box."""
        dice = self.dice
        box = shape.bounding_box()
        x0, y0, x1, y1 = box
        way = dice.below(10)
        if way < 5:
            return x0 + (x1 - x0) * dice.part(), y0 + (y1 - y0) * dice.part()
        if way == 5:
            return (x0 + x1) / 2, (y0 + y1) / 2
        if isinstance(shape, model.Triangle):
            corners = [shape.given[i : i + 2] for i in (0, 2, 4)]
            px, py = dice.pick(corners)
            qx, qy = dice.pick(corners)
            part = dice.pick((0, 0.5, 0.25, 0.75, dice.part()))
            return px + (qx - px) * part, py + (qy - py) * part
        if isinstance(shape, model.Circle) and way < 9:
            cx, cy, r = shape.given
            c, s = dice.pick(((1, 0), (0, 1), (-1, 0), (0, -1), (0.6, 0.8), (-0.8, 0.6), (0.28, -0.96)))
            return cx + r * c, cy + r * s
        if isinstance(shape, model.RoundedRect) and way < 9:
            x0, y0, x1, y1 = shape.rect
            corner = dice.below(4)
            r = shape.radii[corner]
            c, s = dice.pick(((1, 0), (0, 1), (0.6, 0.8), (0.8, 0.6), (0.5, 0.5)))
            x = x0 + r - r * c if corner in (0, 3) else x1 - r + r * c
            y = y0 + r - r * s if corner in (0, 1) else y1 - r + r * s
            return x, y
        return dice.pick((x0, x1, (x0 + x1) / 2, x0 + (x1 - x0) * dice.part())), dice.pick((y0, y1, (y0 + y1) / 2))

    def point(self, sheet="marks", bad=4):
        """A page point, most often on or near a mark; now and then one that is no page point."""
        dice = self.dice
        rows = self.rows(sheet)
        if not rows or dice.chance(7):
            x, y = (self.across(4096), self.across(4096)) if dice.chance(30) else (self.near(), self.near())
        else:
            row = dice.pick(rows)
            x, y = model.affine_point(row.product, *self.feature(row.mark))
            if not model.finite(x, y):
                x, y = self.near(), self.near()
        return self.spoiled(x, y) if dice.chance(bad) else self.on_page(x, y)

    def on_page(self, x, y):
        """The grid point of the page next to a point, or a step beside it."""
        dice = self.dice
        x, y = (math.floor(max(-4096.0, min(4096.0, a)) * 256) / 256 for a in (x, y))
        if dice.chance(25):
            x, y = x + dice.between(-1, 1) * STEP, y + dice.between(-1, 1) * STEP
        x, y = (max(-4096.0, min(4096.0, a)) for a in (x, y))
        return (-0.0 if x == 0 and dice.chance(10) else x), y

    def spoiled(self, x, y):
        """A point that is no page point."""
        x, y = self.on_page(x, y)
        bad = self.dice.pick((self.dice.pick(OFF_GRID), self.dice.pick(OFF_PAGE), x + 1 / 1024))
        other = self.dice.pick((y, y, y, self.dice.pick(OFF_PAGE), self.dice.pick(OFF_GRID)))
        return (bad, other) if self.dice.chance(50) else (other, bad)

    # ---- orders

    def put(self, sheet="marks", style="grid", move="small", kinds=None):
        kinds = ("rect",) if sheet == "frames" else kinds or ("rect", "circle", "triangle", "rounded", "ellipse")
        kind, numbers = self.shape(style, kinds)
        return self.order(sheet, "put", kind, *numbers, *self.by(move))

    def position(self, sheet, beyond=6):
        """A position, in so many of a hundred cases one that no mark has."""
        count = len(self.rows(sheet))
        if count == 0 or self.dice.chance(beyond):
            return self.dice.pick((count, count, count + 1, count + 7, 65535, 65536, WORD_END - 1))
        return self.dice.below(count)

    def set_point(self, sheet="marks", right=65, bad=4):
        """A set point with its key, which is right in so many of a hundred cases at least, or names no mark."""
        x, y = self.point(sheet, bad)
        try:
            top = self.sitting.page.sheets[sheet].top(x, y)
        except model.Refusal:
            top = None
        if not self.dice.chance(right):
            top = self.dice.pick((None, self.position(sheet, 10), self.position(sheet, 10)))
        return self.set_line(sheet, x, y, top)

    def set_line(self, sheet, x, y, key):
        spelled_out = sheet == "frames" or self.dice.chance(25)
        words = [sheet, "set"] if spelled_out else ["set"]
        return self.order(*words, x, y, *(("outside",) if key is None else ("within", key)))

    def radii(self, shape):
        """The radii that a tolerance is compared with."""
        if isinstance(shape, model.Circle):
            return [abs(shape.given[2])]
        if isinstance(shape, model.RoundedRect):
            return list(shape.radii)
        if isinstance(shape, model.Ellipse):
            return [model.affine_svd(shape.map)[0]]
        return []

    def tolerance(self, sheet):
        """A tolerance: coarse, or none, or one of those at which the number of curves or the answer changes."""
        dice = self.dice
        way = dice.weighted({"coarse": 60, "none": 14, "too fine": 10, "fine": 8, "turning": 12})
        if way == "coarse":
            return dice.pick((0.1, 0.25, 1.0, 10.0, 0.01, 100.0, 1e300))
        if way == "none":
            return dice.pick(NO_TOLERANCES)
        if way == "too fine":
            return dice.pick((1e-10, 1e-12, 5e-324, 1e-300, 1e-11, 3e-11))
        if way == "fine":
            return dice.pick((1e-3, 1e-5, 1e-7))
        radii = [r for row in self.rows(sheet) for r in self.radii(row.mark) if math.isfinite(r) and r > 1e-200]
        if not radii:
            return 0.5
        r = dice.pick(radii)
        turning = dice.pick((1.1163 * r / 2.0**36, 1.1163 * r / 2.0**36, r * 1.9608e-4, 1.1163 * r / 5**6))
        return turning * dice.pick((1.0, 1 + 2e-16, 1 - 2e-16, 1.001, 0.999))

    def draw(self, sheet, most=40):
        """A drawing, of at most so many lines; or one that is refused."""
        dice = self.dice
        for _ in range(12):
            tolerance = self.tolerance(sheet)
            try:
                if len(self.sitting.page.sheets[sheet].draw(tolerance)) <= most:
                    break
            except model.Refusal:
                break
        else:
            tolerance = dice.pick(NO_TOLERANCES)
        return self.order(sheet, "draw", tolerance)

    def measure(self, style, kinds=("rect", "circle", "triangle", "rounded", "ellipse")):
        kind, numbers = self.shape(style, kinds)
        if kind != "ellipse":
            return self.order("measure", kind, *numbers)
        return self.measure_ellipse(numbers)

    def measure_ellipse(self, numbers):
        dice = self.dice
        accuracy = dice.pick((1.0, 0.1, 1e-3, 1e-5, 1e-7, 1e-9, 1e-12, 1e-15, 1e-17, 0.0))
        if dice.chance(8):
            accuracy = dice.pick((-1.0, -0.0, math.nan, math.inf, -math.inf, 5e-324, 1e300))
        try:
            _, steps = model.Ellipse(*numbers).perimeter_in_steps(accuracy, 64)
        except model.Refusal:
            steps = 64
        allowance = dice.pick((steps, steps, max(steps - 1, 0), steps + 1, dice.below(71), dice.below(9), 64, 0))
        if dice.chance(3):
            allowance = 2**32 - 1
        return self.order("measure", "ellipse", *numbers, accuracy, allowance)

    def cover(self, upper, lower, upper_move=None, lower_move=None, question=None, bad=5):
        dice = self.dice
        (upper_kind, upper_numbers), (lower_kind, lower_numbers) = upper, lower
        words = ["cover", upper_kind, *upper_numbers, *self.by(upper_move)]
        above = list(words)
        words += ["over", lower_kind, *lower_numbers, *self.by(lower_move)]
        question = question or dice.weighted({"winding": 6, "bounding_box": 2, "draw": 2})
        if question == "winding":
            # a point of one of the two, as its move carries it
            layer, made = dice.pick(((above, upper), (words, lower)))
            shape = model.SHAPES[made[0]][0](*made[1])
            move = tuple(map(float, layer[-6:])) if "by" in layer[-7:] else model.STAY
            x, y = (self.near(), self.near()) if not model.finite(*shape.bounding_box()) else self.feature(shape)
            x, y = model.affine_point(move, x, y)
            if not model.finite(x, y):
                x, y = self.near(), self.near()
            words += ["winding", *(self.spoiled(x, y) if dice.chance(bad) else self.on_page(x, y))]
        elif question == "bounding_box":
            words += ["bounding_box"]
        else:
            tolerance = dice.pick((0.1, 0.1, 1.0, 10.0, 0.01))
            if dice.chance(20):
                tolerance = dice.pick(NO_TOLERANCES)
            elif dice.chance(20):
                tolerance = dice.pick((1e-10, 1e-12, 1e-300))
            words += ["draw", tolerance]
        return self.order(*words)

    def lapping_cover(self):
        """A covering of two shapes of which each is laid over one point, and the winding there."""
        shapes, words, x, y = [], ["cover"], self.near(), self.near()
        for layer in range(2):
            kind, numbers = self.shape(self.dice.weighted({"grid": 12, "decimals": 2, "fine": 1}))
            shape = model.SHAPES[kind][0](*numbers)
            turn = tuple(map(float, self.dice.pick(model.TURNS)))
            px, py = model.affine_point((*turn, 0.0, 0.0), *self.feature(shape))
            words += [] if layer == 0 else ["over"]
            offset = [math.floor((to - at) * 256) / 256 for to, at in ((x, px), (y, py))]
            words += [kind, *numbers, "by", *turn, *offset]
        return self.order(*words, "winding", x, y)

    def some_order(self, orders, styles, moves=None, bad=6, frames=20, drawn=40):
        """One order, by the weights of a page."""
        dice = self.dice
        order = dice.weighted(orders)
        sheet = "frames" if dice.chance(frames) else "marks"
        if order == "put":
            move = None if dice.chance(35) else self.some_move(bad, moves)
            return self.put(sheet, dice.weighted(styles), move)
        if order == "shift":
            return self.order(sheet, "shift", self.position(sheet), *self.move(self.some_move(bad, moves)))
        if order == "shift_all":
            return self.order(sheet, "shift_all", *self.move(self.some_move(2 * bad, moves)))
        if order == "lift":
            return self.order(sheet, "lift", self.position(sheet, 10))
        if order in ("winding", "top"):
            return self.order(sheet, order, *self.point(sheet, bad))
        if order == "set":
            return self.set_point(sheet, bad=bad)
        if order == "bounding_box":
            return self.order(sheet, "bounding_box")
        if order == "draw":
            return self.draw(sheet, drawn)
        if order == "measure":
            return self.measure(dice.weighted(styles))
        assert order == "cover"
        move = [None if dice.chance(35) else self.some_move(bad, moves) for _ in range(2)]
        return self.cover(self.shape(dice.weighted(styles)), self.shape(dice.weighted(styles)), *move)

    def some_orders(self, count, orders, styles, **how):
        for _ in range(count):
            self.some_order(orders, styles, **how)


# ---- the pages

USUAL = {
    "put": 20,
    "shift": 12,
    "shift_all": 3,
    "lift": 8,
    "winding": 15,
    "top": 12,
    "set": 16,
    "bounding_box": 3,
    "draw": 3,
}
GRID_STYLES = {"grid": 20, "degenerate": 2, "decimals": 4, "fine": 2, "zeros": 1}
ALL_STYLES = {
    "grid": 20,
    "decimals": 8,
    "fine": 5,
    "page": 5,
    "field": 2,
    "large decimals": 3,
    "degenerate": 4,
    "zeros": 3,
    "tiny": 2,
    "huge": 2,
    "endless": 2,
}


def before_the_first_page(room):
    """A page that no line begins, of the usual sizes."""
    room.lines_of(
        """
# A sitting in the examination room: pages of orders, made at random from a fixed seed (tests/sittings/make.py).
# The first orders stand before any page line, and slips of the pen before them.

marks bounding_box 1
marks putt rect 0 0 2 1
set 0 0
   # an order behind a comment is none: marks bounding_box
marks bounding_box
\tmarks put rect 0 0 2 1
set 0 0 within 0  # the near edges are in
set 2 0.5 outside # and the far ones out
frames top 1 0.5
frames put rect 0 0 2 1 by 1 0 0 -1 0 0
frames winding 1 -0.5
set 1 0.5 outside
frames set 1 -0.5 within 0
frames set 1 0.5 within 1
marks set 1 0.5 within 1
"""
    )
    room.some_orders(30, USUAL, GRID_STYLES)


def specimens(room):
    room.page("Specimens", why="what is known without a machine")
    room.lines_of(
        """
marks put rect 2 0 0 1
marks winding 1 0.5
marks lift 0
marks put rect 0 0 2 1
marks winding 0 0
marks winding 2 0.5
marks lift 0
marks put circle 0 0 1
marks winding 1 0
marks winding 0.99609375 0
marks draw 0.001
marks draw 0.0001
marks lift 0
marks put triangle 0 0 1 1 2 2
marks winding 100 100
marks winding 1 1
marks lift 0
marks put triangle 2 0 0 0 0 -2
marks winding 2 0
marks lift 0
marks put rounded 0 0 4 2 5 5 5 5
marks winding 0 0
marks winding 0 1
marks draw 0.1
marks lift 0
marks put rounded 0 0 4 2 0 0 0 0
marks draw 0.1
marks winding 4 2
marks lift 0
# twice a quarter turn with an offset is a half turn: its offset is 1, 1
marks put rect 0 0 2 1 by 0 1 -1 0 1 0
marks shift 0 0 1 -1 0 1 0
marks bounding_box
marks draw 1
marks lift 0
marks put rect 0 0 2 1
marks shift 0 1 0 0 -1 0 0
marks winding 1 -0.5
marks winding 1 0.5
marks lift 0
marks put rect 0 0 1 1 by 1 0 0 1 4096 -4096
marks shift 0 1 0 0 1 0.00390625 0
marks shift 0 1 0 0 1 0 -0.00390625
marks shift 0 1 0 0 1 -0.00390625 0.00390625
marks shift_all 1 0 0 1 0.00390625 0
marks shift_all 1 0 0 1 0.00390625 0
measure ellipse 0 0 3 0 0 0.001 0
measure ellipse 0 0 0 3 0 0.001 0
measure ellipse 0 0 2 1 0 -1 64
measure ellipse 0 0 2 1 0 0.001 0
measure circle 0 0 1
measure rect 2 0 0 1
measure triangle 0 0 0 3 4 0
measure rounded 0 0 4 2 5 5 5 5
cover rect 0 0 1 1 over rect 0 0 2 2 by 1 0 0 -1 0 0 winding 1.5 -0.5
cover rect 0 0 1 1 over rect 0 0 2 2 by 1 0 0 -1 0 0 winding 0.5 0.5
cover rect 0 0 1 1 over rect 0 0 2 2 by 1 0 0 -1 0 0 bounding_box
cover circle 0 0 inf over rect 0 0 2 2 bounding_box
cover rect 0 0 1 1 over rect 0 0 2 2 by 1 0 0 -1 0 0 draw 0.5
"""
    )


def tables_of_few_entries(room):
    """Tables of 0, 1, 3 and 8 entries, buffers of 0, 5 and 30 places: FULL, TOO SMALL, and entries that serve again."""
    orders = {"put": 30, "shift": 8, "shift_all": 3, "lift": 12, "winding": 8, "top": 7, "set": 8, "draw": 15}
    orders["bounding_box"] = 4
    styles = {"grid": 12, "decimals": 3, "degenerate": 2, "endless": 1}
    for entries, places, count in (
        (0, 0, 40),
        (0, 30, 12),
        (1, 0, 60),
        (1, 5, 110),
        (1, 30, 50),
        (3, 0, 50),
        (3, 5, 90),
        (3, 30, 130),
        (8, 0, 60),
        (8, 5, 90),
        (8, 30, 220),
        (8, 60, 90),
    ):
        room.page(f"Tables-{entries}-{places}", entries, places)
        room.some_orders(count, orders, styles, frames=25, drawn=60)
    room.page("Exact", 2, 11, why="as many elements as places, and one more")
    room.lines_of(
        """
marks draw 0.1
marks put rect 0 0 1 1
marks draw 0.1
marks put circle 0 0 1
marks draw 0.1
marks put rect 3 3 4 4
frames put rect 0 0 1 1
frames put rect 0 0 1 1 by 0 1 1 0 3 4
frames put rect 0 0 1 1 by 0 1 1 0 3 4
frames draw 3
marks shift 1 0 -1 1 0 0.5 0.25
marks lift 0
marks put rounded 0 0 3 3 1 1 1 1
marks draw 0.1
marks lift 1
marks put triangle 0 0 1 0 0 1
marks draw 0.1
marks lift 0
marks lift 0
marks lift 0
marks draw 0.1
"""
    )
    room.page("Buffer", 8, 10)
    room.lines_of(
        """
marks put rect 0 0 1 1
marks put rect 2 0 3 1
marks draw 0.1
marks put triangle 0 0 1 0 0 1
marks draw 0.1
marks draw 0
marks draw nan
marks put circle 0 0 1e300
marks draw 0.1
marks lift 3
marks lift 2
marks draw 0.1
"""
    )


def refusals_at_random(room):
    """Many refusals of every kind, on both sheets."""
    orders = {"put": 26, "shift": 14, "shift_all": 10, "lift": 10, "winding": 9, "top": 9, "set": 9, "draw": 20}
    orders["cover"] = 4
    styles = {"grid": 10, "endless": 6, "huge": 1, "decimals": 3}
    for entries, places, count in ((3, 5, 90), (4, 20, 110), (8, 100, 130)):
        room.page(f"Refusals-{entries}-{places}", entries, places)
        room.order("frames", "bounding_box")
        room.some_orders(count, orders, styles, bad=35, frames=50)
    # corners that are too fine, at every place of a sheet
    room.page("Corners-too-fine", 5, 400)
    for corner in list(range(4)) * 3:
        for _ in range(room.dice.between(0, 2)):
            room.put("marks", "grid", "small", ("rect", "triangle", "rounded"))
        radii = [0.0] * corner + [room.dice.between(1, 8) / 4 for _ in range(4 - corner)]
        room.order("marks", "put", "rounded", 0, 0, 8, 8, *radii, *room.by("small"))
        for tolerance in (radii[corner] * 1e-11, radii[corner] * 1.1163 / 2.0**36 * 0.9999):
            room.order("marks", "draw", tolerance)
        while room.rows():
            room.order("marks", "lift", 0)
    # points that are none, on sheets with marks and without
    room.page("No-page-points", 3, 30)
    for turn in range(2):
        for sheet in ("marks", "frames"):
            room.order(sheet, "bounding_box")
            for order in ("winding", "top"):
                for bad in (OFF_GRID, OFF_PAGE):
                    for _ in range(3):
                        point = [room.dice.pick(bad), room.near()]
                        room.order(sheet, order, *(point if room.dice.chance(50) else point[::-1]))
            room.put(sheet)
        for bad in (OFF_GRID, OFF_PAGE):
            for key in (["outside"], ["within", 0], ["within", 7]):
                for words in (["set"], ["marks", "set"], ["frames", "set"]):
                    room.order(*words, room.near(), room.dice.pick(bad), *key)
    # moves that are none
    room.page("No-moves", 2, 30)
    for sheet in ("marks", "frames"):
        room.order(sheet, "bounding_box")
        room.put(sheet)
        for style in ("no turn", "off grid", "off page"):
            for _ in range(5):
                room.put(sheet, "grid", style)
                room.order(sheet, "shift", room.position(sheet, 30), *room.move(style))
                room.order(sheet, "shift_all", *room.move(style))
    # a frame that can't be drawn, above and below others
    room.page("Frames-undrawn", 6, 100)
    for at in range(6):
        rects = [room.shape("grid", ("rect",)) for _ in range(room.dice.between(1, 4))]
        wild = ("rect", room.dice.pick(([math.nan, 0, 1, 1], [0, 0, 1, math.nan])))
        rects.insert(room.dice.below(len(rects) + 1), wild)
        for kind, numbers in rects:
            room.order("frames", "put", kind, *numbers, *room.by("small"))
        room.order("frames", "draw", 0.1)
        room.order("frames", "bounding_box")
        while room.rows("frames"):
            room.order("frames", "lift", 0)
            if room.dice.chance(60):
                room.order("frames", "draw", 1.0)


def drawings(room):
    """Drawings of few marks each: all shapes by all moves, at tolerances about those where something changes."""
    room.page("Drawings", 4, 120, why="drawings")
    styles = {"grid": 20, "decimals": 6, "fine": 6, "page": 3, "large decimals": 3, "degenerate": 2, "zeros": 2}
    styles |= {"tiny": 1, "huge": 1}
    kinds = ("rect", "circle", "triangle", "rounded", "rounded", "ellipse")
    for _ in range(110):
        for _ in range(room.dice.between(1, 2)):
            kind, numbers = room.shape(room.dice.weighted(styles), kinds)
            if kind == "rounded" and room.dice.chance(50):
                first = room.dice.between(1, 3)
                numbers[4 : 4 + first] = [0.0] * first
            room.order("marks", "put", kind, *numbers, *room.by(room.dice.pick((None, "small", "small", "edge"))))
        for _ in range(room.dice.between(1, 2)):
            room.draw("marks", 75)
        while room.rows():
            room.order("marks", "lift", 0)


def refusals_in_order(room):
    """Orders that deserve several refusals: the first written is given, and nothing is altered."""
    room.page("Refusals", 3, 30, why="of several refusals the first is given")
    room.lines_of(
        """
marks put circle 0 0 nan by 2 0 0 2 0.1 5000
marks put circle 0 0 nan by 1 0 0 1 0.1 5000
marks put circle 0 0 nan by 1 0 0 1 0 5000
marks put circle 0 0 nan by 1 0 0 1 0 4096
marks bounding_box
marks put rect 0 0 1 1
marks put circle 0 0 1
marks put rect 5 5 6 6
marks put rect 7 7 8 8
marks put circle 0 0 nan
marks put circle 0 0 nan by 1 0 0 1 0 5000
marks put circle 0 0 nan by 1 0 0 1 5000 0.1
marks put circle 0 0 nan by 1 0 1 1 0 0
marks shift 3 1 0 0 2 0.1 5000
marks shift 3 1 0 0 1 0.1 5000
marks shift 3 1 0 0 1 0 5000
marks shift 3 1 0 0 1 0 4096
marks shift 18446744073709551615 1 0 0 1 0 4096
marks shift 1 1 0 0 1 4096 4096
marks shift 1 1 0 0 1 4096 4096
marks shift 1 -1 0 0 -1 0 0
marks shift_all 1 0 0 1 -0.00390625 0
marks shift_all 1 0 0 1 0.00390625 0
marks shift_all 1 0 0 1 0 -4096
marks shift_all -1 0 0 1 0.1 4097
marks shift_all -1 0 0 0 0.1 4097
marks shift_all -1 0 0 1 0 4097
marks top 0.1 5000
marks top 5000 0.1
marks top 5000 5000
marks winding nan 0
marks winding 0 inf
marks winding -inf 5000
marks winding 1e300 0
set 0.1 5000 within 0
set 5000 0 outside
set nan 0 within 5
set 4096 4096 outside
set -4096 -4096 outside
set 4096.00390625 0 outside
marks lift 3
marks lift 18446744073709551615
marks draw 1e-300
marks draw 1e-12
marks draw -1
marks lift 1
marks put rect nan 0 1 1
marks draw 0.1
marks draw 1e-12
marks draw 0
marks lift 0
marks draw 0.1
marks put rounded 0 0 8 8 1 0 2 3
marks draw 0.1
marks lift 1
marks draw 1e-12
marks draw 3e-11
marks put rounded 0 0 8 8 0 0 2 3
marks draw 3e-11
marks lift 1
marks put rounded 0 0 8 8 0 0 0 2
marks draw 2.5e-11
marks put ellipse 0 0 3 2 0.5
marks draw 4e-11
marks lift 1
marks draw 4e-11
marks lift 1
marks lift 0
marks draw 4e-11
marks shift_all 1 0 0 1 4096 4096
marks bounding_box
"""
    )
    room.line("# four numbers of a box may be finite though a number of the shape is none")
    for text in (
        "rect nan 0 1 1",
        "rect 0 nan 1 1",
        "rect nan nan 1 1",
        "rect 0 nan 1 nan",
        "rect inf 0 1 1",
        "triangle nan 0 1 1 0 1",
        "triangle 0 0 1 nan 0 1",
        "triangle nan nan 1 1 nan 1",
        "triangle nan 0 nan 0 nan 0",
        "triangle -inf 0 0 0 1 1",
        "rounded nan 0 4 4 1 1 1 1",
        "rounded 0 0 4 4 nan inf -inf nan",
        "rounded 0 0 inf 4 1 1 1 1",
        "rounded -1.7976931348623157e308 0 1.7976931348623157e308 4 1 1 1 1",
        "circle nan 0 1",
        "circle 0 0 inf",
        "circle 1.7976931348623157e308 0 1.7976931348623157e308",
        "ellipse 0 nan 1 1 0",
        "ellipse 0 0 inf 1 0",
        "ellipse 0 0 1e200 1 0",
        "ellipse 0 0 1 1 1048577",
        "ellipse 0 0 1e154 1e-320 3",
    ):
        room.line(f"marks put {text}")
        room.line("marks top 0.5 0.5")
        room.line("marks bounding_box")
        room.line("marks draw 0.1")
        room.line("marks lift 0")
        room.line(f"cover {text} over {text} by 0 1 1 0 1 2 bounding_box")
        room.line(f"cover rect 0 0 1 1 over {text} draw 0.1")
        room.line(f"cover {text} by 1 0 0 1 8 0 over rect 0 0 1 1 winding 0.5 0.5")


def unreadable_lines(room):
    """Every reason for which a line can't be read, at every place where it arises."""
    room.page("Unreadable", 8, 30, why="slips of the pen")
    orders = (
        "marks put rect 0 0 2 1",
        "marks put rect 0 0 2 1 by 1 0 0 1 0 0",
        "marks put circle 0 0 1",
        "marks put triangle 0 0 1 0 0 1",
        "marks put rounded 0 0 4 2 1 1 1 1",
        "marks put ellipse 0 0 2 1 0.5 by 0 1 1 0 1 -1",
        "marks shift 0 1 0 0 1 0.25 0",
        "marks shift_all 1 0 0 1 0.25 0",
        "marks lift 0",
        "marks winding 1 0.5",
        "marks top 1 0.5",
        "marks bounding_box",
        "marks draw 0.5",
        "frames put rect 0 0 2 1",
        "frames put rect 0 0 2 1 by 1 0 0 -1 0 0",
        "frames shift 0 1 0 0 1 0.25 0",
        "frames shift_all 1 0 0 1 0.25 0",
        "frames lift 0",
        "frames winding 1 0.5",
        "frames top 1 0.5",
        "frames bounding_box",
        "frames draw 0.5",
        "set 1 0.5 within 0",
        "set 1 0.5 outside",
        "marks set 1 0.5 within 0",
        "frames set 1 0.5 within 0",
        "frames set 1 0.5 outside",
        "measure rect 0 0 2 1",
        "measure circle 0 0 1",
        "measure triangle 0 0 1 0 0 1",
        "measure rounded 0 0 4 2 1 1 1 1",
        "measure ellipse 0 0 2 1 0.5 0.001 9",
        "cover rect 0 0 2 1 over circle 0 0 1 winding 1 0.5",
        "cover triangle 0 0 1 0 0 1 by 0 1 1 0 0 0 over rounded 0 0 4 2 1 1 1 1 bounding_box",
        "cover ellipse 0 0 2 1 0.5 over rect 0 0 2 1 by 1 0 0 1 1 1 draw 10",
        "cover circle 0 0 1 by 1 0 0 1 1 1 over ellipse 0 0 2 1 0.5 by 0 1 1 0 0 0 winding 1 1",
    )
    for text in orders:
        words = text.split()
        # each beginning of the order
        for end in range(1, len(words)):
            room.line(" ".join(words[:end]))
        # words behind its end
        behind = room.dice.pick(("1", "5 6", "x", "by 1 0 0 1 0 0", "within 0", "over"))
        room.line(" ".join([*words, behind]))
        # another word in a place, at some of them
        for at in room.dice.shuffled(range(len(words)))[:4]:
            wrong = list(words)
            wrong[at] = room.dice.pick(SLIPS)
            room.line(" ".join(wrong))
        # a word left out in the middle
        at = room.dice.below(len(words))
        room.line(" ".join(words[:at] + words[at + 1 :]))
    room.lines_of(
        """
rect 0 0 1 1
Marks put rect 0 0 1 1
marks Put rect 0 0 1 1
marks put square 0 0 1 1
marks put
marks
frames
frames put circle 0 0 1
frames put
frames put rounded 0 0 4 2 1 1 1 1
measure
measure line 0 0 1 1
measure rect 0 0 1 1 0.1 5
measure rounded 0 0 1 1 0 0 0 0 0.1
measure rounded 0 0 1 1 0 0 0 0 0.1 5
measure circle 0 0 1 0.1
measure triangle 0 0 1 0 0 1 0.1
marks put rounded 0 0 1 1 0 0 0 0 0
marks put rounded 0 0 1 1 0 0 0 0 with 1 0 0 1 0 0
marks put ellipse 0 0 1 1 0 0.1 5
marks put ellipse 0 0 1 1 0 0
marks put ellipse 0 0 1 1 0 at 1 0 0 1 0 0
marks put ellipse 0 0 1 1 0 over rect 0 0 1 1
cover ellipse 0 0 1 1 0 0.1 5 over rect 0 0 1 1 bounding_box
cover ellipse 0 0 1 1 0 winding 0 0
cover rounded 0 0 1 1 0 0 0 0 0 over rect 0 0 1 1 bounding_box
cover triangle 0 0 1 0 0 1 0 over rect 0 0 1 1 bounding_box
cover circle 0 0 1 bounding_box
measure ellipse 0 0 1 1 0
measure ellipse 0 0 1 1 0 0.1
measure ellipse 0 0 1 1 0 0.1 -1
measure ellipse 0 0 1 1 0 0.1 1.5
measure ellipse 0 0 1 1 0 0.1 4294967296
measure ellipse 0 0 1 1 0 0.1 4294967295
measure ellipse 0 0 1 1 0 0.1 99999999999999999999
measure ellipse 0 0 1 1 0 0.1 x
measure ellipse 0 0 1 1 0 x 5
measure ellipse 0 0 1 1 0 0.1 5 6
marks shift 0 1 0 0 1 0 0 0
marks shift 0 1 0 0 1 0 0 by 1 0 0 1 0 0
frames shift 0 1 0 0 1 0 0 # 0
frames shift 0 1 0 0 1 0 0 0 0 # 0
measure ellipse 0 0 1 1 0 0.1 5 1 0 0 1 0 0
marks lift -1
marks lift 1.0
marks lift 18446744073709551616
marks lift 18446744073709551615
marks lift 00
marks shift -1 1 0 0 1 0 0
marks shift 0 1 0 0 x 0 0
set 1 1 within
set 1 1 within -1
set 1 1 within 18446744073709551616
set 1 1 within 0 0
set 1 1 inside 0
set 1 1 outside 0
set 1 1 1
set 1 1
set 1
set
set x 1 within 0
set 1 x within 0
cover
cover rect 0 0 1 1
cover rect 0 0 1 1 by 1 0 0 1 0 0
cover rect 0 0 1 1 by 1 0 0 1 0 0 by 1 0 0 1 0 0 over rect 0 0 1 1 bounding_box
cover rect 0 0 1 1 under rect 0 0 1 1 bounding_box
cover rect 0 0 1 1 over
cover rect 0 0 1 1 over rect 0 0 1 1
cover rect 0 0 1 1 over rect 0 0 1 1 5
cover rect 0 0 1 1 over rect 0 0 1 1 top 0 0
cover rect 0 0 1 1 over rect 0 0 1 1 over rect 0 0 1 1 bounding_box
cover rect 0 0 1 1 over rect 0 0 1 1 by 1 0 0 1 0 0 by 1 0 0 1 0 0 bounding_box
cover rect 0 0 1 1 over rect 0 0 1 1 winding
cover rect 0 0 1 1 over rect 0 0 1 1 winding 1
cover rect 0 0 1 1 over rect 0 0 1 1 winding 1 1 1
cover rect 0 0 1 1 over rect 0 0 1 1 bounding_box 1
cover rect 0 0 1 1 over rect 0 0 1 1 draw
cover rect 0 0 1 1 over rect 0 0 1 1 draw 1 1
cover rect 0 0 1 1 over rect 0 0 1 1 draw x
marks put rect 0 0 1 1 by
marks put rect 0 0 1 1 by 1 0 0 1 0
marks put rect 0 0 1 1 by 1 0 0 1 0 0 0
marks put rect 0 0 1 by 1 0 0 1 0 0
marks put rect 0 0 1 1 1 by 1 0 0 1 0 0
marks put circle 0 0 1 over
measure circle 0 0 1 by 1 0 0 1 0 0
marks put circle 0 0 \u00e9
\u00e9tude
marks \u00e9tude
marks inside 0 0
frames set
frames set 1 1
frames set 1 1 inside
marks set 1 1 within
marks set 1 1 within 0 0
marks set 1 1 within -1
marks set 1 x within 0
frames set 1 1 outside 0
"""
    )
    for data in (
        b"marks put rect 0 0 \xff 1",
        b"\xff",
        b"marks bounding_box \xff",
        b"set 1 1 within 0\xc3",
        b"marks \xe9tude",
        b"\xed\xa0\x80",
        b"marks bounding_box \xff # \xff",
        b"# \xff",
        b"marks bounding_box # \xff",
        b"marks bounding_box#\xff#",
        b" \t#" + LATIN_1,
        b"marks bounding_box\xc3#\xa9",
    ):
        room.line(data)
    for text in ("marks\x07 top 0 0", "marks \x1btop 0 0", "marks put\x00 rect", "set 0 0\x7f outside", "\u0080\u009f"):
        room.line(text)
    room.line("measure circle 0 0 1\x1f")
    room.line("marks lift \x1d0")
    room.line("measure ellipse 0 0 1 1 0 0.1 5\x01")
    room.line("\ufeffmarks bounding_box")
    room.line("marks bounding_box\ufeff")
    room.line("marks\u00a0put\u2003rect 0 0 1 1")
    room.line("\u3000set 0 0 within 0\u2029")
    room.line("marks\tbounding_box\t")
    room.line("marks\u0085bounding_box\x0b")
    room.line("measure\t circle\x0b0\x0c0\u00851")
    room.line("marks draw 1#00")
    for data in NO_PAGE_LINES:
        room.line(data)
    room.line("marks bounding_box")
    for line in ("\u00e9tude", "Sizes 131072 1048576", "Sizes 0 0#", "#", "set", "page"):
        room.line(f"page {line}")
        room.line("marks bounding_box")
    for name in ("\x07bell", "a\x1b[1mb", "\u009f", "x\x7fy\x00z", "\ufeff", "a\x1cb", "\\t", "page"):
        room.line(f"page {name} 1 5")
        room.line("set 0 0 outside")


EVERY_ORDER = dict.fromkeys(model.ALTERING + model.QUESTIONS, 2) | {"set": 5, "measure": 3, "cover": 3}


def unreadable_pages(room):
    """Page lines that cannot be read, orders of all kinds after them, and now and then a page that is marked."""
    room.page("Verse-0", 8, 30, why="page lines that cannot be read")
    room.some_orders(8, EVERY_ORDER, GRID_STYLES)
    for number, line in enumerate(NO_PAGES * 2):
        room.line("")
        room.line(line)
        room.slips = room.dice.pick((0, 0, 15))
        room.some_orders(room.dice.between(0, 8), EVERY_ORDER, GRID_STYLES, frames=40)
        if room.dice.chance(50):
            room.page(f"Verse-{number + 1}", 8, 30)
            room.some_orders(room.dice.between(1, 7), EVERY_ORDER, GRID_STYLES, frames=40)


def slips(room):
    """Pages on which the pen slips now and then: set points after that are doubtful, or are not."""
    orders = {"put": 6, "shift": 3, "shift_all": 1, "lift": 1, "winding": 2, "top": 2, "set": 12, "draw": 1}
    room.page("Slips", 8, 60, why="slips of the pen at random")
    for number, (count, often) in enumerate(((60, 15), (60, 5), *([(9, 14)] * 16))):
        room.page(f"Slips-{number}", 8, 60)
        room.slips = often
        room.some_orders(count, orders, GRID_STYLES, frames=40)
    room.page("Questions", 4, 20, why="questions that cannot be read alter nothing")
    room.put("marks")
    for line in NO_QUESTIONS:
        room.line(line)
        room.set_point(room.dice.pick(("marks", "frames")))
    room.line("# whatever else cannot be read may have been meant to")
    for number, line in enumerate(MAY_ALTER):
        room.page(f"Altering-{number}", 4, 20)
        room.put("marks")
        if number % 2 == 0:
            room.set_point("marks")
        room.line(line)
        room.set_point("marks")
        room.set_point("frames")


def keys_without_marks(room):
    """Keys that name no mark, at points of all kinds: the point is refused first."""
    room.page("Keys", 4, 20, why="keys that name no mark")
    for count in range(4):
        for sheet in ("marks", "frames"):
            for key in (max(count - 1, 0), count, count + 1, 65535, 65536, WORD_END - 1):
                x, y = room.point(sheet, 0)
                room.set_line(sheet, *(room.spoiled(x, y) if room.dice.chance(25) else (x, y)), key)
            room.put(sheet)


def ends_of_lines(room):
    """LF, CR LF and CR, with empty lines and comments between."""
    room.page("Ends-of-lines", 8, 60, why="all ends of lines")
    room.ends = (b"\n", b"\r\n", b"\r")
    room.slips = 6
    for _ in range(130):
        way = room.dice.below(12)
        if way == 0:
            room.line("")
        elif way == 1:
            room.line(room.dice.pick((b"#", b" # ", b"# " + LATIN_1, b"\t")))
        else:
            room.some_order(USUAL, GRID_STYLES)
    room.line("")
    room.ends = (b"\r",)
    for _ in range(4):
        room.line("")
        room.some_order(USUAL, GRID_STYLES)
    room.ends = (b"\n",)


def measures(room):
    room.page("Measures", 0, 0, why="areas, lengths and boxes")
    for style, count in (
        ("grid", 60),
        ("decimals", 40),
        ("fine", 40),
        ("page", 30),
        ("field", 20),
        ("large decimals", 25),
        ("degenerate", 40),
        ("zeros", 20),
        ("tiny", 30),
        ("huge", 20),
        ("endless", 40),
    ):
        for _ in range(count):
            room.measure(style)
    room.line("# the steps of an ellipse's length, and allowances about them")
    for ratio in (1.0, 0.999, 0.9, 0.5, 0.25, 0.1, 0.01, 1e-4, 1e-8, 1e-100, 1e-308):
        for accuracy in (1.0, 1e-3, 1e-6, 1e-9, 1e-13, 0.0):
            numbers = [room.near(), room.near(), 8.0, 8.0 * ratio, room.dice.pick((0.0, 0.5, math.pi / 2))]
            try:
                _, steps = model.Ellipse(*numbers).perimeter_in_steps(accuracy, 64)
            except model.Refusal:
                steps = 64
            for allowance in (steps, steps - 1) if steps > 0 else (0,):
                room.order("measure", "ellipse", *numbers, accuracy, allowance)
    for allowance in range(71):
        room.order("measure", "ellipse", 0, 0, 4, 0.5, 0.25, room.dice.pick((-1.0, 1e-9, 1e-15, 0.0)), allowance)


def numbers(room):
    """Numbers as text: read to the nearest float, printed in the fewest digits."""
    room.page("Numbers", 0, 0, why="numbers as they are written")
    for text in NUMBERS_AS_TEXT:
        room.line(f"measure rect 0 0 {text} 1")
    for x in (1e-5, 1e16):
        for near in (math.nextafter(x, 0.0), x, math.nextafter(x, math.inf), x / 2, x / 10, x * 10, x * 1.5, x / 1.5):
            room.line(f"measure circle {near!r} {-near!r} 0")
    room.line("# numbers half way between two decimals that both read back")
    for low, high, places in ((65536, 131072, 17), (524288, 655360, 16), (2097152, 3276800, 15)):
        for _ in range(8):
            room.line(f"measure rect 0 0 {(2 * room.dice.between(low // 2, high // 2 - 1) + 1) / 2.0**places!r} 1")
    for _ in range(40):
        word = room.dice.word()
        x = struct.unpack(">d", struct.pack(">Q", word))[0]
        if model.finite(x):
            room.line(f"measure rect {x!r} 0 0 1")


def covers(room):
    room.page("Covers", 0, 14, why="an upper shape over a lower one, on no sheet")
    styles = {"grid": 20, "decimals": 5, "fine": 3, "degenerate": 2, "page": 1, "endless": 1}
    for _ in range(190):
        moves = [None if room.dice.chance(25) else room.some_move(0) for _ in range(2)]
        room.cover(room.shape(room.dice.weighted(styles)), room.shape(room.dice.weighted(styles)), *moves)
    for _ in range(90):
        room.lapping_cover()
    room.line("# refused: the upper's move, then the lower's; then the point, or the upper's path and the lower's")
    bad = ("no turn", "off grid", "off page")
    for first in (None, *bad):
        for second in (None, *bad):
            for question in ("winding", "bounding_box", "draw"):
                room.cover(room.shape("grid"), room.shape("grid"), first, second, question, bad=40)
    for _ in range(60):
        room.cover(room.shape("grid"), room.shape("grid"), "small", "small", "winding", bad=60)
    for _ in range(60):
        upper = room.shape(room.dice.pick(("endless", "huge", "grid")))
        lower = room.shape(room.dice.pick(("endless", "huge", "grid")))
        room.cover(upper, lower, "small", None, "draw")
    for _ in range(40):
        shapes = [room.shape(room.dice.pick(("endless", "huge", "tiny", "zeros"))) for _ in range(2)]
        room.cover(*shapes, "edge", "edge", "bounding_box")
    for places, count in ((0, 8), (9, 20), (10, 20), (11, 20), (12, 20), (60, 20)):
        room.page(f"Covers-{places}", 0, places)
        for _ in range(count):
            kinds = ("rect", "circle", "triangle", "rect", "circle", "triangle", "rounded", "ellipse")
            room.cover(room.shape("grid", kinds), room.shape("grid", kinds), None, room.some_move(4), "draw")
    room.page("Covers-too-fine", 0, 5)
    corners = [f"rounded 0 0 8 8 {radii}" for radii in ("2 0 0 0", "0 2 0 0", "0 0 2 0", "0 0 0 2")]
    for upper in (*corners, "circle 0 0 2"):
        for lower in ("rounded 0 0 8 8 0 0 0 2", "circle 0 0 3", "ellipse 0 0 3 2 0", "rect 0 0 1 1", "rect nan 0 1 1"):
            room.line(f"cover {upper} over {lower} draw 1e-11")
            room.line(f"cover {lower} over {upper} by 0 1 1 0 1 1 draw 1e-11")


def edge_of_the_page(room):
    """Offsets at the ends of the page and a step beyond; all marks shifted, some of them at the edge."""
    orders = {"put": 14, "shift": 14, "shift_all": 14, "lift": 5, "winding": 6, "top": 5, "set": 6, "bounding_box": 2}
    moves = {"edge": 6, "grain": 8, "small": 3, "offset": 3, "page": 2}
    styles = {"grid": 10, "page": 2, "field": 2}
    room.page("Edge", 40, 300, why="at the edge of the page")
    room.some_orders(340, orders, styles, moves=moves, bad=4)
    room.page("Corners", 40, 300)
    room.lines_of(
        """
marks put rect -1 -1 1 1 by 1 0 0 1 4096 4096
marks put rect -1 -1 1 1 by 1 0 0 1 -4096 -4096
marks put circle 0 0 2 by 0 1 1 0 4096 -4096
marks put rect -1 -1 1 1
marks top 4096 4096
marks top -4096 -4096
marks winding 4096 4096
marks winding 4095 4096
marks winding 4095 4095
marks top 4096.00390625 4096
marks shift_all 1 0 0 1 0 0
marks shift_all -1 0 0 -1 0 0
marks shift_all 1 0 0 1 0 0.00390625
marks shift_all 1 0 0 1 0 -0.00390625
marks lift 1
marks shift_all 1 0 0 1 0 -0.00390625
marks shift_all 1 0 0 1 0 0.00390625
marks lift 0
marks shift_all 1 0 0 1 0 0.00390625
marks shift_all 1 0 0 1 4096 0
marks shift_all 1 0 0 1 4096 0
marks shift_all 1 0 0 1 -4096 0
marks bounding_box
marks draw 1
"""
    )
    for _ in range(40):
        room.order("marks", "shift_all", *room.move(room.dice.pick(("edge", "grain", "page"))))
        room.order("marks", "top", *room.point("marks"))


def long_histories(room):
    """Few marks that are moved very often: points are taken back through all moves."""
    room.page("Histories", 6, 40, why="few marks, and many moves")
    for style in ("grid", "grid", "decimals", "fine"):
        room.put("marks", style, "small")
    room.put("frames")
    room.put("frames")
    orders = {"shift": 30, "shift_all": 12, "winding": 14, "top": 10, "set": 14, "bounding_box": 3, "draw": 1}
    room.some_orders(400, orders, GRID_STYLES, moves={"small": 10, "offset": 4}, bad=3, drawn=30)


def beyond_the_box(room):
    """Grid points outside a mark's box which its float test alone would hold."""
    room.page("Beyond-the-box", 1, 30, why="what a mark holds lies in its box, however its test is rounded")
    for kind, numbers, x, y in BEYOND_THE_BOX:
        room.order("marks", "put", kind, *numbers)
        room.order("marks", "winding", x, y)
        room.order("set", x, y, "outside")
        room.order("marks", "shift", 0, 0, 1, -1, 0, 3, 5)
        room.order("marks", "top", 3 - y, x + 5)
        room.order("marks", "lift", 0)


def on_the_turn(room):
    """Circles at tolerances of which the sixth root or the count of curves is just reached."""
    room.page("On-the-turn", 1, 400, why="as many curves as suffice, and no more")
    # 1.1163 times each radius is the sixth power of a whole number; the last one counts 1 / 1.9608e-4 tolerances
    sixths = (3669.264534623309, 41795.21633969363, 105391.9197348383)
    for radius in (*sixths, 15029307.533817073, 1919.5, 5099.959200326397):
        for r in (math.nextafter(radius, 0.0), radius, math.nextafter(radius, math.inf)):
            room.line(f"marks put circle 1 2 {r!r}")
            room.line("marks draw 1")
            room.line("marks lift 0")
    for radius in sixths:
        for shape in (f"ellipse 1 2 {radius!r} 0.5 0.25", f"rounded 0 0 300000 300000 {radius!r} 0 1 {radius!r}"):
            room.line(f"marks put {shape}")
            room.line("marks draw 1")
            room.line("marks lift 0")


def zeros(room):
    """Zeros of both signs, in boxes, unions and drawings."""
    room.page("Zeros", 3, 60, why="zeros of both signs")
    moves = ((), *(("by", *turn, e, f) for turn in model.TURNS for e, f in ((0.0, 0.0), (-0.0, -0.0), (1.0, 0.0))))
    shapes = (
        ("rect", 0.0, -0.0, -0.0, 0.0),
        ("rect", -0.0, 0.0, 0.0, 1.0),
        ("rect", -1.0, -0.0, -0.0, 0.0),
        ("triangle", 0.0, -0.0, -0.0, 0.0, 0.0, 0.0),
        ("triangle", -0.0, 0.0, 0.0, -0.0, -1.0, 1.0),
        ("circle", -0.0, 0.0, -0.0),
        ("circle", 0.0, -0.0, 1.0),
        ("rounded", -0.0, 0.0, 0.0, -0.0, -0.0, 0.0, 0.0, 0.0),
        ("rounded", -1.0, -1.0, -0.0, 0.0, -0.0, 0.0, 0.5, 0.25),
        ("ellipse", -0.0, -0.0, 1.0, 0.0, -0.0),
        ("ellipse", 0.0, -0.0, 0.0, -0.0, 1.0),
    )
    for _ in range(26):
        for _ in range(room.dice.between(1, 3)):
            room.order("marks", "put", *room.dice.pick(shapes), *room.dice.pick(moves))
            room.order("marks", "bounding_box")
        if room.dice.chance(50):
            room.order("marks", "shift_all", *room.dice.pick(moves[1:])[1:])
            room.order("marks", "bounding_box")
        room.order("marks", "draw", 1.0)
        while room.rows():
            room.order("marks", "lift", 0)
    for shape in shapes:
        if shape[0] == "ellipse":
            room.order("measure", *shape, 0.1, 9)
        else:
            room.order("measure", *shape)
        upper = [*shape, *room.dice.pick(moves)]
        lower = [*room.dice.pick(shapes), *room.dice.pick(moves)]
        room.order("cover", *upper, "over", *lower, "bounding_box")


def put_and_lift(room):
    """Positions that come one down, and entries that serve again."""
    room.page("Lifts", 8, 30)
    orders = {"put": 30, "lift": 26, "top": 10, "winding": 8, "set": 10, "shift": 6, "bounding_box": 2, "draw": 2}
    room.some_orders(260, orders, {"grid": 10, "decimals": 2, "endless": 1}, drawn=30)


def frames_alone(room):
    room.page("Frames", 200, 2000, why="the frames of the syllables")
    orders = dict(USUAL)
    orders["put"] = 26
    styles = {"grid": 12, "degenerate": 2, "decimals": 3, "page": 1, "endless": 1}
    room.some_orders(400, orders, styles, frames=88, drawn=120)
    room.order("frames", "draw", 0.5)


def a_table_of_many_entries(room):
    room.page("Many-entries", 70000, 4000, why="no sheet uses more than 65536 of them")
    room.some_orders(110, USUAL, GRID_STYLES)
    room.page("All-entries", 131072, 1048576)
    room.some_orders(40, USUAL, GRID_STYLES)


def odd_shapes(room):
    """Marks of every kind of number, some so wild that a drawing of them is refused."""
    room.page("Odd-shapes", why="shapes of every kind of number")
    orders = {"put": 26, "shift": 8, "shift_all": 2, "lift": 22, "winding": 14, "top": 12, "set": 14, "draw": 6}
    orders["bounding_box"] = 3
    room.some_orders(430, orders, ALL_STYLES, drawn=30)


def long_page(room, name, count, most, seed_marks):
    """A page of the usual sizes with many marks over one another."""
    room.page(name)
    for _ in range(seed_marks):
        room.put("marks", room.dice.weighted(GRID_STYLES), None if room.dice.chance(35) else room.some_move(2))
    orders = {"put": 10, "shift": 14, "shift_all": 1, "lift": 8, "winding": 20, "top": 18, "set": 26, "bounding_box": 1}
    for _ in range(count):
        orders["put"] = 10 if len(room.rows()) < most else 5
        room.some_order(orders, GRID_STYLES, frames=12)
    room.order("marks", "bounding_box")
    room.order("frames", "bounding_box")


def a_long_history(room):
    """One page of more than a thousand orders, over tables that fill up and a buffer that is often too small."""
    room.page("Windsor", 24, 90, why="one page of more than a thousand orders")
    orders = dict(USUAL, measure=2, cover=2)
    orders["draw"] = 2
    room.some_orders(1600, orders, ALL_STYLES, bad=8, drawn=30)


def main(path):
    room = Room()
    before_the_first_page(room)
    specimens(room)
    tables_of_few_entries(room)
    refusals_in_order(room)
    refusals_at_random(room)
    unreadable_lines(room)
    unreadable_pages(room)
    slips(room)
    keys_without_marks(room)
    ends_of_lines(room)
    numbers(room)
    measures(room)
    covers(room)
    drawings(room)
    edge_of_the_page(room)
    long_histories(room)
    beyond_the_box(room)
    on_the_turn(room)
    zeros(room)
    put_and_lift(room)
    odd_shapes(room)
    frames_alone(room)
    a_table_of_many_entries(room)
    long_page(room, "New-Britain", 480, 230, 210)
    room.line("# one drawing of the whole page, at a coarse tolerance")
    room.order("marks", "draw", 10.0)
    room.order("marks", "shift_all", -1, 0, 0, -1, 0, 0)
    long_page(room, "Old-Hundredth", 340, 60, 30)
    a_long_history(room)
    room.line("# the sitting ends here, with a line that nothing ends")
    room.line("marks bounding_box")
    data = room.file()
    with open(path, "wb") as file:
        file.write(data)
    print("\n".join(room.sitting.tally()))


if __name__ == "__main__":
    main(sys.argv[1])
