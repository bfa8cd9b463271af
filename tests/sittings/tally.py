#!/usr/bin/env python3.11
"""Counts what a sitting and its answers have.

    tally.py SITTING ANSWERS

It counts each kind of order with each kind of answer, why lines can't be read, what the sums of pages tell, and how
lines are written.

It fails where a kind that can arise came too seldom.
"""

import re
import sys
from collections import Counter
from pathlib import Path

SHEET = {
    "put": ("position", "10 NOT A TURN", "6 OFF GRID", "7 OFF PAGE", "4 FULL", "2 NOT FINITE"),
    "shift": ("position", "10 NOT A TURN", "6 OFF GRID", "7 OFF PAGE", "5 NO MARK"),
    "shift_all": ("marks", "10 NOT A TURN", "6 OFF GRID", "7 OFF PAGE", "7 OFF PAGE at mark"),
    "lift": ("marks", "5 NO MARK"),
    "winding": ("winding 0", "winding above 0", "winding below 0", "6 OFF GRID", "7 OFF PAGE"),
    "top": ("top", "top none", "6 OFF GRID", "7 OFF PAGE"),
    "bounding_box": ("box", "box none"),
    "draw": ("0 elements", "elements", "1 TOLERANCE", "2 NOT FINITE at mark", "8 TOO SMALL"),
    "set within": ("right", "wrong", "6 OFF GRID", "7 OFF PAGE", "5 NO MARK"),
    "set outside": ("right", "wrong", "6 OFF GRID", "7 OFF PAGE"),
}
EXPECTED = {
    "page": ("marks",),
    "set within": SHEET["set within"],
    "set outside": SHEET["set outside"],
    "measure rect": ("area",),
    "measure circle": ("area",),
    "measure triangle": ("area",),
    "measure rounded": ("area",),
    "measure ellipse": ("area, 0 steps", "area, steps", "9 STEPS"),
    "cover winding": ("winding 0", "winding above 0", "winding below 0", "10 NOT A TURN", "6 OFF GRID", "7 OFF PAGE"),
    "cover bounding_box": ("box", "box nan", "10 NOT A TURN", "6 OFF GRID", "7 OFF PAGE"),
    "cover draw": (
        "elements",
        "10 NOT A TURN",
        "6 OFF GRID",
        "7 OFF PAGE",
        "1 TOLERANCE",
        "2 NOT FINITE",
        "3 TOO FINE",
        "3 TOO FINE corner 0",
        "3 TOO FINE corner 1",
        "3 TOO FINE corner 2",
        "3 TOO FINE corner 3",
        "8 TOO SMALL",
    ),
}
for sheet in ("marks", "frames"):
    for order, answers in SHEET.items():
        EXPECTED[f"{sheet} {order}"] = answers
EXPECTED["marks draw"] = SHEET["draw"] + ("3 TOO FINE at mark",) + tuple(
    f"3 TOO FINE at mark corner {corner}" for corner in range(4)
)
REASONS = (
    "not UTF-8 text",
    "W is no order",
    "W is no shape",
    "W is no number",
    "W is no position",
    "W is no allowance",
    "W is no question",
    "W is no size up to 131072",
    "W is no size up to 1048576",
    "'over' is wanted",
    "a key is 'within POSITION' or 'outside'",
    "a page has a name, and then at most two sizes",
    *(f"{n} wanted, more there" for n in range(9)),
    *(f"{n} wanted, fewer there" for n in range(1, 9)),
)
NO_PAGES = (
    "not UTF-8 text",
    "W is no size up to 131072",
    "W is no size up to 1048576",
    "a page has a name, and then at most two sizes",
)
LEAST = 5  # how often each kind comes at least
LEAST_OF_A_KIND = 2  # how often orders of each kind stand on a page that is not marked
CONTROL = re.compile(r"\\t|\\u\{([0-9a-f]{1,2})\}")
SUM = re.compile(
    r"page (.*): right ([0-9]+) of ([0-9]+), refused [0-9]+, unreadable ([0-9]+)(, not marked [0-9]+)?(, doubtful [0-9]+)?"
)
LINES = (
    "end LF",
    "end CR LF",
    "end CR",
    "comment in UTF-8, not ASCII",
    "comment not UTF-8",
    "comment not UTF-8, after an order",
    "order not UTF-8",
)


def order_kind(text):
    words = text.split()
    if words[0] in ("marks", "frames") and words[1] == "set":
        return f"{words[0]} set {'within' if 'within' in words else 'outside'}"
    if words[0] in ("marks", "frames"):
        return " ".join(words[:2])
    if words[0] == "measure":
        return " ".join(words[:2])
    if words[0] == "set":
        return "set within" if "within" in words else "set outside"
    if words[0] == "cover":
        return "cover " + next(word for word in words if word in ("winding", "bounding_box", "draw"))
    return words[0]


def answer_kind(answer):
    words = answer.split()
    if words[0] == "refused":
        return re.sub(r"at mark [0-9]+", "at mark", answer.removeprefix("refused "))
    if words[0] == "winding":
        return "winding 0" if words[1] == "0" else "winding below 0" if words[1].startswith("-") else "winding above 0"
    if words[0] in ("top", "box") and words[1] in ("none", "nan"):
        return " ".join(words[:2])
    if words[-1] in ("marks", "elements"):
        return "0 elements" if answer == "0 elements" else words[-1]
    if "steps" in words:
        return "area, 0 steps" if words[-1] == "0" else "area, steps"
    return words[0]


def reason(why):
    numbers = re.fullmatch(r"([0-9]+) numbers? wanted, ([0-9]+) there", why)
    if numbers is not None:
        wanted, there = map(int, numbers.groups())
        assert ("numbers" in why) == (wanted != 1)
        return f"{wanted} wanted, {'fewer' if there < wanted else 'more'} there"
    return why if why == "'over' is wanted" else re.sub(r"^'.*' is no", "W is no", why)


def plain(text):
    """The text with blanks and control characters again where escapes stand."""
    return CONTROL.sub(lambda found: "\t" if found[1] is None else chr(int(found[1], 16)), text)


def is_text(data):
    try:
        data.decode("utf-8")
    except UnicodeDecodeError:
        return False
    return True


def lines_as_written(data):
    """How the lines of a sitting end, and of which bytes they are."""
    counts = Counter()
    counts["byte order mark at the start"] = data.startswith(b"\xef\xbb\xbf")
    counts["last line without an end"] = not data.endswith((b"\r", b"\n"))
    parts = re.split(rb"(\r\n|\r|\n)", data.removeprefix(b"\xef\xbb\xbf"))
    for line, end in zip(parts[::2], [*parts[1::2], b""]):
        counts[{b"\n": "end LF", b"\r\n": "end CR LF", b"\r": "end CR", b"": "no end"}[end]] += 1
        order, sharp, comment = line.partition(b"#")
        counts["order not UTF-8"] += not is_text(order)
        counts["comment not UTF-8"] += not is_text(comment)
        counts["comment not UTF-8, after an order"] += not is_text(comment) and order.strip() != b""
        counts["comment in UTF-8, not ASCII"] += is_text(comment) and not comment.isascii()
    return counts


class Answers:
    """What is counted of the answers, line by line."""

    def __init__(self):
        self.orders, self.shapes, self.reasons, self.unmarked = Counter(), Counter(), Counter(), Counter()
        self.sums, self.no_pages, self.echoed = Counter(), Counter(), Counter()
        self.unread = {}  # the reason why a line cannot be read
        self.before = None  # what is known of the lines before the first order
        self.last = []

    def take(self, line):
        summed = SUM.fullmatch(line)
        unreadable = re.match(r"([0-9]+) unreadable: (.*)", line)
        if summed is not None:
            self.take_sum(*summed.groups())
        elif unreadable is not None:
            self.unread[unreadable[1]] = reason(unreadable[2])
            self.reasons[reason(unreadable[2])] += 1
            self.echo("reason", unreadable[2])
        elif line[:1].isdigit():
            number, _, told = line.partition(" ")
            self.take_order(number, *told.rpartition(" -> ")[::2])
        elif line.startswith(("pages", "right")):
            self.last.append(line)
        else:
            assert re.fullmatch(r"[MLQCZ]( -?[0-9][0-9.e-]*)*", line), line

    def echo(self, where, text):
        for escape in CONTROL.finditer(text):
            self.echoed[f"{where}: {'tab' if escape[1] is None else 'other'}"] += 1

    def take_order(self, number, text, answer):
        if self.before is None:
            self.before = (number, len(self.unread))
        self.echo("order", text)
        words = plain(text).split()
        kind = order_kind(plain(text))
        if answer.startswith("not marked"):
            assert answer.removeprefix("not marked: line ") in self.unread
            self.unmarked[kind] += 1
            return
        self.orders[kind, answer_kind(answer)] += 1
        granted = "refused" if answer.startswith("refused") else "granted"
        if words[1:2] == ["put"] or words[0] == "measure":
            self.shapes[f"{words[0]} {words[2] if words[1] == 'put' else words[1]}", granted] += 1
        elif words[0] == "cover":
            for shape in (words[1], words[words.index("over") + 1]):
                self.shapes[f"cover {shape}", granted] += 1

    def take_sum(self, name, right, points, unreadable, not_marked, doubtful):
        self.echo("page name", name)
        begun = name.removeprefix("line ")
        if begun != name and begun in self.unread:
            self.no_pages[self.unread[begun]] += 1
            self.sums["of a page line that cannot be read, " + ("with" if not_marked else "without") + " orders"] += 1
            self.sums["of a page line that cannot be read, with other such lines"] += int(unreadable) > 1
            assert points == "0" and doubtful is None
        elif begun != name:
            assert begun == self.before[0] and int(unreadable) >= self.before[1]
            self.sums["of a page without a page line, after lines that cannot be read"] += self.before[1] > 0
            self.sums["of a page without a page line, with doubtful points"] += doubtful is not None
        else:
            assert not_marked is None
            of_these = "none" if doubtful is None else "all" if doubtful.split()[-1] == points else "some"
            slips = "without" if unreadable == "0" else "with"
            self.sums[f"{slips} lines that cannot be read, {of_these} doubtful"] += points != "0"


SUMS = (
    "of a page line that cannot be read, with orders",
    "of a page line that cannot be read, without orders",
    "of a page line that cannot be read, with other such lines",
    "without lines that cannot be read, none doubtful",
    "with lines that cannot be read, none doubtful",
    "with lines that cannot be read, some doubtful",
    "with lines that cannot be read, all doubtful",
)
ECHOED = ("order: tab", "order: other", "reason: other", "page name: other")
ONCE = (
    "of a page without a page line, after lines that cannot be read",
    "of a page without a page line, with doubtful points",
    "byte order mark at the start",
    "last line without an end",
)


def lacking(counts, kinds, least, title):
    return [f"{title}{kind}: {counts[kind]}" for kind in kinds if counts[kind] < least]


def main(sitting, path):
    written = lines_as_written(Path(sitting).read_bytes())
    answers = Answers()
    for line in Path(path).read_text(encoding="utf-8").removesuffix("\n").split("\n"):
        answers.take(line)
    print("\n".join(answers.last))
    for title, counts in (("Orders and their answers", answers.orders), ("Shapes", answers.shapes)):
        print(f"\n{title}")
        for kind in dict.fromkeys(kind for kind, _ in sorted(counts)):
            own = [(answer, times) for (k, answer), times in sorted(counts.items()) if k == kind]
            print(f"  {kind}: " + ", ".join(f"{answer} {times}" for answer, times in own))
    for title, counts in (
        ("Orders that were not marked", answers.unmarked),
        ("Unreadable lines", answers.reasons),
        ("Unreadable page lines", answers.no_pages),
        ("Sums", answers.sums),
        ("Escapes", answers.echoed),
        ("Lines as they are written", written),
    ):
        print(f"\n{title}")
        for kind, times in sorted(counts.items()):
            print(f"  {kind}: {times}")

    expected = [(kind, answer) for kind, kinds in EXPECTED.items() for answer in kinds]
    sheets_and_others = [kind for kind in EXPECTED if kind != "page"]
    lack = [
        *lacking(answers.orders, expected, LEAST, "order and answer, "),
        *(f"order and answer, {kind} was not expected" for kind in answers.orders if kind not in expected),
        *lacking(answers.unmarked, sheets_and_others, LEAST_OF_A_KIND, "not marked, "),
        *lacking(answers.reasons, REASONS, LEAST, "unreadable, "),
        *(f"unreadable, {why} was not expected" for why in answers.reasons if why not in REASONS),
        *lacking(answers.no_pages, NO_PAGES, LEAST, "page line unreadable, "),
        *lacking(answers.sums, SUMS, LEAST, "sum "),
        *lacking(answers.echoed, ECHOED, LEAST, "escapes, "),
        *lacking(written, LINES, LEAST, "lines, "),
        *lacking(answers.sums + written, ONCE, 1, ""),
    ]
    for line in lack:
        print(f"too seldom: {line}")
    return not lack


if __name__ == "__main__":
    sys.exit(0 if main(*sys.argv[1:]) else 1)
