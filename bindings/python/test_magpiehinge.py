"""The examples and refusals of the build scope, asked from Python: python3 bindings/python/test_magpiehinge.py"""

import pathlib
import sys
import unittest

sys.path.insert(0, str(pathlib.Path(__file__).resolve().parent))
import magpiehinge as m

EXAMPLES = pathlib.Path(__file__).resolve().parent.parent.parent / "examples"
SHEET = bytes.fromhex("04 03 03 03 50 00 00 00 00 40 00 80 80 00 40 A0 00 00 00 40")
LINE = (3, 1, [0, 3, 5])
NONE = 65_535


def lines(sheet):
    """What the program prints for a sheet."""
    try:
        n, d, _, asks = m.header(sheet)
    except m.Refused as refusal:
        return f"refused {refusal.number}\n"
    vectors = m.vectors(sheet)
    table = m.build(n, d, vectors)
    text = f"set {n} {d} {asks}\n"
    for number in range(asks):
        start, width, k, threshold, query = m.ask(sheet, number)
        try:
            answer = m.search(n, d, vectors, table, query, start=start, width=width, k=k, threshold=threshold)
        except m.Refused as refusal:
            text += f"ask {number} refused {refusal.number}\n"
            continue
        near = "".join(f" {id} {distance}" for id, distance in zip(answer.ids, answer.distances))
        trail = "".join(f" {id}" for id in answer.trail)
        text += f"ask {number} found {answer.found} seen {answer.seen} walked {answer.walked}\n"
        text += f"near{near}\ntrail{trail}\n"
    return text


class Document(unittest.TestCase):
    def test_p1_p2_labels_on_a_line(self):
        self.assertEqual(m.build(*LINE), (NONE, 0, 48, 0, NONE, 0, 32, 0, NONE))

    def test_p3_p4_searches(self):
        table = m.build(*LINE)
        answer = m.search(*LINE, table, [4], start=0, threshold=0, width=1, k=1)
        self.assertEqual(answer, (1, 3, 2, (1,), (1,), (0, 1)))
        answer = m.search(*LINE, table, [4], start=0, threshold=0, width=3, k=2)
        self.assertEqual(answer, (2, 3, 3, (1, 2), (1, 1), (0, 1, 2)))

    def test_p5_equal_distances_do_not_stand_between(self):
        self.assertEqual(m.build(3, 2, [0, 0, 5, 0, 4, 3])[:3], (NONE, 0, 0))

    def test_p6_p7_only_direct_points_hide(self):
        self.assertEqual(m.build(4, 2, [0, 0, 10, 0, 8, 9, -2, 13])[:4], (NONE, 0, 45, 0))

    def test_p8_p9_largest_label_and_distance(self):
        u, v, w = [-128] * 64, [127] * 64, [127] * 63 + [126]
        self.assertEqual(m.build(3, 64, u + v + w)[1], 32_624)
        self.assertEqual(m.distance(u, v), 4_161_600)

    def test_p10_identical_points(self):
        self.assertEqual(m.build(2, 1, [7, 7]), (NONE, 0, 0, NONE))


class Sheets(unittest.TestCase):
    def test_the_sheet_of_20_bytes(self):
        self.assertEqual(m.header(SHEET), (3, 1, 4, 3))
        self.assertEqual(m.vectors(SHEET), (0, 3, 5))
        self.assertEqual(m.ask(SHEET, 1), (0, 3, 2, 0, (4,)))
        self.assertEqual(
            lines(SHEET),
            "set 3 1 3\nask 0 found 1 seen 3 walked 2\nnear 1 1\ntrail 0 1\n"
            "ask 1 found 2 seen 3 walked 3\nnear 1 1 2 1\ntrail 0 1 2\nask 2 refused 6\n",
        )
        numbers = [0, 1, 1, 0, 0, 3, 2, 0, 5, 1, 1, 0]
        self.assertEqual(m.write(3, 1, 4, 3, [0, 3, 5], numbers, [4, 4, 4]), SHEET)

    def test_every_example_prints_its_lines(self):
        sheets = sorted(EXAMPLES.glob("*.sheet"))
        self.assertTrue(sheets)
        for path in sheets:
            with self.subTest(path.name):
                self.assertEqual(lines(path.read_bytes()), path.with_suffix(".lines").read_text())


class Walks(unittest.TestCase):
    def test_step_by_step_and_whole(self):
        table = m.build(*LINE)
        self.assertEqual(m.walk(*LINE, table, [5], start=0, threshold=0), (2, 0, 2))
        record = m.step(*LINE, table, [5], threshold=0, current=0, moves=0)
        self.assertEqual(record, (True, 1, 1))
        record = m.step(*LINE, table, [5], threshold=0, current=1, moves=1)
        self.assertEqual(record, (True, 2, 2))
        record = m.step(*LINE, table, [5], threshold=0, current=2, moves=2)
        self.assertEqual(record, (False, 2, 2))

    def test_points(self):
        self.assertEqual(m.point(2, 3, [1, 2, 3, 4, 5, 6], 1), (4, 5, 6))
        self.assertEqual(m.point(2, 1, b"\xff\x01", 0), (-1,))


class Refusals(unittest.TestCase):
    def refused(self, number, call, *words, **named):
        with self.assertRaises(m.Refused) as caught:
            call(*words, **named)
        self.assertEqual(caught.exception.number, number)
        self.assertEqual(caught.exception.meaning, m.MEANINGS[number])
        self.assertEqual(str(caught.exception), f"refused {number}: {m.MEANINGS[number]}")

    def test_sets(self):
        self.refused(1, m.build, 0, 1, [])
        self.refused(1, m.build, 129, 1, [0] * 129)
        self.refused(1, m.build, 10**12, 1, [])
        self.assertEqual(len(m.build(128, 1, [0] * 128)), 128 * 128)
        self.refused(2, m.build, 1, 65, [0] * 65)
        self.refused(3, m.build, 2, 1, [0])
        self.refused(6, m.point, *LINE, 3)

    def test_searches(self):
        table = m.build(*LINE)
        good = {"start": 0, "threshold": 0, "width": 128, "k": 128}
        self.assertEqual(m.search(*LINE, table, [4], **good).found, 3)
        self.refused(4, m.search, *LINE, table[1:], [4], **good)
        self.refused(5, m.search, *LINE, table, [4, 4], **good)
        for number, wrong in [
            (6, {"start": 3}),
            (7, {"width": 0}),
            (7, {"width": 129}),
            (8, {"k": 0}),
            (8, {"k": 2, "width": 1}),
            (9, {"threshold": 32_768}),
        ]:
            self.refused(number, m.search, *LINE, table, [4], **{**good, **wrong})

    def test_walks(self):
        table = m.build(*LINE)
        self.refused(6, m.walk, *LINE, table, [4], start=3, threshold=0)
        self.refused(9, m.walk, *LINE, table, [4], start=0, threshold=32_768)
        self.refused(18, m.step, *LINE, table, [5], threshold=0, current=0, moves=127)

    def test_sheets(self):
        self.refused(15, m.header, b"")
        self.refused(15, m.vectors, SHEET[:-1])
        self.refused(16, m.header, SHEET + b"\0")
        self.refused(17, m.ask, SHEET, 3)
        self.refused(11, m.write, 1, 1, 9, 0, [0], [], [])
        self.refused(12, m.write, 1, 1, 1, 1, [0], [0, 1, 1], [0])
        self.refused(13, m.write, 1, 1, 1, 0, [1], [], [])
        for number, numbers in [(6, [128, 1, 1, 0]), (7, [0, 0, 1, 0]), (8, [0, 1, 129, 0]), (9, [0, 1, 1, 32_768])]:
            self.refused(number, m.write, 1, 1, 1, 1, [0], numbers, [0])

    def test_numbers_that_c_cannot_hold(self):
        table = m.build(*LINE)
        for call in (
            lambda: m.build(1, 1, [200]),
            lambda: m.build(-1, 1, [0]),
            lambda: m.walk(*LINE, table, [4], start=70_000, threshold=0),
            lambda: m.ask(SHEET, 65_536),
        ):
            self.assertRaises(ValueError, call)


if __name__ == "__main__":
    unittest.main()
