"""Arrays to texts and back."""

import unittest
from decimal import ROUND_DOWN, Decimal

import numpy as np
from surfbasis import _texts


def fixed_value(value):
    """What surf takes of a number's shortest decimals: nine places, the others cut."""
    return int((abs(Decimal(repr(value))) * 10**9).to_integral_value(ROUND_DOWN))


class Lines(unittest.TestCase):
    def test_numbers_come_back(self):
        tokens = np.array([3, 0, 1, 2, 4, 999, 1000, 9999, 10000, 9_999_999, 10_000_000, 4_294_967_295], np.int64)
        text = _texts.token_lines(tokens, np.array([3, 8, 11]))
        self.assertEqual([[int(word) for word in line.split()] for line in text.splitlines()],
                         [[3, 0, 1, 2], [4, 999, 1000, 9999, 10000], [9_999_999, 10_000_000, 4_294_967_295]])
        self.assertEqual(_texts.numbers_of(text).tolist(), tokens.tolist())

    def test_single_spaces_and_line_ends(self):
        text = _texts.token_lines(np.arange(6), slice(2, None, 3))
        self.assertEqual((text.count(b" "), text.count(b"\n"), b"  " in text), (4, 2, False))

    def test_more_than_is_written_at_once(self):
        tokens = np.random.default_rng(1).integers(0, 10**6, 3 * _texts.FEW + 1)
        text = _texts.token_lines(tokens, np.array([len(tokens) - 1]))
        self.assertEqual(_texts.numbers_of(text).tolist(), tokens.tolist())

    def test_what_is_below_0_is_no_vertex(self):
        text = _texts.token_lines(np.array([1, -1]), np.array([1]))
        self.assertEqual(_texts.numbers_of(text).tolist(), [1, 2**32 - 1])

    def test_none(self):
        self.assertEqual(_texts.token_lines(np.zeros(0, np.int64), np.zeros(0, np.int64)), b"")
        self.assertEqual(_texts.numbers_of(b"").tolist(), [])


class Places(unittest.TestCase):
    def test_fixed_values_are_those_of_the_shortest_decimals(self):
        random = np.random.default_rng(2)
        near, far = random.normal(size=4000), random.uniform(0, _texts.PLACES_BELOW, 4000)
        values = np.concatenate([near, far, np.round(near, 9), np.round(far, 9), np.round(near, 3)])
        values = np.concatenate([values, np.nextafter(values, 0), np.nextafter(values, np.inf)])
        few = [0.0, -0.0, 5e-324, 1e-9, 9.99999999e-10]
        values = np.concatenate([values[np.abs(values) < _texts.PLACES_BELOW], few])
        self.assertEqual(_texts.billionths(values).tolist(), [fixed_value(value) for value in values.tolist()])

    def test_lines_have_these_values(self):
        points = np.array([[0.5, -0.25, 1e-9], [-123.456789012, 4_194_303.999, 0.0]])
        rows = [[Decimal(word) for word in line.split()] for line in _texts.place_lines(points).decode().splitlines()]
        self.assertEqual(rows, [[Decimal(repr(value)) for value in row] for row in points.tolist()])

    def test_far_and_no_numbers_are_left_to_surf(self):
        text = _texts.place_lines(np.array([[np.nan, np.inf, -1e300], [1e7, 0.1, -2.0]]))
        self.assertEqual(text, b"nan inf -1e+300\n10000000.0 0.1 -2.0\n")


if __name__ == "__main__":
    unittest.main()
