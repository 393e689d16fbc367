"""Slips of a token, over all worlds: nearly all are told right, and none with a false cause."""

import unittest

import measure_slips as slips


class Slips(unittest.TestCase):
    def test_slips_of_a_token_are_told_right(self):
        lines = []
        total = slips.measure(slips.TRIES, slips.SEED, lambda _, others: lines.extend(others))
        self.assertGreaterEqual(slips.share(total), slips.ENOUGH, "\n".join(lines))
        self.assertEqual(total["false"], 0, "\n".join(lines))


if __name__ == "__main__":
    unittest.main()
