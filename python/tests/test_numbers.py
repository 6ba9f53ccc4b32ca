"""Tests of the numbers of a dump."""

import struct
import unittest
from decimal import Decimal
from fractions import Fraction

from bsonfind._dumps.paths import number_of


class Numbers(unittest.TestCase):
    def test_values(self) -> None:
        """The value of each type, exactly; of a decimal128 in any form."""

        def decimal(digits: int, power: int) -> bytes:
            return b"\x13" + (digits | power + 6176 << 113).to_bytes(16, "little")

        special = [b"\x13" + bytes(15) + bytes([it]) for it in (0x78, 0xF8, 0x7C, 0x60)]
        for value, wanted in (
            (b"\x01" + struct.pack("<d", 0.1), Fraction(0.1)),
            (b"\x01" + struct.pack("<d", -0.5), Fraction("-0.5")),
            (b"\x01" + struct.pack("<d", float("-inf")), float("-inf")),
            (b"\x10" + b"\xff" * 4, -1),
            (b"\x12" + (2**53 + 1).to_bytes(8, "little"), 2**53 + 1),
            (decimal(1999, -2), Fraction("19.99")),
            (decimal(1, -19), Fraction(1, 10**19)),
            (decimal(10**34, 0), 0),
            (special[0], Decimal("Infinity")),
            (special[1], Decimal("-Infinity")),
            (special[3], 0),
        ):
            self.assertEqual(number_of(value), wanted)
        self.assertEqual(str(number_of(special[2])), "NaN")
        for value in (b"\x02" + bytes(8), b"\x08\1", b"\x0a"):
            self.assertIsNone(number_of(value))
