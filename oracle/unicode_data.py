"""Writes Unicode's categories and combining classes, as this Python has them, for the oracle to lean on.

    python3 oracle/unicode_data.py FOLDER

FOLDER/gc.bin and FOLDER/ccc.bin get one byte for each code from 0 to 10FFFF: the general category, numbered in
alphabetical order of the two-letter codes (Cc 0, Zs 29), and the canonical combining class.
"""

import pathlib
import sys
import unicodedata

CATEGORIES = "Cc Cf Cn Co Cs Ll Lm Lo Lt Lu Mc Me Mn Nd Nl No Pc Pd Pe Pf Pi Po Ps Sc Sk Sm So Zl Zp Zs".split()


def main():
    folder = pathlib.Path(sys.argv[1])
    number = {name: i for i, name in enumerate(CATEGORIES)}
    chars = [chr(code) for code in range(0x110000)]
    (folder / "gc.bin").write_bytes(bytes(number[unicodedata.category(c)] for c in chars))
    (folder / "ccc.bin").write_bytes(bytes(unicodedata.combining(c) for c in chars))


main()
