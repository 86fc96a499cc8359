"""What tools/limits_single, tools/limits_ligature, tools/limits_read and tools/limits_plan share beside tools/calls.py: what a writer gives by document 01,
and the drawing of lists and areas."""

from calls import *  # beside this file
from rules import *

MOST_AREA = 132000  # bytes of an area that the programs can read
EDGES = (0, 1, 2, 255, 256, 257, 0x7FFF, 0x8000, LAST_WORD - 1, LAST_WORD)  # glyphs at which a byte or a word turns
FLAGS = (0, 1, 8, 255, 256, LAST_WORD)
WRITTEN = {"number": 1, "length": 4, "area": 1}  # what comes out of a writer's case


# ---- document 01: "Numbers of refusal", and "Lookup bytes"


def unwritable(words, area):
    """The numbers that apply to a lookup of these words, whatever its kind: "a lookup offset or count above 65,535", "the lent output is shorter"."""
    if max(words) > LAST_WORD:
        yield 5
    if len(area) < 2 * len(words):
        yield 8


def write_answer(faults, words, area):
    """The number, the length, and the area after the call: "Output past the answer is untouched". A refusal leaves it as it was."""
    if number := min(faults, default=0):
        return [[number], [0], area]
    written = bytes_of(words())
    return [[0], [len(written)], [*written, *area[len(written) :]]]


# ---- drawing


def glyph_of(draw):
    return draw.choice(EDGES) if not draw.randrange(4) else draw.randrange(LAST_WORD + 1)


def flags_of(draw):
    return draw.choice((*FLAGS, draw.randrange(LAST_WORD + 1)))


def glyphs_of(draw, count):
    return [glyph_of(draw) for _ in range(count)] if count < 100 else numbers(draw, 2, count)


def firsts_of(draw, count):
    """First glyphs: any; of a few, so that equal ones come in runs and come again; rising; all equal."""
    few = [glyph_of(draw) for _ in range(draw.randrange(1, 5))]
    way = draw.randrange(5)
    firsts = [glyph_of(draw) if way < 2 else draw.choice(few) for _ in range(count)]
    return sorted(firsts) if way in (0, 2) else [few[0]] * count if way == 3 else firsts


def length_of(draw):
    return draw.choice((draw.randrange(9), draw.randrange(9), draw.randrange(9), draw.randrange(40)))


def area_of(draw, count):
    return numbers(draw, 1, min(count, MOST_AREA))


def rooms(size):
    """Lengths of an area at which it shows whether a lookup of so many bytes goes in, as far as the program can read."""
    return [room for room in sorted({0, 1, 17, 18, size - 2, size - 1, size, size + 1, size + 2, size + 40}) if 0 <= room <= MOST_AREA]


def more_of(draw):
    return draw.choice((0, 0, 1, 2, 33))
