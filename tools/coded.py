"""What the tools share that run the calls by codes at their limits, beside tools/lines.py and tools/replacing.py: the types that the Rust's own
table gives codes, read here from the table's text, and letters that are lent as codes and categories alone.

The table is the Rust's arabic_table.rs and not what the proved look-up goes by, so that a wrong row there shows here. It is looked for in
shared/docs/src beside the repository."""

from replacing import *  # beside this file

TABLE = "shared/docs/src/src/ot/shaper/arabic_table.rs"
# the expression of the table's function without its brackets and casts: numbers in the table, four levels one below the other
SHAPE = (
    r"ifu<(\d+)\{arabic_joining_b4&arabic_joining_u8\[(\d+)\.\.\],arabic_joining_u8\[(\d+)\+arabic_joining_u8\[(\d+)\+arabic_joining_b4&arabic_joining_u8,"
    r"u>>3>>3>>3<<3\+u>>3>>3&7\]\+u>>3&7\]<<3\+u&7\}else\{7\}"
)
LISTED_CODES = 856
# document 02, A1: the whole number counts, also above 10FFFF
NO_CODES = (0x110000, 0x10628, 0x110628, 0x80000628, 0xFFFF0628, 0xFFFFFFFF)
KNOWN = {0x628: D, 0x627: R, 0x710: ALAPH, 0x72F: DALATH_RISH, 0x70F: T, 0x200C: U, 0x640: D, 0xA872: L, 0x10ED9: L, 0x64E: X, 0x180B: X}


def not_run(why):
    print(f"{pathlib.Path(sys.argv[0]).name}: not run: {why}")
    sys.exit(3)


def table_text():
    """The repository may be a clone that stands deeper, so each folder above the tools is asked."""
    for folder in pathlib.Path(__file__).resolve().parents:
        if (folder / TABLE).is_file():
            return (folder / TABLE).read_text()
    not_run(f"the Rust's folder is not there: {TABLE} beside the repository")


def listed_types():
    """The types of the codes that the Rust's table lists."""
    text = table_text()
    numbers_in = re.search(r"arabic_joining_u8: \[u8; (\d+)\]=\s*\[([\d,\s]*)\]", text)
    table = [int(number) for number in numbers_in[2].split(",") if number.strip()]
    body = re.search(r"fn arabic_joining_joining_type_u8 [^{]*\{(.*?)\n\}", text, re.S)[1]
    shape = re.fullmatch(SHAPE, re.sub(r"/\*.*?\*/|\bas u\w+|usize|[\s()]", "", body))
    assert shape and len(table) == int(numbers_in[1]), "the Rust's table is not of the form that is read here"
    end, fourth, third, second = map(int, shape.groups())
    half = lambda start, at: table[start + at // 2] >> at % 2 * 4 & 15

    def type_of(code):
        at = table[second + half(0, code >> 9) * 8 + (code >> 6 & 7)]
        return half(fourth, table[third + at + (code >> 3 & 7)] * 8 + (code & 7))

    types = {code: t for code in range(end) if (t := type_of(code)) != X}
    assert len(types) == LISTED_CODES and all(types.get(code, X) == t for code, t in KNOWN.items())
    return types


class Coded:
    """Letters by codes and categories: their types are those of the Rust's table."""

    columns = {"codes": 4, "categories": 1}
    single = {"category": 1}

    def __init__(self):
        self.listed = listed_types()
        self.of_type = [[code for code, t in self.listed.items() if t == wanted] for wanted in range(X)]
        self.of_type.append([code for code in (0x20, 0x41, 0x64E, 0x300, 0x5D0, 0x200B, 0xFE0F, *NO_CODES) if code not in self.listed])

    def types(self, call, where=""):
        return [self.listed.get(code, X) for code in call[where + "codes"]]

    def code(self, draw, t):
        return draw.choice(self.of_type[t])

    def any_code(self, draw):
        """A code of each type alike, one beside a listed one, one that has only the low bits of a listed one, or any number."""
        code = self.code(draw, draw.randrange(LAST_TYPE + 1))
        beside = (code + draw.choice((-1, 1))) % 2**32
        moved = draw.choice((code + 0x10000, code + 0x110000, code | 0x80000000, code | 0xFFFF0000)) % 2**32
        return draw.choice((code, code, code, code, code, beside, moved, draw.randrange(2**32)))

    def codes(self, draw, count):
        return [self.any_code(draw) for _ in range(count)]

    def give(self, draw, call, where, types):
        """The letters have codes of these types from now on."""
        call[where + "codes"] = [self.code(draw, t) for t in types]

    def ask(self, draw, t):
        return {"code": [self.code(draw, t)]}

    def mix(self, draw, call, marks, selectors):
        """Some records of ten are transparent, and some are selectors, transparent or not by their categories."""
        marked = [self.code(draw, T) if draw.randrange(10) < marks else code for code in call["codes"]]
        call["codes"] = [draw.choice(SELECTORS) if draw.randrange(10) < selectors else code for code in marked]

    def hold(self, draw, call, codes, types, code, t):
        """The letters of a worked example. False if a selector would have to join: without a lent type it is transparent or U."""
        letters = list(zip([*codes, code], [*types, t]))
        if any(given in SELECTORS and wanted != T for given, wanted in letters):
            return False
        *line, new = [(given, MN) if given in SELECTORS else (self.code(draw, wanted), LO) for given, wanted in letters]
        call |= {"codes": [given for given, _ in line], "categories": [category for _, category in line], "code": [new[0]], "category": [new[1]]}
        return True


# ---- codes with categories, at each place


TRIED = (0x628, 0x200C, 0x70F, 0x710, 0x10ED9, 0x64E, 0x180B, *NO_CODES)
TRIED_CATEGORIES = (LO, MN, LAST_CATEGORY, LAST_CATEGORY + 1, 255)


def each_code(draw, lines):
    """A code and a category at the ends, in the middle and around the steps of the compiled loops of a line, and in either context, alone and far behind:
    what is no category is refused beside a listed code and beside any other."""
    for code, category in itertools.product(TRIED, TRIED_CATEGORIES):
        for where, counts in (("", (1, 17, ROOM, ROOM + 1)), ("pre ", (1, CONTEXT_LIMIT)), ("post ", (1, CONTEXT_LIMIT))):
            for count in counts:
                for at in places(count):
                    call = lines.call(draw, **({"line": 3} | {where.strip() or "line": count}))
                    lines.letters.give(draw, call, where, [T] * at + [D] * (count - at))
                    yield put(put(call, where + "codes", at, code), where + "categories", at, category)


def each_row(draw, lines):
    """Every code that is listed and those beside it, each between a D and an Alaph: that tells the seven types from each other."""
    codes = sorted({near for code in lines.letters.listed for near in (code - 1, code, code + 1)})
    for code in codes:
        yield lines.call(draw, 3) | {"codes": [0x628, code, 0x710]}
