"""Document 01's rules as the models of tools/ have them, written apart from the code: types, the resolving of X, joining by neighbours, the
actions of selectors, masks, what replacing a letter alters, the reordering of marks, recording for stretching, stretching, lookups, written and
read back, and the fallback plan."""

import collections
import itertools
import struct

U, L, R, D, ALAPH, DALATH_RISH, T, X = range(8)
ISOL, FINA, FIN2, FIN3, MEDI, MED2, INIT, NONE, FIXED, REPEATING = range(10)
NAMES = "isol fina fin2 fin3 medi med2 init none fixed repeating".split()
CATEGORIES = "Cc Cf Cn Co Cs Ll Lm Lo Lt Lu Mc Me Mn Nd Nl No Pc Pd Pe Pf Pi Po Ps Sc Sk Sm So Zl Zp Zs".split()  # by their numbers
CF, LO, ME, MN, ND, PO, ZS = map(CATEGORIES.index, "Cf Lo Me Mn Nd Po Zs".split())
OF_WORDS = [CATEGORIES.index(name) for name in "Cn Co Lm Lo Mc Me Mn Nd Nl No Sc Sk Sm So".split()]
SELECTORS = (0x180B, 0x180C, 0x180D, 0x180F)
MODIFIERS = (0x654, 0x655, 0x658, 0x6DC, 0x6E3, 0x6E7, 0x6E8, 0x8CA, 0x8CB, 0x8CD, 0x8CE, 0x8CF, 0x8D3, 0x8F3)  # the source's list of 14 codes
STRETCHED_LIMIT = 16384
LINE_LIMIT, CONTEXT_LIMIT, LAST_TYPE, LAST_CATEGORY, LAST_ACTION = 4096, 64, 7, 29, 9
LAST_WORD = 65535  # of the "big-endian 16-bit numbers" of a lookup
SINGLE, LIGATURE = 1, 4  # OpenType's types of lookups
COMPONENTS = (2, 3)  # "component number other than 2 or 3"


def resolved(t, category):
    """X becomes T for Mn, Me and Cf, and U otherwise."""
    return t if t != X else T if category in (MN, ME, CF) else U


def form(before, t, after):
    """The action of a letter between the nearest letters that are not transparent; where there is none it is as if it were U."""
    back, ahead = before in (L, D), after in (R, D, ALAPH, DALATH_RISH)
    if t in (U, T):
        return NONE
    if t == L:
        return INIT if ahead else ISOL
    if t in (R, DALATH_RISH):
        return FINA if back else ISOL
    if t == D:
        return {(False, False): ISOL, (True, False): FINA, (False, True): INIT, (True, True): MEDI}[back, ahead]
    if back:
        return MED2 if ahead else FINA
    if before == U or ahead:
        return ISOL
    return FIN3 if before == DALATH_RISH else FIN2


def nearest(letters):
    return next((t for t in letters if t != T), U)


def joined(line, before=U, after=U):
    """The actions of a line of types that are resolved, between two letters."""
    left, right = [], []
    for t in line:
        left.append(before)
        before = before if t == T else t
    for t in reversed(line):
        right.append(after)
        after = after if t == T else t
    return [form(*three) for three in zip(left, line, reversed(right))]


def settled(codes, actions):
    """In Mongolian, after joining: each record but the first that is a selector takes the action of the record before it, in order."""
    actions = list(actions)
    for i in range(1, len(actions)):
        if codes[i] in SELECTORS:
            actions[i] = actions[i - 1]
    return actions


def masked(features, base, actions):
    """A mask is its base mask OR the entry of its action: one of seven feature masks, and 0 for none."""
    entries = [*features, 0]
    return [mask | entries[action] for mask, action in zip(base, actions)]


def renewed(codes, line, place, mongolian):
    """The records of the new line that a replacement gives what fresh joining gives them: the place; q and n, the nearest non-T records
    before and after it, where they exist; in Mongolian the run of selectors directly behind each."""
    q = [i for i in range(place) if line[i] != T][-1:]
    n = [i for i in range(place + 1, len(line)) if line[i] != T][:1]
    records = {place, *q, *n}
    if mongolian:
        for at in (place, *q, *n):
            for behind in range(at + 1, len(codes)):
                if codes[behind] not in SELECTORS:
                    break
                records.add(behind)
    return records


def replaced(held, fresh, records):
    """A column after a replacement: at these records what fresh joining of the new line gives, "nothing else changes"."""
    return [new if i in records else old for i, (old, new) in enumerate(zip(held, fresh))]


def reordered(codes, classes, start, end, lent):
    """Two passes over start to end, class 220 then 230, with the number that is lent for each. Answers the ranges, and both columns afterwards."""
    marks, ranges = list(zip(codes, classes)), []
    for wanted, number in zip((220, 230), lent):
        spot = start
        while spot < end and marks[spot][1] < wanted:  # "A pass skips smaller classes"
            spot += 1
        if spot == end:  # "at the end of the range it leaves both passes at once"
            break
        if marks[spot][1] > wanted:  # "at a larger class it goes to the next pass"
            continue
        # "the marks at that spot that have exactly the class and stand in the source's list": unbroken, and inside the range
        behind = spot
        while behind < end and marks[behind][1] == wanted and marks[behind][0] in MODIFIERS:
            behind += 1
        if behind > spot:
            block = [(code, number) for code, _ in marks[spot:behind]]
            marks[start:behind] = block + marks[start:spot]  # "move as a block to start, others keeping their order"
            ranges += [start, behind]
            start += len(block)  # "start advances past them"
    return ranges, [code for code, _ in marks], [number for _, number in marks]


def recorded(mask, multiplied, components, actions):
    """Whether any was recorded, and the actions afterwards."""
    if not mask or not any(multiplied):  # "Without a stch mask, or without a multiplied record, nothing happens."
        return False, list(actions)
    # "each multiplied record repeating if its component number is odd, else fixed"
    return True, [(REPEATING if component % 2 else FIXED) if yes else old for yes, component, old in zip(multiplied, components, actions)]


Record = collections.namedtuple("Record", "glyph width category ignorable action advance offset")
Run = collections.namedtuple("Run", "start end copies overlap offset")  # its places in the order of the work; "Offsets start at" its offset


def saturated(number):
    return max(-(2**31), min(2**31 - 1, number))


def saturated_sum(numbers):
    """ "All sums saturate in 32 bits", at each step."""
    total = 0
    for number in numbers:
        total = saturated(total + number)
    return total


def quotient(number, by):
    """Towards zero."""
    return abs(number) // by if number >= 0 else -(abs(number) // by)


def in_run(record):
    return record.action in (FIXED, REPEATING)


def in_word(record):
    """ "records that are not 8 or 9 and are default-ignorable or of category ..": "In a yes-or-no column 0 is no"."""
    return not in_run(record) and (record.ignorable != 0 or record.category in OF_WORDS)


def work_of(line, rtl):
    """The line in the order of the work, which goes from the end; where it is not right to left, the line is reversed before."""
    return line[::-1] if rtl else line[:]


def span(work, at, belongs):
    """The place behind the longest stretch from a place on."""
    while at < len(work) and belongs(work[at]):
        at += 1
    return at


def fitted(room, w, tiles):
    """The copies of each tile, their overlap, and where offsets start. Products are exact."""
    copies, overlap = 0, 0
    if room > w and w > 0:
        copies = room // w - 1
    if room > w * (copies + 1) and tiles:  # "one copy is added; then, if (copies + 1) x w exceeds room"
        copies += 1
        excess = (copies + 1) * w - room
        if excess > 0:
            overlap = excess // (copies * tiles)
            room = 0
    return copies, overlap, quotient(room, 2)


def runs_of(work):
    """ "on each longest run of actions 8 and 9", with the word before it, which is behind it in the order of the work."""
    at = 0
    while (at := span(work, at, lambda record: not in_run(record))) < len(work):
        end = span(work, at, in_run)
        advances = saturated_sum(record.advance for record in work[end : span(work, end, in_word)])
        fixed = saturated_sum(record.width for record in work[at:end] if record.action == FIXED)
        repeating = [record.width for record in work[at:end] if record.action == REPEATING]
        room = saturated(advances - fixed)  # "Room is the word's advances less the fixed widths."
        yield Run(at, end, *fitted(room, saturated_sum(repeating), len(repeating)))
        at = end


def stretched_length(line, rtl):
    """ "The count of records added equals copies x tiles summed over the runs." """
    work = work_of(line, rtl)
    return len(work) + sum(run.copies for run in runs_of(work) for record in work[run.start : run.end] if record.action == REPEATING)


def placed(run, records, rtl):
    """The records of a run with their copies, in the order of the work."""
    x = run.offset
    for record in records:
        for copy in range(1 + (run.copies if record.action == REPEATING else 0)):
            overlap = run.overlap if copy else 0  # "for a copy": every placement of a tile but the first
            if rtl:  # "each record first subtracts its width and, for a copy, adds the overlap"
                x = saturated(saturated(x - record.width) + overlap)
            yield record._replace(advance=0, offset=x)  # "Run records get advance 0."
            if not rtl:  # "once a record is placed its width is added and, for a copy, the overlap subtracted"
                x = saturated(saturated(x + record.width) - overlap)


def stretched(line, rtl):
    """The line afterwards."""
    work, done, at = work_of(line, rtl), [], 0
    for run in runs_of(work):
        done += work[at : run.start]
        done += placed(run, work[run.start : run.end], rtl)
        at = run.end
    return work_of(done + work[at:], rtl)


def single_words(flags, glyphs, substitutes):
    """ "Single: 1, flags, 1, 8; 2, 6 + 2n, n, substitutes; 1, n, glyphs" """
    n = len(glyphs)
    return [SINGLE, flags, 1, 8, 2, 6 + 2 * n, n, *substitutes, 1, n, *glyphs]


def rules_of(n, components, ligatures):
    """The rules of a flat list: the components of each, and its ligature."""
    return [(components[n * at : n * (at + 1)], ligature) for at, ligature in enumerate(ligatures)]


def starts(blocks, first):
    """Where blocks of words begin, in bytes, if the first begins at `first` and each directly behind the one before."""
    return list(itertools.accumulate((2 * len(block) for block in blocks), initial=first))[: len(blocks)]


def flat(blocks):
    return [word for block in blocks for word in block]


def set_words(n, rules):
    """ "each set's count, offsets and rules (ligature, N, the other components)"; offsets count from the set."""
    blocks = [[ligature, n, *components[1:]] for components, ligature in rules]
    return [len(blocks), *starts(blocks, 2 + 2 * len(blocks)), *flat(blocks)]


def ligature_words(flags, n, components, ligatures):
    """ "Ligature, with N components: 4, flags, 1, 8; 1, coverage offset, s, set offsets; 1, s, first components; then each set's ..". "A set starts
    where the first component differs from the rule before. Set offsets count from byte 8." """
    sets = [(first, list(rules)) for first, rules in itertools.groupby(rules_of(n, components, ligatures), lambda rule: rule[0][0])]
    s, blocks = len(sets), [set_words(n, rules) for _, rules in sets]
    coverage = [1, s, *(first for first, _ in sets)]
    return [LIGATURE, flags, 1, 8, 1, 6 + 2 * s, s, *starts(blocks, 6 + 2 * s + 2 * len(coverage)), *coverage, *flat(blocks)]


def bytes_of(words):
    """The bytes of words, of which each has to be one of 16 bits."""
    return struct.pack(f">{len(words)}H", *words)


Lookup = collections.namedtuple("Lookup", "kind n flags glyphs substitutes")  # n: 0 unless it is a ligature lookup; a ligature lookup's glyphs are flat


def words_of(lookup):
    if lookup.kind == SINGLE:
        return single_words(lookup.flags, lookup.glyphs, lookup.substitutes)
    return ligature_words(lookup.flags, lookup.n, lookup.glyphs, lookup.substitutes)


class NoLookup(Exception):
    pass


class Tables:
    """A reader of OpenType's tables that goes wherever offsets lead. What is no word of the bytes, it does not read."""

    def __init__(self, data):
        self.data = data

    def words(self, at, count):
        if at + 2 * count > len(self.data):
            raise NoLookup
        return list(struct.unpack_from(f">{count}H", self.data, at))

    def counted(self, at):
        """A count, and as many words behind it."""
        return self.words(at + 2, *self.words(at, 1))

    def covered(self, at):
        """The glyphs of a CoverageFormat1."""
        return self.counted(at + 2)

    def rules(self, at):
        """The rules of a LigatureSubstFormat1 at a place. As in OpenType, a set's first glyph is that of the coverage at the set's place."""
        coverage = self.covered(at + self.words(at + 2, 1)[0])
        sets = [at + offset for offset in self.counted(at + 4)]
        if len(sets) != len(coverage):
            raise NoLookup
        rules = []
        for first, base in zip(coverage, sets):
            for offset in self.counted(base):
                ligature, n = self.words(base + offset, 2)
                if n not in COMPONENTS or len(rules) == len(self.data):  # a rule has bytes of its own, so there are never so many
                    raise NoLookup
                rules.append(([first, *self.words(base + offset + 4, n - 1)], ligature))
        return rules

    def lookup(self):
        kind, flags, _, at = self.words(0, 4)
        if kind == SINGLE:
            return Lookup(SINGLE, 0, flags, self.covered(at + self.words(at + 2, 1)[0]), self.counted(at + 4))
        if kind != LIGATURE:
            raise NoLookup
        rules = self.rules(at)
        n = len(rules[0][0]) if rules else 2  # "An empty ligature list has the same bytes for both component numbers and reads with 2."
        if any(len(components) != n for components, _ in rules):
            raise NoLookup
        return Lookup(LIGATURE, n, flags, flat(components for components, _ in rules), [ligature for _, ligature in rules])


def read(data):
    """The lookup that bytes are; none "exactly when they are" not "what the writer gives for some list whose first glyphs do not fall": what reading
    finds is written once more, and has to give these bytes."""
    try:
        lookup = Tables(data).lookup()
    except NoLookup:
        return None
    firsts = lookup.glyphs[:: lookup.n or 1]
    words = words_of(lookup)
    whole = len(lookup.glyphs) == len(lookup.substitutes) * (lookup.n or 1) and max(words) <= LAST_WORD and bytes_of(words) == bytes(data)
    return lookup if whole and all(x <= y for x, y in zip(firsts, firsts[1:])) else None


IGNORE_MARKS = 8  # OpenType's flag of a lookup that passes over marks
RULE_LIMIT = 1024  # "a rule list of the plan over 1,024 rows"
MOST_LOOKUPS = 7  # "at most seven entries"
LISTS = ((3, IGNORE_MARKS), (2, IGNORE_MARKS), (2, 0))  # "The ligature lists have N 3, 2, 2"; 001: only that of marks does not pass over marks

# Windows-1256 as 001 has it: its signature, and its lists in their order, which is not to be sorted
WINDOWS_SIGNATURE = {0x0627: 199, 0x0644: 225, 0x0649: 236, 0x064A: 237, 0x0652: 250}
WINDOWS_INIT = (
    "198-162 200-4 201-5 202-5 203-6 204-7 205-9 206-11 211-13 212-14 213-15 214-26 218-27 219-30 221-128 222-131 223-140 225-141 227-142 228-143 "
    "229-144 236-154 237-154"
)
WINDOWS_MEDI = (
    "165-170 178-179 180-185 198-162 200-4 201-5 202-5 203-6 204-7 205-9 206-11 211-13 212-14 213-15 214-26 218-28 219-31 221-129 222-138 223-140 "
    "225-141 227-142 228-143 229-149 236-154 237-154 252-255"
)
WINDOWS_FINA = (
    "165-170 178-179 180-185 194-2 195-1 197-3 198-181 199-0 201-159 204-8 205-10 206-12 218-29 219-127 229-152 236-160 237-156 252-255"
)
WINDOWS_LAM_ALEF = ([225, 199, 225, 195, 225, 194, 225, 197], [165, 178, 180, 252])
WINDOWS_SHADDA = ([248, 243, 248, 245, 248, 246], [172, 173, 175])


def by_first(rules):
    """ "order is stable by first glyph"; a rule is its glyphs and what stands for them."""
    return sorted(rules, key=lambda rule: rule[0][0])


def found(font, rows):
    """The rules that a font has of rows of codes: those of which it has every glyph. "Glyphs above 65,535 count as absent in rules"."""
    glyph = lambda code: font[code] if font.get(code, LAST_WORD + 1) <= LAST_WORD else None
    rules = [([glyph(code) for code in codes], glyph(ligature)) for codes, ligature in rows]
    return [(glyphs, ligature) for glyphs, ligature in rules if None not in (*glyphs, ligature)]


def columns_of_rules(rules):
    return flat(glyphs for glyphs, _ in rules), [ligature for _, ligature in rules]


def unicode_lookups(masks, font, shaping, lists):
    """The masks and words of the plan's lookups, "zero masks skipped". A shaping row is a code and its "forms init, medi, fina, isol; only 0 means none", and
    "equal glyph and form are dropped". What has no rule is no lookup."""
    *of_forms, rlig = masks
    for at, mask in enumerate(of_forms):
        rules = [rule for rule in found(font, [([code], forms[at]) for code, forms in shaping if forms[at] != 0]) if rule[0] != [rule[1]]]
        if mask and rules:
            yield mask, single_words(IGNORE_MARKS, *columns_of_rules(by_first(rules)))
    for (n, flags), rows in zip(LISTS, lists):
        rules = found(font, rows)
        if rlig and rules:
            yield rlig, ligature_words(flags, n, *columns_of_rules(by_first(rules)))


def windows_lookups(masks):
    """ "its five lookups", in 001's order."""
    init, medi, fina, _, rlig = masks
    single = lambda text: single_words(IGNORE_MARKS, *zip(*([int(glyph) for glyph in rule.split("-")] for rule in text.split())))
    lookups = [
        (rlig, ligature_words(IGNORE_MARKS, 2, *WINDOWS_LAM_ALEF)),
        (init, single(WINDOWS_INIT)),
        (medi, single(WINDOWS_MEDI)),
        (fina, single(WINDOWS_FINA)),
        (rlig, ligature_words(0, 2, *WINDOWS_SHADDA)),
    ]
    return [(mask, words) for mask, words in lookups if mask]


def planned(masks, font, shaping, lists):
    """ "If no lookup results, the Windows-1256 signature is tested and its five lookups follow." """
    lookups = list(unicode_lookups(masks, font, shaping, lists))
    if not lookups and all(font.get(code) == glyph for code, glyph in WINDOWS_SIGNATURE.items()):
        lookups = windows_lookups(masks)
    return lookups
