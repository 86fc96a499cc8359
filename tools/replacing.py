"""What the tools share that run replacing a letter at its limits, beside tools/lines.py: the request, document 01's refusals of it, its rule of replacing,
and calls on lines that are not current."""

from lines import *  # beside this file

NEARLY = (0x180A, 0x180E, 0x1810)  # the codes next to selectors that are none
COUNTS = (1, 2, 15, 16, 17, 31, 32, 33, 34, 64, 65, 100, LINE_LIMIT)


class Replacing(Joining):
    """The columns of a call that replaces a letter, and calls. Letters have to say, too, how a request asks for one, and how mixed lines are drawn."""

    def __init__(self, letters):
        super().__init__(letters)
        self.lent = {"codes": 4, **letters.columns, "actions": 1, "masks": 4}  # what a call may write
        self.outputs = {"number": 1, **self.lent}
        self.inputs |= {"place": 4, "code": 4, **letters.single}
        self.last = {name: last for name, last in (("type", LAST_TYPE), ("category", LAST_CATEGORY)) if name in letters.single}
        self.faults += [(3, "actions"), *((3, name) for name in self.last), (4, "place")]

    # ---- document 01: "Numbers of refusal", and "Replacing a letter"

    def wrong(self, call):
        """The numbers that apply: those of a line, old actions and the request under 3, and 4 for a place at or past the length."""
        yield from super().wrong(call)
        if any(action > LAST_ACTION for action in call["actions"]) or any(call[name] > [last] for name, last in self.last.items()):
            yield 3
        if call["place"] >= [len(call["codes"])]:
            yield 4

    def answer(self, call):
        """The number, and the lent columns after the call."""
        if number := min(self.wrong(call), default=0):
            return [[number], *(call[name] for name in self.lent)]
        [place] = call["place"]
        new = dict(call)
        for column, single in (("codes", "code"), ("types", "type"), ("categories", "category")):
            if column in self.lent:
                new[column] = call[column][:place] + call[single] + call[column][place + 1 :]
        records = renewed(new["codes"], self.resolved(new), place, call["mongolian"] == [1])
        for column, fresh in zip(("actions", "masks"), self.joined_afresh(new)):
            new[column] = replaced(call[column], fresh, records)
        return [[0], *(new[name] for name in self.lent)]

    # ---- calls

    def request(self, draw, place):
        [other] = self.letters.codes(draw, 1)
        code = draw.choice((draw.choice(SELECTORS), draw.choice(SELECTORS), draw.choice(NEARLY), other))
        return {"place": [place], "code": [code], **{name: [draw.randrange(last + 1)] for name, last in self.last.items()}}

    def call(self, draw, line, pre=0, post=0):
        """A call that is not refused, unless for its length, on a line that is not current. Of an empty line every place is refused."""
        actions = [draw.randrange(LAST_ACTION + 1) for _ in range(line)]
        return super().call(draw, line, pre, post) | {"actions": actions} | self.request(draw, draw.randrange(line or 1))

    def each_known_number(self, draw):
        """Types and categories, as joining has them, and old actions: at the place that is replaced, where they are written over, and elsewhere."""
        for call, at in self.each_number(draw):
            yield call
            if at < len(call["codes"]):
                yield call | {"place": [at]}
        for count in COUNTS:
            for at, value in itertools.product(places(count), (LAST_ACTION, LAST_ACTION + 1, 255)):
                call = put(self.call(draw, count), "actions", at, value)
                yield call
                yield call | {"place": [at]}
        for name, last in self.last.items():
            for count, value in itertools.product((1, 2, 17, LINE_LIMIT), (0, last, last + 1, 255)):
                yield self.call(draw, count, 3, 3) | {name: [value]}

    def each_place(self, draw):
        for count in (0, 1, 2, 16, 17, ROOM - 1, ROOM, ROOM + 1, LINE_LIMIT - 1, LINE_LIMIT, LINE_LIMIT + 1):
            for place in {0, max(count - 1, 0), count, count + 1, count + 2**16, 2**31, LAST_PLACE}:
                yield self.call(draw, count, 1, 1) | {"place": [place]}

    def several(self, draw):
        """Each refusal alone, every two, every three, some of four and more, and all at once; the columns of a line and its contexts have five
        records where they are not too long."""
        more = [draw.sample(self.faults, draw.randrange(4, len(self.faults))) for _ in range(60)]
        for some in itertools.chain(some_of(self.faults, (1, 2, 3)), more, [self.faults]):
            call = self.faulty(draw, some)
            if (3, "actions") in some:
                put(call, "actions", draw.randrange(4), LAST_ACTION + 1)
            for name, last in self.last.items():
                if (3, name) in some:
                    call[name] = [last + 1]
            # what the fault of another column leaves of the line has at least four records
            call["place"] = [max(len(call[name]) for name in self.line) if (4, "place") in some else draw.randrange(4)]
            assert min(self.wrong(call)) == min(number for number, _ in some)
            yield call

    def spread(self, draw, count, mongolian, place, new, letters):
        """A call on a line that is transparent but for these places, with a new letter of a type."""
        call = self.call(draw, count, 1, 1) | {"mongolian": [mongolian], "place": [place]}
        self.letters.give(draw, call, "", [draw.randrange(T) if at in letters else T for at in range(count)])
        return call | self.letters.ask(draw, new)

    def far_neighbours(self, draw):
        """q and n at the ends of a line, and between them and the place nothing but transparent records, selectors or not."""
        for count, selectors, mongolian, new in itertools.product((3, 17, 33, 64, 65, 100, LINE_LIMIT), (0, 1), (0, 1), range(LAST_TYPE + 1)):
            call = self.spread(draw, count, mongolian, draw.randrange(1, count - 1), new, (0, count - 1))
            if selectors:
                stand_selectors(draw, call, range(1, count - 1), MN)
            yield call

    def far_seconds(self, draw):
        """The second letters, too, stand far away: a letter at each end of a line, q and n between them and the place, and all else transparent.
        A letter can be a selector as well."""
        for count, selectors, mongolian, new in itertools.product((5, 64, 65, 300, 1000, LINE_LIMIT), (0, 1), (0, 1), range(LAST_TYPE + 1)):
            q, place, n = sorted(draw.sample(range(1, count - 1), 3))
            letters = (0, q, n, count - 1)
            call = self.spread(draw, count, mongolian, place, new, letters)
            if selectors:
                stand_selectors(draw, call, [at for at in range(count) if at not in letters], MN)
                stand_selectors(draw, call, [at for at in letters if draw.randrange(2)], LO)
            yield call

    def far_contexts(self, draw):
        """The letter of the line that a context reaches is replaced, or stands beside the one that is."""
        for call in super().far_contexts(draw):
            count = len(call["codes"])
            yield call | {"place": [draw.choice((0, min(1, count - 1), count // 2, max(count - 2, 0), count - 1))]}

    def stale(self, draw, count):
        """Short lines, with few or many transparent records and selectors."""
        for _ in range(count):
            size = draw.choice((draw.randrange(1, 9), draw.randrange(1, 9), draw.randrange(1, 20), draw.randrange(1, 70)))
            call = self.call(draw, size, draw.randrange(4), draw.randrange(4))
            self.letters.mix(draw, call, draw.choice((0, 3, 6, 9)), draw.choice((0, 3, 6, 9)))
            for name in ("categories", "category"):  # of an X they decide whether it is transparent
                call[name] = [category if draw.randrange(3) else draw.choice((CF, ME, MN)) for category in call[name]]
            yield call

    def drawn(self, draw, count):
        """Random calls of all lengths, some with a fault of their line, of an old action, or of the place."""
        for call in super().drawn(draw, count):
            if call["actions"] and not draw.randrange(8):
                put(call, "actions", draw.randrange(len(call["actions"])), draw.randrange(256))
            if not draw.randrange(8):
                call["place"] = [len(call["codes"]) + draw.randrange(3)]
            yield call

    def limits(self, draw, stale=40000):
        yield from self.each_column(draw)
        yield from self.each_length(draw)
        yield from self.each_known_number(draw)
        yield from self.each_place(draw)
        yield from self.several(draw)
        yield from self.far_neighbours(draw)
        yield from self.far_seconds(draw)
        yield from self.far_contexts(draw)
        yield from self.drawn(draw, 1000)
        yield from self.stale(draw, stale)

    # ---- worked examples, which are run as well; the model itself is held to them, and by --model to the Rust

    def worked(self, draw):
        for mongolian, codes, types, held, place, code, new, actions, kept in REPLACED:
            call = self.call(draw, len(codes)) | {"mongolian": [mongolian], "actions": held, "place": [place]}
            if not self.letters.hold(draw, call, codes, types, code, new):
                continue
            entries = [*call["features"], 0, None, None]  # a new mask is never OR-ed onto the old one
            masks = [call["masks"][i] if i in kept else call["base"][i] | entries[action] for i, action in enumerate(actions)]
            number, *_, acted, marked = self.answer(call)
            assert (number, acted, marked) == ([0], actions, masks), (codes, types, place)
            yield call


def stand_selectors(draw, call, where, category):
    """Selectors stand at these places from now on. Where no type is lent their category says whether they are transparent."""
    for at in where:
        put(put(call, "codes", at, draw.choice(SELECTORS)), "categories", at, category)


class TypedRequests(Typed):
    """Letters whose types are lent, in a request, too."""

    def ask(self, draw, t):
        return {"type": [t]}

    def mix(self, draw, call, marks, selectors):
        """Some records of ten are transparent, and some are selectors; a selector has any type, but transparent more often."""
        call["types"] = [T if draw.randrange(10) < marks else t for t in call["types"]]
        call["codes"] = [draw.choice(SELECTORS) if draw.randrange(10) < selectors else draw.randrange(0x1800, 0x1820) for _ in call["codes"]]

    def hold(self, draw, call, codes, types, code, t):
        """The letters of a worked example. True if it can be had."""
        call |= {"codes": codes, "types": types, "code": [code], "type": [t]}
        return True


B, C = SELECTORS[:2]
REPLACED = [  # mongolian; codes, types, held actions; place, code, type; actions after; the records that keep action and mask
    # document 01's, and two letters that no longer join
    (0, [1, 2, 3], [D, D, D], [INIT, MEDI, FINA], 1, 4, U, [ISOL, NONE, ISOL], []),
    (0, [1, 2], [L, R], [INIT, FINA], 0, 4, U, [NONE, ISOL], []),
    # fresh means fresh: the stale action of the record before is not copied, and stays as it is itself
    (1, [0x70F, B], [T, T], [MEDI, NONE], 1, C, T, [MEDI, NONE], [0]),
    (1, [0x70F, B], [T, T], [MEDI, MEDI], 1, C, T, [MEDI, NONE], [0]),
    # past q and n nothing changes, nor between them and the place
    (0, [1, 2, 3, 4, 5], [D] * 5, [REPEATING] * 5, 2, 6, D, [REPEATING, MEDI, MEDI, MEDI, REPEATING], [0, 4]),
    (0, [1, 2, 3, 4, 5], [D, T, D, T, D], [FIXED] * 5, 2, 6, T, [INIT, FIXED, NONE, FIXED, FINA], [1, 3]),
    # the runs of selectors behind q, the place and n, and a record behind a run; none where the line is not Mongolian
    (1, [1, B, 2, C, 3, B, C, 4], [D, T, D, T, D, T, T, U], [FIN3] * 8, 2, 5, U, [ISOL, ISOL, NONE, NONE, ISOL, ISOL, ISOL, FIN3], [7]),
    (0, [1, B, 2, C, 3, B, C, 4], [D, T, D, T, D, T, T, U], [FIN3] * 8, 2, 5, U, [ISOL, FIN3, NONE, FIN3, ISOL, FIN3, FIN3, FIN3], [1, 3, 5, 6, 7]),
    # the runs are those of the new line: a selector that comes in joins two of them, and a letter parts them
    (1, [1, 2, B], [D, U, T], [FIN3] * 3, 1, C, T, [ISOL, ISOL, ISOL], []),
    (1, [1, C, B], [D, T, T], [FIN3] * 3, 1, 2, U, [ISOL, NONE, NONE], []),
    # q is a selector: its action is that of the record before it, afresh, which itself keeps its own; but at record 0 it is joined as it is
    (1, [1, B, 2], [D, D, D], [REPEATING] * 3, 2, 3, U, [REPEATING, INIT, NONE], [0]),
    (1, [B, 1], [D, U], [REPEATING] * 2, 1, 2, D, [INIT, FINA], []),
]
