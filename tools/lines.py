"""What the tools share that run a call on a line at its limits, beside tools/calls.py: the columns of such a call, document 01's refusals of them, what
fresh joining gives, and calls drawn at random and at the limits. `Joining` is for the calls that join; tools/replacing.py has those that replace.
How letters are lent is given: `Typed` by types and categories, `Coded` (tools/coded.py) by codes and categories alone."""

from calls import *  # beside this file
from rules import *

STRANGE = {"types": LAST_TYPE, "categories": LAST_CATEGORY}
LIMITS = {"line": LINE_LIMIT, "pre": CONTEXT_LIMIT, "post": CONTEXT_LIMIT}
ROOM = 64  # a longer line that is held by codes has a larger room for its types
JOINED = {"number": 1, "actions": 1, "masks": 4}  # what comes out of a call that joins


class Typed:
    """Letters whose types are lent."""

    columns = {"types": 1, "categories": 1}
    single = {"type": 1, "category": 1}  # of a new letter, beside its code

    def types(self, call, where=""):
        return call[where + "types"]

    def codes(self, draw, count):
        return numbers(draw, 4, count)

    def give(self, draw, call, where, types):
        """The letters have these types from now on."""
        call[where + "types"] = list(types)


def bound(name):
    """The last number that a column of types or categories may have."""
    return STRANGE[name.split()[-1]]


def home(name):
    """What a column is of: the line, or one of the contexts."""
    return name.split()[0] if " " in name else "line"


class Joining:
    """The columns of a call on a line, in their order, with the bytes of an element, and calls. Columns of one list belong together."""

    def __init__(self, letters):
        self.letters = letters
        self.line = {"codes": 4, **letters.columns, "base": 4, "actions": 1, "masks": 4}
        self.pre, self.post = ({side + name: width for name, width in letters.columns.items()} for side in ("pre ", "post "))
        self.lists = (self.pre, self.post, self.line)
        self.names = [name for together in self.lists for name in together]
        self.inputs = {"mongolian": 1, "features": 4, **self.pre, **self.post, **self.line}
        self.bounded = [name for name in self.names if name.split()[-1] in STRANGE]
        self.faults = [(number, where) for number in (1, 2) for where in LIMITS] + [(3, name) for name in self.bounded]

    # ---- document 01: "Numbers of refusal"

    def wrong(self, call):
        """The numbers that apply to a line and its contexts, whatever is asked of it."""
        if any(len({len(call[name]) for name in together}) > 1 for together in self.lists):
            yield 1
        if any(len(call[name]) > LIMITS[home(name)] for name in ("codes", "pre categories", "post categories")):
            yield 2
        if any(x > bound(name) for name in self.bounded for x in call[name]):
            yield 3

    # ---- document 01: "Joining"; its rules are in tools/rules.py

    def resolved(self, call, where=""):
        return [resolved(*pair) for pair in zip(self.letters.types(call, where), call[where + "categories"])]

    def joined_afresh(self, call):
        """The actions and the masks that fresh joining gives a line."""
        actions = joined(self.resolved(call), nearest(self.resolved(call, "pre ")), nearest(self.resolved(call, "post ")))
        if call["mongolian"] == [1]:
            actions = settled(call["codes"], actions)
        return actions, masked(call["features"], call["base"], actions)

    def answer(self, call):
        """The number, and actions and masks after a call that joins. Old actions are not tested."""
        if number := min(self.wrong(call), default=0):
            return [[number], call["actions"], call["masks"]]
        return [[0], *self.joined_afresh(call)]

    # ---- drawing

    def column(self, draw, name, width, count):
        if name in self.bounded:
            return [draw.randrange(bound(name) + 1) for _ in range(count)]
        return self.letters.codes(draw, count) if name.endswith("codes") else numbers(draw, width, count)

    def call(self, draw, line, pre=0, post=0):
        """A call that is not refused, unless for its length, with so many records in the line and the contexts."""
        call = {"mongolian": [draw.randrange(2)], "features": numbers(draw, 4, 7)}
        for together, count in zip(self.lists, (pre, post, line)):
            call |= {name: self.column(draw, name, width, count) for name, width in together.items()}
        if draw.randrange(2):
            call["codes"] = [draw.choice(SELECTORS) if draw.randrange(2) else code for code in call["codes"]]
        return call

    # ---- the limits of a line and its contexts

    def each_column(self, draw):
        for line, context in ((1, 1), (2, 5), (17, 33), (LINE_LIMIT, CONTEXT_LIMIT)):
            for name in self.names:
                yield one_short(self.call(draw, line, context, context), name)
                yield one_long(self.call(draw, line, context, context), name)
                if line < LINE_LIMIT:
                    yield self.call(draw, line, context, context) | {name: []}
                    yield one_long(self.call(draw, 0), name)

    def each_length(self, draw):
        for line in (0, 1, ROOM - 1, ROOM, ROOM + 1, LINE_LIMIT - 1, LINE_LIMIT, LINE_LIMIT + 1, 4200):
            for context in (0, CONTEXT_LIMIT, CONTEXT_LIMIT + 1):
                yield self.call(draw, line, context, 3)
                yield self.call(draw, line, 3, context)
        contexts = (0, 1, CONTEXT_LIMIT - 1, CONTEXT_LIMIT, CONTEXT_LIMIT + 1, CONTEXT_LIMIT + 2, 80)
        for pre, post in itertools.product(contexts, repeat=2):
            yield self.call(draw, 3, pre, post)

    def each_number(self, draw):
        """Each call with the place where it has the number that is tried."""
        for name in self.bounded:
            for count in (1, 2, 15, 16, 17, 31, 32, 33, 34, 64, *((65, 100, LINE_LIMIT) if home(name) == "line" else ())):
                for at, value in itertools.product(places(count), (bound(name), bound(name) + 1, 255)):
                    yield put(self.call(draw, **({"line": 3} | {home(name): count})), name, at, value), at

    def faulty(self, draw, some):
        """A call with some of the faults: unequal columns, lengths and numbers, in the line and either context."""
        call = self.call(draw, **{where: most + 1 if (2, where) in some else 5 for where, most in LIMITS.items()})
        for number, where in some:
            if number == 1:
                name = draw.choice([name for name in self.names if home(name) == where])
                draw.choice((one_short, one_long))(call, name)
            if number == 3 and where in self.bounded:
                put(call, where, draw.randrange(4), bound(where) + 1)
        return call

    def several(self, draw):
        """Each refusal alone, every two and every three at once."""
        for some in some_of(self.faults, (1, 2, 3)):
            call = self.faulty(draw, some)
            assert min(self.wrong(call)) == min(number for number, _ in some)
            yield call

    def far_contexts(self, draw):
        """The letter that decides stands behind transparent ones, as far as a context goes; the Rust would have left it out from the sixth on."""
        for behind, count in itertools.product((0, 4, 5, 6, 62, 63), (1, 2, LINE_LIMIT)):
            for letter, side in itertools.product(range(T), ("pre ", "post ")):
                call = self.call(draw, count, behind + 1, behind + 1)
                line = [draw.choice((L, R, D, ALAPH, DALATH_RISH)) for _ in range(min(count, 2))] + [T] * (count - 2)
                self.letters.give(draw, call, side, [T] * behind + [letter])
                self.letters.give(draw, call, "", line if side == "pre " else reversed(line))
                yield call

    def drawn(self, draw, count):
        """Random calls, some with a number that is none, or a column that is one short or one long."""
        for _ in range(count):
            size = draw.choice((draw.randrange(40), draw.randrange(40), draw.randrange(40), draw.randrange(LINE_LIMIT + 10)))
            call = self.call(draw, size, draw.randrange(CONTEXT_LIMIT + 3), draw.randrange(CONTEXT_LIMIT + 3))
            for _ in range(draw.randrange(3)):
                name = draw.choice(self.names)
                if name in self.bounded and call[name] and draw.randrange(2):
                    put(call, name, draw.randrange(len(call[name])), draw.randrange(256))
                elif call[name] and not draw.randrange(4):
                    draw.choice((one_short, one_long))(call, name)
            yield call

    def limits(self, draw):
        yield from self.each_column(draw)
        yield from self.each_length(draw)
        yield from (call for call, _ in self.each_number(draw))
        yield from self.several(draw)
        yield from self.far_contexts(draw)
        yield from self.drawn(draw, 1000)

    # ---- columns that no call can have

    def spoilt(self, call):
        """A yes-or-no of 2, features that are not seven, single numbers that are none or two."""
        features = call["features"]
        yield from ({"mongolian": [2]}, {"features": features[:6]}, {"features": [*features, 0]})
        yield from ({name: call[name] * times} for name in call if name not in (*self.names, "features") for times in (0, 2))

    # ---- document 01's worked examples, which are run as well; the model itself is held to them, and by --model to the Rust

    def worked(self, draw):
        for pre, line, post, actions in EXAMPLES:
            call = self.call(draw, len(line), len(pre), len(post)) | {"mongolian": [0]}
            for where, types in (("pre ", pre), ("", line), ("post ", post)):
                self.letters.give(draw, call, where, types)
            assert self.answer(call)[:2] == [[0], actions], (pre, line, post)
            yield call
        call = self.call(draw, 3) | {"mongolian": [1]}
        self.letters.give(draw, call, "", [D, T, U])
        call |= {"codes": [0x1820, 0x180B, 0x180E], "categories": [LO, MN, CF]}
        assert self.answer(call)[:2] == [[0], [ISOL, ISOL, NONE]]
        yield call


EXAMPLES = [  # pre-context, line, post-context; actions
    ([], [D, D, D], [], [INIT, MEDI, FINA]),
    ([], [D, L], [], [ISOL, ISOL]),
    ([], [L, R], [], [INIT, FINA]),
    ([], [T, T], [], [NONE, NONE]),
    ([D], [R], [], [FINA]),
    ([], [D], [R], [INIT]),
    ([D], [], [], []),
    ([], [R, ALAPH], [], [ISOL, FIN2]),
    ([], [DALATH_RISH, ALAPH], [], [ISOL, FIN3]),
    ([], [D, ALAPH, R], [], [INIT, MED2, ISOL]),
    ([], [R, ALAPH, D], [], [ISOL, ISOL, ISOL]),
    ([], [D, ALAPH, L], [], [INIT, FINA, ISOL]),
    ([], [D, U, D], [], [ISOL, NONE, ISOL]),
    # of docs/DIFFERENCES.md: a context of six, an L that ends a word
    ([T, T, T, T, T, D], [R], [], [FINA]),
    ([], [R, ALAPH, L], [], [ISOL, FIN2, ISOL]),
]
