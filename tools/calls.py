"""What the tools that run a call at its limits share, whatever the call: cases, columns that are drawn or spoilt, what a program has to tell from
good cases, and the `main` of a tool. A call is a dictionary of its columns by their names."""

import argparse
import itertools
import os
import pathlib
import random
import re
import struct
import subprocess
import sys

ROOT = pathlib.Path(__file__).resolve().parent.parent
RUN = os.environ.get("LIMITS_RUN") or ROOT / "run"  # tools/bindings has its driver run in the place of the programs
LAST_PLACE = 2**32 - 1  # that a case can have


# ---- cases


def column_of(width, elements):
    return struct.pack(f">IB{len(elements)}{'BH.I'[width - 1]}", len(elements), width, *elements)


def case(call, inputs, outputs, answer):
    """The bytes of a case. `inputs` and `outputs` are names with widths; the answer is a list of columns."""
    body = b"".join(column_of(width, call[name]) for name, width in inputs.items())
    body += b"".join(column_of(width, column) for width, column in zip(outputs.values(), answer, strict=True))
    return struct.pack(">I", len(body)) + body


def columns_of(body):
    at = 0
    while at < len(body):
        count, width = struct.unpack_from(">IB", body, at)
        yield list(struct.unpack_from(f">{count}{'BH.I'[width - 1]}", body, at + 5))
        at += 5 + count * width


# ---- drawing


def numbers(draw, width, count):
    return list(struct.unpack(f">{count}{'BH.I'[width - 1]}", draw.randbytes(width * count)))


def put(call, name, at, value):
    call[name][at] = value
    return call


def one_short(call, name):
    call[name].pop()
    return call


def one_long(call, name):
    call[name].append(0)
    return call


def uneven_now_and_then(draw, call, size, names):
    """One call in twelve gets a column that is one short or one long, if it has any element."""
    if size and not draw.randrange(12):
        draw.choice((one_short, one_long))(call, draw.choice(names))


def copied(call):
    return {name: list(column) for name, column in call.items()}


def places(count):
    """Where a number is tried in a column: at its ends, in its middle, around the steps of the compiled loops."""
    return sorted({at for at in (0, count // 2, count - 1, 7, 8, 9, 15, 16, 17, 31, 32, 33, 63, 64) if at < count})


def some_of(faults, counts):
    return itertools.chain.from_iterable(itertools.combinations(faults, count) for count in counts)


# ---- running


def compare_model(tool, stream, inputs, answer):
    """Holds the model to cases that have the Rust's answers."""
    cases = differ = 0
    while head := stream.read(4):
        columns = list(columns_of(stream.read(*struct.unpack(">I", head))))
        given, expected = columns[: len(inputs)], columns[len(inputs) :]
        differ += answer(dict(zip(inputs, given, strict=True))) != expected
        cases += 1
    print(f"{tool}: the model: {cases} cases, {differ} differ")
    sys.exit(1 if differ or not cases else 0)


def as_expected(tool, program, cases, seed):
    """Runs the program on the cases, and says whether it finds all of them as they are to be."""
    ran = subprocess.run([RUN, program], input=b"".join(cases), stdout=subprocess.PIPE)
    printed = ran.stdout.decode()
    print(f"{tool}: {printed.strip()} (seed {seed})")
    return ran.returncode == 0 and printed == f"{program}: {len(cases)} cases, 0 differ\n"


def wrong_answers(call, inputs, outputs, answer):
    """Cases each of which has one column of the answer wrong: an element changed, one too many, one too few."""
    right = answer(call)
    for at, column in enumerate(right):
        changed = ([*column[:-1], column[-1] ^ 1], [column[0] ^ 1, *column[1:]], column[:-1]) if column else ()
        for wrong in (*changed, [*column, 0]):
            yield case(call, inputs, outputs, [*right[:at], wrong, *right[at + 1 :]])


def wrong_forms(call, inputs, outputs, answer, spoilt):
    """Cases that are not of the form: the columns that `spoilt` has, a column of another width, one that is missing, a byte left over, a body
    cut short."""
    right = answer(call)
    yield from (case(call | change, inputs, outputs, right) for change in spoilt(call))
    for name in inputs:
        other_width = 4 if inputs[name] == 2 else 2
        yield case(call | {name: [0] * len(call[name])}, inputs | {name: other_width}, outputs, right)
        yield case(call, {other: width for other, width in inputs.items() if other != name}, outputs, right)
    for name in outputs:
        yield case(call, inputs, {other: width for other, width in outputs.items() if other != name}, [c for o, c in zip(outputs, right) if o != name])
    body = case(call, inputs, outputs, right)[4:]
    yield from (struct.pack(">I", len(other)) + other for other in (body + bytes(1), body[:-1], b""))


def told(program, calls, inputs, outputs, answer, spoilt):
    """What the program prints of cases that are wrong: how many there are, and of how many it does not say so. Wrong answers are all read in one run,
    wrong forms each in a run of its own, on the first call."""
    command = subprocess.run([RUN, "--command", program], capture_output=True, text=True, check=True).stdout.split("\n")[:-1]
    printed = lambda cases: subprocess.run(command, input=cases, stdout=subprocess.PIPE).stdout.decode()
    answers = [bad for call in calls for bad in wrong_answers(call, inputs, outputs, answer)]
    forms = list(wrong_forms(calls[0], inputs, outputs, answer, spoilt))
    seen = re.search(rf"^{program}: {len(answers)} cases, (\d+) differ$", printed(b"".join(answers)), re.M)
    untold = len(answers) - int(seen[1]) if seen else len(answers)
    untold += sum(printed(bad) != f"{program}: unreadable at case 0\n" for bad in forms)
    return len(answers) + len(forms), untold


def main(tool, program, about, inputs, outputs, answer, worked, limits, spoilt):
    """The `main` of a tool. `answer` is the model: the columns that come out of a call, in the order of `outputs`. `worked` draws the worked
    examples, to which the model is held whatever is asked for, and `limits` all other calls; `spoilt` has columns that no call can have."""
    words = argparse.ArgumentParser(description=about, formatter_class=argparse.RawDescriptionHelpFormatter)
    words.add_argument("--seed", type=int, default=random.SystemRandom().randrange(2**32))
    words.add_argument("--model", action="store_true")
    given = words.parse_args()
    draw = random.Random(given.seed)
    examples = list(worked(draw))
    if given.model:
        compare_model(tool, sys.stdin.buffer, inputs, answer)
    cases = [case(call, inputs, outputs, answer(call)) for call in itertools.chain(examples, limits(draw))]
    same = as_expected(tool, program, cases, given.seed)
    tried, untold = told(program, examples, inputs, outputs, answer, spoilt)
    print(f"{tool}: {tried} cases with a wrong answer or of a wrong form, {untold} not told")
    sys.exit(0 if same and not untold else 1)
