#!/usr/bin/env python3
"""Compares both sides' answers, counts their instructions and prints the tables, as Markdown.

    table.py [--quick] [--only GROUP,..] [--write PAGE] [--counted-by TEXT] COUNT DRIVER

COUNT DRIVER WORDS.. runs the driver once and prints a line `total N`. Groups are the keys of GROUPS. With --write the tables go into PAGE, between its
two marker lines, and are printed, too. Status 1: the sides differ, or a run failed. 2: bad usage.
"""
import argparse
import concurrent.futures
import os
import pathlib
import re
import subprocess
import sys

SIZES = [8, 64, 512, 4096]
BEGIN, END = "<!-- counted: begin -->", "<!-- counted: end -->"


class Row:
    """A line of a table: what it is, the driver's work, and the size; at most so much of the Rust's is wanted."""

    def __init__(self, what, work, size, wanted=None):
        self.what, self.work, self.size, self.wanted = what, work, size, wanted


def grown(what, work, sizes=SIZES, wanted=None, small=None):
    return [Row(what, work, size, small if small is not None and size == 8 else wanted) for size in sizes]


# Of calls by codes: instructions of one look-up, and of one in a loop over a line of 4,096; joining of the Rust's; replacing of our own joining by codes, at 4,096.
ONE_CODES = [(0x0628, "0628, Arabic"), (0x0041, "0041, before all rows"), (0x1820, "1820, Mongolian"), (0x4E00, "4E00, not listed"), (0x1E922, "1E922, the last row but one"), (0xFFFFFFFF, "FFFFFFFF")]
ONE_TYPE, LOOKED_UP = 60, 24
BY_CODES = {8: 0.70, 64: 0.52, 512: 0.48, 4096: 0.48}
RECODING = 0.45

# What the two sides do in each work is in docs/SPEED.md. Marks, and recording, are counted by the record; lookups by the rule; plans by the row of a list.
GROUPS = {
    "join": grown("Arabic", "join/arabic", wanted=0.30, small=0.5) + grown("Mongolian", "join/mongolian", wanted=0.30, small=0.5),
    "replace": grown("Arabic", "replace/arabic") + grown("Mongolian", "replace/mongolian") + grown("one letter, then selectors: the last one", "replace/selectors"),
    "type": [Row(what, "type/%04X" % code, 0, ONE_TYPE) for code, what in ONE_CODES],
    "codes": [Row(what, work, size, BY_CODES[size]) for what, work in (("Arabic", "codes/arabic"), ("Mongolian", "codes/mongolian")) for size in SIZES],
    "recode": grown("Arabic", "recode/arabic") + grown("Mongolian", "recode/mongolian") + grown("one letter, then selectors: the last one", "recode/selectors"),
    "marks": [
        Row("an empty range", "marks/none", 4, 1.0),
        *grown("no block", "marks/plain", [1, 2, 4, 8, 64, 512, 4096], 1.0),
        Row("two vowels, a mark of each block", "marks/both", 4, 1.0),
        *grown("a third vowels, a third each block", "marks/thirds", [6, 63, 513, 4095], 1.0),
    ],
    "record": grown("a tiled line", "record"),
    "stretch": [
        *grown("right to left", "stretch/tiles/rtl", wanted=0.90),
        *grown("left to right", "stretch/tiles/ltr", wanted=0.90),
        *grown("recorded, and no tile", "stretch/plain/rtl", wanted=0.90),
        *grown("nothing recorded", "stretch/nothing/rtl"),  # the Rust has nothing to do there
    ],
    "single": grown("glyphs rising", "write/single", wanted=0.15),
    "ligature": [row for n in (2, 3) for per_set in (8, 1) for row in grown("N = %d, %d a set" % (n, per_set), "write/%d/%d" % (n, per_set), wanted=0.50)],
    "read": [
        *grown("single", "read/single"),
        *[row for n in (2, 3) for per_set in (8, 1) for row in grown("N = %d, %d a set" % (n, per_set), "read/%d/%d" % (n, per_set))],
    ],
    "plan": [
        Row("the Rust's rows, font of 390 codes, glyphs rising", "plan/rising", 0, 1.0),
        Row("the same, glyphs in another order", "plan/shuffled", 0, 1.0),
        Row("the Rust's rows, font of 4,096 codes", "plan/wide", 4096, 1.0),
        Row("a font of 575 codes without presentation forms", "plan/bare", 0, 1.0),
        Row("the same with the signature of Windows-1256", "plan/windows", 0, 1.0),
        Row("an empty font", "plan/empty", 0, 1.0),
        *grown("so many rows in each list, first glyphs in order", "plan/in-order", [16, 128, 1024], 1.0),
        Row("the same, in any order", "plan/any-order", 1024, 1.0),
    ],
}
TITLES = {
    "join": "Joining a line: `tt_join_line` and `setup_masks_inner`",
    "replace": "Replacing a letter: `tt_replace_letter`, and joining the line afresh",
    "type": "The type of a code: `tt_joining_type` and `joining_type`",
    "codes": "Joining a line by codes: `tt_join_codes` and `setup_masks_inner`",
    "recode": "Replacing a letter by code: `tt_replace_code`, and joining the line afresh",
    "marks": "Marks: `tt_reorder_modifier_combining_marks` and `reorder_modifier_combining_marks`",
    "record": "Recording: `tt_record_stch` and `record_stch`",
    "stretch": "Stretching: `tt_stretch` and `apply_stch`",
    "single": "Writing a single lookup: `tt_serialize_single_lookup` and `serialize_single_lookup`",
    "ligature": "Writing a ligature lookup: `tt_serialize_ligature_lookup` and `serialize_ligature_lookup`",
    "read": "Reading a lookup: `tt_read_lookup`, which has no peer",
    "plan": "The fallback plan: `tt_fallback_plan` and `FallbackPlan::new`",
}
UNITS = {"marks": "mark", "single": "rule", "ligature": "rule", "read": "rule", "plan": "row"}
REPLACING = 0.05  # of our own fresh joining, at 4,096 records
ALSO_CHECKED = {"join": [1, 7, 300], "replace": [1, 7, 300], "codes": [1, 7, 65, 300], "recode": [1, 7, 65, 300], "marks": [3, 300], "record": [7, 300], "stretch": [9, 300], "single": [1, 300], "ligature": [1, 300], "read": [1, 300]}


class Counter:
    def __init__(self, count, driver):
        self.count, self.driver = count, driver

    def run(self, *words):
        said = subprocess.run([self.count, self.driver, *map(str, words)], capture_output=True, text=True)
        if said.returncode:
            sys.exit("table.py: %s ended with %d\n%s%s" % (" ".join(map(str, words)), said.returncode, said.stdout[-2000:], said.stderr[-2000:]))
        return said.stdout

    def total(self, *words):
        said = self.run(*words)
        found = re.search(r"^total (\d+)$", said, re.M)
        if not found:
            sys.exit("table.py: %s: no total\n%s" % (" ".join(map(str, words)), said[-2000:]))
        return int(found[1])

    def call(self, work, side, size):
        """Instructions of one call."""
        times = 2 if work == "plan/any-order" else 4 if size > 1000 or work.startswith("plan/") else 16
        with_calls, without = (self.total(work, side, size, times, call) for call in (1, 0))
        return (with_calls - without) / times

    def check(self, work, size):
        said = self.run("check", work, size)
        if not said.startswith("same\n"):
            sys.exit("table.py: %s at %d: the two sides answer differently\n%s" % (work, size, said[-2000:]))


def rows_of(group, quick):
    return [row for row in GROUPS[group] if not quick or row.size <= 512]


def sides_of(group):
    return ["port"] if group in ("replace", "codes", "recode", "read") else ["port", "rust"]


def wanted_counts(groups, quick):
    """Each work, side and size that a table of these groups needs."""
    for group in groups:
        for row in rows_of(group, quick):
            for side in sides_of(group):
                yield row.work, side, row.size
            if group == "replace":
                for side in ("port", "rust"):
                    yield row.work.replace("replace/", "join/"), side, row.size
            if group == "join":
                yield row.work.replace("join/", "types/"), "rust", row.size
            if group == "codes":
                for side in ("port", "rust"):
                    yield row.work.replace("codes/", "join/"), side, row.size
            if group == "recode":
                yield row.work.replace("recode/", "codes/"), "port", row.size
                yield row.work.replace("recode/", "join/"), "rust", row.size


def wanted_checks(groups, quick):
    for group in groups:
        rows = rows_of(group, quick)
        fixed = ("marks/none", "marks/both", "plan/", "type/")
        for work in dict.fromkeys(row.work for row in rows):
            sizes = [row.size for row in rows if row.work == work]
            if not work.startswith(fixed):
                sizes += [size for size in ALSO_CHECKED.get(group, []) if size not in sizes]
            for size in sizes:
                yield work, size


def number(value):
    return "{:,.0f}".format(value)


def shown(value):
    return "%.2f" % value if value >= 1 else "%.3f" % value


def ratio(value, wanted=None):
    """A ratio above what is wanted is in bold."""
    return "**%s**" % shown(value) if wanted is not None and value > wanted else shown(value)


def unit_of(group):
    return UNITS.get(group, "record")


def by_size(row):
    """Whether the row is one of several sizes, so that its cost is divided by it."""
    return row.size > 0 and row.work not in ("plan/wide", "marks/none")


def line(*cells):
    return "| " + " | ".join(cells) + " |"


class Tables:
    def __init__(self, counts):
        self.counts, self.above = counts, []

    def of(self, row, side, work=None):
        return self.counts[work or row.work, side, row.size]

    def note(self, group, row, value, wanted):
        if wanted is not None and value > wanted:
            what = row.what + (", %s %s%s" % (number(row.size), unit_of(group), "s" * (row.size > 1)) if by_size(row) else "")
            self.above.append("%s: %s, %s for %.2f" % (group, what, shown(value), wanted))

    def peers(self, group, rows):
        unit = unit_of(group)
        yield line("work", unit + "s", "port", "Rust", "ratio", "wanted", "port a " + unit, "Rust a " + unit)
        yield "|---|---:|---:|---:|---:|---:|---:|---:|"
        for row in rows:
            port, rust = self.of(row, "port"), self.of(row, "rust")
            each = ["%.1f" % (value / row.size) if by_size(row) else "" for value in (port, rust)]
            yield line(row.what, number(row.size) if by_size(row) else "", number(port), number(rust), ratio(port / rust, row.wanted), "" if row.wanted is None else "%.2f" % row.wanted, *each)
            self.note(group, row, port / rust, row.wanted)

    def alone(self, group, rows):
        unit = unit_of(group)
        yield line("work", unit + "s", "port", "port a " + unit)
        yield "|---|---:|---:|---:|"
        for row in rows:
            port = self.of(row, "port")
            yield line(row.what, number(row.size), number(port), "%.1f" % (port / row.size))

    def one_type(self, group, rows):
        yield line("code", "port", "wanted", "Rust")
        yield "|---|---:|---:|---:|"
        for row in rows:
            port, rust = self.of(row, "port"), self.of(row, "rust")
            yield line(row.what, ("**%s**" if port > row.wanted else "%s") % number(port), number(row.wanted), number(rust))
            self.note(group, row, port, row.wanted)

    def by_codes(self, group, rows):
        yield line("work", "records", "by codes", "Rust", "ratio", "wanted", "by types", "look-ups", "a code", "wanted")
        yield "|---|---:|---:|---:|---:|---:|---:|---:|---:|---:|"
        for row in rows:
            lent = row.work.replace("codes/", "join/")
            port, rust, by_types = self.of(row, "port"), self.of(row, "rust", lent), self.of(row, "port", lent)
            each, most = (port - by_types) / row.size, LOOKED_UP if row.size == 4096 else None
            told = ("**%.1f**" if most is not None and each > most else "%.1f") % each
            yield line(row.what, number(row.size), number(port), number(rust), ratio(port / rust, row.wanted), "%.2f" % row.wanted, number(by_types), number(port - by_types), told, "" if most is None else number(most))
            self.note(group, row, port / rust, row.wanted)
            self.note(group + ", a look-up", row, each, most)

    def replacing(self, group, rows):
        yield line("work", "records", "replacing", "own joining", "ratio", "wanted", "the Rust's joining", "ratio")
        yield "|---|---:|---:|---:|---:|---:|---:|---:|"
        own_work, most = {"replace": ("join", REPLACING), "recode": ("codes", RECODING)}[group]
        for row in rows:
            kind = row.work.split("/")[1]
            port, own, rust = self.of(row, "port"), self.of(row, "port", own_work + "/" + kind), self.of(row, "rust", "join/" + kind)
            wanted = most if row.size == 4096 else None
            yield line(row.what, number(row.size), number(port), number(own), ratio(port / own, wanted), "" if wanted is None else "%.2f" % wanted, number(rust), ratio(port / rust))
            self.note(group, row, port / own, wanted)

    def looked_up(self, rows):
        yield ""
        yield "The port is lent the types, which the Rust looks up. Its look-ups alone, in a loop that adds the types up, and the ratio with them added to the port:"
        yield ""
        yield line("work", "records", "look-ups", "port with them", "ratio")
        yield "|---|---:|---:|---:|---:|"
        for row in rows:
            port, rust, types = self.of(row, "port"), self.of(row, "rust"), self.of(row, "rust", row.work.replace("join/", "types/"))
            yield line(row.what, number(row.size), number(types), number(port + types), ratio((port + types) / rust))

    def told(self, group, rows):
        forms = {"replace": self.replacing, "recode": self.replacing, "read": self.alone, "type": self.one_type, "codes": self.by_codes}
        return forms.get(group, self.peers)(group, rows)

    def all(self, groups, quick):
        for group in groups:
            rows = rows_of(group, quick)
            yield "### " + TITLES[group]
            yield ""
            yield from self.told(group, rows)
            if group == "join":
                yield from self.looked_up(rows)
            yield ""
        yield "Above what is wanted: %s." % ("; ".join(self.above) if self.above else "nothing of these")


def written(page, text):
    """The page with the text between its markers."""
    before, begin, rest = page.partition(BEGIN + "\n")
    _, end, after = rest.partition(END)
    if not begin or not end:
        sys.exit("table.py: the page has no markers %s and %s" % (BEGIN, END))
    return before + begin + text + end + after


def main():
    words = argparse.ArgumentParser()
    words.add_argument("--quick", action="store_true")
    words.add_argument("--only", default=",".join(GROUPS))
    words.add_argument("--write", type=pathlib.Path)
    words.add_argument("--counted-by", default="")
    words.add_argument("count")
    words.add_argument("driver")
    given = words.parse_args()
    groups = given.only.split(",")
    for group in groups:
        if group not in GROUPS:
            words.error("no such work: %s (there are %s)" % (group, ", ".join(GROUPS)))
    groups = [group for group in GROUPS if group in groups]
    counter = Counter(given.count, given.driver)
    with concurrent.futures.ThreadPoolExecutor(min(2, os.cpu_count() or 1)) as pool:
        list(pool.map(lambda case: counter.check(*case), wanted_checks(groups, given.quick)))
        asked = list(dict.fromkeys(wanted_counts(groups, given.quick)))
        counts = dict(zip(asked, pool.map(lambda case: counter.call(*case), asked)))
    counted_by = ["Counted by %s." % given.counted_by, ""] if given.counted_by else []
    text = "\n".join([*counted_by, *Tables(counts).all(groups, given.quick)]) + "\n"
    print(text, end="")
    if given.write:
        given.write.write_text(written(given.write.read_text(encoding="utf-8"), text), encoding="utf-8")


if __name__ == "__main__":
    main()
