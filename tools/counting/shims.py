#!/usr/bin/env python3
"""Fits the laid-out shims of the oracle (never the Rust's own files) to counting, so that the Rust is not charged for them.

    shims.py SRC ROWS       SRC: the folder src/ that oracle/build --files made; ROWS: rows.rs

A width is one index of a lent vector, a category one index of a table, a font's map is searched by halving, a plan is made without a copy of its bytes, and
there are rule rows for the plan of three sizes.
"""
import pathlib
import sys

CHANGES = {
    "lib.rs": [
        ("    pub struct Font {", "    pub struct Font {\n        pub wide: Vec<i32>,"),
        ("self.font.widths.get(&g.to_u32()).copied().unwrap_or(0)", "self.font.wide.get(g.to_u32() as usize).copied().unwrap_or(0)"),
        (
            "self.font.cmap.iter().find(|e| e.0 == c).map(|e| GlyphId::new(e.1))",
            "self.font.cmap.binary_search_by_key(&c, |e| e.0).ok().map(|i| GlyphId::new(self.font.cmap[i].1))",
        ),
    ],
    "unicode/ucd_table.rs": [
        ("LENT_GC.with(|m| { let m = m.borrow(); if m.is_empty() { None } else { m.get(&(u as u32)).copied() } })", ""),
        (".unwrap_or_else(|| GC.get(u).copied().unwrap_or(2))", "GC.get(u).copied().unwrap_or(2)"),
    ],
    "ot/shaper/mod.rs": [
        ("    pub plan: fn(&ShapePlan, &ShaperFont<'_, '_>) -> Option<Vec<(u32, Vec<u8>)>>,", "    pub plan: fn(&ShapePlan, &ShaperFont<'_, '_>) -> Option<Vec<(u32, Vec<u8>)>>,\n    pub made: fn(&ShapePlan, &ShaperFont<'_, '_>) -> bool,"),
    ],
    "ot/shaper/fallback_probe.rs": [
        ("marks: LIGATURE_MARK_TABLE, plan };", "marks: LIGATURE_MARK_TABLE, plan, made };"),
        ("    /// the plan, with the rule rows", "    pub fn made(p: &ShapePlan, f: &ShaperFont<'_, '_>) -> bool { core::hint::black_box(FallbackPlan::new(p, f)).is_some() }\n    /// the plan, with the rule rows"),
    ],
}


def main(src, rows):
    src = pathlib.Path(src)
    for name, changes in CHANGES.items():
        text = (src / name).read_text(encoding="utf-8")
        for old, new in changes:
            if text.count(old) != 1:
                sys.exit("shims.py: %s is not as expected: %r stands there %d times" % (name, old, text.count(old)))
            text = text.replace(old, new)
        (src / name).write_text(text, encoding="utf-8")
    alt = src / "ot/shaper/alt.rs"
    alt.write_text(alt.read_text(encoding="utf-8") + pathlib.Path(rows).read_text(encoding="utf-8"), encoding="utf-8")


if __name__ == "__main__":
    main(*sys.argv[1:])
