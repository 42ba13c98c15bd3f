"""The nine forms that the code keeps whatever newer form would serve as well: each by its file and its words, as docs/DECISIONS.md lists them."""

import re
import unittest

from common import ROOT

# What stands where: a file of a crate, and patterns that each find something in it.
FORMS = {
    "a field record is a struct by value, its values and marks lent beside it": {
        "crates/field_direction/src/lib.rt": [
            r"derive\(Clone, Copy\)\]\npub struct Grid \{\n    pub xmin: f64,\n    pub ymin: f64,\n    pub h: f64,\n    pub nx: usize,\n    pub ny: usize,\n\}",
            r"pub fn check_record\(field: CrossField<'_>, marks: &\[u8\]\)"],
    },
    "a function with a lifetime hands out a loop's points, of one of two slices": {
        "crates/outline_loops/src/lib.rt": [r"pub fn loop_points<'a>\(domain: Domain<'a>, k: usize, start: usize\) -> &'a \[f64\]",
                                       r"points: loop_points\(domain, index, start\)"],
    },
    "a quad's corners are tested in floats with sin 20°, and rounding is carried to whole-number coordinates": {
        "crates/geometry/src/lib.rt": [r"pub fn convex_ccw\(", r"sine <= Settings::LEAST_SINE"],
        "crates/exact/proofs/Sine.antt": [r"pub sine_theorem :"],
    },
    "the corner and neighbour answers are taken apart by let .. else, and a refusal leaves the attempt": {
        "crates/paving_attempts/src/lib.rt": [r"let Some\(far\) = far_corners\([^;]*\) else \{\s*return None;", r"let Some\(v\) = neighbour else \{\s*return fresh;"],
    },
    "a host calls extern \"C\" entries on numbers and slices": {
        "crates/run_mesher/src/lib.rt": [r"pub extern \"C\" fn sitjorbe_pave"],
        "crates/sitjorbe/src/paving_run.rt": [r"pub extern \"C\" fn sitjorbe_pave"],
    },
    "a far corner is a front node that is reused, or a new point with its two coordinates": {
        "crates/front/src/lib.rt": [r"pub enum Corner \{\n    Reused\(u32\),\n    Fresh\(f64, f64\),\n\}"],
        "crates/paving_attempts/src/lib.rt": [r"c: Corner\b"],
    },
    "the segments' pairs are nested loops, left by label at the first that meet": {
        "crates/outline_soundness/src/lib.rt": [r"'pairs: for i in 0\.\.self\.len\(\) \{\s*for j in 0\.\.i \{", r"break 'pairs;"],
    },
    "limits and factors are associated constants of the settings": {
        "crates/outline/src/lib.rt": [rf"impl Settings \{{[^}}]*\bconst {name}: \w+ = {value};" for name, value in (
            ("REUSE", r"0\.35"), ("CLEARANCE", r"0\.45"), ("STRETCH", r"1\.05"), ("BAND", r"1\.5"), ("MOST_PASSES", "600"), ("MOST_SWEEPS", "1000"),
            ("MOST_QUADS", "250000"), ("MOST_NODES", "4294967294"), ("GROWTH", r"1\.25"), ("MOST_GROWTHS", "64"), ("QUIET", r"1\.0e-7"))],
        "crates/front/src/lib.rt": [r"Settings::MOST_NODES"],
        "crates/field_cross/src/lib.rt": [r"Settings::MOST_GROWTHS", r"Settings::GROWTH"],
        "crates/field_sweeps/src/lib.rt": [r"Settings::QUIET"],
    },
    "the front's counts are a struct by value, whose method gives back the counts after a quad": {
        "crates/front/src/lib.rt": [r"impl Counts \{[^}]*pub fn with_quad\(self, far: FarCorners, edges: usize\) -> Counts", r"self\.counts = k\.with_quad\("],
    },
}


class Forms(unittest.TestCase):
    def test_each_stands_where_it_is_named(self):
        for form, files in FORMS.items():
            for file, patterns in files.items():
                text = (ROOT / file).read_text()
                for pattern in patterns:
                    with self.subTest(form=form, file=file, pattern=pattern):
                        self.assertRegex(text, pattern)

    def test_each_file_is_named_in_the_decisions(self):
        told = (ROOT / "docs/DECISIONS.md").read_text()
        for form, files in FORMS.items():
            for file in files:
                with self.subTest(form=form, file=file):
                    self.assertIn(f"`{file}`", told)


if __name__ == "__main__":
    unittest.main()
