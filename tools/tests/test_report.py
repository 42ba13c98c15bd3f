"""The report of an examination, printed by a browser: one sheet of A4 and of Letter, with nothing cut off."""

import os
import pathlib
import shutil
import subprocess
import tempfile
import unittest

from common import ROOT, run

COMMAND = ROOT / "host/target/release/sitjorbe"


def missing():
    return [name for name in ("chromium", "pdfinfo", "pdftotext") if not shutil.which(name)]


@unittest.skipUnless(os.access(COMMAND, os.X_OK), "the command isn't built")
@unittest.skipIf(missing(), f"there is no {' and no '.join(missing())} here")
class Printed(unittest.TestCase):
    def setUp(self):
        holder = tempfile.TemporaryDirectory()
        self.addCleanup(holder.cleanup)
        self.folder = pathlib.Path(holder.name)

    def report(self, field, size, *words):
        """A report in which every node has 20 dB."""
        mesh, thresholds, report = (self.folder / name for name in ("mesh.json", "t.csv", "report.html"))
        self.assertEqual(run(COMMAND, "pave", field, "--size", size, "--eye", "right", *words, "-o", mesh, "-o", thresholds)[0], 0)
        lines = thresholds.read_text().split("\n")
        head = lines[1].split(",").index("threshold_dB")
        rows = [line.split(",") for line in lines[2:] if line]
        thresholds.write_text("\n".join(lines[:2] + [",".join([*row[:head], "20", *row[head + 1:]]) for row in rows]) + "\n")
        status, _, said = run(COMMAND, "exam", mesh, "--thresholds", thresholds, "-o", report)
        self.assertEqual(status, 0, said)
        return report.read_text()

    def printed(self, html, paper):
        """How many pages it has on a paper, and their text."""
        page, pdf = self.folder / "page.html", self.folder / "page.pdf"
        page.write_text(html.replace("@page{", f"@page{{size:{paper};"))
        words = ["chromium", "--headless", "--no-sandbox", "--disable-gpu", "--no-pdf-header-footer", f"--print-to-pdf={pdf}", page]
        subprocess.run(list(map(str, words)), check=True, capture_output=True, timeout=120)
        told = subprocess.run(["pdfinfo", pdf], check=True, capture_output=True, text=True).stdout
        pages = int(next(line for line in told.splitlines() if line.startswith("Pages:")).split()[1])
        return pages, subprocess.run(["pdftotext", pdf, "-"], check=True, capture_output=True, text=True).stdout

    def test_one_sheet(self):
        for field, size, *words in (("24-2", "3"), ("right-eye", "3.6"), ("left-eye", "4", "--close"), ("hand-drawn", "3.5", "--title", "A long title " * 8)):
            html = self.report(ROOT / f"examples/{field}.csv", size, *words)
            for paper in ("A4", "letter"):
                pages, text = self.printed(html, paper)
                self.assertEqual(pages, 1, f"{field} on {paper}")
                for words_there in ("Measured", "Field, mesh and settings", "Order", "nasal", "temporal"):
                    self.assertIn(words_there, text, f"{field} on {paper}")
                self.assertGreaterEqual(text.count("superior"), 2, "both figures")
                self.assertIn("was not measured.", " ".join(text.split()))


if __name__ == "__main__":
    unittest.main()
