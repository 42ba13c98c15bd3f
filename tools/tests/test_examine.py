"""`sitjorbe draw`, the examination: in a real browser by mouse, touch and keys, and what a masked reader sees."""

import csv
import json
import pathlib
import unittest

from page_case import SPOT, SQUARE, STATE, PageCase, Server

EXAM_STATE = "/exam/state"


class Examine(PageCase):
    def setUp(self):
        super().setUp()
        self.draws_square_and_spot()

    def exam(self):
        return self.server.post(EXAM_STATE, {})

    def begins(self):
        self.mode("exam")
        self.browser.wait("return !document.getElementById('exam').hidden")
        return self.exam()

    def enters(self, words):
        box = "document.getElementById('entry-said')"
        before = self.run_(f"{box}.textContent = ''; return true")
        self.assertTrue(before)
        self.browser.press(*words, "Enter")
        return self.browser.wait(f"return {box}.textContent")

    def tally(self):
        rows = self.run_("return [...document.querySelectorAll('#tally tr')].map((row) => [row.children[0].textContent, row.children[1].textContent])")
        return dict(rows)

    def simulates(self):
        self.run_("document.getElementById('answer-all').closest('details').open = true")
        self.browser.click("#answer-all")
        self.waits_for_words("#entry-said", "simulated patient answered")

    # ---- thresholds

    def test_thresholds_by_keys(self):
        exam = self.begins()
        first = exam["next"]
        self.assertIn(f"Next: node {first} at", self.text("#entry-node"))
        self.assertIn("entered", self.enters("28.5"))
        exam = self.exam()
        self.assertEqual(exam["thresholds"][first], 285)
        self.assertNotEqual(exam["next"], first)
        self.assertIn(f"Next: node {exam['next']} at", self.text("#entry-node"))
        quad = exam["quads"][exam["order"][0]]
        for _ in range(3):
            self.enters("30")
        exam = self.exam()
        self.assertEqual([exam["thresholds"][node] for node in quad].count(300), 3)
        self.assertEqual((exam["count"], exam["sum"]), (1, 1185))
        tally = self.tally()
        self.assertEqual(tally["Sum of their thresholds"], "118.5 dB")
        self.assertTrue(tally["Quads with all four"].startswith("1 of "))
        self.assertTrue(self.run_("return document.querySelectorAll('#exam-shades path.shade').length > 0"), "the field is shaded as it fills")

    def test_what_isnt_a_threshold_is_said(self):
        self.begins()
        self.assertIn("decibels from 0 to 50, with one decimal at most", self.enters("3.25"))
        self.run_("document.getElementById('decibels').value = ''")
        self.assertIn("Refused (16)", self.enters("50.1"))
        self.assertEqual(self.exam()["tested"], 0)
        self.run_("document.getElementById('decibels').value = ''")
        self.enters("50,0")
        self.assertEqual(self.exam()["sum"] + self.exam()["tested"], 1, "a decimal comma will do")

    def test_blinked_and_undone(self):
        exam = self.begins()
        first = exam["next"]
        self.enters("20")
        self.run_("document.activeElement.blur()")
        self.press_node(exam["nodes"][first])
        self.browser.click("#blinked")
        self.waits_for_words("#entry-said", "is withdrawn")
        self.assertEqual(self.exam()["tested"], 0)
        self.browser.click("#undo-entry")
        self.waits_for_words("#entry-said", "taken back, 20 dB stand again")
        self.assertEqual(self.exam()["thresholds"][first], 200)
        self.browser.click("#undo-entry")
        self.waits_for_words("#entry-said", "taken back")
        self.browser.wait("return document.getElementById('undo-entry').disabled")
        self.assertEqual([event["kind"] for event in self.saved_exam()["desk"]["events"]], ["entered", "withdrawn", "undone", "undone"])

    def press_node(self, node, kind="mouse"):
        self.press_at(node, kind=kind)

    def saved_exam(self):
        return json.loads(self.server.post("/exam/save", {"exam": self.exam()["id"]})["json"])

    def test_blinked_withdraws_the_last_one_that_was_entered(self):
        first = self.begins()["next"]
        self.enters("20")
        self.browser.click("#blinked")
        self.waits_for_words("#entry-said", f"Node {first}: its threshold is withdrawn")
        self.assertEqual(self.exam()["next"], first)

    def test_a_node_is_picked_and_the_scale_is_pressed_by_touch(self):
        exam = self.begins()
        node = exam["quads"][5][2]
        self.press_node(exam["nodes"][node], kind="touch")
        self.waits_for_words("#entry-node", f"Node {node} at")
        self.run_("document.getElementById('scale').scrollIntoView({ block: 'center' })")
        left, top, width, height = self.run_("const { left, top, width, height } = document.getElementById('scale').getBoundingClientRect(); return [left, top, width, height]")
        self.browser.pointer((left + width / 2, top + height / 2), "down", (left + 0.6 * width, top + height / 2), "up", kind="touch")
        self.waits_for_words("#entry-said", f"Node {node}: 30 dB entered")
        self.assertEqual(self.exam()["thresholds"][node], 300)

    def test_the_keyboard_alone(self):
        self.run_("document.querySelector('#modes [value=move]').focus()")
        self.browser.press("Right", "Right", "Right")
        self.browser.wait("return !document.getElementById('exam').hidden")
        exam = self.exam()
        self.run_("document.getElementById('surface').focus()")
        self.browser.press("Tab")
        in_turn = list(dict.fromkeys(node for quad in exam["order"] for node in exam["quads"][quad]))
        self.waits_for_words("#entry-node", f"Node {in_turn[1]} at")
        self.assertIn("entered", self.enters("31"))
        self.assertEqual(self.exam()["thresholds"][in_turn[1]], 310)
        self.browser.press("Control+z")
        self.browser.wait("return document.getElementById('undo-entry').disabled")

    # ---- seen

    def test_the_estimate_under_the_pointer(self):
        self.begins()
        self.simulates()
        exam = self.exam()
        corners = exam["quads"][3]
        middle = [sum(exam["nodes"][node][axis] for node in corners) / 4 for axis in (0, 1)]
        self.browser.pointer(self.at(*middle))
        said = self.waits_for_words("#estimate-said", "dB is estimated at weights")
        self.assertTrue(said.startswith("Quad 3: "))
        for node in corners:
            self.assertIn(f"node {node} ", said)
        self.browser.pointer(self.at(4, 0))
        self.waits_for_words("#estimate-said", "No quad lies there")

    def test_shades_numbers_and_the_hill(self):
        exam = self.begins()
        self.simulates()
        self.assertGreater(len(self.run_("return document.querySelector('#exam-shades .contour').getAttribute('d')")), 20)
        self.browser.click("#looks [value=numbers]")
        numbers = self.run_("return [...document.querySelectorAll('#exam-marks .decibels')].map((text) => text.textContent)")
        exam = self.exam()
        corners = {node for quad in exam["quads"] for node in quad}
        self.assertEqual(sorted(map(float, numbers)), sorted(exam["thresholds"][node] / 10 for node in corners))
        self.browser.click("#looks [value=hill]")
        look = "const c = document.getElementById('hill'); return c.hidden ? null : c.toDataURL()"
        before = self.run_(look)
        self.assertIsNotNone(before)
        self.run_("document.getElementById('hill').focus()")
        self.browser.press("Right")
        after = self.run_(look)
        self.assertNotEqual(before, after, "it is turned by keys")
        x, y = self.run_("const { left, top } = document.getElementById('hill').getBoundingClientRect(); return [left + 200, top + 200]")
        self.browser.pointer((x, y), "down", (x + 60, y + 10), "up", kind="touch")
        self.assertNotEqual(self.run_(look), after, "it is turned by a finger")

    def test_simulated_thresholds_are_marked_everywhere(self):
        self.begins()
        self.assertEqual(self.run_("return document.querySelectorAll('.simulated-mark').length"), 0)
        self.simulates()
        self.assertIn("SIMULATED patient: seed 1", self.text("#simulated"))
        self.assertEqual(self.text(".simulated-mark"), "SIMULATED")
        for button, name in (("#save-exam", "field.simulated.exam.json"), ("#save-thresholds", "field.simulated.thresholds.csv"), ("#save-hill", "field.simulated.hill.svg")):
            self.browser.click(button)
            self.assertIn("SIMULATED", self.saved(name).read_text(), name)

    # ---- order, bowl, books

    def test_the_order(self):
        exam = self.begins()
        self.run_("document.getElementById('order-centre').closest('details').open = true")
        self.browser.click("#order-centre")
        self.waits_for_words("#order-now", "from the centre outwards")
        self.assertNotEqual(self.exam()["order"], exam["order"])
        self.browser.click("#order-press")
        self.press_at((8, 8))
        self.waits_for_words("#order-now", "from 8.0°, 8.0° outwards")
        wrong = pathlib.Path(self.browser.folder.name, "order.txt")
        wrong.write_text(" ".join(str(quad) for quad in reversed(range(len(exam["quads"])))))
        self.browser.type("#open-order", str(wrong))
        self.assertIn("which it waits for", self.waits_for_words("#order-said", "Refused (22)"))
        wrong.write_text(" ".join(str(quad) for quad in range(1, len(exam["quads"]))))
        self.browser.type("#open-order", str(wrong))
        self.assertIn("quad 0 is missing", self.waits_for_words("#order-said", "Refused (21)"))
        self.browser.click("#order-placed")
        self.waits_for_words("#order-now", "as placed")
        self.run_("const s = document.getElementById('quad-numbers'); s.value = 'quads'; s.dispatchEvent(new Event('change'))")
        numbers = self.run_("return [...document.querySelectorAll('#exam-marks .quad-number')].map((text) => Number(text.textContent))")
        self.assertEqual(numbers, exam["order"])

    def test_the_bowl_and_the_books(self):
        self.begins()
        self.run_("for (const one of document.querySelectorAll('#exam details')) one.open = true")
        self.browser.click("#show-bowl")
        self.waits_for_words("#bowl-said", "Every quad can be shown")
        self.assertTrue(self.run_("return document.querySelector('#exam-shades .bowl').getAttribute('d').length > 0"))
        self.browser.click("#save-steps")
        rows = list(csv.reader(row for row in self.saved("field.steps.csv").read_text().splitlines() if not row.startswith("#")))
        self.assertEqual(rows[0], ["node", "steps_x", "steps_y", "x", "y"])
        told = self.waits_for_words("#exam-books", "edge by edge")
        self.assertEqual(told.count("balances ✓"), 3, told)

    # ---- kept, opened, left

    def test_an_exam_is_saved_loaded_and_opened(self):
        self.begins()
        self.enters("25")
        self.simulates()
        before = self.exam()
        self.browser.click("#save-exam")
        saved = self.saved("field.simulated.exam.json")
        self.browser.click("#save-thresholds")
        table = self.saved("field.simulated.thresholds.csv")
        self.browser.reload()
        self.browser.wait("return !document.getElementById('exam').hidden")
        self.assertEqual(self.exam(), before, "a reload goes on with it")
        self.browser.click("#end-exam")
        self.waits_for_words("#verdict", "is paved")
        self.begins()
        self.browser.type("#open-thresholds", str(table))
        self.waits_for_words("#entry-said", "thresholds are entered")
        self.assertEqual(self.exam()["thresholds"], before["thresholds"])
        self.browser.click("#end-exam")
        self.browser.wait("return document.getElementById('ask').open")
        self.browser.click("#ask-yes")
        self.waits_for_words("#verdict", "is paved")
        self.browser.click("#clear")
        self.browser.type("#open", str(saved))
        self.browser.wait("return !document.getElementById('exam').hidden")
        after = self.exam()
        for part in ("thresholds", "order", "quads", "count", "sum", "simulated", "title"):
            self.assertEqual(after[part], before[part], part)
        self.assertEqual(self.loops(), [SQUARE, SPOT])

    def test_going_back_asks_first(self):
        self.begins()
        self.enters("25")
        self.mode("move")
        self.browser.wait("return document.getElementById('ask').open")
        self.browser.click("#ask-no")
        self.assertEqual(self.exam()["tested"], 1)
        self.browser.wait("return document.querySelector('#modes [value=exam]').checked")
        self.assertTrue(self.run_("return document.getElementById('settings').hidden"), "the mesh is fixed")
        self.mode("move")
        self.browser.wait("return document.getElementById('ask').open")
        self.browser.click("#ask-yes")
        self.browser.wait("return document.getElementById('exam').hidden")
        self.assertEqual(self.exam(), {"begun": False})

    # ---- the masked reader, and looks

    def test_a_masked_reader_sees_the_mesh_alone(self):
        self.begins()
        self.simulates()
        exam = self.exam()
        self.browser.go(self.server.url + "masked")
        self.waits_for_words("#tally", f"Quads{len(exam['quads'])}")
        page = self.run_("return document.documentElement.outerHTML")
        self.assertNotIn("dB", page)
        self.assertNotIn("SIMULATED", page)
        self.run_("const box = document.getElementById('quad'); box.value = 3; box.dispatchEvent(new Event('input'))")
        self.assertIn(f"Node {exam['quads'][3][0]}, of loop", self.text("#corners"))
        self.browser.go(self.server.url)

    def test_nothing_is_cut_off(self):
        self.begins()
        self.run_("for (const one of document.querySelectorAll('#exam details')) one.open = true")
        self.simulates()
        for width in (1280, 640, 400, 320):
            self.browser.chrome("Emulation.setDeviceMetricsOverride", width=width, height=800, deviceScaleFactor=1, mobile=False)
            self.assertLessEqual(self.run_("return document.documentElement.scrollWidth"), width)
            wide = """return [...document.querySelectorAll('main :not(.unseen)')].filter((one) => one.clientWidth > 1 && one.scrollWidth > one.clientWidth + 1
              && one.tagName !== 'INPUT').map((one) => one.outerHTML)"""
            self.assertEqual(self.run_(wide), [], width)
        self.browser.chrome("Emulation.clearDeviceMetricsOverride")

    def test_every_control_has_a_name(self):
        self.begins()
        nameless = """return [...document.querySelectorAll('button, input, select, [tabindex], canvas')].filter((one) =>
          !(one.textContent.trim() && one.tagName === 'BUTTON') && !one.labels?.length && !one.getAttribute('aria-label')).map((one) => one.outerHTML)"""
        self.assertEqual(self.run_(nameless), [])


if __name__ == "__main__":
    unittest.main()
