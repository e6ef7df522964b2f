"""The clicks of the tests themselves: they wait for an element, and reach no other one, whatever the page does meanwhile."""

from __future__ import annotations

import unittest
from pathlib import Path

from browser import Browser, BrowserError, installed

from .support import written

# Counts the clicks that reach the button, and those that reach anything else.
PAGE = """<!doctype html><title>clicks</title><body style="margin: 0"><div id="above"></div><div id="here"></div>
<button id="other" style="display: block">other</button><div style="height: 3000px"></div><script>
const counts = { mine: 0, others: 0 };
const above = document.getElementById("above"), here = document.getElementById("here");
document.addEventListener("click", (event) => { counts[event.target.id === "mine" ? "mine" : "others"] += 1; });
const draw = () => { here.innerHTML = '<button id="mine" style="display: block">mine</button>'; };
SCRIPT
</script>"""


@unittest.skipUnless(installed(), "the page in a browser, since Chromium is not installed")
class Clicks(unittest.TestCase):
    browser: Browser

    @classmethod
    def setUpClass(cls) -> None:
        cls.browser = Browser(installed() or "")

    @classmethod
    def tearDownClass(cls) -> None:
        cls.browser.__exit__()

    def page(self, script: str) -> Path:
        return written("clicks.html", PAGE.replace("SCRIPT", script))

    def clicked(self, script: str) -> None:
        self.browser.open(self.page(script))
        self.browser.click("#mine")
        self.assertEqual(self.browser.ask("[counts.mine, counts.others]"), [1, 0])

    def test_it_waits_until_the_element_is_there(self) -> None:
        self.clicked("setTimeout(draw, 400);")

    def test_it_waits_until_the_element_is_still(self) -> None:
        self.clicked("draw(); let frames = 0; const grow = () => { above.style.height = 7 * ++frames + 'px'; if (frames < 60) requestAnimationFrame(grow); }; grow();")

    def test_it_waits_until_the_element_is_in_front(self) -> None:
        cover = "above.style.cssText = 'position: fixed; inset: 0; background: white'"
        self.clicked(f"draw(); {cover}; setTimeout(() => {{ above.style.cssText = ''; }}, 400);")

    def test_a_click_that_would_meet_something_else_is_made_again(self) -> None:
        # The element moves, or is another one, when the mouse goes down.
        for change in ("above.style.height = '90px'", "draw()", "here.replaceChildren(), setTimeout(draw, 300)"):
            with self.subTest(change=change):
                self.clicked(f"draw(); window.addEventListener('pointerdown', () => {{ {change}; }}, {{ capture: true, once: true }});")

    def test_what_never_comes_is_said(self) -> None:
        self.browser.open(self.page(""))
        with self.assertRaisesRegex(BrowserError, "#mine could not be clicked: it is not there"):
            self.browser.click("#mine", seconds=0.3)
        with self.assertRaisesRegex(BrowserError, "not so after 0 s"):
            self.browser.until("false", seconds=0.3)

    def test_a_field_is_filled_anew(self) -> None:
        self.browser.open(self.page("setTimeout(() => { here.innerHTML = '<textarea>before</textarea>'; }, 400);"))
        self.browser.fill("textarea", "behind")
        self.assertEqual(self.browser.ask("document.querySelector('textarea').value"), "behind")


if __name__ == "__main__":
    unittest.main()
