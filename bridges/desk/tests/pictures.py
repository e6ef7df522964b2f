"""Pictures of the page, to be looked at: no test sees whether it looks well."""

from __future__ import annotations

import time
from pathlib import Path

from browser import Browser, BrowserError, installed

from .support import Serving, desk, program

WHATIF = "#v=8&t=2.2&w=%5B%5B%22replace%22%2C2%2C2%2C%22UPDATE%20item%20SET%20qty%20%3D%20qty%20-%202%20WHERE%20id%20%3D%201%22%5D%5D"
INCIDENT = "#v=7&t=3.2&w=%5B%5B%22replace%22%2C3%2C2%2C%22UPDATE%20item%20SET%20qty%20%3D%20qty%20%2B%2010%20WHERE%20id%20%3D%201%22%5D%5D"
# The name of a picture, the history, what is chosen, and a text that is there when all is drawn.
PICTURES = (
    ("desk", "shop", INCIDENT, "would be otherwise"),
    ("whatif", "stock", WHATIF, "would be otherwise"),
    ("row", "stock", "#v=8&row=item/1.1.1", "i1.1.1*u2.2*u3.1"),
    ("question", "stock", "#t=5&q=sum(amount)%20by%20item%20of%20SELECT%20*%20FROM%20sale", "its entries"),
    ("refused", "stock", "#t=5&q=PROVENENCE%20OF%20SELECT%20*%20FROM%20item", "did you mean"),
    ("audit", "stock", "#q=AUDIT", "By session"),
    ("hostile", "hostile", "#t=1&row=note/1.1.1", "from"),
    ("800", "overlapping", "#t=799", "Transaction 799"),
    ("anomalies", "rounds", "#a=4.5", "30 anomalies"),
)


def take_pictures(folder: Path) -> None:
    """All pictures, at two widths and in both schemes."""
    folder.mkdir(parents=True, exist_ok=True)
    with Browser(installed() or "chromium") as browser:
        for name, history, chosen, text in PICTURES:
            if name == "anomalies" and not program().knows("ANOMALIES"):
                continue
            with Serving(desk(history)) as server:
                for dark in (False, True):
                    for width in (1280, 400):
                        browser.scheme(dark)
                        browser.size(width, 900)
                        browser.open(server.address + chosen)
                        _wait(browser, text)
                        browser.picture(folder / f"{name}-{width}{'-dark' if dark else ''}.png")
                if name == "desk":
                    _upper(browser, server.address + chosen, text, folder / "desk.png")
                if name in ("whatif", "audit"):
                    _print(browser, folder / f"{name}-print.png")


def _upper(browser: Browser, address: str, text: str, path: Path) -> None:
    """The picture of the README: the verdict, the timeline, the change, and what it comes to."""
    browser.scheme(False)
    browser.size(1100, 900)
    browser.open(address)
    _wait(browser, text)
    browser.picture(path, "html", "#whatif")


def _print(browser: Browser, path: Path) -> None:
    """The page as it goes on paper, by its rules for print."""
    browser.call("Emulation.setEmulatedMedia", media="print")
    browser.size(718, 900)
    browser.ask("dispatchEvent(new Event('beforeprint'))")
    browser.settle()
    browser.picture(path)
    browser.call("Emulation.setEmulatedMedia", media="")


def _wait(browser: Browser, text: str) -> None:
    end = time.monotonic() + 60
    while not browser.ask(f"document.documentElement.dataset.ready === 'yes' && document.body.innerText.includes({text!r}) && !document.querySelector('.wait')"):
        if time.monotonic() > end:
            raise BrowserError(f"{text} is not there")
        time.sleep(0.1)
    browser.settle()
