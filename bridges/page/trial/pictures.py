"""Pictures of pages, to be looked at: no test sees whether lanes overlap."""

from __future__ import annotations

from pathlib import Path

from browser import Browser

from .pages import Pages
from .scripts import overlapping


def take_pictures(browser: Browser, pages: Pages, folder: Path) -> None:
    folder.mkdir(parents=True, exist_ok=True)
    for name in ("stock", "write-skew", "circle"):
        page = pages.page(pages.dump(name))
        for dark in (False, True):
            browser.scheme(dark)
            browser.open(page, "#life-item-1.1.1" if name == "stock" else "")
            browser.picture(folder / f"{name}{'-dark' if dark else ''}.png")
    browser.scheme(False)
    page = pages.page(pages.dump("stock"))
    browser.size(420, 900)
    browser.open(page)
    browser.picture(folder / "stock-narrow.png")
    browser.size(1200, 1500)
    browser.open(page, script=False)
    browser.picture(folder / "stock-plain.png")
    browser.open(page)
    (folder / "stock.pdf").write_bytes(browser.pdf())
    overlapping_page = pages.page(pages.dump("overlapping", overlapping(800)), "--transactions", "40")
    browser.open(overlapping_page, "#t799")
    browser.picture(folder / "overlapping.png", "#timeline", "#t799")
    (folder / "overlapping.pdf").write_bytes(browser.pdf())
    # The picture of the guide, by what the program itself answers.
    browser.size(1200, 1500)
    browser.open(pages.page(pages.dump("stock")), "#t2")
    browser.ask("location.hash = '#v3'")
    browser.picture(folder / "page.png", "#timeline", ".table")
