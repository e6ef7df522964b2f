"""The checks of the test. Each gives names and faults, an empty fault where all is well."""

from __future__ import annotations

import json
import math
import re
import time
from collections.abc import Iterator
from pathlib import Path

from browser import MOST_WAITING, Browser

from .cases import ANOMALIES, CASES, CYCLES, SEEN
from .pages import Pages
from .scripts import large, overlapping

Faults = Iterator[tuple[str, str]]

# The processor time in seconds that a page may take, and that its opening may take in the browser.
MOST_MAKING, MOST_OPENING = 5.0, 2.0


def seen(browser: Browser, selector: str) -> str:
    """The texts of the elements that a reader sees, with single blanks."""
    text = browser.ask(
        f"[...document.querySelectorAll({json.dumps(selector)})].filter((it) => it.checkVisibility({{ contentVisibilityAuto: true }}))"
        ".map((it) => it.innerText || it.textContent).join(' ')"
    )
    return re.sub(r"\s+", " ", text).strip()


def lacks(browser: Browser, *expected: tuple[str, str]) -> str:
    """What the page lacks of these texts. What a click changes comes a little later, on a busy machine by seconds."""
    until = time.monotonic() + MOST_WAITING
    while fault := next(_lacking(browser, expected), ""):
        if time.monotonic() > until:
            return fault
        time.sleep(0.1)
    return ""


def _lacking(browser: Browser, expected: tuple[tuple[str, str], ...]) -> Iterator[str]:
    for selector, text in expected:
        found = seen(browser, selector)
        if text not in found:
            yield f"{selector} lacks {text!r}: {found[:600]!r}"


def noise(browser: Browser) -> str:
    """What no page may do: write to the console, load anything else, run or build what a text holds."""
    loaded = [it for it in browser.loads if not it.startswith("file:")] + browser.loads[1:]
    strange = browser.ask("document.querySelectorAll('img, iframe, script ~ script, body script, h1 ~ h1, main h1, svg svg:not(.strip svg)').length")
    handlers = browser.ask("[...document.querySelectorAll('*')].some((it) => [...it.attributes].some((one) => one.name.startsWith('on')))")
    if browser.messages:
        return f"console: {browser.messages[0]}"
    return f"loads {loaded[0]}" if loaded else "an element too many" if strange else "a handler" if handlers else ""


def every_example_opens(browser: Browser, pages: Pages) -> Faults:
    """Each example has its first transaction and its versions on its page."""
    for name in pages.examples():
        browser.open(pages.page(pages.dump(name)), "#t1")
        fault = noise(browser) or lacks(browser, ("#t1", "Transaction 1"), ("[aria-labelledby=verdicts]", "The rows are what the lines make"))
        last = browser.ask("Number(document.getElementById('version').max)")
        versions = browser.ask("document.querySelectorAll('svg .version').length")
        yield f"{name} opens", fault or ("" if versions == last else f"{versions} lines for {last} versions")


def texts_are_there(browser: Browser, pages: Pages) -> Faults:
    for case in [*CASES, *(ANOMALIES if pages.knows_anomalies() else CYCLES)]:
        title = ("--title", "<i>hostile</i>") if case.script == "hostile" else ()
        browser.open(pages.page(pages.dump(case.script), *title), case.chosen)
        fault = noise(browser) or lacks(browser, *case.expected)
        if case.script == "hostile":
            fault = fault or lacks(browser, ("h1", "<i>hostile</i>"))
        yield f"{case.script} {case.chosen}", fault


def policy_stops_other_scripts(browser: Browser, pages: Pages) -> Faults:
    """Were a text ever written into the page as it is, the page's policy would not let it run."""
    page = pages.page(pages.dump("pay"))
    bad = page.with_name("unescaped.html")
    texts = "<script>document.title = 'RAN'</script><p onclick=\"document.title = 'RAN'\">here</p><img src=\"http://127.0.0.1:9/x.png\"></main>"
    bad.write_text(page.read_text(encoding="utf-8").replace("</main>", texts), encoding="utf-8")
    browser.open(bad)
    browser.click("main p[onclick]")
    stopped = sum("Content Security Policy" in message for message in browser.messages)
    ran = browser.ask("document.title") == "RAN"
    yield "the policy stops other scripts", "a script ran" if ran else "" if stopped >= 3 else f"{stopped} of 3 were stopped"


def mouse_chooses(browser: Browser, pages: Pages) -> Faults:
    browser.open(pages.page(pages.dump("stock")))
    browser.click("a.tx[data-t='6'] .name")
    fault = lacks(browser, ("#t6", "committed as 5")) or ("two are chosen" if seen(browser, "#t2") else "")
    yield "a click chooses a transaction", fault
    browser.click("svg .version[data-v='3'] text")
    yield "a click chooses a version", lacks(browser, ("#at", "v3"), (SEEN, "• written 2.3.1(1.1.1) 1 2 500 v3 to now"))
    browser.click("tr:not(.out) a.id[href='#life-item-1.1.1']")
    yield "a click chooses a row", lacks(browser, (".life", "v3 2.2 1, 'Rope', 36, 250 → 1, 'Rope', 38, 250 i1.1.1*u2.2*u3.1"))
    browser.click(".life.chosen a[href='#t3-1']")
    yield "a token leads to its statement", lacks(browser, ("#t3-1", "UPDATE item SET qty = (qty - 4)")) or noise(browser)


def an_anomaly_chooses(browser: Browser, pages: Pages) -> Faults:
    """Its arrows, its transactions and its steps are shown, and those of no other one."""
    if not pages.knows_anomalies():
        return
    browser.open(pages.page(pages.dump("anomalies")))
    picked = "[...document.querySelectorAll('g.arrow')].filter((it) => getComputedStyle(it).display !== 'none').map((it) => it.dataset.a).join()"
    marked = "[...document.querySelectorAll('.box.of')].map((it) => it.dataset.t).join()"
    first = browser.ask(picked), browser.ask(marked)
    browser.click("#a4-5 .name")
    fault = lacks(browser, ("#t4", "Transaction 4"), ("#a4-5 .cycle", "5.1 read acct 1.1.3 at 3, 4 wrote it as 4"))
    second = browser.ask(picked), browser.ask(marked)
    yield "an anomaly chooses its arrows and transactions", fault or ("" if (first, second) == (("2,3", "2,3"), ("4,5", "4,5")) else f"{first}, {second}")
    browser.click("#t4 .met a")
    yield "a transaction leads to its anomalies", lacks(browser, (".anomaly.chosen", "Write skew")) or noise(browser)
    browser.open(pages.page(pages.dump("anomalies")), script=False)
    yield "without JavaScript all steps are there", lacks(browser, ("#a4-5 .cycle", "5.1 read acct 1.1.3"), ("#a2-3 .cycle", "2.1 read acct 1.1.1"))


def keys_choose(browser: Browser, pages: Pages) -> Faults:
    browser.open(pages.page(pages.dump("stock")))
    browser.ask("document.querySelector('.timeline a[tabindex=\"0\"]').focus()")
    at = "document.activeElement.getAttribute('data-t') || document.activeElement.id"
    first = browser.ask(at)
    browser.press("ArrowRight")
    right = browser.ask(at)
    browser.press("ArrowDown", "Home")
    down = browser.ask(at)
    yield "arrow keys lead from box to box", "" if (first, right, down) == ("2", "4", "3") else f"{first}, {right}, {down}"
    browser.press("Enter")
    yield "Enter chooses", lacks(browser, ("#t3", "committed as 2")) or ("" if browser.ask(at) == "t3" else browser.ask(at))
    browser.press("Escape")
    yield "Escape goes back", "" if browser.ask(at) == "3" else browser.ask(at)
    browser.ask("document.getElementById('version').focus()")
    browser.press("Home", "ArrowRight", "ArrowRight")
    yield "keys choose a version", lacks(browser, ("#at", "v2"), (SEEN, "• written 1.1.1 1 'Rope' 36 250 v2 to v3"))
    stops = browser.ask("document.querySelectorAll('a.tx[tabindex=\"0\"]').length")
    yield "one box is a stop of the Tab key", "" if stops == 1 else str(stops)


def all_is_there_without_script(browser: Browser, pages: Pages) -> Faults:
    browser.open(pages.page(pages.dump("stock")), script=False)
    sections = browser.ask("[...document.querySelectorAll('.one, .rows tbody tr')].every((it) => it.checkVisibility())")
    fault = lacks(browser, ("#t9", "9.2 INSERT INTO list SELECT"), (SEEN, "1.1.1 1 'Rope' 40 250 v1 to v2"))
    yield "without JavaScript nothing is hidden", fault or ("" if sections else "a part is hidden")
    browser.open(pages.page(pages.dump("stock")))


def lanes_are_lists(browser: Browser, pages: Pages) -> Faults:
    browser.open(pages.page(pages.dump("stock")))
    spoken = browser.spoken()
    wanted = [
        ("list", "session 3"),
        ("link", "transaction 5, READ COMMITTED, begun at version 3, 2 statements, lost"),
        ("heading", "Verdicts"),
        ("heading", "Timeline"),
        ("region", "item"),
        ("slider", "Version"),
        ("columnheader", "qty"),
    ]
    missing = [it for it in wanted if not any(role == it[0] and it[1] in name for role, name in spoken)]
    yield "a screen reader is given lists and names", f"{missing[0]} is not there" if missing else ""


def people_are_there(browser: Browser, pages: Pages) -> Faults:
    """Who it was, by the file beside the dump or a named one. Its texts stay texts, too."""
    dump = pages.copy("stock", "known")
    rows = ["transaction\tuser\tapplication\tclient\tbegin\tend\tline", "3\tmia\t<b>till</b>\t[local]\t2026-12-01 10:00:00.123000\t2026-12-01 10:00:01.456789\t7"]
    beside = dump.with_suffix(".people")
    beside.write_text("".join(f"{row}\n" for row in rows), encoding="utf-8")
    browser.open(pages.page(dump), "#t3")
    words = "mia with <b>till</b>; from [local]; 2026-12-01 10:00:00.123 to 10:00:01.456789 UTC; line 7 of the server's log"
    fault = lacks(browser, ("#t3 .who", f"{words}."), ("#names .user", "mia")) or noise(browser)
    title = browser.ask("document.querySelector(\".tx[data-t='3'] title\").textContent")
    yield "who it was, in the timeline", "" if title.endswith(f"; {words}") else title
    others = browser.ask("document.querySelectorAll('.who').length")
    yield "who it was", fault or ("" if others == 1 else f"{others} transactions have a user")
    named = beside.rename(beside.with_name("elsewhere"))
    browser.open(pages.page(dump, "--people", str(named)), "#t3")
    yield "who it was, by a file that is named", lacks(browser, ("#t3 .who", words))
    browser.open(pages.page(pages.dump("stock")))
    wide = browser.ask("document.getElementById('names').viewBox.baseVal.width")
    yield "a page without users is as it was", "" if wide == 58 and not browser.ask("document.querySelectorAll('.who, .user').length") else f"names of {wide}"
    named.write_text("transaction\n3\n", encoding="utf-8")
    done = pages.make(dump, "--people", str(named))
    yield "a file that is no such one", "" if done.returncode == 2 and b"is no file of convert" in done.stderr and not done.stdout else f"{done.returncode} {done.stderr!r}"


def forged_dumps_are_called_so(browser: Browser, pages: Pages) -> Faults:
    forged = pages.forged("write-skew", lambda text: text.replace("1, -30\n", "1, -31\n"))
    browser.open(pages.page(forged), "#t3")
    expected = (("[aria-labelledby=verdicts]", "Not the record of a history: differs at line"), (".verdicts", "Refused: "), ("#t3", "committed as 3"))
    yield "a forged dump", noise(browser) or lacks(browser, *expected)
    done = pages.make(pages.forged("pay", lambda text: text[:-4]))
    yield "a dump that is none", "" if done.returncode == 7 and b"dump refused" in done.stderr and not done.stdout else f"{done.returncode} {done.stderr!r}"


def what_is_cut_says_so(browser: Browser, pages: Pages) -> Faults:
    """800 transactions beside one another: the cut keeps those of the cycle, and no link leads behind it."""
    page = pages.page(pages.dump("overlapping", overlapping(800)))
    browser.open(page, "#t799")
    expected = (
        ("#t799", "799 before 800: 799.1 read acct"),
        (".cut", "Cut: 500 more transactions. TRANSACTIONS gives all."),
        ("g.arrow text", "a b"),
    )
    yield "the cut keeps the cycle", noise(browser) or lacks(browser, *expected)
    dead = browser.ask("[...document.querySelectorAll('a[href^=\"#\"]')].filter((it) => !document.getElementById(it.getAttribute('href').slice(1))).length")
    yield "no link leads behind the cut", f"{dead} do" if dead else ""
    seconds = pages.seconds["overlapping"]
    yield "the processor time of 800 transactions", f"{seconds:.1f} s" if seconds > MOST_MAKING else ""


def large_pages_open_soon(browser: Browser, pages: Pages) -> Faults:
    page = pages.page(pages.dump("large", large()))
    # On a busy machine the same work takes more processor time, so a slow opening is tried again, and told rather than refused.
    seconds = _opening(browser, page)
    for _ in range(2):
        seconds = min(seconds, _opening(browser, page)) if seconds > MOST_OPENING else seconds
    browser.open(page, "#v19")
    print(f"processor time: {pages.seconds['overlapping']:.1f} s for the page of 800 transactions, {seconds:.1f} s to open 100,000 row versions ({MOST_OPENING} sought)")
    yield "100,000 row versions open", noise(browser)
    expected = (("#table-big", "4,800 rows at v19, 4,800 written by it"), (".more", "of 4,800 rows at v19 are shown. AS OF 19 SELECT * FROM big gives all."))
    yield "a cut table counts all its rows", lacks(browser, *expected, (SEEN, "• written"))


def _opening(browser: Browser, page: Path) -> float:
    """The processor time in seconds of the thread that opens and shows a page, in a browser that did nothing before."""
    with Browser(browser.program) as fresh:
        fresh.call("Performance.enable", timeDomain="threadTicks")
        fresh.open(page, "#v19")
        fresh.settle()
        metrics = fresh.call("Performance.getMetrics")["metrics"]
        return float(next(it["value"] for it in metrics if it["name"] == "TaskDuration"))


def colours_follow_the_reader(browser: Browser, pages: Pages) -> Faults:
    """Dark and light, each with words that stand out from what is behind them (WCAG AA: 4.5)."""
    page = pages.page(pages.dump("stock"))
    pairs = [("ink", "page"), ("soft", "page"), ("soft", "card"), ("soft", "lane"), ("arrow", "card"), ("ink", "new"), ("soft", "new")]
    pairs += [(kind, f"{kind}-fill") for kind in ("committed", "lost", "rolled", "active")]
    pairs += [("soft", f"{kind}-fill") for kind in ("committed", "lost", "rolled", "active")]
    for dark in (False, True):
        browser.scheme(dark)
        browser.open(page)
        names = sorted({name for pair in pairs for name in pair})
        colours = browser.ask(f"{json.dumps(names)}.map((it) => getComputedStyle(document.documentElement).getPropertyValue('--' + it))")
        light = {name: _luminance(colour.strip()) for name, colour in zip(names, colours)}
        weak = [pair for pair in pairs if _contrast(light[pair[0]], light[pair[1]]) < 4.5]
        right = (light["page"] < light["ink"]) == dark
        yield f"colours {'dark' if dark else 'light'}", f"weak: {weak}" if weak else "" if right else "not the reader's scheme"
    browser.scheme(False)


def _luminance(colour: str) -> float:
    digits = colour[1:] if len(colour) == 7 else "".join(digit * 2 for digit in colour[1:])
    red, green, blue = (_linear(int(digits[at : at + 2], 16) / 255) for at in (0, 2, 4))
    return 0.2126 * red + 0.7152 * green + 0.0722 * blue


def _linear(part: float) -> float:
    return part / 12.92 if part <= 0.04045 else math.pow((part + 0.055) / 1.055, 2.4)


def _contrast(one: float, other: float) -> float:
    return (max(one, other) + 0.05) / (min(one, other) + 0.05)


def print_has_everything(browser: Browser, pages: Pages) -> Faults:
    browser.open(pages.page(pages.dump("tutorial")))
    browser.call("Emulation.setEmulatedMedia", media="print")
    hidden = browser.ask("dispatchEvent(new Event('beforeprint')), [...document.querySelectorAll('.one, .life')].filter((it) => !it.checkVisibility()).length")
    yield "print has all transactions and lives", f"{hidden} are hidden" if hidden else noise(browser)
    browser.open(pages.page(pages.dump("overlapping", overlapping(800)), "--transactions", "40"))
    strips = browser.ask("dispatchEvent(new Event('beforeprint')), [...document.querySelectorAll('.strip')].filter((it) => it.checkVisibility()).length")
    browser.call("Emulation.setEmulatedMedia", media="")
    left = browser.ask("dispatchEvent(new Event('afterprint')), document.querySelectorAll('.strip').length")
    yield "a wide timeline is printed in strips", "" if strips >= 4 and left == 0 else f"{strips} strips, {left} left"


CHECKS = (
    every_example_opens,
    texts_are_there,
    policy_stops_other_scripts,
    mouse_chooses,
    an_anomaly_chooses,
    keys_choose,
    all_is_there_without_script,
    lanes_are_lists,
    people_are_there,
    forged_dumps_are_called_so,
    what_is_cut_says_so,
    large_pages_open_soon,
    colours_follow_the_reader,
    print_has_everything,
)
