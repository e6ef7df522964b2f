"""The page: the template with its parts filled in."""

from __future__ import annotations

import base64
import hashlib
import re
from pathlib import Path

from .details import details
from .history import History, Limits
from .markup import Links, count, cut, escape, fold
from .tables import tables
from .timeline import Timeline
from .verdicts import verdicts

TEMPLATE = Path(__file__).resolve().parent.parent / "template.html"


def write_page(history: History, title: str, limits: Limits) -> str:
    template = TEMPLATE.read_text(encoding="utf-8")
    links = Links(it.number for it in history.shown)
    hidden = len(history.transactions) - len(history.shown)
    numbers = ((len(history.transactions), "transaction"), (history.last, "version"), (len(history.tables), "table"))
    parts = {
        "hash": _hash(template),
        "title": escape(title),
        "summary": ", ".join(count(number, noun) for number, noun in numbers),
        "verdicts": verdicts(history, links),
        "timeline": Timeline(history).draw() if history.shown else "<p>No transaction.</p>",
        "cut": _cut(hidden),
        "list": fold("TRANSACTIONS", [history.listing], 1000),
        "transactions": details(history, links),
        "last": str(history.last),
        "makers": "".join(
            f'<li id="v{version}" data-v="{version}">v{version} was made by transaction {links.to(number)}</li>'
            for version, number in sorted(history.makers.items())
        ),
        "tables": tables(history, links, limits.rows),
        "questions": count(len(history.answers), "question"),
    }
    return re.sub(r"\{\{(\w+)\}\}", lambda found: parts[found[1]], template)


def _hash(template: str) -> str:
    """The page may run this one script, also where a text were not escaped."""
    found = re.search(r"<script>(.*?)</script>", template, re.S)
    assert found, "the template has a script"
    return base64.b64encode(hashlib.sha256(found[1].encode()).digest()).decode()


def _cut(hidden: int) -> str:
    if hidden <= 0:
        return ""
    return cut(hidden, "transaction", "TRANSACTIONS") + '<p class="cut">Their numbers are no links below: <code>LOG t</code> asks about one.</p>'
