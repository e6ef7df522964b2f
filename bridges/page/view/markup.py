"""The pieces of HTML that all parts of the page use. Every text of a dump or of an answer passes through `escape`."""

from __future__ import annotations

import html
from collections.abc import Iterable

from gprom.answers import Row, row_text, token_parts
from gprom.program import Answer

SIGNS = {"committed": "✓", "lost": "✕", "rolled": "↶", "active": "…"}
# The characters of a text that are shown where it stands beside the whole one.
LONG = 400


def escape(value: object) -> str:
    return html.escape(str(value), quote=True)


def shortened(text: str) -> str:
    return text if len(text) <= LONG else text[:LONG] + " (cut)"


def count(number: int, noun: str) -> str:
    return f"{number:,} {noun}{'' if number == 1 else 's'}"


def sign(kind: str, version: int | None, fate: str) -> str:
    """What became of a transaction: a sign and a word, so that the colour is not all there is."""
    return f"{SIGNS.get(kind, '?')} " + (f"v{version}" if version is not None else fate)


def cut(left: int, noun: str, question: str) -> str:
    """The word on what was cut, with the question that gives the rest. Nothing where nothing was."""
    return f'<p class="cut">Cut: {count(left, "more " + noun)}. <code>{escape(question)}</code> gives all.</p>' if left > 0 else ""


def fold(summary: str, answers: Iterable[Answer], most: int = 60) -> str:
    """A closed fold with questions and their answers, as the program prints them, up to `most` lines each."""
    parts = []
    for answer in answers:
        lines = "".join("\n  " + escape(shortened(line)) for line in answer.lines[:most])
        left = answer.total - min(most, len(answer.lines))
        more = f"\n  (cut: {count(left, 'more line')})" if left else ""
        parts.append(f"<pre><b>{escape(answer.question)}</b>\n{escape(answer.head)}{lines}{more}</pre>")
    return f'<details class="asked"><summary>{escape(summary)}</summary>{"".join(parts)}</details>'


def row_or_none(row: Row | None) -> str:
    return escape(row_text(row)) if row is not None else '<span class="none">no row</span>'


class Links:
    """Links to the transactions and statements that the page shows. What is behind the cut is a number without a link."""

    def __init__(self, shown: Iterable[int]):
        self._shown = set(shown)

    def to(self, transaction: int, statement: int = 0, words: str = "") -> str:
        name = words or (f"{transaction}.{statement}" if statement else str(transaction))
        if transaction not in self._shown:
            return f'<span class="behind" title="cut: LOG {transaction} has it">{escape(name)}</span>'
        return f'<a href="#t{transaction}{f"-{statement}" if statement else ""}">{escape(name)}</a>'

    def polynomial(self, words: str, most: int = 6) -> str:
        """A polynomial, each token of which is a link to its statement, cut behind `most` of them."""
        out: list[str] = []
        shown = left = 0
        for text, named in token_parts(words):
            if shown == most:
                left += named is not None
                continue
            out.append(self.to(*named, text) if named else escape(text))
            shown += named is not None
        return f"<code>{''.join(out)}</code>" + (f' <span class="none">(cut: {count(left, "more token")})</span>' if left > 0 else "")
