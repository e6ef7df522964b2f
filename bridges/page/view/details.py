"""What is known of each transaction: its statements with what they read, saw and changed, whom it met, and its place in the cycle."""

from __future__ import annotations

from gprom import answers as a
from gprom.people import Person
from gprom.program import Answer

from .history import Cycle, History, Statement, Transaction
from .markup import Links, cut, escape, fold, row_or_none, sign

# The rows that are shown of what a statement saw or changed: so many of all of them, and of each one between these.
MOST_ROWS = 1500
LEAST_EACH, MOST_EACH = 3, 30
MOST_MET = 25
# The cycles of a transaction whose steps are shown.
MOST_CYCLES = 12


def details(history: History, links: Links) -> str:
    first = _first(history)
    statements = sum(len(it.statements) for it in history.shown)
    most = max(LEAST_EACH, min(MOST_EACH, MOST_ROWS // max(1, statements)))
    return "".join(_transaction(it, it is first, most, history, links) for it in history.shown)


def _first(history: History) -> Transaction | None:
    """What an auditor would look at first: the first cycle, else a transaction that was lost."""
    cycle = history.cycles[0].transactions if history.cycles else ()
    in_order = [it for it in history.shown if it.number in cycle] or [it for it in history.shown if it.kind == "lost"] or history.shown
    return in_order[0] if in_order else None


def _transaction(it: Transaction, chosen: bool, most: int, history: History, links: Links) -> str:
    listed, number = it.listed, it.number
    asked = [it.log, *(answer for one in it.statements for answer in (one.saw, one.changes) if answer), it.conflicts]
    statements = "".join(_statement(one, most) for one in it.statements)
    return (
        f'<section class="one{" chosen" if chosen else ""}" id="t{number}" tabindex="-1" aria-labelledby="t{number}-name" '
        f'data-reads="{" ".join(map(str, it.reads()))}">'
        f'<h3 id="t{number}-name"><span class="chip {it.kind}">{sign(it.kind, it.version, listed.became)}</span> Transaction {number} '
        f"<small>session {listed.session}, {listed.level}, begun at version {listed.begin}, {escape(listed.became)}</small></h3>"
        f"{_who(history.person(number))}{_met(it, links)}{_in_cycles(number, history.cycles, links)}"
        + (f'<ol class="statements">{statements}</ol>' if statements else '<p class="quiet">No statement.</p>')
        + fold("the questions behind this", asked, 40)
        + "</section>"
    )


def _who(person: Person | None) -> str:
    return f'<p class="quiet who">{escape(person.whole)}.</p>' if person else ""


def _statement(it: Statement, most: int) -> str:
    read = f'<a href="#v{it.read}">v{it.read}</a>'
    return (
        f'<li id="t{it.transaction}-{it.number}" tabindex="-1"><p><b>{it.name}</b> <code>{escape(it.text)}</code> '
        f"<small>line {it.line}, read {read}</small></p>{_saw(it.saw, most)}{_changed(it.changes, most)}</li>"
    )


def _saw(answer: Answer | None, most: int) -> str:
    if answer is None:
        return ""
    if answer.refused:
        return f"<p>{escape(answer.head)}</p>"
    rows = "".join(f"<li><code>{escape(row)}</code></li>" for row in answer.lines[:most]) or '<li class="none">no row</li>'
    left = cut(answer.total - most, "row", answer.question)
    return f'<div class="saw"><small>saw</small> <ul>{rows}</ul></div>{left}'


def _changed(answer: Answer | None, most: int) -> str:
    if answer is None:
        return ""
    if answer.refused:
        return f"<p>{escape(answer.head)}</p>"
    changes = [change for change in map(a.change, answer.lines[:most]) if change]
    if not changes:
        return '<p class="quiet">Changed no row.</p>'
    rows = "".join(
        f"<tr><td>{escape(it.table)} {escape(it.identity)}</td><td>{row_or_none(it.before)}</td><td>→ {row_or_none(it.after)}</td></tr>" for it in changes
    )
    head = '<thead><tr><th scope="col">row</th><th scope="col">before</th><th scope="col">after</th></tr></thead>'
    left = cut(answer.total - most, "row", answer.question)
    return f'<div class="wide"><table class="changes">{head}<tbody>{rows}</tbody></table></div>{left}'


def _met(it: Transaction, links: Links) -> str:
    """Whom it lost to; of one that did not end by COMMIT, who wrote its rows meanwhile."""
    met = it.met()
    if not met:
        return ""
    first = f"Lost to transaction {links.to(met[0].winner)}:" if it.kind == "lost" else "Others wrote its rows meanwhile:"
    rows = "".join(
        f"<li>row <code>{escape(one.table)} {escape(one.identity)}</code>, read at version {one.base}, "
        f"was written by transaction {links.to(one.winner)} in version {one.version}</li>"
        for one in met[:MOST_MET]
    )
    return f'<p class="met">{first}</p><ul>{rows}</ul>{cut(it.conflicts.total - MOST_MET, "row", it.conflicts.question)}'


def _in_cycles(number: int, cycles: list[Cycle], links: Links) -> str:
    """The anomalies that it is part of, each with the steps from it and to it."""
    mine = [it for it in cycles if number in it.transactions]
    parts = []
    for it in mine[:MOST_CYCLES]:
        edges = [edge for edge in it.edges if number in (edge.first, edge.second)]
        steps = "".join(f"<li>{links.to(one.first)} before {links.to(one.second)}: <code>{escape(one.witness)}</code></li>" for one in edges)
        name = f'<a href="#a{it.key}">{escape(it.name)} {", ".join(map(str, it.transactions))}</a>' if it.anomaly else "In the cycle"
        parts.append(f'<p class="met">{name}:</p><ul>{steps}</ul>')
    left = len(mine) - MOST_CYCLES
    return "".join(parts) + (f'<p class="cut">Cut: {left:,} more of its anomalies. <code>ANOMALIES</code> gives all.</p>' if left > 0 else "")
