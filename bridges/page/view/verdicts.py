"""The verdicts at the top: CHECK, SERIAL, and the questions that were not answered."""

from __future__ import annotations

from gprom.anomalies import NO_ORDER, Said, by_name, sentence

from .arrows import letter
from .history import Cycle, History, refused
from .markup import Links, count, escape, fold

# The transactions of a serial order that are shown.
MOST_ORDER = 300


def verdicts(history: History, links: Links) -> str:
    items = (_anomalies(history, links) if history.found else _serial(history, links), _check(history), _refused(history))
    return f'<ul class="verdicts">{"".join(items)}</ul>'


def _item(kind: str, mark: str, title: str, body: str) -> str:
    return (
        f'<li class="{kind}"><span class="sign" aria-hidden="true">{mark}</span>'
        f"<div><h3>{escape(title)}</h3>{body}</div></li>"
    )


def _check(history: History) -> str:
    check = history.check
    folded = fold("CHECK", [check])
    if check.head == "history":
        return _item("good", "✓", "The rows are what the lines make", f"<p>Running the log once more makes this very dump.</p>{folded}")
    words = "<p>What is below is about the dump as it stands. Its own lines do not make it.</p>"
    return _item("bad", "✕", f"Not the record of a history: {check.head}", words + folded)


def _anomalies(history: History, links: Links) -> str:
    """All anomalies: how many of each name, and each in words, with its steps. One is chosen."""
    assert history.anomalies
    idle = history.idle() if any(it.name == "read-only anomaly" for it in history.found) else []
    names = list(dict.fromkeys(it.name for it in history.cycles))
    listed = sorted(history.cycles, key=lambda it: names.index(it.name))
    items = "".join(_anomaly(it, at == 0, idle, links) for at, it in enumerate(listed))
    left = len(history.found) - len(history.cycles)
    more = f"<p>Cut: {left:,} more. <code>ANOMALIES</code> gives all.</p>" if left > 0 else ""
    title = f"{len(history.found):,} anomalies: {by_name(history.found)}" if len(history.found) > 1 else "An anomaly"
    return _item("bad", "↻", title, f'<p>{NO_ORDER}</p><ul class="anomalies">{items}</ul>{more}' + fold("ANOMALIES", [history.anomalies]))


def _anomaly(it: Cycle, chosen: bool, idle: list[int], links: Links) -> str:
    assert it.anomaly
    words = _words(sentence(it.anomaly, idle), links)
    return (
        f'<li id="a{it.key}" class="anomaly{" chosen" if chosen else ""}" data-a="{it.key}" data-t="{" ".join(map(str, it.transactions))}" tabindex="-1">'
        f'<p><a href="#a{it.key}" class="name" aria-label="{escape(it.name)} of {", ".join(map(str, it.transactions))}">{escape(it.name)}:</a> {words}</p>{_steps(it, links)}</li>'
    )


def _words(said: Said, links: Links) -> str:
    """A sentence with links. A row is a code, since not each has a life on the page."""
    names = (links.to(it) if isinstance(it, int) else f"<code>{escape(it[1])}</code>" if isinstance(it, tuple) else escape(it) for it in said.names)
    return escape(said.pattern).format(*names)


def _steps(it: Cycle, links: Links) -> str:
    steps = "".join(
        f'<li><span class="letter" aria-hidden="true">{letter(at)}</span> {links.to(edge.first)} before {links.to(edge.second)}: '
        f'<span class="witness">{escape(edge.witness)}</span></li>'
        for at, edge in enumerate(it.edges, 1)
    )
    return f'<ul class="cycle">{steps}</ul>'


def _serial(history: History, links: Links) -> str:
    serial = history.serial
    folded = fold("SERIAL", [serial])
    word = serial.head.partition(" ")[0]
    if word == "serial":
        return _item("good", "✓", "As if one after another", _order(list(serial.lines), links) + folded)
    if word == "cycle":
        cycle = history.cycles[0]
        body = f"<p>{NO_ORDER} Each of these has to come before the next one:</p>{_steps(cycle, links)}"
        return _item("bad", "↻", f"No order explains it: a cycle of {len(cycle.edges)}", body + folded)
    if word == "undecided":
        words = "<p>No cycle was found, but one after another the transactions do not give the same.</p>"
        return _item("open", "?", "Undecided whether as if one after another", words + folded)
    return _item("open", "?", "Not answered whether as if one after another", f"<p>{escape(serial.head)}</p>{folded}")


def _order(lines: list[str], links: Links) -> str:
    steps = "".join(f"<li>{links.to(int(line))}</li>" for line in lines[:MOST_ORDER])
    left = len(lines) - MOST_ORDER
    more = f"<p>Cut: {count(left, 'more transaction')}. <code>SERIAL</code> gives all.</p>" if left > 0 else ""
    return f'<p>The committed transactions give the same in this order:</p><ol class="order">{steps}</ol>{more}'


def _refused(history: History) -> str:
    found = [it for it in refused(history.answers) if it is not history.serial]
    if not found:
        return ""
    first = found[:40]
    more = f"<p>The first {len(first)} are in the fold.</p>" if len(first) < len(found) else ""
    return _item("bad", "!", f"Refused: {count(len(found), 'question')}", more + fold("the questions and the refusals", first))
