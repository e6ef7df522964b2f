"""The tables: every row version with the versions that have it, and the life of each row with where its cells came from."""

from __future__ import annotations

import re
from collections import Counter
from dataclasses import dataclass

from gprom.answers import Life, Span, cell_text

from .history import History, Table
from .markup import Links, count, cut, escape, fold, row_or_none

# The lines of lives that are shown, for each row version that is shown.
LIVES_PER_ROW = 2


def fair_shares(sizes: list[int], budget: int) -> list[int]:
    """Shares of a budget: as equal as the sizes allow, so that what a small one leaves goes to the larger ones."""
    shares = [0] * len(sizes)
    left = sorted(range(len(sizes)), key=lambda at: sizes[at])
    while left:
        at = left.pop(0)
        shares[at] = min(sizes[at], budget // (len(left) + 1))
        budget -= shares[at]
    return shares


@dataclass
class Counts:
    """How many rows a table has at each version, and how many of them the version wrote or deleted."""

    rows: list[int]
    wrote: list[int]


def count_rows(spans: list[Span], last: int) -> Counts:
    starts = Counter(span.start for span in spans)
    ends = Counter(span.end for span in spans)
    deleted = Counter(span.end for span, deleted in zip(spans, deletions(spans)) if deleted)
    rows, now = [], 0
    for version in range(last + 1):
        now += starts[version] - ends[version]
        rows.append(now)
    return Counts(rows, [starts[version] + deleted[version] for version in range(last + 1)])


def deletions(spans: list[Span]) -> list[bool]:
    """Whether each row version ended by a deletion. Those of a row stand one behind the other, by versions."""
    following = [*spans[1:], None]
    return [
        span.end is not None and not (after and after.identity == span.identity and after.start == span.end)
        for span, after in zip(spans, following)
    ]


def choose(spans: list[Span], budget: int) -> set[int]:
    """The places of the row versions that are shown: of each version's writes a fair share, so that a cut table has rows at each version."""
    by_version: dict[int, list[int]] = {}
    for at, span in enumerate(spans):
        by_version.setdefault(span.start, []).append(at)
    groups = list(by_version.values())
    shares = fair_shares([len(group) for group in groups], budget)
    return {at for group, share in zip(groups, shares) for at in group[:share]}


def tables(history: History, links: Links, budget: int) -> str:
    all_spans = [table.spans() if not table.versions.refused else [] for table in history.tables.values()]
    shares = fair_shares([len(spans) for spans in all_spans], budget)
    parts = [_table(history, table, spans, share, links) for table, spans, share in zip(history.tables.values(), all_spans, shares)]
    return "".join(parts) or "<p>No table.</p>"


def _table(history: History, table: Table, spans: list[Span], share: int, links: Links) -> str:
    counts = count_rows(spans, history.last)
    kept = choose(spans, share)
    wanted = {spans[at].identity for at in kept}
    body = "".join(_row(table, span, gone, history.last) for at, (span, gone) in enumerate(zip(spans, deletions(spans))) if at in kept)
    head = "".join(f'<th scope="col">{escape(column)}</th>' for column in table.columns)
    name, refused = escape(table.name), f"<p>{escape(table.versions.head)}</p>" if table.versions.refused else ""
    return (
        f'<section class="table" aria-labelledby="table-{name}" data-name="{name}" data-rows="{_listed(counts.rows)}" data-wrote="{_listed(counts.wrote)}">'
        f'<h3 id="table-{name}">{name} <small class="count">{count(len(spans), "row version")}</small></h3>{refused}'
        f'<div class="wide" tabindex="0" role="region" aria-label="rows of {name}"><table class="rows"><thead><tr><th scope="col"><span class="hidden">written'
        f'</span></th><th scope="col">row</th>{head}<th scope="col" class="span">versions</th></tr></thead><tbody>{body}</tbody></table></div>'
        f'<p class="cut more" hidden></p>{cut(len(spans) - len(kept), "row version", table.versions.question)}'
        f"{_lives(history, table, spans, wanted, share, links)}{_questions(table)}</section>"
    )


def _listed(numbers: list[int]) -> str:
    return " ".join(map(str, numbers))


def _row(table: Table, span: Span, gone: bool, last: int) -> str:
    # The script shows the rows of one version, at first of the last one: those of others are not even laid out.
    out = "" if span.end is None or (gone and span.end == last) else ' class="out"'
    line = "".join(f'<td class="{"text" if cell.startswith(chr(39)) else "number"}">{escape(cell)}</td>' for cell in map(cell_text, span.row))
    end = "now" if span.end is None else f"v{span.end}"
    return (
        f'<tr data-from="{span.start}" data-to="{"" if span.end is None else span.end}"{" data-gone" if gone else ""}{out}><td class="wrote"></td>'
        f'<td><a class="id" href="#{_life_id(table.name, span.identity)}">{escape(span.identity)}</a></td>{line}'
        f'<td class="span">v{span.start} to {end}</td></tr>'
    )


def _life_id(table: str, identity: str) -> str:
    return f"life-{table}-{re.sub(r'[^0-9.(),]', '', identity)}"


def _lives(history: History, table: Table, spans: list[Span], wanted: set[str], share: int, links: Links) -> str:
    lives = table.lives(wanted) if not table.history.refused else _lives_of_spans(history, spans, wanted)
    by_row: dict[str, list[Life]] = {}
    for life in lives:
        by_row.setdefault(life.identity, []).append(life)
    shares = fair_shares([len(lines) for lines in by_row.values()], LIVES_PER_ROW * max(share, 1))
    parts = [_life(table, identity, lines, shown, links) for (identity, lines), shown in zip(by_row.items(), shares)]
    if not parts:
        return ""
    note = ""
    if table.history.refused:
        note = f"HISTORY was refused ({table.history.head}), so the lives are those of VERSIONS, without the statements."
    return (
        '<details class="lives"><summary>The lives of the rows</summary><p class="quiet"><span class="screen">Choose a row above for its life.</span> '
        f"{escape(note)}</p>{''.join(parts)}</details>"
    )


def _lives_of_spans(history: History, spans: list[Span], wanted: set[str]) -> list[Life]:
    """The lives of rows by their versions alone, where HISTORY is refused."""
    out: list[Life] = []
    before: Span | None = None
    for span, gone in zip(spans, deletions(spans)):
        if span.identity in wanted:
            same = before if before and before.identity == span.identity and before.end == span.start else None
            out.append(Life(span.identity, span.start, history.makers.get(span.start, 0), 0, same.row if same else None, span.row))
            if gone and span.end is not None:
                out.append(Life(span.identity, span.end, history.makers.get(span.end, 0), 0, span.row, None))
        before = span
    return out


def _life(table: Table, identity: str, lines: list[Life], shown: int, links: Links) -> str:
    """The last lines of a life: provenance is asked from the last versions on too."""
    key = _life_id(table.name, identity)
    head = "".join(f'<th scope="col">{word}</th>' for word in ("version", "by", "before", "after", "rows with these cells came from"))
    rows = "".join(
        f'<tr><td><a href="#v{it.version}">v{it.version}</a></td><td>{links.to(it.transaction, it.statement)}</td><td>{row_or_none(it.before)}</td>'
        f"<td>→ {row_or_none(it.after)}</td><td>{_came_from(table, it, links)}</td></tr>"
        for it in lines[len(lines) - shown :]
    )
    left = cut(len(lines) - shown, "line", f"HISTORY OF {table.name}" if not table.history.refused else table.versions.question)
    return (
        f'<div class="life" id="{key}" tabindex="-1" role="group" aria-label="life of row {escape(table.name)} {escape(identity)}">'
        f'<h4>{escape(table.name)} {escape(identity)}</h4><div class="wide"><table class="changes"><thead><tr>{head}</tr></thead>'
        f"<tbody>{rows}</tbody></table></div>{left}</div>"
    )


def _came_from(table: Table, life: Life, links: Links) -> str:
    if life.after is None:
        return ""
    polynomial = table.polynomial(life.version, life.after)
    if polynomial:
        return links.polynomial(polynomial)
    asked = table.provenance.get(life.version)
    if asked is None:
        return f'<span class="none">PROVENANCE OF AS OF {life.version} has it</span>'
    # Cells that a later statement of the same transaction overwrote are in no version.
    return f'<span class="none">{escape(asked.head)}</span>' if asked.refused else ""


def _questions(table: Table) -> str:
    answers = [table.versions, table.history, *table.provenance.values()]
    return fold("the questions behind this", answers, 8)
