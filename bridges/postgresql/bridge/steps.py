"""Transactions of the server and their steps, whether a log or a capture gave them."""
from dataclasses import dataclass, field
from typing import Any

from .statements import Target
from .terms import Statement


@dataclass
class Step:
    """A statement of the log: one of gprom, or the reason why there is none."""
    line: int
    start: float
    end: float
    statement: Statement | None = None      # None if gprom cannot express it
    reason: str = ''
    target: Target = field(default_factory=Target)      # which row images may be those of one without a statement
    harmless: bool = False          # it only reads, and the functions that it calls are the server's own
    commits: bool = False           # it may commit itself: CALL and DO outside of a block
    clocks: list[tuple[str, int, bool]] = field(default_factory=list)          # (table, place of a column, whether in new rows) of what gets the time of the transaction
    only_reads: bool = False        # but for functions: it is left out, if no row images are its own
    refused: bool = False           # by the server, since another transaction had written its row
    version: int = 0                # how many commits of the slot stand before it
    narrowed: bool = False          # to the rows that the slot shows
    filled: bool = False            # with values that the server computed
    literals: list[Statement] | None = None    # statements of its row images, which stand in its place
    parts: list[Statement] | None = None       # of a statement that is deferred: the statements that it is
    seen: int | None = None         # of a capture: how many commits its snapshot sees
    until: int | None = None        # of a capture: how many the newest test of its rows may have seen
    rows: int | None = None         # of a capture: how many rows it gave or wrote
    shares: bool = False            # of a capture: FOR KEY SHARE, which waits for those that delete its rows, and not for those that update them
    blind: bool = False             # of a capture: the rows that it wrote are not known by their number

    @property
    def writes(self) -> bool:
        return self.statement is None or self.statement.kind != 'select'

    @property
    def locks(self) -> bool:
        """Whether it locks rows that are there. Then it may wait for their writers, and goes on with the rows as they left them."""
        return self.statement is not None and (self.statement.kind in ('update', 'delete', 'upsert') or self.statement.locks or self.shares)


@dataclass
class Transaction:
    session: str
    level: str
    line: int                       # of the log
    implicit: bool = False          # without BEGIN: the statements of one message, or of one pipeline
    virtual: str = ''               # its number in the backend
    steps: list[Step] = field(default_factory=list)
    began: float | None = None      # when it began, which is now() in it
    started: float | None = None    # the first statement's start and end: a snapshot is taken in between
    first_end: float | None = None
    xid: str = '0'
    fate: str = 'active'
    end_line: int = 0
    end: float = float('inf')
    commit: int | None = None       # index into the commits of the slot, from 0
    reason: str = ''                # why it is not covered as a whole
    in_part: bool = False           # the slot has images of it that are no rows of gprom
    lowest: int = 0                 # the commits that its session had seen before
    version: int = 0                # how many commits stand before its BEGIN
    ended: int = 0                  # how many stand before its ROLLBACK at least, where the server refused a statement
    settled: bool = False           # its statements write the rows of the slot where they stand
    literals: list[Statement] = field(default_factory=list)        # statements of its row images, which stand in the place of all its steps
    rewritten: int = 0              # row versions that its patches make besides those of the images
    savepoints: list[tuple[str, int]] = field(default_factory=list)      # (name, how many steps stand before it)
    unsaid: list[tuple[int, str]] = field(default_factory=list)          # (log line, reason) of reads that are not in the script
    exact: bool = False             # its snapshots are known
    doubt: str = ''                 # why it is not known whether it made its commit
    who: tuple[str, ...] = ('', '', '')       # user, application and client
    failed: bool = False

    @property
    def is_snapshot(self) -> bool:
        """Whether its level is snapshot isolation in gprom."""
        return self.level in ('repeatable read', 'serializable')

    @property
    def commits_itself(self) -> bool:
        """Whether it may have made several commits."""
        return self.implicit and any(step.commits for step in self.steps)

    def uncovered(self) -> list[Step]:
        """The steps that gprom does not run as the server did."""
        return [step for step in self.steps if step.literals is not None or step.statement is None and not step.only_reads]

    def reasons(self) -> str:
        """Why gprom does not run all of it as the server did: each reason once, with the first line of the log that has it."""
        first: dict[str, int] = {}
        for step in self.uncovered():
            first.setdefault(step.reason, step.line)
        return '; '.join(f'log line {line}: {reason}' for reason, line in first.items())

    def writes(self) -> list[Step]:
        return [step for step in self.steps if step.writes]

    def may_write(self, tables: set[str]) -> bool:
        """Whether one of its statements is of these tables, or of any."""
        names = {step.statement.table if step.statement else step.target.table for step in self.writes()}
        return bool(names & (tables | {''}))


def reaction(step: Step, tables: dict[str, Any]) -> str:
    """What else a statement of gprom may have set off on the server, or ''. Foreign keys write where rows are deleted, or their keys change."""
    statement = step.statement
    if statement is None:
        return ''
    table = tables[statement.table]
    if table.reacts and not table.rewrites and not (
            statement.kind == 'delete' or statement.kind == 'update' and {name for name, _ in statement.sets} & set(table.key)):
        return ''
    return str(table.reacts)
