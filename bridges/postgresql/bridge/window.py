"""What a window of a long log is: its bounds, its transactions and commits, and how many statements it may have."""
from dataclasses import dataclass, field

from .beginning import MOST_STATEMENTS, Beginning
from .decoding import Commit
from .fold import Folded
from .lights import Light
from .script import STATEMENTS, TRANSACTIONS
from .slots import Span

NEAR = TRANSACTIONS      # commits on both sides of an incident from which a window is filled
RESERVE = 150            # statements that are left for touched rows, and for what is patched
RESERVED = 10            # transactions that are left for starting rows
LEAST = 20               # statements of a window: with less room it has no sense
FITS = 0.95              # of the statements that fitted, since those at the begin may be shorter
BEGAN = 'began before the window'
Bound = tuple[str, str | int]                         # (kind, value), where the kind is time, xid or line


@dataclass
class Asked:
    """What a user asked for: bounds, or a row."""
    low: Bound | None = None
    high: Bound | None = None
    around: str = ''
    at: str = ''
    touched: bool = False
    versions: str = ''                                # a folder for the versions of all rows

    @property
    def is_window(self) -> bool:
        return bool(self.low or self.high or self.around)


@dataclass(frozen=True)
class Room:
    """How many statements and transactions of the log a window may have, so that its script keeps within the limits."""
    statements: int = STATEMENTS - RESERVE
    transactions: int = TRANSACTIONS - RESERVED

    def scaled(self, window: 'Window', statements: float, transactions: float) -> 'Room':
        """The room in which these shares of a window's statements and transactions fit."""
        had = min(self.statements, sum(light.statements for light in window.lights)), min(self.transactions, len(window.lights))
        return Room(int(had[0] * statements * FITS), int(had[1] * transactions * FITS) if transactions < 1 else self.transactions)

    def beside(self, statements: int) -> 'Room':
        """The room that is left beside so many statements for starting rows."""
        return Room(self.statements - min(statements, MOST_STATEMENTS), self.transactions)

    @property
    def has_sense(self) -> bool:
        return self.statements >= LEAST and self.transactions > 0


@dataclass
class Window:
    low: float = 0.0
    high: float = float('inf')
    lights: list[Light] = field(default_factory=list)
    commits: list[Commit] = field(default_factory=list)
    first: int = 0                                    # how many commits of the slot stand before it
    since: float = 0.0                                # it has the commits from then on ..
    until: float = float('inf')                       # .. to this time
    near: list[Span] | None = None                    # spans that have all of its commits, if they are known
    earlier: list[str] = field(default_factory=list)  # the xids of the last commits before it
    noted: list[list[str]] = field(default_factory=list)          # records before it that set a level
    stopped: str = ''                                 # at which limit it ends
    stopped_line: int = 0
    beginning: Beginning = field(default_factory=Beginning)
    folded: Folded | None = None                      # of an incident: what it has, where others are folded
