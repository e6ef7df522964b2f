"""What becomes of the transactions at the edges of a window.

One that began before it is cut: where it committed in the window, its rows are patched as a whole. One that ends behind it is open at its end,
with its statements up to there: a later one has read what the window does not have.
"""
from .csvlog import HALF, Left
from .decoding import Commit
from .history import SLACK, unlogged
from .steps import Transaction
from .window import BEGAN, Window


def standing_for_folded(commits: list[Commit]) -> list[Transaction]:
    """The transactions that stand for folded ones."""
    made = [unlogged(commit, f'folded: {commit.folded}') for commit in commits if commit.folded]
    for transaction in made:
        transaction.session, transaction.who = 'folded', ('', transaction.reason, '')
    return made


def cut(window: Window, transactions: list[Transaction], commits: list[Commit]) -> tuple[list[Transaction], Left]:
    """The transactions of a window, of which those that committed in it have their commits; and what is said of those at its edges."""
    kept = [t for t in transactions if belongs(t, window)]
    known = {t.commit for t in kept}
    for at, commit in enumerate(commits):
        if at not in known and not commit.folded and commit.time < window.low and commit.tables:
            kept.append(began_before(commit, at))
    left: Left = []
    opened: dict[str, int] = {}                       # session -> the line of its first transaction that is open at the end
    for transaction in kept:
        if is_open(transaction, window):
            leave_open(transaction, window.high)
            opened[transaction.session] = min(opened.get(transaction.session, transaction.line), transaction.line)
            left.append((transaction.line, 'ends behind the window: open at its end'))
        cut_begin(transaction, window.low)
    return [t for t in kept if t.line <= opened.get(t.session, t.line)], left


def belongs(transaction: Transaction, window: Window) -> bool:
    """Whether a transaction committed in a window, ended in it, or began in it."""
    return transaction.commit is not None or transaction.end >= window.low or (transaction.started or window.low) >= window.low


def began_before(commit: Commit, at: int) -> Transaction:
    """The transaction of a commit that no record of the window has."""
    made = unlogged(commit, BEGAN)
    made.commit = at
    return made


def is_open(transaction: Transaction, window: Window) -> bool:
    """Whether a transaction goes on behind a window: it may commit there, or has run statements there."""
    if transaction.commit is not None or transaction.end <= window.high - SLACK:
        return False
    is_unnamed = not transaction.exact and bool(transaction.writes()) and transaction.end + HALF > window.until
    may_commit = transaction.fate == 'committed' and (transaction.xid != '0' or is_unnamed)
    return may_commit or any(step.end > window.high for step in transaction.steps)


def leave_open(transaction: Transaction, high: float) -> None:
    transaction.fate, transaction.end = 'active', float('inf')
    transaction.steps = [step for step in transaction.steps if step.end <= high]


def cut_begin(transaction: Transaction, low: float) -> None:
    """Cuts a transaction that began before a window. What it read there is not known, and what it wrote there without a commit does not matter."""
    if (transaction.started or low) < low - 2 * HALF and not transaction.reason:
        transaction.reason = BEGAN
    if transaction.reason:
        kept = [step for step in transaction.steps if step.start >= low - SLACK]
        if len(kept) < len(transaction.steps):
            transaction.steps = kept
            transaction.unsaid.append((transaction.line, 'what it read before the window'))
