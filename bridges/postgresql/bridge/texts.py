"""Texts that no table of gprom holds, as the head of the text, its length and a digest.

Two such cells are equal where the texts are, so a condition that asks for equality still says the truth. A text that looks like such a cell
becomes one too, or it would be taken for another text.
"""
import re
from hashlib import sha256

BYTES, HEAD, DIGITS = 255, 100, 32
CONTROL = re.compile(r'[\x00-\x1f\x7f-\x9f]')
SHORT = re.compile(rf'.* \.\. \[(\d+) characters, sha256 [0-9a-f]{{{DIGITS}}}\]', re.S)


def fitting(text: str) -> str:
    """The cell of a text: itself, where a table of gprom can hold it."""
    if len(text.encode()) <= BYTES and not CONTROL.search(text) and not SHORT.fullmatch(text):
        return text
    head = CONTROL.sub(' ', text).encode()[:HEAD].decode(errors='ignore')
    return f'{head} .. [{len(text)} characters, sha256 {sha256(text.encode()).hexdigest()[:DIGITS]}]'


def length(cell: object) -> int | None:
    """The length of the text that a cell stands for, or None if it is the text itself."""
    match = SHORT.fullmatch(cell) if isinstance(cell, str) else None
    return int(match[1]) if match else None
