"""What gprom replied to the script of a window."""
from dataclasses import dataclass
from pathlib import Path


@dataclass
class Replies:
    """What gprom replied to a script, by the script's lines."""
    refused: list[tuple[int, str]]
    counts: dict[int, int]          # how many rows each SELECT gave
    begun: dict[int, str]           # the number of the transaction that each BEGIN began


def run(program, script, dump):
    """The Replies to a script, of which the dump is written."""
    found = program.run(Path(script), Path(dump))
    heads = [(reply.line, reply.head.split()) for reply in found]
    return Replies([(reply.line, reply.head) for reply in found if reply.refused],
                   {line: int(words[1]) for line, words in heads if words[0] == 'rows'},
                   {line: words[1] for line, words in heads if words[0] == 'begin'})
