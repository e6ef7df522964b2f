"""A client of PostgreSQL's frontend/backend protocol 3, over a unix socket with trust authentication.

It has what the tests need and the standard library lacks: simple and extended queries with their command tags, rows
and SQLSTATEs, COPY to the client, and a query that is sent now and whose reply is taken later. All values are texts,
as the server prints them, and None is NULL. PostgreSQL's manual has the messages in "Message Formats".
"""
import select
import socket
import struct
from dataclasses import dataclass, field

PROTOCOL_VERSION = 3 << 16
TEXT_TYPES = (25, 1043)               # the OIDs of text and varchar


@dataclass
class Column:
    """A column of a result: its name, the OID of its type, and the modifier of the type, -1 for none."""
    name: str
    type: int
    modifier: int = -1


@dataclass
class Result:
    """What one message gave: the tag of its last command, the columns and rows, and the bytes of a COPY."""
    tag: str = ''
    columns: list[Column] = field(default_factory=list)
    rows: list[tuple] = field(default_factory=list)
    copied: bytearray = field(default_factory=bytearray)


class ServerError(RuntimeError):
    """An ERROR or FATAL of the server, with its SQLSTATE."""

    def __init__(self, fields):
        super().__init__(f"{fields['C']} {fields['M']}")
        self.state = fields['C']


class Connection:
    """A session of the server. Between `send` and `receive` the statement runs, or waits for a lock."""

    def __init__(self, folder, user='postgres', database='postgres', port=5432, **more):
        self.socket = socket.socket(socket.AF_UNIX)
        self.socket.connect(f'{folder}/.s.PGSQL.{port}')
        self.stream = self.socket.makefile('rb')
        self.prepared = {}
        self.process = 0
        self.busy = False
        options = b''.join(text.encode() + b'\0' for text in ('user', user, 'database', database, *(part for pair in more.items() for part in pair), ''))
        self.socket.sendall(struct.pack('!ii', len(options) + 8, PROTOCOL_VERSION) + options)
        self.receive()

    def execute(self, text, *parameters):
        """Runs a statement and gives its result. With parameters it goes through the extended protocol."""
        self.send(text, *parameters)
        return self.receive()

    def send(self, text, *parameters):
        """Sends a statement; `receive` takes its reply."""
        self.busy = True
        if parameters:
            self.socket.sendall(message(b'P', name(''), name(text), struct.pack('!h', 0)) + run('', parameters))
        else:
            self.socket.sendall(message(b'Q', name(text)))

    def send_prepared(self, text, *parameters):
        """Sends a statement under a name of its own, which is parsed the first time only."""
        self.busy = True
        parse = b''
        if text not in self.prepared:
            self.prepared[text] = f's{len(self.prepared)}'
            parse = message(b'P', name(self.prepared[text]), name(text), struct.pack('!h', 0))
        self.socket.sendall(parse + run(self.prepared[text], parameters))

    def has_reply(self, seconds=0.0):
        """Whether a reply has begun to arrive, within these seconds."""
        return bool(select.select([self.socket], [], [], seconds)[0])

    def receive(self):
        """Waits for the reply to what was sent. Raises the server's error, if it gave one."""
        result, error = Result(), None
        while True:
            kind, body = self.read_message()
            if kind == b'E':
                error = ServerError(fields_of(body))
                if not self.stream.peek(1):             # the server ends the session after a FATAL
                    raise error
            elif kind == b'Z':
                self.busy = False
                if error:
                    raise error
                return result
            else:
                self.take(result, kind, body)

    def take(self, result, kind, body):
        """Adds a message to the result. Notices, parameters of the server and what only confirms are skipped."""
        if kind == b'T':
            result.columns, result.rows = columns_of(body), []
        elif kind == b'D':
            result.rows.append(row_of(body))
        elif kind == b'C':
            result.tag = body[:-1].decode()
        elif kind == b'd':
            result.copied += body
        elif kind == b'K':
            self.process = struct.unpack('!ii', body)[0]

    def read_message(self):
        """The type and the body of the next message."""
        head = self.stream.read(5)
        if len(head) < 5:
            raise ConnectionError('the server closed the connection')
        return head[:1], self.stream.read(struct.unpack('!i', head[1:])[0] - 4)

    def close(self):
        """Ends the session."""
        try:
            self.socket.sendall(message(b'X'))
        except OSError:
            pass                                        # the server ended it before
        self.stream.close()
        self.socket.close()


def message(kind, *parts):
    """A message of the client: its type, its length and its parts."""
    body = b''.join(parts)
    return kind + struct.pack('!i', len(body) + 4) + body


def name(text):
    """A text that ends with a zero byte."""
    return text.encode() + b'\0'


def run(statement, parameters):
    """The messages that run a statement which was parsed under this name: Bind, Describe, Execute and Sync."""
    values = b''.join(value_of(parameter) for parameter in parameters)
    bind = message(b'B', name(''), name(statement), struct.pack('!hh', 0, len(parameters)), values, struct.pack('!h', 0))
    return bind + message(b'D', b'P', name('')) + message(b'E', name(''), struct.pack('!i', 0)) + message(b'S')


def value_of(parameter):
    """A parameter as a text with its length; NULL has the length -1."""
    if parameter is None:
        return struct.pack('!i', -1)
    text = str(parameter).encode()
    return struct.pack('!i', len(text)) + text


def columns_of(body):
    """The columns of a RowDescription."""
    columns, at = [], 2
    for _ in range(struct.unpack('!h', body[:2])[0]):
        end = body.index(b'\0', at)
        _, _, kind, _, modifier, _ = struct.unpack('!ihihih', body[end + 1:end + 19])
        columns.append(Column(body[at:end].decode(), kind, modifier))
        at = end + 19
    return columns


def row_of(body):
    """The cells of a DataRow."""
    cells, at = [], 2
    for _ in range(struct.unpack('!h', body[:2])[0]):
        length, at = struct.unpack('!i', body[at:at + 4])[0], at + 4
        cells.append(None if length < 0 else body[at:at + length].decode())
        at += max(length, 0)
    return tuple(cells)


def fields_of(body):
    """The fields of an ErrorResponse by their letters, such as C for the SQLSTATE and M for the message."""
    return {part[:1].decode(): part[1:].decode() for part in body.split(b'\0') if part}
