"""Terms without columns, by their values: what a server computes of constants alone, such as `7 / 2`, `lower('A')` or `now() - interval '1 day'`."""
import re
from dataclasses import dataclass
from datetime import date, datetime, timedelta, timezone
from decimal import Decimal, InvalidOperation, localcontext
from typing import Any

from pglast import ast, enums

from . import NotCovered
from .definitions import constant_text

Kind, Function = enums.A_Expr_Kind, enums.SQLValueFunctionOp
UNITS = {'microsecond': timedelta(microseconds=1), 'millisecond': timedelta(milliseconds=1), 'second': timedelta(seconds=1), 'sec': timedelta(seconds=1),
         'minute': timedelta(minutes=1), 'min': timedelta(minutes=1), 'hour': timedelta(hours=1), 'day': timedelta(days=1), 'week': timedelta(weeks=1)}
INTERVAL = re.compile(r'([+-]?\d+(?:\.\d+)?) ?([a-z]+?)s?(?: |$)')
CLOCK = re.compile(r'(\d+):(\d\d)(?::(\d\d(?:\.\d+)?))?$')
NOW = ('now', 'transaction_timestamp')
MOMENT = {Function.SVFOP_CURRENT_TIMESTAMP: 'timestamptz', Function.SVFOP_LOCALTIMESTAMP: 'timestamp', Function.SVFOP_CURRENT_DATE: 'date'}
DIGITS = 60            # of the numbers that are computed here


@dataclass
class Constant:
    """A value of Python and its kind: int, numeric, string (a literal without a type), text, date, timestamp, timestamptz or interval."""
    value: Any
    kind: str

    def text(self) -> str:
        """The value as a literal of the server."""
        match self.kind:
            case 'date':
                return str(self.value.isoformat())
            case 'timestamp' | 'timestamptz':
                return str(self.value.isoformat(' '))
            case 'numeric':
                return format(self.value, 'f')
        return str(self.value)


class Folding:
    """Computes terms without columns. `now` is the time when their transaction began, in seconds, or None."""

    def __init__(self, parameters: dict[Any, Any], now: float | None = None) -> None:
        self.parameters, self.now = parameters, now

    def of(self, node: Any) -> Constant:
        """The Constant of a term, or NotCovered."""
        try:
            with localcontext() as context:
                context.prec = DIGITS
                return self.value(node)
        except (ArithmeticError, ValueError, InvalidOperation, OverflowError) as error:
            raise NotCovered('a term of constants') from error

    def value(self, node: Any) -> Constant:
        match node:
            case ast.A_Const(isnull=True):
                raise NotCovered('NULL in a term of constants')
            case ast.A_Const(val=ast.Integer() | ast.Float()):
                text = constant_text(node.val)
                return Constant(int(text), 'int') if re.fullmatch(r'\d{1,18}', text) else Constant(Decimal(text), 'numeric')
            case ast.A_Const(val=ast.String()):
                return Constant(constant_text(node.val), 'string')
            case ast.ParamRef(number=number) if number in self.parameters:
                return self.value(self.parameters[number])
            case ast.TypeCast(arg=arg, typeName=name) if not name.arrayBounds and not name.typmods:
                return self.cast(self.value(arg), name.names[-1].sval)
            case ast.A_Expr(kind=Kind.AEXPR_OP, name=(name,), lexpr=left, rexpr=right):
                b = self.value(right)
                return computed(name.sval, Constant(0, b.kind) if left is None else self.value(left), b)
            case ast.SQLValueFunction(op=op) if op in MOMENT:
                return self.moment(MOMENT[op])
            case ast.FuncCall(funcname=names, args=args):
                return self.call(names[-1].sval, [self.value(arg) for arg in args or ()])
        raise NotCovered('a term of constants')

    def moment(self, kind: str) -> Constant:
        if self.now is None:
            raise NotCovered('the time when the transaction began')
        found = datetime.fromtimestamp(0, timezone.utc).replace(tzinfo=None) + timedelta(microseconds=round(self.now * 1_000_000))
        return Constant(found.date() if kind == 'date' else found, kind)

    @staticmethod
    def cast(found: Constant, name: str) -> Constant:
        text = found.text() if found.kind != 'interval' else ''
        match name:
            case 'int2' | 'int4' | 'int8' if found.kind == 'int' or re.fullmatch(r'\s*[+-]?\d+\s*', text):
                return Constant(int(text), 'int')
            case 'numeric' if found.kind in ('int', 'numeric', 'string', 'text'):
                return Constant(Decimal(text), 'numeric')
            case 'text' | 'varchar' if found.kind in ('string', 'text', 'int'):
                return Constant(text, 'text')
            case 'date' if found.kind in ('string', 'date', 'timestamp', 'timestamptz'):
                return Constant(date.fromisoformat(text[:10] if found.kind != 'string' else text), 'date')
            case 'timestamp' | 'timestamptz' if found.kind in ('string', 'date', 'timestamp', 'timestamptz'):
                moment = datetime.fromisoformat(text)
                if moment.tzinfo and name == 'timestamp':
                    raise NotCovered('a time with a zone as one without')
                return Constant(moment.astimezone(timezone.utc).replace(tzinfo=None) if moment.tzinfo else moment, name)
            case 'interval' if found.kind == 'string':
                return Constant(interval(text), 'interval')
        raise NotCovered('a cast in a term of constants')

    def call(self, name: str, values: list[Constant]) -> Constant:
        if name in NOW and not values:
            return self.moment('timestamptz')
        kinds = [value.kind for value in values]
        match name, [value.value for value in values]:
            case ('lower' | 'upper'), [str(text)] if text.isascii():
                return Constant(getattr(text, name)(), 'text')
            case ('length' | 'char_length'), [str(text)]:
                return Constant(len(text), 'int')
            case 'repeat', [str(text), int(count)]:
                return Constant(text * count, 'text')
            case 'abs', [number] if kinds[0] in ('int', 'numeric'):
                return Constant(abs(number), kinds[0])
            case ('floor' | 'ceil' | 'ceiling'), [number] if kinds[0] == 'numeric':
                return Constant(number.to_integral_value('ROUND_FLOOR' if name == 'floor' else 'ROUND_CEILING'), 'numeric')
            case 'round', [number, *digits] if kinds[0] == 'numeric' and len(digits) < 2:
                return Constant(number.quantize(Decimal(1).scaleb(-(digits or [0])[0]), 'ROUND_HALF_UP'), 'numeric')
        raise NotCovered(f'the function {name}')


def interval(text: str) -> timedelta:
    """The timedelta of an interval that has neither months nor years, whose length depends on the day."""
    found, at = timedelta(), 0
    while match := INTERVAL.match(text, at):
        if match[2] not in UNITS:
            raise NotCovered(f'the interval {text!r}')
        found, at = found + float(match[1]) * UNITS[match[2]], match.end()
    if clock := CLOCK.match(text, at):
        return found + timedelta(hours=int(clock[1]), minutes=int(clock[2]), seconds=float(clock[3] or 0))
    if not text or at < len(text):
        raise NotCovered(f'the interval {text!r}')
    return found


def computed(sign: str, a: Constant, b: Constant) -> Constant:
    """What an operator gives for two constants."""
    kinds, moments = {a.kind, b.kind}, ('timestamp', 'timestamptz')
    if sign == '||' and kinds <= {'string', 'text'}:
        return Constant(a.value + b.value, 'text')
    if kinds <= {'int', 'numeric'}:
        return number(sign, a.value, b.value, 'int' if kinds == {'int'} else 'numeric')
    if a.kind == 'date' and b.kind == 'int' and sign in '+-':
        return Constant(a.value + timedelta(days=b.value if sign == '+' else -b.value), 'date')
    if a.kind == b.kind == 'date' and sign == '-':
        return Constant((a.value - b.value).days, 'int')
    if a.kind == 'date' and b.kind == 'interval' and sign in '+-':
        a = Constant(datetime(a.value.year, a.value.month, a.value.day), 'timestamp')
    if a.kind in moments and b.kind == 'interval' and sign in '+-':
        return Constant(a.value + b.value if sign == '+' else a.value - b.value, a.kind)
    if a.kind == 'interval' and b.kind == 'int' and sign == '*':
        return Constant(a.value * b.value, 'interval')
    raise NotCovered(f'the operator {sign}')


def number(sign: str, a: Any, b: Any, kind: str) -> Constant:
    """Arithmetic of numbers. A quotient that the server rounds is not computed."""
    match sign:
        case '+':
            return Constant(a + b, kind)
        case '-':
            return Constant(a - b, kind)
        case '*':
            return Constant(a * b, kind)
        case '/' if kind == 'int' and b:
            return Constant(abs(a) // abs(b) * (1 if (a < 0) == (b < 0) else -1), kind)
        case '/' if b and (found := Decimal(a) / Decimal(b)) * b == a and -found.as_tuple().exponent <= 16:
            return Constant(found, kind)
        case '%' if b:
            return Constant(a - b * (abs(a) // abs(b) * (1 if (a < 0) == (b < 0) else -1)), kind)
    raise NotCovered(f'the operator {sign}')
