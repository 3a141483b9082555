"""What a type means of JSON values, read from the type alone, and values drawn for it."""

import collections
import dataclasses
import datetime
import decimal
import enum
import ipaddress
import json
import pathlib
import re
import typing
import uuid
from types import UnionType

from schemars_proved import Bounds

_NAMES = [it.name for it in dataclasses.fields(Bounds)]
_WRITTEN = (
    str,
    uuid.UUID,
    datetime.datetime,
    datetime.date,
    datetime.time,
    datetime.timedelta,
    ipaddress.IPv4Address,
    ipaddress.IPv6Address,
    pathlib.Path,
)
_TEXTS = ["", "a", "red", "on", "x y", "é", "12", "-3", "abc", "ABCDE", "\u4e2d\u6587"]
_NUMBERS = [0, 1, -1, 2, 3, 5, 9, 10, 100, 101, 7.5, 0.5, -2.25, 1.0, 1e6, 2**40]


def _variables(cls, arguments):
    """What stands for the type variables of a class, and of the generic classes that it is derived from."""
    variables = dict(zip(getattr(cls, "__parameters__", ()), arguments))
    for base in getattr(cls, "__orig_bases__", ()):
        origin = typing.get_origin(base)
        if origin is not typing.Generic:
            bound = [_put(it, variables, cls) for it in typing.get_args(base)]
            variables = {**_variables(origin, bound), **variables}
    return variables


def _members(cls, arguments):
    """The members of a class as (name, type, whether each value has it)."""
    hints = typing.get_type_hints(cls, localns={cls.__name__: cls}, include_extras=True)
    variables = _variables(cls, arguments)
    if typing.is_typeddict(cls):
        return [(name, _put(hint, variables, cls), name in cls.__required_keys__) for name, hint in hints.items()]
    return [
        (
            it.metadata.get("name", it.name),
            _put(hints[it.name], variables, cls),
            it.init and it.default is dataclasses.MISSING and it.default_factory is dataclasses.MISSING,
        )
        for it in dataclasses.fields(cls)
    ]


def _put(hint, variables, cls):
    """The type with its variables, and `Self`, replaced."""
    if isinstance(hint, typing.TypeVar):
        return variables[hint]
    if hint is typing.Self:
        return cls
    arguments = typing.get_args(hint)
    if typing.Self in arguments:
        return typing.Union[tuple(_put(it, variables, cls) for it in arguments)]
    parameters = getattr(hint, "__parameters__", ())
    return hint[tuple(variables[it] for it in parameters)] if parameters and not isinstance(hint, type) else hint


def _kind(hint):
    origin, arguments = typing.get_origin(hint), typing.get_args(hint)
    while origin in (typing.Required, typing.NotRequired, typing.Final):
        hint = arguments[0]
        origin, arguments = typing.get_origin(hint), typing.get_args(hint)
    if origin is UnionType:
        origin = typing.Union
    return hint, origin, arguments


def is_object(hint):
    hint, origin, _ = _kind(hint)
    cls = origin or hint
    return dataclasses.is_dataclass(cls) or typing.is_typeddict(cls)


def same(a, b):
    """Whether two JSON values are equal: true is no number, and 1.0 is 1."""
    if isinstance(a, bool) or isinstance(b, bool):
        return a is b
    if isinstance(a, list) and isinstance(b, (list, tuple)):
        return len(a) == len(b) and all(map(same, a, b))
    if isinstance(a, dict) and isinstance(b, dict):
        return a.keys() == b.keys() and all(same(a[it], b[it]) for it in a)
    return type(a) in (int, float) and type(b) in (int, float) and a == b or type(a) is type(b) and a == b


def _bounded(arguments, value):
    bounds = {}
    for note in arguments[1:]:
        bounds.update({name: getattr(note, name) for name in _NAMES if getattr(note, name, None) is not None})
    compare = {
        "ge": lambda n: value >= n,
        "gt": lambda n: value > n,
        "le": lambda n: value <= n,
        "lt": lambda n: value < n,
        "multiple_of": lambda n: value % n == 0,
        "min_length": lambda n: len(value) >= n,
        "max_length": lambda n: len(value) <= n,
        "pattern": lambda n: re.search(n, value) is not None,
    }
    return all(compare[name](n) for name, n in bounds.items())


def fits(hint, value):
    """Whether a JSON value is one of the type's."""
    hint, origin, arguments = _kind(hint)
    if hint in (typing.Any, object):
        return True
    if hint is None or hint is type(None):
        return value is None
    if isinstance(hint, typing.NewType):
        return fits(hint.__supertype__, value)
    if origin is typing.Annotated:
        return fits(arguments[0], value) and (value is None or _bounded(arguments, value))
    if origin is typing.Literal:
        return any(same(value, it.value if isinstance(it, enum.Enum) else it) for it in arguments)
    if origin is typing.Union:
        return any(fits(it, value) for it in arguments)
    if is_object(hint):
        members = _members(origin or hint, arguments)
        return isinstance(value, dict) and all(
            fits(of, value[name]) if name in value else not needed for name, of, needed in members
        )
    if hint is bool:
        return isinstance(value, bool)
    if isinstance(hint, type) and issubclass(hint, enum.Enum):
        return any(same(value, it.value) for it in hint)
    if hint is int:
        return not isinstance(value, bool) and (isinstance(value, int) or isinstance(value, float) and value.is_integer())
    if hint is float:
        return isinstance(value, (int, float)) and not isinstance(value, bool)
    if hint in _WRITTEN:
        return isinstance(value, str)
    if hint is decimal.Decimal:
        return isinstance(value, str) and re.fullmatch(r"-?\d+(\.\d+)?([eE][+-]?\d+)?", value) is not None
    if isinstance(hint, type) and issubclass(hint, tuple) and hasattr(hint, "_fields"):
        hints = typing.get_type_hints(hint)
        parts = [hints.get(it, typing.Any) for it in hint._fields]
        return isinstance(value, list) and len(value) == len(parts) and all(map(fits, parts, value))
    origin = origin or hint
    if origin is tuple and hint is not tuple and not (len(arguments) == 2 and arguments[1] is ...):
        return isinstance(value, list) and len(value) == len(arguments) and all(map(fits, arguments, value))
    if origin in (dict, collections.Counter):
        key, part = _entries(origin, arguments)
        return isinstance(value, dict) and all(_is_key(key, it) and fits(part, value[it]) for it in value)
    part = arguments[0] if arguments else typing.Any
    if not isinstance(value, list) or not all(fits(part, it) for it in value):
        return False
    is_set = origin in (set, frozenset)
    return not is_set or not any(same(a, b) for n, a in enumerate(value) for b in value[:n])


def _entries(origin, arguments):
    """The types of keys and values."""
    return (*arguments, int) if origin is collections.Counter else arguments or (str, typing.Any)


def _is_key(key, text):
    return re.fullmatch("-?[0-9]+", text) is not None if key is int else fits(key, text)


def any_value(random, depth=2):
    kind = random.randrange(9 if depth else 6)
    if kind < 2:
        return random.choice(_TEXTS)
    if kind < 4:
        return random.choice(_NUMBERS)
    if kind < 6:
        return random.choice([None, True, False])
    if kind == 6:
        return [any_value(random, depth - 1) for _ in range(random.randrange(4))]
    return {random.choice(_TEXTS): any_value(random, depth - 1) for _ in range(random.randrange(3))}


def drawn(hint, random, depth=3):
    """A value that is often one of the type's, and often is not in one place."""
    if random.random() < 0.06:
        return any_value(random)
    hint, origin, arguments = _kind(hint)
    if isinstance(hint, typing.NewType):
        return drawn(hint.__supertype__, random, depth)
    if origin is typing.Annotated:
        tried = [drawn(arguments[0], random, depth) for _ in range(1 if random.random() < 0.05 else 20)]
        return next((it for it in tried if fits(hint, it)), tried[0])
    if origin is typing.Literal:
        it = random.choice(arguments)
        return it.value if isinstance(it, enum.Enum) else it
    if origin is typing.Union:
        return drawn(random.choice(arguments) if depth else min(arguments, key=lambda it: it is not type(None)), random, depth - 1)
    if is_object(hint):
        members = _members(origin or hint, arguments)
        it = {
            name: drawn(of, random, depth - 1)
            for name, of, needed in members
            if random.random() < (0.97 if needed else 0.6)
        }
        if random.random() < 0.2:
            it.setdefault(random.choice(_TEXTS), any_value(random, 1))
        return it
    if hint in (None, type(None)):
        return None
    if hint is bool:
        return random.choice([True, False])
    if isinstance(hint, type) and issubclass(hint, enum.Enum):
        return json.loads(json.dumps(random.choice(list(hint)).value))
    if hint is int:
        return random.choice([it for it in _NUMBERS if fits(int, it)])
    if hint is float:
        return random.choice(_NUMBERS)
    if hint in _WRITTEN or hint is decimal.Decimal:
        return random.choice(_TEXTS)
    if isinstance(hint, type) and issubclass(hint, tuple) and hasattr(hint, "_fields"):
        hints = typing.get_type_hints(hint)
        return [drawn(hints.get(it, typing.Any), random, depth - 1) for it in hint._fields]
    origin = origin or hint
    if origin is tuple and hint is not tuple and not (len(arguments) == 2 and arguments[1] is ...):
        return [drawn(it, random, depth - 1) for it in arguments]
    if origin in (dict, collections.Counter):
        key, part = _entries(origin, arguments)
        count = random.randrange(3) if depth else 0
        keys = [str(drawn(key, random, 0)) for _ in range(count)]
        return {it: drawn(part, random, depth - 1) for it in keys}
    if hint in (typing.Any, object):
        return any_value(random)
    count = random.randrange(4) if depth > 0 else 0
    part = arguments[0] if arguments else typing.Any
    return [drawn(part, random, depth - 1) for _ in range(count)]
