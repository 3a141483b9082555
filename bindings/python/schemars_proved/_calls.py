"""The three functions of libschemars, by ctypes."""

import ctypes
import json
import os
import typing

DIALECTS = {"2020-12": 0, "2019-09": 1, "draft-07": 2, "openapi3": 3}
VERDICTS = ("refused", "not plain", "plain", "plain under reading", "plain under writing", "plain under reading and writing")
_INLINE, _SERIALIZE = 1, 2
_DONE, _NO_ROOM = 0, 101


class SchemarsError(Exception):
    """Why there is no document: `status` is the number that `schemagen` prints. Where the fault is in a table, `faults`
    says at which places, as the linter does."""

    status = None
    reason = "the call was refused"

    def __init__(self, status=None, faults=()):
        if status is not None:
            self.status = status
        self.faults = tuple(faults)
        super().__init__("\n".join([f"{self.status} {type(self).__name__}: {self.reason}", *self.faults]))


class OutOfMemory(SchemarsError, MemoryError):
    """Memory ran out."""

    status, reason = 1, "memory ran out"


class UndefinedType(SchemarsError):
    """A row was reserved and never defined."""

    status, reason = 2, "a row was reserved and never defined"


class RepeatedName(SchemarsError):
    """A list of fields or of variants has a name twice."""

    status, reason = 3, "a name stands twice in a list of fields or variants"


class DirectCycle(SchemarsError):
    """Rows that are written in place contain each other."""

    status, reason = 4, "rows that are written in place contain each other"


class EmptyCycle(SchemarsError):
    """Rows have each other's values."""

    status, reason = 5, "rows have each other's values"


class DefinitionsPath(SchemarsError):
    """There are definitions, and notes put another value in their place."""

    status, reason = 9, "notes put another value in the place of the definitions"


class NotJson(SchemarsError, ValueError):
    """The input is not JSON."""

    status, reason = 20, "the input is not JSON"


class BadTable(SchemarsError, ValueError):
    """The input is JSON, but no table with a root; `faults` says where it is wrong."""

    status, reason = 21, "the input is no table with a root"


class NotWhole(SchemarsError, ValueError):
    """A whole number of an example has more than 64 bits, or a float is out of range."""

    status, reason = 22, "a number of the example is out of range"


class Write(SchemarsError, MemoryError):
    """Memory ran out while the text was written."""

    status, reason = 24, "memory ran out while the text was written"


_ERRORS = {
    it.status: it
    for it in (
        OutOfMemory,
        UndefinedType,
        RepeatedName,
        DirectCycle,
        EmptyCycle,
        DefinitionsPath,
        NotJson,
        BadTable,
        NotWhole,
        Write,
    )
}


def _error(status):
    return _ERRORS[status]() if status in _ERRORS else SchemarsError(status)


def _load():
    """The library that SCHEMARS_LIBRARY names, the one beside this file, or that of the system."""
    named = os.environ.get("SCHEMARS_LIBRARY")
    if named:
        return ctypes.CDLL(named)
    beside = os.path.join(os.path.dirname(os.path.abspath(__file__)), "libschemars.so")
    return ctypes.CDLL(beside if os.path.exists(beside) else "libschemars.so.1")


_lib = _load()
_u32, _size, _bytes = ctypes.c_uint32, ctypes.c_size_t, ctypes.c_char_p
_out = [ctypes.c_void_p, _size, ctypes.POINTER(_size)]
_lib.schemars_types.argtypes = [_u32, _u32, _bytes, _size, *_out]
_lib.schemars_sample.argtypes = [_u32, _bytes, _size, *_out]
_lib.schemars_lint.argtypes = [_bytes, _size, ctypes.POINTER(_u32), *_out]
for _it in (_lib.schemars_types, _lib.schemars_sample, _lib.schemars_lint):
    _it.restype = _u32


def _input(value):
    """JSON text as it is, bytes as UTF-8, and any other value as its JSON."""
    if isinstance(value, (bytes, bytearray)):
        return bytes(value)
    if isinstance(value, str):
        return value.encode("utf-8", "surrogatepass")
    return json.dumps(value, allow_nan=False).encode()


def _dialect(word):
    if word not in DIALECTS:
        raise ValueError(f"{word!r} is no dialect: they are {', '.join(DIALECTS)}")
    return DIALECTS[word]


def _written(function, data, *words):
    room = 4 * len(data) + 4096
    while True:
        out, needed = ctypes.create_string_buffer(room), _size()
        status = function(*words, out, room, ctypes.byref(needed))
        if status == _DONE:
            return ctypes.string_at(out, needed.value).decode()
        if status != _NO_ROOM:
            raise _error(status)
        room = needed.value


def types(table: typing.Any, dialect: str = "2020-12", inline: bool = False, serialize: bool = False) -> str:
    """The text of the document of a table's root, or for `openapi3` of its definitions.

    `inline` writes rows in place, and `serialize` describes the values that are written. The text ends in a
    newline, as the program writes it. An error has the places of the faults in the table.
    """
    number, data = _dialect(dialect), _input(table)
    flags = (_INLINE if inline else 0) | (_SERIALIZE if serialize else 0)
    try:
        return _written(_lib.schemars_types, data, number, flags, data, len(data))
    except (NotJson, BadTable, UndefinedType, RepeatedName, DirectCycle, EmptyCycle) as error:
        raise type(error)(faults=_faults(data)) from None


def _faults(data):
    """The faults of a table, each with its place."""
    lines = lint(data)[1].splitlines()
    return [line.removeprefix("fault: ") for line in lines if line.startswith("fault: ")]


def sample(value: typing.Any, dialect: str = "2020-12") -> str:
    """The text of the document of a schema that is made from an example, and accepts it.

    Text and bytes are the example's JSON; any other value is turned into JSON.
    """
    number, data = _dialect(dialect), _input(value)
    return _written(_lib.schemars_sample, data, number, data, len(data))


def lint(table: typing.Any) -> typing.Tuple[str, str]:
    """The verdict on a table, one of `VERDICTS`, and what the linter prints."""
    data, verdict = _input(table), _u32()
    text = _written(_lib.schemars_lint, data, data, len(data), ctypes.byref(verdict))
    return VERDICTS[verdict.value], text
