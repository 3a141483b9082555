"""Tables of Python classes."""

import collections
import collections.abc
import dataclasses
import datetime
import decimal
import enum
import inspect
import ipaddress
import json
import math
import numbers
import pathlib
import re
import sys
import types as python_types
import typing
import uuid

from . import _calls
from ._members import Member, attrs_members, is_attrs, is_model, model_members

_UNIONS = (typing.Union, python_types.UnionType)
_FORMATS = {
    datetime.datetime: ("date-time", "DateTime"),
    datetime.date: ("date", "Date"),
    datetime.time: ("time", "Time"),
    datetime.timedelta: ("duration", "Duration"),
    uuid.UUID: ("uuid", "Uuid"),
    ipaddress.IPv4Address: ("ipv4", "Ipv4Address"),
    ipaddress.IPv6Address: ("ipv6", "Ipv6Address"),
    ipaddress.IPv4Network: ("ipv4network", "Ipv4Network"),
    ipaddress.IPv6Network: ("ipv6network", "Ipv6Network"),
    re.Pattern: ("regex", "Regex"),
}
# Types of pydantic that are texts of a format.
_PYDANTIC_FORMATS = {
    "EmailStr": "email",
    "NameEmail": "name-email",
    "AnyUrl": "uri",
    "AnyHttpUrl": "uri",
    "HttpUrl": "uri",
    "FileUrl": "uri",
    "WebsocketUrl": "uri",
    "SecretStr": "password",
}
_DECIMAL = {"type": "string", "pattern": r"^-?\d+(\.\d+)?([eE][+-]?\d+)?$"}
# What stands for a value of any type.
_ANY = (typing.Any, object)
_LISTS = (
    list,
    collections.abc.Sequence,
    collections.abc.MutableSequence,
    collections.abc.Iterable,
    collections.abc.Collection,
    collections.deque,
)
_SETS = (set, frozenset, collections.abc.Set, collections.abc.MutableSet)
_MAPS = (dict, collections.abc.Mapping, collections.abc.MutableMapping, collections.OrderedDict, collections.defaultdict)
_MANY = (*_LISTS, *_SETS, *_MAPS, collections.Counter)


def _of_typing(*names):
    """What `typing`, and `typing_extensions` where it is loaded, have under these names."""
    modules = (typing, sys.modules.get("typing_extensions"))
    return tuple(getattr(module, name) for module in modules for name in names if hasattr(module, name))


_REQUIRED = _of_typing("Required", "NotRequired", "ReadOnly", "Final")
_SELF = _of_typing("Self")
_LARGEST = 2**64 - 1


class NoTable(TypeError):
    """A type that no table describes. `place` says where it stands."""

    def __init__(self, reason, place):
        self.reason, self.place = reason, place
        super().__init__(f"{place}: {reason}" if place else reason)


@dataclasses.dataclass(frozen=True)
class Bounds:
    """Bounds of a number, of the length of a text, or of the length of a list, for `Annotated`.

    Of a list, a set or a dictionary it is how many items or members there are. The objects of the package
    `annotated_types`, and any that have the same attributes, serve too.
    """

    ge: typing.Optional[numbers.Real] = None
    gt: typing.Optional[numbers.Real] = None
    le: typing.Optional[numbers.Real] = None
    lt: typing.Optional[numbers.Real] = None
    multiple_of: typing.Optional[numbers.Real] = None
    min_length: typing.Optional[int] = None
    max_length: typing.Optional[int] = None
    pattern: typing.Optional[str] = None


_BOUNDS = tuple(it.name for it in dataclasses.fields(Bounds))


def schema_for(
    cls: typing.Any, dialect: str = "2020-12", inline: bool = False, serialize: bool = False, closed: bool = False
) -> typing.Any:
    """The document of a class, or for `openapi3` its definitions, as a dictionary.

    Raises `NoTable` where no table describes the class.
    """
    table = _table_of(cls, closed, sys._getframe(1).f_locals)
    return json.loads(_calls.types(table, dialect, inline, serialize))


def table_for(cls: typing.Any, closed: bool = False) -> typing.Dict[str, typing.Any]:
    """The table of a class: of a dataclass, a model of pydantic, a class of attrs, `TypedDict`, `NamedTuple`, `Enum`,
    or any other type that a field may have. With `closed`, objects have no other keys than those of their classes.
    Classes that are local to the caller may name each other.

    Raises `NoTable` where no table describes the class.
    """
    return _table_of(cls, closed, sys._getframe(1).f_locals)


def _table_of(cls, closed, names):
    """The same, where these names are known too."""
    rows = _Rows(closed, names)
    root = rows.row_of(cls, "")
    return {"types": rows.rows, "root": root}


class _Rows:
    """The rows of a table in the making."""

    def __init__(self, closed, names):
        self.rows = []
        self.closed = closed
        self.known = names
        self.numbers = {}  # of rows, by their ids
        self.classes = {}  # the ids of classes, by class and arguments
        self.names = {}  # how many classes have the same id

    # ---- rows

    def add(self, id, name, shape, inline=True, notes=None):
        """The number of the row of this id, which is added where there is none."""
        if id not in self.numbers:
            self.numbers[id] = len(self.rows)
            row = {"id": id, "name": name, **({"inline": True} if inline else {}), "shape": shape}
            self.rows.append({**row, **({"notes": notes} if notes else {})})
        return self.numbers[id]

    def reserve(self, cls, arguments, name):
        """A row for a class, whose shape is set later, so that the class may contain itself; or the row that it has."""
        key = (cls, arguments)
        if key in self.classes:
            return self.classes[key], False
        id = f"{cls.__module__}.{cls.__qualname__}"
        if arguments:
            id += f"[{', '.join(self.id_of(it) for it in arguments)}]"
        self.names[id] = self.names.get(id, 0) + 1
        if self.names[id] > 1:
            id += f" {self.names[id]}"
        number = self.classes[key] = self.add(id, name, None, inline=False)
        return number, True

    def id_of(self, number):
        return self.rows[number]["id"]

    def name_of(self, number):
        return self.rows[number]["name"]

    def literal(self, schema, name):
        text = json.dumps(schema, sort_keys=True, ensure_ascii=False)
        return self.add(f"literal {text}", name, {"literal": schema})

    # ---- types

    def row_of(self, it, place, variables={}):
        """The number of the row of a type."""
        if isinstance(it, typing.TypeVar):
            if it in variables:
                return variables[it]
            raise NoTable(f"the type variable {it} has no argument", place)
        if isinstance(it, (str, typing.ForwardRef)):
            raise NoTable(f"{it!r} names a type that is not known here", place)
        if it in _SELF and it in variables:
            return variables[it]
        if isinstance(it, typing.NewType):
            return self.new_type(it, place)
        if type(it).__name__ == "TypeAliasType":
            return self.row_of(it.__value__, place, variables)
        if it is None or it is type(None):
            return self.add("null", "null", "null")
        if it in _ANY:
            return self.add("AnyValue", "AnyValue", "any")
        origin = typing.get_origin(it)
        if origin is None:
            return self.plain_row(it, place)
        if origin in _REQUIRED:
            return self.row_of(typing.get_args(it)[0], place, variables)
        if origin is typing.Annotated:
            return self.annotated(it, place, variables)
        if origin is typing.Literal:
            return self.literal_values(typing.get_args(it), place)
        if origin in _UNIONS:
            return self.union(typing.get_args(it), place, variables)
        return self.applied(origin, typing.get_args(it), place, variables)

    def plain_row(self, it, place):
        """The row of a type without arguments."""
        if not isinstance(it, type):
            raise NoTable(f"{it!r} is no type", place)
        if it is bool:
            return self.add("boolean", "boolean", "bool")
        if issubclass(it, enum.Enum):
            return self.enumeration(it, place)
        if it is int:
            return self.literal({"type": "integer"}, "integer")
        if it is float:
            return self.add("Number", "number", "number")
        if it is str:
            return self.add("string", "string", "text")
        if it in _FORMATS:
            format, name = _FORMATS[it]
            return self.add(format, name, {"format": format})
        if issubclass(it, pathlib.PurePath):
            return self.add("path", "Path", {"format": "path"})
        if it is decimal.Decimal:
            return self.literal(_DECIMAL, "Decimal")
        if it.__module__.startswith("pydantic.") and it.__name__ in _PYDANTIC_FORMATS:
            format = _PYDANTIC_FORMATS[it.__name__]
            return self.add(format, it.__name__, {"format": format})
        if is_model(it):
            return self.model(it, place)
        if is_attrs(it):
            return self.attrs(it, place)
        if dataclasses.is_dataclass(it):
            return self.dataclass(it, (), place)
        if typing.is_typeddict(it):
            return self.typed_dict(it, (), place)
        if issubclass(it, tuple) and hasattr(it, "_fields"):
            return self.named_tuple(it, place)
        if it in _MANY:
            return self.add(*self.many(it, (), place, {}))
        if it is tuple:
            return self.applied(tuple, (typing.Any, ...), place, {})
        why = {
            bytes: "JSON has no bytes: use a text, or list[int]",
            complex: "JSON has no complex numbers: use a tuple of two floats",
        }
        raise NoTable(why.get(it, f"no table describes {it.__module__}.{it.__qualname__}"), place)

    def applied(self, origin, arguments, place, variables):
        """The row of a type with arguments."""
        if origin is tuple:
            return self.tuple(arguments, place, variables)
        if origin in _MANY:
            return self.add(*self.many(origin, arguments, place, variables))
        rows = tuple(self.row_of(it, f"{place}[]", variables) for it in arguments)
        if dataclasses.is_dataclass(origin):
            return self.dataclass(origin, rows, place)
        if typing.is_typeddict(origin):
            return self.typed_dict(origin, rows, place)
        raise NoTable(f"no table describes {getattr(origin, '__qualname__', origin)} with arguments", place)

    def tuple(self, arguments, place, variables):
        if len(arguments) == 2 and arguments[1] is ...:
            return self.applied(list, arguments[:1], place, variables)
        if arguments == ((),):
            arguments = ()
        parts = [self.row_of(it, f"{place}[{n}]", variables) for n, it in enumerate(arguments)]
        ids, names = (list(map(of, parts)) for of in (self.id_of, self.name_of))
        return self.add(f"({','.join(ids)})", f"Tuple_of_{'_and_'.join(names)}" if parts else "Empty_tuple", {"tuple": parts})

    def many(self, origin, arguments, place, variables):
        """The id, the name and the shape of a list, a set or a dictionary, whose arguments may be left out."""
        if origin in _MAPS:
            return self.map(*(arguments or (str, typing.Any)), place, variables)
        if origin is collections.Counter:
            return self.map((arguments or (str,))[0], int, place, variables)
        part = self.row_of((arguments or (typing.Any,))[0], f"{place}[]", variables)
        id, name = self.id_of(part), self.name_of(part)
        if origin in _SETS:
            return f"Set<{id}>", f"Set_of_{name}", {"set": part}
        return f"[{id}]", f"Array_of_{name}", {"seq": part}

    def map(self, key, value, place, variables):
        key = self.key(key, f"{place} (a key)", variables)
        value = self.row_of(value, f"{place}[]", variables)
        shape = {"map": {"key": key, "value": value}}
        of, name = self.id_of(value), self.name_of(value)
        if self.id_of(key) == "string":
            return f"Map<{of}>", f"Map_of_{name}", shape
        return f"Map<{self.id_of(key)}, {of}>", f"Map_from_{self.name_of(key)}_to_{name}", shape

    def key(self, it, place, variables):
        """The row of the keys of a dictionary, which are texts in JSON."""
        if it is int:
            return self.add("int64", "int64", {"int": "i64"})
        number = self.row_of(it, place, variables)
        shape = self.rows[number]["shape"]
        while isinstance(shape, dict) and "newtype" in shape:
            shape = self.rows[shape["newtype"]]["shape"]
        is_text = shape == "text" or (isinstance(shape, dict) and ("format" in shape or "external" in shape))
        if isinstance(shape, dict) and "literal" in shape:
            is_text = shape["literal"].get("type") == "string"
        if not is_text:
            raise NoTable(f"{self.name_of(number)} is no type of keys: they are texts, whole numbers or enums of texts", place)
        return number

    def union(self, arguments, place, variables):
        others = [it for it in arguments if it is not type(None)]
        if len(others) > 1:
            parts = [self.row_of(it, f"{place} (choice {n + 1})", variables) for n, it in enumerate(others)]
            parts = list(dict.fromkeys(parts))
            names, ids = ([of(n) for n in parts] for of in (self.name_of, self.id_of))
            labels = names if len(set(names)) == len(names) else ids
            variants = [{"name": name, "payload": {"newtype": n}} for name, n in zip(labels, parts)]
            number = self.add(f"Union<{' | '.join(ids)}>", "_or_".join(names), {"untagged": {"variants": variants}})
        else:
            number = self.row_of(others[0], place, variables)
        return number if len(others) == len(arguments) else self.option(number)

    def option(self, number):
        return self.add(f"Option<{self.id_of(number)}>", f"Nullable_{self.name_of(number)}", {"option": number})

    # ---- values that are listed

    def literal_values(self, values, place):
        values = [it.value if isinstance(it, enum.Enum) else it for it in values]
        if any(isinstance(it, bytes) for it in values):
            raise NoTable("JSON has no bytes", place)
        return self.literal(_one_of(values), "Literal_" + "_".join(map(str, values)))

    def enumeration(self, cls, place):
        number, is_new = self.reserve(cls, (), cls.__name__)
        if not is_new:
            return number
        if issubclass(cls, enum.Flag):
            raise NoTable(f"{cls.__qualname__} is a set of flags: use int, or a list of an Enum", place)
        values = [_json_of(it.value) for it in cls]
        if not values:
            raise NoTable(f"{cls.__qualname__} has no member", place)
        if _NONE in values:
            raise NoTable(f"{cls.__qualname__} has a member whose value is no JSON", place)
        if all(isinstance(it, str) for it in values):
            shape = {"external": {"variants": [{"name": it} for it in values]}}
        else:
            shape = {"literal": _one_of(values)}
        self.rows[number]["shape"] = shape
        self.describe(number, cls)
        return number

    # ---- bounds

    def annotated(self, it, place, variables):
        base, *notes = typing.get_args(it)
        return self.noted(base, notes, place, variables)

    def noted(self, base, notes, place, variables):
        """The row of a type with the bounds that are among these notes."""
        bounds = {}
        for note in [*notes, *(one for it in notes for one in _metadata(it))]:
            for name in _BOUNDS:
                value = getattr(note, name, None)
                if value is not None and not callable(value):
                    bounds[name] = value
        if not bounds:
            return self.row_of(base, place, variables)
        return self.bounded(base, bounds, place, variables)

    def bounded(self, base, bounds, place, variables):
        if isinstance(base, typing.NewType):
            return self.bounded(base.__supertype__, bounds, place, variables)
        origin = typing.get_origin(base)
        if origin is typing.Annotated:
            inner, *notes = typing.get_args(base)
            return self.noted(inner, [*notes, Bounds(**bounds)], place, variables)
        if origin in _UNIONS:
            others = [it for it in typing.get_args(base) if it is not type(None)]
            if len(others) == 1:
                return self.option(self.bounded(others[0], bounds, place, variables))
        if base is int:
            return self.bounded_number({"type": "integer"}, "integer", bounds, place)
        if base is float:
            return self.bounded_number({"type": "number"}, "number", bounds, place)
        if base is str:
            return self.bounded_text(bounds, place)
        if (origin or base) in _MANY:
            return self.bounded_many(origin or base, typing.get_args(base), bounds, place, variables)
        raise NoTable(f"no bounds are known for {base!r}", place)

    def bounded_number(self, schema, name, bounds, place):
        whole = schema["type"] == "integer"
        for bound, value in bounds.items():
            if bound not in ("ge", "gt", "le", "lt", "multiple_of"):
                raise NoTable(f"{bound} is no bound of a number", place)
            if not isinstance(value, (int, float)) or isinstance(value, bool) or not math.isfinite(value):
                raise NoTable(f"{value!r} is no bound of a number", place)
            if whole and bound == "gt":  # the same bound without a keyword of its own
                schema["minimum"] = max(math.floor(value) + 1, schema.get("minimum", -math.inf))
            elif whole and bound == "lt":
                schema["maximum"] = min(math.ceil(value) - 1, schema.get("maximum", math.inf))
            elif bound == "ge":
                schema["minimum"] = max(value, schema.get("minimum", -math.inf))
            elif bound == "le":
                schema["maximum"] = min(value, schema.get("maximum", math.inf))
            else:
                keyword = {"gt": "exclusiveMinimum", "lt": "exclusiveMaximum", "multiple_of": "multipleOf"}[bound]
                schema[keyword] = value
        if "multipleOf" in schema and not schema["multipleOf"] > 0:
            raise NoTable("multiple_of is above 0", place)
        if any(isinstance(it, int) and not -(2**63) <= it <= _LARGEST for it in schema.values()):
            raise NoTable("a bound has more than 64 bits", place)
        return self.literal(schema, _name_of(name, schema))

    def bounded_text(self, bounds, place):
        keywords = {"min_length": "minLength", "max_length": "maxLength", "pattern": "pattern"}
        schema = {"type": "string"}
        for bound, value in bounds.items():
            if bound not in keywords:
                raise NoTable(f"{bound} is no bound of a text", place)
            if bound == "pattern":
                value = getattr(value, "pattern", value)
            schema[keywords[bound]] = value
        self.expect_lengths(bounds, place)
        if not isinstance(schema.get("pattern", ""), str):
            raise NoTable("a pattern is a text", place)
        return self.literal(schema, _name_of("string", schema))

    def bounded_many(self, origin, arguments, bounds, place, variables):
        """A list, a set or a dictionary of so many items or members."""
        self.expect_lengths(bounds, place)
        if set(bounds) - {"min_length", "max_length"}:
            raise NoTable("what has items or members has min_length and max_length", place)
        id, name, shape = self.many(origin, arguments, place, variables)
        least, most = bounds.get("min_length", 0), bounds.get("max_length")
        if "seq" in shape and most is not None and least in (0, most):
            return self.array(shape["seq"], least, most)
        of = "Properties" if "map" in shape else "Items"
        notes = {f"min{of}": least} if least else {}
        notes |= {} if most is None else {f"max{of}": most}
        text = "".join(f"_{keyword}_{value}" for keyword, value in notes.items())
        return self.add(id + text, name + text, shape, notes=notes)

    def array(self, part, least, most):
        """Lists of exactly, or of at most, so many items."""
        id, name = self.id_of(part), self.name_of(part)
        if least:
            return self.add(f"[{most}; {id}]", f"Array_size_{most}_of_{name}", {"array": {"of": part, "len": most}})
        return self.add(f"[{id}; up to {most}]", f"Array_up_to_size_{most}_of_{name}", {"up_to": {"of": part, "cap": most}})

    def expect_lengths(self, bounds, place):
        for bound in ("min_length", "max_length"):
            value = bounds.get(bound, 0)
            if not isinstance(value, int) or isinstance(value, bool) or not 0 <= value <= _LARGEST:
                raise NoTable(f"{bound} is a whole number from 0", place)

    # ---- classes

    def new_type(self, it, place):
        number, is_new = self.reserve(it, (), it.__name__)
        if is_new:
            self.rows[number]["shape"] = {"newtype": self.row_of(it.__supertype__, place or it.__name__)}
        return number

    def dataclass(self, cls, arguments, place):
        number, is_new = self.reserve(cls, arguments, self.applied_name(cls, arguments))
        if is_new:
            hint_of = self.hints(cls, arguments, number, place)
            fields = [self.dataclass_field(cls, it, *hint_of(it.name)) for it in dataclasses.fields(cls)]
            self.set_struct(number, cls, fields)
        return number

    def attrs(self, cls, place):
        number, is_new = self.reserve(cls, (), cls.__name__)
        if is_new:
            hint_of = self.hints(cls, (), number, place)
            self.set_struct(number, cls, [self.field(cls, it, *hint_of(it.attribute)) for it in attrs_members(cls)])
        return number

    def model(self, cls, place):
        """A model of pydantic, whose fields know their types."""
        number, is_new = self.reserve(cls, (), cls.__name__)
        if not is_new:
            return number
        members, root = model_members(cls), getattr(cls, "__pydantic_root_model__", False)
        itself = {it: number for it in _SELF}
        if root:
            shape = {"newtype": self.noted(members[0].hint, members[0].notes, place or cls.__qualname__, itself)}
            self.rows[number]["shape"] = shape
            self.describe(number, cls)
        else:
            fields = [self.field(cls, it, it.hint, itself) for it in members]
            self.set_struct(number, cls, fields, cls.model_config.get("extra") == "forbid")
        return number

    def typed_dict(self, cls, arguments, place):
        number, is_new = self.reserve(cls, arguments, self.applied_name(cls, arguments))
        if is_new:
            hint_of = self.hints(cls, arguments, number, place)
            fields = []
            for name in cls.__annotations__:
                hint, variables = hint_of(name)
                field = {"name": name, "type": self.row_of(hint, f"{cls.__qualname__}.{name}", variables)}
                if name in cls.__optional_keys__:
                    field["required"] = False
                self.note(field, _description_in(hint))
                fields.append(field)
            self.set_struct(number, cls, fields)
        return number

    def named_tuple(self, cls, place):
        number, is_new = self.reserve(cls, (), cls.__name__)
        if is_new:
            hint_of = self.hints(cls, (), number, place)
            parts = []
            for name in cls._fields:
                hint, variables = hint_of(name)
                parts.append(self.row_of(hint, f"{cls.__qualname__}.{name}", variables))
            self.rows[number]["shape"] = {"tuple": parts}
            self.describe(number, cls)
        return number

    def applied_name(self, cls, arguments):
        return cls.__name__ + "".join(f"_{self.name_of(it)}" for it in arguments)

    def hints(self, cls, arguments, number, place):
        """A function that gives the type of a member, and the rows that stand for the type variables in it."""
        parameters = getattr(cls, "__parameters__", ())
        if len(parameters) != len(arguments):
            raise NoTable(f"{cls.__qualname__} has {len(parameters)} type variables, and {len(arguments)} arguments", place)
        hints = self.hints_with({}, cls)
        itself = {it: number for it in _SELF}
        variables = {}
        self.add_variables(cls, {**itself, **dict(zip(parameters, arguments))}, itself, place, variables)
        every = {it: row for of_class in variables.values() for it, row in of_class.items()}

        def hint_of(name):
            owner = next((it for it in cls.__mro__ if name in it.__dict__.get("__annotations__", {})), cls)
            return hints.get(name, typing.Any), {**every, **variables.get(owner, itself)}

        return hint_of

    def hints_with(self, names, cls):
        """The types of a class's members. A name that its module does not have is one that the caller has."""
        try:
            return typing.get_type_hints(cls, localns={**names, cls.__name__: cls}, include_extras=True)
        except NameError as error:
            name = error.name
        if name in names or name not in self.known:
            raise NoTable(f"{name!r} names no type", cls.__qualname__)
        return self.hints_with({**names, name: self.known[name]}, cls)

    def add_variables(self, cls, own, itself, place, variables):
        """Adds what stands for the type variables of a class, and of each class that it is derived from."""
        variables[cls] = own
        for base in cls.__dict__.get("__orig_bases__", ()):
            origin = typing.get_origin(base)
            if isinstance(origin, type) and origin is not typing.Generic:
                rows = [self.row_of(it, place, own) for it in typing.get_args(base)]
                of_base = {**itself, **dict(zip(getattr(origin, "__parameters__", ()), rows))}
                self.add_variables(origin, of_base, itself, place, variables)
        for base in cls.__bases__:
            if base not in variables:
                self.add_variables(base, itself, itself, place, variables)

    def set_struct(self, number, cls, fields, closed=False):
        names = [it["name"] for it in fields]
        twice = next((it for it in names if names.count(it) > 1), None)
        if twice is not None:
            raise NoTable(f"two fields have the name {twice!r}", cls.__qualname__)
        self.rows[number]["shape"] = {"struct": {"fields": fields, **({"closed": True} if closed or self.closed else {})}}
        self.describe(number, cls)

    def dataclass_field(self, cls, it, hint, variables):
        """A field of a dataclass. Its metadata may have a `name` and a `description`."""
        default = it.default_factory if it.default is dataclasses.MISSING else it.default
        if it.default_factory in (list, dict, set, frozenset, tuple):
            default = it.default_factory()
        is_read = it.init and default is dataclasses.MISSING
        member = Member(it.name, it.metadata.get("name", it.name), hint, is_read, default, it.metadata.get("description"))
        return self.field(cls, member, hint, variables)

    def field(self, cls, it, hint, variables):
        """A field of a struct for a member of a class."""
        place = f"{cls.__qualname__}.{it.attribute}"
        if not isinstance(it.name, str):
            raise NoTable("the name of a field is a text", place)
        field = {"name": it.name, "type": self.noted(hint, it.notes, place, variables)}
        if not it.required:
            field["required"] = {"deserialize": False, "serialize": True}
        self.note(field, _description_in(hint) if it.description is None else it.description, it.default)
        return field

    def note(self, field, description, default=dataclasses.MISSING):
        notes = {} if description is None else {"description": description}
        value = _json_of(default)
        if value is not _NONE:
            notes["default"] = value
        if notes:
            field["notes"] = notes

    def describe(self, number, cls):
        """The class's own docstring as the description."""
        text = cls.__dict__.get("__doc__")
        if text and not _is_made_up(cls, text):
            self.rows[number]["notes"] = {"description": inspect.cleandoc(text)}


def _name_of(name, schema):
    """A name that says the bounds."""
    return "_".join([name, *(f"{keyword}_{value}" for keyword, value in schema.items() if keyword != "type")])


def _one_of(values):
    """The schema of these values."""
    values = list({json.dumps(it, sort_keys=True): it for it in values}.values())
    are_texts = all(isinstance(it, str) for it in values)
    return {"type": "string", "enum": values} if are_texts else {"enum": values}


_NONE = object()  # no JSON


def _json_of(value):
    """The JSON of a default, or `_NONE` where it is not plain what that is."""
    if isinstance(value, enum.Enum):
        return _json_of(value.value)
    if value is None or isinstance(value, (bool, str)):
        return value
    if isinstance(value, int):
        return value if -(2**63) <= value <= _LARGEST else _NONE
    if isinstance(value, float):
        return value if math.isfinite(value) else _NONE
    if isinstance(value, uuid.UUID):
        return str(value)
    if isinstance(value, (datetime.date, datetime.time)):
        return value.isoformat()
    if isinstance(value, (list, tuple)):
        parts = [_json_of(it) for it in value]
        return _NONE if _NONE in parts else parts
    if isinstance(value, (set, frozenset)):
        parts = [_json_of(it) for it in value]
        return _NONE if _NONE in parts else sorted(parts, key=lambda it: json.dumps(it, sort_keys=True))
    if isinstance(value, dict):
        parts = {key: _json_of(it) for key, it in value.items()}
        return _NONE if _NONE in parts.values() or not all(isinstance(it, str) for it in parts) else parts
    if dataclasses.is_dataclass(value) and not isinstance(value, type):
        parts = {it.metadata.get("name", it.name): _json_of(getattr(value, it.name)) for it in dataclasses.fields(value)}
        return _NONE if _NONE in parts.values() else parts
    return _NONE


def _description_in(hint):
    """A text among the annotations, or the `documentation` or `description` of one."""
    if typing.get_origin(hint) in _REQUIRED:
        return _description_in(typing.get_args(hint)[0])
    if typing.get_origin(hint) is not typing.Annotated:
        return None
    for note in typing.get_args(hint)[1:]:
        for text in (note, getattr(note, "documentation", None), getattr(note, "description", None)):
            if isinstance(text, str):
                return text
    return None


def _metadata(note):
    """The bounds that a `Field` of pydantic has among annotations."""
    metadata = getattr(note, "metadata", None)
    return metadata if isinstance(metadata, list) else ()


def _is_made_up(cls, text):
    """Whether Python wrote the docstring."""
    return text.startswith(f"{cls.__name__}(") or text in (dict.__doc__, enum.Enum.__doc__, "An enumeration.")
