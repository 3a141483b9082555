"""The table of types that an input holds: how it is read, and which tables are refused."""
import graphlib
from types import SimpleNamespace

INTEGERS = ["i8", "i16", "i32", "i64", "i128", "isize", "u8", "u16", "u32", "u64", "u128", "usize"]
NAMED = ["null", "bool", "number", "text", "char", "any", "bytes", "schema"]
OF_ONE = ["option", "seq", "set", "newtype", "bound", "range"]
SIZED = {"array": "len", "up_to": "cap"}
PAIRS = {"map": ("key", "value"), "result": ("ok", "err"), "either": ("left", "right")}
ENUMS = ["external", "untagged", "internal", "adjacent"]
OF_SAME_VALUES = ["untagged", "internal"]


class Refused(Exception):
    """The program refuses the input, with this code and name."""


def _need(holds):
    if not holds:
        raise Refused("21 BadTable")


def _checked(holds):
    """Reads a value that this holds of, as it is."""
    def read(value):
        _need(holds(value))
        return value
    return read


def _instance_of(*kinds):
    return _checked(lambda value: isinstance(value, kinds))


def _list_of(read_item):
    def read(value):
        _need(isinstance(value, list))
        return [read_item(item) for item in value]
    return read


def _object_of(needed, **further):
    """Reads an object: needed members by their readers, further ones by reader and default."""
    readers = needed | {name: reader for name, (reader, _) in further.items()}

    def read(value):
        _need(isinstance(value, dict) and needed.keys() <= value.keys() <= readers.keys())
        members = {name: default for name, (_, default) in further.items()}
        return SimpleNamespace(**members | {name: readers[name](value[name]) for name in value})
    return read


def _one_of(names, readers):
    """Reads a name alone, or an object of one member, whose name is the kind of its content."""
    def read(value):
        if isinstance(value, str):
            _need(value in names)
            return SimpleNamespace(kind=value, content=None)
        _need(isinstance(value, dict) and len(value) == 1)
        [(kind, content)] = value.items()
        _need(kind in readers)
        return SimpleNamespace(kind=kind, content=readers[kind](content))
    return read


_text = _instance_of(str)
_bool = _instance_of(bool)
_truth = (_bool, False)
_notes = (_instance_of(dict), {})
_size = _checked(lambda value: type(value) is int and value >= 0)
_integer = _checked(lambda value: value in INTEGERS)


def _required(value):
    """Whether a field is required, for reading and for writing."""
    if isinstance(value, bool):
        return value, value
    both = _object_of({"deserialize": _bool, "serialize": _bool})(value)
    return both.deserialize, both.serialize


def _row_reader(count):
    """Reads one row of so many."""
    number = _checked(lambda value: type(value) is int and 0 <= value < count)
    required = (_required, (True, True))
    field = _object_of({"name": _text, "type": number}, required=required, notes=_notes)
    part = _object_of({"type": number}, required=required)
    fields = _object_of({}, fields=(_list_of(field), []), flatten=(_list_of(part), []), closed=_truth)
    payloads = {"newtype": number, "struct": fields}

    def variants(payloads):
        payload = (_one_of(["unit"], payloads), SimpleNamespace(kind="unit", content=None))
        return _list_of(_object_of({"name": _text}, notes=_notes, payload=payload)), []
    tagged = _object_of({"tag": _text}, closed=_truth, variants=variants(payloads))
    tuple_payloads = payloads | {"tuple": _list_of(number)}
    enum = _object_of({}, variants=variants(tuple_payloads))
    keyed = _object_of({"tag": _text, "content": _text}, closed=_truth, variants=variants(tuple_payloads))
    shapes = dict.fromkeys(OF_ONE, number) | tuple_payloads
    shapes |= {kind: _object_of({"of": number, size: _size}) for kind, size in SIZED.items()}
    shapes |= {kind: _object_of(dict.fromkeys(names, number)) for kind, names in PAIRS.items()}
    shapes |= {"int": _integer, "nonzero": _integer, "format": _text}
    shapes |= {"external": enum, "untagged": enum, "internal": tagged, "adjacent": keyed,
               "literal": _instance_of(bool, dict)}
    shape = _one_of(NAMED, shapes)
    return _object_of({"id": _text, "name": _text, "shape": shape}, inline=_truth, notes=_notes)


class Table:
    """The rows of an input, and the number of the root."""

    def __init__(self, value):
        table = _object_of({"root": _size}, types=(_instance_of(list), []), **{"$schema": (_checked(lambda _: True), None)})(value)
        self.rows = _list_of(_row_reader(len(table.types)))(table.types)
        self.root = table.root
        _need(self.root < len(self.rows))
        _need(len({row.id for row in self.rows}) == len(self.rows))

    def check(self):
        """Refuses names that stand twice, and cycles that no document or no value comes out of."""
        names = [each for row in self.rows for each in _names(row.shape)]
        if any(len(set(each)) < len(each) for each in names):
            raise Refused("3 RepeatedName")
        links = [list(self._links(row.shape)) for row in self.rows]
        _check_cycles([[row for row, direct, _ in uses if direct] for uses in links], "4 DirectCycle")
        _check_cycles([[row for row, _, same in uses if same] for uses in links], "5 EmptyCycle")

    def _link(self, row, direct=False, same=False):
        """A use of a row.

        It is direct where the document of the row is made on the spot, and the same where a value
        of the user is a value of the row too.
        """
        return row, direct or self.rows[row].inline, same

    def _links(self, shape):
        """The uses of rows by a shape."""
        kind, content = shape.kind, shape.content
        if kind in OF_ONE:
            yield self._link(content, same=kind in ("option", "newtype"))
        elif kind in SIZED:
            yield self._link(content.of)
        elif kind in PAIRS:
            first, second = PAIRS[kind]
            yield self._link(getattr(content, first), direct=kind == "map")
            yield self._link(getattr(content, second))
        elif kind == "tuple":
            yield from map(self._link, content)
        elif kind == "struct":
            yield from (self._link(field.type) for field in content.fields)
            for part in content.flatten:
                yield from self._part_links(part.type)
        elif kind in ENUMS:
            for payload in (variant.payload for variant in content.variants):
                if payload.kind == "newtype":
                    yield self._link(payload.content, direct=kind == "internal", same=kind in OF_SAME_VALUES)
                else:
                    yield from self._links(payload)

    def _part_links(self, row):
        """A flattened part is opened on the spot, through as many options as there are."""
        yield self._link(row, direct=True, same=True)
        seen = set()
        while self.rows[row].shape.kind == "option" and row not in seen:
            seen.add(row)
            row = self.rows[row].shape.content
            yield self._link(row, direct=True)


def _names(shape):
    """Lists of names in a shape; in none of them may a name stand twice."""
    if shape.kind == "struct":
        yield [field.name for field in shape.content.fields]
    elif shape.kind in ENUMS:
        if shape.kind == "adjacent":
            yield [shape.content.tag, shape.content.content]
        yield [variant.name for variant in shape.content.variants]
        for variant in shape.content.variants:
            yield from _names(variant.payload)


def _check_cycles(targets, refusal):
    try:
        graphlib.TopologicalSorter(dict(enumerate(targets))).prepare()
    except graphlib.CycleError:
        raise Refused(refusal) from None
