"""The documents of examples of every kind in each dialect, and random examples."""
import copy

from dialects import DIALECTS
from edits import allow_null, ensure_object
from jsontext import write

NAMES = ["", "A", "B", "é", "two words", "title", "a/b~c"]
KEYS = ["a", "b", "", "$ref", "type", "properties", "é", "x-1", "examples"]
TEXTS = ["", "a", "é", "🚀", "two words", "\n"]
INTEGERS = [0, 1, -1, 255, -2**63, -2**63 - 1, 2**63 - 1, 2**64 - 1, 2**64, -2**127, 2**127 - 1]
FLOATS = [0.0, -0.0, 1.0, 1.5, 36.6, -1e300, 5e-324, 1.7976931348623157e308, 2.0**64, "NaN", "inf", "-inf"]
NUMBERS = [0, 1, 255, 2**63, 2**64 - 1, 2**64, 2**127, 2**128 - 1]
BYTE = {"type": "integer", "format": "uint8", "minimum": 0, "maximum": 255}
MADE = {"Bool": {"type": "boolean"}, "Int": {"type": "integer"}, "UInt": {"type": "integer"},
        "Float": {"type": "number"},
        "Str": {"type": "string"}, "CollectStr": {"type": "string"}, "UnitStruct": {"type": "null"},
        "Char": {"type": "string", "minLength": 1, "maxLength": 1}, "Bytes": {"type": "array", "items": BYTE}}
ONE_PART = ["Some", "NewtypeStruct", "NewtypeVariant"]
ITEMS = ["Seq", "Tuple", "TupleStruct", "TupleVariant"]
ENTRIES = ["Map", "CollectMap", "Struct", "StructVariant"]


class TooLarge(Exception):
    """An integer has more than 64 bits, or a float is not finite, so the example has no JSON form."""


def _parts(sample):
    """The kind, the name and the content."""
    (key, content), = sample.items()
    kind, _, name = key.partition(" ")
    return kind, name, content


def _members(entries):
    """The entries by their keys, where the later of two counts."""
    return {key: value for entry in entries for key, value in entry.items()}


def json_form(sample):
    """The value that a serializer writes."""
    kind, name, content = _parts(sample)
    if kind in ("Int", "UInt"):
        if not -2**63 <= int(content) < 2**64:
            raise TooLarge
        return int(content)
    if kind == "Float" and isinstance(content, str):
        raise TooLarge
    if kind in ONE_PART:
        value = json_form(content)
    elif kind in ITEMS:
        value = [json_form(item) for item in content]
    elif kind in ENTRIES:
        every = [(key, json_form(part)) for entry in content for key, part in entry.items()]
        value = dict(every)
    else:
        value = name if kind == "UnitVariant" else content
    return {name: value} if kind.endswith("Variant") and kind != "UnitVariant" else value


def _each_once(schemas):
    different = []
    for schema in schemas:
        if schema not in different:
            different.append(schema)
    return different


def _items_of(items):
    """One schema for all items of a list: a choice where there are several."""
    different = _each_once(map(schema_of, items))
    if not different or True in different:
        return True
    return different[0] if len(different) == 1 else {"anyOf": different}


def _values_of(entries):
    """One schema for all values of a map: everything where there are several."""
    different = _each_once(schema_of(part) for entry in entries for part in entry.values())
    return different[0] if len(different) == 1 else True


def schema_of(sample):
    """The schema of an example."""
    kind, _, content = _parts(sample)
    if kind in MADE:
        return copy.deepcopy(MADE[kind])
    if kind == "Some":
        return allow_null(schema_of(content))
    if kind == "NewtypeStruct":
        return schema_of(content)
    if kind == "Seq":
        return {"type": "array", "items": _items_of(content)}
    if kind in ("Tuple", "TupleStruct"):
        parts = [schema_of(part) for part in content]
        return {"type": "array", "prefixItems": parts, "minItems": len(parts), "maxItems": len(parts)}
    if kind in ("Map", "Struct"):
        return {"type": "object", "properties": {key: schema_of(part) for key, part in _members(content).items()}}
    if kind == "CollectMap":
        return {"type": "object", "additionalProperties": _values_of(content)}
    return True


def _titled(sample):
    """The schema with the name of the outermost struct that has one."""
    kind, name, content = _parts(sample)
    schema = _titled(content) if kind == "NewtypeStruct" else schema_of(sample)
    return {**schema_object(schema), "title": name} if kind.endswith("Struct") and kind != "UnitStruct" and name else schema


def schema_object(schema):
    """The schema as an object of its own."""
    return copy.deepcopy(ensure_object(schema))


def kind_answer(dialect, sample):
    """The root document of an example in a dialect, as a line."""
    dialect = DIALECTS[dialect]
    document = schema_object(_titled(sample))
    try:
        document["examples"] = [json_form(sample)]
    except TooLarge:
        pass
    document["$schema"] = dialect.meta_schema
    return write(dialect.transformed(document))


def _draw_leaf(draw):
    name = draw.pick(NAMES)
    return draw.pick([
        lambda: {"Bool": draw.chance(0.5)},
        lambda: {"Int": _in_text(draw.pick(INTEGERS))},
        lambda: {"UInt": _in_text(draw.pick(NUMBERS))},
        lambda: {"Float": draw.pick(FLOATS)},
        lambda: {"Char": draw.pick("aé🚀\n")},
        lambda: {"Str": draw.pick(TEXTS)},
        lambda: {"CollectStr": draw.pick(TEXTS)},
        lambda: {"Bytes": [draw.below(256) for _ in range(draw.below(4))]},
        lambda: {draw.pick(["None", "Unit"]): None},
        lambda: {"UnitStruct " + name: None},
        lambda: {"UnitVariant " + name: None},
    ])()


def _in_text(number):
    """An integer of more than 64 bits stands in quotes."""
    return number if -2**63 <= number < 2**64 else str(number)


def draw_kind(draw, deep=3):
    """An example of any kind."""
    if deep == 0 or draw.chance(0.15):
        return _draw_leaf(draw)
    kind = draw.pick(ONE_PART + ITEMS + ENTRIES)
    key = kind + " " + draw.pick(NAMES) if kind.endswith(("Struct", "Variant")) else kind
    if kind in ONE_PART:
        return {key: draw_kind(draw, deep - 1)}
    parts = [draw_kind(draw, deep - 1) for _ in range(draw.below(4))]
    parts += copy.deepcopy(parts[:draw.below(2)])
    if kind in ITEMS:
        return {key: parts}
    return {key: [{draw.pick(KEYS): part} for part in parts]}


CALLS = [f"{call} {dialect}" for dialect in DIALECTS for call in ("into_root_schema_for_value", "root_schema_for_value")]

# The words of each call: how to draw the example that it is made on, and the line that it gives.
KIND_CALLS = {words: (draw_kind, lambda sample, words=words: kind_answer(words.split()[1], sample))
              for words in CALLS + ["schema_for_value 2020-12"]}
