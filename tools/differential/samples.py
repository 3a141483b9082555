"""The document of an example value, and random examples."""
import json

from dialects import DIALECTS
from jsontext import read_json, write

KEYS = ["a", "b", "", "$ref", "properties", "é", "x y", "type", "title", "x-1", "examples", 'a"', "a\\"]
LEAVES = [None, True, False, 0, 1, -1, 2**63 - 1, -2**63, 2**64 - 1, "", "a", "é", "🚀", "\n", 'say "a"']
DECIMALS = [1.5, 36.6, -0.0, 1.0, 1e2, 5e-324, 2.0**53, -9223372036854774784.0, 18446744073709549568.0, 1e-7]
ODD_LEAVES = [2.0**64, -2.0**63, 1e21, 1.7976931348623157e308, -9223372036854777856.0]


class TooLarge(Exception):
    """A float is not between -2^63 and 2^64."""


def schema_of(value):
    """The schema of a value: null says nothing, and items of several schemas are a choice."""
    if value is None:
        return True
    if isinstance(value, bool):
        return {"type": "boolean"}
    if isinstance(value, int):
        return {"type": "integer"}
    if isinstance(value, float):
        if not -2**63 < value < 2**64:
            raise TooLarge
        return {"type": "number"}
    if isinstance(value, str):
        return {"type": "string"}
    if isinstance(value, dict):
        return {"type": "object", "properties": {key: schema_of(member) for key, member in value.items()}}
    different = []
    for schema in map(schema_of, value):
        if schema not in different:
            different.append(schema)
    if not different or True in different:
        return {"type": "array", "items": True}
    return {"type": "array", "items": different[0] if len(different) == 1 else {"anyOf": different}}


def sample_answer(dialect, text):
    """The line that the program writes for the text of an example, in a dialect."""
    try:
        value = read_json(text)
    except ValueError:
        return "schemagen: 20 NotJson"
    try:
        schema = schema_of(value)
    except TooLarge:
        return "schemagen: 22 NotWhole"
    dialect = DIALECTS[dialect]
    document = {} if schema is True else schema
    return write(dialect.transformed({**document, "examples": [value], "$schema": dialect.meta_schema}))


def draw_sample(draw, deep=4):
    """A value, seldom with a number that is too large."""
    if deep == 0 or draw.chance(0.35):
        return draw.pick(ODD_LEAVES if draw.chance(0.01) else DECIMALS if draw.chance(0.2) else LEAVES)
    if draw.chance(0.5):
        items = [draw_sample(draw, deep - 1) for _ in range(draw.below(5))]
        return items + items[:draw.below(2)]
    return {draw.pick(KEYS): draw_sample(draw, deep - 1) for _ in range(draw.below(5))}


def sample_text(draw):
    """The text of such a value, at times with spaces, or with a key twice."""
    text = json.dumps(draw_sample(draw), ensure_ascii=False, separators=(", ", " : ") if draw.chance(0.1) else (",", ":"))
    if text.startswith("{") and len(text) > 2 and draw.chance(0.1):
        return '{"a":[1],' + text[1:]
    return text
