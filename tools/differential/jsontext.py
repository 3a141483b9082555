"""JSON texts and values as the program reads and writes them."""
import itertools
import json
import math
import re

DEEPEST = 127
FIRST = ["$id", "$schema", "title", "description", "type", "format", "properties"]
LAST = ["$defs", "definitions"]
HOLDERS = {"properties", "patternProperties", "dependentSchemas", "$defs", "definitions"}


def _depth(text):
    """How deep arrays and objects are nested at most."""
    outside = re.sub(r'"(?:[^"\\]|\\.)*"?', "", text, flags=re.DOTALL)
    steps = ((character in "[{") - (character in "]}") for character in outside)
    return max(itertools.accumulate(steps), default=0)


def _decimal(text):
    number = float(text)
    if not math.isfinite(number):
        raise ValueError(text + " is no number")
    return number


def _whole(text):
    """An integer where 64 bits hold it, else a decimal."""
    if text == "-0":
        return -0.0
    if len(text) < 25 and -2**63 <= int(text) <= 2**64 - 1:
        return int(text)
    return _decimal(text)


def _check_texts(value):
    """Half a surrogate pair is no text; encoding it raises a ValueError."""
    json.dumps(value, ensure_ascii=False).encode()


def _object(members):
    """The last of equal names counts, but the values of all are checked."""
    _check_texts(members)
    return dict(members)


def read_json(text):
    """The value of a text; a ValueError where it is no JSON, or nested too deep."""
    if _depth(text) > DEEPEST:
        raise ValueError("too deep")
    value = json.loads(text, object_pairs_hook=_object, parse_int=_whole, parse_float=_decimal,
                       parse_constant=_decimal)
    _check_texts(value)
    return value


def _decimal_text(number):
    """The fewest digits that read back as the number, without an exponent from 1e-5 up to 1e16."""
    sign = "-" if math.copysign(1, number) < 0 else ""
    mantissa, _, exponent = repr(abs(number)).partition("e")
    whole, _, fraction = mantissa.partition(".")
    digits = (whole + fraction).lstrip("0")
    point = int(exponent or 0) + len(digits) - len(fraction)
    digits = digits.rstrip("0")
    if not digits:
        return sign + "0.0"
    if 0 < point <= 16:
        return sign + digits[:point].ljust(point, "0") + "." + (digits[point:] or "0")
    if -5 < point <= 0:
        return sign + "0." + "0" * -point + digits
    further = "." + digits[1:] if len(digits) > 1 else ""
    return f"{sign}{digits[0]}{further}e{point - 1:+d}"


def write_scalar(value):
    """The text of a value that is no array and no object."""
    if isinstance(value, float):
        return _decimal_text(value)
    return json.dumps(value, ensure_ascii=False)


def _order(schema):
    between = [name for name in sorted(schema) if name not in FIRST + LAST]
    return [name for name in FIRST + between + LAST if name in schema]


def _kind_of_member(name, kind):
    if kind != "schema":
        return "schema" if kind == "holder" else kind
    if name in ("examples", "default") or name.startswith("x-"):
        return "value"
    return "holder" if name in HOLDERS else "schema"


def write(value, kind="schema"):
    """The text of a schema: some keywords first, some last, the others by names.

    A holder is an object whose members are schemas under names that users give: they go by names.
    So do the objects in examples, defaults and extensions, which are values.
    """
    if isinstance(value, list):
        below = "value" if kind == "value" else "schema"
        return "[" + ",".join(write(item, below) for item in value) + "]"
    if isinstance(value, dict):
        names = _order(value) if kind == "schema" else sorted(value)
        texts = [write(value[name], _kind_of_member(name, kind)) for name in names]
        return "{" + ",".join(write_scalar(name) + ":" + text for name, text in zip(names, texts)) + "}"
    return write_scalar(value)
