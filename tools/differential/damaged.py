"""Damage to inputs: to the text, and to the value that it holds."""
import json

TOKENS = ["{", "}", "[", "]", ",", ":", '"', "0", "-", "-0", "00", "1.", ".5", "1e5", "1E+5", "1e", "1e400",
          "1e-400", "0e999", "NaN", "Infinity", "null", "nul", "True", "\\", "\\u", "\\u00", "\\u0041",
          "\\ud800", "\\udc00", "\\ud83d\\ude00", "\\ud83d\\u0041", "\\x", "\\/", "\\f", "'", "\ufeff",
          "\u0001", "\u007f", "\u00a0", "\u2028", " ", "\u000c", "\u0000", "1.0", "-9223372036854775809",
          "18446744073709551616", "99999999999999999999999", '""', "[]", "{}", '"a":1,', ",,"]
VALUES = [None, True, 0, -1, 99, 1.0, -0.0, 2**64, "", "null", "unit", "u9", [], {}, [0], {"newtype": 0},
          {"int": "i8"}, {"tuple": []}, {"adjacent": {"tag": "t", "content": "c"}}, {"deserialize": True},
          {"deserialize": True, "serialize": False}]
MEMBERS = ["notes", "inline", "required", "closed", "flatten", "fields", "payload", "extra", "name", "id",
           "type", "variants", "tag", "content", "shape", "root", "types", "of", "len", "newtype", "struct",
           "tuple"]
OTHER_WORDS = ["", "types", "2020-12", "types draft-7", "types 2019-09 --inline --inline", "types openapi", "types 2020-12 --Inline", "types --inline 2020-12", "sample",
               "types 2020-12 --inline --inline", "types 2020-12 --serialize x", "Types 2020-12"]


def compact(value):
    """The text of a value without blanks."""
    return json.dumps(value, ensure_ascii=False, separators=(",", ":"))


def _draw_deep(draw):
    """A text that is nested about as deep as may be."""
    depth = draw.pick([122, 123, 124, 127, 128])
    deep = draw.pick(["[" * depth + "]" * depth, '{"a":' * depth + "1" + "}" * depth])
    table = '{"types":[{"id":"a","name":"A","notes":{"x-k":%s},"shape":{"literal":{"x":%s}}}],"root":0}'
    return draw.pick([deep, table % (deep, 0), table % (0, deep)])


def _places(value):
    """The objects and arrays with each of their members."""
    keys = value if isinstance(value, dict) else range(len(value)) if isinstance(value, list) else ()
    for key in keys:
        yield value, key
        yield from _places(value[key])


def _damage_text(draw, text):
    start = draw.below(len(text) + 1)
    if draw.chance(0.1):
        return text[:start]
    end = start + draw.pick([0, 0, 0, 1, 1, 2, 5])
    return text[:start] + ("" if draw.chance(0.2) else draw.pick(TOKENS)) + text[end:]


def _repeat_member(draw, value):
    """A row of the table with one member twice."""
    row = compact(draw.pick(value["types"]))
    again = f'"{draw.pick(["id", "name", "shape", "inline"])}":{compact(draw.pick(VALUES))}'
    doubled = draw.pick(["{" + again + "," + row[1:], row[:-1] + "," + again + "}"])
    return compact(value).replace(row, doubled, 1)


def _damage_value(draw, value):
    holder, key = draw.pick(list(_places(value)))
    kind = draw.below(3)
    if kind == 0:
        holder[key] = draw.pick(VALUES)
    elif kind == 1:
        del holder[key]
    elif isinstance(holder, list):
        holder.append(draw.pick(VALUES))
    else:
        holder[draw.pick(MEMBERS)] = draw.pick(VALUES)
    return compact(value)


def damage(draw, value):
    """The text of the value of an input, with one fault or sometimes none."""
    if draw.chance(0.04):
        return _draw_deep(draw)
    if draw.chance(0.1):
        return json.dumps(value, separators=(" , ", " : ")) + " "
    if draw.chance(0.1):
        return _repeat_member(draw, value)
    if draw.chance(0.45):
        return _damage_text(draw, compact(value))
    return _damage_value(draw, value)
