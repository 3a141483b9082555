"""The edits of schemas that documents are put together with.

A schema is True, False or a dictionary. An edit may change the dictionary that it is given, and
returns the edited schema.
"""
import copy
import urllib.parse

CLOSING = ["additionalProperties", "unevaluatedProperties"]
CONDITIONS = ["if", "allOf", "anyOf", "oneOf", "$ref"]


def is_schema(value):
    """Whether the value can be a schema."""
    return isinstance(value, (bool, dict))


def ensure_object(schema):
    """A truth value as the dictionary that says the same."""
    if isinstance(schema, bool):
        return {} if schema else {"not": {}}
    return schema


def _has_conditions(schema):
    return any(keyword in schema for keyword in CONDITIONS)


def with_notes(schema, notes):
    """The schema with further keywords, which win."""
    if not notes:
        return schema
    return ensure_object(schema) | copy.deepcopy(notes)


def _admits_null(schema):
    if not isinstance(schema, dict) or schema.get("type") != "null" or schema.get("const") is not None:
        return False
    return not isinstance(schema.get("enum"), list) or None in schema["enum"]


def _widen_values(schema):
    """Null among the types, and among the values of an enum or beside a constant."""
    types = schema.get("type")
    if isinstance(types, list) and "null" not in types:
        types.append("null")
    elif isinstance(types, str) and types != "null":
        schema["type"] = [types, "null"]
    if "const" in schema:
        if schema["const"] is not None:
            schema["enum"] = [schema.pop("const"), None]
    elif isinstance(schema.get("enum"), list) and None not in schema["enum"]:
        schema["enum"].append(None)


def allow_null(schema):
    """The schema that admits null too."""
    if isinstance(schema, bool):
        return schema or {"type": "null"}
    members = schema.get("anyOf")
    if len(schema) == 1 and isinstance(members, list) and any(map(_admits_null, members)):
        return schema
    refuses_all = schema.get("not") is True or schema.get("not") == {}
    if refuses_all or _has_conditions(schema):
        return {"anyOf": [schema, {"type": "null"}]}
    _widen_values(schema)
    return schema


def tag_variant(schema, tag, name, closed):
    """The schema of an object that names its variant under a tag."""
    schema = ensure_object(schema)
    is_unit = schema.get("type") == "null"
    schema["type"] = "object"
    properties = schema.setdefault("properties", {})
    if isinstance(properties, dict):
        properties[tag] = {"type": "string", "const": name}
    required = schema.setdefault("required", [])
    if isinstance(required, list):
        required.insert(0, tag)
    if closed and is_unit:
        schema.setdefault("additionalProperties", False)
    return schema


def parts_in_place(schema):
    """The subschemas that look at the same value as the schema."""
    if not isinstance(schema, dict):
        return
    for keyword in ("allOf", "anyOf", "oneOf"):
        if isinstance(schema.get(keyword), list):
            yield from filter(is_schema, schema[keyword])
    for keyword in ("if", "then", "else"):
        if is_schema(schema.get(keyword)):
            yield schema[keyword]


def allow_unknown(schema):
    """Drops what forbids further members, in place and below; tells whether there was any."""
    if not isinstance(schema, dict):
        return False
    closing = [keyword for keyword in CLOSING if schema.get(keyword) is False]
    for keyword in closing:
        del schema[keyword]
    opened = [allow_unknown(part) for part in parts_in_place(schema)]
    return bool(closing) or any(opened)


def _flatten_keyword(schema, keyword, value):
    if keyword not in schema:
        schema[keyword] = value
        return
    own = schema[keyword]
    if keyword in ("required", "allOf"):
        if isinstance(own, list) and isinstance(value, list):
            own.extend(value)
    elif keyword in ("properties", "patternProperties"):
        if isinstance(own, dict) and isinstance(value, dict):
            own.update(value)
    elif keyword in ("oneOf", "anyOf"):
        del schema[keyword]
        _flatten_keyword(schema, "allOf", [{keyword: own}, {keyword: value}])


def _look_further(schema, other):
    """Beside conditions, members that the other schema knows of count as known too."""
    if "additionalProperties" in schema and ("unevaluatedProperties" in other or _has_conditions(other)):
        schema["unevaluatedProperties"] = schema.pop("additionalProperties")


def flatten(schema, other):
    """The schema of one object that has the members of both."""
    if other is False:
        return schema
    if other is True:
        if isinstance(schema, dict) and not any(keyword in schema for keyword in CLOSING):
            keyword = "unevaluatedProperties" if _has_conditions(schema) else "additionalProperties"
            schema[keyword] = True
        return schema
    schema = ensure_object(schema)
    _look_further(schema, other)
    _look_further(other, schema)
    for keyword in sorted(other):
        _flatten_keyword(schema, keyword, other[keyword])
    return schema


def _is_enum_of_texts(part):
    return isinstance(part, dict) and part.get("type") == "string" and isinstance(part.get("enum"), list)


def _take_unit_names(schema):
    """The names of unit variants, which the schema gives up; None where it has none."""
    if _is_enum_of_texts(schema):
        del schema["type"]
        return schema.pop("enum")
    members = schema.get("oneOf")
    if isinstance(members, list) and members and _is_enum_of_texts(members[0]):
        return members.pop(0)["enum"]
    return None


def _make_optional(schema):
    schema.pop("required", None)
    if "oneOf" in schema:
        schema = flatten(schema, {"anyOf": [{"oneOf": schema.pop("oneOf")}, {}]})
    members = schema.get("anyOf")
    if isinstance(members, list) and {} not in members:
        members.append({})
    return schema


def as_flattened(schema, optional):
    """The schema of a type as a part of another: unit variants are members, and none is closed."""
    if isinstance(schema, dict):
        names = _take_unit_names(schema)
        members = [] if names is None else schema.setdefault("oneOf", [])
        if isinstance(members, list):
            members.extend({"type": "object", "properties": {name: {"type": "null"}}, "required": [name]}
                           for name in names or [] if isinstance(name, str))
        if optional:
            schema = _make_optional(schema)
    allow_unknown(schema)
    return schema


def encode(name):
    """A name as a part of a JSON pointer that stands in the fragment of a URI."""
    pointer = name.replace("~", "~0").replace("/", "~1")
    return urllib.parse.quote(pointer, safe="!$&'()*+,:;=?@~")
