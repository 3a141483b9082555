"""The transforms that turn a schema into one of another dialect, each under its words of a case."""
from edits import ensure_object, is_schema, parts_in_place

FORMATS = ("date-time date time email idn-email hostname idn-hostname ipv4 ipv6 uri uri-reference iri"
           " iri-reference uri-template json-pointer relative-json-pointer regex").split()
NEW_FORMATS = ["duration", "uuid"]
KNOWN_FORMATS = {"http://json-schema.org/draft-07/schema#": FORMATS,
                 "https://json-schema.org/draft/2019-09/schema": FORMATS + NEW_FORMATS,
                 "https://json-schema.org/draft/2020-12/schema": FORMATS + NEW_FORMATS}

ONE = ["not", "if", "then", "else", "contains", "additionalProperties", "propertyNames", "additionalItems"]
LISTS = ["allOf", "anyOf", "oneOf", "prefixItems", "items"]
MAPS = ["properties", "patternProperties", "$defs", "definitions"]


def transform_below(transform, schema):
    """Transforms the subschemas that stand directly in the schema."""
    if not isinstance(schema, dict):
        return
    places = [(schema, keyword) for keyword in ONE + ["items"] if keyword in schema]
    for keyword in LISTS:
        if isinstance(schema.get(keyword), list):
            places += [(schema[keyword], position) for position in range(len(schema[keyword]))]
    for keyword in MAPS:
        if isinstance(schema.get(keyword), dict):
            places += [(schema[keyword], name) for name in schema[keyword]]
    for container, key in places:
        if is_schema(container[key]):
            container[key] = transform(container[key])


def _inner_first(edit):
    """The transform that edits each dictionary after its subschemas."""
    def transform(schema):
        transform_below(transform, schema)
        if isinstance(schema, dict):
            edit(schema)
        return schema
    return transform


def _move_reference(schema):
    if "$ref" in schema and len(schema) > 1:
        reference = schema.pop("$ref")
        parts = schema.setdefault("allOf", [])
        if isinstance(parts, list):
            parts.append({"$ref": reference})


def _keep_one_example(schema):
    examples = schema.pop("examples", None)
    if isinstance(examples, list) and examples:
        schema["example"] = examples[0]


def _constant_to_enum(schema):
    if "const" in schema:
        schema["enum"] = [schema.pop("const")]


def _prefix_to_items(schema):
    if "prefixItems" in schema:
        if "items" in schema:
            schema["additionalItems"] = schema["items"]
        schema["items"] = schema.pop("prefixItems")


def _property_names(schema):
    names = set()
    if isinstance(schema, dict) and isinstance(schema.get("properties"), dict):
        names.update(schema["properties"])
    return names.union(*map(_property_names, parts_in_place(schema)))


def _close_by_names(schema):
    """Members that a part knows of become properties, so that additionalProperties can stand in."""
    if "unevaluatedProperties" in schema:
        schema["additionalProperties"] = schema.pop("unevaluatedProperties")
        names = _property_names(schema)
        properties = schema.get("properties", {})
        if names and isinstance(properties, dict):
            schema["properties"] = dict.fromkeys(names, True) | properties


def _bools_to_objects(skip):
    """Truth values become dictionaries, but with `skip` those of additionalProperties."""
    def transform(schema):
        if isinstance(schema, bool):
            return ensure_object(schema)
        further = schema.get("additionalProperties")
        transform_below(transform, schema)
        if skip and isinstance(further, bool):
            schema["additionalProperties"] = further
        return schema
    return transform


def _add_nullable(keep_type, constant):
    """The type null becomes the keyword `nullable`."""
    def edit(schema, types):
        others = [name for name in types if name != "null"]
        schema["nullable"] = True
        if constant and not others:
            schema["const"] = None
            if not keep_type:
                del schema["type"]
        elif not keep_type:
            schema["type"] = others[0] if len(others) == 1 else others

    def transform(schema):
        if isinstance(schema, dict):
            types = schema.get("type")
            types = types if isinstance(types, list) else [types]
            if "null" in types:
                edit(schema, types)
            transform_below(transform, schema)
        return schema
    return transform


def _restrict_formats(infer, allowed, known=None):
    """Drops formats that are not allowed; those that the schema's dialect knows stay too."""
    def transform(schema):
        if not isinstance(schema, dict):
            return schema
        inner = known
        if infer and "$schema" in schema:
            dialect = schema["$schema"]
            inner = KNOWN_FORMATS.get(dialect) if isinstance(dialect, str) else None
            if inner is None:
                return schema
        name = schema.get("format")
        drops = isinstance(name, str) and name not in allowed
        if drops and (not infer or inner is not None and name not in inner):
            del schema["format"]
        transform_below(_restrict_formats(infer, allowed, inner), schema)
        return schema
    return transform


TRANSFORMS = {
    "remove_ref_siblings": _inner_first(_move_reference),
    "set_single_example": _inner_first(_keep_one_example),
    "replace_const_value": _inner_first(_constant_to_enum),
    "replace_prefix_items": _inner_first(_prefix_to_items),
    "replace_unevaluated_properties": _inner_first(_close_by_names),
    "replace_bool_schemas": _bools_to_objects(skip=False),
    "replace_bool_schemas skip": _bools_to_objects(skip=True),
    "add_nullable": _add_nullable(keep_type=False, constant=True),
    "add_nullable no_const_null": _add_nullable(keep_type=False, constant=False),
    "add_nullable keep_null_type": _add_nullable(keep_type=True, constant=True),
    "restrict_formats": _restrict_formats(infer=True, allowed=[]),
    "restrict_formats custom1": _restrict_formats(infer=True, allowed=["custom1"]),
    "restrict_formats no_inference": _restrict_formats(infer=False, allowed=[]),
}
