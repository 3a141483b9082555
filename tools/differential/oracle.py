"""A second implementation of the program: from the words and the input to the line that it prints."""
import copy
import itertools
from typing import NamedTuple

from dialects import DIALECTS
from edits import (CLOSING, allow_null, allow_unknown, as_flattened, encode, ensure_object, flatten,
                   parts_in_place, tag_variant, with_notes)
from jsontext import read_json, write
from rows import ENUMS, Refused, Table

USAGE = "usage: schemagen types DIALECT [--inline] [--serialize] | schemagen sample DIALECT"
FLAGS = [[], ["--inline"], ["--serialize"], ["--inline", "--serialize"]]
MOST_DOCUMENTS = 20_000

PLAIN = {"null": {"type": "null"}, "unit": {"type": "null"}, "bool": {"type": "boolean"}, "any": True,
         "number": {"type": "number"}, "text": {"type": "string"}, "schema": {"type": ["object", "boolean"]},
         "char": {"type": "string", "minLength": 1, "maxLength": 1}}
BOUNDS = {"i8": {"minimum": -128, "maximum": 127}, "i16": {"minimum": -32768, "maximum": 32767},
          "u8": {"minimum": 0, "maximum": 255}, "u16": {"minimum": 0, "maximum": 65535}}
INTEGER_PATTERNS = [None, r"^\d+$", r"^-?\d+$"]


class TooBig(Exception):
    """The documents are more than the comparison wants."""


class Keys(NamedTuple):
    """What the keys of a map can be: any text, these texts, integers by sign, texts of patterns."""
    any: bool = False
    texts: frozenset = frozenset()
    integers: int = 0
    patterns: frozenset = frozenset()

    def __or__(self, other):
        return Keys(self.any or other.any, self.texts | other.texts,
                    max(self.integers, other.integers), self.patterns | other.patterns)


ANY_KEY = Keys(any=True)


def _integer(kind):
    unsigned = kind[0] == "u"
    width = kind[1:].replace("size", "")
    schema = {"type": "integer", "format": ("uint" if unsigned else "int") + width}
    return schema | BOUNDS.get(kind, {"minimum": 0} if unsigned else {})


def _object(properties, closed=False):
    schema = {"type": "object", "properties": properties, "required": list(properties)}
    return schema | {"additionalProperties": False} if closed else schema


def _literal_keys(schema):
    """The keys that a literal schema allows, by its type and one further keyword."""
    if not isinstance(schema, dict):
        return ANY_KEY
    if schema.get("type") == "integer":
        least = schema.get("minimum")
        return Keys(integers=1 if type(least) is int and least == 0 else 2)
    if schema.get("type") == "string":
        if isinstance(schema.get("pattern"), str):
            return Keys(patterns=frozenset([schema["pattern"]]))
        texts = schema.get("enum")
        if isinstance(texts, list) and all(isinstance(text, str) for text in texts):
            return Keys(texts=frozenset(texts))
    return ANY_KEY


def _is_plain_unit(variant):
    return variant.payload.kind == "unit" and not variant.notes


class Generator:
    """Makes the documents of rows, and keeps the definitions that they refer to."""

    def __init__(self, table, root, dialect, inlining, serializing):
        self.rows = table.rows
        self.root = root
        self._path = "#/" + "/".join(dialect.path) + "/"
        self.inlining = inlining
        self.serializing = serializing
        self.definitions = {}
        self._pending = set()
        self._names = {}
        self._budget = MOST_DOCUMENTS

    def pending_document(self, number):
        """The document of a row, which is referred to within, even where rows stand in place."""
        outermost = number not in self._pending
        self._pending.add(number)
        document = self.document(number)
        if outermost:
            self._pending.discard(number)
        return document

    def document(self, number):
        """The document of a row itself, with its notes."""
        self._budget -= 1
        if self._budget < 0:
            raise TooBig
        row = self.rows[number]
        return with_notes(self._shape(row.shape), row.notes)

    def use(self, number):
        """What stands where a row is used: its document, or a reference."""
        if self.rows[number].inline or (self.inlining and number not in self._pending):
            return self.pending_document(number)
        if number == self.root:
            return {"$ref": "#"}
        name = self._name(number)
        if name not in self.definitions:
            self.definitions[name] = False
            self.definitions[name] = self.pending_document(number)
        return {"$ref": self._path + encode(name)}

    def _name(self, number):
        """The row's own name, or where another row took it, with the least free number from 2 on."""
        if number not in self._names:
            own = self.rows[number].name
            names = itertools.chain([own], (f"{own}{suffix}" for suffix in itertools.count(2)))
            self._names[number] = next(name for name in names if name not in self._names.values())
        return self._names[number]

    def _shape(self, shape):
        kind, content = shape.kind, shape.content
        if kind in PLAIN:
            return copy.deepcopy(PLAIN[kind])
        match kind:
            case "bytes":
                return {"type": "array" if self.serializing else ["array", "string"], "items": _integer("u8")}
            case "int":
                return _integer(content)
            case "nonzero":
                return _integer(content) | ({"minimum": 1} if content[0] == "u" else {"not": {"const": 0}})
            case "format":
                return {"type": "string", "format": content}
            case "literal":
                return copy.deepcopy(content)
            case "newtype":
                return self.use(content)
            case "option":
                return allow_null(self.use(content))
            case "seq":
                return {"type": "array", "items": self.use(content)}
            case "set":
                return {"type": "array", "items": self.use(content), "uniqueItems": True}
            case "up_to":
                return {"type": "array", "items": self.use(content.of), "maxItems": content.cap}
            case "range":
                return _object({"start": self.use(content), "end": self.use(content)})
        return getattr(self, "_" + kind)(content)

    def _bound(self, number):
        return {"oneOf": [_object({"Included": self.use(number)}), _object({"Excluded": self.use(number)}),
                          {"type": "string", "const": "Unbounded"}]}

    def _result(self, result):
        return {"oneOf": [_object({"Ok": self.use(result.ok)}), _object({"Err": self.use(result.err)})]}

    def _either(self, either):
        return {"oneOf": [_object({"Left": self.use(either.left)}, closed=True),
                          _object({"Right": self.use(either.right)}, closed=True)]}

    def _array(self, array):
        if array.len == 0:
            return self._tuple([])
        bounds = {"minItems": array.len, "maxItems": array.len}
        return {"type": "array", "items": self.use(array.of)} | bounds

    def _tuple(self, numbers):
        items = [self.use(number) for number in numbers]
        bounds = {"prefixItems": items, "minItems": len(items)} if items else {}
        return {"type": "array", "maxItems": len(items)} | bounds

    def _struct(self, struct):
        schema = {"type": "object"}
        properties = {field.name: with_notes(self.use(field.type), field.notes) for field in struct.fields}
        required = [field.name for field in struct.fields if field.required[self.serializing]]
        if properties:
            schema["properties"] = properties
        if required:
            schema["required"] = required
        if struct.closed:
            schema["additionalProperties"] = False
        for part in struct.flatten:
            schema = flatten(schema, self._part(part))
        return schema

    def _part(self, part):
        number = part.type
        while self.rows[number].shape.kind == "option":
            number = self.rows[number].shape.content
        optional = number != part.type and not part.required[self.serializing]
        return as_flattened(self.document(number), optional)

    def _external(self, enum):
        units = [variant.name for variant in enum.variants if _is_plain_unit(variant)]
        others = [self._external_variant(variant) for variant in enum.variants if not _is_plain_unit(variant)]
        of_units = {"type": "string", "enum": units}
        if not others:
            return of_units if units else False
        return {"oneOf": [of_units] + others if units else others}

    def _external_variant(self, variant):
        if variant.payload.kind == "unit":
            schema = {"type": "string", "const": variant.name}
        else:
            schema = _object({variant.name: self._shape(variant.payload)}, closed=True)
        return with_notes(schema, variant.notes)

    def _untagged(self, enum):
        members = [with_notes(self._shape(variant.payload), variant.notes) for variant in enum.variants]
        return {"anyOf": members} if members else False

    def _internal(self, enum):
        members = []
        for variant in enum.variants:
            payload = variant.payload
            content = self._content(payload.content) if payload.kind == "newtype" else self._shape(payload)
            tagged = tag_variant(content, enum.tag, variant.name, enum.closed)
            members.append(with_notes(tagged, variant.notes))
        return {"oneOf": members} if members else False

    def _adjacent(self, enum):
        members = []
        for variant in enum.variants:
            properties = {enum.tag: {"type": "string", "const": variant.name}}
            if variant.payload.kind != "unit":
                properties[enum.content] = self._shape(variant.payload)
            members.append(with_notes(_object(properties, enum.closed), variant.notes))
        return {"oneOf": members} if members else False

    def _content(self, number):
        """What a tag is put on: a reference only where the document can take the tag beside it."""
        document = self.document(number)
        opened = [allow_unknown(part) for part in parts_in_place(document)]
        if self.rows[number].inline or self.inlining or any(opened):
            return document
        if isinstance(document, dict):
            closed = any(document.get(keyword) is False for keyword in CLOSING)
            if closed or document.get("type") == "null":
                return document
        return self.use(number)

    def _map(self, types):
        keys = self._keys(types.key)
        patterns = set(keys.patterns)
        if keys.integers:
            patterns.add(INTEGER_PATTERNS[keys.integers])
        value = self.use(types.value) if keys.any or keys.texts or patterns else False
        schema = {"type": "object", "additionalProperties": copy.deepcopy(value) if keys.any else False}
        if patterns:
            schema["patternProperties"] = {pattern: copy.deepcopy(value) for pattern in patterns}
        if keys.texts:
            schema["properties"] = {text: copy.deepcopy(value) for text in keys.texts}
        return schema

    def _keys(self, number):
        """The keys of a map whose key type is this row; what is not told apart is any text."""
        kind, content = self.rows[number].shape.kind, self.rows[number].shape.content
        if kind in ("int", "nonzero"):
            return Keys(integers=1 if kind == "int" and content[0] == "u" else 2)
        if kind == "literal":
            return _literal_keys(content)
        if kind == "newtype":
            return self._keys(content)
        if kind == "external" and content.variants and all(map(_is_plain_unit, content.variants)):
            return Keys(texts=frozenset(variant.name for variant in content.variants))
        if kind == "untagged" and content.variants:
            return self._untagged_keys(content.variants)
        return ANY_KEY

    def _untagged_keys(self, variants):
        """The keys of all members; one that says nothing at all leaves any text alone."""
        keys = Keys()
        for variant in variants:
            if variant.payload.kind != "newtype":
                keys |= ANY_KEY
            elif self._says_nothing(variant.payload.content):
                return ANY_KEY
            else:
                keys |= self._keys(variant.payload.content)
        return keys

    def _says_nothing(self, number):
        shape = self.rows[number].shape
        while shape.kind == "newtype":
            shape = self.rows[shape.content].shape
        if shape.kind in ENUMS:
            return not shape.content.variants
        return shape.kind == "any" or (shape.kind == "literal" and isinstance(shape.content, bool))


def _root_document(table, dialect, flags):
    generator = Generator(table, table.root, dialect, "--inline" in flags, "--serialize" in flags)
    document = ensure_object(generator.pending_document(table.root))
    document.setdefault("title", table.rows[table.root].name)
    document["$schema"] = dialect.meta_schema
    if generator.definitions:
        if not isinstance(document.setdefault(dialect.path[0], {}), dict):
            raise Refused("9 DefinitionsPath")
        document[dialect.path[0]].update(generator.definitions)
    return write(dialect.transformed(document))


def _definitions(table, dialect, flags):
    generator = Generator(table, None, dialect, "--inline" in flags, "--serialize" in flags)
    generator.use(table.root)
    return write({name: dialect.transformed(schema) for name, schema in generator.definitions.items()}, "holder")


def _line(words, text):
    flags = words[2:]
    if len(words) < 2 or words[0] != "types" or words[1] not in DIALECTS or sorted(flags) not in FLAGS:
        return USAGE
    try:
        value = read_json(text)
    except ValueError:
        raise Refused("20 NotJson") from None
    table = Table(value)
    table.check()
    return (_definitions if words[1] == "openapi3" else _root_document)(table, DIALECTS[words[1]], flags)


def answer(words, text):
    """The line that the program prints, whether a document, a refusal or the usage."""
    try:
        return _line(words, text)
    except Refused as refused:
        return f"schemagen: {refused}"
