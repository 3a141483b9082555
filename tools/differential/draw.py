"""Random JSON values and schemas, odd ones among them."""
import copy
import random

from edits import CLOSING
from transforms import FORMATS, KNOWN_FORMATS, LISTS, MAPS, NEW_FORMATS, ONE

MEMBERS = ["a", "b", "c", "x", "type", "$ref", "properties", "a/b", "é", "x y", "default", "x-1", "t", "tag",
           "title", "", "required", "U", "V", "const", "enum", "examples", "$defs", "definitions"]
TYPES = ["null", "boolean", "object", "array", "number", "string", "integer"]

NUMBERS = [0, 1, -1, 2, 5, 255, -128, 1_000_000, 2**63 - 1, -2**63, 2**64 - 1]
DECIMALS = [1.5, -0.0, 1.0, 0.25, 1e21, 1e16, 123456.75, 1e-5, 1e-7, 2.0**64, 0.001]
TEXTS = ["a", "b", "", "null", "é", 'a"b', "x y", "\n", "🚀", "U"]

BOUND = [0, 0, 0, 1, 2, 5, -1, 255, 0.0, -0.0, 1.5, "0", None]
TRUTH = [True, False]
TITLE = ["own", "d", "", "é", "line\nnext"]
SAMPLES = {
    "type": TYPES + TYPES + ["string", "object", "null", [], ["null"], ["string", "null"], ["object", "null"],
                             ["string", "null", "array"], ["null", "null"], ["string", "string"],
                             ["null", 3], [None], [1], "date", "", 5, None],
    "enum": [[], ["a"], ["a", "b"], ["U", "V", "W"], [None], [1, None], ["a", 1], ["a", None], [True],
             [{"b": 1, "title": 2}], ["x", "x"], [""],
             [1, 1.0], [0.5, -0.0]],
    "const": [None, 5, "a", [], {"title": 1, "a": 2}, False, 0, "", -2.0, 36.6, 1e2],
    "pattern": ["^[0-9a-f]*$", "^a", r"^\d+$", r"^-?\d+$", "", "^é$"],
    "required": [[], ["a"], ["b", "a"], ["a", "a"], ["x y", "é"]],
    "$ref": ["#", "#/$defs/A", "#/$defs/Config", "other", "#/properties/a"],
    "$schema": [*KNOWN_FORMATS, "s"],
    "format": ["f", "", "custom1", "custom2"] + FORMATS + NEW_FORMATS,
    "examples": [[{"b": 1, "a": 2}], [], [1, 2], [{"type": "x", "title": "y"}],
                 [[{"title": 1, "b": 2, "a": 3}]]],
    "title": TITLE, "description": TITLE, "uniqueItems": TRUTH, "deprecated": TRUTH, "readOnly": TRUTH,
    "writeOnly": TRUTH, "nullable": TRUTH, "minimum": BOUND, "maximum": BOUND, "minLength": BOUND,
    "maxLength": BOUND, "minItems": BOUND, "maxItems": BOUND, "multipleOf": BOUND,
}
ANY_VALUE = ["default", "x-k", "x-", "$id", "$comment", "zzz", ""]
KEYWORDS = [*SAMPLES, *ONE, "unevaluatedProperties", *LISTS, *MAPS, "dependentSchemas", *ANY_VALUE]
FREQUENT = ["type", "oneOf", "anyOf", "enum", "const", "allOf", "properties", "required", "$ref", "not",
            "items", "additionalProperties", "unevaluatedProperties", "format", "prefixItems", "examples"]
# Schemas that an edit looks at more closely, as members of a list.
MEMBER_SCHEMAS = [
    {"type": "null"}, {}, True, False, {"type": "null", "const": None}, {"type": "null", "const": 1},
    {"type": "null", "enum": [None, 1]}, {"type": "null", "enum": []}, {"type": "null", "enum": 3},
    {"type": ["null"]}, {"const": None}, {"type": "null", "title": "x"}, {"type": "string"}, None, 3,
    {"type": "string", "enum": ["U", "V"]}, {"type": "string", "enum": ["U", 3, None]},
    {"type": "string", "enum": "a"}, {"type": ["string"], "enum": ["U"]},
    {"additionalProperties": False}, {"unevaluatedProperties": False, "type": "object"},
    {"if": {"additionalProperties": False}}, {"not": {"additionalProperties": False}},
    {"allOf": [{"additionalProperties": False}]}, {"then": {"oneOf": [{"unevaluatedProperties": False}]}},
]


class Draw:
    """Draws from one source of random numbers."""

    def __init__(self, seed):
        self.random = random.Random(seed)
        self.pick = self.random.choice
        self.below = self.random.randrange

    def chance(self, share):
        """True in this share of the calls."""
        return self.random.random() < share

    def some(self, pool, most):
        """At most so many of the pool, each once."""
        return self.random.sample(pool, min(self.below(most + 1), len(pool)))

    def weighted(self, weights):
        """One of the names, by its weight."""
        return self.random.choices(list(weights), list(weights.values()))[0]

    def value(self, depth=0):
        """Any JSON value."""
        kind = self.below(9 if depth < 3 else 7)
        if kind < 5:
            return self.pick([[None, True, False], NUMBERS, NUMBERS, DECIMALS, TEXTS][kind])
        if kind < 7:
            return self.pick([[], {}, "a", "x y"])
        if kind == 7:
            return [self.value(depth + 1) for _ in range(self.below(4))]
        return {name: self.value(depth + 1) for name in self.some(MEMBERS, 4)}

    def schema(self, depth=0):
        """Any schema."""
        if self.chance(0.15):
            return self.pick([True, False, {"anyOf": self._schemas(depth)}])
        names = self.some(KEYWORDS, 3) + self.some(FREQUENT, 2 if depth else 4)
        return {name: self.keyword(name, depth) for name in names}

    def with_keywords(self, names, most):
        """A schema with at most so many of these keywords."""
        return {name: self.keyword(name, 1) for name in self.some(names, most)}

    def keyword(self, name, depth=0):
        """The value of a keyword: of the right kind for the most part."""
        if self.chance(0.06):
            return self.value()
        if name in SAMPLES:
            return copy.deepcopy(self.pick(SAMPLES[name]))
        if name in CLOSING and self.chance(0.7):
            return self.chance(0.4)
        if name in ANY_VALUE:
            return self.value()
        if name in LISTS and (name != "items" or self.chance(0.3)):
            return self._schemas(depth)
        if name in MAPS or name == "dependentSchemas":
            return {member: self._schema_below(depth) for member in self.some(MEMBERS, 3)}
        return self._schema_below(depth)

    def _schema_below(self, depth):
        return self.schema(depth + 1) if depth < 3 else self.pick([{}, True, False])

    def _schemas(self, depth):
        schemas = [self._schema_below(depth) for _ in range(self.below(3 if depth < 3 else 1))]
        if self.chance(0.6):
            schemas.insert(self.below(len(schemas) + 1), copy.deepcopy(self.pick(MEMBER_SCHEMAS)))
        return schemas
