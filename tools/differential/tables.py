"""Random tables of types, by profiles that each look at one side of the program."""
from typing import NamedTuple

from draw import KEYWORDS, MEMBERS
from rows import INTEGERS, OF_ONE, PAIRS, SIZED

NAMES = ["title", "T", "Node", "Config", "~1", "é", "$ref", "%41", "B", "A", "x y", "", "a/b", "Config2"]
ODD_NAMES = ["a\nb", '"q"', "back\\slash", "\u0001", "\u007f", "🚀", "~0", "%", "a~b/c", "#/$defs/A", "<>",
             "a b|c`{}^", "\u2028", "$defs", "日本", "!$&'()*+,-.", ":;=?@_", "[x]", "\t", "\u0000"]
# Names that further numbers make equal to each other.
NUMBERED = [["Config", "Config2", "Config22", "Config3", "Config23", "Config222"], ["", "2", "22", "3", "23"],
            ["Tree", "Tree1", "Tree10", "Tree2", "Tree3", "Tree4"], ["1", "11", "12", "2", "21"], ["é", "é2", "é3"], ["A"]]
POOLS = [NAMES, NAMES, NAMES + ODD_NAMES, ["A", "B", "Config"], *NUMBERED]
PAYLOADS = ["newtype", "newtype", "newtype", "tuple", "struct"]
VARIANTS = ["U", "V", "W", "type", "a/b", "é", "A", "B", "x", "a", "", "x y", "properties", "$ref", "null"]
TAGS = ["t", "type", "a", "tag", "x", "", "é", "properties"]
CONTENTS = ["c", "content", "value", "b", "x y", "required", "$ref", "", "a"]

ANNOTATIONS = {"title": "own", "description": "d", "format": "f", "default": 1, "deprecated": True,
               "examples": [{"b": 1, "a": 2}], "readOnly": False, "x-k": {"z": 1, "type": 2}}
DEFINITION_NOTES = [3, None, "x", [], {}, True, {"A": True}, {"A": {"title": 5}, "B": 3, "Config": {}}]

DIALECT_WORDS = ["2020-12", "2020-12", "2020-12", "draft-07", "2019-09", "openapi3"]

# Keywords of literals by what becomes of them, and the types beside them.
OBJECT_LITERALS = (["properties", "patternProperties", "required", "additionalProperties", "oneOf", "anyOf",
                    "unevaluatedProperties", "allOf", "if", "then", "else", "$ref", "not", "title", "x-k"],
                   ["object", "object", "object", "null", ["object", "null"]])
TEXT_LITERALS = (["pattern", "enum", "minimum", "const", "anyOf", "title"],
                 ["string", "string", "string", "integer", "integer", "number", ["string"]])
NULL_LITERALS = (["enum", "const", "anyOf", "oneOf", "allOf", "not", "$ref", "if", "format"],
                 ["null", "string", ["string", "null"], ["string"]])

LEAVES = {"null": 1, "bool": 1, "number": 1, "text": 1, "char": 1, "any": 1, "bytes": 1, "schema": 1,
          "int": 2, "nonzero": 2, "format": 1}
STRUCTS = LEAVES | {"struct": 8, "option": 4, "tuple": 3, "newtype": 2, "array": 2, "set": 2, "seq": 2,
                    "up_to": 1}
ENUMS = STRUCTS | {"external": 4, "untagged": 4, "internal": 4, "adjacent": 4, "result": 3, "bound": 2,
                   "range": 2, "either": 2, "map": 3}
PARTS = {"struct": 20, "external": 8, "internal": 5, "adjacent": 5, "untagged": 5, "option": 16, "literal": 12,
         "newtype": 4, "map": 4, "result": 2}
NULLABLE = {"option": 16, "literal": 10, "newtype": 6, "struct": 4, "untagged": 3, "external": 2,
            "adjacent": 2, "either": 2}
KEYS = {"map": 3, "untagged": 24, "newtype": 4, "literal": 16, "external": 5, "int": 4, "nonzero": 1,
        "any": 8, "option": 1, "text": 1, "internal": 1, "adjacent": 2}
TAGGED = {"internal": 16, "adjacent": 4, "struct": 10, "newtype": 6, "literal": 6, "external": 4, "untagged": 4,
          "map": 4, "option": 3, "null": 6}
KEYED = {"adjacent": 20, "struct": 8, "option": 5, "newtype": 4, "internal": 4, "external": 2, "untagged": 2,
         "literal": 3, "map": 3, "tuple": 2, "seq": 2}
CYCLIC = {"struct": 8, "newtype": 6, "untagged": 5, "internal": 5, "adjacent": 5, "option": 5, "external": 2,
          "map": 2}


class Profile(NamedTuple):
    """How often a table has what: kinds of rows by weights, and shares of the rest."""
    weights: dict
    root: str | None = None
    notes: float = 0
    flattened: float = 0
    loops: float = 0.1
    pools: list = POOLS
    in_place: tuple = (0.1, 0.3, 0.6, 0.9)
    literals: list = [OBJECT_LITERALS, TEXT_LITERALS, NULL_LITERALS]
    root_notes: bool = False


PROFILES = {
    "structs": Profile(STRUCTS),
    "literals": Profile(ENUMS | {"literal": 5}, notes=0.3, flattened=0.3),
    "notes": Profile(ENUMS | {"literal": 5}, notes=0.7, flattened=0.25),
    "options": Profile(LEAVES | NULLABLE, "option", notes=0.15, flattened=0.2, literals=[NULL_LITERALS]),
    "keys": Profile(KEYS, "map", notes=0.1, literals=[TEXT_LITERALS]),
    "flattened": Profile(LEAVES | PARTS, "struct", notes=0.15, flattened=0.8),
    "tagged": Profile(LEAVES | TAGGED, "internal", notes=0.25, flattened=0.3),
    "keyed": Profile(LEAVES | KEYED, "adjacent", notes=0.25, flattened=0.3),
    "definitions": Profile(ENUMS, root_notes=True, in_place=(0, 0.2)),
    "names": Profile(ENUMS | {"struct": 20, "tuple": 10}, loops=0.3, pools=NUMBERED, in_place=(0, 0.1, 0.3)),
    "faults": Profile(CYCLIC, flattened=0.7, loops=0.7, in_place=(0, 0, 0.2, 0.4)),
}


class Rows:
    """Draws the rows of one table, from the root on."""

    def __init__(self, draw, profile):
        self.draw = draw
        self.profile = profile
        count = draw.pick([1, 3, 4, 5, 6, 8, 10, 12, 15])
        self.free = draw.random.sample(range(count), count)
        self.rows = {}
        self.open = []
        self.names = draw.pick(profile.pools)
        self.in_place = draw.pick(profile.in_place)
        self.keyword_notes = draw.chance(0.4)

    def table(self):
        """The whole table."""
        root = self.add(self.profile.root or self.draw.weighted(self.profile.weights))
        if self.profile.root_notes:
            names = self.draw.some(["$defs", "definitions", "title"], 3)
            self.rows[root]["notes"] = {name: self.draw.pick(DEFINITION_NOTES) for name in names}
        numbers = list(self.rows)
        while self.free:
            self.add(self.draw.weighted(LEAVES))
        return {"types": [self.rows[number] for number in sorted(self.rows)],
                "root": root if self.draw.chance(0.8) else self.draw.pick(numbers)}

    def add(self, kind):
        """The number of a new row of this kind."""
        number = self.free.pop()
        self.open.append(number)
        row = {"id": f"id{number}", "name": self.draw.pick(self.names), "shape": self._shape(kind)}
        self.open.remove(number)
        if self.draw.chance(self.in_place):
            row["inline"] = True
        self.rows[number] = self._noted(row)
        return number

    def _row(self):
        """The number of a row: a new one, one that is done, or one that is being drawn."""
        known = self.open if self.draw.chance(self.profile.loops) or not self.rows else list(self.rows)
        if not self.free or self.draw.chance(0.15):
            return self.draw.pick(known)
        deep = len(self.open) > 4 or (len(self.free) < 3 and self.draw.chance(0.5))
        return self.add(self.draw.weighted(LEAVES if deep else self.profile.weights))

    def _noted(self, members):
        """With notes, in the profile's share: annotations, or keywords of any kind."""
        if not self.draw.chance(self.profile.notes):
            return members
        if self.keyword_notes:
            notes = self.draw.with_keywords(KEYWORDS, 3)
        else:
            notes = {name: ANNOTATIONS[name] for name in self.draw.some(list(ANNOTATIONS), 2)}
        return members | {"notes": notes}

    def _with_required(self, members):
        if self.draw.chance(0.55):
            members["required"] = self.draw.pick([True, False, False, {
                "deserialize": self.draw.chance(0.5), "serialize": self.draw.chance(0.5)}])
        return members

    def _distinct(self, pool, most):
        names = self.draw.some(pool, most)
        return names + names[:1] if self.draw.chance(0.03) else names

    def _fields(self):
        names = self._distinct(MEMBERS[:8] if self.draw.chance(0.6) else MEMBERS, 3)
        fields = {"fields": [self._noted(self._with_required({"name": name, "type": self._row()}))
                             for name in names]}
        if self.draw.chance(self.profile.flattened):
            parts = [self.add(self.draw.weighted(PARTS)) if self.free else self._row()
                     for _ in range(self.draw.below(4))]
            fields["flatten"] = [self._with_required({"type": part}) for part in parts]
        if self.draw.chance(0.45):
            fields["closed"] = self.draw.chance(0.7)
        return fields

    def _variants(self, payloads, units):
        variants = []
        for name in self._distinct(VARIANTS, 4):
            variant = {"name": name}
            if not self.draw.chance(units):
                kind = self.draw.pick(payloads)
                variant["payload"] = {kind: self._content(kind)}
            elif self.draw.chance(0.3):
                variant["payload"] = "unit"
            variants.append(self._noted(variant))
        return variants

    def _literal(self):
        if self.draw.chance(0.3):
            return self.draw.schema()
        keywords, types = self.draw.pick(self.profile.literals)
        literal = self.draw.with_keywords(keywords, 3)
        return literal | {"type": self.draw.pick(types)} if self.draw.chance(0.8) else literal

    def _shape(self, kind):
        if kind in LEAVES and kind not in ("int", "nonzero", "format"):
            return kind
        return {kind: self._content(kind)}

    def _content(self, kind):
        if kind in OF_ONE:
            return self._row()
        if kind in SIZED:
            return {"of": self._row(), SIZED[kind]: self.draw.pick([0, 1, 2, 7, 2**64 - 1])}
        if kind in PAIRS:
            return {name: self._row() for name in PAIRS[kind]}
        if kind == "tuple":
            return [self._row() for _ in range(self.draw.below(4))]
        if kind == "struct":
            return self._fields()
        if kind == "internal":
            return {"tag": self.draw.pick(TAGS), "closed": self.draw.chance(0.4),
                    "variants": self._variants(["newtype", "newtype", "struct"], 0.2)}
        if kind == "adjacent":
            return {"tag": self.draw.pick(TAGS), "content": self.draw.pick(CONTENTS),
                    "closed": self.draw.chance(0.4), "variants": self._variants(PAYLOADS, 0.3)}
        if kind in ("external", "untagged"):
            units = self.draw.pick([0.35, 0.8, 1]) if kind == "external" else 0.2
            return {"variants": self._variants(PAYLOADS, units)}
        if kind == "literal":
            return self._literal()
        return self.draw.pick(["date", "", "uuid", "é"] if kind == "format" else INTEGERS)


def draw_words(draw):
    """The words that ask for its document."""
    flags = ["--inline"] * draw.chance(0.25) + ["--serialize"] * draw.chance(0.35)
    draw.random.shuffle(flags)
    return ["types", draw.pick(DIALECT_WORDS), *flags]
