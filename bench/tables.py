#!/usr/bin/env python3
"""Writes a type table for `schemagen types` to standard output: tables.py KIND N

tree      N structs of three fields, a truth value and two structs, that form a binary tree
names     a tuple of N structs that all have one name
chain     N structs, each with the next one as its field
branches  a chain of N structs, each with a branch of N structs that ends in the one before it in the chain
mixed     the types of an API, at least N: structs with notes, enums of each kind, maps, lists, tuples, flattened structs
flattened sixteen rows at a time, at least N: a chain of eight structs, each flattened into the one
          before it, and a struct into which six structs and an enum are flattened
wide      a struct of N fields, each with two notes
variants  an enum of N variants with a tag inside
notes     a struct with N notes, and a field with N notes
"""
import json
import sys

BOOL = {"id": "boolean", "name": "boolean", "inline": True, "shape": "bool"}


def struct(i, name, fields):
    fields = [{"name": field, "type": row} for field, row in fields]
    return {"id": f"S{i}", "name": name, "shape": {"struct": {"fields": fields}}}


def tree(n):
    rows = []
    for i in range(n):
        children = [("left", 2 * i + 1), ("right", 2 * i + 2)]
        rows.append(struct(i, f"S{i}", [("leaf", n)] + [(side, min(child, n)) for side, child in children]))
    return rows + [BOOL]


def names(n):
    every = {"id": "all", "name": "All", "shape": {"tuple": list(range(1, n + 1))}}
    return [every] + [struct(i, "S", [("leaf", n + 1)]) for i in range(n)] + [BOOL]


class Api:
    """The rows of an API: those of built-in types, then ten types at a time, and the lists, maps and Options of them."""

    def __init__(self):
        self.rows = [{"id": "Api", "name": "Api"}]
        self.numbers = {}
        self.bool = self.add("boolean", "bool", inline=True)
        self.number = self.add("double", "number", inline=True)
        self.count = self.add("uint64", {"int": "u64"}, inline=True)
        self.small = self.add("uint8", {"int": "u8"}, inline=True)
        self.text = self.add("string", "text", inline=True)
        self.date = self.add("DateTime", {"format": "date-time"}, inline=True)

    def add(self, name, shape, inline=False, notes=None):
        if name in self.numbers:
            return self.numbers[name]
        self.numbers[name] = len(self.rows)
        row = {"id": name, "name": name, "shape": shape}
        if inline:
            row["inline"] = True
        if notes:
            row["notes"] = notes
        self.rows.append(row)
        return self.numbers[name]

    def option(self, row):
        return self.add(f"Option<{row}>", {"option": row}, inline=True)

    def list(self, row):
        return self.add(f"Vec<{row}>", {"seq": row}, inline=True)

    def map(self, key, value):
        return self.add(f"Map<{key}, {value}>", {"map": {"key": key, "value": value}}, inline=True)

    def group(self, k, before):
        """Ten types, of which the last has all others; a row before them is referred to."""
        level = self.add(f"Level{k}", {"external": {"variants": [
            {"name": name, "notes": {"description": f"It is {name}."}} for name in ("low", "middle", "high")]}})
        place = self.add(f"Place{k}", fields(("x", self.number), ("y", self.number)), notes={"title": "A place"})
        owner = self.add(f"Owner{k}", fields(
            ("name", self.text, {"description": "The name that is shown.", "examples": ["Ada"]}),
            ("before", self.option(before)), ("born", self.option(self.date)), ("level", level)),
            notes={"description": f"Who owns a thing of kind {k}."})
        change = self.add(f"Change{k}", {"external": {"variants": [
            {"name": "none"}, {"name": "moved", "payload": {"newtype": place}},
            {"name": "swapped", "payload": {"tuple": [place, place]}},
            {"name": "renamed", "payload": fields(("from", self.text), ("to", self.text))}]}})
        event = self.add(f"Event{k}", {"internal": {"tag": "type", "variants": [
            {"name": "opened", "payload": fields(("by", owner), ("at", self.date))},
            {"name": "changed", "payload": fields(("change", change)), "notes": {"deprecated": True}},
            {"name": "closed"}]}}, notes={"description": "What happened."})
        reply = self.add(f"Reply{k}", {"internal": {"tag": "kind", "closed": True, "variants": [
            {"name": "done", "payload": fields(("content", owner))},
            {"name": "failed", "payload": fields(("content", self.text))}]}})
        key = self.add(f"Key{k}", {"untagged": {"variants": [
            {"name": "Number", "payload": {"newtype": self.count}},
            {"name": "Name", "payload": {"newtype": self.text}},
            {"name": "Place", "payload": {"newtype": place}}]}})
        page = self.add(f"Page{k}", fields(("offset", self.count), ("limit", self.option(self.small))))
        query = self.add(f"Query{k}", {"struct": {
            "fields": listed(("words", self.list(self.text)), ("key", self.option(key))),
            "flatten": [{"type": page}]}})
        pair = self.add(f"(Place{k}, uint8)", {"tuple": [place, self.small]}, inline=True)
        return self.add(f"Thing{k}", {"struct": {"fields": [
            *listed(("key", key), ("query", query), ("events", self.list(event)), ("last", self.option(reply))),
            *listed(("by_level", self.map(level, self.count)), ("by_name", self.map(self.text, owner))),
            {"name": "active", "type": self.bool, "required": False, "notes": {"default": True}},
            {"name": "spot", "type": pair, "required": {"deserialize": False, "serialize": True}}],
            "closed": True}}, notes={"title": f"Thing {k}", "description": "A thing that has an owner."})


def listed(*fields):
    return [{"name": name, "type": row, **({"notes": notes[0]} if notes else {})} for name, row, *notes in fields]


def fields(*fields):
    return {"struct": {"fields": listed(*fields)}}


def mixed(n):
    api = Api()
    things = [0]
    for k in range((n + 9) // 10):
        things.append(api.group(k, things[-1]))
    api.rows[0]["shape"] = fields(*[(f"thing{k}", row) for k, row in enumerate(things[1:])])
    return api.rows


def chain(n):
    return [struct(i, f"S{i}", [("next", i + 1)]) for i in range(n)] + [BOOL]


def branches(n):
    rows = []
    for i in range(n):
        further = [("next", i + 1)] if i + 1 < n else []
        rows.append(struct(i, f"S{i}", further + [("branch", n + i * n)]))
    for i in range(n):
        start = n + i * n
        for k in range(start, start + n):
            rows.append(struct(k, f"S{k}", [("next", k + 1 if k + 1 < start + n else max(i - 1, 0))]))
    return rows


def flattening(name, own, parts):
    """A struct with two fields of its own and the members of these parts."""
    shape = {"fields": listed((f"{own}_count", 1), (f"{own}_name", 2)),
             "flatten": [{"type": part} for part in parts]}
    return {"id": name, "name": name, "shape": {"struct": shape}}


def tagged(name, tag):
    """An enum with a tag inside, which is flattened."""
    variants = [{"name": "open", "payload": fields((f"{tag}_since", 1))},
                {"name": "shut", "payload": fields((f"{tag}_why", 2))}]
    return {"id": name, "name": name, "shape": {"internal": {"tag": tag, "variants": variants}}}


def flattened(n):
    rows = [{"id": "All", "name": "All"},
            {"id": "uint64", "name": "uint64", "inline": True, "shape": {"int": "u64"}},
            {"id": "string", "name": "string", "inline": True, "shape": "text"}]
    heads = []
    for k in range((n + 15) // 16):
        first = len(rows)
        for i in range(8):
            rows.append(flattening(f"Link{k}x{i}", f"link{i}", [first + i + 1] if i < 7 else []))
        rows += [flattening(f"Part{k}x{i}", f"part{i}", []) for i in range(6)]
        rows.append(tagged(f"State{k}", "state"))
        rows.append(flattening(f"Fan{k}", "fan", range(first + 8, first + 15)))
        heads += [(f"chain{k}", first), (f"fan{k}", first + 15)]
    rows[0]["shape"] = fields(*heads)
    return rows


def wide(n):
    said = [(f"f{i}", 1, {"description": f"Field {i}.", "deprecated": True}) for i in range(n)]
    return [{"id": "Wide", "name": "Wide", "shape": fields(*said)}, BOOL]


def variants(n):
    each = [{"name": f"v{i}", "payload": fields(("x", 1)), "notes": {"description": f"Variant {i}."}} for i in range(n)]
    return [{"id": "Event", "name": "Event", "shape": {"internal": {"tag": "type", "variants": each}}}, BOOL]


def notes(n):
    said = {f"x-note{i}": i for i in range(n)}
    return [{"id": "Noted", "name": "Noted", "shape": fields(("x", 1, said)), "notes": said}, BOOL]


KINDS = {"tree": tree, "names": names, "chain": chain, "branches": branches, "mixed": mixed,
         "flattened": flattened, "wide": wide, "variants": variants, "notes": notes}


def main():
    if len(sys.argv) != 3 or sys.argv[1] not in KINDS:
        sys.exit(__doc__)
    rows = KINDS[sys.argv[1]](int(sys.argv[2]))
    json.dump({"types": rows, "root": 0}, sys.stdout, separators=(",", ":"))


main()
