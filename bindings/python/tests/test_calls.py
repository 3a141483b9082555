"""Calls, refusals by name, and types that no table describes."""

import collections
import enum
import json
from dataclasses import dataclass, field
from typing import Annotated, Generic, Literal, Optional, TypedDict, TypeVar, Union

import pytest
import schemars_proved
from classes import Color, Node, Point
from schemars_proved import Bounds, NoTable, lint, sample, schema_for, table_for, types

BYTES = '{"types":[{"id":"uint8","name":"uint8","inline":true,"shape":{"int":"u8"}}],"root":0}'


def test_inputs_are_texts_bytes_or_values():
    line = types(BYTES)
    assert line == types(BYTES.encode()) == types(json.loads(BYTES))
    assert line.endswith("}\n")
    assert json.loads(line)["maximum"] == 255


def test_dialects():
    assert json.loads(types(BYTES, "draft-07"))["$schema"] == "http://json-schema.org/draft-07/schema#"
    assert types(BYTES, "openapi3") == "{}\n"
    for word in ("draft-04", "", 7):
        with pytest.raises(ValueError, match="is no dialect"):
            types(BYTES, word)
        with pytest.raises(ValueError, match="is no dialect"):
            sample("1", word)


def test_flags():
    table = table_for(Optional[Point])
    assert "$defs" in json.loads(types(table))
    assert "$defs" not in json.loads(types(table, inline=True))
    node = table_for(Node)
    assert json.loads(types(node))["required"] == ["value"]
    assert json.loads(types(node, serialize=True))["required"] == ["value", "next"]
    assert schema_for(Node, serialize=True)["required"] == ["value", "next"]


def test_sample():
    assert json.loads(sample({"a": [1, "x"]}))["properties"]["a"]["type"] == "array"
    assert json.loads(sample('"text"'))["type"] == "string"
    long = list(range(5000))
    assert json.loads(sample(long))["examples"] == [long]


def test_lint():
    assert lint(BYTES) == ("plain", "plain\n")
    verdict, text = lint({"types": [], "root": 0})
    assert verdict == "refused" and text.startswith("fault: ") and text.endswith("refused\n")
    assert lint("{")[0] == "refused"


ROW = {"id": "a", "name": "a"}


@pytest.mark.parametrize(
    "error, table",
    [
        (schemars_proved.NotJson, "{"),
        (schemars_proved.NotJson, b'"\xff"'),
        (schemars_proved.BadTable, {"types": [], "root": 0}),
        (schemars_proved.RepeatedName, {"types": [{**ROW, "shape": {"struct": {"fields": [{"name": "x", "type": 0}] * 2}}}], "root": 0}),
        (schemars_proved.DirectCycle, {"types": [{**ROW, "inline": True, "shape": {"seq": 0}}], "root": 0}),
        (schemars_proved.EmptyCycle, {"types": [{**ROW, "shape": {"newtype": 0}}], "root": 0}),
        (
            schemars_proved.DefinitionsPath,
            {"types": [{**ROW, "shape": {"seq": 1}, "notes": {"$defs": 1}}, {"id": "b", "name": "b", "shape": "text"}], "root": 0},
        ),
    ],
)
def test_refusals_have_names(error, table):
    with pytest.raises(error) as told:
        types(table)
    assert isinstance(told.value, schemars_proved.SchemarsError)
    assert str(told.value).startswith(f"{error.status} {error.__name__}")
    assert bool(told.value.faults) == (error is not schemars_proved.DefinitionsPath)


def test_faults_have_places():
    with pytest.raises(schemars_proved.BadTable) as told:
        types({"types": [{**ROW, "shape": {"seq": 7}}], "root": 0})
    assert told.value.faults == ("/types/0/shape/seq: 7 is no row of a table of 1",)


def test_local_classes_name_each_other():
    @dataclass
    class First:
        other: "Second"

    @dataclass
    class Second:
        other: Optional["First"]

    assert set(schema_for(First)["$defs"]) == {"Second"}


def test_numbers_of_examples():
    with pytest.raises(schemars_proved.NotWhole):
        sample(str(2**64))
    with pytest.raises(ValueError):
        sample(float("nan"))


T = TypeVar("T")


class Flags(enum.Flag):
    A = 1


class Nothing(enum.Enum):
    pass


class Odd(enum.Enum):
    A = object()


@dataclass
class Lost:
    it: "Unknown"  # noqa: F821


@dataclass
class Twice:
    a: int
    b: int = field(metadata={"name": "a"})


@dataclass
class Numbered:
    a: int = field(metadata={"name": 1})


@dataclass
class Holder:
    inner: list[dict[str, bytes]]


@dataclass
class Open(Generic[T]):
    it: T


class Plain:
    pass


@pytest.mark.parametrize(
    "cls, words",
    [
        (bytes, "JSON has no bytes"),
        (complex, "no complex"),
        (Plain, "no table describes"),
        (Flags, "set of flags"),
        (Nothing, "no member"),
        (Odd, "is no JSON"),
        (Lost, "Lost: 'Unknown' names no type"),
        (Twice, "Twice: two fields have the name 'a'"),
        (Numbered, "Numbered.a: the name of a field is a text"),
        (Holder, r"Holder.inner\[\]\[\]: JSON has no bytes"),
        (Open, "1 type variables, and 0 arguments"),
        (list[T], "no argument"),
        (dict[float, int], "no type of keys"),
        (dict[Optional[str], int], "no type of keys"),
        (dict[Union[int, str], int], "no type of keys"),
        (collections.ChainMap[str, int], "with arguments"),
        (Literal[b"a"], "JSON has no bytes"),
        (Annotated[int, Bounds(min_length=1)], "no bound of a number"),
        (Annotated[int, Bounds(ge=float("inf"))], "no bound of a number"),
        (Annotated[int, Bounds(multiple_of=0)], "above 0"),
        (Annotated[int, Bounds(ge=2**70)], "64 bits"),
        (Annotated[str, Bounds(ge=1)], "no bound of a text"),
        (Annotated[str, Bounds(max_length=-1)], "whole number from 0"),
        (Annotated[list[int], Bounds(pattern="a")], "min_length and max_length"),
        (Annotated[dict[str, int], Bounds(ge=1)], "min_length and max_length"),
        (Annotated[bool, Bounds(ge=0)], "no bounds are known"),
        ("Node", "not known here"),
        (3, "is no type"),
    ],
)
def test_what_no_table_says_is_refused(cls, words):
    with pytest.raises(NoTable, match=words):
        table_for(cls)


def test_classes_of_one_name():
    def made(of):
        @dataclass
        class Same:
            it: of

        return Same

    document = schema_for(tuple[made(int), made(str)])
    assert set(document["$defs"]) == {"Same", "Same2"}


def test_closed():
    assert schema_for(Point, closed=True)["additionalProperties"] is False


def test_titles_and_defaults():
    class Named(TypedDict):
        color: Color

    assert schema_for(Named)["title"] == "Named"
    assert schema_for(list[int])["title"] == "Array_of_integer"
