"""Models of pydantic and classes of attrs, where these packages are installed."""

import enum
import json
from typing import Annotated, Generic, Optional, TypeVar

import jsonschema
import pytest
from schemars_proved import schema_for

T = TypeVar("T")
WRONG = (None, True, 0, -1, 7, 1.5, "", "x", [], ["x"], {}, {"x": 1})


class Color(enum.Enum):
    RED = "red"
    BLUE = "blue"


def models():
    """A model with what fields may have, and a value of it."""
    pydantic = pytest.importorskip("pydantic")

    class Address(pydantic.BaseModel):
        """Where somebody lives."""

        model_config = pydantic.ConfigDict(extra="forbid")
        street: str = pydantic.Field(min_length=1, description="the street")
        code: Annotated[str, pydantic.Field(pattern="^[0-9]+$")] = "000"

    class Page(pydantic.BaseModel, Generic[T]):
        items: list[T]

    class Names(pydantic.RootModel[list[str]]):
        pass

    class User(pydantic.BaseModel):
        name: str = pydantic.Field(alias="userName")
        age: Optional[int] = pydantic.Field(None, ge=0, le=150)
        tags: list[str] = pydantic.Field(default_factory=list, max_length=2)
        home: Address
        friends: list["User"] = []
        color: Color = Color.RED
        counts: dict[str, int]
        page: Page[bool]
        names: Names

    value = {
        "userName": "ada",
        "age": 36,
        "tags": ["a"],
        "home": {"street": "s", "code": "12"},
        "friends": [],
        "color": "blue",
        "counts": {"a": 1},
        "page": {"items": [True]},
        "names": ["a"],
    }
    return pydantic, User, value


def changed(value):
    """The value, and values that differ from it in one member, at any depth."""
    yield value
    for key in value:
        yield {name: it for name, it in value.items() if name != key}
        yield from ({**value, key: it} for it in WRONG)
        if isinstance(value[key], dict):
            yield from ({**value, key: it} for it in changed(value[key]))
    yield {**value, "more": 1}


def is_read(pydantic, model, value):
    """Whether pydantic reads the JSON of a value, without turning one type into another."""
    try:
        model.model_validate_json(json.dumps(value), strict=True)
    except pydantic.ValidationError:
        return False
    return True


def test_models_read_what_their_documents_accept():
    pydantic, model, value = models()
    validator = jsonschema.Draft202012Validator(schema_for(model))
    verdicts = [(it, validator.is_valid(it), is_read(pydantic, model, it)) for it in changed(value)]
    assert [it for it, accepts, reads in verdicts if accepts != reads] == []
    assert {accepts for _, accepts, _ in verdicts} == {True, False}


def test_models_have_their_own_keywords():
    _, model, _ = models()
    document = schema_for(model)
    assert document["title"] == "User"
    assert document["properties"]["color"]["default"] == "red"
    assert set(document["required"]) == {"userName", "home", "counts", "page", "names"}
    address = document["$defs"]["Address"]
    assert address["description"] == "Where somebody lives."
    assert address["additionalProperties"] is False
    assert address["properties"]["street"] == {"description": "the street", "type": "string", "minLength": 1}


def test_classes_of_attrs():
    attrs = pytest.importorskip("attrs")

    @attrs.define
    class Entry:
        key: str
        next: Optional["Entry"] = None
        tags: list[str] = attrs.field(factory=list, metadata={"description": "words", "name": "words"})
        made: int = attrs.field(init=False)

    document = schema_for(Entry)
    assert document["required"] == ["key"]
    assert document["properties"] == {
        "key": {"type": "string"},
        "made": {"type": "integer"},
        "next": {"anyOf": [{"$ref": "#"}, {"type": "null"}], "default": None},
        "words": {"description": "words", "type": "array", "default": [], "items": {"type": "string"}},
    }
