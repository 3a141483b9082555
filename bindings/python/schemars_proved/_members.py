"""The members of classes of pydantic and attrs, neither of which is imported."""

import dataclasses
import typing


@dataclasses.dataclass(frozen=True)
class Member:
    """A member of a class: its attribute, its key in JSON, its type, whether it has to be there when it is read, its
    description and its default, `MISSING` if it has none, and what bounds may be among."""

    attribute: str
    name: str
    hint: typing.Any
    required: bool
    default: typing.Any
    description: typing.Optional[str] = None
    notes: typing.Sequence[typing.Any] = ()


def is_model(cls):
    """Whether a class is a model of pydantic."""
    return isinstance(getattr(cls, "__pydantic_fields__", None), dict) and hasattr(cls, "model_config")


def is_attrs(cls):
    """Whether attrs made the class."""
    return isinstance(cls.__dict__.get("__attrs_attrs__"), tuple)


def model_members(cls):
    """The members of a model. The key of a field is its alias."""
    if not cls.__pydantic_complete__:
        cls.model_rebuild(raise_errors=False)
    return [_model_member(name, info) for name, info in cls.__pydantic_fields__.items()]


def _model_member(name, info):
    alias = info.alias if isinstance(info.alias, str) else name
    default = dataclasses.MISSING if info.is_required() else _made(info.default, info.default_factory)
    return Member(name, alias, info.annotation, info.is_required(), default, info.description, info.metadata)


def attrs_members(cls):
    """The members of a class of attrs. The metadata of a field may have a `name` and a `description`."""
    for it in cls.__attrs_attrs__:
        factory = getattr(it.default, "factory", None)
        is_needed = type(it.default).__name__ == "_Nothing"
        default = dataclasses.MISSING if is_needed else _made(None if factory else it.default, factory)
        name, description = (it.metadata.get(key) for key in ("name", "description"))
        yield Member(it.name, name or it.name, it.type, is_needed and it.init, default, description)


def _made(default, factory):
    """A default, or what is made of a factory that always makes the same."""
    if factory is None:
        return default
    return factory() if factory in (list, dict, set, frozenset, tuple) else factory
