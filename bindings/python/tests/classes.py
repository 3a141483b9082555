"""The types whose documents and values are tested: CLASSES has them by name."""

import collections
import datetime
import decimal
import enum
import ipaddress
import pathlib
import typing
import uuid
from dataclasses import dataclass, field
from typing import Annotated, Any, ClassVar, Final, Generic, Literal, NamedTuple, NewType, Optional, TypedDict, TypeVar, Union

from typing import NotRequired, Required, Self  # Python 3.11

from schemars_proved import Bounds

CLASSES = {}


def tested(cls, name=None):
    CLASSES[name or cls.__name__] = cls
    return cls


# ---- dataclasses


@tested
@dataclass
class Empty:
    pass


@tested
@dataclass
class Scalars:
    whole: int
    real: float
    text: str
    truth: bool
    nothing: None


@tested
@dataclass
class Defaults:
    a: int = 3
    b: float = 0.5
    c: str = "x"
    d: bool = True
    e: Optional[int] = None


@tested
@dataclass
class Factories:
    names: list[str] = field(default_factory=list)
    counts: dict[str, int] = field(default_factory=dict)
    made: list[int] = field(default_factory=lambda: [1, 2])


@tested
@dataclass
class Described:
    """A class with a description.

    It has two lines.
    """

    width: Annotated[int, "in millimetres"]
    height: int = field(metadata={"description": "from the ground"})


@tested
@dataclass
class Renamed:
    from_: str = field(metadata={"name": "from"})
    to: str = field(metadata={"name": "to address"})
    kind: int = field(default=1, metadata={"name": "$kind"})


@tested
@dataclass
class Parent:
    id: int


@tested
@dataclass
class Child(Parent):
    """Has the field of its base too."""

    name: str


@tested
@dataclass(frozen=True, order=True)
class Frozen:
    x: int
    shared: ClassVar[int] = 7


@tested
@dataclass(kw_only=True)
class Keywords:
    first: int = 0
    second: str


@tested
@dataclass
class Point:
    x: float
    y: float


@tested
@dataclass
class Line:
    start: Point
    end: Point = field(default_factory=lambda: Point(0.0, 0.0))


@tested
@dataclass(frozen=True)
class Origin:
    x: int = field(metadata={"name": "X"})


@tested
@dataclass
class DefaultObject:
    at: Origin = Origin(4)


@tested
@dataclass
class Node:
    value: int
    next: Optional["Node"] = None


@tested
@dataclass
class Tree:
    label: str
    children: list["Tree"] = field(default_factory=list)


@tested
@dataclass
class Even:
    odd: Optional["Odd"]


@tested
@dataclass
class Odd:
    even: Optional[Even]


T = TypeVar("T")
U = TypeVar("U")


@tested
@dataclass
class Box(Generic[T]):
    """Holds one thing."""

    it: T


del CLASSES["Box"]
tested(Box[int], "Box[int]")
tested(Box[list[str]], "Box[list[str]]")


@tested
@dataclass
class Boxes:
    a: Box[int]
    b: Box[str]
    c: Box[int]


@dataclass
class Pair(Generic[T, U]):
    first: T
    second: Optional[U] = None


tested(Pair[int, Pair[str, bool]], "Pair[int, Pair[str, bool]]")

# ---- typed dictionaries


@tested
class Movie(TypedDict):
    """A film."""

    title: str
    year: int


@tested
class Partial(TypedDict, total=False):
    a: int
    b: str


@tested
class Mixed(TypedDict):
    needed: int
    extra: NotRequired[str]


@tested
class Late(TypedDict, total=False):
    needed: Required[int]
    extra: Annotated[str, "may be left out"]


@tested
class Derived(Movie):
    rating: float


Odd_keys = tested(TypedDict("Odd_keys", {"class": int, "with space": str, "é": NotRequired[bool]}))


@tested
class Folder(TypedDict):
    files: list[str]
    folders: dict[str, "Folder"]


# ---- named tuples


@tested
class Coordinate(NamedTuple):
    """A place on earth."""

    latitude: float
    longitude: float


@tested
class Labelled(NamedTuple):
    label: str
    at: Coordinate
    tags: list[str] = []


Untyped = tested(collections.namedtuple("Untyped", "a b"))

# ---- enums


@tested
class Color(enum.Enum):
    """A colour."""

    RED = "red"
    GREEN = "green"
    BLUE = "blue"


@tested
class Level(enum.IntEnum):
    LOW = 1
    HIGH = 3


@tested
class Suit(str, enum.Enum):
    HEARTS = "hearts"
    SPADES = "spades"
    CUPS = "hearts"  # an alias


@tested
class Odds(enum.Enum):
    ONE = 1
    HALF = 0.5
    NONE = None
    WORD = "word"
    PAIR = (1, 2)


@tested
@dataclass
class Painted:
    color: Color
    others: set[Color] = field(default_factory=set)
    level: Level = Level.LOW


# ---- literals, unions, options


@tested
@dataclass
class Switch:
    state: Literal["on", "off"]
    code: Literal[0, 1, 2]
    mixed: Literal["auto", 5, True, None]


tested(Literal["one"], "Literal['one']")
tested(Literal[Color.RED, "red", 7], "Literal[Color.RED, 'red', 7]")
tested(Optional[int], "Optional[int]")
tested(Union[int, str], "Union[int, str]")
tested(Union[int, str, None], "Union[int, str, None]")
tested(int | list[int], "int | list[int]")
tested(Optional[Node], "Optional[Node]")


@tested
@dataclass
class Circle:
    radius: float


@tested
@dataclass
class Square:
    side: float


@tested
@dataclass
class Drawing:
    shapes: list[Circle | Square]
    title: str | None = None


# ---- lists, sets, tuples, dictionaries

tested(list[int], "list[int]")
tested(list, "list")
tested(typing.Sequence[bool], "Sequence[bool]")
tested(set[str], "set[str]")
tested(frozenset[int], "frozenset[int]")
tested(tuple[int, str], "tuple[int, str]")
tested(tuple[int, ...], "tuple[int, ...]")
tested(tuple[()], "tuple[()]")
tested(tuple, "tuple")
tested(dict[str, int], "dict[str, int]")
tested(dict[int, str], "dict[int, str]")
tested(dict[Color, int], "dict[Color, int]")
tested(dict[Literal["a", "b"], bool], "dict[Literal['a', 'b'], bool]")
tested(dict[uuid.UUID, list[float]], "dict[UUID, list[float]]")
tested(dict, "dict")
tested(list[list[Optional[Point]]], "list[list[Optional[Point]]]")
tested(Any, "Any")

# ---- formats and new types


@tested
@dataclass
class Event:
    id: uuid.UUID
    at: datetime.datetime
    on: datetime.date
    time: datetime.time
    zero: uuid.UUID = uuid.UUID(int=0)
    began: datetime.date = datetime.date(2020, 1, 2)


UserId = NewType("UserId", int)
tested(UserId)


@tested
@dataclass
class User:
    id: UserId
    friends: dict[UserId, str] | None = None


del CLASSES["User"]  # keys that are no texts are refused


@tested
@dataclass
class Account:
    id: UserId
    friends: list[UserId]


# ---- bounds


@tested
@dataclass
class Bounded:
    percent: Annotated[int, Bounds(ge=0, le=100)]
    positive: Annotated[int, Bounds(gt=0)]
    below: Annotated[int, Bounds(lt=10)]
    share: Annotated[float, Bounds(ge=0.0, le=1.0)]
    code: Annotated[str, Bounds(min_length=2, max_length=4)]
    word: Annotated[str, Bounds(pattern="^[a-z]+$")]
    few: Annotated[list[int], Bounds(max_length=3)]
    three: Annotated[list[str], Bounds(min_length=3, max_length=3)]


@tested
@dataclass
class Strict:
    above: Annotated[float, Bounds(gt=0.0)]
    third: Annotated[int, Bounds(multiple_of=3)]


@dataclass(frozen=True)
class Ge:
    """Has the attribute that `annotated_types.Ge` has."""

    ge: int


@tested
@dataclass
class Duck:
    a: Annotated[int, Ge(5), "at least five"]
    b: Annotated[Optional[int], "a description alone"] = None


@tested
@dataclass
class Several:
    some: Annotated[list[int], Bounds(min_length=1)]
    two_or_three: Annotated[list[str], Bounds(min_length=2, max_length=3)]
    names: Annotated[set[str], Bounds(min_length=1)]
    counts: Annotated[dict[str, int], Bounds(max_length=2)]
    age: Annotated[Optional[int], Bounds(ge=0)]
    user: Annotated[UserId, Bounds(le=9)]


# ---- more of typing


@tested
@dataclass
class Chain:
    value: Final[int]
    next: Optional[Self] = None
    all: typing.Iterable[bool] = ()


@tested
@dataclass
class Ints(Box[int]):
    """A box that is derived from a generic one."""

    more: Box[str]


@tested
@dataclass
class Counted:
    words: collections.Counter[str]
    made: int = field(init=False)


@tested
@dataclass
class Places:
    address: ipaddress.IPv4Address | ipaddress.IPv6Address
    path: pathlib.Path
    wait: datetime.timedelta


tested(decimal.Decimal, "Decimal")
