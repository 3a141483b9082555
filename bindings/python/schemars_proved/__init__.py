"""JSON Schema documents from tables of types and from Python classes, by a proved generator.

`types`, `sample` and `lint` call the generator and its linter. `table_for` makes a table of a class, and
`schema_for` its document.
"""

from ._calls import (
    BadTable,
    DefinitionsPath,
    DirectCycle,
    EmptyCycle,
    NotJson,
    NotWhole,
    OutOfMemory,
    RepeatedName,
    SchemarsError,
    UndefinedType,
    Write,
    lint,
    sample,
    types,
)
from ._tables import Bounds, NoTable, schema_for, table_for

__all__ = [
    "BadTable",
    "Bounds",
    "DefinitionsPath",
    "DirectCycle",
    "EmptyCycle",
    "NoTable",
    "NotJson",
    "NotWhole",
    "OutOfMemory",
    "RepeatedName",
    "SchemarsError",
    "UndefinedType",
    "Write",
    "lint",
    "sample",
    "schema_for",
    "table_for",
    "types",
]
