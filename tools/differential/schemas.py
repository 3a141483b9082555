"""Random calls of the libraries: edits of schemas, transforms, and texts within references."""
import urllib.parse

from draw import Draw
from edits import allow_null, encode, flatten, tag_variant
from jsontext import write, write_scalar
from transforms import TRANSFORMS

PIECES = ["a", "%", "2", "0", "F0", "%F0%9F%9A%80", "%c3", "%a9", "/", "~", " ", "é", "🚀", "%+A", "%25",
          "\u0001", '"', "\\", "Z", "%ED%A0%80", "%C0%80", "%7F", "\u007f", "#", "[", "%4", "e"]


def _draw_text(draw):
    return "".join(draw.pick(PIECES) for _ in range(draw.below(7)))


def _changed(text, new):
    """How the program tells whether it made a new text."""
    return ("borrowed " if new == text else "owned ") + write_scalar(new)


def _decoded(text):
    try:
        return _changed(text, urllib.parse.unquote_to_bytes(text).decode())
    except UnicodeDecodeError:
        return "none"


def _tagged(closed):
    return lambda schema: write(tag_variant(schema, "t", "A", closed))


def _edited(edit):
    return lambda schema: write(edit(schema))


# The words of each call: how to draw the value that it is made on, and the line that it gives.
CALLS = {
    "allow_null": (lambda draw: {"anyOf": draw.keyword("anyOf")} if draw.chance(0.4) else draw.schema(),
                   _edited(allow_null)),
    "apply_internal_enum_variant_tag t A": (Draw.schema, _tagged(closed=False)),
    "apply_internal_enum_variant_tag t A deny": (Draw.schema, _tagged(closed=True)),
    "flatten": (lambda draw: [draw.schema(), draw.schema()], lambda pair: write(flatten(*pair))),
    "encode_ref_name": (_draw_text, lambda text: _changed(text, encode(text))),
    "percent_decode": (_draw_text, _decoded),
    "to_ordered_string": (Draw.schema, write),
}
TRANSFORM_CALLS = {f"transform {name}": (Draw.schema, _edited(transform))
                   for name, transform in TRANSFORMS.items()}
