"""The dialects: their meta-schemas, where definitions stand, and what documents go through."""
import copy
import dataclasses

from transforms import TRANSFORMS


@dataclasses.dataclass(frozen=True)
class Dialect:
    """A dialect of documents."""
    meta_schema: str
    path: tuple
    transforms: tuple

    def transformed(self, document):
        """A copy of the document after the transforms, in order."""
        document = copy.deepcopy(document)
        for name in self.transforms:
            document = TRANSFORMS[name](document)
        return document


DIALECTS = {
    "draft-07": Dialect("http://json-schema.org/draft-07/schema#", ("definitions",),
                        ("replace_unevaluated_properties", "remove_ref_siblings", "replace_prefix_items")),
    "2019-09": Dialect("https://json-schema.org/draft/2019-09/schema", ("$defs",), ("replace_prefix_items",)),
    "2020-12": Dialect("https://json-schema.org/draft/2020-12/schema", ("$defs",), ()),
    "openapi3": Dialect("https://spec.openapis.org/oas/3.0/schema/2024-10-18#/definitions/Schema", ("components", "schemas"),
                        ("replace_unevaluated_properties", "replace_bool_schemas skip", "add_nullable",
                         "remove_ref_siblings", "set_single_example", "replace_const_value", "replace_prefix_items")),
}
