"""The documents of the tested classes are those of `documents.tsv`."""

import json
import pathlib

import pytest
import schemars_proved
from classes import CLASSES

FILE = pathlib.Path(__file__).with_name("documents.tsv")
EXPECTED = dict(line.split("\t") for line in FILE.read_text(encoding="utf-8").splitlines())


def text_of(cls):
    return schemars_proved.types(schemars_proved.table_for(cls)).rstrip("\n")


def test_each_class_has_an_expected_document():
    assert list(EXPECTED) == list(CLASSES)
    assert len(CLASSES) >= 60


@pytest.mark.parametrize("name", CLASSES)
def test_document(name):
    assert text_of(CLASSES[name]) == EXPECTED[name]
    assert schemars_proved.schema_for(CLASSES[name]) == json.loads(EXPECTED[name])


# What `lint` calls not plain has the keywords exclusiveMinimum and multipleOf, or bounds of how many items or members
# there are. It warns of fields that are required and may be null.
@pytest.mark.parametrize("name", CLASSES)
def test_table_is_plain(name):
    verdict, text = schemars_proved.lint(schemars_proved.table_for(CLASSES[name]))
    assert verdict == ("not plain" if name in ("Strict", "Several") else "plain"), text
    assert "warning" not in text or name in ("Even", "Odd", "Several", "Ints")
