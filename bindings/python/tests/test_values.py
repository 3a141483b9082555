"""A validator that is not ours accepts a value by a class's document if and only if the value is one of the class's."""

import random

import jsonschema
import pytest
import schemars_proved
from classes import CLASSES
from fits import drawn, fits

VALUES = 300
COUNTS = {}

VALIDATORS = {"2020-12": jsonschema.Draft202012Validator, "2019-09": jsonschema.Draft201909Validator, "draft-07": jsonschema.Draft7Validator}


@pytest.mark.parametrize("name", CLASSES)
def test_values(name):
    cls, source = CLASSES[name], random.Random(name)
    validators = {
        dialect: of(schemars_proved.schema_for(cls, dialect)) for dialect, of in VALIDATORS.items()
    }
    accepted = 0
    for n in range(VALUES):
        value = drawn(cls, source)
        wanted = fits(cls, value)
        accepted += wanted
        for dialect, validator in validators.items():
            if dialect == "2020-12" or n % 10 == 0:
                assert validator.is_valid(value) == wanted, (dialect, value)
    COUNTS[name] = accepted
    assert accepted >= 20
    assert name in ("Any", "Untyped") or accepted <= VALUES - 5


def test_enough_values_are_judged():
    assert VALUES * len(CLASSES) >= 20000
    print(f"{VALUES * len(COUNTS)} values, {sum(COUNTS.values())} of them accepted")
