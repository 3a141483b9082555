"""The package beside this folder, over the library that SCHEMARS_LIBRARY names."""

import pathlib
import sys

sys.path.insert(0, str(pathlib.Path(__file__).resolve().parent.parent))
