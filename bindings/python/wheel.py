"""wheel.py LIBRARY FOLDER: writes the package and the library as a wheel, without network or build tools."""

import base64
import hashlib
import pathlib
import sys
import zipfile

NAME, VERSION, TAG = "schemars_proved", "1.0.0", "py3-none-manylinux_2_17_x86_64"
HERE = pathlib.Path(__file__).resolve().parent
METADATA = f"""Metadata-Version: 2.1
Name: schemars-proved
Version: {VERSION}
Summary: JSON Schema documents from tables of types and from Python classes, by a proved generator
License: MIT
Requires-Python: >=3.10
Description-Content-Type: text/markdown

{(HERE / "README.md").read_text(encoding="utf-8")}"""
WHEEL = f"Wheel-Version: 1.0\nGenerator: wheel.py\nRoot-Is-Purelib: false\nTag: {TAG}\n"


def digest(data):
    return base64.urlsafe_b64encode(hashlib.sha256(data).digest()).rstrip(b"=").decode()


def main(library, folder):
    info = f"{NAME}-{VERSION}.dist-info"
    files = {f"{NAME}/{it.name}": it.read_bytes() for it in sorted([*(HERE / NAME).glob("*.py"), HERE / NAME / "py.typed"])}
    files[f"{NAME}/libschemars.so"] = pathlib.Path(library).read_bytes()
    files[f"{info}/LICENSE"] = (HERE.parent.parent / "LICENSE").read_bytes()
    files[f"{info}/METADATA"] = METADATA.encode()
    files[f"{info}/WHEEL"] = WHEEL.encode()
    record = f"{info}/RECORD"
    lines = [f"{name},sha256={digest(data)},{len(data)}" for name, data in files.items()]
    files[record] = "\n".join([*lines, f"{record},,", ""]).encode()
    path = pathlib.Path(folder) / f"{NAME}-{VERSION}-{TAG}.whl"
    with zipfile.ZipFile(path, "w", zipfile.ZIP_DEFLATED) as wheel:
        for name, data in files.items():
            wheel.writestr(zipfile.ZipInfo(name, (2026, 1, 1, 0, 0, 0)), data, zipfile.ZIP_DEFLATED)
    print(path)


if __name__ == "__main__":
    main(*sys.argv[1:])
