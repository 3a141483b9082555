"""make.py WASM OUT: the page as one file, which opens without a server or network."""

import base64
import json
import pathlib
import re
import sys

HERE = pathlib.Path(__file__).resolve().parent
TOP = HERE.parent.parent
EXAMPLES = {
    "linked list": "linked-list.json",
    "list of optional bytes": "vec-option-u8.json",
    "server configuration": "server-config.json",
    "JSON-RPC": "json-rpc.json",
    "package manifest": "package-manifest/table.json",
    "webhook event": "webhook-event/table.json",
    "GeoJSON": "feature-collection/table.json",
    "a small service": "openapi/table.json",
}


def module(path):
    """A module's text for inside another."""
    return re.sub(r"^export (?=const|class|function)", "", path.read_text(encoding="utf-8"), flags=re.M)


def main(wasm, out):
    texts = {name: (TOP / "examples" / file).read_text(encoding="utf-8").strip() for name, file in EXAMPLES.items()}
    page = (HERE / "page.html").read_text(encoding="utf-8")
    parts = {
        "/*MODULE*/": module(HERE.parent / "node/schemars.mjs"),
        "/*PLACES*/": module(HERE / "places.mjs"),
        "/*EXAMPLES*/{}": json.dumps(texts, ensure_ascii=False).replace("</", "<\\/"),
        "/*WASM*/": base64.b64encode(pathlib.Path(wasm).read_bytes()).decode(),
    }
    for mark, text in parts.items():
        if page.count(mark) != 1:
            sys.exit(f"page.html: {mark} stands {page.count(mark)} times")
        page = page.replace(mark, text)
    pathlib.Path(out).write_text(page, encoding="utf-8")


if __name__ == "__main__":
    main(*sys.argv[1:])
