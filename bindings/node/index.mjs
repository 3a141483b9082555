// For node: the functions over the schemars.wasm beside this file.
import { readFileSync } from "node:fs";
import { Schemars } from "./schemars.mjs";

export { DIALECTS, Schemars, SchemarsError, TooDeep } from "./schemars.mjs";

let own;

function schemars() {
  own ??= new Schemars(new WebAssembly.Module(readFileSync(new URL("./schemars.wasm", import.meta.url))));
  return own;
}

// The text of the document of a table's root, or for `openapi3` of its definitions.
export const types = (table, options) => schemars().types(table, options);

// The text of the document of a schema that is made from an example, and accepts it.
export const sample = (example, options) => schemars().sample(example, options);

// The verdict on a table, and the lines that say why.
export const lint = (table) => schemars().lint(table);
