// cases.mjs PACKAGE CASES_FOLDER: compares the package with the stored answers of the cases, and tries its calls.
import assert from "node:assert/strict";
import { readFileSync, readdirSync } from "node:fs";
import { resolve } from "node:path";
import { pathToFileURL } from "node:url";

const [folder, cases] = process.argv.slice(2);
const { DIALECTS, Schemars, SchemarsError, TooDeep, types, sample, lint } = await import(pathToFileURL(resolve(folder, "index.mjs")));

const FLAGS = ["--inline", "--serialize"];

// The answer in the program's words; undefined where the words can't be said.
function answer(words, given) {
  const [command, dialect, ...flags] = words;
  if (command === "lint") return lint(given).text;
  if (!Object.hasOwn(DIALECTS, dialect) || new Set(flags).size !== flags.length || !flags.every((it) => FLAGS.includes(it))) return undefined;
  try {
    if (command === "types") return types(given, { dialect, inline: flags.includes("--inline"), serialize: flags.includes("--serialize") });
    return command === "sample" && flags.length === 0 ? sample(given, { dialect }) : undefined;
  } catch (error) {
    if (error instanceof SchemarsError) return `schemagen: ${error.message}\n`;
    throw error;
  }
}

function* stored() {
  for (const file of readdirSync(cases).filter((it) => it.endsWith(".tsv")).sort()) {
    for (const line of readFileSync(`${cases}/${file}`, "utf8").split("\n")) {
      const parts = line.split("\t");
      if (file === "lint.tsv" && line !== "") yield [file, parts[0], ["lint"], parts[1], parts.slice(2).join("\n")];
      else if (parts.length === 4) yield [file, parts[0], parts[1].split(/\s+/), parts[2], parts[3]];
    }
  }
}

let equal = 0, wrong = 0, others = 0;
const began = performance.now();
for (const [file, name, words, given, wanted] of stored()) {
  const got = answer(words, given);
  if (got === undefined) others++;
  else if (got === `${wanted}\n`) equal++;
  else {
    wrong++;
    console.log(`${file}: ${name}: ${got.slice(0, 300)}`);
  }
}
const each = (performance.now() - began) / (equal + wrong);
console.log(`node: ${equal} stored answers equal, ${wrong} differ, ${others} cannot be asked, ${each.toFixed(1)} ms a call`);

// ---- calls

const BYTE = { types: [{ id: "uint8", name: "uint8", inline: true, shape: { int: "u8" } }], root: 0 };
const line = types(BYTE);
assert.equal(JSON.parse(line).maximum, 255);
assert.equal(types(JSON.stringify(BYTE)), line);
assert.equal(types(new TextEncoder().encode(JSON.stringify(BYTE))), line);
assert.equal(JSON.parse(types(BYTE, { dialect: "draft-07" })).$schema, "http://json-schema.org/draft-07/schema#");
assert.throws(() => types(BYTE, { dialect: "draft-04" }), TypeError);
assert.throws(() => types(BYTE, { dialect: "toString" }), TypeError);
assert.throws(() => types("{"), (error) => error instanceof SchemarsError && error.status === 20 && error.code === "NotJson");
assert.throws(() => types({ types: [], root: 0 }), { code: "BadTable" });
assert.throws(() => sample("18446744073709551616"), { code: "NotWhole" });
assert.deepEqual(lint(BYTE), { verdict: "plain", text: "plain\n" });
assert.equal(lint("{").verdict, "refused");
assert.deepEqual(JSON.parse(sample(null)).examples, [null]);
const long = Array.from({ length: 5000 }, (_, n) => n);
assert.deepEqual(JSON.parse(sample(long)).examples, [long]);

// A stack that runs out is an exception, and the next call works.
const nested = (depth) => ({
  types: Array.from({ length: depth }, (_, n) => ({ id: `${n}`, name: `${n}`, inline: true, shape: n === 0 ? "text" : { seq: n - 1 } })),
  root: depth - 1,
});
assert.equal(types(nested(500)).split("items").length, 500);
assert.throws(() => types(nested(50000)), TooDeep);
assert.equal(types(BYTE), line);

// The functions of a module that was compiled elsewhere.
const core = await Schemars.load(readFileSync(resolve(folder, "schemars.wasm")));
assert.equal(core.types(BYTE), line);
console.log("node: calls, refusals and a stack that runs out are as they should be");
process.exit(wrong ? 1 : 0);
