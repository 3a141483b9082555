// JSON Schema documents from tables of types, by the proved generator as WebAssembly. This file is for every engine; index.mjs is
// for node.
export const DIALECTS = Object.freeze({ "2020-12": 0, "2019-09": 1, "draft-07": 2, openapi3: 3 });

const NAMES = {
  1: "OutOfMemory",
  2: "UndefinedType",
  3: "RepeatedName",
  4: "DirectCycle",
  5: "EmptyCycle",
  9: "DefinitionsPath",
  20: "NotJson",
  21: "BadTable",
  22: "NotWhole",
  24: "Write",
};
const VERDICTS = [
  "refused", "not plain", "plain", "plain under reading", "plain under writing", "plain under reading and writing",
];
const OUT_OF_MEMORY = 1;
const DONE = 0;
const NO_ROOM = 101;
const INLINE = 1;
const SERIALIZE = 2;

// A refusal: `status` is the number that the program prints, and `code` its name.
export class SchemarsError extends Error {
  constructor(status) {
    super(`${status} ${NAMES[status] ?? "Refused"}`);
    this.name = "SchemarsError";
    this.status = status;
    this.code = NAMES[status] ?? "Refused";
  }
}

// The input is nested so deeply that the stack ran out. The next call is not affected.
export class TooDeep extends Error {
  constructor(cause) {
    super("the input is nested too deeply for the stack", { cause });
    this.name = "TooDeep";
    this.code = "TooDeep";
  }
}

function bytesOf(value) {
  if (value instanceof Uint8Array) return value;
  return new TextEncoder().encode(typeof value === "string" ? value : JSON.stringify(value));
}

function dialectOf(word) {
  if (!Object.hasOwn(DIALECTS, word)) throw new TypeError(`${JSON.stringify(word)} is no dialect: they are ${Object.keys(DIALECTS).join(", ")}`);
  return DIALECTS[word];
}

// Memory for some bytes in an instance.
function room(instance, size) {
  const at = instance.malloc(BigInt(size));
  if (at === 0n) throw new SchemarsError(OUT_OF_MEMORY);
  return at;
}

// The functions over a compiled module. Each call has an instance of its own, so that nothing is left of a call whose stack ran
// out, and no memory is kept.
export class Schemars {
  #module;

  constructor(module) {
    this.#module = module;
  }

  // From the bytes of schemars.wasm.
  static async load(bytes) {
    return new Schemars(await WebAssembly.compile(bytes));
  }

  // The text of the document of a table's root, or for `openapi3` of its definitions.
  types(table, { dialect = "2020-12", inline = false, serialize = false } = {}) {
    return this.#text("schemars_types", table, [dialectOf(dialect), (inline ? INLINE : 0) | (serialize ? SERIALIZE : 0)]);
  }

  // The text of the document of a schema that is made from an example, and accepts it.
  sample(example, { dialect = "2020-12" } = {}) {
    return this.#text("schemars_sample", example, [dialectOf(dialect)]);
  }

  // The verdict on a table, and the lines that say why.
  lint(table) {
    return this.#guarded((instance) => {
      const verdict = room(instance, 4);
      const text = this.#written(instance, "schemars_lint", bytesOf(table), [], [verdict]);
      const number = new DataView(instance.memory.buffer).getUint32(Number(verdict), true);
      return { verdict: VERDICTS[number], text };
    });
  }

  #text(name, input, numbers) {
    const data = bytesOf(input);
    return this.#guarded((instance) => this.#written(instance, name, data, numbers, []));
  }

  // A new instance; a stack that runs out is told as such.
  #guarded(call) {
    const instance = new WebAssembly.Instance(this.#module, {}).exports;
    try {
      return call(instance);
    } catch (error) {
      if (error instanceof RangeError || error instanceof WebAssembly.RuntimeError) throw new TooDeep(error);
      throw error;
    }
  }

  // The text that a function writes; it is called again where the first buffer was too short.
  #written(instance, name, data, numbers, places) {
    const input = room(instance, data.length || 1);
    const needed = room(instance, 8);
    new Uint8Array(instance.memory.buffer).set(data, Number(input));
    for (let size = 4 * data.length + 4096; ; ) {
      const out = room(instance, size);
      const status = instance[name](...numbers, input, BigInt(data.length), ...places, out, BigInt(size), needed) >>> 0;
      const length = Number(new DataView(instance.memory.buffer).getBigUint64(Number(needed), true));
      if (status === DONE) return new TextDecoder().decode(new Uint8Array(instance.memory.buffer, Number(out), length));
      if (status !== NO_ROOM) throw new SchemarsError(status);
      instance.free(out);
      size = length;
    }
  }
}
