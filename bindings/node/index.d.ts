export type Dialect = "2020-12" | "2019-09" | "draft-07" | "openapi3";
export type Verdict =
  | "refused"
  | "not plain"
  | "plain"
  | "plain under reading"
  | "plain under writing"
  | "plain under reading and writing";
/** Text is taken as JSON text, bytes as UTF-8, and any other value through JSON.stringify. */
export type Input = string | Uint8Array | object | number | boolean | null;

/** A table of types, which refer to each other by their numbers from 0. */
export interface Table {
  $schema?: string;
  types: Row[];
  /** the number of the row whose document is wanted */
  root: number;
}

/** One type. */
export interface Row {
  /** distinguishes the types: no two rows have the same */
  id: string;
  /** the title of the document, and the name of the definition */
  name: string;
  /** what the values are */
  shape: Shape;
  /** whether the type is written in place wherever it is used; false if left out */
  inline?: boolean;
  /** further keywords of the document, such as `description` */
  notes?: Notes;
}

export type Notes = Record<string, unknown>;

export type IntKind =
  | "i8" | "i16" | "i32" | "i64" | "i128" | "isize"
  | "u8" | "u16" | "u32" | "u64" | "u128" | "usize";

/** What the values of a type are. A number is that of a row. */
export type Shape =
  | "null" | "bool" | "number" | "text" | "char" | "any" | "bytes" | "schema"
  | { int: IntKind }
  | { nonzero: IntKind }
  | { format: string }
  | { option: number }
  | { newtype: number }
  | { seq: number }
  | { set: number }
  | { array: { of: number; len: number } }
  | { up_to: { of: number; cap: number } }
  | { tuple: number[] }
  | { struct: Fields }
  | { result: { ok: number; err: number } }
  | { bound: number }
  | { range: number }
  | { either: { left: number; right: number } }
  | { map: { key: number; value: number } }
  | { external: { variants?: Variant[] } }
  | { untagged: { variants?: Variant[] } }
  | { internal: { tag: string; closed?: boolean; variants?: InternalVariant[] } }
  | { adjacent: { tag: string; content: string; closed?: boolean; variants?: Variant[] } }
  | { literal: object | boolean };

/** The members of a struct. */
export interface Fields {
  fields?: Field[];
  /** rows whose members are in the struct's own object */
  flatten?: Flattened[];
  /** whether other keys are refused */
  closed?: boolean;
}

export interface Field {
  name: string;
  type: number;
  /** whether the key has to be there; true if left out */
  required?: Required;
  notes?: Notes;
}

export interface Flattened {
  type: number;
  required?: Required;
}

/** Whether a key has to be there, in all values or for each contract. */
export type Required = boolean | { deserialize: boolean; serialize: boolean };

export interface Variant {
  name: string;
  /** none if left out */
  payload?: Payload;
  notes?: Notes;
}

export type Payload = InternalPayload | { tuple: number[] };

/** A variant whose name is a member of its content. */
export interface InternalVariant {
  name: string;
  payload?: InternalPayload;
  notes?: Notes;
}

export type InternalPayload = "unit" | { newtype: number } | { struct: Fields };

export interface DialectOption {
  /** 2020-12 if left out */
  dialect?: Dialect;
}

export interface TypesOptions extends DialectOption {
  /** rows are written in place */
  inline?: boolean;
  /** for the values that are written, not for those that are read */
  serialize?: boolean;
}

export interface Report {
  verdict: Verdict;
  /** what `schemalint` prints */
  text: string;
}

/** A refusal, by the number and the name that the program prints. */
export declare class SchemarsError extends Error {
  constructor(status: number);
  readonly status: number;
  readonly code: string;
}

/** The input is nested so deeply that the stack ran out. */
export declare class TooDeep extends Error {
  readonly code: "TooDeep";
}

export declare const DIALECTS: Readonly<Record<Dialect, number>>;

/** The functions over a compiled module, for engines other than node. */
export declare class Schemars {
  constructor(module: WebAssembly.Module);
  static load(bytes: BufferSource): Promise<Schemars>;
  types(table: Table | Input, options?: TypesOptions): string;
  sample(example: Input, options?: DialectOption): string;
  lint(table: Table | Input): Report;
}

/** The text of the document of a table's root, or for `openapi3` of its definitions. */
export declare function types(table: Table | Input, options?: TypesOptions): string;
/** The text of the document of a schema that is made from an example, and accepts it. */
export declare function sample(example: Input, options?: DialectOption): string;
/** The verdict on a table, and the lines that say why. */
export declare function lint(table: Table | Input): Report;
