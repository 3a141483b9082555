//! A table of types, as `schemagen`, `schemalint` and `schemavalid` read it.
use schemars::{JsonSchema, Schema};
use serde::{Deserialize, Serialize};
use serde_json::{Map, Value};

/// A table of Rust types whose JSON Schema is wanted.
#[derive(Serialize, Deserialize, JsonSchema)]
#[serde(deny_unknown_fields)]
pub struct Table {
    /// the schema by which an editor checks the table
    #[serde(rename = "$schema", skip_serializing_if = "Option::is_none")]
    pub schema: Option<String>,
    /// the types, one a row, which refer to each other by their numbers from 0
    pub types: Vec<Row>,
    /// the number of the row whose document is wanted
    pub root: u64,
}

/// One type.
#[derive(Serialize, Deserialize, JsonSchema)]
#[serde(deny_unknown_fields)]
pub struct Row {
    /// tells the types apart: no two rows have the same
    pub id: String,
    /// the title of the document, and the name of the definition
    pub name: String,
    /// whether the type is written in place wherever it is used
    #[serde(default)]
    pub inline: bool,
    /// further keywords of the document, such as `description`
    #[serde(default)]
    pub notes: Map<String, Value>,
    /// what the values are
    pub shape: Shape,
}

/// What the values of a type are.
#[derive(Serialize, Deserialize, JsonSchema)]
#[serde(rename_all = "snake_case", deny_unknown_fields)]
pub enum Shape {
    /// `()`
    Null,
    Bool,
    /// any number
    Number,
    /// `String`
    Text,
    /// a text of one character
    Char,
    /// `serde_json::Value`
    Any,
    /// a list of bytes, or a text where it is read
    Bytes,
    /// a JSON Schema
    Schema,
    Int(IntKind),
    /// a whole number that is not zero
    Nonzero(IntKind),
    /// a text of a format, such as `uuid`
    Format(String),
    Option(u64),
    /// a struct of one value without a name
    Newtype(u64),
    /// a list
    Seq(u64),
    /// a list without repetitions
    Set(u64),
    /// `[T; len]`
    Array { of: u64, len: u64 },
    /// a list of at most so many items
    UpTo { of: u64, cap: u64 },
    Tuple(Vec<u64>),
    Struct(Fields),
    Result { ok: u64, err: u64 },
    Bound(u64),
    Range(u64),
    Either { left: u64, right: u64 },
    Map { key: u64, value: u64 },
    /// an enum as serde writes it without an attribute
    External { #[serde(default)] variants: Vec<Variant> },
    /// an enum with `#[serde(untagged)]`
    Untagged { #[serde(default)] variants: Vec<Variant> },
    /// an enum with `#[serde(tag = "..")]`
    Internal {
        tag: String,
        /// whether variants without content allow no other key
        #[serde(default)]
        closed: bool,
        #[serde(default)]
        variants: Vec<InternalVariant>,
    },
    /// an enum with `#[serde(tag = "..", content = "..")]`
    Adjacent {
        tag: String,
        content: String,
        /// whether no other key is allowed beside the two
        #[serde(default)]
        closed: bool,
        #[serde(default)]
        variants: Vec<Variant>,
    },
    /// a schema that is written as it is
    Literal(Schema),
}

/// The size of a whole number.
#[derive(Serialize, Deserialize, JsonSchema)]
#[serde(rename_all = "lowercase")]
pub enum IntKind {
    I8,
    I16,
    I32,
    I64,
    I128,
    Isize,
    U8,
    U16,
    U32,
    U64,
    U128,
    Usize,
}

/// The members of a struct.
#[derive(Serialize, Deserialize, JsonSchema)]
#[serde(deny_unknown_fields)]
pub struct Fields {
    #[serde(default)]
    pub fields: Vec<Field>,
    /// rows whose members are in the struct's own object
    #[serde(default)]
    pub flatten: Vec<Flattened>,
    /// whether other keys are refused
    #[serde(default)]
    pub closed: bool,
}

/// A field of a struct.
#[derive(Serialize, Deserialize, JsonSchema)]
#[serde(deny_unknown_fields)]
pub struct Field {
    pub name: String,
    /// the number of its row
    #[serde(rename = "type")]
    pub ty: u64,
    /// whether the key has to be there; it has to be if this is left out
    #[serde(default)]
    pub required: Required,
    #[serde(default)]
    pub notes: Map<String, Value>,
}

/// A row that is flattened into a struct.
#[derive(Serialize, Deserialize, JsonSchema)]
#[serde(deny_unknown_fields)]
pub struct Flattened {
    #[serde(rename = "type")]
    pub ty: u64,
    #[serde(default)]
    pub required: Required,
}

/// Whether a key has to be there, in all values or for each contract.
#[derive(Serialize, Deserialize, JsonSchema)]
#[serde(untagged)]
pub enum Required {
    InAll(bool),
    For(Contracts),
}

/// Whether a key is in each value that is read, and in each that is written.
#[derive(Serialize, Deserialize, JsonSchema)]
#[serde(deny_unknown_fields)]
pub struct Contracts {
    pub deserialize: bool,
    pub serialize: bool,
}

/// A variant of an enum.
#[derive(Serialize, Deserialize, JsonSchema)]
#[serde(deny_unknown_fields)]
pub struct Variant {
    pub name: String,
    /// its content, none if this is left out
    #[serde(default)]
    pub payload: Payload,
    #[serde(default)]
    pub notes: Map<String, Value>,
}

/// The content of a variant.
#[derive(Serialize, Deserialize, JsonSchema)]
#[serde(rename_all = "lowercase")]
pub enum Payload {
    Unit,
    Newtype(u64),
    Tuple(Vec<u64>),
    Struct(Fields),
}

/// A variant whose name is a member of its content.
#[derive(Serialize, Deserialize, JsonSchema)]
#[serde(deny_unknown_fields)]
pub struct InternalVariant {
    pub name: String,
    #[serde(default)]
    pub payload: InternalPayload,
    #[serde(default)]
    pub notes: Map<String, Value>,
}

/// The content of a variant beside a tag, which is no tuple.
#[derive(Serialize, Deserialize, JsonSchema)]
#[serde(rename_all = "lowercase")]
pub enum InternalPayload {
    Unit,
    Newtype(u64),
    Struct(Fields),
}
