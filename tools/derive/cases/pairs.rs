// Attributes of a field in pairs.
#[derive(Serialize, Deserialize, JsonSchema, Default)]
struct Part {
    x: u8,
    y: Option<u8>,
}
fn four() -> u8 {
    4
}
fn is_zero(n: &u8) -> bool {
    *n == 0
}
#[derive(Serialize, Deserialize, JsonSchema)]
struct RenameDefault {
    #[serde(rename = "b", default)]
    a: u8,
}
#[derive(Serialize, Deserialize, JsonSchema)]
struct RenameSkip {
    #[serde(rename = "b", skip)]
    a: u8,
    c: u8,
}
#[derive(Serialize, Deserialize, JsonSchema)]
struct RenameSkipWriting {
    #[serde(rename = "b", skip_serializing)]
    a: u8,
}
#[derive(Serialize, Deserialize, JsonSchema)]
struct RenameSkipReading {
    #[serde(rename = "b", skip_deserializing)]
    a: u8,
}
#[derive(Serialize, Deserialize, JsonSchema)]
struct RenameSkipIf {
    #[serde(rename = "b", skip_serializing_if = "is_zero")]
    a: u8,
}
#[derive(Serialize, Deserialize, JsonSchema)]
struct RenameAlias {
    #[serde(rename = "b", alias = "c")]
    a: u8,
}
#[derive(Serialize, Deserialize, JsonSchema)]
struct DefaultSkipIf {
    #[serde(default, skip_serializing_if = "is_zero")]
    a: u8,
}
#[derive(Serialize, Deserialize, JsonSchema)]
struct DefaultSkipEmpty {
    #[serde(default, skip_serializing_if = "Vec::is_empty")]
    a: Vec<u8>,
    #[serde(default, skip_serializing_if = "String::is_empty")]
    b: String,
    #[serde(default, skip_serializing_if = "BTreeMap::is_empty")]
    c: BTreeMap<String, u8>,
}
#[derive(Serialize, Deserialize, JsonSchema)]
struct DefaultSkipNone {
    #[serde(default, skip_serializing_if = "Option::is_none")]
    a: Option<u8>,
}
#[derive(Serialize, Deserialize, JsonSchema)]
struct DefaultBySkipIf {
    #[serde(default = "four", skip_serializing_if = "is_zero")]
    a: u8,
}
#[derive(Serialize, Deserialize, JsonSchema)]
struct DefaultOption {
    #[serde(default)]
    a: Option<u8>,
}
#[derive(Serialize, Deserialize, JsonSchema)]
struct DefaultSkipWriting {
    #[serde(default, skip_serializing)]
    a: u8,
    b: u8,
}
#[derive(Serialize, Deserialize, JsonSchema)]
struct DefaultSkipReading {
    #[serde(default, skip_deserializing)]
    a: u8,
    b: u8,
}
#[derive(Serialize, Deserialize, JsonSchema)]
struct DefaultAlias {
    #[serde(default, alias = "b")]
    a: u8,
}
#[derive(Serialize, Deserialize, JsonSchema)]
struct SkipWritingIf {
    #[serde(skip_deserializing, skip_serializing_if = "is_zero")]
    a: u8,
    b: u8,
}
#[derive(Serialize, Deserialize, JsonSchema)]
struct OptionRename {
    #[serde(rename = "b", skip_serializing_if = "Option::is_none")]
    a: Option<String>,
}
#[derive(Serialize, Deserialize, JsonSchema)]
struct FlattenDefault {
    #[serde(flatten)]
    part: Part,
    #[serde(default)]
    z: u8,
}
#[derive(Serialize, Deserialize, JsonSchema)]
struct FlattenRename {
    #[serde(flatten)]
    part: Part,
    #[serde(rename = "w")]
    z: u8,
}
#[derive(Serialize, Deserialize, JsonSchema)]
struct FlattenSkip {
    #[serde(flatten)]
    part: Part,
    #[serde(skip)]
    z: u8,
}
#[derive(Serialize, Deserialize, JsonSchema)]
struct FlattenSkipNone {
    #[serde(flatten, skip_serializing_if = "Option::is_none")]
    part: Option<Part>,
    z: u8,
}
#[derive(Serialize, Deserialize, JsonSchema)]
struct FlattenTwoOptions {
    #[serde(flatten)]
    part: Option<Part>,
    z: Option<u8>,
}
#[derive(Serialize, Deserialize, JsonSchema)]
struct NoteDefault {
    /// how many there are
    #[serde(default)]
    a: u8,
}
#[derive(Serialize, Deserialize, JsonSchema)]
struct RangeDefault {
    #[serde(default)]
    #[schemars(title = "A", description = "from 0")]
    a: u8,
}
#[derive(Serialize, Deserialize, JsonSchema)]
struct RenameNote {
    /// the other
    #[serde(rename = "b")]
    #[deprecated]
    a: Option<u8>,
}
