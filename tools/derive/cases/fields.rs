// Each attribute of a field alone.
#[derive(Serialize, Deserialize, JsonSchema, Default)]
struct Part {
    x: u8,
    y: u8,
}
fn four() -> u8 {
    4
}
fn is_zero(n: &u8) -> bool {
    *n == 0
}
#[derive(Serialize, Deserialize, JsonSchema)]
struct Renamed {
    #[serde(rename = "other name")]
    a: u8,
}
#[derive(Serialize, Deserialize, JsonSchema)]
struct RenamedTwice {
    #[serde(rename(serialize = "out", deserialize = "in"))]
    a: u8,
}
#[derive(Serialize, Deserialize, JsonSchema)]
struct RenamedOut {
    #[serde(rename(serialize = "out"))]
    a: u8,
}
#[derive(Serialize, Deserialize, JsonSchema)]
struct Aliased {
    #[serde(alias = "b")]
    a: u8,
}
#[derive(Serialize, Deserialize, JsonSchema)]
struct Defaulted {
    #[serde(default)]
    a: u8,
    b: u8,
}
#[derive(Serialize, Deserialize, JsonSchema)]
struct DefaultedBy {
    #[serde(default = "four")]
    a: u8,
}
#[derive(Serialize, Deserialize, JsonSchema)]
struct DefaultedStruct {
    #[serde(default)]
    part: Part,
}
#[derive(Serialize, Deserialize, JsonSchema)]
struct Skipped {
    #[serde(skip)]
    a: u8,
    b: u8,
}
#[derive(Serialize, Deserialize, JsonSchema)]
struct SkippedWriting {
    #[serde(skip_serializing)]
    a: u8,
    b: u8,
}
#[derive(Serialize, Deserialize, JsonSchema)]
struct SkippedReading {
    #[serde(skip_deserializing)]
    a: u8,
    b: u8,
}
#[derive(Serialize, Deserialize, JsonSchema)]
struct SkippedBoth {
    #[serde(skip_serializing, skip_deserializing)]
    a: u8,
    b: u8,
}
#[derive(Serialize, Deserialize, JsonSchema)]
struct SkippedIf {
    #[serde(skip_serializing_if = "is_zero")]
    a: u8,
}
#[derive(Serialize, Deserialize, JsonSchema)]
struct SkippedIfNone {
    #[serde(skip_serializing_if = "Option::is_none")]
    a: Option<u8>,
}
#[derive(Serialize, Deserialize, JsonSchema)]
struct Optional {
    a: Option<String>,
    b: Option<Part>,
    c: Option<Option<u8>>,
}
#[derive(Serialize, Deserialize, JsonSchema)]
struct Flattened {
    #[serde(flatten)]
    part: Part,
    z: u8,
}
#[derive(Serialize, Deserialize, JsonSchema)]
struct FlattenedOption {
    #[serde(flatten)]
    part: Option<Part>,
    z: u8,
}
#[derive(Serialize, Deserialize, JsonSchema)]
struct FlattenedMap {
    a: u8,
    #[serde(flatten)]
    others: BTreeMap<String, Value>,
}
#[derive(Serialize, Deserialize, JsonSchema)]
struct FlattenedTwice {
    #[serde(flatten)]
    part: Part,
    #[serde(flatten)]
    three: Three,
}
#[derive(Serialize, Deserialize, JsonSchema)]
struct Three {
    name: String,
    count: Option<u8>,
}
#[derive(Serialize, Deserialize, JsonSchema)]
struct FlattenedDeep {
    #[serde(flatten)]
    flattened: Flattened,
    deep: bool,
}
#[derive(Serialize, Deserialize, JsonSchema)]
enum Choice {
    Left(u8),
    Right { side: String },
}
#[derive(Serialize, Deserialize, JsonSchema)]
struct FlattenedEnum {
    #[serde(flatten)]
    choice: Choice,
    z: u8,
}
#[derive(Serialize, Deserialize, JsonSchema)]
#[serde(tag = "kind")]
enum Tagged {
    Left { a: u8 },
    Right { side: String },
}
#[derive(Serialize, Deserialize, JsonSchema)]
struct FlattenedTagged {
    #[serde(flatten)]
    tagged: Tagged,
    z: u8,
}
#[derive(Serialize, Deserialize, JsonSchema)]
struct Borrowed<'a> {
    #[serde(borrow)]
    text: Cow<'a, str>,
}
mod as_text {
    use serde::{Deserialize, Deserializer, Serializer};
    pub fn serialize<S: Serializer>(n: &u8, s: S) -> Result<S::Ok, S::Error> {
        s.collect_str(n)
    }
    pub fn deserialize<'de, D: Deserializer<'de>>(d: D) -> Result<u8, D::Error> {
        Ok(String::deserialize(d)?.len() as u8)
    }
}
#[derive(Serialize, Deserialize, JsonSchema)]
struct WithText {
    #[serde(with = "as_text")]
    #[schemars(with = "String")]
    a: u8,
}
#[derive(Serialize, Deserialize, JsonSchema)]
struct WithTextDefault {
    #[serde(with = "as_text", default)]
    #[schemars(with = "String")]
    a: u8,
}
