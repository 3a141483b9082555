// Attributes of structs and enums.
fn all_four() -> Filled {
    Filled { a: 4, b: String::new() }
}
#[derive(Serialize, Deserialize, JsonSchema, Default)]
struct Part {
    x: u8,
}
#[derive(Serialize, Deserialize, JsonSchema)]
#[serde(rename = "Another")]
struct RenamedStruct {
    a: u8,
}
#[derive(Serialize, Deserialize, JsonSchema)]
#[serde(rename_all = "lowercase")]
struct LowerFields {
    first_name: u8,
    b2_c: u8,
}
#[derive(Serialize, Deserialize, JsonSchema)]
#[serde(rename_all = "UPPERCASE")]
struct UpperFields {
    first_name: u8,
    b2_c: u8,
}
#[derive(Serialize, Deserialize, JsonSchema)]
#[serde(rename_all = "PascalCase")]
struct PascalFields {
    first_name: u8,
    b2_c: u8,
    _x__y: u8,
}
#[derive(Serialize, Deserialize, JsonSchema)]
#[serde(rename_all = "camelCase")]
struct CamelFields {
    first_name: u8,
    b2_c: u8,
    long_name_of_it: u8,
}
#[derive(Serialize, Deserialize, JsonSchema)]
#[serde(rename_all = "snake_case")]
struct SnakeFields {
    first_name: u8,
}
#[derive(Serialize, Deserialize, JsonSchema)]
#[serde(rename_all = "SCREAMING_SNAKE_CASE")]
struct ScreamingFields {
    first_name: u8,
}
#[derive(Serialize, Deserialize, JsonSchema)]
#[serde(rename_all = "kebab-case")]
struct KebabFields {
    first_name: u8,
}
#[derive(Serialize, Deserialize, JsonSchema)]
#[serde(rename_all = "SCREAMING-KEBAB-CASE")]
struct ScreamingKebabFields {
    first_name: u8,
}
#[derive(Serialize, Deserialize, JsonSchema)]
#[serde(rename_all(serialize = "camelCase", deserialize = "kebab-case"))]
struct TwoCases {
    first_name: u8,
}
#[derive(Serialize, Deserialize, JsonSchema)]
#[serde(rename_all = "camelCase")]
struct CaseAndName {
    first_name: u8,
    #[serde(rename = "last_name")]
    second: u8,
}
#[derive(Serialize, Deserialize, JsonSchema)]
#[serde(rename_all = "lowercase")]
enum LowerVariants {
    FirstName,
    HTTPError,
}
#[derive(Serialize, Deserialize, JsonSchema)]
#[serde(rename_all = "UPPERCASE")]
enum UpperVariants {
    FirstName,
    HTTPError,
}
#[derive(Serialize, Deserialize, JsonSchema)]
#[serde(rename_all = "PascalCase")]
enum PascalVariants {
    FirstName,
    HTTPError,
}
#[derive(Serialize, Deserialize, JsonSchema)]
#[serde(rename_all = "camelCase")]
enum CamelVariants {
    FirstName,
    HTTPError,
}
#[derive(Serialize, Deserialize, JsonSchema)]
#[serde(rename_all = "snake_case")]
enum SnakeVariants {
    FirstName,
    HTTPError,
    V2,
}
#[derive(Serialize, Deserialize, JsonSchema)]
#[serde(rename_all = "SCREAMING_SNAKE_CASE")]
enum ScreamingVariants {
    FirstName,
    HTTPError,
}
#[derive(Serialize, Deserialize, JsonSchema)]
#[serde(rename_all = "kebab-case")]
enum KebabVariants {
    FirstName,
    HTTPError,
}
#[derive(Serialize, Deserialize, JsonSchema)]
#[serde(rename_all = "SCREAMING-KEBAB-CASE")]
enum ScreamingKebabVariants {
    FirstName,
    HTTPError,
}
#[derive(Serialize, Deserialize, JsonSchema)]
#[serde(deny_unknown_fields)]
struct Closed {
    a: u8,
    b: Option<u8>,
}
#[derive(Serialize, Deserialize, JsonSchema)]
#[serde(deny_unknown_fields)]
struct ClosedEmpty {}
#[derive(Serialize, Deserialize, JsonSchema)]
#[serde(deny_unknown_fields)]
struct ClosedSkip {
    a: u8,
    #[serde(skip)]
    b: u8,
}
#[derive(Serialize, Deserialize, JsonSchema)]
#[serde(deny_unknown_fields, rename_all = "camelCase")]
struct ClosedCamel {
    first_name: u8,
    #[serde(default)]
    last_name: u8,
}
#[derive(Serialize, Deserialize, JsonSchema, Default)]
#[serde(default)]
struct DefaultStruct {
    a: u8,
    b: String,
    c: Vec<u8>,
    d: Option<bool>,
}
#[derive(Serialize, Deserialize, JsonSchema)]
#[serde(default = "all_four")]
struct Filled {
    a: u8,
    b: String,
}
#[derive(Serialize, Deserialize, JsonSchema, Default)]
#[serde(default, deny_unknown_fields)]
struct DefaultClosed {
    a: u8,
    #[serde(skip_serializing_if = "Option::is_none")]
    b: Option<u8>,
}
#[derive(Serialize, Deserialize, JsonSchema)]
#[serde(transparent)]
struct Through {
    a: Vec<u8>,
}
#[derive(Serialize, Deserialize, JsonSchema)]
#[serde(transparent)]
struct ThroughTuple(Part);
/// through, with a note
#[derive(Serialize, Deserialize, JsonSchema)]
#[serde(transparent)]
struct ThroughNote(String);
#[derive(Serialize, Deserialize, JsonSchema)]
struct HasThrough {
    a: Through,
    b: ThroughTuple,
    c: ThroughOption,
}
#[derive(Serialize, Deserialize, JsonSchema)]
#[serde(transparent)]
struct ThroughOption(Option<u8>);
#[derive(Serialize, Deserialize, JsonSchema, Clone)]
#[serde(from = "u8", into = "u8")]
struct Converted(String);
impl From<u8> for Converted {
    fn from(n: u8) -> Self {
        Converted("x".repeat(n as usize))
    }
}
impl From<Converted> for u8 {
    fn from(c: Converted) -> u8 {
        c.0.len() as u8
    }
}
#[derive(Serialize, Deserialize, JsonSchema)]
#[serde(from = "u8")]
struct ReadFrom {
    length: u8,
}
impl From<u8> for ReadFrom {
    fn from(length: u8) -> Self {
        ReadFrom { length }
    }
}
#[derive(Serialize, Deserialize, JsonSchema)]
struct HasConverted {
    a: Converted,
    b: Option<Converted>,
}
