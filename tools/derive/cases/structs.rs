// Structs of all forms.
#[derive(Serialize, Deserialize, JsonSchema)]
struct Nothing;
#[derive(Serialize, Deserialize, JsonSchema)]
struct Braces {}
#[derive(Serialize, Deserialize, JsonSchema)]
struct One {
    one: u8,
}
#[derive(Serialize, Deserialize, JsonSchema)]
struct Three {
    name: String,
    is_open: bool,
    size: i32,
}
#[derive(Serialize, Deserialize, JsonSchema)]
struct Wrapped(String);
#[derive(Serialize, Deserialize, JsonSchema)]
struct WrappedOption(Option<u8>);
#[derive(Serialize, Deserialize, JsonSchema)]
struct WrappedStruct(Three);
#[derive(Serialize, Deserialize, JsonSchema)]
struct Pair(String, bool);
#[derive(Serialize, Deserialize, JsonSchema)]
struct Triple(u8, Option<u8>, Three);
#[derive(Serialize, Deserialize, JsonSchema)]
struct NoParts();
#[derive(Serialize, Deserialize, JsonSchema)]
struct Nested {
    first: Three,
    second: Option<Three>,
    all: Vec<Three>,
    pair: (Three, u8),
}
#[derive(Serialize, Deserialize, JsonSchema)]
pub(crate) struct Visible {
    pub name: String,
    pub(crate) count: u16,
}
#[derive(Serialize, Deserialize, JsonSchema)]
struct RawNames {
    r#type: String,
    r#match: u8,
}
#[derive(Serialize, Deserialize, JsonSchema)]
struct Bounded
where
    String: Clone,
{
    text: String,
}
#[derive(Serialize, Deserialize, JsonSchema)]
struct TupleBounded(u8)
where
    u8: Copy;
