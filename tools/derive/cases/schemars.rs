// The attributes of schemars, and documentation.
/// # A title
///
/// A description
/// in two lines.
#[derive(Serialize, Deserialize, JsonSchema)]
struct Titled {
    /// # The field's title
    a: u8,
    /// Its description
    ///
    /// in two paragraphs
    b: Option<u8>,
    c: Part,
}
/// only a part
#[derive(Serialize, Deserialize, JsonSchema, Default)]
struct Part {
    x: u8,
}
/**
 A block comment.
*/
#[derive(Serialize, Deserialize, JsonSchema)]
struct Blocked {
    /** of a field */
    a: u8,
}
#[doc = " By an attribute"]
#[derive(Serialize, Deserialize, JsonSchema)]
struct ByAttribute {
    #[doc = "of a field"]
    a: u8,
}
/// overridden
#[derive(Serialize, Deserialize, JsonSchema)]
#[schemars(title = "My title", description = "My description")]
struct Overridden {
    /// # hidden
    /// hidden
    #[schemars(title = "", description = "")]
    a: u8,
}
#[derive(Serialize, Deserialize, JsonSchema)]
#[schemars(rename = "Renamed by schemars")]
struct RenamedByIt {
    a: u8,
}
#[derive(Serialize, Deserialize, JsonSchema)]
#[schemars(inline)]
struct Inlined {
    x: u8,
}
#[derive(Serialize, Deserialize, JsonSchema)]
struct HasInlined {
    a: Inlined,
    b: Option<Inlined>,
}
#[derive(Serialize, Deserialize, JsonSchema)]
#[deprecated]
struct Deprecated {
    #[deprecated]
    a: u8,
    #[schemars(deprecated)]
    b: Option<u8>,
    #[deprecated(since = "1", note = "no more")]
    c: String,
}
#[derive(Serialize, Deserialize, JsonSchema)]
struct Ranged {
    #[schemars(range(min = 1, max = 64))]
    a: u8,
    #[schemars(range(min = -5))]
    b: i32,
    #[schemars(range(max = 2.5))]
    c: f64,
    #[schemars(range(min = 1))]
    d: Option<u32>,
}
#[derive(Serialize, Deserialize, JsonSchema)]
struct Long {
    #[schemars(length(min = 1, max = 3))]
    a: String,
    #[schemars(length(equal = 2))]
    b: Vec<u8>,
    #[schemars(length(max = 3))]
    c: Option<String>,
    #[schemars(length(min = 1))]
    d: BTreeSet<u8>,
}
#[derive(Serialize, Deserialize, JsonSchema)]
struct Patterned {
    #[schemars(regex(pattern = r"^[a-z]+$"))]
    a: String,
    #[schemars(pattern("^x"))]
    b: String,
    #[schemars(contains(pattern = "a.b"))]
    c: String,
    #[schemars(email)]
    d: String,
}
#[derive(Serialize, Deserialize, JsonSchema)]
struct RangeAndLength {
    #[schemars(length(min = 1), regex(pattern = "^a"))]
    a: String,
    #[schemars(range(min = 1), title = "one or more")]
    b: u8,
}
#[derive(Serialize, Deserialize, JsonSchema)]
struct RangedNewtype(#[schemars(range(max = 10))] u8);
#[derive(Serialize, Deserialize, JsonSchema)]
struct RangedTuple(#[schemars(range(max = 10))] u8, #[schemars(length(min = 2))] Vec<u8>);
#[derive(Serialize, Deserialize, JsonSchema)]
struct Required {
    #[schemars(required)]
    a: Option<u8>,
    b: Option<u8>,
}
#[derive(Serialize, Deserialize, JsonSchema)]
#[schemars(extend("x-order" = 1, "x-list" = ["a", null, true, -1.5]))]
struct Extended {
    #[schemars(extend("x-map" = { "k": [1, 2], "e": {} }))]
    a: u8,
    #[schemars(extend("maximum" = 9))]
    b: u8,
}
#[derive(Serialize, Deserialize, JsonSchema)]
#[schemars(example = json!({"a": 1}))]
struct Exampled {
    #[schemars(example = 1, example = 2)]
    a: u8,
    #[schemars(example = &"text")]
    b: String,
}
#[derive(Serialize, Deserialize, JsonSchema)]
#[schemars(with = "Part")]
struct StandsFor {
    x: u8,
}
/// described
#[derive(Serialize, Deserialize, JsonSchema)]
#[schemars(with = "Part")]
struct StandsForNoted {
    x: u8,
}
#[derive(Serialize, Deserialize, JsonSchema)]
#[schemars(crate = "schemars")]
struct Crated {
    a: u8,
}
#[derive(Serialize, Deserialize, JsonSchema)]
#[serde(rename = "serde's")]
#[schemars(rename = "schemars'", rename_all = "snake_case")]
struct BothRenamed {
    #[serde(rename = "b")]
    a: u8,
}
#[derive(Serialize, Deserialize, JsonSchema)]
struct Unset {
    #[serde(skip_serializing)]
    #[schemars(!skip_serializing)]
    a: u8,
    b: u8,
}
#[derive(Serialize, Deserialize)]
#[cfg_attr(all(), derive(JsonSchema))]
struct Conditional {
    #[cfg_attr(all(), schemars(title = "on a condition"))]
    a: u8,
}
