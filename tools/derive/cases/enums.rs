// The four forms of enums, with attributes of variants.
#[derive(Serialize, Deserialize, JsonSchema, Default)]
struct Part {
    x: u8,
    y: Option<u8>,
}
#[derive(Serialize, Deserialize, JsonSchema)]
#[serde(deny_unknown_fields)]
struct ClosedPart {
    x: u8,
}
#[derive(Serialize, Deserialize, JsonSchema)]
struct UnitPart;
#[derive(Serialize, Deserialize, JsonSchema)]
enum Units {
    First,
    Second,
}
#[derive(Serialize, Deserialize, JsonSchema)]
enum OneUnit {
    Only,
}
#[derive(Serialize, Deserialize, JsonSchema)]
enum External {
    Unit,
    Newtype(u8),
    Tuple(u8, bool),
    Struct { a: u8, b: Option<String> },
    Part(Part),
    Text(String),
}
#[derive(Serialize, Deserialize, JsonSchema)]
enum ExternalEmpty {
    Tuple(),
    Struct {},
}
#[derive(Serialize, Deserialize, JsonSchema)]
enum ExternalNumbers {
    Zero = 0,
    Five = 5,
    Six,
}
#[derive(Serialize, Deserialize, JsonSchema)]
enum ExternalOption {
    Maybe(Option<u8>),
    List(Vec<Part>),
    Map(BTreeMap<String, u8>),
}
#[derive(Serialize, Deserialize, JsonSchema)]
#[serde(tag = "kind")]
enum Internal {
    Unit,
    Struct { a: u8, b: Option<String> },
    Empty {},
}
#[derive(Serialize, Deserialize, JsonSchema)]
#[serde(tag = "kind")]
enum InternalNewtype {
    Part(Part),
    Unit(UnitPart),
    Map(BTreeMap<String, String>),
}
#[derive(Serialize, Deserialize, JsonSchema)]
#[serde(tag = "kind")]
enum InternalClosedPart {
    Part(ClosedPart),
    Other,
}
#[derive(Serialize, Deserialize, JsonSchema)]
#[serde(tag = "kind", content = "data")]
enum Adjacent {
    Unit,
    Newtype(u8),
    Tuple(u8, bool),
    Struct { a: u8, b: Option<String> },
    Part(Part),
}
#[derive(Serialize, Deserialize, JsonSchema)]
#[serde(untagged)]
enum Untagged {
    Unit,
    Newtype(u8),
    Tuple(u8, bool),
    Struct { a: u8, b: Option<String> },
    Text(String),
}
#[derive(Serialize, Deserialize, JsonSchema)]
#[serde(untagged)]
enum UntaggedStructs {
    Both { a: u8, b: u8 },
    First { a: u8 },
    Part(Part),
}
#[derive(Serialize, Deserialize, JsonSchema)]
#[serde(deny_unknown_fields)]
enum ExternalClosed {
    Unit,
    Struct { a: u8 },
    Part(Part),
}
#[derive(Serialize, Deserialize, JsonSchema)]
#[serde(tag = "kind", deny_unknown_fields)]
enum InternalClosed {
    Unit,
    Struct { a: u8 },
}
#[derive(Serialize, Deserialize, JsonSchema)]
#[serde(tag = "kind", content = "data", deny_unknown_fields)]
enum AdjacentClosed {
    Unit,
    Struct { a: u8 },
    Newtype(u8),
}
#[derive(Serialize, Deserialize, JsonSchema)]
#[serde(untagged, deny_unknown_fields)]
enum UntaggedClosed {
    First { a: u8 },
    Second { b: u8 },
}
#[derive(Serialize, Deserialize, JsonSchema)]
#[serde(rename_all = "camelCase")]
enum ExternalCamel {
    FirstUnit,
    SecondStruct { first_name: u8 },
}
#[derive(Serialize, Deserialize, JsonSchema)]
#[serde(tag = "kind", rename_all = "snake_case")]
enum InternalSnake {
    FirstUnit,
    SecondStruct { first_name: u8 },
}
#[derive(Serialize, Deserialize, JsonSchema)]
#[serde(tag = "t", content = "c", rename_all = "kebab-case")]
enum AdjacentKebab {
    FirstUnit,
    SecondStruct { first_name: u8 },
}
#[derive(Serialize, Deserialize, JsonSchema)]
enum VariantRename {
    #[serde(rename = "uno")]
    One,
    #[serde(rename = "dos")]
    Two(u8),
}
#[derive(Serialize, Deserialize, JsonSchema)]
#[serde(rename_all = "UPPERCASE")]
enum VariantRenameCase {
    #[serde(rename = "uno")]
    One,
    Two(u8),
}
#[derive(Serialize, Deserialize, JsonSchema)]
enum VariantRenameTwice {
    #[serde(rename(serialize = "out", deserialize = "in"))]
    One,
    Two,
}
#[derive(Serialize, Deserialize, JsonSchema)]
enum VariantFieldsCase {
    #[serde(rename_all = "camelCase")]
    One { first_name: u8 },
    Two { first_name: u8 },
}
#[derive(Serialize, Deserialize, JsonSchema)]
enum VariantSkip {
    One,
    #[serde(skip)]
    Two,
    Three(u8),
}
#[derive(Serialize, Deserialize, JsonSchema)]
enum VariantSkipWriting {
    One,
    #[serde(skip_serializing)]
    Two,
    #[serde(skip_deserializing)]
    Three(u8),
}
#[derive(Serialize, Deserialize, JsonSchema)]
enum VariantAlias {
    #[serde(alias = "Uno")]
    One,
    Two,
}
#[derive(Serialize, Deserialize, JsonSchema)]
enum VariantFieldDefault {
    One {
        #[serde(default)]
        a: u8,
        #[serde(skip_serializing_if = "Option::is_none")]
        b: Option<u8>,
    },
}
#[derive(Serialize, Deserialize, JsonSchema)]
enum VariantFieldRename {
    One {
        #[serde(rename = "b")]
        a: u8,
    },
    Two(#[schemars(range(max = 10))] u8),
}
#[derive(Serialize, Deserialize, JsonSchema)]
enum VariantTupleSkip {
    One(u8, #[serde(skip)] u8, bool),
}
#[derive(Serialize, Deserialize, JsonSchema)]
enum VariantFlatten {
    One {
        #[serde(flatten)]
        part: Part,
        z: u8,
    },
}
#[derive(Serialize, Deserialize, JsonSchema)]
#[serde(tag = "kind")]
enum InternalFlatten {
    One {
        #[serde(flatten)]
        part: Part,
        z: u8,
    },
    Two,
}
/// A figure.
#[derive(Serialize, Deserialize, JsonSchema)]
enum Documented {
    /// nothing
    Empty,
    /// # A circle
    /// with a radius
    Circle {
        /// in metres
        radius: f64,
    },
    #[deprecated]
    Old,
}
#[derive(Serialize, Deserialize, JsonSchema)]
#[serde(rename = "Kind")]
enum RenamedEnum {
    A,
    B(u8),
}
#[derive(Serialize, Deserialize, JsonSchema)]
struct HasEnums {
    units: Units,
    maybe: Option<External>,
    list: Vec<Internal>,
    map: BTreeMap<String, Adjacent>,
    untagged: Box<Untagged>,
}
#[derive(Serialize, Deserialize, JsonSchema, PartialEq, Eq, PartialOrd, Ord)]
enum Key {
    Alpha,
    Beta,
}
#[derive(Serialize, Deserialize, JsonSchema)]
struct MapOfUnits {
    map: BTreeMap<Key, u8>,
}
