// Newtypes of structs beside the tag of an enum.
#[derive(Serialize, Deserialize, JsonSchema, Default)]
struct Point {
    x: i32,
    y: i32,
}
#[derive(Serialize, Deserialize, JsonSchema, Default)]
#[serde(deny_unknown_fields)]
struct Closed {
    x: u8,
    note: Option<String>,
}
#[derive(Serialize, Deserialize, JsonSchema, Default)]
struct Empty {}
#[derive(Serialize, Deserialize, JsonSchema, Default)]
#[serde(deny_unknown_fields)]
struct ClosedEmpty {}
#[derive(Serialize, Deserialize, JsonSchema, Default)]
struct Meta {
    /// Who made it.
    author: String,
    #[serde(default)]
    seen: bool,
}
#[derive(Serialize, Deserialize, JsonSchema, Default)]
struct WithMeta {
    id: u32,
    #[serde(flatten)]
    meta: Meta,
}
#[derive(Serialize, Deserialize, JsonSchema, Default)]
struct WithOptional {
    id: u32,
    #[serde(flatten)]
    point: Option<Point>,
}
#[derive(Serialize, Deserialize, JsonSchema)]
#[serde(tag = "kind")]
enum OneStruct {
    Point(Point),
}
#[derive(Serialize, Deserialize, JsonSchema)]
#[serde(tag = "kind")]
enum UnitAndStruct {
    Nothing,
    Point(Point),
}
#[derive(Serialize, Deserialize, JsonSchema)]
#[serde(tag = "kind")]
enum FieldsAndStruct {
    Own { x: bool },
    Point(Point),
}
#[derive(Serialize, Deserialize, JsonSchema)]
#[serde(tag = "kind")]
enum SameTwice {
    First(Point),
    Second(Point),
}
#[derive(Serialize, Deserialize, JsonSchema)]
#[serde(tag = "kind")]
enum ClosedBeside {
    Closed(Closed),
    Open(Point),
}
#[derive(Serialize, Deserialize, JsonSchema)]
#[serde(tag = "kind")]
enum EmptyBeside {
    Empty(Empty),
    Closed(ClosedEmpty),
}
#[derive(Serialize, Deserialize, JsonSchema)]
#[serde(tag = "kind")]
enum FlattenedBeside {
    Created(WithMeta),
    Deleted(Meta),
}
#[derive(Serialize, Deserialize, JsonSchema)]
#[serde(tag = "kind")]
enum OptionalBeside {
    Created(WithOptional),
}
#[derive(Serialize, Deserialize, JsonSchema)]
#[serde(tag = "kind")]
enum BoxedBeside {
    Point(Box<Point>),
}
#[derive(Serialize, Deserialize, JsonSchema)]
#[serde(tag = "@type", rename_all = "kebab-case")]
enum Renamed {
    PointOfView(Point),
    #[serde(rename = "m")]
    Meta(Meta),
}
#[derive(Serialize, Deserialize, JsonSchema)]
struct Holder {
    own: OneStruct,
    many: Vec<UnitAndStruct>,
    perhaps: Option<ClosedBeside>,
    by_name: BTreeMap<String, SameTwice>,
}
#[derive(Serialize, Deserialize, JsonSchema)]
struct Leaf {
    value: u8,
}
#[derive(Serialize, Deserialize, JsonSchema)]
struct Branch {
    children: Vec<Tree>,
}
#[derive(Serialize, Deserialize, JsonSchema)]
#[serde(tag = "is")]
enum Tree {
    Leaf(Leaf),
    Branch(Branch),
}
#[derive(Serialize, Deserialize, JsonSchema)]
struct Inner {
    state: FieldsAndStruct,
    x: u8,
}
#[derive(Serialize, Deserialize, JsonSchema)]
#[serde(tag = "outer")]
enum Outer {
    Inner(Inner),
    Other,
}
#[derive(Serialize, Deserialize, JsonSchema)]
#[serde(untagged)]
enum EitherKind {
    Tagged(UnitAndStruct),
    Number(u8),
}
#[derive(Serialize, Deserialize, JsonSchema)]
#[serde(tag = "t", content = "c")]
enum Around {
    Tagged(OneStruct),
    Twice(Box<SameTwice>),
}
#[derive(Serialize, Deserialize, JsonSchema)]
enum Named {
    Tagged(OneStruct),
    Listed(Vec<Renamed>),
}
#[derive(Serialize, Deserialize, JsonSchema)]
struct Page<T> {
    items: Vec<T>,
    next: Option<u32>,
}
#[derive(Serialize, Deserialize, JsonSchema)]
#[serde(tag = "page")]
enum Pages {
    Points(Page<Point>),
    Trees(Page<Tree>),
}
