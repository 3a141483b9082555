// Types of std, alone and nested.
#[derive(Serialize, Deserialize, JsonSchema, Default)]
struct Part {
    x: u8,
}
#[derive(Serialize, Deserialize, JsonSchema)]
struct Unsigned {
    a: u8,
    b: u16,
    c: u32,
    d: u64,
    e: usize,
}
#[derive(Serialize, Deserialize, JsonSchema)]
struct Signed {
    a: i8,
    b: i16,
    c: i32,
    d: i64,
    e: isize,
}
#[derive(Serialize, Deserialize, JsonSchema)]
struct Floats {
    a: f32,
    b: f64,
}
#[derive(Serialize, Deserialize, JsonSchema)]
struct Scalars {
    a: bool,
    b: char,
    c: String,
    d: (),
}
#[derive(Serialize, Deserialize, JsonSchema)]
struct NonZeros {
    a: NonZeroU8,
    b: std::num::NonZeroU32,
    c: NonZeroI32,
}
#[derive(Serialize, Deserialize, JsonSchema)]
struct Lists {
    a: Vec<u8>,
    b: VecDeque<String>,
    c: LinkedList<bool>,
    d: Vec<Vec<Option<u8>>>,
    e: Box<[u8]>,
}
#[derive(Serialize, Deserialize, JsonSchema)]
struct Sets {
    a: BTreeSet<u8>,
    b: HashSet<String>,
}
#[derive(Serialize, Deserialize, JsonSchema)]
struct Arrays {
    a: [u8; 3],
    b: [[bool; 2]; 2],
    c: [Part; 1],
    d: [u8; 0],
}
#[derive(Serialize, Deserialize, JsonSchema)]
struct Tuples {
    a: (u8,),
    b: (u8, String),
    c: (u8, (bool, Part), Option<u8>),
    d: (u8),
}
#[derive(Serialize, Deserialize, JsonSchema)]
struct Maps {
    a: BTreeMap<String, u8>,
    b: HashMap<String, Vec<Part>>,
    c: BTreeMap<u8, bool>,
    d: BTreeMap<i16, bool>,
    e: BTreeMap<String, BTreeMap<String, Option<u8>>>,
}
#[derive(Serialize, Deserialize, JsonSchema)]
struct Boxes {
    a: Box<u8>,
    b: Box<Option<Part>>,
    c: Option<Box<Part>>,
    d: Vec<Box<str>>,
    e: Cell<u8>,
    f: RefCell<String>,
}
#[derive(Serialize, Deserialize, JsonSchema)]
struct Options {
    a: Option<Vec<u8>>,
    b: Vec<Option<Part>>,
    c: Option<(u8, u8)>,
    d: Option<BTreeMap<String, u8>>,
    e: Option<()>,
}
#[derive(Serialize, Deserialize, JsonSchema)]
struct Json {
    a: Value,
    b: Option<Value>,
    c: serde_json::Map<String, Value>,
    d: Vec<serde_json::Value>,
    e: serde_json::Number,
}
#[derive(Serialize, Deserialize, JsonSchema)]
struct Outcomes {
    a: Result<u8, String>,
    b: Result<Part, ()>,
}
#[derive(Serialize, Deserialize, JsonSchema)]
struct Ranges {
    a: Range<u8>,
    b: RangeInclusive<i32>,
    c: Bound<u8>,
}
#[derive(Serialize, Deserialize, JsonSchema)]
struct Times {
    a: Duration,
    b: std::time::SystemTime,
}
#[derive(Serialize, Deserialize, JsonSchema)]
struct Phantoms {
    a: PhantomData<Vec<u8>>,
    b: u8,
}
#[derive(Serialize, Deserialize, JsonSchema)]
struct Wrappers {
    a: Wrapping<u8>,
    b: Reverse<String>,
}
#[derive(Serialize, Deserialize, JsonSchema)]
struct Paths {
    a: PathBuf,
    b: std::string::String,
    c: std::collections::BTreeMap<std::string::String, std::vec::Vec<core::option::Option<u8>>>,
}
type Names = Vec<String>;
type Table<T> = BTreeMap<String, T>;
#[derive(Serialize, Deserialize, JsonSchema)]
struct Aliases {
    names: Names,
    table: Table<Part>,
    tables: Vec<Table<Names>>,
}
