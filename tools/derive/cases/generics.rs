// Parameters, recursion and modules.
#[derive(Serialize, Deserialize, JsonSchema)]
struct Page<T> {
    items: Vec<T>,
    next: Option<String>,
}
#[derive(Serialize, Deserialize, JsonSchema)]
struct Both<A, B> {
    a: A,
    b: B,
}
#[derive(Serialize, Deserialize, JsonSchema)]
struct Pages {
    numbers: Page<u8>,
    texts: Page<String>,
    pages: Page<Page<bool>>,
    both: Both<Page<u8>, Option<u8>>,
}
#[derive(Serialize, Deserialize, JsonSchema)]
#[serde(tag = "kind", content = "data")]
enum Message<T, E> {
    Good(T),
    Bad(E),
}
#[derive(Serialize, Deserialize, JsonSchema)]
struct Messages {
    first: Message<u8, String>,
    second: Message<Vec<u8>, ()>,
}
#[derive(Serialize, Deserialize, JsonSchema)]
struct Marked<T> {
    name: String,
    #[serde(skip)]
    marker: PhantomData<T>,
}
#[derive(Serialize, Deserialize, JsonSchema)]
struct HasMarked {
    marked: Marked<u8>,
}
#[derive(Serialize, Deserialize, JsonSchema)]
struct HasPage(Page<Three>);
#[derive(Serialize, Deserialize, JsonSchema)]
struct Three {
    a: u8,
    b: u8,
    c: u8,
}
#[derive(Serialize, Deserialize, JsonSchema)]
struct List {
    value: u8,
    next: Option<Box<List>>,
}
#[derive(Serialize, Deserialize, JsonSchema)]
struct Tree {
    name: String,
    children: Vec<Tree>,
}
#[derive(Serialize, Deserialize, JsonSchema)]
struct SelfTree {
    children: Vec<Self>,
    named: BTreeMap<String, Self>,
}
#[derive(Serialize, Deserialize, JsonSchema)]
struct Author {
    name: String,
    books: Vec<Book>,
}
#[derive(Serialize, Deserialize, JsonSchema)]
struct Book {
    title: String,
    author: Option<Box<Author>>,
}
#[derive(Serialize, Deserialize, JsonSchema)]
enum Expression {
    Number(i32),
    Sum(Box<Expression>, Box<Expression>),
    Negation(Box<Expression>),
    Call { name: String, arguments: Vec<Expression> },
}
#[derive(Serialize, Deserialize, JsonSchema)]
struct Branch<T> {
    value: T,
    left: Option<Box<Branch<T>>>,
}
#[derive(Serialize, Deserialize, JsonSchema)]
struct HasBranch {
    numbers: Branch<u8>,
    texts: Branch<String>,
}
mod inner {
    use super::*;
    #[derive(Serialize, Deserialize, JsonSchema)]
    pub struct Config {
        pub a: u8,
    }
    pub mod deeper {
        use super::*;
        #[derive(Serialize, Deserialize, JsonSchema)]
        pub struct Config {
            pub b: u8,
        }
        #[derive(Serialize, Deserialize, JsonSchema)]
        pub struct Outer {
            pub mine: Config,
            pub above: super::Config,
        }
    }
}
use inner::deeper::Outer as Renamed;
#[derive(Serialize, Deserialize, JsonSchema)]
struct Modules {
    a: inner::Config,
    b: inner::deeper::Config,
    c: Renamed,
    d: self::inner::Config,
}
#[derive(Serialize, Deserialize, JsonSchema)]
#[serde(bound = "T: Serialize + serde::de::DeserializeOwned")]
struct Limited<T> {
    inner: T,
}
#[derive(Serialize, Deserialize, JsonSchema)]
struct HasLimited {
    limited: Limited<u8>,
}
#[derive(Serialize, Deserialize, JsonSchema)]
#[serde(transparent)]
struct Shell<T>(T);
#[derive(Serialize, Deserialize, JsonSchema)]
struct HasShell {
    text: Shell<String>,
    option: Shell<Option<u8>>,
}
#[derive(Serialize, Deserialize, JsonSchema)]
struct Cows<'a> {
    text: Cow<'a, str>,
    list: Cow<'a, [u8]>,
}
