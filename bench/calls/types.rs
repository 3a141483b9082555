//! The types of which schemas are made, for both sides.

/// A struct of three fields.
// derive(JsonSchema)
pub struct Small {
    pub name: String,
    pub count: u32,
    pub done: bool,
}

/// A struct of fifteen fields.
// derive(JsonSchema)
pub struct Large {
    pub name: String,
    pub title: String,
    pub text: String,
    pub count: u32,
    pub total: u64,
    pub offset: i32,
    pub rate: f64,
    pub done: bool,
    pub closed: bool,
    pub words: Vec<String>,
    pub numbers: Vec<u32>,
    pub next: Option<u32>,
    pub note: Option<String>,
    pub pair: (u8, u8),
    pub last: Vec<Option<u64>>,
}

/// An enum of eight variants.
// derive(JsonSchema)
pub enum Choice {
    None,
    All,
    Some(u32),
    Named(String),
    Listed(Vec<u32>),
    Pair(u8, u8),
    Range { from: u32, to: u32 },
    Until { last: u64 },
}

/// A type in itself.
// derive(JsonSchema)
pub struct Tree {
    pub value: u32,
    pub children: Vec<Tree>,
}
