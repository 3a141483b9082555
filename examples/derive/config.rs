use schemars::JsonSchema;
use serde::{Deserialize, Serialize};
use std::collections::BTreeMap;

/// The configuration of a server.
#[derive(Debug, Serialize, Deserialize, JsonSchema)]
#[serde(rename_all = "camelCase", deny_unknown_fields)]
pub struct Config {
    /// where it listens
    pub listen_on: String,
    /// how many requests it works at a time
    #[schemars(range(min = 1, max = 64))]
    pub workers: u16,
    #[serde(default)]
    pub tags: Vec<String>,
    pub limits: Option<Limits>,
    /// what to do, by the beginning of a path
    pub routes: BTreeMap<String, Route>,
}

/// How much a client may ask for.
#[derive(Debug, Serialize, Deserialize, JsonSchema)]
pub struct Limits {
    pub requests: u32,
    #[serde(skip_serializing_if = "Option::is_none")]
    pub seconds: Option<u32>,
}

/// What to do with a request.
#[derive(Debug, Serialize, Deserialize, JsonSchema)]
#[serde(tag = "kind", rename_all = "kebab-case")]
pub enum Route {
    /// answer with what is in a folder
    StaticFiles { folder: String },
    /// ask another server
    Proxy { to: String, retries: u8 },
    NotFound,
}
