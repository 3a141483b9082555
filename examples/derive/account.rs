use schemars::JsonSchema;
use serde::{Deserialize, Serialize};

/// Somebody who may sign in.
#[derive(Serialize, Deserialize, JsonSchema)]
#[serde(deny_unknown_fields)]
pub struct Account {
    pub name: String,
    pub age: Option<u8>,
}
