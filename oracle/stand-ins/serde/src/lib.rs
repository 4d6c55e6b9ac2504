//! Stands in for serde: the names that the original derives, without any code behind them.

pub use serde_derive::{Deserialize, Serialize};
