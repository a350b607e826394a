//! The source's text as build.rs derives it. `convert` and `machine` are children, so
//! that they see its private parts.

include!(concat!(env!("OUT_DIR"), "/tx_policy_core.rs"));

#[warn(dead_code, unused_imports, clippy::all)]
#[path = "convert.rs"]
mod convert;
#[warn(dead_code, unused_imports, clippy::all)]
#[path = "machine.rs"]
pub mod machine;
