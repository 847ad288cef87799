//! Stand-ins for what the carried-over text calls for and does not hold.

pub mod dag;
pub mod jet;
pub(crate) mod logos;
pub mod named_node;
pub mod node;
pub mod types;
pub mod value;
