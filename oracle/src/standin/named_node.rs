//! Stands in for `human_encoding::named_node`: nodes that hold nothing, so that step 3 runs as it stands and shows which
//! roots it drops. Left out: generated names, CMRs, type inference and finalising, none of which fails here.

use std::sync::Arc;

use crate::human_encoding::{ErrorSet, Position, WitnessOrHole};
use crate::node::{Cmr, Inner};
use crate::types;

/// The assigner of names to inline nodes.
pub struct Namer;

impl Namer {
    #[allow(clippy::new_without_default)]
    pub fn new() -> Self {
        Namer
    }

    pub fn assign_name<C, X, W>(&mut self, _: Inner<C, X, W>) -> String {
        String::new()
    }
}

/// A node under construction.
#[derive(Clone, Debug)]
pub struct NamedConstructNode;

impl NamedConstructNode {
    #[allow(clippy::type_complexity)]
    pub fn new<'brand>(
        _: &types::Context<'brand>,
        _: Arc<str>,
        _: Position,
        _: Arc<[types::Type<'brand>]>,
        _: Arc<[types::Type<'brand>]>,
        _: Inner<Arc<NamedConstructNode>, Arc<NamedConstructNode>, WitnessOrHole>,
    ) -> Result<Self, types::Error> {
        Ok(NamedConstructNode)
    }

    pub fn renamed(&self, _: Arc<str>) -> Self {
        NamedConstructNode
    }

    pub fn cmr(&self) -> Cmr {
        Cmr
    }

    pub fn finalize_types_main(&self) -> Result<Arc<NamedCommitNode>, ErrorSet> {
        Ok(Arc::new(NamedCommitNode))
    }

    pub fn finalize_types_non_main(&self) -> Result<Arc<NamedCommitNode>, ErrorSet> {
        Ok(Arc::new(NamedCommitNode))
    }
}

/// A finished node.
#[derive(Clone, Debug)]
pub struct NamedCommitNode;
