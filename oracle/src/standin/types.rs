//! Stands in for the module `types`: a type is a placeholder that keeps the tree it was written as. Left out: type
//! inference, and so every type error.

use std::marker::PhantomData;
use std::sync::Arc;

use crate::ast;

/// The inference context; it holds nothing.
pub struct Context<'brand> {
    brand: PhantomData<fn(&'brand ()) -> &'brand ()>,
}

impl Context<'_> {
    pub fn with_context<R>(f: impl for<'brand> FnOnce(Context<'brand>) -> R) -> R {
        f(Context { brand: PhantomData })
    }
}

/// A type that a line gives. Like the Rust's, it is cheap to clone.
#[derive(Clone, Debug)]
pub struct Type<'brand> {
    tree: Arc<ast::Type>,
    brand: PhantomData<fn(&'brand ()) -> &'brand ()>,
}

impl<'brand> Type<'brand> {
    pub fn keep(_: &Context<'brand>, tree: ast::Type) -> Self {
        Type {
            tree: Arc::new(tree),
            brand: PhantomData,
        }
    }

    pub fn tree(&self) -> &ast::Type {
        &self.tree
    }
}

/// A type error; there is none without inference.
#[derive(Copy, Clone, Debug)]
pub enum Error {}
