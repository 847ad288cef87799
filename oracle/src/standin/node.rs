// SPDX-License-Identifier: CC0-1.0

//! Stands in for the module `node`: the enum `Inner` with the maps that the parser calls, left child first. Left out: all
//! kinds of nodes, and CMRs, which hold nothing.

use std::sync::Arc;

use crate::dag::Dag;
use crate::jet::Listed;
use crate::value::{FailEntropy, Word};

/// A CMR; it is not computed.
#[derive(Copy, Clone, Debug, PartialEq, Eq, Hash)]
pub struct Cmr;

/// A combinator with children `C`, a right child of `disconnect` `X` and witness data `W`.
#[derive(Clone, Debug, PartialEq, Eq, Hash)]
pub enum Inner<C, X, W> {
    Iden,
    Unit,
    InjL(C),
    InjR(C),
    Take(C),
    Drop(C),
    Comp(C, C),
    Case(C, C),
    AssertL(C, Cmr),
    AssertR(Cmr, C),
    Pair(C, C),
    Disconnect(C, X),
    Witness(W),
    Fail(FailEntropy),
    Jet(Box<Listed>),
    Word(Word),
}

impl<C, X, W> Inner<C, X, W> {
    /// The same combinator with references to its data.
    pub fn as_ref(&self) -> Inner<&C, &X, &W> {
        match self {
            Inner::Iden => Inner::Iden,
            Inner::Unit => Inner::Unit,
            Inner::InjL(c) => Inner::InjL(c),
            Inner::InjR(c) => Inner::InjR(c),
            Inner::Take(c) => Inner::Take(c),
            Inner::Drop(c) => Inner::Drop(c),
            Inner::Comp(l, r) => Inner::Comp(l, r),
            Inner::Case(l, r) => Inner::Case(l, r),
            Inner::AssertL(c, cmr) => Inner::AssertL(c, *cmr),
            Inner::AssertR(cmr, c) => Inner::AssertR(*cmr, c),
            Inner::Pair(l, r) => Inner::Pair(l, r),
            Inner::Disconnect(c, x) => Inner::Disconnect(c, x),
            Inner::Witness(w) => Inner::Witness(w),
            Inner::Fail(entropy) => Inner::Fail(*entropy),
            Inner::Jet(jet) => Inner::Jet(jet.clone()),
            Inner::Word(word) => Inner::Word(word.shallow_clone()),
        }
    }

    /// Maps the children, the left one first.
    pub fn map<D>(self, mut f: impl FnMut(C) -> D) -> Inner<D, X, W> {
        match self {
            Inner::Iden => Inner::Iden,
            Inner::Unit => Inner::Unit,
            Inner::InjL(c) => Inner::InjL(f(c)),
            Inner::InjR(c) => Inner::InjR(f(c)),
            Inner::Take(c) => Inner::Take(f(c)),
            Inner::Drop(c) => Inner::Drop(f(c)),
            Inner::Comp(l, r) => Inner::Comp(f(l), f(r)),
            Inner::Case(l, r) => Inner::Case(f(l), f(r)),
            Inner::AssertL(c, cmr) => Inner::AssertL(f(c), cmr),
            Inner::AssertR(cmr, c) => Inner::AssertR(cmr, f(c)),
            Inner::Pair(l, r) => Inner::Pair(f(l), f(r)),
            Inner::Disconnect(c, x) => Inner::Disconnect(f(c), x),
            Inner::Witness(w) => Inner::Witness(w),
            Inner::Fail(entropy) => Inner::Fail(entropy),
            Inner::Jet(jet) => Inner::Jet(jet),
            Inner::Word(word) => Inner::Word(word),
        }
    }

    /// Maps the left and the right child; a lone child is a left one.
    pub fn map_left_right<D>(
        self,
        fl: impl FnOnce(C) -> D,
        fr: impl FnOnce(C) -> D,
    ) -> Inner<D, X, W> {
        match self {
            Inner::Iden => Inner::Iden,
            Inner::Unit => Inner::Unit,
            Inner::InjL(c) => Inner::InjL(fl(c)),
            Inner::InjR(c) => Inner::InjR(fl(c)),
            Inner::Take(c) => Inner::Take(fl(c)),
            Inner::Drop(c) => Inner::Drop(fl(c)),
            Inner::Comp(l, r) => Inner::Comp(fl(l), fr(r)),
            Inner::Case(l, r) => Inner::Case(fl(l), fr(r)),
            Inner::AssertL(c, cmr) => Inner::AssertL(fl(c), cmr),
            Inner::AssertR(cmr, c) => Inner::AssertR(cmr, fl(c)),
            Inner::Pair(l, r) => Inner::Pair(fl(l), fr(r)),
            Inner::Disconnect(c, x) => Inner::Disconnect(fl(c), x),
            Inner::Witness(w) => Inner::Witness(w),
            Inner::Fail(entropy) => Inner::Fail(entropy),
            Inner::Jet(jet) => Inner::Jet(jet),
            Inner::Word(word) => Inner::Word(word),
        }
    }

    /// Maps the right child of `disconnect`.
    pub fn map_disconnect<Y>(self, f: impl FnOnce(X) -> Y) -> Inner<C, Y, W> {
        match self {
            Inner::Iden => Inner::Iden,
            Inner::Unit => Inner::Unit,
            Inner::InjL(c) => Inner::InjL(c),
            Inner::InjR(c) => Inner::InjR(c),
            Inner::Take(c) => Inner::Take(c),
            Inner::Drop(c) => Inner::Drop(c),
            Inner::Comp(l, r) => Inner::Comp(l, r),
            Inner::Case(l, r) => Inner::Case(l, r),
            Inner::AssertL(c, cmr) => Inner::AssertL(c, cmr),
            Inner::AssertR(cmr, c) => Inner::AssertR(cmr, c),
            Inner::Pair(l, r) => Inner::Pair(l, r),
            Inner::Disconnect(c, x) => Inner::Disconnect(c, f(x)),
            Inner::Witness(w) => Inner::Witness(w),
            Inner::Fail(entropy) => Inner::Fail(entropy),
            Inner::Jet(jet) => Inner::Jet(jet),
            Inner::Word(word) => Inner::Word(word),
        }
    }

    /// Maps the witness data.
    pub fn map_witness<V>(self, f: impl FnOnce(W) -> V) -> Inner<C, X, V> {
        match self {
            Inner::Iden => Inner::Iden,
            Inner::Unit => Inner::Unit,
            Inner::InjL(c) => Inner::InjL(c),
            Inner::InjR(c) => Inner::InjR(c),
            Inner::Take(c) => Inner::Take(c),
            Inner::Drop(c) => Inner::Drop(c),
            Inner::Comp(l, r) => Inner::Comp(l, r),
            Inner::Case(l, r) => Inner::Case(l, r),
            Inner::AssertL(c, cmr) => Inner::AssertL(c, cmr),
            Inner::AssertR(cmr, c) => Inner::AssertR(cmr, c),
            Inner::Pair(l, r) => Inner::Pair(l, r),
            Inner::Disconnect(c, x) => Inner::Disconnect(c, x),
            Inner::Witness(w) => Inner::Witness(f(w)),
            Inner::Fail(entropy) => Inner::Fail(entropy),
            Inner::Jet(jet) => Inner::Jet(jet),
            Inner::Word(word) => Inner::Word(word),
        }
    }
}

impl<C, X, W> Inner<Option<C>, X, W> {
    /// None if a child is none.
    pub fn transpose(self) -> Option<Inner<C, X, W>> {
        Some(match self {
            Inner::Iden => Inner::Iden,
            Inner::Unit => Inner::Unit,
            Inner::InjL(c) => Inner::InjL(c?),
            Inner::InjR(c) => Inner::InjR(c?),
            Inner::Take(c) => Inner::Take(c?),
            Inner::Drop(c) => Inner::Drop(c?),
            Inner::Comp(l, r) => Inner::Comp(l?, r?),
            Inner::Case(l, r) => Inner::Case(l?, r?),
            Inner::AssertL(c, cmr) => Inner::AssertL(c?, cmr),
            Inner::AssertR(cmr, c) => Inner::AssertR(cmr, c?),
            Inner::Pair(l, r) => Inner::Pair(l?, r?),
            Inner::Disconnect(c, x) => Inner::Disconnect(c?, x),
            Inner::Witness(w) => Inner::Witness(w),
            Inner::Fail(entropy) => Inner::Fail(entropy),
            Inner::Jet(jet) => Inner::Jet(jet),
            Inner::Word(word) => Inner::Word(word),
        })
    }
}

impl<C, X, W> Inner<C, Option<X>, W> {
    /// None if the right child of `disconnect` is none.
    pub fn transpose_disconnect(self) -> Option<Inner<C, X, W>> {
        Some(match self {
            Inner::Iden => Inner::Iden,
            Inner::Unit => Inner::Unit,
            Inner::InjL(c) => Inner::InjL(c),
            Inner::InjR(c) => Inner::InjR(c),
            Inner::Take(c) => Inner::Take(c),
            Inner::Drop(c) => Inner::Drop(c),
            Inner::Comp(l, r) => Inner::Comp(l, r),
            Inner::Case(l, r) => Inner::Case(l, r),
            Inner::AssertL(c, cmr) => Inner::AssertL(c, cmr),
            Inner::AssertR(cmr, c) => Inner::AssertR(cmr, c),
            Inner::Pair(l, r) => Inner::Pair(l, r),
            Inner::Disconnect(c, x) => Inner::Disconnect(c, x?),
            Inner::Witness(w) => Inner::Witness(w),
            Inner::Fail(entropy) => Inner::Fail(entropy),
            Inner::Jet(jet) => Inner::Jet(jet),
            Inner::Word(word) => Inner::Word(word),
        })
    }
}

impl<N, W> Inner<Arc<N>, Arc<N>, W> {
    /// The children alone; those of `disconnect` are two.
    pub fn as_dag(&self) -> Dag<&N> {
        match self {
            Inner::Iden
            | Inner::Unit
            | Inner::Witness(_)
            | Inner::Fail(_)
            | Inner::Jet(_)
            | Inner::Word(_) => Dag::Nullary,
            Inner::InjL(c)
            | Inner::InjR(c)
            | Inner::Take(c)
            | Inner::Drop(c)
            | Inner::AssertL(c, _)
            | Inner::AssertR(_, c) => Dag::Unary(c),
            Inner::Comp(l, r) | Inner::Case(l, r) | Inner::Pair(l, r) | Inner::Disconnect(l, r) => {
                Dag::Binary(l, r)
            }
        }
    }
}
