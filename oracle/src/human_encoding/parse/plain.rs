//! What was parsed, as plain data: nodes from step 2's own children and in-degrees, numbered as finished.

use std::collections::HashMap;
use std::sync::atomic::Ordering;
use std::sync::Arc;

use super::{ast, Error, ErrorSet, Parsed, Position, ResolvedCmr, ResolvedExpression};
use super::{ResolvedInner, WitnessOrHole};
use crate::node::Inner;
use crate::types::Type;
use crate::{ErrorRow, Name, Node, Reading, Root, Span};

/// The literal, literal CMR, jet token, name used or hole's name of an expression; otherwise 0, 0.
pub(super) fn span(expr_inner: &ast::ExprInner) -> Span {
    match expr_inner {
        ast::ExprInner::Reference(_, span) => *span,
        ast::ExprInner::AssertL(_, cmr) | ast::ExprInner::AssertR(cmr, _) => match cmr {
            ast::AstCmr::Literal(span) => *span,
            ast::AstCmr::Expr(_) => Span::default(),
        },
        ast::ExprInner::Inline(inner) => match inner {
            Inner::Witness(WitnessOrHole::TypedHole(_, span)) => *span,
            Inner::Fail(entropy) => entropy.span(),
            Inner::Jet(jet) => jet.span,
            Inner::Word(word) => word.span(),
            _ => Span::default(),
        },
    }
}

/// All that was found, as plain data.
pub(super) fn reading(parsed: Parsed<'_>) -> Reading {
    let numbers = Numbers::new(&parsed.finished);
    let names = parsed.name_order.iter().map(|name| {
        let node = &parsed.resolved_map[name];
        Name {
            text: name.to_string(),
            span: node.position.span(),
            node: numbers.of(node),
            source_types: trees(&node.user_source_types),
            target_types: trees(&node.user_target_types),
        }
    });
    let roots = parsed.name_order.iter().filter_map(|name| {
        let node = &parsed.resolved_map[name];
        (in_degree(node) == 0).then(|| Root {
            name: name.to_string(),
            node: numbers.of(node),
            dropped: !parsed.roots.contains_key(name),
        })
    });
    Reading {
        names: names.collect(),
        nodes: parsed.finished.iter().map(|n| numbers.node(n)).collect(),
        roots: roots.collect(),
        line_errors: error_rows(&parsed.line_errors),
        step3_errors: parsed
            .step3_errors
            .iter()
            .map(|(position, error)| error_row(*position, error))
            .collect(),
        reported: error_rows(&parsed.errors),
        tokens: parsed.tokens,
        lines: parsed.lines,
    }
}

/// The nodes' numbers, by where they lie in memory.
struct Numbers(HashMap<*const (), usize>);

impl Numbers {
    fn new(finished: &[Arc<ResolvedExpression>]) -> Self {
        let numbered = finished.iter().zip(1..);
        Numbers(numbered.map(|(node, no)| (place(node), no)).collect())
    }

    fn of(&self, node: &Arc<ResolvedExpression>) -> usize {
        self.0[&place(node)]
    }

    fn node(&self, node: &ResolvedExpression) -> Node {
        let (kind, left, right) = match &node.inner {
            ResolvedInner::Missing { .. } => (1, 0, 0),
            ResolvedInner::NoExpr { .. } => (2, 0, 0),
            ResolvedInner::Reference(child) => (3, self.of(child), 0),
            ResolvedInner::AssertL(child, cmr) => (4, self.of(child), self.cmr(cmr)),
            ResolvedInner::AssertR(cmr, child) => (5, self.cmr(cmr), self.of(child)),
            ResolvedInner::Inline(inner) => match inner {
                Inner::Iden => (6, 0, 0),
                Inner::Unit => (7, 0, 0),
                Inner::InjL(c) => (8, self.of(c), 0),
                Inner::InjR(c) => (9, self.of(c), 0),
                Inner::Take(c) => (10, self.of(c), 0),
                Inner::Drop(c) => (11, self.of(c), 0),
                Inner::Comp(l, r) => (12, self.of(l), self.of(r)),
                Inner::Case(l, r) => (13, self.of(l), self.of(r)),
                Inner::Pair(l, r) => (14, self.of(l), self.of(r)),
                Inner::Disconnect(l, r) => (15, self.of(l), self.of(r)),
                Inner::Witness(WitnessOrHole::Witness) => (16, 0, 0),
                Inner::Witness(WitnessOrHole::TypedHole(..)) => (17, 0, 0),
                Inner::Fail(_) => (18, 0, 0),
                Inner::Jet(_) => (19, 0, 0),
                Inner::Word(_) => (20, 0, 0),
                Inner::AssertL(..) | Inner::AssertR(..) => unreachable!(),
            },
        };
        Node {
            kind,
            start: node.position.span().start,
            name: node.name.as_ref().map(|name| name.to_string()),
            left,
            right,
            span: node.span,
            in_degree: in_degree(node),
        }
    }

    fn cmr(&self, cmr: &ResolvedCmr) -> usize {
        match cmr {
            ResolvedCmr::Expr(node) => self.of(node),
            ResolvedCmr::Literal => 0,
        }
    }
}

fn place(node: &Arc<ResolvedExpression>) -> *const () {
    Arc::as_ptr(node).cast()
}

fn in_degree(node: &ResolvedExpression) -> usize {
    node.in_degree.load(Ordering::SeqCst)
}

fn trees(types: &[Type]) -> Vec<ast::Type> {
    types.iter().map(|ty| ty.tree().clone()).collect()
}

fn error_rows(errors: &ErrorSet) -> Vec<ErrorRow> {
    let rows = errors.rows();
    rows.map(|(position, error)| error_row(position.expect("a position"), error))
        .collect()
}

fn error_row(position: Position, error: &Error) -> ErrorRow {
    let (kind, name) = match error {
        Error::NameIllegal(name) => (1, name),
        Error::NameRepeated(name) => (2, name),
        Error::NameMissing(name) => (3, name),
        Error::NameIncomplete(name) => (4, name),
        other => unreachable!("no error of names: {other:?}"),
    };
    ErrorRow {
        kind,
        start: position.span().start,
        name: name.to_string(),
    }
}
