// SPDX-License-Identifier: CC0-1.0

//! Parsing

// CHANGED: the trees are public
pub mod ast;
// ADDED: what was read, as plain data
mod plain;

use crate::dag::{Dag, DagLike, InternalSharing};
// CHANGED: the jets come as a list
use crate::jet::{Jet, Jets};
use crate::node;
use crate::types::{self, Type};
use std::collections::HashMap;
use std::mem;
use std::sync::atomic::{AtomicUsize, Ordering};
use std::sync::Arc;

use super::named_node::{NamedCommitNode, NamedConstructNode, Namer};
use super::{Position, WitnessOrHole};

use super::{Error, ErrorSet};

// ADDED: spans are kept
use crate::Span;

#[derive(Clone)]
struct UnresolvedExpression<'brand> {
    inner: UnresolvedInner<'brand>,
    position: Position,
}

impl<'brand> UnresolvedExpression<'brand> {
    fn from_name(name: Arc<str>, position: Position) -> Self {
        UnresolvedExpression {
            inner: UnresolvedInner::NoExpr {
                name,
                user_source_types: vec![],
                user_target_types: vec![],
            },
            position,
        }
    }

    fn from_inline_expression(expr_inner: ast::ExprInner, position: Position) -> Self {
        UnresolvedExpression {
            inner: UnresolvedInner::Inline { expr_inner },
            position,
        }
    }

    fn add_expression(
        &mut self,
        expr_inner: ast::ExprInner,
        position: Position,
    ) -> Result<(), ErrorSet> {
        match self.inner {
            UnresolvedInner::NoExpr {
                ref name,
                ref mut user_source_types,
                ref mut user_target_types,
            } => {
                self.inner = UnresolvedInner::Named {
                    name: Arc::clone(name),
                    user_source_types: mem::take(user_source_types),
                    user_target_types: mem::take(user_target_types),
                    expr_inner,
                };
                Ok(())
            }
            UnresolvedInner::Inline { .. } => unreachable!(),
            UnresolvedInner::Named { ref name, .. } => Err(ErrorSet::single(
                position,
                Error::NameRepeated(Arc::clone(name)),
            )),
        }
    }

    fn add_source_type(&mut self, ty: Type<'brand>) {
        match self.inner {
            UnresolvedInner::NoExpr {
                ref mut user_source_types,
                ..
            } => {
                user_source_types.push(ty);
            }
            UnresolvedInner::Inline { .. } => unreachable!(),
            UnresolvedInner::Named {
                ref mut user_source_types,
                ..
            } => {
                user_source_types.push(ty);
            }
        }
    }

    fn add_target_type(&mut self, ty: Type<'brand>) {
        match self.inner {
            UnresolvedInner::NoExpr {
                ref mut user_target_types,
                ..
            } => {
                user_target_types.push(ty);
            }
            UnresolvedInner::Inline { .. } => unreachable!(),
            UnresolvedInner::Named {
                ref mut user_target_types,
                ..
            } => {
                user_target_types.push(ty);
            }
        }
    }
}

#[derive(Clone)]
enum UnresolvedInner<'brand> {
    NoExpr {
        name: Arc<str>,
        user_source_types: Vec<Type<'brand>>,
        user_target_types: Vec<Type<'brand>>,
    },
    Inline {
        expr_inner: ast::ExprInner,
    },
    Named {
        name: Arc<str>,
        user_source_types: Vec<Type<'brand>>,
        user_target_types: Vec<Type<'brand>>,
        expr_inner: ast::ExprInner,
    },
}

struct ResolvedExpression<'brand> {
    inner: ResolvedInner<'brand>,
    position: Position,

    name: Option<Arc<str>>,
    user_source_types: Arc<[Type<'brand>]>,
    user_target_types: Arc<[Type<'brand>]>,

    in_degree: AtomicUsize,
    // ADDED: the literal, literal CMR, jet token, name used, hole's name or incomplete name
    span: Span,
}

impl<'brand> DagLike for &'_ ResolvedExpression<'brand> {
    type Node = ResolvedExpression<'brand>;
    fn data(&self) -> &ResolvedExpression<'brand> {
        self
    }

    fn as_dag_node(&self) -> Dag<Self> {
        match self.inner {
            ResolvedInner::Missing { .. } | ResolvedInner::NoExpr { .. } => Dag::Nullary,
            ResolvedInner::Reference(ref child) => Dag::Unary(child),
            ResolvedInner::AssertL(ref left, ResolvedCmr::Expr(ref right))
            | ResolvedInner::AssertR(ResolvedCmr::Expr(ref left), ref right) => {
                Dag::Binary(left, right)
            }
            ResolvedInner::AssertL(ref child, ResolvedCmr::Literal)
            | ResolvedInner::AssertR(ResolvedCmr::Literal, ref child) => Dag::Unary(child),
            ResolvedInner::Inline(ref inner) => inner.as_dag().map(|node| node),
        }
    }
}

enum ResolvedCmr<'brand> {
    Expr(Arc<ResolvedExpression<'brand>>),
    Literal,
}

enum ResolvedInner<'brand> {
    /// A reference to a missing expression
    Missing { name: Arc<str> },
    /// A reference to a name with no associated expression
    NoExpr { name: Arc<str> },
    /// A reference to another expression
    Reference(Arc<ResolvedExpression<'brand>>),
    /// A left assertion (referring to the CMR of an expression on the right)
    AssertL(Arc<ResolvedExpression<'brand>>, ResolvedCmr<'brand>),
    /// A right assertion (referring to the CMR of an expression on the left)
    AssertR(ResolvedCmr<'brand>, Arc<ResolvedExpression<'brand>>),
    /// An inline expression
    Inline(
        node::Inner<
            Arc<ResolvedExpression<'brand>>,
            Arc<ResolvedExpression<'brand>>,
            WitnessOrHole,
        >,
    ),
}

// ADDED: all that `parse_inner` finds, in place of the roots or the errors alone
struct Parsed<'brand> {
    tokens: Vec<crate::Token>,
    /// The lines, if they are kept.
    lines: Vec<ast::Line>,
    /// The names in the order of their first legal lines.
    name_order: Vec<Arc<str>>,
    resolved_map: HashMap<Arc<str>, Arc<ResolvedExpression<'brand>>>,
    /// The nodes in the order in which they are finished.
    finished: Vec<Arc<ResolvedExpression<'brand>>>,
    /// The roots that step 3 does not drop.
    roots: HashMap<Arc<str>, Arc<NamedCommitNode>>,
    line_errors: ErrorSet,
    /// The errors of step 3, in the order in which they are added.
    step3_errors: Vec<(Position, Error)>,
    errors: ErrorSet,
}

// CHANGED: takes the known jets, and gives plain data
pub fn parse<J: Jet>(program: &str, jets: &Jets) -> Result<crate::Reading, ErrorSet> {
    types::Context::with_context(|ctx| {
        parse_inner::<J>(ctx, program, jets, true).map(plain::reading)
    })
}

// ADDED: parses and gives the number of nodes, so that nothing but the parsing is timed
pub fn run<J: Jet>(program: &str, jets: &Jets) -> Result<usize, ErrorSet> {
    types::Context::with_context(|ctx| {
        parse_inner::<J>(ctx, program, jets, false).map(|parsed| parsed.finished.len())
    })
}

// CHANGED: takes the known jets and whether the lines are kept; gives all that is found
fn parse_inner<'brand, J: Jet>(
    inference_context: types::Context<'brand>,
    program: &str,
    jets: &Jets,
    keep_lines: bool,
) -> Result<Parsed<'brand>, ErrorSet> {
    let mut errors = ErrorSet::new();
    // **
    // Step 1: Read expressions into HashMap, checking for dupes and illegal names.
    // **
    let mut unresolved_map = HashMap::<Arc<str>, UnresolvedExpression>::new();
    // ADDED: the names in the order of their first legal lines
    let mut name_order = Vec::<Arc<str>>::new();
    // CHANGED: the tokens and the lines are kept
    let (tokens, lines) = ast::parse_line_vector::<J>(program, jets)?;
    let kept_lines = if keep_lines { lines.clone() } else { vec![] };
    for line in lines {
        if line.name.as_ref() == "_" || line.name.starts_with("prim") {
            errors.add(line.position, Error::NameIllegal(Arc::clone(&line.name)));
            continue;
        }

        // ADDED: the name's first legal line
        if !unresolved_map.contains_key(&line.name) {
            name_order.push(Arc::clone(&line.name));
        }

        let entry =
            unresolved_map
                .entry(line.name.clone())
                .or_insert(UnresolvedExpression::from_name(
                    Arc::clone(&line.name),
                    line.position,
                ));

        if let Some(expr) = line.expression {
            if let Err(eset) = entry.add_expression(expr.inner, expr.position) {
                errors.merge(&eset)
            }
        }
        if let Some(ty) = line.arrow.0 {
            entry.add_source_type(ty.reify(&inference_context));
        }
        if let Some(ty) = line.arrow.1 {
            entry.add_target_type(ty.reify(&inference_context));
        }
    }
    // ADDED: the errors so far are those of lines
    let line_errors = errors.clone();

    // **
    // Step 2: Resolve every name.
    // We need to manually recurse rather than using `dag::PostOrderIter` because
    // we may have multiple disconnected components.
    // **
    let mut resolved_map =
        HashMap::<Arc<str>, Arc<ResolvedExpression>>::with_capacity(unresolved_map.len());

    // ADDED: the nodes in the order in which they are finished
    let mut finished = Vec::<Arc<ResolvedExpression>>::new();

    // CHANGED: the first unresolved name by first legal line, in place of `unresolved_map.keys().next()`
    let mut next_names = name_order.iter();
    while let Some(name) = next_names.find(|name| unresolved_map.contains_key(*name)) {
        let name = Arc::clone(name);
        let expr = unresolved_map.remove(&name).unwrap();

        #[derive(Clone)]
        struct StackItem<'brand> {
            expr: UnresolvedExpression<'brand>,
            name: Option<Arc<str>>,
            done_children: bool,
        }

        // Stack of unresolved entries, which are named expressions from `resolved_map`
        // as well as children of those named expressions (which themselves may be
        // either named or inline).
        let mut stack = vec![];
        // Stack of resolved inline entries. Somewhat confusingly, when resolving inline
        // expressions, we put them on the stack and use some careful accounting to make
        // sure that they're popped in the right place. When resolving named expressions,
        // we just stick the result into `resolved_map` and later refer to it by name.
        //
        // The reason we need to do both is that we are working with a "DAG forest" where
        // named expressions may be accessible from multiple roots. This means that when
        // we encounter a named expression, that expression might've already been resolved,
        // and there is no "intrinsic" way to distinguish these cases. So tracking state
        // using a stack would be pretty complicated.
        //
        // On the other hand, inline expressions do not have names or any other identifying
        // characteristics except the order in which they appear. So for these we need to
        // use the `inline_stack` to keep track of which ones we've already resolved..
        let mut inline_stack: Vec<Arc<ResolvedExpression>> = vec![];
        stack.push(StackItem {
            expr,
            name: Some(Arc::clone(&name)),
            done_children: false,
        });

        while let Some(mut stack_item) = stack.pop() {
            // First, recurse on any children
            if !stack_item.done_children {
                stack_item.done_children = true;
                stack.push(stack_item.clone());

                let push_ast_expr = |stack: &mut Vec<_>, expr: &ast::Expression| {
                    stack.push(StackItem {
                        expr: UnresolvedExpression::from_inline_expression(
                            expr.inner.clone(),
                            expr.position,
                        ),
                        name: None,
                        done_children: false,
                    })
                };

                match stack_item.expr.inner {
                    UnresolvedInner::NoExpr { .. } => {}
                    UnresolvedInner::Inline { ref expr_inner, .. }
                    | UnresolvedInner::Named { ref expr_inner, .. } => match expr_inner {
                        // CHANGED: the span beside the name
                        ast::ExprInner::Reference(ref ref_name, _) => {
                            if let Some(child) = unresolved_map.remove(ref_name) {
                                stack.push(StackItem {
                                    expr: child,
                                    name: Some(Arc::clone(ref_name)),
                                    done_children: false,
                                });
                            }
                        }
                        ast::ExprInner::AssertL(ref left, ref cmr) => {
                            push_ast_expr(&mut stack, left);
                            if let ast::AstCmr::Expr(ref right) = cmr {
                                push_ast_expr(&mut stack, right);
                            }
                        }
                        ast::ExprInner::AssertR(ref cmr, ref right) => {
                            if let ast::AstCmr::Expr(ref left) = cmr {
                                push_ast_expr(&mut stack, left);
                            }
                            push_ast_expr(&mut stack, right);
                        }
                        ast::ExprInner::Inline(ref inner) => match inner.as_dag() {
                            Dag::Nullary => {}
                            Dag::Unary(child) => push_ast_expr(&mut stack, child),
                            Dag::Binary(left, right) => {
                                push_ast_expr(&mut stack, left);
                                push_ast_expr(&mut stack, right);
                            }
                        },
                    },
                }
                continue;
            }

            let mut convert_expr_inner = |expr_inner: &ast::ExprInner| match expr_inner {
                // CHANGED: the span beside the name
                ast::ExprInner::Reference(ref ref_name, _) => {
                    if let Some(referent) = resolved_map.get(ref_name) {
                        referent.in_degree.fetch_add(1, Ordering::SeqCst);
                        ResolvedInner::Reference(Arc::clone(referent))
                    } else {
                        ResolvedInner::Missing {
                            name: Arc::clone(ref_name),
                        }
                    }
                }
                ast::ExprInner::AssertL(_, ref cmr) => {
                    let left = inline_stack.pop().unwrap();
                    left.in_degree.fetch_add(1, Ordering::SeqCst);

                    let right = match cmr {
                        ast::AstCmr::Expr(..) => {
                            let right = inline_stack.pop().unwrap();
                            right.in_degree.fetch_add(1, Ordering::SeqCst);
                            ResolvedCmr::Expr(right)
                        }
                        // CHANGED: the literal has a span
                        ast::AstCmr::Literal(_) => ResolvedCmr::Literal,
                    };
                    ResolvedInner::AssertL(left, right)
                }
                ast::ExprInner::AssertR(ref cmr, _) => {
                    let left = match cmr {
                        ast::AstCmr::Expr(..) => {
                            let left = inline_stack.pop().unwrap();
                            left.in_degree.fetch_add(1, Ordering::SeqCst);
                            ResolvedCmr::Expr(left)
                        }
                        // CHANGED: the literal has a span
                        ast::AstCmr::Literal(_) => ResolvedCmr::Literal,
                    };

                    let right = inline_stack.pop().unwrap();
                    right.in_degree.fetch_add(1, Ordering::SeqCst);
                    ResolvedInner::AssertR(left, right)
                }
                ast::ExprInner::Inline(ref inner) => ResolvedInner::Inline(
                    inner
                        .as_ref()
                        .map(|_| {
                            let child = inline_stack.pop().unwrap();
                            child.in_degree.fetch_add(1, Ordering::SeqCst);
                            child
                        })
                        .map_disconnect(|_| {
                            let child = inline_stack.pop().unwrap();
                            child.in_degree.fetch_add(1, Ordering::SeqCst);
                            child
                        })
                        .map_witness(WitnessOrHole::shallow_clone),
                ),
            };

            // Then, convert the node. At this point if we are missing any children
            // it is because there was a resolution error, i.e. the expression
            // references a child that doesn't exist.
            let resolved: ResolvedExpression = match stack_item.expr.inner {
                UnresolvedInner::NoExpr {
                    ref name,
                    ref user_source_types,
                    ref user_target_types,
                } => ResolvedExpression {
                    inner: ResolvedInner::NoExpr {
                        name: Arc::clone(name),
                    },
                    position: stack_item.expr.position,
                    name: Some(Arc::clone(name)),
                    user_source_types: Arc::from(&user_source_types[..]),
                    user_target_types: Arc::from(&user_target_types[..]),
                    in_degree: AtomicUsize::new(0),
                    // ADDED: the incomplete name
                    span: stack_item.expr.position.span(),
                },
                UnresolvedInner::Inline { ref expr_inner } => ResolvedExpression {
                    inner: convert_expr_inner(expr_inner),
                    position: stack_item.expr.position,
                    name: None,
                    user_source_types: Arc::from([]),
                    user_target_types: Arc::from([]),
                    in_degree: AtomicUsize::new(0),
                    // ADDED: what the expression keeps
                    span: plain::span(expr_inner),
                },
                UnresolvedInner::Named {
                    ref expr_inner,
                    ref name,
                    ref user_source_types,
                    ref user_target_types,
                } => ResolvedExpression {
                    inner: convert_expr_inner(expr_inner),
                    position: stack_item.expr.position,
                    name: Some(Arc::clone(name)),
                    user_source_types: Arc::from(&user_source_types[..]),
                    user_target_types: Arc::from(&user_target_types[..]),
                    in_degree: AtomicUsize::new(0),
                    // ADDED: what the expression keeps
                    span: plain::span(expr_inner),
                },
            };

            // CHANGED: kept beside, in the order in which the nodes are finished
            let resolved = Arc::new(resolved);
            finished.push(Arc::clone(&resolved));
            if let Some(name) = stack_item.name {
                resolved_map.insert(name, resolved);
            } else {
                inline_stack.push(resolved);
            }
        }
        assert!(inline_stack.is_empty());
    }
    drop(unresolved_map);

    // ** Step 3: convert each DAG of names/expressions into a DAG of NamedNodes.
    let mut roots = HashMap::<Arc<str>, Arc<NamedCommitNode>>::new();
    // ADDED: the errors of this step, in the order in which they are added
    let mut step3_errors = Vec::<(Position, Error)>::new();
    // CHANGED: in the order of the names' first legal lines, in place of the map's
    for name in &name_order {
        let expr = &resolved_map[name];
        if expr.in_degree.load(Ordering::SeqCst) > 0 {
            continue;
        }

        let mut namer = Namer::new();
        let mut converted: Vec<Option<Arc<NamedConstructNode>>> = vec![];
        for data in expr.as_ref().post_order_iter::<InternalSharing>() {
            let left = data
                .left_index
                .and_then(|idx| Option::<Arc<_>>::clone(&converted[idx]));
            let right = data
                .right_index
                .and_then(|idx| Option::<Arc<_>>::clone(&converted[idx]));

            let maybe_inner = match data.node.inner {
                ResolvedInner::Missing { ref name, .. } => {
                    errors.add(data.node.position, Error::NameMissing(Arc::clone(name)));
                    // ADDED: kept in this order
                    step3_errors.push((data.node.position, Error::NameMissing(Arc::clone(name))));
                    None
                }
                ResolvedInner::NoExpr { ref name, .. } => {
                    errors.add(data.node.position, Error::NameIncomplete(Arc::clone(name)));
                    // ADDED: kept in this order
                    step3_errors
                        .push((data.node.position, Error::NameIncomplete(Arc::clone(name))));
                    None
                }
                ResolvedInner::Reference(..) => {
                    // For chains of references we make an effort to preserve the name.
                    // So if you have main := a; a := b; b := c, then the `main` node
                    // will retain the name `main` (and absent any other references,
                    // the `a` and `b` names will simply be dropped).
                    let mut child = left;
                    if let Some(name) = data.node.name.as_ref() {
                        child = child.map(|node| Arc::new(node.renamed(Arc::clone(name))));
                    }
                    converted.push(child);
                    continue;
                }
                ResolvedInner::AssertL(..) => left.zip(right).map(|(left, right)| {
                    let cmr = right.cmr();
                    node::Inner::AssertL(left, cmr)
                }),
                ResolvedInner::AssertR(..) => left.zip(right).map(|(left, right)| {
                    let cmr = left.cmr();
                    node::Inner::AssertR(cmr, right)
                }),
                ResolvedInner::Inline(ref inner) => inner
                    .as_ref()
                    .map_left_right(|_| left, |_| right.clone())
                    .map_disconnect(|_| right)
                    .map_witness(WitnessOrHole::shallow_clone)
                    .transpose_disconnect()
                    .and_then(node::Inner::transpose),
            };

            let inner = match maybe_inner {
                Some(inner) => inner,
                None => {
                    converted.push(None);
                    continue;
                }
            };

            let name = Option::<Arc<str>>::clone(&data.node.name)
                .unwrap_or_else(|| Arc::from(namer.assign_name(inner.as_ref()).as_str()));

            let node = NamedConstructNode::new(
                &inference_context,
                Arc::clone(&name),
                data.node.position,
                Arc::clone(&data.node.user_source_types),
                Arc::clone(&data.node.user_target_types),
                inner,
            );

            match node {
                Ok(node) => {
                    let node = Arc::new(node);
                    converted.push(Some(node));
                }
                Err(e) => {
                    errors.add(data.node.position, e);
                    converted.push(None);
                }
            }
        }

        if let Some(Some(root)) = converted.pop() {
            let finalized = if &**name == "main" {
                root.finalize_types_main()
            } else {
                root.finalize_types_non_main()
            };

            match finalized {
                Ok(root) => {
                    roots.insert(Arc::clone(name), root);
                }
                Err(errs) => errors.merge(&errs),
            }
        }
    }

    // CHANGED: the count of the ways to each witness node is left out
    // CHANGED: what was read is given beside the errors
    Ok(Parsed {
        tokens,
        lines: kept_lines,
        name_order,
        resolved_map,
        finished,
        roots,
        line_errors,
        step3_errors,
        errors,
    })
}
