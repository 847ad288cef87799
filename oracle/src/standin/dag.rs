// SPDX-License-Identifier: CC0-1.0

//! Stands in for the module `dag`, of which it is the part that step 3 runs, as it stands: the post-order iterator over
//! shared pointers. Left out: other orders, other ways of sharing, printing.

use std::collections::{hash_map::Entry, HashMap};

/// Abstract node of a directed acyclic graph.
///
/// Tracks the arity (out-degree) of nodes in a Simplictiy program, as well
/// as whether they represent `witness` or `disconnect` combinators, which
/// are treated specially when working with the graph structure of
/// Simplicty programs.
#[derive(Clone, Debug)]
pub enum Dag<T> {
    /// Combinator with no children
    Nullary,
    /// Combinator with one child
    Unary(T),
    /// Combinator with two children
    Binary(T, T),
}

impl<T> Dag<T> {
    /// Given a DAG of one type, convert it to a DAG of another type.
    pub fn map<U, F: FnMut(T) -> U>(self, mut f: F) -> Dag<U> {
        match self {
            Dag::Nullary => Dag::Nullary,
            Dag::Unary(t) => Dag::Unary(f(t)),
            Dag::Binary(tl, tr) => Dag::Binary(f(tl), f(tr)),
        }
    }
}

/// How much sharing/expansion to do when running an iterator over a DAG
///
/// This object works by recording and looking up nodes in a DAG as they are
/// being iterated over. If the tracker says that an element has been seen
/// before, it will not be yielded again; so for example, a tracker which
/// records nodes by their IHR will implement full sharing, while a tracker
/// which claims to have never seen any node before will implement no
/// sharing at all.
pub trait SharingTracker<D: DagLike> {
    /// Marks an object as having been seen, and record the index
    /// when it was seen.
    ///
    /// If the object was already seen, does **not** update the index,
    /// and instead returns the original one.
    fn record(&mut self, object: &D, index: usize) -> Option<usize>;

    /// Check whether an object has been seen before; if so, return
    /// the index it was recorded at.
    fn seen_before(&self, object: &D) -> Option<usize>;
}

/// Share using pointer identity, i.e. yield each node only once, where two
/// nodes are the same iff they both point to the same object.
#[derive(Clone, Debug, Default)]
pub struct InternalSharing {
    map: HashMap<PointerId, usize>,
}

impl<D: DagLike> SharingTracker<D> for InternalSharing {
    fn record(&mut self, d: &D, index: usize) -> Option<usize> {
        match self.map.entry(PointerId::from(d)) {
            Entry::Occupied(occ) => Some(*occ.get()),
            Entry::Vacant(vac) => {
                vac.insert(index);
                None
            }
        }
    }
    fn seen_before(&self, d: &D) -> Option<usize> {
        self.map.get(&PointerId::from(d)).copied()
    }
}

/// Object representing pointer identity of a DAG node
///
/// Used to populate a hashset to determine whether or not a given node has
/// already been tracker by an iterator.
#[derive(Copy, Clone, Debug, PartialEq, Eq, Hash)]
struct PointerId(usize);

impl<D: DagLike> From<&D> for PointerId {
    fn from(dag: &D) -> Self {
        PointerId(dag.data() as *const _ as usize)
    }
}

/// A trait for any structure which has the shape of a Simplicity DAG
///
/// This should be implemented on any reference type for `Node`, though it
/// cannot be implemented on the actual structure because it assumes that
/// the node type is the same as the type contained in each variant.
pub trait DagLike: Sized {
    /// The type of the DAG node, with no references or wrappers
    type Node;

    /// A pointer to the underlying data
    fn data(&self) -> &Self::Node;

    /// Interpret the node as a DAG node
    fn as_dag_node(&self) -> Dag<Self>;

    /// Accessor for the left child of the node, if one exists
    fn left_child(&self) -> Option<Self> {
        match self.as_dag_node() {
            Dag::Nullary => None,
            Dag::Unary(sub) => Some(sub),
            Dag::Binary(left, _) => Some(left),
        }
    }

    /// Accessor for the right child of the node, if one exists
    fn right_child(&self) -> Option<Self> {
        match self.as_dag_node() {
            Dag::Nullary => None,
            Dag::Unary(_) => None,
            Dag::Binary(_, right) => Some(right),
        }
    }

    /// Obtains an iterator of all the nodes rooted at the DAG, in post order.
    ///
    /// Each node is only yielded once, at the leftmost position that it
    /// appears in the DAG.
    fn post_order_iter<S: SharingTracker<Self> + Default>(self) -> PostOrderIter<Self, S> {
        PostOrderIter {
            index: 0,
            stack: vec![IterStackItem::unprocessed(self, Previous::Root)],
            tracker: Default::default(),
        }
    }
}

enum Child<D: DagLike> {
    None,
    Repeat { idx: usize },
    New(D),
}

#[derive(Clone, Debug)]
enum Previous {
    /// This is the root element and there are no previous elements
    Root,
    /// This is a left child and the previous element is its parent
    ParentLeft,
    /// This is a left child and the previous element is its sibling
    SiblingLeft,
    /// This is a right child and the previous element is its parent
    ParentRight,
}

#[derive(Clone, Debug)]
struct IterStackItem<D> {
    /// The element on the stack
    elem: D,
    /// Whether we have dealt with this item (and pushed its children,
    /// if any) yet.
    processed: bool,
    /// If the item has been processed, the index of its left child, if known
    left_idx: Option<usize>,
    /// If the item has been processed, the index of its right child, if known
    right_idx: Option<usize>,
    /// Whether the element is a left- or right-child of its parent
    previous: Previous,
}

impl<D: DagLike> IterStackItem<D> {
    /// Constructor for a new stack item with a given element and relationship
    /// to its parent.
    fn unprocessed(elem: D, previous: Previous) -> Self {
        IterStackItem {
            elem,
            processed: false,
            left_idx: None,
            right_idx: None,
            previous,
        }
    }

    fn left_child<V: SharingTracker<D>>(&self, tracker: &V) -> Child<D> {
        match self.elem.left_child() {
            Some(child) => match tracker.seen_before(&child) {
                Some(idx) => Child::Repeat { idx },
                None => Child::New(child),
            },
            None => Child::None,
        }
    }

    fn right_child<V: SharingTracker<D>>(&self, tracker: &V) -> Child<D> {
        match self.elem.right_child() {
            Some(child) => match tracker.seen_before(&child) {
                Some(idx) => Child::Repeat { idx },
                None => Child::New(child),
            },
            None => Child::None,
        }
    }
}

/// Iterates over a DAG in _post order_.
///
/// That means nodes are yielded in the order (left child, right child, parent).
/// Nodes may be repeated or not, based on the `S` parameter which defines how
/// the iterator treats sharing.
#[derive(Clone, Debug)]
pub struct PostOrderIter<D, S> {
    /// The index of the next item to be yielded
    index: usize,
    /// A stack of elements to be yielded; each element is a node, then its left
    /// and right children (if they exist and if they have been yielded already)
    stack: Vec<IterStackItem<D>>,
    /// Data which tracks which nodes have been yielded already and therefore
    /// should be skipped.
    tracker: S,
}

/// A set of data yielded by a `PostOrderIter`
#[derive(Clone, Debug)]
pub struct PostOrderIterItem<D> {
    /// The actual node data
    pub node: D,
    /// The index of this node (equivalent to if you'd called `.enumerate()` on
    /// the iterator)
    pub index: usize,
    /// The index of this node's left child, if it has a left child
    pub left_index: Option<usize>,
    /// The index of this node's right child, if it has a left child
    pub right_index: Option<usize>,
}

impl<D: DagLike, S: SharingTracker<D>> Iterator for PostOrderIter<D, S> {
    type Item = PostOrderIterItem<D>;

    fn next(&mut self) -> Option<Self::Item> {
        loop {
            // Look at the current top item on the stack. If nothing, we are done.
            let mut current = self.stack.pop()?;
            if !current.processed {
                current.processed = true;
                // When we first encounter an item, it is completely unknown; it is
                // nominally the next item to be yielded, but it might have children,
                // and if so, they come first
                match (
                    current.left_child(&self.tracker),
                    current.right_child(&self.tracker),
                ) {
                    // No children is easy, just mark it processed and iterate.
                    // (We match _ for the right child but we know that if the left one
                    // is Child::None, then the right one will be Child::None as well.)
                    (Child::None, _) => {
                        self.stack.push(current);
                    }
                    // Only a left child, already yielded
                    (Child::Repeat { idx }, Child::None) => {
                        current.left_idx = Some(idx);
                        self.stack.push(current);
                    }
                    // Only a left child, new
                    (Child::New(child), Child::None) => {
                        self.stack.push(current);
                        self.stack
                            .push(IterStackItem::unprocessed(child, Previous::ParentLeft));
                    }
                    // Two children, both already yielded
                    (Child::Repeat { idx: lidx }, Child::Repeat { idx: ridx }) => {
                        current.left_idx = Some(lidx);
                        current.right_idx = Some(ridx);
                        self.stack.push(current);
                    }
                    // Two children, one yielded already
                    (Child::New(child), Child::Repeat { idx }) => {
                        current.right_idx = Some(idx);
                        self.stack.push(current);
                        self.stack
                            .push(IterStackItem::unprocessed(child, Previous::ParentLeft));
                    }
                    (Child::Repeat { idx }, Child::New(child)) => {
                        current.left_idx = Some(idx);
                        self.stack.push(current);
                        self.stack
                            .push(IterStackItem::unprocessed(child, Previous::ParentRight));
                    }
                    // Two children, neither yielded already
                    (Child::New(lchild), Child::New(rchild)) => {
                        self.stack.push(current);
                        self.stack
                            .push(IterStackItem::unprocessed(rchild, Previous::ParentRight));
                        self.stack
                            .push(IterStackItem::unprocessed(lchild, Previous::SiblingLeft));
                    }
                }
            } else {
                // The second time we encounter an item, we have dealt with its children,
                // updated the child indices for this item, and are now ready to yield it
                // rather than putting it back in the stack. However, while dealing with
                // its children, we may have already yielded it (which can happen because
                // this is a DAG, not a tree). In this case we want to skip it.
                //
                // Check whether this is the case, and record the item's new index if not.
                let current_index = self.tracker.record(&current.elem, self.index);
                let already_yielded = current_index.is_some();
                let current_index = current_index.unwrap_or(self.index);

                // Then, update the item's parents and/or sibling, to make sure that its
                // parent has the correct child index. We need to do this whether or not
                // we're going to skip the element.
                let stack_len = self.stack.len();
                match current.previous {
                    Previous::Root => {
                        assert_eq!(stack_len, 0);
                    }
                    Previous::ParentLeft => {
                        assert!(self.stack[stack_len - 1].processed);
                        self.stack[stack_len - 1].left_idx = Some(current_index);
                    }
                    Previous::ParentRight => {
                        assert!(self.stack[stack_len - 1].processed);
                        self.stack[stack_len - 1].right_idx = Some(current_index);
                    }
                    Previous::SiblingLeft => {
                        assert!(self.stack[stack_len - 2].processed);
                        self.stack[stack_len - 2].left_idx = Some(current_index);
                    }
                }
                // Having updated the parent indices, so that our iterator is in a
                // consistent state, we can safely skip here if the current item is
                // already yielded.
                if already_yielded {
                    continue;
                }

                self.index += 1;
                return Some(PostOrderIterItem {
                    node: current.elem,
                    index: current_index,
                    left_index: current.left_idx,
                    right_index: current.right_idx,
                });
            }
        }
    }
}
