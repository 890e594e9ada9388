//! SHIM for src/node.rs: a shared node with its place. The place takes no part in equality or hash, so that equal
//! fields at two places are one to the crate's caches; two pointers to one node are equal at once.
use crate::parser::{FileId, SourceSpan};
use std::fmt;
use std::hash::{Hash, Hasher};
use std::sync::Arc;

pub struct Node<T: ?Sized>(Arc<Inner<T>>);

#[derive(Clone)]
struct Inner<T: ?Sized> {
    location: Option<SourceSpan>,
    node: T,
}

impl<T> Node<T> {
    pub fn new(node: T) -> Self {
        Self(Arc::new(Inner { location: None, node }))
    }

    pub fn new_parsed(node: T, location: SourceSpan) -> Self {
        Self(Arc::new(Inner { location: Some(location), node }))
    }

    /// A node with another content at the same place.
    pub fn same_location<U>(&self, node: U) -> Node<U> {
        Node(Arc::new(Inner { location: self.0.location, node }))
    }

    pub fn make_mut(&mut self) -> &mut T
    where
        T: Clone,
    {
        &mut Arc::make_mut(&mut self.0).node
    }
}

impl<T: ?Sized> Node<T> {
    pub fn location(&self) -> Option<SourceSpan> {
        self.0.location
    }

    pub fn is_built_in(&self) -> bool {
        self.0.location.is_some_and(|l| l.file_id() == FileId::BUILT_IN)
    }

    pub fn ptr_eq(&self, other: &Self) -> bool {
        Arc::ptr_eq(&self.0, &other.0)
    }
}

impl<T: ?Sized> Clone for Node<T> {
    fn clone(&self) -> Self {
        Self(self.0.clone())
    }
}
impl<T: ?Sized> std::ops::Deref for Node<T> {
    type Target = T;
    fn deref(&self) -> &T {
        &self.0.node
    }
}
impl<T: ?Sized> AsRef<T> for Node<T> {
    fn as_ref(&self) -> &T {
        &self.0.node
    }
}
impl<T: ?Sized + PartialEq> PartialEq for Node<T> {
    fn eq(&self, other: &Self) -> bool {
        self.ptr_eq(other) || self.0.node == other.0.node
    }
}
impl<T: ?Sized + Eq> Eq for Node<T> {}
impl<T: ?Sized + Hash> Hash for Node<T> {
    fn hash<H: Hasher>(&self, state: &mut H) {
        self.0.node.hash(state)
    }
}
impl<T: ?Sized + fmt::Debug> fmt::Debug for Node<T> {
    fn fmt(&self, f: &mut fmt::Formatter<'_>) -> fmt::Result {
        self.0.node.fmt(f)
    }
}
impl<T: ?Sized + fmt::Display> fmt::Display for Node<T> {
    fn fmt(&self, f: &mut fmt::Formatter<'_>) -> fmt::Result {
        self.0.node.fmt(f)
    }
}
impl<T> From<T> for Node<T> {
    fn from(node: T) -> Self {
        Self::new(node)
    }
}
