//! SHIM for src/name.rs: a GraphQL name with its place. Equality and hash are those of the text alone.
use crate::parser::SourceSpan;
use std::borrow::Borrow;
use std::fmt;
use std::hash::{Hash, Hasher};
use std::sync::Arc;

#[derive(Clone)]
enum Text {
    Static(&'static str),
    Heap(Arc<str>),
}

#[derive(Clone)]
pub struct Name {
    text: Text,
    location: Option<SourceSpan>,
}

impl Name {
    pub fn new(text: &str) -> Self {
        Self { text: Text::Heap(Arc::from(text)), location: None }
    }

    pub const fn new_static_unchecked(text: &'static str) -> Self {
        Self { text: Text::Static(text), location: None }
    }

    pub fn with_location(mut self, location: SourceSpan) -> Self {
        self.location = Some(location);
        self
    }

    pub fn location(&self) -> Option<SourceSpan> {
        self.location
    }

    pub fn as_str(&self) -> &str {
        match &self.text {
            Text::Static(s) => s,
            Text::Heap(s) => s,
        }
    }
}

impl std::ops::Deref for Name {
    type Target = str;
    fn deref(&self) -> &str {
        self.as_str()
    }
}
impl Borrow<str> for Name {
    fn borrow(&self) -> &str {
        self.as_str()
    }
}
impl PartialEq for Name {
    fn eq(&self, other: &Self) -> bool {
        self.as_str() == other.as_str()
    }
}
impl Eq for Name {}
impl PartialEq<str> for Name {
    fn eq(&self, other: &str) -> bool {
        self.as_str() == other
    }
}
impl PartialEq<&'_ str> for Name {
    fn eq(&self, other: &&str) -> bool {
        self.as_str() == *other
    }
}
impl Hash for Name {
    fn hash<H: Hasher>(&self, state: &mut H) {
        self.as_str().hash(state)
    }
}
impl fmt::Display for Name {
    fn fmt(&self, f: &mut fmt::Formatter<'_>) -> fmt::Result {
        f.write_str(self.as_str())
    }
}
impl fmt::Debug for Name {
    fn fmt(&self, f: &mut fmt::Formatter<'_>) -> fmt::Result {
        self.as_str().fmt(f)
    }
}

#[macro_export]
macro_rules! name {
    ($value: ident) => {
        $crate::Name::new_static_unchecked(stringify!($value))
    };
    ($value: expr) => {
        $crate::Name::new_static_unchecked($value)
    };
}
