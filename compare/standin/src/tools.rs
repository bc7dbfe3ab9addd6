//! Numbers of four kinds, spans, texts, lists and maps.

use std::collections::HashMap;
use std::collections::hash_map::DefaultHasher;
use std::fmt;
use std::hash::BuildHasher;
use std::marker::PhantomData;
use std::ops::{Deref, Index, IndexMut};

use crate::diagnostic::LabeledSpan;

macro_rules! ids {
    ($($name:ident)*) => {$(
        #[derive(Clone, Copy, Debug, PartialEq, Eq, Hash, PartialOrd, Ord)]
        pub struct $name(u32);

        impl $name {
            pub const fn new(number: u32) -> Self {
                Self(number)
            }
        }

        impl Number for $name {
            fn from_usize(number: usize) -> Self {
                Self(number as u32)
            }

            fn index(self) -> usize {
                self.0 as usize
            }
        }
    )*};
}

pub trait Number: Copy {
    fn from_usize(number: usize) -> Self;
    fn index(self) -> usize;
}

ids!(NodeId ScopeId ClassId ElementId SymbolId ReferenceId);

impl NodeId {
    pub const ROOT: NodeId = NodeId(0);
}

/// The number of a node; none for a part that is missing.
#[derive(Clone, Copy, Debug, PartialEq, Eq)]
pub struct Address(pub Option<NodeId>);

pub trait GetAddress {
    fn address(&self) -> Address;
}

#[derive(Clone, Copy, Debug, Default, PartialEq, Eq)]
pub struct Span {
    pub start: u32,
    pub end: u32,
}

impl Span {
    pub const fn new(start: u32, end: u32) -> Self {
        Self { start, end }
    }

    pub const fn sized(start: u32, size: u32) -> Self {
        Self { start, end: start + size }
    }

    pub fn source_text(self, source: &RawText) -> &RawText {
        RawText::new(&source.0[self.start as usize..self.end as usize])
    }

    pub fn label(self, _text: impl Into<String>) -> LabeledSpan {
        LabeledSpan(self)
    }
}

pub trait GetSpan {
    fn span(&self) -> Span;
}

/// Source bytes, which in the crate are a `&str`: here they may be no UTF-8, and spans may cut a character.
#[repr(transparent)]
pub struct RawText([u8]);

impl RawText {
    pub fn new(bytes: &[u8]) -> &RawText {
        // SAFETY: RawText is transparent over [u8].
        unsafe { &*(bytes as *const [u8] as *const RawText) }
    }

    #[expect(clippy::len_without_is_empty)]
    pub fn len(&self) -> usize {
        self.0.len()
    }

    pub fn as_bytes(&self) -> &[u8] {
        &self.0
    }

    pub fn bytes(&self) -> impl Iterator<Item = u8> + '_ {
        self.0.iter().copied()
    }
}

/// Only for the wording of a message.
impl Deref for RawText {
    type Target = str;

    fn deref(&self) -> &str {
        std::str::from_utf8(&self.0).unwrap_or("\u{fffd}")
    }
}

/// A name: bytes that are equal or not. As `str`, bytes that are no UTF-8 are some text that no check looks for.
#[derive(Clone, Copy, PartialEq, Eq, Hash)]
pub struct Ident<'a>(pub &'a [u8]);

pub type Str<'a> = Ident<'a>;

impl<'a> Ident<'a> {
    pub fn as_str(&self) -> &'a str {
        std::str::from_utf8(self.0).unwrap_or("\u{fffd}")
    }

    pub fn as_bytes(&self) -> &'a [u8] {
        self.0
    }
}

impl Deref for Ident<'_> {
    type Target = str;

    fn deref(&self) -> &str {
        self.as_str()
    }
}

impl PartialEq<&str> for Ident<'_> {
    fn eq(&self, other: &&str) -> bool {
        self.0 == other.as_bytes()
    }
}

impl fmt::Debug for Ident<'_> {
    fn fmt(&self, f: &mut fmt::Formatter<'_>) -> fmt::Result {
        self.as_str().fmt(f)
    }
}

impl fmt::Display for Ident<'_> {
    fn fmt(&self, f: &mut fmt::Formatter<'_>) -> fmt::Result {
        self.as_str().fmt(f)
    }
}

/// Suggestions are left out.
pub fn best_match<'a>(_name: &str, _names: impl Iterator<Item = &'a str>, _most: usize) -> Option<&'a str> {
    None
}

pub fn memchr_iter(byte: u8, bytes: &[u8]) -> impl Iterator<Item = usize> + '_ {
    (0..bytes.len()).filter(move |&i| bytes[i] == byte)
}

#[derive(Clone, Copy, Debug)]
pub struct SourceType {
    pub module: bool,
    pub typescript: bool,
}

impl SourceType {
    pub fn is_module(self) -> bool {
        self.module
    }

    pub fn is_script(self) -> bool {
        !self.module
    }

    pub fn is_typescript(self) -> bool {
        self.typescript
    }

    pub fn is_typescript_definition(self) -> bool {
        false
    }
}

pub trait BoundNames<'a> {
    fn bound_names<F: FnMut(&crate::ast::BindingIdentifier<'a>)>(&self, f: &mut F);
}

pub trait IsSimpleParameterList {
    fn is_simple_parameter_list(&self) -> bool;
}

pub trait PropName {
    fn prop_name(&self) -> Option<(&str, Span)>;
}

/// The same hash in every run.
#[derive(Clone, Copy, Debug, Default)]
pub struct FxBuildHasher;

impl BuildHasher for FxBuildHasher {
    type Hasher = DefaultHasher;

    fn build_hasher(&self) -> DefaultHasher {
        DefaultHasher::new()
    }
}

pub type FxHashMap<K, V> = HashMap<K, V, FxBuildHasher>;

pub struct IndexVec<I, T> {
    pub raw: Vec<T>,
    number: PhantomData<I>,
}

impl<I: Number, T> IndexVec<I, T> {
    pub fn push(&mut self, item: T) -> I {
        self.raw.push(item);
        I::from_usize(self.raw.len() - 1)
    }

    #[expect(clippy::len_without_is_empty)]
    pub fn len(&self) -> usize {
        self.raw.len()
    }

    pub fn iter(&self) -> std::slice::Iter<'_, T> {
        self.raw.iter()
    }

    pub fn iter_enumerated(&self) -> impl ExactSizeIterator<Item = (I, &T)> + '_ {
        self.raw.iter().enumerate().map(|(i, item)| (I::from_usize(i), item))
    }
}

impl<I, T> Default for IndexVec<I, T> {
    fn default() -> Self {
        Self { raw: Vec::new(), number: PhantomData }
    }
}

impl<I, T: fmt::Debug> fmt::Debug for IndexVec<I, T> {
    fn fmt(&self, f: &mut fmt::Formatter<'_>) -> fmt::Result {
        self.raw.fmt(f)
    }
}

impl<I: Number, T> Index<I> for IndexVec<I, T> {
    type Output = T;

    fn index(&self, number: I) -> &T {
        &self.raw[number.index()]
    }
}

impl<I: Number, T> IndexMut<I> for IndexVec<I, T> {
    fn index_mut(&mut self, number: I) -> &mut T {
        &mut self.raw[number.index()]
    }
}

impl<'v, I, T> IntoIterator for &'v IndexVec<I, T> {
    type Item = &'v T;
    type IntoIter = std::slice::Iter<'v, T>;

    fn into_iter(self) -> Self::IntoIter {
        self.raw.iter()
    }
}

pub struct Stack<T>(Vec<T>);

impl<T> Stack<T> {
    pub fn with_capacity(capacity: usize) -> Self {
        Self(Vec::with_capacity(capacity))
    }

    pub fn push(&mut self, item: T) {
        self.0.push(item);
    }

    pub fn pop(&mut self) -> Option<T> {
        self.0.pop()
    }

    pub fn last(&self) -> Option<&T> {
        self.0.last()
    }

    pub fn as_slice(&self) -> &[T] {
        &self.0
    }
}

#[derive(Clone)]
pub enum Either<L, R> {
    Left(L),
    Right(R),
}

impl<L: Iterator, R: Iterator<Item = L::Item>> Iterator for Either<L, R> {
    type Item = L::Item;

    fn next(&mut self) -> Option<L::Item> {
        match self {
            Either::Left(left) => left.next(),
            Either::Right(right) => right.next(),
        }
    }
}
