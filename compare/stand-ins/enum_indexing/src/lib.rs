//! Stand-in for `enum_indexing`: the trait, and the derive of the same name.

pub use enum_indexing_derive::EnumIndexing;

pub trait EnumIndexing: Sized {
    fn index(&self) -> usize;
    fn from_index(index: usize) -> Option<Self>;
}
