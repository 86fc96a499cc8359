//! Stands for the package smallvec: a list that always grows on the heap.
pub trait Array { type Item; }
impl<T, const N: usize> Array for [T; N] { type Item = T; }
pub struct SmallVec<A: Array>(pub Vec<A::Item>);
impl<A: Array> SmallVec<A> { pub fn new() -> Self { Self(Vec::new()) } }
impl<A: Array> core::ops::Deref for SmallVec<A> { type Target = [A::Item]; fn deref(&self) -> &[A::Item] { &self.0 } }
