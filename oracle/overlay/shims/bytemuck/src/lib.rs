//! Stands for the package bytemuck: casts between plain data of one size, which is tested.
pub use bytemuck_derive::{Pod, Zeroable};
pub unsafe trait Zeroable {}
pub unsafe trait Pod: Copy + 'static {}
unsafe impl Pod for u8 {} unsafe impl Pod for u16 {} unsafe impl Pod for i16 {} unsafe impl Pod for u32 {} unsafe impl Pod for i32 {}
unsafe impl<T: Pod, const N: usize> Pod for [T; N] {}
fn check<A, B>() { assert!(size_of::<A>() == size_of::<B>() && align_of::<A>() >= align_of::<B>()); }
pub fn cast_ref<A: Pod, B: Pod>(a: &A) -> &B { check::<A, B>(); unsafe { &*(a as *const A as *const B) } }
pub fn cast_mut<A: Pod, B: Pod>(a: &mut A) -> &mut B { check::<A, B>(); unsafe { &mut *(a as *mut A as *mut B) } }
pub fn cast_slice<A: Pod, B: Pod>(a: &[A]) -> &[B] { check::<A, B>(); unsafe { core::slice::from_raw_parts(a.as_ptr() as *const B, a.len()) } }
pub fn cast_slice_mut<A: Pod, B: Pod>(a: &mut [A]) -> &mut [B] { check::<A, B>(); unsafe { core::slice::from_raw_parts_mut(a.as_mut_ptr() as *mut B, a.len()) } }
pub fn cast_vec<A: Pod, B: Pod>(a: Vec<A>) -> Vec<B> { check::<A, B>(); check::<B, A>(); cast_slice::<A, B>(&a).to_vec() }
