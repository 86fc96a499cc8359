//! Stands for the package bytemuck_derive: both derives only say that a struct is plain data.
use proc_macro::{TokenStream, TokenTree};
fn name(ts: TokenStream) -> String {
    let mut it = ts.into_iter();
    while let Some(t) = it.next() {
        if let TokenTree::Ident(i) = &t {
            if i.to_string() == "struct" {
                if let Some(TokenTree::Ident(n)) = it.next() { return n.to_string(); }
            }
        }
    }
    panic!("no struct")
}
#[proc_macro_derive(Pod)]
pub fn pod(ts: TokenStream) -> TokenStream { format!("unsafe impl ::bytemuck::Pod for {} {{}}", name(ts)).parse().unwrap() }
#[proc_macro_derive(Zeroable)]
pub fn zeroable(ts: TokenStream) -> TokenStream { format!("unsafe impl ::bytemuck::Zeroable for {} {{}}", name(ts)).parse().unwrap() }
