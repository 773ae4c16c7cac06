//! Stands in for the crate of this name: hint/mod.rs derives `Yokeable` for a
//! struct that the oracle never makes, so nothing needs to be generated.

use proc_macro::TokenStream;

#[proc_macro_derive(Yokeable)]
pub fn yokeable(_item: TokenStream) -> TokenStream {
    TokenStream::new()
}
