//! Stand-in for the derive macro `thiserror::Error`: it accepts the attribute `#[error(..)]` and
//! writes nothing, since the texts of the messages are no part of what is compared.

extern crate proc_macro;

use proc_macro::TokenStream;

#[proc_macro_derive(Error, attributes(error))]
pub fn error(_: TokenStream) -> TokenStream {
    TokenStream::new()
}
