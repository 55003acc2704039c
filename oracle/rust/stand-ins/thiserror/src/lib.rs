//! Stand-in for thiserror: `#[derive(Error)]` that accepts `#[error(..)]` and writes nothing.
//! The text of an error is outside the port's scope.
use proc_macro::TokenStream;

#[proc_macro_derive(Error, attributes(error))]
pub fn derive_error(_: TokenStream) -> TokenStream {
    TokenStream::new()
}
