//! Stands in for thiserror: its derive makes nothing here, since the comparison does not print bio's errors.

use proc_macro::TokenStream;

#[proc_macro_derive(Error, attributes(error))]
pub fn error(_: TokenStream) -> TokenStream {
    TokenStream::new()
}
