//! The derive of `Acyclic`: it adds nothing, since no garbage is collected here.

use proc_macro::TokenStream;

#[proc_macro_derive(Acyclic)]
pub fn derive_acyclic(_item: TokenStream) -> TokenStream {
    TokenStream::new()
}
