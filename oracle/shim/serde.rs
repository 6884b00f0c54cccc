//! serde's two derives, which write nothing: the oracle serialises by document 01's record file.
extern crate proc_macro;
use proc_macro::TokenStream;

#[proc_macro_derive(Serialize)]
pub fn serialize(_: TokenStream) -> TokenStream {
    TokenStream::new()
}

#[proc_macro_derive(Deserialize)]
pub fn deserialize(_: TokenStream) -> TokenStream {
    TokenStream::new()
}
