//! Two derives that produce nothing. The original's sources ask for them by name;
//! nothing here is ever written to or read from bytes.

use proc_macro::TokenStream;

/// Accepts `#[derive(Serialize)]` and adds no code.
#[proc_macro_derive(Serialize)]
pub fn serialize(_item: TokenStream) -> TokenStream {
    TokenStream::new()
}

/// Accepts `#[derive(Deserialize)]` and adds no code.
#[proc_macro_derive(Deserialize)]
pub fn deserialize(_item: TokenStream) -> TokenStream {
    TokenStream::new()
}
