//! Stand-in for `ts_type`: the derive produces nothing, and `wasm_bindgen` is only imported.

use proc_macro::TokenStream;

#[proc_macro_derive(TsType)]
pub fn ts_type(_item: TokenStream) -> TokenStream {
    TokenStream::new()
}

#[proc_macro_attribute]
pub fn wasm_bindgen(_arguments: TokenStream, item: TokenStream) -> TokenStream {
    item
}
