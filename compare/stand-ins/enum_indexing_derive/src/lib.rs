//! Stand-in for the derive of `EnumIndexing`, for a plain enum that is `Copy`.

use proc_macro::{TokenStream, TokenTree};

#[proc_macro_derive(EnumIndexing)]
pub fn enum_indexing(item: TokenStream) -> TokenStream {
    let mut tokens = item.into_iter().skip_while(|token| token.to_string() != "enum");
    match (tokens.next(), tokens.next(), tokens.next()) {
        (Some(_), Some(name), Some(TokenTree::Group(body))) => {
            implementation(&name.to_string(), &variants(body.stream()))
        }
        _ => panic!("EnumIndexing is derived for a plain enum only"),
    }
}

/// Each variant followed by a comma, in the order in which they are declared.
fn variants(body: TokenStream) -> String {
    body.into_iter()
        .filter(|token| matches!(token, TokenTree::Ident(_)))
        .map(|variant| format!("Self::{variant}, "))
        .collect()
}

fn implementation(name: &str, variants: &str) -> TokenStream {
    format!(
        "impl ::enum_indexing::EnumIndexing for {name} {{
            fn index(&self) -> usize {{ *self as usize }}
            fn from_index(index: usize) -> Option<Self> {{ [{variants}].into_iter().nth(index) }}
        }}"
    )
    .parse()
    .expect("the implementation is Rust")
}
