//! `#[derive(thiserror::Error)]` for a type without parameters that writes its own `Display`.

use proc_macro::{TokenStream, TokenTree};

/// Derives `std::error::Error` with nothing overridden.
#[proc_macro_derive(Error)]
pub fn derive_error(item: TokenStream) -> TokenStream {
    let name = type_name(item).expect("Error is derived for an enum or a struct");
    format!("impl ::std::error::Error for {name} {{}}")
        .parse()
        .expect("the impl is Rust")
}

/// The identifier after `enum` or `struct`.
fn type_name(item: TokenStream) -> Option<String> {
    let mut words = item.into_iter().filter_map(|token| match token {
        TokenTree::Ident(word) => Some(word.to_string()),
        _ => None,
    });
    words.find(|word| word == "enum" || word == "struct")?;
    words.next()
}
