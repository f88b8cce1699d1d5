//! Stand-in for `thiserror`: `derive(Error)` makes a type an error whose text is its debug text. Error texts are not compared.

use proc_macro::{TokenStream, TokenTree};

#[proc_macro_derive(Error, attributes(error))]
pub fn derive_error(item: TokenStream) -> TokenStream {
    let name = type_name(item);
    format!(
        "impl ::std::fmt::Display for {name} {{
            fn fmt(&self, f: &mut ::std::fmt::Formatter<'_>) -> ::std::fmt::Result {{
                ::std::fmt::Debug::fmt(self, f)
            }}
        }}
        impl ::std::error::Error for {name} {{}}"
    )
    .parse()
    .expect("two impls")
}

/// The identifier after `enum` or `struct`.
fn type_name(item: TokenStream) -> String {
    let mut tokens = item.into_iter();
    while let Some(token) = tokens.next() {
        if let TokenTree::Ident(word) = token {
            if word.to_string() == "enum" || word.to_string() == "struct" {
                return tokens.next().expect("a name").to_string();
            }
        }
    }
    panic!("neither enum nor struct");
}
