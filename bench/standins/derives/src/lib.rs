//! The derives that the published files name. `Serialize` and `Diagnostic` give nothing; `Error` gives a Display, since error.rs
//! and warning.rs call `to_string` on their structs. No text reaches an answer.
use proc_macro::{TokenStream, TokenTree};

#[proc_macro_derive(Serialize, attributes(serde))]
pub fn serialize(_: TokenStream) -> TokenStream {
    TokenStream::new()
}

#[proc_macro_derive(Diagnostic, attributes(diagnostic, source_code, label, help, related, diagnostic_source))]
pub fn diagnostic(_: TokenStream) -> TokenStream {
    TokenStream::new()
}

#[proc_macro_derive(Error, attributes(error, source, from, backtrace))]
pub fn error(item: TokenStream) -> TokenStream {
    let name = name_of(item);
    let text = format!(
        "impl ::std::fmt::Display for {name} {{
            fn fmt(&self, f: &mut ::std::fmt::Formatter<'_>) -> ::std::fmt::Result {{ f.write_str(\"{name}\") }}
        }}
        impl ::std::error::Error for {name} {{}}"
    );
    text.parse().unwrap()
}

// The word after `struct` or `enum`.
fn name_of(item: TokenStream) -> String {
    let mut words = item.into_iter().filter_map(|t| match t {
        TokenTree::Ident(word) => Some(word.to_string()),
        _ => None,
    });
    words.find(|w| w == "struct" || w == "enum");
    words.next().expect("a struct or an enum")
}
