//! Stand-in for the `thiserror` derive. The oracle never prints an error of the original, it only
//! needs `?` to convert one into another: so the derive writes the `From` of each `#[from]` field
//! and leaves everything else out.

extern crate proc_macro;

use proc_macro::{Delimiter, TokenStream, TokenTree};

#[proc_macro_derive(Error, attributes(error, from, source))]
pub fn error(input: TokenStream) -> TokenStream {
    let tokens: Vec<TokenTree> = input.into_iter().collect();
    let Some(at) = tokens.iter().position(|t| t.to_string() == "enum") else {
        return TokenStream::new();
    };
    let name = tokens[at + 1].to_string();
    // A type parameter list holds bare names in the sources at hand, so it serves twice as it is.
    let generics: String = tokens[at + 2..tokens.len() - 1]
        .iter()
        .map(ToString::to_string)
        .collect();
    let TokenTree::Group(body) = &tokens[tokens.len() - 1] else {
        return TokenStream::new();
    };

    let mut out = String::new();
    let mut variant = String::new();
    for token in body.stream() {
        match token {
            TokenTree::Ident(ident) => variant = ident.to_string(),
            TokenTree::Group(group) if group.delimiter() == Delimiter::Parenthesis => {
                let field: Vec<TokenTree> = group.stream().into_iter().collect();
                if field.len() > 2 && field[1].to_string() == "[from]" {
                    let from: String = field[2..].iter().map(ToString::to_string).collect();
                    out += &format!(
                        "impl{generics} From<{from}> for {name}{generics} {{
                            fn from(inner: {from}) -> Self {{ Self::{variant}(inner) }}
                        }}"
                    );
                }
            }
            _ => {}
        }
    }
    out.parse().unwrap()
}
