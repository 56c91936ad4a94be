//! Stand-in for thiserror: a derive for enums that writes `Display`, `Error`, and `From` where a variant has `#[from]`.
//!
//! The texts in `#[error(..)]` are ignored: an error shows itself as `Debug` does, and no answer depends on it.

use proc_macro::{Delimiter, Group, TokenStream, TokenTree};

#[proc_macro_derive(Error, attributes(error, from))]
pub fn error(item: TokenStream) -> TokenStream {
    let tokens: Vec<TokenTree> = item.into_iter().collect();
    let name = name_of_enum(&tokens);
    let mut code = format!(
        "impl ::std::fmt::Display for {name} {{
            fn fmt(&self, f: &mut ::std::fmt::Formatter<'_>) -> ::std::fmt::Result {{
                ::std::write!(f, \"{{self:?}}\")
            }}
        }}
        impl ::std::error::Error for {name} {{}}"
    );
    for (variant, source) in variants_with_from(&tokens) {
        code += &format!(
            "impl ::std::convert::From<{source}> for {name} {{
                fn from(source: {source}) -> Self {{ Self::{variant}(source) }}
            }}"
        );
    }
    code.parse().unwrap()
}

/// The word after `enum`.
fn name_of_enum(tokens: &[TokenTree]) -> String {
    let at = tokens.iter().position(|t| t.to_string() == "enum");
    tokens[at.expect("the derive is for enums") + 1].to_string()
}

/// Each variant `Name(#[from] Type)` as its name and its type.
fn variants_with_from(tokens: &[TokenTree]) -> Vec<(String, TokenStream)> {
    let Some(TokenTree::Group(body)) = tokens.last() else {
        return Vec::new();
    };
    let body: Vec<TokenTree> = body.stream().into_iter().collect();
    let pairs = body.windows(2);
    pairs
        .filter_map(|pair| match pair {
            [TokenTree::Ident(variant), TokenTree::Group(fields)] => {
                Some((variant.to_string(), type_after_from(fields)?))
            }
            _ => None,
        })
        .collect()
}

fn type_after_from(fields: &Group) -> Option<TokenStream> {
    let mut tokens = fields.stream().into_iter();
    let hash = tokens.next()?.to_string();
    let attribute = tokens.next()?.to_string();
    let from = fields.delimiter() == Delimiter::Parenthesis && hash == "#" && attribute == "[from]";
    from.then(|| tokens.collect())
}
