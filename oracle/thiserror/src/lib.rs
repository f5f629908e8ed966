//! A stand-in for the crate of this name. `derive(Error)` makes a type an error whose message is its debug form;
//! the messages in `#[error(..)]` are passed over, since the driver compares numbers and values.

use proc_macro::{TokenStream, TokenTree};

#[proc_macro_derive(Error, attributes(error))]
pub fn error(item: TokenStream) -> TokenStream {
    let mut tokens = item.into_iter();
    let name = loop {
        match tokens.next() {
            Some(TokenTree::Ident(word))
                if ["enum", "struct"].contains(&word.to_string().as_str()) =>
            {
                break tokens
                    .next()
                    .expect("a name after enum or struct")
                    .to_string();
            }
            Some(_) => {}
            None => panic!("derive(Error) is for an enum or a struct"),
        }
    };
    format!(
        "impl ::std::fmt::Display for {name} {{
            fn fmt(&self, f: &mut ::std::fmt::Formatter<'_>) -> ::std::fmt::Result {{
                ::std::fmt::Debug::fmt(self, f)
            }}
        }}
        impl ::std::error::Error for {name} {{}}"
    )
    .parse()
    .unwrap()
}
