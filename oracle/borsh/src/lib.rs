//! Stand-in for the derives that the text names. They expand to nothing.
use proc_macro::TokenStream;

#[proc_macro_derive(BorshSerialize, attributes(borsh))]
pub fn serialize(_: TokenStream) -> TokenStream {
    TokenStream::new()
}

#[proc_macro_derive(BorshDeserialize, attributes(borsh))]
pub fn deserialize(_: TokenStream) -> TokenStream {
    TokenStream::new()
}
