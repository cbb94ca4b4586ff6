//! Stand-in for the registry crate `tracing-attributes`.

use proc_macro::TokenStream;

/// Returns the function as it stands, without a span around it.
#[proc_macro_attribute]
pub fn instrument(_arguments: TokenStream, item: TokenStream) -> TokenStream {
    item
}
