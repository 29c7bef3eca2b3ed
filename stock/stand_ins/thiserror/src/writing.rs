//! The `Display` of a type, as Rust's text.

use crate::item::{Fields, Item, Shape};

/// The `impl` of `Display`.
pub(crate) fn display_of(item: &Item) -> String {
    let Item { name, generics, shapes } = item;
    let bounds = generics.iter().map(|generic| format!("{generic}: ::core::fmt::Display, ")).collect::<Vec<_>>().concat();
    let arms: String = shapes.iter().map(|shape| arm(name, shape)).collect();
    format!(
        "impl<{bounds}> ::core::fmt::Display for {name}<{}> {{
            fn fmt(&self, f: &mut ::core::fmt::Formatter<'_>) -> ::core::fmt::Result {{
                match self {{ {arms} }}
            }}
        }}",
        generics.join(", "),
    )
}

/// The arm that writes a value of this shape. Fields in places are called `_0`, `_1` and so on.
fn arm(name: &str, shape: &Shape) -> String {
    let path = match &shape.variant {
        Some(variant) => format!("{name}::{variant}"),
        None => name.to_owned(),
    };
    let text = if shape.text == "transparent" { "\"{0}\"" } else { &shape.text };
    match &shape.fields {
        Fields::Named(names) => format!("{path} {{ {} }} => ::core::write!(f, {text}),", names.join(", ")),
        Fields::InPlaces(count) => {
            let binds = (0..*count).map(|place| format!("{place}: _{place}, ")).collect::<Vec<_>>().concat();
            let text = (0..*count).fold(text.to_owned(), |text, place| {
                text.replace(&format!("{{{place}}}"), &format!("{{_{place}}}"))
            });
            format!("{path} {{ {binds} }} => ::core::write!(f, {text}),")
        }
    }
}
