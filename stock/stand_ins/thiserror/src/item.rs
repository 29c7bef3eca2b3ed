//! The struct or enum at which `derive(Error)` stands.

use proc_macro::{Delimiter, Group, TokenStream, TokenTree};
use std::iter::Peekable;

type Tokens = Peekable<proc_macro::token_stream::IntoIter>;

/// A type with the texts of its values.
pub(crate) struct Item {
    pub(crate) name: String,
    /// The names of its type arguments.
    pub(crate) generics: Vec<String>,
    /// A struct has one, without a name of its own.
    pub(crate) shapes: Vec<Shape>,
}

/// A struct, or a variant of an enum.
pub(crate) struct Shape {
    pub(crate) variant: Option<String>,
    pub(crate) fields: Fields,
    /// What stands in `#[error(..)]`.
    pub(crate) text: String,
}

/// The fields, by their names or how many there are.
pub(crate) enum Fields {
    Named(Vec<String>),
    InPlaces(usize),
}

/// Reads the type, or says what is wrong with it.
pub(crate) fn read(item: TokenStream) -> Result<Item, String> {
    let mut tokens = item.into_iter().peekable();
    let text = text_before(&mut tokens);
    let is_enum = match word(&mut tokens).as_deref() {
        Some("enum") => true,
        Some("struct") => false,
        _ => return Err("derive(Error) is for structs and enums".into()),
    };
    let name = word(&mut tokens).ok_or("a type without a name")?;
    let generics = generics(&mut tokens);
    let body = body(&mut tokens);
    let shapes = if is_enum {
        variants(body.ok_or("an enum without variants")?.stream())?
    } else {
        let text = text.ok_or(format!("{name} has no #[error(..)]"))?;
        vec![Shape { variant: None, fields: fields(body.as_ref()), text }]
    };
    Ok(Item { name, generics, shapes })
}

/// Passes over attributes and `pub`: what stands in the `#[error(..)]` among them.
fn text_before(tokens: &mut Tokens) -> Option<String> {
    let mut text = None;
    loop {
        match tokens.peek() {
            Some(TokenTree::Punct(sign)) if sign.as_char() == '#' => {
                tokens.next();
            }
            Some(TokenTree::Group(group)) => {
                text = stated(group).or(text);
                tokens.next();
            }
            Some(TokenTree::Ident(word)) if word.to_string() == "pub" => {
                tokens.next();
            }
            _ => return text,
        }
    }
}

/// What an `#[error(..)]` states, if this is the inside of one.
fn stated(attribute: &Group) -> Option<String> {
    let mut tokens = attribute.stream().into_iter();
    match (tokens.next(), tokens.next()) {
        (Some(TokenTree::Ident(name)), Some(TokenTree::Group(inside))) if name.to_string() == "error" => {
            Some(inside.stream().to_string())
        }
        _ => None,
    }
}

fn word(tokens: &mut Tokens) -> Option<String> {
    match tokens.next() {
        Some(TokenTree::Ident(word)) => Some(word.to_string()),
        _ => None,
    }
}

/// The type arguments between `<` and `>`, which have neither bounds nor lifetimes.
fn generics(tokens: &mut Tokens) -> Vec<String> {
    let mut names = Vec::new();
    while let Some(token) = tokens.next_if(|token| !matches!(token, TokenTree::Group(_)) && token.to_string() != ";") {
        if let TokenTree::Ident(name) = token {
            names.push(name.to_string());
        }
    }
    names
}

fn body(tokens: &mut Tokens) -> Option<Group> {
    match tokens.next() {
        Some(TokenTree::Group(group)) => Some(group),
        _ => None,
    }
}

fn variants(listed: TokenStream) -> Result<Vec<Shape>, String> {
    let mut tokens = listed.into_iter().peekable();
    let mut shapes = Vec::new();
    while tokens.peek().is_some() {
        let text = text_before(&mut tokens);
        let name = word(&mut tokens).ok_or("a variant without a name")?;
        let text = text.ok_or(format!("the variant {name} has no #[error(..)]"))?;
        let group = match tokens.peek() {
            Some(TokenTree::Group(_)) => body(&mut tokens),
            _ => None,
        };
        shapes.push(Shape { variant: Some(name), fields: fields(group.as_ref()), text });
        // up to the comma, with a number that the variant may have
        while tokens.next().is_some_and(|token| token.to_string() != ",") {}
    }
    Ok(shapes)
}


/// The fields in these brackets.
fn fields(group: Option<&Group>) -> Fields {
    let Some(group) = group else {
        return Fields::Named(Vec::new());
    };
    let parts = parts_of(group.stream());
    if group.delimiter() == Delimiter::Parenthesis {
        return Fields::InPlaces(parts.len());
    }
    Fields::Named(parts.into_iter().filter_map(name_of).collect())
}

/// What stands between the commas that are in no brackets, `<` and `>` among these.
fn parts_of(tokens: TokenStream) -> Vec<Vec<TokenTree>> {
    let (mut parts, mut depth) = (vec![Vec::new()], 0);
    for token in tokens {
        match token.to_string().as_str() {
            "<" => depth += 1,
            ">" => depth -= 1,
            "," if depth == 0 => {
                parts.push(Vec::new());
                continue;
            }
            _ => {}
        }
        parts.last_mut().expect("a part").push(token);
    }
    parts.retain(|part| !part.is_empty());
    parts
}

/// The word before the first colon.
fn name_of(part: Vec<TokenTree>) -> Option<String> {
    let colon = part.iter().position(|token| token.to_string() == ":")?;
    Some(part.get(colon.checked_sub(1)?)?.to_string())
}
