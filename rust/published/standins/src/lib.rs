//! Stand-ins for the macros that the published files use: the attribute `bitmatch`, and derives of
//! strum and delta_null_core_macros, which make nothing, since nothing published uses what they
//! would make.

use proc_macro::{Delimiter, Group, TokenStream, TokenTree};

/// Makes nothing, in place of strum's derive.
#[proc_macro_derive(AsRefStr)]
pub fn as_ref_str(_: TokenStream) -> TokenStream {
    TokenStream::new()
}

/// Makes nothing, in place of strum's derive.
#[proc_macro_derive(EnumDiscriminants, attributes(strum_discriminants))]
pub fn enum_discriminants(_: TokenStream) -> TokenStream {
    TokenStream::new()
}

/// Makes nothing, in place of strum's derive.
#[proc_macro_derive(EnumIter)]
pub fn enum_iter(_: TokenStream) -> TokenStream {
    TokenStream::new()
}

/// Makes nothing, in place of the derive of delta_null_core_macros.
#[proc_macro_derive(InstructionOpcodeMnemonics)]
pub fn instruction_opcode_mnemonics(_: TokenStream) -> TokenStream {
    TokenStream::new()
}

/// Makes nothing, in place of the derive of delta_null_core_macros.
#[proc_macro_derive(InstructionBuild)]
pub fn instruction_build(_: TokenStream) -> TokenStream {
    TokenStream::new()
}

/// The one use that encoding.rs makes of the crate bitmatch: an attribute on a function in which
/// `#[bitmatch] match VALUE { ARMS }` stands. An arm is `"PATTERN" => EXPRESSION,` or
/// `_ => EXPRESSION,`. In a pattern 0 and 1 are fixed bits, _ separates, and a letter is a variable
/// bound to that letter's bits. Arms are tried in the order written. Anything else is a compile
/// error.
#[proc_macro_attribute]
pub fn bitmatch(attribute: TokenStream, item: TokenStream) -> TokenStream {
    assert!(attribute.is_empty(), "bitmatch takes no arguments");
    rewrite(item)
}

/// Rewrites each `#[bitmatch] match VALUE { ARMS }`, at any depth.
fn rewrite(tokens: TokenStream) -> TokenStream {
    let tokens: Vec<TokenTree> = tokens.into_iter().collect();
    let mut out = TokenStream::new();
    let mut i = 0;
    while i < tokens.len() {
        if is_marker(&tokens[i..]) {
            assert!(tokens[i + 2].to_string() == "match", "bitmatch stands only on a match");
            let arms_at = (i + 3..tokens.len()).find(|&at| braced(&tokens[at]).is_some());
            let arms_at = arms_at.expect("a match has arms");
            let arms = rewrite_arms(braced(&tokens[arms_at]).unwrap());
            out.extend(tokens[i + 2..arms_at].iter().cloned());
            out.extend([TokenTree::Group(Group::new(Delimiter::Brace, arms))]);
            i = arms_at;
        } else if let TokenTree::Group(group) = &tokens[i] {
            let mut inner = Group::new(group.delimiter(), rewrite(group.stream()));
            inner.set_span(group.span());
            out.extend([TokenTree::Group(inner)]);
        } else {
            out.extend([tokens[i].clone()]);
        }
        i += 1;
    }
    out
}

/// Whether the tokens begin with `#[bitmatch]`.
fn is_marker(tokens: &[TokenTree]) -> bool {
    let [hash, TokenTree::Group(group), ..] = tokens else { return false };
    is_punct(Some(hash), '#') && group.delimiter() == Delimiter::Bracket && group.stream().to_string() == "bitmatch"
}

fn braced(token: &TokenTree) -> Option<TokenStream> {
    match token {
        TokenTree::Group(group) if group.delimiter() == Delimiter::Brace => Some(group.stream()),
        _ => None,
    }
}

fn is_punct(token: Option<&TokenTree>, c: char) -> bool {
    matches!(token, Some(TokenTree::Punct(p)) if p.as_char() == c)
}

fn rewrite_arms(tokens: TokenStream) -> TokenStream {
    let tokens: Vec<TokenTree> = tokens.into_iter().collect();
    let mut out = TokenStream::new();
    let mut i = 0;
    while i < tokens.len() {
        let pattern = tokens[i].to_string();
        let arrow = is_punct(tokens.get(i + 1), '=') && is_punct(tokens.get(i + 2), '>');
        assert!(arrow, "expected => after {pattern}");
        let end = (i + 3..tokens.len()).find(|&at| is_punct(tokens.get(at), ',')).unwrap_or(tokens.len());
        let (head, bindings) = match pattern.as_str() {
            "_" => ("_ =>".to_string(), String::new()),
            _ => arm_of(pattern.trim_matches('"')),
        };
        let mut body: TokenStream = bindings.parse().unwrap();
        body.extend(tokens[i + 3..end].iter().cloned());
        out.extend(head.parse::<TokenStream>().unwrap());
        out.extend([TokenTree::Group(Group::new(Delimiter::Brace, body))]);
        i = end + 1;
    }
    out
}

/// The arm's pattern with its guard, and a `let` for each of its letters.
fn arm_of(pattern: &str) -> (String, String) {
    let bits: Vec<char> = pattern.chars().filter(|&c| c != '_').collect();
    assert!(bits.len() == 16, "expected 16 bits in {pattern}");
    let (mut mask, mut value) = (0, 0);
    let mut letters: Vec<char> = Vec::new();
    for (i, &c) in bits.iter().enumerate() {
        let place = 0x8000u16 >> i;
        match c {
            '0' => mask |= place,
            '1' => (mask, value) = (mask | place, value | place),
            'a'..='z' if letters.contains(&c) => {}
            'a'..='z' => letters.push(c),
            _ => panic!("unexpected {c} in {pattern}"),
        }
    }
    let lets = letters.iter().map(|letter| binding(&bits, *letter)).collect();
    (format!("bits__ if (bits__ & {mask:#06x}) == {value:#06x} =>"), lets)
}

/// The `let` for a letter, whose bits must stand together.
fn binding(bits: &[char], letter: char) -> String {
    let first = bits.iter().position(|&c| c == letter).unwrap();
    let last = bits.iter().rposition(|&c| c == letter).unwrap();
    assert!(bits[first..=last].iter().all(|&c| c == letter), "the bits of {letter} are broken up");
    let mask = (1u32 << (last - first + 1)) - 1;
    format!("let {letter} = (bits__ >> {}) & {mask:#x};", 15 - last)
}
