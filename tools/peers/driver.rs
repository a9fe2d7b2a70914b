//! Asks the crate, for each line of standard input. `?` stands for a panic of the crate.
//!
//! figures: TEXT, and of the signature built from it by the crate's constructors
//!          'LENGTH DBUS GVARIANT FIXED MAYBE FORM BARE', or 'none' where TEXT is not complete types in a row.
//!          DBUS is '-' where the crate panics; FORM and BARE stand in single quotes.
//! parse:   TEXT, and what the crate's parser says of it through the stand-in of winnow: 'yes FORM' or 'no', as
//!          from_bytes, and 'yes' or 'no', as validate.
//! pairs:   A, byte 9, B: of the signatures of A and B, 'EQ CMP HASH STATIC TEXT': whether they are equal, their order,
//!          whether their hashes are equal, whether A built from static parts equals B, and whether A equals the text B
//!          ('none' for what B has no signature for).

use std::collections::hash_map::DefaultHasher;
use std::hash::{Hash, Hasher};
use std::io::{BufRead, Write};
use std::panic::catch_unwind;
use zvariant_utils::serialized::Format;
use zvariant_utils::signature::{Signature, validate};

#[path = "trees.rs"]
mod trees;
use trees::{build, fixed};

fn hash(s: &Signature) -> u64 {
    let mut h = DefaultHasher::new();
    s.hash(&mut h);
    h.finish()
}

fn yes(b: bool) -> &'static str {
    if b { "yes" } else { "no" }
}

fn figures(text: &[u8]) -> String {
    let Some(s) = build(text) else { return "none".into() };
    let dbus = catch_unwind(|| s.alignment(Format::DBus)).map_or("-".into(), |n| n.to_string());
    format!(
        "{} {} {} {} {} '{}' '{}'",
        s.string_len(),
        dbus,
        s.alignment(Format::GVariant),
        yes(s.is_fixed_sized()),
        yes(s.contains_maybe()),
        s.to_string(),
        s.to_string_no_parens()
    )
}

fn parse(text: &[u8]) -> String {
    let full = match Signature::from_bytes(text) {
        Ok(s) => format!("yes '{s}'"),
        Err(_) => "no".into(),
    };
    format!("{full} {}", yes(validate(text).is_ok()))
}

fn pairs(line: &[u8]) -> String {
    let cut = line.iter().position(|b| *b == 9).expect("byte 9");
    let a = build(&line[..cut]).expect("a signature before byte 9");
    let other = std::str::from_utf8(&line[cut + 1..]).expect("UTF-8 after byte 9");
    let text = catch_unwind(|| a == *other).map_or("?", yes);
    match build(other.as_bytes()) {
        Some(b) => format!(
            "{} {:?} {} {} {text}",
            yes(a == b),
            a.cmp(&b),
            yes(hash(&a) == hash(&b)),
            yes(fixed(&a) == b && hash(&fixed(&a)) == hash(&a) && fixed(&a).to_string() == a.to_string())
        ),
        None => format!("none none none none {text}"),
    }
}

fn main() {
    std::panic::set_hook(Box::new(|_| {}));
    let mode = std::env::args().nth(1).expect("figures, parse or pairs");
    let out = std::io::stdout();
    let mut out = out.lock();
    for line in std::io::stdin().lock().split(10) {
        let line = line.expect("a line");
        let answer = match mode.as_str() {
            "figures" => figures(&line),
            "parse" => parse(&line),
            _ => pairs(&line),
        };
        writeln!(out, "{answer}").expect("output");
    }
}
