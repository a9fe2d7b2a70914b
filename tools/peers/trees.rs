//! Signatures made by the crate's constructors from texts, with no use of the crate's parser and no depth limit.

use zvariant_utils::signature::{Fields, Signature};

/// The complete type at the front of `text`, which it is taken from; no depth limit.
fn one(text: &mut &[u8]) -> Option<Signature> {
    let (b, rest) = text.split_first()?;
    *text = rest;
    Some(match b {
        b'y' => Signature::U8,
        b'b' => Signature::Bool,
        b'n' => Signature::I16,
        b'q' => Signature::U16,
        b'i' => Signature::I32,
        b'u' => Signature::U32,
        b'x' => Signature::I64,
        b't' => Signature::U64,
        b'd' => Signature::F64,
        b's' => Signature::Str,
        b'g' => Signature::Signature,
        b'o' => Signature::ObjectPath,
        b'v' => Signature::Variant,
        b'h' => Signature::Fd,
        b'm' => Signature::maybe(one(text)?),
        b'a' if text.first() == Some(&b'{') => {
            *text = &text[1..];
            let (key, value) = (one(text)?, one(text)?);
            close(text, b'}')?;
            Signature::dict(key, value)
        }
        b'a' => Signature::array(one(text)?),
        b'(' => {
            let mut fields = vec![one(text)?];
            while text.first() != Some(&b')') {
                fields.push(one(text)?);
            }
            close(text, b')')?;
            Signature::structure(fields)
        }
        _ => return None,
    })
}

fn close(text: &mut &[u8], end: u8) -> Option<()> {
    let (b, rest) = text.split_first()?;
    *text = rest;
    (*b == end).then_some(())
}

/// The signature of a text of complete types in a row.
pub fn build(mut text: &[u8]) -> Option<Signature> {
    let mut types = Vec::new();
    while !text.is_empty() {
        types.push(one(&mut text)?);
    }
    Some(match types.len() {
        0 => Signature::Unit,
        1 => types.remove(0),
        _ => Signature::structure(types),
    })
}

/// The same signature out of static parts.
pub fn fixed(s: &Signature) -> Signature {
    let lent = |s: &Signature| -> &'static Signature { Box::leak(Box::new(fixed(s))) };
    match s {
        Signature::Array(c) => Signature::static_array(lent(c)),
        Signature::Dict { key, value } => Signature::static_dict(lent(key), lent(value)),
        Signature::Structure(f) => {
            let parts: Vec<&'static Signature> = f.iter().map(lent).collect();
            let parts: &'static [&'static Signature] = parts.leak();
            Signature::Structure(Fields::Static { fields: parts })
        }
        Signature::Maybe(c) => Signature::static_maybe(lent(c)),
        other => other.clone(),
    }
}
