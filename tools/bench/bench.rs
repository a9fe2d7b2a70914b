//! Times a plain reader, as one would write it in Rust, on the texts of a file, one per line. Writes a line for each job: its
//! name, a tab and the nanoseconds of processor time per text, the least of 15 rounds.
//! usage: bench FILE
//!
//! - tree: the text is read into a boxed tree, with the depth limits, and the tree is dropped.
//! - known by text: the text is looked up in a HashMap from texts to numbers that has them all.
//! - known by tree: the text is read into a tree, which is looked up in a HashMap from trees to numbers that has them all.
//! - print: a tree is printed into a vector that keeps its room.
//! - equal: a text is compared with a tree's printed form, which is not made.

use std::collections::HashMap;
use std::hint::black_box;

#[repr(C)]
struct Timespec {
    seconds: i64,
    nanoseconds: i64,
}

unsafe extern "C" {
    fn clock_gettime(clock: i32, time: *mut Timespec) -> i32;
}

const CLOCK_PROCESS_CPUTIME_ID: i32 = 2;

// The processor time that this process has taken, in nanoseconds.
fn now() -> f64 {
    let mut time = Timespec { seconds: 0, nanoseconds: 0 };
    unsafe { clock_gettime(CLOCK_PROCESS_CPUTIME_ID, &mut time) };
    time.seconds as f64 * 1e9 + time.nanoseconds as f64
}

#[derive(PartialEq, Eq, Hash)]
enum Tree {
    Basic(u8),
    Array(Box<Tree>),
    Dict(Box<Tree>, Box<Tree>),
    Structure(Vec<Tree>),
    Maybe(Box<Tree>),
}

fn one(text: &[u8], at: &mut usize, structures: u8, arrays: u8) -> Option<Tree> {
    let b = *text.get(*at)?;
    *at += 1;
    Some(match b {
        b'y' | b'b' | b'n' | b'q' | b'i' | b'u' | b'x' | b't' | b'd' | b's' | b'g' | b'o' | b'v' | b'h' => Tree::Basic(b),
        b'm' => Tree::Maybe(Box::new(one(text, at, structures, arrays)?)),
        b'a' => {
            let arrays = arrays.checked_sub(1)?;
            if text.get(*at) == Some(&b'{') {
                *at += 1;
                let key = one(text, at, structures, arrays)?;
                let value = one(text, at, structures, arrays)?;
                if text.get(*at) != Some(&b'}') {
                    return None;
                }
                *at += 1;
                Tree::Dict(Box::new(key), Box::new(value))
            } else {
                Tree::Array(Box::new(one(text, at, structures, arrays)?))
            }
        }
        b'(' => {
            let structures = structures.checked_sub(1)?;
            let mut fields = vec![one(text, at, structures, arrays)?];
            while text.get(*at) != Some(&b')') {
                fields.push(one(text, at, structures, arrays)?);
            }
            *at += 1;
            Tree::Structure(fields)
        }
        _ => return None,
    })
}

fn read(text: &[u8]) -> Option<Tree> {
    let mut at = 0;
    let mut types = Vec::new();
    while at < text.len() {
        types.push(one(text, &mut at, 32, 32)?);
    }
    if types.len() == 1 { types.pop() } else { Some(Tree::Structure(types)) }
}

fn print(tree: &Tree, out: &mut Vec<u8>) {
    match tree {
        Tree::Basic(b) => out.push(*b),
        Tree::Array(child) => {
            out.push(b'a');
            print(child, out);
        }
        Tree::Dict(key, value) => {
            out.extend(b"a{");
            print(key, out);
            print(value, out);
            out.push(b'}');
        }
        Tree::Structure(fields) => {
            out.push(b'(');
            for field in fields {
                print(field, out);
            }
            out.push(b')');
        }
        Tree::Maybe(child) => {
            out.push(b'm');
            print(child, out);
        }
    }
}

// What follows the tree's printed form in the text, if the text begins with that form.
fn behind<'t>(tree: &Tree, text: &'t [u8]) -> Option<&'t [u8]> {
    match tree {
        Tree::Basic(b) => text.strip_prefix(&[*b]),
        Tree::Array(child) => behind(child, text.strip_prefix(b"a")?),
        Tree::Dict(key, value) => behind(value, behind(key, text.strip_prefix(b"a{")?)?)?.strip_prefix(b"}"),
        Tree::Structure(fields) => {
            let mut rest = text.strip_prefix(b"(")?;
            for field in fields {
                rest = behind(field, rest)?;
            }
            rest.strip_prefix(b")")
        }
        Tree::Maybe(child) => behind(child, text.strip_prefix(b"m")?),
    }
}

fn time_it<T>(name: &str, texts: &[T], mut ask: impl FnMut(&T)) {
    let mut times = 1;
    let mut least = f64::MAX;
    for _ in 0..15 {
        let spent = loop {
            let start = now();
            for _ in 0..times {
                for t in texts {
                    ask(black_box(t));
                }
            }
            let spent = now() - start;
            if spent > 1e7 {
                break spent;
            }
            times *= 2;
        };
        least = least.min(spent / times as f64 / texts.len() as f64);
    }
    println!("{name}\t{least:.2}");
}

fn main() {
    let path = std::env::args().nth(1).expect("usage: bench FILE");
    let data = std::fs::read(path).expect("the file");
    let texts: Vec<Vec<u8>> = data.split(|b| *b == 10).filter(|t| !t.is_empty()).map(<[u8]>::to_vec).collect();
    let by_text: HashMap<Vec<u8>, u16> = texts.iter().cloned().zip(15..).collect();
    let by_tree: HashMap<Tree, u16> = texts.iter().map(|t| read(t).expect("valid")).zip(15..).collect();
    let pairs: Vec<(Tree, &[u8])> = texts.iter().map(|t| (read(t).expect("valid"), &t[..])).collect();
    let mut out = Vec::new();
    time_it("tree", &texts, |t| drop(black_box(read(t))));
    time_it("known by text", &texts, |t| {
        black_box(by_text.get(t));
    });
    time_it("known by tree", &texts, |t| {
        black_box(by_tree.get(&read(t).expect("valid")));
    });
    time_it("print", &pairs, |(tree, _)| {
        out.clear();
        print(tree, &mut out);
        black_box(&out);
    });
    time_it("equal", &pairs, |(tree, text)| assert!(black_box(behind(tree, text)).is_some_and(<[u8]>::is_empty)));
}
