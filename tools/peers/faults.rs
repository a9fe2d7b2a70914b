//! Shows, by running the crate's own code, where it departs from the specifications or from itself: each line says what was
//! asked and what the crate answers. What is read from a text by the crate's parser goes through the stand-in of winnow;
//! all else is made by the crate's constructors.

use std::alloc::{GlobalAlloc, Layout, System};
use std::collections::BTreeSet;
use std::hash::{Hash, Hasher};
use std::panic::catch_unwind;
use std::sync::atomic::{AtomicUsize, Ordering};
use zvariant_utils::serialized::Format;
use zvariant_utils::signature::{Signature, validate};

#[path = "trees.rs"]
mod trees;
use trees::{build, fixed};

struct Counting;

static CALLS: AtomicUsize = AtomicUsize::new(0);

unsafe impl GlobalAlloc for Counting {
    unsafe fn alloc(&self, l: Layout) -> *mut u8 {
        CALLS.fetch_add(1, Ordering::Relaxed);
        unsafe { System.alloc(l) }
    }
    unsafe fn dealloc(&self, p: *mut u8, l: Layout) {
        unsafe { System.dealloc(p, l) }
    }
}

#[global_allocator]
static ALLOCATOR: Counting = Counting;

/// Keeps the bytes that are hashed.
#[derive(Default)]
struct Bytes(Vec<u8>);

impl Hasher for Bytes {
    fn write(&mut self, bytes: &[u8]) {
        self.0.extend_from_slice(bytes);
    }
    fn finish(&self) -> u64 {
        0
    }
}

fn sig(text: &str) -> Signature {
    build(text.as_bytes()).expect("a signature")
}

fn hashed(s: &Signature) -> Vec<u8> {
    let mut h = Bytes::default();
    s.hash(&mut h);
    h.0
}

fn read(text: &str) -> String {
    match Signature::from_bytes(text.as_bytes()) {
        Ok(s) => format!("accepted, prints {s}"),
        Err(e) => format!("refused: {e}"),
    }
}

fn text(signature: &str, other: &str) {
    let s = sig(signature);
    let answer = catch_unwind(|| s == *other).map_or("panics".into(), |b| b.to_string());
    println!("text      {signature} == {other:?}: {answer}");
}

fn order(a: &str, b: &str) {
    println!("order     {a} and {b}: {:?}, equal: {}", sig(a).cmp(&sig(b)), sig(a) == sig(b));
}

fn alignments(name: &str, s: &Signature) {
    let dbus = catch_unwind(|| s.alignment(Format::DBus)).map_or("panics".into(), |n| n.to_string());
    let gvariant = s.alignment(Format::GVariant);
    println!("layout    {name}: D-Bus {dbus}, GVariant {gvariant}, fixed size: {}", s.is_fixed_sized());
}

/// Whether a run of this many `m` can be treated by a process of its own.
fn deep(what: &str, count: usize) {
    let status = std::process::Command::new(std::env::current_exe().expect("own path"))
        .args([what, &count.to_string()])
        .stderr(std::process::Stdio::null())
        .status()
        .expect("a process");
    println!("depth     {what}, {count} times `m` and `y`: {}", if status.success() { "done" } else { "ends the process" });
}

fn deep_child(what: &str, count: usize) {
    if what == "parser" {
        let text = "m".repeat(count) + "y";
        std::process::exit(if validate(text.as_bytes()).is_ok() { 0 } else { 1 });
    }
    let mut s = Signature::U8;
    for _ in 0..count {
        s = Signature::maybe(s);
    }
    match what {
        "string_len" => assert!(s.string_len() == count + 1),
        "to_string" => assert!(s.to_string().len() == count + 1),
        _ => {
            drop(s);
            std::process::exit(0)
        }
    }
    std::mem::forget(s);
}

fn main() {
    let args: Vec<String> = std::env::args().collect();
    if args.len() == 3 {
        return deep_child(&args[1], args[2].parse().expect("a number"));
    }
    std::panic::set_hook(Box::new(|_| {}));

    for (s, t) in [
        ("a(y)", "ay"),
        ("a(yy)", "ayy"),
        ("m(y)", "my"),
        ("a{s(yy)}", "a{syy}"),
        ("(yy)", "[yy]"),
        ("(yy)", "yyyy"),
        ("(yyyy)", "yyyy"),
        ("((yy)s)", "(ayybs)"),
        ("((t))", "a{td}"),
        ("(y)", "y"),
        ("a{ayy}", "a{ayy}"),
        ("a{(y)s}", "a{(y)s}"),
        ("a{(y)s}", "a{ys}"),
        ("(yy)", "é"),
        ("(y)", "€"),
        ("a{sv}", "a{é}"),
    ] {
        text(s, t);
    }
    let none = Signature::structure([]);
    println!("text      structure of no fields == \"\": {}, == \"()\": {}, == \"xx\": {}", none == "", none == "()", none == "xx");

    for (a, b) in [("y", "b"), ("y", "(y)"), ("y", "(yy)"), ("(y)", "(yy)"), ("ay", "a(y)"), ("as", "ms")] {
        order(a, b);
    }
    let some = ["y", "b", "s", "as", "a{sv}", "(yy)"].map(sig);
    let mut set = BTreeSet::new();
    for s in some.clone() {
        set.insert(s);
    }
    println!("order     BTreeSet of y, b, s, as, a{{sv}}, (yy), put in one by one: {} left", set.len());
    println!("order     the same by BTreeSet::from: {} left", BTreeSet::from(some).len());

    for (a, b) in [("((y)y)", "((yy))"), ("(y)b", "(yb)"), ("ay", "ay")] {
        println!("hash      {a} and {b}: same bytes: {}, equal: {}", hashed(&sig(a)) == hashed(&sig(b)), sig(a) == sig(b));
    }
    for s in ["a{s(ya(mv))}", "(yy)", "ay"].map(sig) {
        let f = fixed(&s);
        println!("static    {s}: equal: {}, hash: {}, form: {}, debug: {}", f == s, hashed(&f) == hashed(&s),
            f.to_string() == s.to_string(), format!("{f:?}") == format!("{s:?}"));
    }

    alignments("Unit", &Signature::Unit);
    alignments("structure of no fields", &none);
    for t in ["my", "(my)", "amy", "a{sy}", "(yb)"] {
        alignments(t, &sig(t));
    }

    for (name, s) in [
        ("structure of no fields", none),
        ("structure of Unit", Signature::structure([Signature::Unit])),
        ("structure of Unit and y", Signature::structure([Signature::Unit, Signature::U8])),
        ("array of Unit", Signature::array(Signature::Unit)),
        ("dictionary of Unit and Unit", Signature::dict(Signature::Unit, Signature::Unit)),
        ("(y)", sig("(y)")),
    ] {
        println!("form      {name}: {:?}, bare {:?}; the form is {}", s.to_string(), s.to_string_no_parens(), read(&s.to_string()));
    }
    println!("form      structure of Unit and y == (y): {}", Signature::structure([Signature::Unit, Signature::U8]) == sig("(y)"));
    println!("form      \"{{:>4}}\" of y: {:?}", format!("{:>4}", sig("y")));
    let long = format!("y{}s{}", "(".repeat(32), ")".repeat(32));
    let s = Signature::from_bytes(long.as_bytes()).expect("accepted");
    println!("form      {long}: accepted; its printed form is {}", read(&s.to_string()));

    println!("reading   yy and (yy) equal: {}", Signature::from_bytes(b"yy") == Signature::from_bytes(b"(yy)"));
    for t in ["()", "{sv}", "r", "*", "?", "a{vs}", "a{ays}", "a{(s)v}", "my", "mmy", "(h)"] {
        println!("reading   {t}: {}", read(t));
    }
    println!("reading   256 times y: {}", &read(&"y".repeat(256))[..8]);
    println!("reading   65,536 times y: {}", &read(&"y".repeat(65536))[..8]);

    for t in ["y", "ay", "a{sv}", "(a{sv}ai)", "my"] {
        let before = CALLS.load(Ordering::Relaxed);
        let ok = validate(t.as_bytes()).is_ok();
        println!("memory    validate {t}: {ok}, {} allocations", CALLS.load(Ordering::Relaxed) - before);
    }
    for what in ["parser", "string_len", "to_string", "drop"] {
        deep(what, 65_534);
        deep(what, 1_000_000);
    }
}
