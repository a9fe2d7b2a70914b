//! Stands in for the crate `winnow`, which is not at hand: the combinators that the crate's parser names, over byte slices,
//! with the behaviour that winnow is known to give them, as below. No code of winnow is in it. What is read through it
//! rests on this file too.
//!
//! - A parser takes bytes off the front of its input or fails. Failures here are all of the kind that `alt` and `repeat`
//!   may go back from; the crate's parser makes no other.
//! - `alt` tries its parsers in order on the same input; the first that succeeds counts.
//! - `repeat(1..)` runs its parser until it fails, puts the input back to before that failure, and fails if there was no
//!   success at all.
//! - `parse` runs a parser and then demands the end of the input.

pub mod error {
    #[derive(Debug)]
    pub enum ErrMode<E> {
        Backtrack(E),
    }

    pub trait ParserError {
        fn failure() -> Self;
    }

    impl ParserError for ErrMode<()> {
        fn failure() -> Self {
            ErrMode::Backtrack(())
        }
    }
}

use error::ParserError;
use std::marker::PhantomData;

pub trait Parser<I, O, E> {
    fn parse_next(&mut self, input: &mut I) -> Result<O, E>;

    fn parse(&mut self, mut input: I) -> Result<O, E>
    where
        I: Bytes,
        E: ParserError,
    {
        let o = self.parse_next(&mut input)?;
        if input.left() == 0 { Ok(o) } else { Err(E::failure()) }
    }

    fn map<G, O2>(self, g: G) -> Map<Self, G, I, O, O2, E>
    where
        G: FnMut(O) -> O2,
        Self: Sized,
    {
        Map(self, g, PhantomData)
    }

    fn value<O2: Clone>(self, value: O2) -> Value<Self, I, O, O2, E>
    where
        Self: Sized,
    {
        Value(self, value, PhantomData)
    }
}

pub trait Bytes {
    fn left(&self) -> usize;
}

impl Bytes for &[u8] {
    fn left(&self) -> usize {
        self.len()
    }
}

impl<I, O, E, F: FnMut(&mut I) -> Result<O, E>> Parser<I, O, E> for F {
    fn parse_next(&mut self, input: &mut I) -> Result<O, E> {
        self(input)
    }
}

impl<'i, E: ParserError> Parser<&'i [u8], u8, E> for u8 {
    fn parse_next(&mut self, input: &mut &'i [u8]) -> Result<u8, E> {
        match input.split_first() {
            Some((b, rest)) if b == self => {
                *input = rest;
                Ok(*b)
            }
            _ => Err(E::failure()),
        }
    }
}

impl<I, E, A, B, OA, OB> Parser<I, (OA, OB), E> for (A, B)
where
    A: Parser<I, OA, E>,
    B: Parser<I, OB, E>,
{
    fn parse_next(&mut self, input: &mut I) -> Result<(OA, OB), E> {
        Ok((self.0.parse_next(input)?, self.1.parse_next(input)?))
    }
}

pub struct Map<P, G, I, O, O2, E>(P, G, PhantomData<(I, O, O2, E)>);

impl<P: Parser<I, O, E>, G: FnMut(O) -> O2, I, O, O2, E> Parser<I, O2, E> for Map<P, G, I, O, O2, E> {
    fn parse_next(&mut self, input: &mut I) -> Result<O2, E> {
        self.0.parse_next(input).map(&mut self.1)
    }
}

pub struct Value<P, I, O, O2, E>(P, O2, PhantomData<(I, O, E)>);

impl<P: Parser<I, O, E>, I, O, O2: Clone, E> Parser<I, O2, E> for Value<P, I, O, O2, E> {
    fn parse_next(&mut self, input: &mut I) -> Result<O2, E> {
        self.0.parse_next(input)?;
        Ok(self.1.clone())
    }
}

pub mod token {
    use super::error::ParserError;

    pub fn any<'i, E: ParserError>(input: &mut &'i [u8]) -> Result<u8, E> {
        let (b, rest) = input.split_first().ok_or_else(E::failure)?;
        *input = rest;
        Ok(*b)
    }
}

pub mod combinator {
    use super::{Parser, error::ParserError};
    use std::{marker::PhantomData, ops::RangeFrom};

    pub fn empty<'i, E>(_: &mut &'i [u8]) -> Result<(), E> {
        Ok(())
    }

    pub fn fail<'i, O, E: ParserError>(_: &mut &'i [u8]) -> Result<O, E> {
        Err(E::failure())
    }

    pub fn eof<'i, E: ParserError>(input: &mut &'i [u8]) -> Result<&'i [u8], E> {
        if input.is_empty() { Ok(*input) } else { Err(E::failure()) }
    }

    pub fn delimited<I, O1, O, O3, E>(
        mut open: impl Parser<I, O1, E>,
        mut inner: impl Parser<I, O, E>,
        mut close: impl Parser<I, O3, E>,
    ) -> impl Parser<I, O, E> {
        move |input: &mut I| {
            open.parse_next(input)?;
            let o = inner.parse_next(input)?;
            close.parse_next(input)?;
            Ok(o)
        }
    }

    pub trait Alt<I, O, E> {
        fn choice(&mut self, input: &mut I) -> Result<O, E>;
    }

    macro_rules! alternatives {
        ($($p:ident $n:tt),*) => {
            impl<I: Copy, O, E: ParserError, $($p: Parser<I, O, E>),*> Alt<I, O, E> for ($($p,)*) {
                fn choice(&mut self, input: &mut I) -> Result<O, E> {
                    let start = *input;
                    $(
                        if let Ok(o) = self.$n.parse_next(input) {
                            return Ok(o);
                        }
                        *input = start;
                    )*
                    Err(E::failure())
                }
            }
        };
    }
    alternatives!(A 0, B 1);
    alternatives!(A 0, B 1, C 2, D 3, F 4);
    alternatives!(A 0, B 1, C 2, D 3, F 4, G 5);

    pub fn alt<I, O, E, A: Alt<I, O, E>>(mut alternatives: A) -> impl Parser<I, O, E> {
        move |input: &mut I| alternatives.choice(input)
    }

    pub struct Repeat<P, I, O, C, E>(P, usize, PhantomData<(I, O, C, E)>);

    pub fn repeat<I, O, C, E, P: Parser<I, O, E>>(range: RangeFrom<usize>, parser: P) -> Repeat<P, I, O, C, E> {
        Repeat(parser, range.start, PhantomData)
    }

    fn run<I: Copy, O, E: ParserError, R>(
        parser: &mut impl Parser<I, O, E>,
        least: usize,
        input: &mut I,
        mut acc: R,
        mut op: impl FnMut(R, O) -> R,
    ) -> Result<R, E> {
        let mut count = 0;
        loop {
            let start = *input;
            match parser.parse_next(input) {
                Ok(o) => acc = op(acc, o),
                Err(e) if count < least => return Err(e),
                Err(_) => {
                    *input = start;
                    return Ok(acc);
                }
            }
            count += 1;
        }
    }

    impl<P: Parser<I, O, E>, I: Copy, O, E: ParserError> Parser<I, (), E> for Repeat<P, I, O, (), E> {
        fn parse_next(&mut self, input: &mut I) -> Result<(), E> {
            run(&mut self.0, self.1, input, (), |(), _| ())
        }
    }

    impl<P: Parser<I, O, E>, I: Copy, O, E: ParserError> Repeat<P, I, O, (), E> {
        pub fn fold<R>(mut self, mut init: impl FnMut() -> R, mut op: impl FnMut(R, O) -> R) -> impl Parser<I, R, E> {
            move |input: &mut I| run(&mut self.0, self.1, input, init(), &mut op)
        }
    }
}

#[macro_export]
macro_rules! dispatch {
    ($first:expr; $($pattern:pat => $then:expr),+ $(,)?) => {
        move |input: &mut _| {
            use $crate::Parser;
            let initial = $first.parse_next(input)?;
            match initial {
                $($pattern => $then.parse_next(input),)+
            }
        }
    };
}
