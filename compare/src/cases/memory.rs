//! The memory lent in a case, with guards on both sides of each slice, so that a write beside it
//! shows, and what a service answers in it.

use crate::rules::{MASK_WORDS, MAX_VARIABLES};
use std::fmt::Display;
use std::ops::{Deref, DerefMut};

const GUARD: usize = 4;

/// What slices are lent of: words and bytes, each with the one that guards are full of.
pub trait Word: Copy + PartialEq + Display {
    const GUARD: Self;
    /// The low part of a word of 64 bits.
    fn of(word: u64) -> Self;
}

macro_rules! words {
    ($($word:ty: $guard:literal),*) => {
        $(impl Word for $word {
            const GUARD: Self = $guard;

            fn of(word: u64) -> Self {
                word as $word
            }
        })*
    };
}

words! { u8: 0xa5, u32: 0xa5a5_a5a5, u64: 0xa5a5_a5a5 }

/// A lent slice between its guards.
#[derive(Clone, PartialEq, Eq)]
pub struct Lent<T>(Vec<T>);

impl<T: Word> Lent<T> {
    pub fn of(words: impl AsRef<[T]>) -> Self {
        let guards = [T::GUARD; GUARD];
        Lent([&guards, words.as_ref(), &guards].concat())
    }

    fn filled(length: usize, filler: &mut impl FnMut() -> u64) -> Self {
        let words: Vec<T> = (0..length).map(|_| T::of(filler())).collect();
        Lent::of(words)
    }

    /// Writes at the front; what doesn't fit is dropped, and words behind it stay.
    pub fn write(&mut self, words: &[T]) {
        for (old, &word) in self.iter_mut().zip(words) {
            *old = word;
        }
    }

    /// The words as text, and whether the guards stand.
    fn shown(&self) -> (Vec<String>, bool) {
        let end = self.0.len() - GUARD;
        let mut guards = self.0[..GUARD].iter().chain(&self.0[end..]);
        let stand = guards.all(|&word| word == T::GUARD);
        (self.iter().map(T::to_string).collect(), stand)
    }
}

impl<T: Word> Default for Lent<T> {
    fn default() -> Self {
        Lent::of([])
    }
}

impl<T> Deref for Lent<T> {
    type Target = [T];

    fn deref(&self) -> &[T] {
        &self.0[GUARD..self.0.len() - GUARD]
    }
}

impl<T> DerefMut for Lent<T> {
    fn deref_mut(&mut self) -> &mut [T] {
        let end = self.0.len() - GUARD;
        &mut self.0[GUARD..end]
    }
}

/// Declares the slices: those that services only read, and those that they write to. Of these some
/// have a length that every service needs which takes them, and are zero after a refusal.
macro_rules! slices {
    (read $($read:ident: $unit:ty),*; written $($slice:ident: $word:ty = $needed:expr),*) => {
        #[derive(Clone, Default, PartialEq, Eq)]
        pub struct Memory {
            $(pub $read: Lent<$unit>,)*
            $(pub $slice: Lent<$word>,)*
            /// What a service returns by value.
            pub returned: u64,
        }

        /// The words that are written to the front of each slice, and what is returned by value.
        #[derive(Clone, Default, PartialEq, Eq)]
        pub struct Answer {
            $(pub $slice: Vec<$word>,)*
            pub returned: u64,
            /// What the answer is counted under: the number of a refusal, where there is one.
            pub number: u64,
        }

        /// The slices that are written to, each with the length that it needs, or 0.
        pub const WRITTEN: &[(&str, usize)] = &[$((stringify!($slice), $needed)),*];

        impl Memory {
            /// Slices of these lengths, in the order of `WRITTEN`, full of words by the filler.
            pub fn filled(lengths: &[usize], mut filler: impl FnMut() -> u64) -> Self {
                let mut lengths = lengths.iter().copied();
                Memory {
                    $($slice: Lent::filled(lengths.next().unwrap_or(0), &mut filler),)*
                    ..Memory::default()
                }
            }

            pub fn write(&mut self, answer: &Answer) {
                $(self.$slice.write(&answer.$slice);)*
                self.returned = answer.returned;
            }

            /// The slices that services write to, each with its name, its words and whether its
            /// guards stand.
            pub fn written(&self) -> Vec<(&'static str, (Vec<String>, bool))> {
                vec![$((stringify!($slice), self.$slice.shown())),*]
            }

            /// The slices that services only read, each with its name and whether it is as in the
            /// other memory.
            pub fn read(&self, other: &Self) -> Vec<(&'static str, bool)> {
                vec![$((stringify!($read), self.$read == other.$read)),*]
            }
        }

        impl Answer {
            /// Zeros in the slices that need a length.
            pub fn zeros() -> Self {
                Answer {
                    $($slice: vec![0; $needed],)*
                    ..Answer::default()
                }
            }
        }
    };
}

// A site state is rolled forward where it is lent, and the end of a plan is told in words that
// stand for nothing before. The room for the states along a plan is the caller's choice, as that of
// the outputs and of the rows of its moves is. Of two outputs, `first` is elimination's. Masks that
// are read may have any number of words.
slices! {
    read words: u32, plan: u32, text: u8, kept: u64, marked: u64;
    written state: u32 = 0, end: u32 = MAX_VARIABLES, states: u32 = 0, rows: u32 = 0,
        first: u32 = 0, second: u32 = 0, part: u32 = 0, mask: u64 = MASK_WORDS, out: u64 = 0
}

impl Memory {
    /// The memory with the answer written to it.
    pub fn after(&self, answer: &Answer) -> Self {
        let mut memory = self.clone();
        memory.write(answer);
        memory
    }
}
