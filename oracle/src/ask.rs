//! Asks the Rust, and says what the library must answer. A panic is no answer.

use std::cell::Cell;
use std::panic::{AssertUnwindSafe, catch_unwind, set_hook, take_hook};

/// Where a wanted answer comes from, in the order of the counts at a transcript's end.
#[derive(Clone, Copy)]
pub enum Origin {
    Rust,
    /// The Rust panics, or what it answers depends on the processor.
    Widened,
    /// Document 01 refuses, and the Rust answers.
    RefusedAlone,
    /// Document 01 refuses, and the Rust panics.
    RefusedByBoth,
}

/// What the library must answer: this, or the refusal of this number.
pub struct Wanted<A> {
    pub answer: Result<A, u32>,
    pub origin: Origin,
}

impl<A> Wanted<A> {
    pub fn map<B>(self, change: impl FnOnce(A) -> B) -> Wanted<B> {
        Wanted { answer: self.answer.map(change), origin: self.origin }
    }
}

thread_local! {
    static ASKING: Cell<bool> = const { Cell::new(false) };
}

/// Keeps the Rust's panics quiet; those of the program itself are still told.
pub fn quiet_panics() {
    let tell = take_hook();
    set_hook(Box::new(move |panic| {
        if !ASKING.get() {
            tell(panic);
        }
    }));
}

/// What the Rust answers, or nothing where it panics.
pub fn asked<A>(question: impl FnOnce() -> A) -> Option<A> {
    ASKING.set(true);
    let answer = catch_unwind(AssertUnwindSafe(question)).ok();
    ASKING.set(false);
    answer
}

/// What is wanted where document 01 refuses with `refusal`, or answers where that is 0. Where the Rust panics and 01
/// answers, the widened text's answer stands; where both texts answer, widening must have changed nothing.
pub fn wanted<A: PartialEq>(refusal: u32, rust: impl FnOnce() -> A, widened: impl FnOnce() -> A) -> Wanted<A> {
    let answer = asked(rust);
    if refusal != 0 {
        let origin = if answer.is_some() { Origin::RefusedAlone } else { Origin::RefusedByBoth };
        return Wanted { answer: Err(refusal), origin };
    }
    let wide = asked(widened).expect("the widened text answers whatever document 01 answers");
    let origin = match answer {
        Some(answer) => {
            assert!(answer == wide, "widening changes no answer of the Rust");
            Origin::Rust
        }
        None => Origin::Widened,
    };
    Wanted { answer: Ok(wide), origin }
}
