//! Kinds of calls that a run has to come upon: an enum, and what each is in words.

macro_rules! kinds {
    ($($name:ident = $what:literal,)*) => {
        /// Kinds of calls that a run has to come upon.
        #[derive(Clone, Copy)]
        pub enum Kind { $($name),* }

        const KINDS: &[&str] = &[$($what),*];
    };
}

pub(crate) use kinds;
