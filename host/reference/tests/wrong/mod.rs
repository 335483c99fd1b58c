//! The names of wrong readings of a request.

/// The wrong readings, and of what each is: every name stands here once.
macro_rules! readings {
    ($($of:ident: $($wrong:ident)*;)*) => {
        /// What the request could be taken for, and is not.
        #[derive(Clone, Copy, Debug, PartialEq, Eq)]
        enum Wrong {
            $($($wrong,)*)*
        }

        $(const $of: &[Wrong] = &[$(Wrong::$wrong),*];)*
    };
}
