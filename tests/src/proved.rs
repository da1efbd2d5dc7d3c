//! The proved library's functions, as it exports them, in safe wrappers. Both
//! are made from the list in `library.rs`.

/// Makes the wrapper of each function, from its parameters with a comma after
/// each.
macro_rules! wrappers {
    ($($symbol:ident $name:ident ($($parameters:tt)*);)*) => {
        $(wrapper! { $symbol $name ($($parameters)*) () () $($parameters)*, })*
    };
}

/// Takes the parameters one by one, and collects how C declares them and what
/// C is given: a slice is its pointer and its length.
macro_rules! wrapper {
    ($symbol:ident $name:ident $taken:tt ($($declared:tt)*) ($($given:tt)*)) => {
        pub fn $name $taken -> u64 {
            extern "C" {
                fn $symbol($($declared)*) -> u64;
            }
            // SAFETY: the library takes each slice as its pointer and length,
            // keeps none of them past the call, and writes only through the
            // mutable ones, which are lent exclusively here.
            unsafe { $symbol($($given)*) }
        }
    };
    ($symbol:ident $name:ident $taken:tt ($($declared:tt)*) ($($given:tt)*)
        $slice:ident: &[$of:ty], $($rest:tt)*) => {
        wrapper! { $symbol $name $taken
            ($($declared)* _: *const $of, _: usize,)
            ($($given)* $slice.as_ptr(), $slice.len(),) $($rest)* }
    };
    ($symbol:ident $name:ident $taken:tt ($($declared:tt)*) ($($given:tt)*)
        $slice:ident: &mut [$of:ty], $($rest:tt)*) => {
        wrapper! { $symbol $name $taken
            ($($declared)* _: *mut $of, _: usize,)
            ($($given)* $slice.as_mut_ptr(), $slice.len(),) $($rest)* }
    };
    ($symbol:ident $name:ident $taken:tt ($($declared:tt)*) ($($given:tt)*)
        $number:ident: u32, $($rest:tt)*) => {
        wrapper! { $symbol $name $taken
            ($($declared)* _: u32,) ($($given)* $number,) $($rest)* }
    };
}

functions!(wrappers);
