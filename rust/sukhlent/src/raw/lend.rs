//! `calls!`: C calls from their signatures, in which a slice stands for a pointer and a length.

/// The C function of every signature, and a safe function over it:
/// `pub fn check(n: u64, signs: &[u8], z: &[u64], x: &[u64]) = sukhlent_check;`. A parameter is a
/// number, a slice, a number to be written, or one of the tuples that `lend!` knows.
macro_rules! calls {
    ($($(#[$doc:meta])* pub fn $name:ident $parameters:tt = $call:ident;)*) => {$(
        $(#[$doc])*
        #[allow(clippy::too_many_arguments)]
        pub fn $name $parameters -> u8 {
            lend!($call [] [] $parameters)
        }
    )*};
}

/// The types and the arguments of a C call, collected parameter by parameter; then the call.
macro_rules! lend {
    ($call:ident [$($type:ty,)*] [$($value:expr,)*] ()) => {{
        extern "C" {
            fn $call($(_: $type),*) -> u8;
        }
        // SAFETY: the header has these types in this order; the pointers are those of borrowed slices
        // and numbers, with the slices' lengths, and the call keeps none of them.
        unsafe { $call($($value),*) }
    }};

    // A tuple is its fields; of a record that is lent to a group, the group stands behind n.
    ($call:ident $types:tt $values:tt (
        ($n:ident, $neighbours:ident, $codes:ident, $used:ident): LentRecord,
        ($word:ident, $group:ident): Whose $(, $($rest:tt)*)?
    )) => {
        lend!($call $types $values (
            $n: u64, ($word, $group): Whose, $neighbours: &[u64], $codes: &[u8], $used: u64, $($($rest)*)?
        ))
    };
    ($call:ident $types:tt $values:tt (($word:ident, $group:ident): Whose $(, $($rest:tt)*)?)) => {
        lend!($call $types $values ($word: u64, $group: u8, $($($rest)*)?))
    };
    ($call:ident $types:tt $values:tt (
        ($n:ident, $neighbours:ident, $codes:ident, $used:ident): LentRecord $(, $($rest:tt)*)?
    )) => {
        lend!($call $types $values (($n, $neighbours, $codes): LentGraph, $used: u64, $($($rest)*)?))
    };
    ($call:ident $types:tt $values:tt (
        ($n:ident, $neighbours:ident, $codes:ident): LentGraph $(, $($rest:tt)*)?
    )) => {
        lend!($call $types $values ($n: u64, $neighbours: &[u64], $codes: &[u8], $($($rest)*)?))
    };
    ($call:ident $types:tt $values:tt (
        ($n:ident, $signs:ident, $z:ident, $x:ident): Lent $(, $($rest:tt)*)?
    )) => {
        lend!($call $types $values ($n: u64, $signs: &[u8], $z: &[u64], $x: &[u64], $($($rest)*)?))
    };
    ($call:ident $types:tt $values:tt (
        ($heads:ident, $neighbours:ident, $codes:ident): LentStore $(, $($rest:tt)*)?
    )) => {
        lend!($call $types $values ($heads: &[u64], $neighbours: &[u64], $codes: &[u8], $($($rest)*)?))
    };

    // A slice is a pointer and a length.
    ($call:ident [$($types:tt)*] [$($values:tt)*] ($a:ident: &[$t:ident] $(, $($rest:tt)*)?)) => {
        lend!($call
            [$($types)* *const $t, u64,] [$($values)* $a.as_ptr(), $a.len() as u64,] ($($($rest)*)?))
    };
    ($call:ident [$($types:tt)*] [$($values:tt)*] ($a:ident: &mut [$t:ident] $(, $($rest:tt)*)?)) => {
        lend!($call
            [$($types)* *mut $t, u64,] [$($values)* $a.as_mut_ptr(), $a.len() as u64,] ($($($rest)*)?))
    };
    ($call:ident [$($types:tt)*] [$($values:tt)*] ($a:ident: &mut $t:ident $(, $($rest:tt)*)?)) => {
        lend!($call [$($types)* *mut $t,] [$($values)* $a,] ($($($rest)*)?))
    };
    ($call:ident [$($types:tt)*] [$($values:tt)*] ($a:ident: $t:ident $(, $($rest:tt)*)?)) => {
        lend!($call [$($types)* $t,] [$($values)* $a,] ($($($rest)*)?))
    };
}
