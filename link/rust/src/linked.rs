//! Calls of the archive. A vector is handed over as its two halves, each a number, and a slice as its pointer and its length: so the archive's own code has
//! them, and with link-time optimisation LLVM puts a function into its caller only where both have the same arguments.

use crate::scan::ScanState;
use crate::simd::ImmLaneIdx;

/// An argument that is handed over as one number.
pub trait Handed {
    type As;
    fn handed(self) -> Self::As;
}

impl<const N: u8> Handed for ImmLaneIdx<N> {
    type As = u8;
    #[inline]
    fn handed(self) -> u8 {
        self.into()
    }
}

macro_rules! as_it_is {
    ( $( $ty:ty ),* ) => { $(
        impl Handed for $ty {
            type As = $ty;
            #[inline]
            fn handed(self) -> $ty {
                self
            }
        }
    )* };
}
as_it_is!(bool, u8, u16, u32, u64, usize, ScanState);

macro_rules! by_bits {
    ( $( $ty:ty as $bits:ty: $how:expr; )* ) => { $(
        impl Handed for $ty {
            type As = $bits;
            #[inline]
            fn handed(self) -> $bits {
                $how(self)
            }
        }
    )* };
}
by_bits! {
    i8 as u8: |x| x as u8;
    i16 as u16: |x| x as u16;
    i32 as u32: |x| x as u32;
    i64 as u64: |x| x as u64;
    f32 as u32: f32::to_bits;
    f64 as u64: f64::to_bits;
}

/// Calls the function of a name behind a prefix: its arguments by name and type, and the result's type.
macro_rules! call {
    ( $prefix:literal $name:ident( $( $arguments:tt )* ) -> $result:ty ) => {
        call!(@ $prefix $name [] [] ( $( $arguments )* ) -> $result)
    };
    (@ $prefix:literal $name:ident [ $( $ty:ty, )* ] [ $( $value:expr, )* ] () -> $result:ty) => {{
        // A function that is called in two places has its types by two names: the number of a lane, and a lane that is handed over as its number.
        #[allow(clashing_extern_declarations)]
        unsafe extern "C" {
            #[link_name = concat!($prefix, stringify!($name))]
            fn linked( $( _: $ty ),* ) -> $result;
        }
        // SAFETY: the types are those of the archive's function. A pointer with its length is of a slice that is lent until the call returns, and to the call
        // alone where it is mutable.
        unsafe { linked( $( $value ),* ) }
    }};
    (@ $prefix:literal $name:ident [ $( $ty:ty, )* ] [ $( $value:expr, )* ] ($a:ident: V128 $(, $( $rest:tt )* )?) -> $result:ty) => {
        call!(@ $prefix $name [ $( $ty, )* u64, u64, ] [ $( $value, )* $a.lo, $a.hi, ] ( $( $( $rest )* )? ) -> $result)
    };
    (@ $prefix:literal $name:ident [ $( $ty:ty, )* ] [ $( $value:expr, )* ] ($a:ident: &[$of:ty] $(, $( $rest:tt )* )?) -> $result:ty) => {
        call!(@ $prefix $name [ $( $ty, )* *const $of, usize, ] [ $( $value, )* $a.as_ptr(), $a.len(), ] ( $( $( $rest )* )? ) -> $result)
    };
    (@ $prefix:literal $name:ident [ $( $ty:ty, )* ] [ $( $value:expr, )* ] ($a:ident: &mut [$of:ty] $(, $( $rest:tt )* )?) -> $result:ty) => {
        call!(@ $prefix $name [ $( $ty, )* *mut $of, usize, ] [ $( $value, )* $a.as_mut_ptr(), $a.len(), ] ( $( $( $rest )* )? ) -> $result)
    };
    (@ $prefix:literal $name:ident [ $( $ty:ty, )* ] [ $( $value:expr, )* ] ($a:ident: &[$of:ty; $count:literal] $(, $( $rest:tt )* )?) -> $result:ty) => {
        call!(@ $prefix $name [ $( $ty, )* &[$of; $count], ] [ $( $value, )* $a, ] ( $( $( $rest )* )? ) -> $result)
    };
    (@ $prefix:literal $name:ident [ $( $ty:ty, )* ] [ $( $value:expr, )* ] ($a:ident: &mut [$of:ty; $count:literal] $(, $( $rest:tt )* )?) -> $result:ty) => {
        call!(@ $prefix $name [ $( $ty, )* &mut [$of; $count], ] [ $( $value, )* $a, ] ( $( $( $rest )* )? ) -> $result)
    };
    (@ $prefix:literal $name:ident [ $( $ty:ty, )* ] [ $( $value:expr, )* ] ($a:ident: $of:ty $(, $( $rest:tt )* )?) -> $result:ty) => {
        call!(@ $prefix $name [ $( $ty, )* <$of as $crate::linked::Handed>::As, ] [ $( $value, )* $crate::linked::Handed::handed($a), ] ( $( $( $rest )* )? ) -> $result)
    };
}

/// Functions that cannot refuse.
macro_rules! linked {
    ( $prefix:literal; $( fn $name:ident( $( $arguments:tt )* ) -> $result:ty; )* ) => { $(
        #[doc = concat!("Executes a Wasm `", stringify!($name), "` instruction.")]
        #[inline]
        pub fn $name( $( $arguments )* ) -> $result {
            call!($prefix $name( $( $arguments )* ) -> $result)
        }
    )* };
}
