//! Stand-in for the crate num-traits: what the text names, and no more.

pub trait Zero {
    fn zero() -> Self;
}

pub trait One {
    fn one() -> Self;
}

/// Only a bound in the text; nothing is called through it.
pub trait NumAssign {}

pub trait ToPrimitive {
    fn to_f64(&self) -> Option<f64>;
    fn to_u8(&self) -> Option<u8>;
    fn to_usize(&self) -> Option<usize>;
}

macro_rules! numbers {
    ($($t:ty),*) => {$(
        impl Zero for $t {
            fn zero() -> Self {
                0 as $t
            }
        }
        impl One for $t {
            fn one() -> Self {
                1 as $t
            }
        }
        impl NumAssign for $t {}
    )*};
}
numbers!(u8, u32, u64, usize, f64);

macro_rules! whole_numbers {
    ($($t:ty),*) => {$(
        impl ToPrimitive for $t {
            fn to_f64(&self) -> Option<f64> {
                Some(*self as f64)
            }
            fn to_u8(&self) -> Option<u8> {
                u8::try_from(*self).ok()
            }
            fn to_usize(&self) -> Option<usize> {
                usize::try_from(*self).ok()
            }
        }
    )*};
}
whole_numbers!(u32, u64, usize);

impl ToPrimitive for f64 {
    fn to_f64(&self) -> Option<f64> {
        Some(*self)
    }
    fn to_u8(&self) -> Option<u8> {
        (*self > -1.0 && *self < 256.0).then_some(*self as u8)
    }
    fn to_usize(&self) -> Option<usize> {
        (*self > -1.0 && *self < usize::MAX as f64).then_some(*self as usize)
    }
}
