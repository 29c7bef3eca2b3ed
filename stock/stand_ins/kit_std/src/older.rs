//! Methods of numbers that stock Rust has since 1.87. Debian 13 has 1.85. Where the number has its own, that one is
//! called.

/// `cast_signed` of a number without a sign.
pub trait CastSigned {
    /// The type of the same width with a sign.
    type Signed;

    /// The number with the same bits.
    fn cast_signed(self) -> Self::Signed;
}

/// `cast_unsigned` of a number with a sign.
pub trait CastUnsigned {
    /// The type of the same width without a sign.
    type Unsigned;

    /// The number with the same bits.
    fn cast_unsigned(self) -> Self::Unsigned;
}

macro_rules! casts {
    ($($unsigned:ty, $signed:ty;)*) => {$(
        impl CastSigned for $unsigned {
            type Signed = $signed;

            #[inline]
            fn cast_signed(self) -> $signed {
                self as $signed
            }
        }

        impl CastUnsigned for $signed {
            type Unsigned = $unsigned;

            #[inline]
            fn cast_unsigned(self) -> $unsigned {
                self as $unsigned
            }
        }
    )*};
}

casts! { u8, i8; u16, i16; u32, i32; u64, i64; usize, isize; }

#[cfg(test)]
mod tests {
    use super::*;

    #[test]
    fn bits_stay() {
        assert_eq!(CastSigned::cast_signed(u32::MAX), -1);
        assert_eq!(CastUnsigned::cast_unsigned(i8::MIN), 128);
        assert_eq!(CastUnsigned::cast_unsigned(CastSigned::cast_signed(u64::MAX - 2)), u64::MAX - 2);
    }
}
