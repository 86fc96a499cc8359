//! Stands for the package bitflags: the few operations that the Rust's files use.
#[macro_export]
macro_rules! bitflags {
    ($(#[$m:meta])* $v:vis struct $n:ident: $t:ty { $($(#[$cm:meta])* const $c:ident = $e:expr;)* }) => {
        $(#[$m])* $v struct $n($t);
        #[allow(dead_code)]
        impl $n {
            $($(#[$cm])* pub const $c: Self = Self($e);)*
            pub const fn bits(&self) -> $t { self.0 }
            pub const fn empty() -> Self { Self(0) }
            pub const fn from_bits_truncate(b: $t) -> Self { Self(b) }
            pub const fn contains(&self, o: Self) -> bool { self.0 & o.0 == o.0 }
        }
        impl core::ops::BitOr for $n { type Output = Self; fn bitor(self, o: Self) -> Self { Self(self.0 | o.0) } }
    };
}
