//! Stands in for the crate `bitflags` 2: the part of its macro that the original headers.rs uses.

#[macro_export]
macro_rules! bitflags {
    ($(#[$outer:meta])* pub struct $name:ident: $bits:ty { $(const $flag:ident = $value:expr;)* }) => {
        $(#[$outer])*
        pub struct $name($bits);

        impl $name {
            $(pub const $flag: $name = $name($value);)*

            pub const fn empty() -> $name {
                $name(0)
            }

            /// Keeps every bit, those without a name too.
            pub const fn from_bits_retain(bits: $bits) -> $name {
                $name(bits)
            }

            pub const fn bits(&self) -> $bits {
                self.0
            }

            pub const fn contains(&self, other: $name) -> bool {
                self.0 & other.0 == other.0
            }
        }
    };
}
