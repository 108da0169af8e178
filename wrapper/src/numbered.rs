//! Enums of which each value has a number in the library and a name.

/// Declares an enum whose values have numbers and names: `VALUE = NUMBER => NAME`. With it come
/// `ALL`, `number`, `from_number`, `name`, and `Display`, which writes the name.
macro_rules! numbered {
    (
        $(#[$about:meta])*
        pub enum $name:ident {
            $($(#[$says:meta])* $value:ident = $number:literal => $text:literal,)+
        }
    ) => {
        $(#[$about])*
        #[derive(Debug, Clone, Copy, PartialEq, Eq, Hash)]
        #[repr(u8)]
        pub enum $name {
            $($(#[$says])* $value = $number,)+
        }

        impl $name {
            /// All of them, in the order of their declaration.
            pub const ALL: &[Self] = &[$(Self::$value),+];

            /// Its number in the library.
            pub const fn number(self) -> u8 {
                self as u8
            }

            /// The one that has this number, which is not cut to 8 bits; none where none has it.
            pub const fn from_number(number: u64) -> Option<Self> {
                match number {
                    $($number => Some(Self::$value),)+
                    _ => None,
                }
            }

            /// Its name.
            pub const fn name(self) -> &'static str {
                match self {
                    $(Self::$value => $text,)+
                }
            }
        }

        impl core::fmt::Display for $name {
            fn fmt(&self, f: &mut core::fmt::Formatter<'_>) -> core::fmt::Result {
                f.pad(self.name())
            }
        }
    };
}
