/// An enum whose cases the library numbers. Its numbers and names stand here alone: `number`,
/// `from_number` and `name` go by them.
macro_rules! numbered {
    ($(#[$about:meta])* $name:ident {
        $($(#[$case_about:meta])* $case:ident = $number:literal, $text:literal,)+
    }) => {
        $(#[$about])*
        #[derive(Clone, Copy, PartialEq, Eq, Hash, Debug)]
        #[repr(u8)]
        pub enum $name {
            $($(#[$case_about])* $case = $number,)+
        }

        impl $name {
            /// All of them, in the order of their numbers.
            pub const ALL: [$name; [$($number),+].len()] = [$($name::$case),+];

            /// The number that the library has for it.
            pub const fn number(self) -> u8 {
                self as u8
            }

            /// The one of a number, if any.
            pub fn from_number(number: u8) -> Option<$name> {
                $name::ALL.into_iter().find(|one| one.number() == number)
            }

            /// Its name in the standard, or of what document 01 names, there.
            pub const fn name(self) -> &'static str {
                match self {
                    $($name::$case => $text,)+
                }
            }
        }
    };
}

/// What is displayed by its name alone.
macro_rules! displayed_by_name {
    ($($name:ident),+) => {
        $(impl core::fmt::Display for $name {
            fn fmt(&self, f: &mut core::fmt::Formatter<'_>) -> core::fmt::Result {
                f.pad(self.name())
            }
        })+
    };
}

pub(crate) use {displayed_by_name, numbered};
