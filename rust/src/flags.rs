//! Sets of bits with names, with the calls and operators that users of `bitflags` types know.

/// Flags one by one: those with a name from the lowest bit on, then those without one together.
#[derive(Clone, Debug)]
pub struct Iter<F> {
    pub(crate) left: u8,
    pub(crate) named: u8,
    pub(crate) of: fn(u8) -> F,
}

impl<F> Iterator for Iter<F> {
    type Item = F;

    fn next(&mut self) -> Option<F> {
        let named = self.left & self.named;
        let next = if named == 0 { self.left } else { named & named.wrapping_neg() };
        self.left &= !next;
        (next != 0).then(|| (self.of)(next))
    }
}

/// Makes a type of flags, each a bit of a `u8`.
macro_rules! flags {
    (
        $(#[$outer:meta])*
        pub struct $Name:ident {
            $( $(#[$inner:meta])* const $FLAG:ident = $value:literal; )*
        }
    ) => {
        $(#[$outer])*
        #[derive(Clone, Copy, PartialEq, Eq, Hash, PartialOrd, Ord)]
        pub struct $Name(u8);

        impl $Name {
            $( $(#[$inner])* pub const $FLAG: Self = Self($value); )*

            const NAMED: &'static [(&'static str, Self)] = &[$( (stringify!($FLAG), Self::$FLAG) ),*];

            /// The empty set.
            pub const fn empty() -> Self {
                Self(0)
            }

            /// All named flags.
            pub const fn all() -> Self {
                Self(0 $( | $value )*)
            }

            /// The bits of these flags.
            pub const fn bits(&self) -> u8 {
                self.0
            }

            /// The flags of these bits; `None` where a bit has no name.
            pub const fn from_bits(bits: u8) -> Option<Self> {
                if bits & !Self::all().0 == 0 {
                    Some(Self(bits))
                } else {
                    None
                }
            }

            /// The flags of these bits, without unnamed bits.
            pub const fn from_bits_truncate(bits: u8) -> Self {
                Self(bits & Self::all().0)
            }

            /// The flags of these bits, with unnamed bits.
            pub const fn from_bits_retain(bits: u8) -> Self {
                Self(bits)
            }

            /// The flag of this name, written like its constant.
            pub fn from_name(name: &str) -> Option<Self> {
                Self::NAMED.iter().find(|named| named.0 == name).map(|named| named.1)
            }

            /// Whether no flag is set.
            pub const fn is_empty(&self) -> bool {
                self.0 == 0
            }

            /// Whether each named flag is set.
            pub const fn is_all(&self) -> bool {
                self.contains(Self::all())
            }

            /// Whether a flag is set in both.
            pub const fn intersects(&self, other: Self) -> bool {
                self.0 & other.0 != 0
            }

            /// Whether each of the other flags is set.
            pub const fn contains(&self, other: Self) -> bool {
                self.0 & other.0 == other.0
            }

            /// Sets the other flags.
            pub fn insert(&mut self, other: Self) {
                self.0 |= other.0;
            }

            /// Clears the other flags.
            pub fn remove(&mut self, other: Self) {
                self.0 &= !other.0;
            }

            /// Flips the other flags: clears those that are set here, and sets the rest of them.
            pub fn toggle(&mut self, other: Self) {
                self.0 ^= other.0;
            }

            /// Sets the other flags if `value`, and clears them otherwise.
            pub fn set(&mut self, other: Self, value: bool) {
                if value {
                    self.insert(other);
                } else {
                    self.remove(other);
                }
            }

            /// The flags that are in both.
            #[must_use]
            pub const fn intersection(self, other: Self) -> Self {
                Self(self.0 & other.0)
            }

            /// The flags that are in either.
            #[must_use]
            pub const fn union(self, other: Self) -> Self {
                Self(self.0 | other.0)
            }

            /// These flags without the other ones.
            #[must_use]
            pub const fn difference(self, other: Self) -> Self {
                Self(self.0 & !other.0)
            }

            /// The flags that are in exactly one of the two.
            #[must_use]
            pub const fn symmetric_difference(self, other: Self) -> Self {
                Self(self.0 ^ other.0)
            }

            /// The named flags that are not set here.
            #[must_use]
            pub const fn complement(self) -> Self {
                Self(!self.0 & Self::all().0)
            }

            /// The flags that are set, one by one, the lowest bit first, and then unnamed bits together.
            pub fn iter(&self) -> $crate::flags::Iter<Self> {
                $crate::flags::Iter { left: self.0, named: Self::all().0, of: Self }
            }

            /// The named flags that are set, each with its name.
            pub fn iter_names(&self) -> impl Iterator<Item = (&'static str, Self)> {
                let flags = *self;
                Self::NAMED.iter().copied().filter(move |named| flags.contains(named.1))
            }
        }

        flags!(@operator $Name, BitOr bitor union, BitOrAssign bitor_assign);
        flags!(@operator $Name, BitAnd bitand intersection, BitAndAssign bitand_assign);
        flags!(@operator $Name, BitXor bitxor symmetric_difference, BitXorAssign bitxor_assign);
        flags!(@operator $Name, Sub sub difference, SubAssign sub_assign);
        flags!(@format $Name, Binary Octal LowerHex UpperHex);

        impl core::ops::Not for $Name {
            type Output = Self;

            fn not(self) -> Self {
                self.complement()
            }
        }

        impl core::fmt::Debug for $Name {
            fn fmt(&self, formatter: &mut core::fmt::Formatter<'_>) -> core::fmt::Result {
                write!(formatter, "{}(", stringify!($Name))?;
                let mut separator = "";
                for (name, _) in self.iter_names() {
                    write!(formatter, "{separator}{name}")?;
                    separator = " | ";
                }
                let unnamed = self.difference(Self::all());
                if self.is_empty() || !unnamed.is_empty() {
                    write!(formatter, "{separator}{:#x}", unnamed.0)?;
                }
                write!(formatter, ")")
            }
        }

        impl Extend<$Name> for $Name {
            fn extend<T: IntoIterator<Item = Self>>(&mut self, flags: T) {
                flags.into_iter().for_each(|flag| self.insert(flag));
            }
        }

        impl IntoIterator for $Name {
            type Item = Self;
            type IntoIter = $crate::flags::Iter<Self>;

            fn into_iter(self) -> Self::IntoIter {
                self.iter()
            }
        }

        impl FromIterator<$Name> for $Name {
            fn from_iter<T: IntoIterator<Item = Self>>(flags: T) -> Self {
                flags.into_iter().fold(Self::empty(), Self::union)
            }
        }
    };

    (@operator $Name:ident, $Binary:ident $binary:ident $call:ident, $Assign:ident $assign:ident) => {
        impl core::ops::$Binary for $Name {
            type Output = Self;

            fn $binary(self, other: Self) -> Self {
                self.$call(other)
            }
        }

        impl core::ops::$Assign for $Name {
            fn $assign(&mut self, other: Self) {
                *self = self.$call(other);
            }
        }
    };

    (@format $Name:ident, $($Format:ident)*) => {
        $(
            impl core::fmt::$Format for $Name {
                fn fmt(&self, formatter: &mut core::fmt::Formatter<'_>) -> core::fmt::Result {
                    core::fmt::$Format::fmt(&self.0, formatter)
                }
            }
        )*
    };
}

pub(crate) use flags;
