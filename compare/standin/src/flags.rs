//! Sets of flags and small enums.

use std::ops::{BitOr, BitOrAssign};

macro_rules! flags {
    ($name:ident: $($flag:ident = $bits:expr,)*) => {
        #[derive(Clone, Copy, Debug, PartialEq, Eq)]
        pub struct $name(u32);

        impl $name {
            $(pub const $flag: $name = $name($bits);)*

            pub const fn from_bits(bits: u32) -> Self {
                Self(bits)
            }

            pub const fn contains(self, other: Self) -> bool {
                self.0 & other.0 == other.0
            }

            pub const fn intersects(self, other: Self) -> bool {
                self.0 & other.0 != 0
            }
        }

        impl BitOr for $name {
            type Output = Self;

            fn bitor(self, other: Self) -> Self {
                Self(self.0 | other.0)
            }
        }

        impl BitOrAssign for $name {
            fn bitor_assign(&mut self, other: Self) {
                self.0 |= other.0;
            }
        }
    };
}

// Numbered as document 01's scope flags.
flags!(ScopeFlags: StrictMode = 1, Top = 2, Function = 4, Arrow = 8, ClassStaticBlock = 16,);

impl ScopeFlags {
    pub fn is_strict_mode(self) -> bool {
        self.contains(Self::StrictMode)
    }

    pub fn is_top(self) -> bool {
        self.contains(Self::Top)
    }

    pub fn is_function(self) -> bool {
        self.contains(Self::Function)
    }

    pub fn is_arrow(self) -> bool {
        self.contains(Self::Arrow)
    }

    pub fn is_class_static_block(self) -> bool {
        self.contains(Self::ClassStaticBlock)
    }
}

flags!(ElementKind: Accessor = 1, Property = 2, Method = 4, Getter = 8, Setter = 16,);

impl ElementKind {
    pub fn is_setter_or_getter(self) -> bool {
        self.intersects(Self::Getter | Self::Setter)
    }
}

flags!(ReferenceFlags: Read = 1, Write = 2,);

impl ReferenceFlags {
    pub fn is_write(self) -> bool {
        self.contains(Self::Write)
    }
}

// Read by left-out checks alone.
flags!(SymbolFlags: Import = 1, Variable = 2, Class = 4, Function = 8, BlockScopedVariable = 16,
    FunctionScopedVariable = 32, AsyncOrGeneratorFunction = 64,);

impl SymbolFlags {
    pub fn is_function(self) -> bool {
        self.contains(Self::Function)
    }
}

#[derive(Clone, Copy, Debug, PartialEq, Eq)]
pub enum NumberBase {
    Decimal,
    Float,
    Binary,
    Octal,
    Hex,
}

#[derive(Clone, Copy, Debug, PartialEq, Eq)]
pub enum UnaryOperator {
    Delete,
    Other,
}
