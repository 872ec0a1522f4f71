//! Stand-in for the crate `half`: its two floats as bare bits.
#![allow(non_camel_case_types)]

macro_rules! bare_bits {
    ($($Float:ident)*) => { $(
        /// A 16-bit float that holds its bits and knows nothing about them.
        #[derive(Clone, Copy)]
        pub struct $Float(u16);

        impl $Float {
            pub const fn from_bits(bits: u16) -> Self {
                Self(bits)
            }

            pub const fn to_bits(self) -> u16 {
                self.0
            }
        }
    )* };
}
bare_bits! { f16 bf16 }
