//! A stand-in for the crate `half`, so that encoding.rs compiles as it stands. The comparison never converts to F16 or
//! BF16: each function here panics, so a result of this crate cannot be taken for one of `half`.

macro_rules! stand_in {
    ($($name:ident),*) => {$(
        #[allow(non_camel_case_types)]
        pub struct $name;

        impl $name {
            pub fn from_f64(_value: f64) -> Self {
                panic!("this crate stands in for `half` and converts nothing")
            }

            pub fn to_bits(self) -> u16 {
                panic!("this crate stands in for `half` and converts nothing")
            }
        }
    )*};
}

stand_in!(f16, bf16);
