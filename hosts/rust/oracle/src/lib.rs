//! encoding.rs, enums.rs, decoder.rs and types.rs of cutile-ir 0.4.0, compiled as they stand: the judge of the
//! comparison. What they need of files that are not at hand is stood in for below; none of it takes part in a result.

include!(concat!(env!("OUT_DIR"), "/tree.rs"));

/// Stands in for error.rs: the one case that decoder.rs makes.
#[derive(Debug)]
pub enum Error {
    BytecodeWrite(String),
}

pub type Result<T> = std::result::Result<T, Error>;

/// Stands in for requirements.rs, which `ScalarType::minimum_version` asks. The comparison does not.
mod requirements {
    pub struct Requirement {
        pub since: crate::bytecode::BytecodeVersion,
    }

    pub const fn scalar_requirement(_scalar: crate::ir::ScalarType) -> Requirement {
        panic!("requirements.rs is not part of the comparison")
    }
}
