//! The Rust itself, compiled from its own files, and what it names that the
//! vendored crates lack.

// The Rust says read_fonts and raw; both are this front over the real crate.
extern crate self as raw;
extern crate self as read_fonts;

pub mod types {
    pub use real_read_fonts::types::*;
}

pub mod tables {
    pub mod cvar {
        pub use real_read_fonts::tables::cvar::*;
    }

    pub mod glyf {
        pub use real_read_fonts::tables::glyf::{PointFlags, PointMarker};

        pub mod bytecode {
            pub use crate::missing::{HintError, HintErrorKind, Program};
            pub use real_read_fonts::tables::glyf::bytecode::*;
        }
    }
}

pub mod model {
    pub mod glyph {
        pub mod outline {
            pub use crate::missing::DropoutControl;
        }
    }
}

mod missing;

pub mod outline {
    pub use crate::missing::Target;

    pub mod glyf {
        use crate::types::F26Dot6;

        include!(concat!(env!("OUT_DIR"), "/tree.rs"));
    }
}

pub use outline::glyf::hint::HintInstance as door;
