//! Stands in for the missing file: the host's value, and names that are only
//! handed on.

/// Never made; hint/mod.rs hands the name on.
pub struct ClearType;

/// Never made; hint/mod.rs hands the name on.
pub struct RasterPolicy;

/// What the engine asks of the ClearType settings.
pub struct ClearTypeState {
    /// Read by `reset`, which the oracle never calls.
    pub is_hint_reliant: bool,
    native_x: bool,
}

impl ClearTypeState {
    pub fn given_by_host(native_x: bool) -> Self {
        Self {
            is_hint_reliant: false,
            native_x,
        }
    }

    pub fn is_native_enhanced(&self) -> bool {
        self.native_x
    }

    /// Read by GETINFO, which is no line of ours.
    pub fn symmetric_smoothing(&self) -> bool {
        true
    }
}
