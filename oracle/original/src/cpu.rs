//! Stands in for the original's processor detection. No flag is set, so the plain code runs everywhere.

/// Flags of Arm processors.
pub mod arm {
    pub const CPU_FLAG_NEON: u32 = 1;
}

/// The processor's flags: none.
pub fn get_cpu_flags() -> u32 {
    0
}
