//! Rattle's std, as far as the code uses it.

pub mod num {
    pub fn wrapping_add_u64(a: u64, b: u64) -> u64 {
        a.wrapping_add(b)
    }

    pub fn wrapping_sub_u64(a: u64, b: u64) -> u64 {
        a.wrapping_sub(b)
    }

    pub fn truncating_f64_to_u64(x: f64) -> u64 {
        x as u64
    }

    pub fn nearest_u64_to_f64(n: u64) -> f64 {
        n as f64
    }
}
