//! Memory kept back while something grows that may not fit, for all that is done after it.

use std::collections::TryReserveError;
use std::hint;

/// Many times what a store takes in memory and in its file.
const KEPT_BACK: usize = 1 << 20;

/// Lets something grow as far as memory goes, but for what is kept back.
pub fn grow<T, E: From<TryReserveError>>(grow: impl FnOnce() -> Result<T, E>) -> Result<T, E> {
    let mut kept_back: Vec<u8> = Vec::new();
    kept_back.try_reserve_exact(KEPT_BACK)?;
    // Memory that is not looked at might not be asked for.
    hint::black_box(&mut kept_back);
    grow()
}
