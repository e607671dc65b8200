//! Exchanges that are known by name: `texts` has texts with their refusals, `results` has what exchanges
//! leave, and `lengths` how long the buffers for them have to be.

pub mod lengths;
pub mod results;
pub mod texts;
