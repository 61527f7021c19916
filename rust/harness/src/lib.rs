//! What holds the station's static library to the second implementation.
//!
//! * [`sides`]: the five operations by each.
//! * [`calls`]: a call with all that is lent to it.
//! * [`perform`]: a call by one side, and everything that it may have touched.
//! * [`compare`]: what two outcomes differ in.

pub mod calls;
pub mod compare;
pub mod perform;
pub mod sides;
