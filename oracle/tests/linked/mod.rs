//! The driver's modules that call the port's compiled functions, for the tests with the port linked. They name each other
//! by the crate's root, so a test that takes this module takes their names there too.

#[path = "../../src/calls.rs"]
pub mod calls;
#[path = "../../src/outcome.rs"]
pub mod outcome;
#[rustfmt::skip]
#[path = "../../src/port.rs"]
pub mod port;
