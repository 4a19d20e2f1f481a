//! The program `lister`, and its stored inputs and outputs. `program` runs other
//! proved programs too.

pub mod program;
pub mod stored;

use program::Program;

pub const LISTER: Program = Program("lister");
