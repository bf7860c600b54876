//! What the benchmarks share: the calls in plain Rust, seeded cases, and times.

pub mod calls;
pub mod drawn;
pub mod load;
pub mod pairs;
pub mod plain;
pub mod runs;
pub mod session;
mod timing;

#[path = "../../sukhlent/tests/common/codes.rs"]
pub mod codes;
#[path = "../../sukhlent/tests/common/local.rs"]
pub mod local;
#[path = "../../sukhlent/tests/common/operation.rs"]
pub mod operation;
#[path = "../../sukhlent/tests/common/seeded/mod.rs"]
pub mod seeded;
