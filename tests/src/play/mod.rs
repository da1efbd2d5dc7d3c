//! One call of the boundary, played on both implementations, compared, and
//! made smaller when they differ.

mod call;
mod lent;
mod one_by_one;
mod show;
mod shrink;
mod verdict;

pub use call::Call;
pub use lent::Lent;
pub use one_by_one::OneByOne;
pub use shrink::shrink;
pub use verdict::{difference, report, verdict, Outcome, Verdict};
