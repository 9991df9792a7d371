//! The engine compared with the plain fixed-point program: random cases, and a follower that makes each call on both.

pub mod cases;
pub mod follower;
pub mod program;
pub mod random;
pub mod subject;

pub use cases::Case;
pub use follower::{Edit, Follower};
pub use random::Random;
pub use subject::{Engine, Subject, Twin};
