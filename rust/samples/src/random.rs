//! The generator behind every sample. It lives with the planner, whose long records need it too.

pub use planner::random::Random;
