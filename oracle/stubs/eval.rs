//! Stands for upstream's eval.rs, which writes the results of experiments.
pub fn log<T>(_: &str, _: &str, _: &T) {}
