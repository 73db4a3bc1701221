//! Debian's tokio-util (0.7.3) does not hand on `bytes` yet; upstream uses nothing else of it.
pub use bytes;
