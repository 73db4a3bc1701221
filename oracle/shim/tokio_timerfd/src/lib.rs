//! Debian has no tokio_timerfd. `Consensus::run` alone uses it, and the oracle never runs that.
use std::future::Future;
use std::io;
use std::pin::Pin;
use std::task::{Context, Poll};
use std::time::Instant;

pub struct Delay;

impl Delay {
    pub fn new(_: Instant) -> io::Result<Delay> {
        Ok(Delay)
    }
}

impl Future for Delay {
    type Output = io::Result<()>;

    fn poll(self: Pin<&mut Self>, _: &mut Context<'_>) -> Poll<Self::Output> {
        Poll::Pending
    }
}
