//! Stands for upstream's connector.rs. A sink that takes everything and keeps nothing: what is sent is recorded one level above.
use futures::Sink;
use std::io;
use std::pin::Pin;
use std::task::{Context, Poll};
use tokio_util::bytes::Bytes;

pub struct WrappedSink;

impl Sink<Bytes> for WrappedSink {
    type Error = io::Error;

    fn poll_ready(self: Pin<&mut Self>, _: &mut Context<'_>) -> Poll<io::Result<()>> {
        Poll::Ready(Ok(()))
    }

    fn start_send(self: Pin<&mut Self>, _: Bytes) -> io::Result<()> {
        Ok(())
    }

    fn poll_flush(self: Pin<&mut Self>, _: &mut Context<'_>) -> Poll<io::Result<()>> {
        Poll::Ready(Ok(()))
    }

    fn poll_close(self: Pin<&mut Self>, _: &mut Context<'_>) -> Poll<io::Result<()>> {
        Poll::Ready(Ok(()))
    }
}
