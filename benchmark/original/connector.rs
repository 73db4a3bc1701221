//! Stands for upstream's connector.rs: a sink that knows its process and hands over what it gets.
use futures::Sink;
use std::io;
use std::pin::Pin;
use std::task::{Context, Poll};
use tokio_util::bytes::Bytes;

pub struct WrappedSink(pub usize);

impl Sink<Bytes> for WrappedSink {
    type Error = io::Error;

    fn poll_ready(self: Pin<&mut Self>, _: &mut Context<'_>) -> Poll<io::Result<()>> {
        Poll::Ready(Ok(()))
    }

    fn start_send(self: Pin<&mut Self>, bytes: Bytes) -> io::Result<()> {
        crate::host::sent_frame(bytes, self.0);
        Ok(())
    }

    fn poll_flush(self: Pin<&mut Self>, _: &mut Context<'_>) -> Poll<io::Result<()>> {
        Poll::Ready(Ok(()))
    }

    fn poll_close(self: Pin<&mut Self>, _: &mut Context<'_>) -> Poll<io::Result<()>> {
        Poll::Ready(Ok(()))
    }
}
