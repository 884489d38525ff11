//! The events of a driver, for one task.
use std::ops::Deref;
use std::time::Duration;

use deltat_udp::{Error, Event, Handle, Kind, Udp};
use tokio::io::unix::AsyncFd;
use tokio::io::Interest;

use crate::refused;

/// Events that are handed out before other tasks have their turn.
const MOST_EVENTS: u32 = 64;

/// A node or a service whose events one task takes. It derefs to [`Handle`], for all other calls. Nothing is
/// received, acknowledged or resent but while [`next_event`](AsyncUdp::next_event) is awaited: so a program
/// that is slow holds its senders back.
#[derive(Debug)]
pub struct AsyncUdp<K: Kind> {
    udp: AsyncFd<Udp<K>>,
    /// Events that were handed out since another task had its turn.
    taken: u32,
}

impl<K: Kind> AsyncUdp<K> {
    /// Has the present runtime, which needs its I/O driver, watch the driver.
    ///
    /// # Errors
    ///
    /// `System`: the runtime doesn't watch it.
    ///
    /// # Panics
    ///
    /// Outside of a runtime of tokio.
    pub fn new(udp: Udp<K>) -> Result<AsyncUdp<K>, Error> {
        let udp = AsyncFd::with_interest(udp, Interest::READABLE).map_err(refused)?;
        Ok(AsyncUdp { udp, taken: 0 })
    }

    /// What happened next. If the future is dropped, no event is lost.
    ///
    /// # Errors
    ///
    /// As of [`Udp::next_event`].
    pub async fn next_event(&mut self) -> Result<Event<Vec<u8>>, Error> {
        if self.taken >= MOST_EVENTS {
            self.taken = 0;
            tokio::task::yield_now().await;
        }
        loop {
            if let Some(event) = self.udp.get_mut().next_event_within(Duration::ZERO)? {
                self.taken += 1;
                return Ok(event.into_owned());
            }
            self.taken = 0;
            // (what arrives from here on makes it ready again, and what arrived before is looked for)
            self.udp.readable_mut().await.map_err(refused)?.clear_ready();
        }
    }

    /// The driver, which tokio no longer watches.
    #[must_use]
    pub fn into_inner(self) -> Udp<K> {
        self.udp.into_inner()
    }
}

impl<K: Kind> Deref for AsyncUdp<K> {
    type Target = Handle<K>;

    fn deref(&self) -> &Handle<K> {
        self.udp.get_ref()
    }
}
