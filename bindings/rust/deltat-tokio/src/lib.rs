//! Delta-t calls, requests and messages as futures of tokio.
//!
//! [`AsyncCalls`] makes calls and hands out requests, for many tasks at once; [`AsyncUdp`] hands out the events
//! of a node or a service to one task. Both take a driver of the crate [`deltat_udp`], whose documents say
//! what a program still has to do, and watch its descriptor.
//!
//! ```no_run
//! use deltat_tokio::AsyncCalls;
//! use deltat_udp::{Event, Options, PortKind, Service};
//!
//! # async fn serve(options: Options<'_>) -> Result<(), deltat_udp::Error> {
//! let service = Service::open(&options)?;
//! service.open_port(20, PortKind::Service)?;
//! let calls = AsyncCalls::new(service)?;
//! loop {
//!     if let Event::Request { token, octets } = calls.next_event().await? {
//!         let calls = calls.clone();
//!         tokio::spawn(async move { calls.reply(token, &octets).await });
//!     }
//! }
//! # }
//! ```
//!
//! Work that blocks a thread of tokio for more than a few milliseconds holds its drivers up: datagrams get old
//! meanwhile, and are lost. Do it in `tokio::task::spawn_blocking`.
#![warn(missing_docs)]
#![forbid(unsafe_code)]

mod calls;
mod udp;

pub use calls::AsyncCalls;
pub use deltat_udp;
pub use udp::AsyncUdp;

/// What tokio refused, as an error of the driver.
fn refused(why: std::io::Error) -> deltat_udp::Error {
    let code = why.raw_os_error().unwrap_or(0);
    deltat_udp::Error::System { text: format!("tokio doesn't watch the driver: {why}"), code }
}
