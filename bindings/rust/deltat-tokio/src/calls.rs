//! Calls and requests, for many tasks.
use std::collections::{HashMap, VecDeque};
use std::os::unix::io::{AsRawFd, RawFd};
use std::sync::{Arc, Mutex, MutexGuard, PoisonError};
use std::time::{Duration, Instant};
use std::{fmt, mem};

use deltat_udp::{Calls, Error, Event, Flow, Handle, Service, Token};
use tokio::io::unix::AsyncFd;
use tokio::io::Interest;
use tokio::sync::{oneshot, Notify, OwnedMutexGuard};
use tokio::task::JoinHandle;

use crate::refused;

/// Events other than requests that wait: of more the oldest is dropped.
const MOST_NOTICES: usize = 1000;
/// Events that are taken before other tasks have their turn.
const MOST_EVENTS: usize = 1024;
/// What is left to a call that waited until its time was nearly over: 0 isn't a timeout.
const LEAST_TIMEOUT: Duration = Duration::from_millis(1);
/// How often a drain looks whether all is settled.
const DRAINING: Duration = Duration::from_millis(5);

/// Calls and requests over a service: many tasks may call and reply at once. Clones share the service, which a
/// task of the runtime looks after until the last of them is dropped.
#[derive(Clone)]
pub struct AsyncCalls {
    shared: Arc<Shared>,
    task: Arc<Task>,
}

/// Ends the task with the last clone.
struct Task(JoinHandle<()>);

struct Shared {
    state: Mutex<State>,
    /// Something was sent, which leaves with all that other tasks send before the task comes round.
    sent: Notify,
    /// The task took a turn: there may be events, room, or a failure.
    turned: Notify,
}

struct State {
    service: Service,
    ends: HashMap<u64, oneshot::Sender<Result<Vec<u8>, Error>>>,
    /// Requests, of which the service has [`Options::max_requests`](deltat_udp::Options::max_requests) at most.
    requests: VecDeque<Event<Vec<u8>>>,
    notices: VecDeque<Event<Vec<u8>>>,
    /// Of each flow on which somebody calls or replies now: whoever is first tries, and the others wait.
    lines: HashMap<Flow, Line>,
    failure: Option<Error>,
}

type End = oneshot::Receiver<Result<Vec<u8>, Error>>;
type Line = Arc<tokio::sync::Mutex<()>>;

/// The descriptor of a service, which the state has.
struct Descriptor(RawFd);

impl AsRawFd for Descriptor {
    fn as_raw_fd(&self) -> RawFd {
        self.0
    }
}

impl AsyncCalls {
    /// Has a task of the present runtime, which needs its drivers of I/O and time, look after a service.
    ///
    /// # Errors
    ///
    /// `System`: the runtime doesn't watch it.
    ///
    /// # Panics
    ///
    /// Outside of a runtime of tokio.
    pub fn new(service: Service) -> Result<AsyncCalls, Error> {
        let descriptor = Descriptor(service.as_raw_fd());
        let watched = AsyncFd::with_interest(descriptor, Interest::READABLE).map_err(refused)?;
        let state = State {
            service,
            ends: HashMap::new(),
            requests: VecDeque::new(),
            notices: VecDeque::new(),
            lines: HashMap::new(),
            failure: None,
        };
        let (sent, turned) = (Notify::new(), Notify::new());
        let shared = Arc::new(Shared { state: Mutex::new(state), sent, turned });
        let task = Task(tokio::spawn(look_after(shared.clone(), watched)));
        Ok(AsyncCalls { shared, task: Arc::new(task) })
    }

    /// Makes a call from a caller's port, as soon as there is room for it, and returns its answer. Calls of one
    /// flow are made in the order in which they were awaited; the time passes while they wait. If the future
    /// is dropped, a call that was made continues, and its end is dropped.
    ///
    /// # Errors
    ///
    /// `Unsure`: the call was served once, not at all, or will be. Others: it wasn't made, as of
    /// [`Handle::call`], `Full` and `TooManyCalls` only when the time is over; or the driver failed, and it
    /// is unsure.
    pub async fn call(
        &self,
        flow: Flow,
        payload: &[u8],
        timeout: Duration,
    ) -> Result<Vec<u8>, Error> {
        let begun = Instant::now();
        let in_line = self.shared.in_line(flow);
        let first = tokio::time::timeout(timeout, in_line.first()).await;
        let first = first.map_err(|_| Error::Full { free: 0 })?;
        let end = loop {
            let turned = self.shared.turned.notified();
            let left = timeout.saturating_sub(begun.elapsed());
            let why = match self.shared.call(flow, payload, left.max(LEAST_TIMEOUT.min(timeout))) {
                Ok(end) => break end,
                Err(why @ (Error::Full { .. } | Error::TooManyCalls)) => why,
                Err(why) => return Err(why),
            };
            if tokio::time::timeout(left, turned).await.is_err() {
                return Err(why);
            }
        };
        drop((first, in_line));
        end.await.unwrap_or(Err(Error::Stopped))
    }

    /// The next request, or what else happened to the service: replies that are uncertain, alarms, datagrams
    /// that were too big. Each goes to one of the tasks that wait. A program that serves calls it again and
    /// again; a client needn't.
    ///
    /// # Errors
    ///
    /// As of [`Udp::next_event`](deltat_udp::Udp::next_event).
    pub async fn next_event(&self) -> Result<Event<Vec<u8>>, Error> {
        loop {
            let turned = self.shared.turned.notified();
            {
                let mut state = self.shared.state();
                if let Some(event) =
                    state.notices.pop_front().or_else(|| state.requests.pop_front())
                {
                    return Ok(event);
                }
                state.is_usable()?;
            }
            turned.await;
        }
    }

    /// Replies to a request, as soon as there is room.
    ///
    /// # Errors
    ///
    /// As of [`Handle::reply`], without `Full`.
    pub async fn reply(&self, token: Token, payload: &[u8]) -> Result<(), Error> {
        let in_line = self.shared.in_line(token.flow.reversed());
        let _first = in_line.first().await;
        loop {
            let turned = self.shared.turned.notified();
            let replied = self.shared.usable()?.service.reply(token, payload);
            self.shared.sent.notify_one();
            match replied {
                Err(Error::Full { .. }) => turned.await,
                other => return other,
            }
        }
    }

    /// Ends a request without a reply.
    ///
    /// # Errors
    ///
    /// As of [`Handle::forget`].
    pub fn forget(&self, token: Token) -> Result<(), Error> {
        self.shared.usable()?.service.forget(token)
    }

    /// Waits until all that was sent is acknowledged or uncertain, and what arrived is acknowledged, for at most
    /// `wait`. Whether nothing is outstanding. Await it before the last clone is dropped if what was sent
    /// should still arrive.
    ///
    /// # Errors
    ///
    /// As of [`Handle::drain`].
    pub async fn drain(&self, wait: Duration) -> Result<bool, Error> {
        let begun = Instant::now();
        loop {
            if self.shared.usable()?.service.drain(Some(Duration::ZERO))? {
                return Ok(true);
            }
            if begun.elapsed() >= wait {
                return Ok(false);
            }
            tokio::time::sleep(DRAINING).await;
        }
    }

    /// Passes the service to a function, for the calls that aren't here: its counters, its port, its peers. The
    /// function must not block.
    pub fn with<T>(&self, function: impl FnOnce(&Handle<Calls>) -> T) -> T {
        function(&self.shared.state().service)
    }
}

/// A place in the line of a flow, which is gone with the last of those who wait in it.
struct InLine<'a> {
    shared: &'a Shared,
    flow: Flow,
    line: Line,
}

impl InLine<'_> {
    /// Waits until this is the first one.
    async fn first(&self) -> OwnedMutexGuard<()> {
        self.line.clone().lock_owned().await
    }
}

impl Drop for InLine<'_> {
    fn drop(&mut self) {
        let mut state = self.shared.state();
        // (those of the map and of this; more would be clones of others, which are made with the state locked)
        if Arc::strong_count(&self.line) <= 2 {
            state.lines.remove(&self.flow);
        }
    }
}

/// Takes what happens, and sends what tasks sent, until the service fails.
async fn look_after(shared: Arc<Shared>, watched: AsyncFd<Descriptor>) {
    loop {
        match shared.turn() {
            Ok(true) => (),
            Ok(false) => {
                tokio::task::yield_now().await;
                continue;
            }
            Err(why) => return shared.fail(why),
        }
        tokio::select! {
            // (what arrives from here on makes it ready again)
            ready = watched.readable() => match ready {
                Ok(mut guard) => guard.clear_ready(),
                Err(why) => return shared.fail(refused(why)),
            },
            () = shared.sent.notified() => (),
        }
    }
}

impl Shared {
    fn state(&self) -> MutexGuard<'_, State> {
        // (nothing of the state is broken by a function of `with` that panics)
        self.state.lock().unwrap_or_else(PoisonError::into_inner)
    }

    /// The state, unless the service failed.
    fn usable(&self) -> Result<MutexGuard<'_, State>, Error> {
        let state = self.state();
        state.is_usable()?;
        Ok(state)
    }

    fn in_line(&self, flow: Flow) -> InLine<'_> {
        let line = self.state().lines.entry(flow).or_default().clone();
        InLine { shared: self, flow, line }
    }

    /// Makes a call now. Its end comes by what is returned.
    fn call(&self, flow: Flow, payload: &[u8], timeout: Duration) -> Result<End, Error> {
        let mut state = self.usable()?;
        let made = state.service.call(flow, payload, timeout);
        // (what was made before leaves too, so that there is room again)
        self.sent.notify_one();
        let (ended, end) = oneshot::channel();
        state.ends.insert(made?, ended);
        Ok(end)
    }

    /// Takes events; what was sent leaves. Whether there are no more: else the descriptor says nothing.
    fn turn(&self) -> Result<bool, Error> {
        let is_done = self.state().take_some()?;
        self.turned.notify_waiters();
        Ok(is_done)
    }

    /// Ends all that waits with an error.
    fn fail(&self, why: Error) {
        let mut state = self.state();
        for (_, ended) in mem::take(&mut state.ends) {
            // (where nobody waits any more it is dropped)
            let _ = ended.send(Err(why.clone()));
        }
        state.failure = Some(why);
        drop(state);
        self.turned.notify_waiters();
    }
}

impl State {
    fn is_usable(&self) -> Result<(), Error> {
        self.failure.clone().map_or(Ok(()), Err)
    }

    /// Takes events, and gives ends of calls to whoever waits for them. Whether there are no more.
    fn take_some(&mut self) -> Result<bool, Error> {
        let State { service, ends, requests, notices, .. } = self;
        for _ in 0..MOST_EVENTS {
            let event = match service.next_event_within(Duration::ZERO)? {
                Some(event) => event,
                None => return Ok(true),
            };
            let (call, end) = match event {
                Event::Answered { call, octets, .. } => (call, Ok(octets.to_vec())),
                Event::Unsure { call, cause, .. } => (call, Err(Error::Unsure { cause })),
                Event::Request { .. } => {
                    requests.push_back(event.into_owned());
                    continue;
                }
                // (whoever waits for room tries again after each turn)
                Event::Room => continue,
                other => {
                    notices.push_back(other.into_owned());
                    notices.drain(..notices.len().saturating_sub(MOST_NOTICES));
                    continue;
                }
            };
            if let Some(ended) = ends.remove(&call) {
                let _ = ended.send(end);
            }
        }
        Ok(false)
    }
}

impl Drop for Task {
    fn drop(&mut self) {
        self.0.abort();
    }
}

impl fmt::Debug for AsyncCalls {
    fn fmt(&self, f: &mut fmt::Formatter<'_>) -> fmt::Result {
        let is_over = self.task.0.is_finished();
        f.debug_struct("AsyncCalls").field("is_over", &is_over).finish_non_exhaustive()
    }
}
