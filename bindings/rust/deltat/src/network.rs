//! Parameters computed for a network.
use deltat_sys as sys;

use crate::{Error, InvalidReason, Params};

/// What is known of a network, and wanted of it, for [`Params::for_network`]. Begin with
/// [`Network::new`], as in `Network { hops: 2, ..Network::new(250_000, 50_000) }`.
#[derive(Clone, Copy, Debug, PartialEq, Eq, Hash)]
pub struct Network {
    /// Links of the longest path: 1 to 256.
    pub hops: u32,
    /// Longest delay of a link in microseconds, with all queues, under load: at most a day.
    pub delay_us: u64,
    /// A usual round trip from end to end in microseconds: at most a day.
    pub round_trip_us: u64,
    /// By how much a clock may run wrong, in parts per million: at most 100,000.
    pub drift_ppm: u32,
    /// Transmissions of a segment before it is given up: 1 to 1,000.
    pub tries: u32,
    /// Least MTU of the links in octets: 59 to 65,535.
    pub mtu: u32,
    /// Octets of a flow under way, or unread: 1 to 65,536.
    pub room: u32,
    /// Longest wait of a packet at a node before it leaves, in ms: at most a day.
    pub wait_ms: u32,
    /// Resends of a lost packet while others wait on the shelf of a `deltat node`: at most 1,000.
    pub shelf: u32,
}

impl Network {
    /// A network of one hop with usual values: clocks within 100 ppm, 5 transmissions, an MTU of 1,500,
    /// the largest room, no relays and no shelf.
    #[must_use]
    pub fn new(delay_us: u64, round_trip_us: u64) -> Network {
        Network {
            hops: 1,
            delay_us,
            round_trip_us,
            drift_ppm: 100,
            tries: 5,
            mtu: 1500,
            room: 65_536,
            wait_ms: 2,
            shelf: 0,
        }
    }
}

impl Params {
    /// The parameters for a network, and the charge of each of its links in ms, as `tools/params.py`
    /// computes them; docs/parameters.md says what the numbers cost. The charge has room for a wait of
    /// 20 ms in the receiver's socket: a node that passes each wait to
    /// [`Endpoint::receive`](crate::Endpoint::receive) may have a charge of 20 less.
    ///
    /// # Errors
    ///
    /// `Invalid`: a field is out of its range, or (`Network`) no parameters suit.
    pub fn for_network(network: &Network) -> Result<(Params, u32), Error> {
        let Network { hops, delay_us, round_trip_us, drift_ppm, tries, mtu, room, wait_ms, shelf } =
            *network;
        let known = sys::dt_network {
            hops,
            delay_us,
            round_trip_us,
            drift_ppm,
            tries,
            mtu,
            room,
            wait_ms,
            shelf,
            ..sys::dt_network::new()
        };
        let (mut params, mut charge) = (sys::dt_params::new(), 0);
        // SAFETY: structs of the header, which are borrowed for the call only.
        match unsafe { sys::dt_params_for(&known, &mut params, &mut charge) } {
            sys::DT_NONE => Err(Error::Invalid { reason: InvalidReason::Network }),
            status => Error::check(status).map(|()| (Params::of_c(params), charge)),
        }
    }
}
