//! Counters, which begin at 0 when the driver is opened.
use deltat_udp_sys as sys;

macro_rules! counts {
    ($($(#[$doc:meta])* $name:ident,)*) => {
        /// Counts of a driver since its opening.
        #[non_exhaustive]
        #[derive(Clone, Copy, Debug, PartialEq, Eq, Hash)]
        pub struct Counts {
            $($(#[$doc])* pub $name: u64,)*
        }

        impl Counts {
            pub(crate) fn of_c(it: &sys::dt_udp_counts) -> Counts {
                Counts { $($name: it.$name,)* }
            }
        }
    };
}

counts! {
    /// System calls that read.
    reads,
    /// System calls that wrote.
    writes,
    /// Datagrams that were read.
    datagrams_in,
    /// Datagrams that the system took.
    datagrams_out,
    /// In: from an address that isn't a peer's, or no datagram of this network.
    unknown,
    /// Out: late, without an address, or refused by the system.
    not_sent,
    /// Out: longer than the path allows.
    too_big,
    /// Strangers that were asked to prove that they hear.
    challenges_out,
    /// And that weren't: too many came.
    challenges_withheld,
    /// Peers that were learnt by such a proof.
    peers_learnt,
    /// Peers that moved from one address to another.
    peers_moved,
    /// Learnt peers that were silent, and were forgotten for others.
    peers_forgotten,
    /// The wall clock was set: until then the kernel's stamps don't count.
    clock_steps,
    /// Of a node: messages that were lost since there was no memory.
    messages_lost,
    /// Of a node: messages above [`Options::max_message`](crate::Options::max_message).
    messages_too_long,
    /// Of the watch, dropped: the sender has no watch, or a later version of it.
    without_trailer,
    /// Dropped: the sender has a watch, and this driver has none.
    with_trailer,
    /// Of the watch, dropped: the age left no lifetime.
    too_old,
    /// Of the watch: datagrams that were kept until the sender had said how old they are.
    ages_unknown,
    /// Of the watch, dropped: the sender has other parameters.
    other_parameters,
    /// Of the watch, dropped: a clock was wrong ([`Alarm::Clock`](crate::Alarm::Clock)).
    clock_alarms,
    /// Of the watch, dropped: of an opening before the peer's present one.
    former_openings,
    /// Of the watch, dropped: too soon after the last datagram of the opening before.
    early_openings,
    /// Of the watch: openings of peers that were found to be the present ones.
    openings_proved,
    /// Of the watch: questions of peers how old a datagram is.
    pings_in,
    /// Of the watch: such questions of this driver.
    pings_out,
}
