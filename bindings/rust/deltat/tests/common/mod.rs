//! What the tests share: nodes 1 and 2, a link between them, and flows.
#![allow(dead_code)] // each test uses some of it

use deltat::{Flow, Link, Node, NodeOptions, Params, Route, Service, ServiceOptions, Start};

pub const PARAMS: Params = Params {
    mpl: 1000,
    r: 3000,
    a: 200,
    rto: 100,
    probe: 800,
    seg: 500,
    cap: 4096,
    rcap: 4096,
    window: 4096,
    run_limit: 1 << 31,
    start: 0,
};
pub const LINK: Link = Link { number: 1, charge: 90, pace: 0 };
pub const FLOW: Flow = Flow { source: 1, target: 2, source_port: 10, target_port: 20 };
pub const LIMITS: ServiceOptions =
    ServiceOptions { life: 5, max_calls: 2, max_requests: 8, max_requests_per_flow: 8 };

/// Node 1 or 2 with a route to the other one.
pub fn node(number: u32, start: Start, now: u64) -> Node {
    let routes = [Route { to: 3 - number, link: LINK.number }];
    Node::open(&PARAMS, &NodeOptions { node: number, now, links: &[LINK], routes: &routes, start })
        .unwrap()
}

/// Such a service, with caller's port 10 and service port 20.
pub fn service(number: u32, limits: &ServiceOptions) -> Service {
    let routes = [Route { to: 3 - number, link: LINK.number }];
    let options =
        NodeOptions { node: number, now: 0, links: &[LINK], routes: &routes, start: Start::First };
    let mut it = Service::open(&PARAMS, &options, limits).unwrap();
    it.set_port(10, deltat::PortKind::Caller).unwrap();
    it.set_port(20, deltat::PortKind::Service).unwrap();
    it
}
