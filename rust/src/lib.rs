//! A safe wrapper of the TCP/IP stack's static library, with smoltcp's names where it has the same thing.
//!
//! An [`Interface`] holds its sockets, which are named by handles. Frames go in by [`Interface::receive`] and out by
//! [`Interface::transmit`]; [`Interface::poll`] does all that is to be done in between.
//!
//! The wrapper adds nothing to what the library does, but that Rust's types keep the library's demands: a host is freed once, is used from
//! one thread at a time, and lent bytes are read only as long as nothing else is called.
//!
//! A [`phy::Device`] is what a driver implements; [`Interface::poll_device`] polls with one. Sockets take wakers, as smoltcp's.
//!
//! It needs `alloc`, for what the library itself asks `malloc` for, for [`Interface::query_result`] and for wakers, and nothing else of `std`.
#![no_std]
#![deny(missing_docs)]

extern crate alloc;

pub mod dhcp;
pub mod dns;
mod error;
mod ffi;
pub mod icmp;
mod listener;
pub mod phy;
pub mod raw;
pub mod tcp;
pub mod udp;
mod wakers;

pub use error::{Error, Result};
pub use ffi::Counters;
pub use listener::ListenerHandle;

use core::net::{IpAddr, Ipv4Addr, Ipv6Addr, SocketAddr};
use core::ptr::null_mut;
use core::time::Duration;

/// Microseconds after a start that the program chooses.
#[derive(Clone, Copy, Debug, PartialEq, Eq, PartialOrd, Ord)]
pub struct Instant {
    micros: i64,
}

impl Instant {
    /// The start.
    pub const ZERO: Instant = Instant { micros: 0 };

    /// So many microseconds after the start.
    pub fn from_micros(micros: i64) -> Instant {
        Instant { micros }
    }

    /// So many milliseconds after the start.
    pub fn from_millis(millis: i64) -> Instant {
        Instant { micros: millis.saturating_mul(1000) }
    }

    /// How many microseconds after the start.
    pub fn total_micros(self) -> i64 {
        self.micros
    }
}

/// What the device's frames are.
#[derive(Clone, Copy, Debug, PartialEq, Eq)]
pub enum Medium {
    /// Ethernet frames, of the station with this address.
    Ethernet([u8; 6]),
    /// IP packets with nothing before them.
    Ip,
}

/// What an interface is made with.
#[derive(Clone, Copy, Debug)]
pub struct Config {
    /// What the device's frames are.
    pub medium: Medium,
    /// The longest frame, its Ethernet header counted.
    pub max_transmission_unit: usize,
    /// From a true source: whoever knows it knows first sequence numbers, ports and identifications.
    pub random_seed: u64,
    /// The key of TCP's first numbers (RFC 6528), from a true source; without one they are random words.
    pub isn_key: Option<[u8; 16]>,
    /// How many frames may wait each way.
    pub frames: usize,
    /// Whether the host does what RFC 1122 and the standards after it ask of one on a network of many, with a table of 256 neighbours; else it
    /// does as smoltcp, with one of four.
    pub host_requirements: bool,
    /// Whether routers and switches are told which multicast groups the host listens to.
    pub multicast_reports: bool,
}

/// The place of a socket.
#[derive(Clone, Copy, Debug, PartialEq, Eq, Hash)]
pub struct SocketHandle(usize);

/// A host: its addresses, its routes, its sockets, and the frames that wait.
pub struct Interface {
    host: ffi::Host,
    frames: usize,
    wakers: wakers::Wakers,
}

// The host is one box, whose memory no other host shares.
unsafe impl Send for Interface {}

fn done(code: u32) -> Result<()> {
    if code == 0 {
        Ok(())
    } else {
        Err(Error::of(code))
    }
}

fn address(address: IpAddr) -> ffi::Address {
    let mut bytes = [0; 16];
    match address {
        IpAddr::V4(it) => {
            bytes[..4].copy_from_slice(&it.octets());
            ffi::Address { family: 4, bytes }
        }
        IpAddr::V6(it) => ffi::Address { family: 6, bytes: it.octets() },
    }
}

fn optional(it: Option<IpAddr>) -> ffi::Address {
    it.map_or(ffi::Address::default(), address)
}

fn endpoint(it: SocketAddr) -> ffi::Endpoint {
    ffi::Endpoint { address: address(it.ip()), port: it.port() }
}

fn read(it: &ffi::Address) -> Option<IpAddr> {
    match it.family {
        4 => Some(IpAddr::V4(Ipv4Addr::new(it.bytes[0], it.bytes[1], it.bytes[2], it.bytes[3]))),
        6 => Some(IpAddr::V6(Ipv6Addr::from(it.bytes))),
        _ => None,
    }
}

fn read_endpoint(it: &ffi::Endpoint) -> Option<SocketAddr> {
    Some(SocketAddr::new(read(&it.address)?, it.port))
}

fn micros(it: Option<Duration>) -> u64 {
    it.map_or(u64::MAX, |it| u64::try_from(it.as_micros()).unwrap_or(u64::MAX - 1))
}

impl Interface {
    /// A host without addresses, routes and sockets.
    pub fn new(config: &Config, now: Instant) -> Result<Interface> {
        let (medium, hardware) = match config.medium {
            Medium::Ethernet(hardware) => (1, hardware),
            Medium::Ip => (2, [0; 6]),
        };
        let settings = ffi::Settings {
            medium,
            hardware,
            mtu: config.max_transmission_unit,
            seed: config.random_seed,
            frames: config.frames,
            keyed: config.isn_key.is_some().into(),
            isn_key: config.isn_key.unwrap_or_default(),
            without_host_requirements: (!config.host_requirements).into(),
            without_multicast_reports: (!config.multicast_reports).into(),
        };
        let mut host = ffi::Host { inside: null_mut() };
        done(unsafe { ffi::zv_host_new(&mut host, &settings, now.micros) })?;
        Ok(Interface { host, frames: config.frames, wakers: Default::default() })
    }

    /// A host for this device, whose longest frame it takes over. [`Error::Medium`] where its frames are others than the configuration says.
    pub fn on_device<D: phy::Device + ?Sized>(config: &Config, device: &D, now: Instant) -> Result<Interface> {
        let is_ethernet = matches!(config.medium, Medium::Ethernet(_));
        let capabilities = device.capabilities();
        if is_ethernet != (capabilities.medium == phy::Medium::Ethernet) {
            return Err(Error::Medium);
        }
        Interface::new(&Config { max_transmission_unit: capabilities.max_transmission_unit, ..*config }, now)
    }

    /// Adds an own address with its network's prefix.
    pub fn add_ip_addr(&mut self, it: IpAddr, prefix_len: u8) -> Result<()> {
        done(unsafe { ffi::zv_address_add(&mut self.host, &address(it), prefix_len) })
    }

    /// Takes an own address out. All neighbours are forgotten. [`Error::NotFound`].
    pub fn remove_ip_addr(&mut self, it: IpAddr) -> Result<()> {
        done(unsafe { ffi::zv_address_remove(&mut self.host, &address(it)) })
    }

    /// Packets for the network go to the router.
    pub fn add_route(&mut self, network: IpAddr, prefix_len: u8, router: IpAddr) -> Result<()> {
        done(unsafe { ffi::zv_route_add(&mut self.host, &address(network), prefix_len, &address(router)) })
    }

    /// Takes the first route out whose network and prefix were given as these. [`Error::NotFound`].
    pub fn remove_route(&mut self, network: IpAddr, prefix_len: u8) -> Result<()> {
        done(unsafe { ffi::zv_route_remove(&mut self.host, &address(network), prefix_len) })
    }

    /// Listens to this multicast group from now on, eight at most, and tells of it with `multicast_reports`. [`Error::Unaddressable`], [`Error::TableFull`].
    pub fn join_multicast_group(&mut self, group: IpAddr) -> Result<()> {
        done(unsafe { ffi::zv_group_join(&mut self.host, &address(group)) })
    }

    /// Listens to this multicast group no longer. [`Error::Unaddressable`].
    pub fn leave_multicast_group(&mut self, group: IpAddr) -> Result<()> {
        done(unsafe { ffi::zv_group_leave(&mut self.host, &address(group)) })
    }

    /// Sets the station's address.
    pub fn set_hardware_addr(&mut self, bytes: [u8; 6]) -> Result<()> {
        done(unsafe { ffi::zv_host_set_hardware(&mut self.host, &ffi::Hardware { bytes }) })
    }

    /// Sets the station's address, and tells all neighbours of it: a frame for each own address but loopback ones, as long as there is room for
    /// frames. Answers how many.
    pub fn update_hardware_addr(&mut self, bytes: [u8; 6]) -> Result<usize> {
        let mut told = 0;
        done(unsafe { ffi::zv_host_update_hardware(&mut self.host, &ffi::Hardware { bytes }, &mut told) })?;
        Ok(told)
    }

    /// Whether every address counts as an own one.
    pub fn set_any_ip(&mut self, any_ip: bool) -> Result<()> {
        done(unsafe { ffi::zv_host_set_any_ip(&mut self.host, any_ip.into()) })
    }

    /// How long the pieces of a datagram are waited for.
    pub fn set_reassembly_timeout(&mut self, timeout: Duration) -> Result<()> {
        done(unsafe { ffi::zv_host_set_reassembly_timeout(&mut self.host, micros(Some(timeout))) })
    }

    /// How many datagrams can come in pieces at a time. What came in pieces so far is dropped.
    pub fn set_reassembly_slots(&mut self, count: usize) -> Result<()> {
        done(unsafe { ffi::zv_host_set_reassembly_slots(&mut self.host, count) })
    }

    /// A frame comes, and waits for a poll.
    pub fn receive(&mut self, frame: &[u8]) -> Result<()> {
        done(unsafe { ffi::zv_frame_in(&mut self.host, frame.as_ptr(), frame.len()) })
    }

    /// Copies the first frame that is to go, and answers its length. It stays where the buffer is too short.
    pub fn transmit(&mut self, frame: &mut [u8]) -> Result<usize> {
        let mut count = 0;
        done(unsafe { ffi::zv_frame_out(&mut self.host, frame.as_mut_ptr(), frame.len(), &mut count) })?;
        Ok(count)
    }

    /// How many bytes the first frame has that is to go, if there is one.
    pub fn transmit_len(&mut self) -> Option<usize> {
        let mut count = 0;
        done(unsafe { ffi::zv_frame_out_length(&mut self.host, &mut count) }).ok()?;
        Some(count)
    }

    /// Hands the first frame that is to go to `f`, without copying it, and drops it. Answers what `f` answers, if there is a frame.
    pub fn transmit_with<R>(&mut self, f: impl FnOnce(&[u8]) -> R) -> Option<R> {
        let (mut frame, mut count) = (core::ptr::null(), 0);
        done(unsafe { ffi::zv_frame_peek_out(&mut self.host, &mut frame, &mut count) }).ok()?;
        // It stays until it is skipped, and the interface is borrowed for as long as it is.
        let answer = f(if count == 0 { &[] } else { unsafe { core::slice::from_raw_parts(frame, count) } });
        done(unsafe { ffi::zv_frame_skip_out(&mut self.host) }).ok()?;
        Some(answer)
    }

    /// Takes memory at once for as many frames each way as may wait, of so many bytes each: none of that length asks for memory any more.
    pub fn reserve_frames(&mut self, length: usize) -> Result<()> {
        done(unsafe { ffi::zv_frames_reserve(&mut self.host, length) })
    }

    /// Writes what a frame is as a line of text for a log, and answers how many bytes it wrote. Of a line that is longer than `text` the front
    /// is written.
    pub fn trace_line(&mut self, now: Instant, sent: bool, frame: &[u8], text: &mut [u8]) -> Result<usize> {
        let mut count = 0;
        done(unsafe {
            ffi::zv_trace_line(
                &mut self.host, now.micros, sent.into(), frame.as_ptr(), frame.len(), text.as_mut_ptr(), text.len(), &mut count,
            )
        })?;
        Ok(count)
    }

    /// Takes in what came and sends what is to be sent, each at most so many times. Answers whether a socket's state or queue may have
    /// changed.
    pub fn poll(&mut self, now: Instant, budget: u16) -> Result<bool> {
        let mut changed = 0;
        done(unsafe { ffi::zv_poll(&mut self.host, now.micros, budget, &mut changed) })?;
        if changed != 0 {
            self.wakers.wake_all();
        }
        Ok(changed != 0)
    }

    /// When the host wants to be polled, if ever.
    pub fn poll_at(&mut self, now: Instant) -> Result<Option<Instant>> {
        let mut at = 0;
        done(unsafe { ffi::zv_poll_at(&mut self.host, now.micros, &mut at) })?;
        Ok((at != i64::MAX).then_some(Instant { micros: at }))
    }

    /// How long it is until the host wants to be polled, if ever.
    pub fn poll_delay(&mut self, now: Instant) -> Result<Option<Duration>> {
        let at = self.poll_at(now)?;
        Ok(at.map(|at| Duration::from_micros(at.micros.saturating_sub(now.micros).max(0) as u64)))
    }

    /// What the host has counted.
    pub fn counters(&mut self) -> Result<Counters> {
        let mut counters = Counters::default();
        done(unsafe { ffi::zv_counters(&mut self.host, &mut counters) })?;
        Ok(counters)
    }

    /// Gives the memory of a socket of any kind back. Its handle names no other socket: every call answers `Error::NoSocket` to it.
    pub fn remove(&mut self, handle: SocketHandle) -> Result<()> {
        done(unsafe { ffi::zv_socket_remove(&mut self.host, handle.0) })?;
        self.wakers.forget(handle.0);
        Ok(())
    }

    /// Sets a number of the program's own at a socket of any kind, as an index of what belongs to it.
    pub fn set_user(&mut self, handle: SocketHandle, user: usize) -> Result<()> {
        done(unsafe { ffi::zv_socket_set_user(&mut self.host, handle.0, user as ffi::User) })
    }

    /// The number that was set at the socket, 0 before.
    pub fn user(&mut self, handle: SocketHandle) -> Result<usize> {
        let mut user: ffi::User = core::ptr::null_mut();
        done(unsafe { ffi::zv_socket_user(&mut self.host, handle.0, &mut user) })?;
        Ok(user as usize)
    }

    fn made(&mut self, make: impl FnOnce(*mut ffi::Host, *mut usize) -> u32) -> Result<SocketHandle> {
        let mut socket = 0;
        done(make(&mut self.host, &mut socket))?;
        Ok(SocketHandle(socket))
    }

    fn counted(&mut self, call: impl FnOnce(*mut ffi::Host, *mut usize) -> u32) -> Result<usize> {
        let mut count = 0;
        done(call(&mut self.host, &mut count))?;
        Ok(count)
    }
}

impl Drop for Interface {
    fn drop(&mut self) {
        unsafe { ffi::zv_host_free(&mut self.host) };
    }
}
