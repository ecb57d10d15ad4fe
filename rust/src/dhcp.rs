//! The client of DHCP of an interface.
use crate::{address, done, endpoint, ffi, read, read_endpoint, udp::UdpMetadata, Error, Instant, Interface, Result, SocketHandle};
use core::net::IpAddr;

/// What a server gave.
#[derive(Clone, Copy, Debug, PartialEq, Eq)]
pub struct Config {
    /// The address that is leased.
    pub address: IpAddr,
    /// How many bits the address's network has.
    pub prefix_len: u8,
    /// The router that the server names.
    pub router: Option<IpAddr>,
    /// The server that gave the lease.
    pub server: Option<IpAddr>,
    /// The servers of names that it names, without gaps.
    pub dns_servers: [Option<IpAddr>; 3],
}

/// What happened.
#[derive(Clone, Copy, Debug, PartialEq, Eq)]
pub enum Event {
    /// There is no lease: an address that was used isn't to be used any longer.
    Deconfigured,
    /// There is a lease of this.
    Configured(Config),
}

fn event(it: &ffi::Lease) -> Option<Event> {
    match it.event {
        1 => Some(Event::Configured(Config {
            address: read(&it.address)?,
            prefix_len: it.prefix,
            router: read(&it.router),
            server: read(&it.server),
            dns_servers: [read(&it.names[0]), read(&it.names[1]), read(&it.names[2])],
        })),
        2 => Some(Event::Deconfigured),
        _ => None,
    }
}

impl Interface {
    /// Begins a client of DHCP for this station, in place of one that there was.
    pub fn start_dhcp(&mut self, random_seed: u64) -> Result<()> {
        done(unsafe { ffi::zv_dhcp_new(&mut self.host, random_seed) })
    }

    /// Carries datagrams between the client and a UDP socket that is bound to port 68, and says what happened. To be called after each
    /// poll.
    pub fn poll_dhcp(&mut self, socket: SocketHandle, now: Instant) -> Result<Option<Event>> {
        let mut bytes = [0; 1472];
        loop {
            match self.udp(socket).recv_slice(&mut bytes) {
                Ok((count, from)) => self.dhcp_takes(&bytes[..count], from)?,
                Err(Error::Truncated) => {}
                Err(Error::Exhausted) => break,
                Err(error) => return Err(error),
            }
        }
        if let Some((count, (to, _))) = self.sending(&mut bytes, ffi::zv_dhcp_send)? {
            let sent = self.udp(socket).send_slice(&bytes[..count], to).is_ok();
            done(unsafe { ffi::zv_dhcp_sent(&mut self.host, sent.into()) })?;
        }
        let mut lease = ffi::Lease::default();
        done(unsafe { ffi::zv_dhcp_poll(&mut self.host, now.total_micros(), &mut lease) })?;
        Ok(event(&lease))
    }

    fn dhcp_takes(&mut self, bytes: &[u8], from: UdpMetadata) -> Result<()> {
        let Some(local) = from.local_address else { return Ok(()) };
        done(unsafe {
            ffi::zv_dhcp_recv(&mut self.host, bytes.as_ptr(), bytes.len(), &endpoint(from.endpoint), &address(local))
        })
    }

    /// When the client has something to send, if it waits for no datagram.
    pub fn dhcp_poll_at(&mut self) -> Result<Option<Instant>> {
        let mut at = 0;
        done(unsafe { ffi::zv_dhcp_poll_at(&mut self.host, &mut at) })?;
        Ok((at != i64::MAX).then_some(Instant::from_micros(at)))
    }

    /// What a client has to send: how many bytes, where to, and from which port.
    pub(crate) fn sending(
        &mut self,
        bytes: &mut [u8],
        send: unsafe extern "C" fn(*mut ffi::Host, *mut u8, usize, *mut usize, *mut ffi::Endpoint, *mut ffi::Endpoint) -> u32,
    ) -> Result<Option<(usize, (UdpMetadata, u16))>> {
        let (mut count, mut remote, mut local) = (0, ffi::Endpoint::default(), ffi::Endpoint::default());
        let code = unsafe { send(&mut self.host, bytes.as_mut_ptr(), bytes.len(), &mut count, &mut remote, &mut local) };
        match done(code) {
            Ok(()) => {}
            Err(Error::Exhausted) => return Ok(None),
            Err(error) => return Err(error),
        }
        let to = read_endpoint(&remote).ok_or(Error::Unaddressable)?;
        Ok(Some((count, (UdpMetadata { endpoint: to, local_address: read(&local.address) }, local.port))))
    }
}
