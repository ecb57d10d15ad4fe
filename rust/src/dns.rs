//! The client of DNS of an interface.
use crate::{done, endpoint, ffi, optional, read, udp::UdpMetadata, Error, Instant, Interface, Result, SocketHandle};
use alloc::vec::Vec;
use core::net::{IpAddr, SocketAddr};

/// The addresses that are asked for.
#[derive(Clone, Copy, Debug, PartialEq, Eq)]
pub enum DnsQueryType {
    /// Addresses of IPv4.
    A,
    /// Addresses of IPv6.
    Aaaa,
}

impl Interface {
    /// Begins a client of DNS that asks these servers in turn, at most three, in place of one that there was.
    pub fn start_dns(&mut self, servers: &[IpAddr]) -> Result<()> {
        let server = |i: usize| optional(servers.get(i).copied());
        done(unsafe { ffi::zv_dns_new(&mut self.host, &server(0), &server(1), &server(2)) })
    }

    /// Asks for the addresses of a name.
    pub fn start_query(&mut self, name: &str, query_type: DnsQueryType) -> Result<()> {
        let family = if query_type == DnsQueryType::A { 4 } else { 6 };
        done(unsafe { ffi::zv_dns_ask(&mut self.host, name.as_ptr(), name.len(), family) })
    }

    /// Carries datagrams between the client and a UDP socket, which is bound to the port of each query. `port` is the port that it is
    /// bound to, 0 at first. To be called after each poll.
    pub fn poll_dns(&mut self, socket: SocketHandle, port: &mut u16) -> Result<()> {
        let mut bytes = [0; 1472];
        loop {
            match self.udp(socket).recv_slice(&mut bytes) {
                Ok((count, from)) => self.dns_takes(&bytes[..count], from, *port)?,
                Err(Error::Truncated) => {}
                Err(Error::Exhausted) => break,
                Err(error) => return Err(error),
            }
        }
        let Some((count, (to, own))) = self.sending(&mut bytes, ffi::zv_dns_send)? else { return Ok(()) };
        if own != *port {
            self.udp(socket).close()?;
            self.udp(socket).bind(own)?;
            *port = own;
        }
        let sent = self.udp(socket).send_slice(&bytes[..count], to).is_ok();
        done(unsafe { ffi::zv_dns_sent(&mut self.host, sent.into()) })
    }

    fn dns_takes(&mut self, bytes: &[u8], from: UdpMetadata, port: u16) -> Result<()> {
        let Some(local) = from.local_address else { return Ok(()) };
        let local = endpoint(SocketAddr::new(local, port));
        done(unsafe { ffi::zv_dns_recv(&mut self.host, bytes.as_ptr(), bytes.len(), &endpoint(from.endpoint), &local) })
    }

    /// The addresses that were found, once; none as long as no answer came.
    pub fn query_result(&mut self) -> Result<Option<Vec<IpAddr>>> {
        let mut found = ffi::Addresses::default();
        match done(unsafe { ffi::zv_dns_result(&mut self.host, &mut found) }) {
            Ok(()) => Ok(Some(found.at.iter().filter_map(read).collect())),
            Err(Error::QueryPending) => Ok(None),
            Err(error) => Err(error),
        }
    }

    /// When the client has something to send, if it waits for no datagram.
    pub fn dns_poll_at(&mut self) -> Result<Option<Instant>> {
        let mut at = 0;
        done(unsafe { ffi::zv_dns_poll_at(&mut self.host, &mut at) })?;
        Ok((at != i64::MAX).then_some(Instant::from_micros(at)))
    }
}
