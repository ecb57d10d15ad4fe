//! Raw sockets.
use crate::{done, ffi, Interface, Result, SocketHandle};

/// A raw socket of an interface.
pub struct Socket<'a> {
    pub(crate) interface: &'a mut Interface,
    pub(crate) handle: SocketHandle,
}

/// The family of IP packets.
#[derive(Clone, Copy, Debug, PartialEq, Eq)]
pub enum IpVersion {
    /// Packets of IPv4.
    Ipv4,
    /// Packets of IPv6.
    Ipv6,
}

impl Interface {
    /// Makes a socket for the IP packets of this family and this protocol, or of all where none is named, with room for so many packets, of
    /// so many bytes together, each way.
    pub fn add_raw(
        &mut self,
        version: Option<IpVersion>,
        protocol: Option<u8>,
        packets: usize,
        bytes: usize,
    ) -> Result<SocketHandle> {
        let family = match version {
            None => 0,
            Some(IpVersion::Ipv4) => 4,
            Some(IpVersion::Ipv6) => 6,
        };
        let protocol = protocol.map_or(u16::MAX, u16::from);
        self.made(|host, socket| unsafe { ffi::zv_raw_new(host, family, protocol, packets, bytes, socket) })
    }

    /// The raw socket of this handle. A handle of another socket is refused by the calls.
    pub fn raw(&mut self, handle: SocketHandle) -> Socket<'_> {
        Socket { interface: self, handle }
    }
}

impl Socket<'_> {
    /// Queues a packet with its IP header, which is written anew when a poll sends it.
    pub fn send_slice(&mut self, data: &[u8]) -> Result<()> {
        done(unsafe { ffi::zv_raw_send(&mut self.interface.host, self.handle.0, data.as_ptr(), data.len()) })
    }

    /// Copies the first packet that waits, its IP header first, and says its length.
    pub fn recv_slice(&mut self, data: &mut [u8]) -> Result<usize> {
        let handle = self.handle.0;
        self.interface
            .counted(|host, count| unsafe { ffi::zv_raw_recv(host, handle, data.as_mut_ptr(), data.len(), count) })
    }
}
