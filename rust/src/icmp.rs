//! ICMP sockets.
use crate::{address, done, ffi, optional, read, Error, Interface, Result, SocketHandle};
use core::net::IpAddr;

/// An ICMP socket of an interface.
pub struct Socket<'a> {
    pub(crate) interface: &'a mut Interface,
    pub(crate) handle: SocketHandle,
}

impl Interface {
    /// Makes an ICMP socket with room for so many messages, of so many bytes together, each way.
    pub fn add_icmp(&mut self, packets: usize, bytes: usize) -> Result<SocketHandle> {
        self.made(|host, socket| unsafe { ffi::zv_icmp_new(host, packets, bytes, socket) })
    }

    /// The ICMP socket of this handle. A handle of another socket is refused by the calls.
    pub fn icmp(&mut self, handle: SocketHandle) -> Socket<'_> {
        Socket { interface: self, handle }
    }
}

impl Socket<'_> {
    /// From now on echo messages with this identifier are for the socket.
    pub fn bind(&mut self, identifier: u16) -> Result<()> {
        done(unsafe { ffi::zv_icmp_bind(&mut self.interface.host, self.handle.0, identifier) })
    }

    /// From now on errors about UDP datagrams that were sent from this port are for the socket, of one own address or of all.
    pub fn bind_udp(&mut self, address: Option<IpAddr>, port: u16) -> Result<()> {
        done(unsafe { ffi::zv_icmp_bind_udp(&mut self.interface.host, self.handle.0, &optional(address), port) })
    }

    /// The same of errors about TCP segments.
    pub fn bind_tcp(&mut self, address: Option<IpAddr>, port: u16) -> Result<()> {
        done(unsafe { ffi::zv_icmp_bind_tcp(&mut self.interface.host, self.handle.0, &optional(address), port) })
    }

    /// The hop limit of what is sent, 64 for none.
    pub fn set_hop_limit(&mut self, limit: Option<u8>) -> Result<()> {
        done(unsafe { ffi::zv_icmp_set_hop_limit(&mut self.interface.host, self.handle.0, limit.unwrap_or(0)) })
    }

    /// Queues a message, from its type on, which a poll sends; its checksum is written then.
    pub fn send_slice(&mut self, data: &[u8], remote: IpAddr) -> Result<()> {
        let remote = address(remote);
        done(unsafe {
            ffi::zv_icmp_send(&mut self.interface.host, self.handle.0, data.as_ptr(), data.len(), &remote)
        })
    }

    /// Copies the first message that waits: its length, and where it came from.
    pub fn recv_slice(&mut self, data: &mut [u8]) -> Result<(usize, IpAddr)> {
        let mut remote = ffi::Address::default();
        let handle = self.handle.0;
        let count = self.interface.counted(|host, count| unsafe {
            ffi::zv_icmp_recv(host, handle, data.as_mut_ptr(), data.len(), count, &mut remote)
        })?;
        Ok((count, read(&remote).ok_or(Error::Unaddressable)?))
    }
}
