//! UDP sockets.
use crate::{address, done, endpoint, ffi, optional, read, read_endpoint, Error, Interface, Result, SocketHandle};
use core::net::{IpAddr, SocketAddr};

/// A UDP socket of an interface.
pub struct Socket<'a> {
    pub(crate) interface: &'a mut Interface,
    pub(crate) handle: SocketHandle,
}

/// Where a datagram goes to or comes from, and the own address on its other end.
#[derive(Clone, Copy, Debug, PartialEq, Eq)]
pub struct UdpMetadata {
    /// The other end: where a datagram goes, or where it came from.
    pub endpoint: SocketAddr,
    /// The own address that it goes from, or that it was sent to.
    pub local_address: Option<IpAddr>,
}

impl From<SocketAddr> for UdpMetadata {
    fn from(endpoint: SocketAddr) -> UdpMetadata {
        UdpMetadata { endpoint, local_address: None }
    }
}

impl Interface {
    /// Makes a UDP socket with room for so many datagrams, of so many bytes together, each way.
    pub fn add_udp(&mut self, packets: usize, bytes: usize) -> Result<SocketHandle> {
        self.made(|host, socket| unsafe { ffi::zv_udp_new(host, packets, bytes, socket) })
    }

    /// The UDP socket of this handle. A handle of another socket is refused by the calls.
    pub fn udp(&mut self, handle: SocketHandle) -> Socket<'_> {
        Socket { interface: self, handle }
    }
}

impl Socket<'_> {
    /// Binds the socket to a port of every own address.
    pub fn bind(&mut self, port: u16) -> Result<()> {
        self.bind_to(None, port)
    }

    /// Binds the socket to a port of one own address, or of all.
    pub fn bind_to(&mut self, local: Option<IpAddr>, port: u16) -> Result<()> {
        done(unsafe { ffi::zv_udp_bind(&mut self.interface.host, self.handle.0, &optional(local), port) })
    }

    /// Queues a datagram, which a poll sends.
    pub fn send_slice(&mut self, data: &[u8], meta: impl Into<UdpMetadata>) -> Result<()> {
        let meta = meta.into();
        let local = meta.local_address.map_or(ffi::Address::default(), address);
        done(unsafe {
            ffi::zv_udp_send(
                &mut self.interface.host,
                self.handle.0,
                data.as_ptr(),
                data.len(),
                &endpoint(meta.endpoint),
                &local,
            )
        })
    }

    /// Copies the first datagram that waits: its length, where it came from, and where it was sent to.
    pub fn recv_slice(&mut self, data: &mut [u8]) -> Result<(usize, UdpMetadata)> {
        let (mut remote, mut local) = (ffi::Endpoint::default(), ffi::Address::default());
        let handle = self.handle.0;
        let count = self.interface.counted(|host, count| unsafe {
            ffi::zv_udp_recv(host, handle, data.as_mut_ptr(), data.len(), count, &mut remote, &mut local)
        })?;
        let endpoint = read_endpoint(&remote).ok_or(Error::Unaddressable)?;
        Ok((count, UdpMetadata { endpoint, local_address: read(&local) }))
    }

    /// Sets the hop limit of what is sent; `None` for the usual 64.
    pub fn set_hop_limit(&mut self, limit: Option<u8>) -> Result<()> {
        done(unsafe { ffi::zv_udp_set_hop_limit(&mut self.interface.host, self.handle.0, limit.unwrap_or(0)) })
    }

    /// Unbinds the socket, and empties its queues.
    pub fn close(&mut self) -> Result<()> {
        done(unsafe { ffi::zv_udp_close(&mut self.interface.host, self.handle.0) })
    }
}
