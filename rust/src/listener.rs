//! Listeners with a backlog.
use crate::{done, ffi, optional, Error, Interface, Result, SocketHandle};
use core::net::IpAddr;

/// The number of a listener.
#[derive(Clone, Copy, Debug, PartialEq, Eq)]
pub struct ListenerHandle(usize);

impl Interface {
    /// Makes a listener without sockets at a port, of one own address or of any.
    pub fn add_listener(&mut self, address: Option<IpAddr>, port: u16) -> Result<ListenerHandle> {
        let address = optional(address);
        self.counted(|host, listener| unsafe { ffi::zv_listener_new(host, &address, port, listener) }).map(ListenerHandle)
    }

    /// Takes a closed TCP socket into the backlog. The next poll lets it listen.
    pub fn add_to_backlog(&mut self, listener: ListenerHandle, socket: SocketHandle) -> Result<()> {
        done(unsafe { ffi::zv_listener_add(&mut self.host, listener.0, socket.0) })
    }

    /// Takes a closed TCP socket for a keeper, which drops what is beyond the backlog. It needs no room for bytes.
    pub fn add_keeper(&mut self, listener: ListenerHandle, socket: SocketHandle) -> Result<()> {
        done(unsafe { ffi::zv_listener_add_keeper(&mut self.host, listener.0, socket.0) })
    }

    /// The socket whose connection has waited for longest, if there is one.
    pub fn accept(&mut self, listener: ListenerHandle) -> Result<Option<SocketHandle>> {
        match self.made(|host, socket| unsafe { ffi::zv_listener_accept(host, listener.0, socket) }) {
            Ok(socket) => Ok(Some(socket)),
            Err(Error::Exhausted) => Ok(None),
            Err(error) => Err(error),
        }
    }

    /// Takes an accepted socket back, which was closed or aborted: it listens again when its connection has ended.
    pub fn give_back(&mut self, listener: ListenerHandle, socket: SocketHandle) -> Result<()> {
        done(unsafe { ffi::zv_listener_give_back(&mut self.host, listener.0, socket.0) })
    }

    /// Gives the listener up. Its sockets stay as they are.
    pub fn remove_listener(&mut self, listener: ListenerHandle) -> Result<()> {
        done(unsafe { ffi::zv_listener_remove(&mut self.host, listener.0) })
    }
}
