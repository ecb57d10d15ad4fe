//! Wakers, for tasks that wait for a socket.
use crate::tcp;
use crate::udp;
use crate::{icmp, raw};
use alloc::collections::BTreeMap;
use core::task::Waker;

/// Those that wait, by the numbers of their sockets: for bytes that come, and for room.
#[derive(Default)]
pub(crate) struct Wakers {
    waiting: BTreeMap<usize, [Option<Waker>; 2]>,
}

impl Wakers {
    fn register(&mut self, socket: usize, which: usize, waker: &Waker) {
        let registered = &mut self.waiting.entry(socket).or_default()[which];
        if !registered.as_ref().is_some_and(|it| it.will_wake(waker)) {
            *registered = Some(waker.clone());
        }
    }

    /// Wakes all, and forgets them.
    pub(crate) fn wake_all(&mut self) {
        for wakers in core::mem::take(&mut self.waiting).into_values() {
            wakers.into_iter().flatten().for_each(Waker::wake);
        }
    }

    /// Wakes those of a socket that is removed: their next call is refused.
    pub(crate) fn forget(&mut self, socket: usize) {
        if let Some(wakers) = self.waiting.remove(&socket) {
            wakers.into_iter().flatten().for_each(Waker::wake);
        }
    }
}

macro_rules! wakers {
    ($($kind:path),*) => {
        $(impl $kind {
            /// Registers a waker for bytes that come, or another state. It takes the place of one that was registered, is woken once, and perhaps
            /// for nothing: by a poll that changed this socket or another.
            pub fn register_recv_waker(&mut self, waker: &Waker) {
                self.interface.wakers.register(self.handle.0, 0, waker);
            }

            /// Registers a waker for room behind what is queued, or another state, as the other one.
            pub fn register_send_waker(&mut self, waker: &Waker) {
                self.interface.wakers.register(self.handle.0, 1, waker);
            }
        })*
    };
}

wakers!(tcp::Socket<'_>, udp::Socket<'_>, icmp::Socket<'_>, raw::Socket<'_>);
