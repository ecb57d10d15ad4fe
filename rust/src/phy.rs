//! Devices, by traits of smoltcp's shape: a driver that is written for its `Device` needs its `use` lines changed.
//!
//! A driver hands out tokens, each for one frame. [`Interface::poll_device`](crate::Interface::poll_device) takes frames from a device, polls, and
//! sends frames by it. Without a device, frames go in by [`Interface::receive`](crate::Interface::receive) and out by
//! [`Interface::transmit`](crate::Interface::transmit) or [`Interface::transmit_with`](crate::Interface::transmit_with).
use crate::{Error, Instant, Interface, Result};
use alloc::collections::VecDeque;
use alloc::vec;
use alloc::vec::Vec;

/// What the frames of a device are.
#[derive(Clone, Copy, Debug, PartialEq, Eq)]
pub enum Medium {
    /// Ethernet frames.
    Ethernet,
    /// IP packets with nothing before them.
    Ip,
}

/// What a device says of itself.
#[derive(Clone, Copy, Debug)]
pub struct DeviceCapabilities {
    /// What its frames are.
    pub medium: Medium,
    /// The longest frame, its Ethernet header counted.
    pub max_transmission_unit: usize,
}

/// A device that receives and sends frames.
pub trait Device {
    /// A frame that came.
    type RxToken<'a>: RxToken
    where
        Self: 'a;
    /// Leave to send a frame.
    type TxToken<'a>: TxToken
    where
        Self: 'a;

    /// A frame that came, if one did, and leave to send its answer.
    fn receive(&mut self, timestamp: Instant) -> Option<(Self::RxToken<'_>, Self::TxToken<'_>)>;

    /// Leave to send a frame, if there is room for one.
    fn transmit(&mut self, timestamp: Instant) -> Option<Self::TxToken<'_>>;

    /// What the device says of itself.
    fn capabilities(&self) -> DeviceCapabilities;
}

/// A frame that came.
pub trait RxToken {
    /// Hands its bytes to `f`.
    fn consume<R, F: FnOnce(&[u8]) -> R>(self, f: F) -> R;
}

/// Leave to send a frame.
pub trait TxToken {
    /// Has `f` write a frame of `len` bytes, and sends it.
    fn consume<R, F: FnOnce(&mut [u8]) -> R>(self, len: usize, f: F) -> R;
}

impl Interface {
    /// Takes in what the device has, does what is to be done, and sends what is to go, until the device has no frame, or no leave to send one
    /// while as many wait as may. Answers whether a socket's state or queue may have changed.
    pub fn poll_device<D: Device + ?Sized>(&mut self, now: Instant, device: &mut D) -> Result<bool> {
        let mut changed = false;
        loop {
            let came = self.take_from(now, device)?;
            changed |= self.poll(now, u16::MAX)?;
            let went = self.send_by(now, device);
            let is_held_up = self.transmit_len().is_some();
            if is_held_up || came + went == 0 || (came < self.frames && went < self.frames) {
                return Ok(changed);
            }
        }
    }

    /// At most as many frames as may wait. One that is too long is dropped, and counted.
    fn take_from<D: Device + ?Sized>(&mut self, now: Instant, device: &mut D) -> Result<usize> {
        for came in 0..self.frames {
            let Some((token, _)) = device.receive(now) else {
                return Ok(came);
            };
            match token.consume(|frame| self.receive(frame)) {
                Err(Error::Full) => return Ok(came),
                Ok(()) | Err(Error::TooLong) => {}
                Err(error) => return Err(error),
            }
        }
        Ok(self.frames)
    }

    fn send_by<D: Device + ?Sized>(&mut self, now: Instant, device: &mut D) -> usize {
        let mut went = 0;
        while let Some(len) = self.transmit_len() {
            let Some(token) = device.transmit(now) else {
                break;
            };
            self.transmit_with(|frame| token.consume(len, |buffer| buffer.copy_from_slice(frame)));
            went += 1;
        }
        went
    }
}

/// A device whose frames come back to itself, for tries without one. A host with `host_requirements` drops what comes from its own address:
/// make it without.
#[derive(Debug)]
pub struct Loopback {
    frames: VecDeque<Vec<u8>>,
    capabilities: DeviceCapabilities,
}

impl Loopback {
    /// One with no frame in it.
    pub fn new(medium: Medium) -> Loopback {
        Loopback { frames: VecDeque::new(), capabilities: DeviceCapabilities { medium, max_transmission_unit: 65535 } }
    }
}

/// A frame of a [`Loopback`].
#[derive(Debug)]
pub struct LoopbackRxToken {
    frame: Vec<u8>,
}

/// Leave to send by a [`Loopback`].
#[derive(Debug)]
pub struct LoopbackTxToken<'a> {
    frames: &'a mut VecDeque<Vec<u8>>,
}

impl RxToken for LoopbackRxToken {
    fn consume<R, F: FnOnce(&[u8]) -> R>(self, f: F) -> R {
        f(&self.frame)
    }
}

impl TxToken for LoopbackTxToken<'_> {
    fn consume<R, F: FnOnce(&mut [u8]) -> R>(self, len: usize, f: F) -> R {
        let mut frame = vec![0; len];
        let answer = f(&mut frame);
        self.frames.push_back(frame);
        answer
    }
}

impl Device for Loopback {
    type RxToken<'a> = LoopbackRxToken;
    type TxToken<'a> = LoopbackTxToken<'a>;

    fn receive(&mut self, _timestamp: Instant) -> Option<(LoopbackRxToken, LoopbackTxToken<'_>)> {
        let frame = self.frames.pop_front()?;
        Some((LoopbackRxToken { frame }, LoopbackTxToken { frames: &mut self.frames }))
    }

    fn transmit(&mut self, _timestamp: Instant) -> Option<LoopbackTxToken<'_>> {
        Some(LoopbackTxToken { frames: &mut self.frames })
    }

    fn capabilities(&self) -> DeviceCapabilities {
        self.capabilities
    }
}
