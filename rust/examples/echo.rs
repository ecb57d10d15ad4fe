//! A host on a TUN device of Linux that sends back what it gets at port 7, over UDP and TCP.
//!
//!     echo NAME ADDRESS PREFIX        as root, the device made before: docs/guide/c_and_rust.md
use std::fs::{File, OpenOptions};
use std::io::{self, Read, Write};
use std::os::fd::AsRawFd;
use std::os::raw::{c_int, c_short, c_ulong};
use std::os::unix::fs::OpenOptionsExt;
use std::time::Duration;
use zemplovir::phy::{self, Device, DeviceCapabilities, RxToken, TxToken};
use zemplovir::tcp::State;
use zemplovir::{Config, Error, Instant, Interface, Medium, SocketHandle};

const TUNSETIFF: c_ulong = 0x4004_54ca;
const IFF_TUN: c_short = 1;
const IFF_NO_PI: c_short = 0x1000;
const O_NONBLOCK: i32 = 0o4000;
const POLLIN: c_short = 1;
const STREAMS: usize = 4;

/// What `ioctl` takes of a device: its name, and what it is.
#[repr(C)]
struct Request {
    name: [u8; 16],
    flags: c_short,
    rest: [u8; 22],
}

#[repr(C)]
struct Waits {
    file: c_int,
    events: c_short,
    happened: c_short,
}

extern "C" {
    fn ioctl(file: c_int, request: c_ulong, argument: *mut Request) -> c_int;
    fn poll(waits: *mut Waits, count: c_ulong, millis: c_int) -> c_int;
}

fn open(name: &str) -> io::Result<File> {
    let device = OpenOptions::new().read(true).write(true).custom_flags(O_NONBLOCK).open("/dev/net/tun")?;
    let mut request = Request { name: [0; 16], flags: IFF_TUN | IFF_NO_PI, rest: [0; 22] };
    let length = name.len().min(15);
    request.name[..length].copy_from_slice(&name.as_bytes()[..length]);
    if unsafe { ioctl(device.as_raw_fd(), TUNSETIFF, &mut request) } < 0 {
        return Err(io::Error::last_os_error());
    }
    Ok(device)
}

/// The device, as what polls take it for.
struct Tun {
    file: File,
    frame: [u8; 2048],
}

struct Came<'a> {
    frame: &'a [u8],
}

struct Leave<'a> {
    file: &'a File,
}

impl RxToken for Came<'_> {
    fn consume<R, F: FnOnce(&[u8]) -> R>(self, f: F) -> R {
        f(self.frame)
    }
}

impl TxToken for Leave<'_> {
    fn consume<R, F: FnOnce(&mut [u8]) -> R>(mut self, len: usize, f: F) -> R {
        let mut frame = vec![0; len];
        let answer = f(&mut frame);
        let _ = self.file.write(&frame);
        answer
    }
}

impl Device for Tun {
    type RxToken<'a> = Came<'a>;
    type TxToken<'a> = Leave<'a>;

    fn receive(&mut self, _: Instant) -> Option<(Came<'_>, Leave<'_>)> {
        let count = self.file.read(&mut self.frame).ok()?;
        Some((Came { frame: &self.frame[..count] }, Leave { file: &self.file }))
    }

    fn transmit(&mut self, _: Instant) -> Option<Leave<'_>> {
        Some(Leave { file: &self.file })
    }

    fn capabilities(&self) -> DeviceCapabilities {
        DeviceCapabilities { medium: phy::Medium::Ip, max_transmission_unit: 1500 }
    }
}

fn echo_datagrams(host: &mut Interface, socket: SocketHandle) {
    let mut data = [0; 65535];
    while let Ok((count, from)) = host.udp(socket).recv_slice(&mut data) {
        let _ = host.udp(socket).send_slice(&data[..count], from);
    }
}

fn echo_stream(host: &mut Interface, socket: SocketHandle) -> Result<(), Error> {
    let mut socket = host.tcp(socket);
    if socket.state()? == State::Closed {
        return socket.listen(7);
    }
    loop {
        let waiting = match socket.peek() {
            Ok(bytes) => bytes.to_vec(),
            Err(Error::Finished) => return socket.close(),
            Err(_) => return Ok(()),
        };
        let sent = socket.send_slice(&waiting).unwrap_or(0);
        if sent == 0 {
            return Ok(());
        }
        socket.recv(|_| (sent, ()))?;
    }
}

fn main() -> Result<(), Box<dyn std::error::Error>> {
    let words: Vec<String> = std::env::args().collect();
    let [_, name, address, prefix] = &words[..] else {
        eprintln!("usage: echo NAME ADDRESS PREFIX");
        std::process::exit(2);
    };
    let mut device = Tun { file: open(name)?, frame: [0; 2048] };
    let (mut seed, mut key) = ([0; 8], [0; 16]);
    let mut random = File::open("/dev/urandom")?;
    random.read_exact(&mut seed)?;
    random.read_exact(&mut key)?;
    let config = Config {
        medium: Medium::Ip,
        max_transmission_unit: 0,
        random_seed: u64::from_ne_bytes(seed),
        isn_key: Some(key),
        frames: 256,
        host_requirements: true,
        multicast_reports: true,
    };
    let began = std::time::Instant::now();
    let mut host = Interface::on_device(&config, &device, Instant::ZERO)?;
    host.add_ip_addr(address.parse()?, prefix.parse()?)?;
    let datagrams = host.add_udp(64, 65536)?;
    host.udp(datagrams).bind(7)?;
    let mut streams = Vec::new();
    for _ in 0..STREAMS {
        let socket = host.add_tcp(65536, 65536)?;
        host.tcp(socket).set_nagle_enabled(false)?;
        streams.push(socket);
    }
    eprintln!("echo: ready");
    loop {
        let now = Instant::from_micros(began.elapsed().as_micros() as i64);
        host.poll_device(now, &mut device)?;
        echo_datagrams(&mut host, datagrams);
        for &socket in &streams {
            echo_stream(&mut host, socket)?;
        }
        host.poll_device(now, &mut device)?;
        let delay = host.poll_delay(now)?.unwrap_or(Duration::from_secs(1)).min(Duration::from_secs(1));
        let mut waits = Waits { file: device.file.as_raw_fd(), events: POLLIN, happened: 0 };
        unsafe { poll(&mut waits, 1, delay.as_micros().div_ceil(1000) as c_int) };
    }
}
