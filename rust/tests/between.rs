//! Two interfaces whose frames go from one to the other.
use std::net::{IpAddr, Ipv4Addr, SocketAddr};
use std::sync::Arc;
use std::sync::atomic::{AtomicUsize, Ordering};
use std::task::{Wake, Waker};
use zemplovir::phy::{self, Device, DeviceCapabilities, Loopback, RxToken, TxToken};
use zemplovir::{Config, Error, Instant, Interface, Medium, dhcp::Event, dns::DnsQueryType, tcp::{EndReason, State}};

const FIRST: IpAddr = IpAddr::V4(Ipv4Addr::new(192, 168, 1, 1));
const SECOND: IpAddr = IpAddr::V4(Ipv4Addr::new(192, 168, 1, 2));

fn host(medium: Medium, own: IpAddr, seed: u64) -> Interface {
    let max_transmission_unit = if medium == Medium::Ip { 1500 } else { 1514 };
    let config = Config { medium, max_transmission_unit, random_seed: seed, isn_key: None, frames: 64, host_requirements: true, multicast_reports: true };
    let mut host = Interface::new(&config, Instant::ZERO).unwrap();
    host.add_ip_addr(own, 24).unwrap();
    host
}

/// Two hosts at one wire.
struct Pair {
    first: Interface,
    second: Interface,
    now: i64,
}

impl Pair {
    fn new(ethernet: bool) -> Pair {
        let medium = |last| if ethernet { Medium::Ethernet([2, 0, 0, 0, 0, last]) } else { Medium::Ip };
        Pair { first: host(medium(1), FIRST, 1), second: host(medium(2), SECOND, 2), now: 0 }
    }

    fn carry(from: &mut Interface, to: &mut Interface) {
        let mut frame = [0; 2048];
        while let Ok(count) = from.transmit(&mut frame) {
            to.receive(&frame[..count]).unwrap();
        }
    }

    /// Polls both for so many turns, a millisecond each.
    fn run(&mut self, turns: usize) {
        for _ in 0..turns {
            self.now += 1000;
            let now = Instant::from_micros(self.now);
            self.first.poll(now, 64).unwrap();
            Pair::carry(&mut self.first, &mut self.second);
            self.second.poll(now, 64).unwrap();
            Pair::carry(&mut self.second, &mut self.first);
        }
    }
}

#[test]
fn datagrams_go_and_come_back() {
    for ethernet in [false, true] {
        let mut pair = Pair::new(ethernet);
        let (one, other) = (pair.first.add_udp(4, 4096).unwrap(), pair.second.add_udp(4, 4096).unwrap());
        pair.first.udp(one).bind(4000).unwrap();
        pair.second.udp(other).bind(7).unwrap();
        pair.first.udp(one).send_slice(b"hello", SocketAddr::new(SECOND, 7)).unwrap();
        pair.run(3);
        let mut data = [0; 64];
        let (count, from) = pair.second.udp(other).recv_slice(&mut data).unwrap();
        assert_eq!(&data[..count], b"hello");
        assert_eq!(from.endpoint, SocketAddr::new(FIRST, 4000));
        assert_eq!(from.local_address, Some(SECOND));
        pair.second.udp(other).send_slice(&data[..count], from).unwrap();
        pair.run(3);
        let (count, from) = pair.first.udp(one).recv_slice(&mut data).unwrap();
        assert_eq!((&data[..count], from.endpoint), (&b"hello"[..], SocketAddr::new(SECOND, 7)));
        assert_eq!(pair.first.udp(one).recv_slice(&mut data), Err(Error::Exhausted));
    }
}

#[test]
fn a_stream_arrives_whole() {
    let mut pair = Pair::new(false);
    let (one, other) = (pair.first.add_tcp(8192, 8192).unwrap(), pair.second.add_tcp(4096, 4096).unwrap());
    pair.second.tcp(other).listen(7).unwrap();
    pair.first.tcp(one).connect(SocketAddr::new(SECOND, 7), 4000).unwrap();
    pair.run(4);
    assert_eq!(pair.first.tcp(one).state(), Ok(State::Established));
    let ends = (SocketAddr::new(SECOND, 7), SocketAddr::new(FIRST, 4000));
    assert_eq!(pair.second.tcp(other).endpoints(), Ok(ends));
    let text: Vec<u8> = (0..100_000u32).map(|it| (it * 7 % 251) as u8).collect();
    let (mut sent, mut got) = (0, Vec::new());
    for _ in 0..2000 {
        if sent < text.len() {
            sent += pair.first.tcp(one).send_slice(&text[sent..]).unwrap();
            if sent == text.len() {
                pair.first.tcp(one).close().unwrap();
            }
        }
        pair.run(1);
        match pair.second.tcp(other).recv(|bytes| (bytes.len(), bytes.to_vec())) {
            Ok(bytes) => got.extend(bytes),
            Err(Error::Finished) => break,
            Err(error) => panic!("{error}"),
        }
    }
    assert_eq!(got, text);
}

#[test]
fn an_attempt_tells_why_it_failed() {
    let mut pair = Pair::new(false);
    let asks = pair.first.add_tcp(256, 256).unwrap();
    assert_eq!(pair.first.tcp(asks).end_reason(), Ok(None));
    pair.first.tcp(asks).connect(SocketAddr::new(SECOND, 7), 4000).unwrap();
    assert_eq!(pair.first.tcp(asks).end_reason(), Ok(None));
    pair.run(2);
    assert_eq!(pair.first.tcp(asks).end_reason(), Ok(Some(EndReason::Refused)));
    pair.first.tcp(asks).connect(SocketAddr::new(SECOND, 7), 4001).unwrap();
    pair.first.tcp(asks).abort().unwrap();
    assert_eq!(pair.first.tcp(asks).end_reason(), Ok(Some(EndReason::Aborted)));
}

#[test]
fn a_connection_that_is_taken_is_refused_and_port_0_is_a_free_one() {
    let mut pair = Pair::new(false);
    let (one, other) = (pair.first.add_tcp(64, 64).unwrap(), pair.first.add_tcp(64, 64).unwrap());
    let remote = SocketAddr::new(SECOND, 7);
    pair.first.tcp(one).connect(remote, 4000).unwrap();
    assert_eq!(pair.first.tcp(other).connect(remote, 4000), Err(Error::AddressInUse));
    assert_eq!(pair.first.tcp(other).endpoints(), Err(Error::InvalidState));
    pair.first.tcp(other).connect(remote, 0).unwrap();
    assert!(pair.first.tcp(other).endpoints().unwrap().0.port() >= 49152);
}

#[test]
fn a_frame_that_does_not_fit_stays() {
    let mut pair = Pair::new(false);
    let one = pair.first.add_udp(4, 4096).unwrap();
    pair.first.udp(one).bind(4000).unwrap();
    pair.first.udp(one).send_slice(&[7; 100], SocketAddr::new(SECOND, 7)).unwrap();
    pair.first.poll(Instant::ZERO, 8).unwrap();
    assert_eq!(pair.first.transmit(&mut [0; 100]), Err(Error::TooShort));
    assert_eq!(pair.first.transmit_len(), Some(128));
    assert_eq!(pair.first.transmit(&mut [0; 128]), Ok(128));
    assert_eq!(pair.first.transmit(&mut [0; 128]), Err(Error::Exhausted));
}

#[test]
fn refusals_have_names() {
    let mut pair = Pair::new(false);
    let (stream, datagrams) = (pair.first.add_tcp(64, 64).unwrap(), pair.first.add_udp(1, 64).unwrap());
    assert_eq!(pair.first.tcp(datagrams).listen(7), Err(Error::WrongKind));
    assert_eq!(pair.first.tcp(stream).listen(0), Err(Error::Unaddressable));
    assert_eq!(pair.first.tcp(stream).send_slice(b"x"), Err(Error::InvalidState));
    assert_eq!(pair.first.udp(datagrams).send_slice(b"x", SocketAddr::new(SECOND, 7)), Err(Error::Unaddressable));
    pair.first.udp(datagrams).bind(4000).unwrap();
    assert_eq!(pair.first.udp(datagrams).bind(4001), Err(Error::InvalidState));
    pair.first.udp(datagrams).send_slice(b"x", SocketAddr::new(SECOND, 7)).unwrap();
    assert_eq!(pair.first.udp(datagrams).send_slice(b"x", SocketAddr::new(SECOND, 7)), Err(Error::Full));
    assert_eq!(pair.first.add_ip_addr(FIRST, 33), Err(Error::BadArgument));
    assert_eq!(pair.first.add_ip_addr("224.0.0.1".parse().unwrap(), 24), Err(Error::NotUnicast));
    assert_eq!(pair.first.remove_ip_addr(SECOND), Err(Error::NotFound));
    assert_eq!(pair.first.remove_route(SECOND, 24), Err(Error::NotFound));
    assert_eq!(pair.first.poll(Instant::from_micros(-1), 1), Err(Error::Moment));
    assert_eq!(pair.first.add_tcp((1 << 30) + 1, 64), Err(Error::TooLong));
    pair.first.remove(stream).unwrap();
    assert_eq!(pair.first.remove(stream), Err(Error::NoSocket));
    assert_eq!(pair.first.tcp(stream).abort(), Err(Error::NoSocket));
    let config = Config { medium: Medium::Ip, max_transmission_unit: 500, random_seed: 0, isn_key: None, frames: 1, host_requirements: true, multicast_reports: true };
    assert_eq!(Interface::new(&config, Instant::ZERO).err(), Some(Error::Mtu));
}

#[test]
fn a_ping_is_answered() {
    let mut pair = Pair::new(true);
    let one = pair.first.add_icmp(4, 1024).unwrap();
    pair.first.icmp(one).bind(9).unwrap();
    pair.first.icmp(one).send_slice(&[8, 0, 0, 0, 0, 9, 0, 1, 5, 6], SECOND).unwrap();
    pair.run(3);
    let mut data = [0; 64];
    let (count, from) = pair.first.icmp(one).recv_slice(&mut data).unwrap();
    assert_eq!((data[0], &data[4..count], from), (0, &[0, 9, 0, 1, 5, 6][..], SECOND));
}

#[test]
fn a_link_without_room_takes_no_more() {
    let mut pair = Pair::new(false);
    let mut taken = 0;
    while pair.first.receive(&[0; 20]).is_ok() {
        taken += 1;
    }
    assert_eq!((taken, pair.first.receive(&[0; 20])), (64, Err(Error::Full)));
    pair.first.poll(Instant::ZERO, 64).unwrap();
    assert_eq!(pair.first.receive(&[0; 20]), Ok(()));
    assert_eq!(pair.first.counters().unwrap().frames_dropped, 2);
}

#[test]
fn a_listener_serves_more_than_it_has_sockets() {
    let mut pair = Pair::new(true);
    let listener = pair.second.add_listener(None, 80).unwrap();
    let served = pair.second.add_tcp(256, 256).unwrap();
    pair.second.add_to_backlog(listener, served).unwrap();
    let keeper = pair.second.add_tcp(0, 0).unwrap();
    pair.second.add_keeper(listener, keeper).unwrap();
    assert_eq!(pair.second.add_to_backlog(listener, served), Err(Error::InBacklog));
    assert_eq!(pair.second.remove(served), Err(Error::InBacklog));
    assert_eq!(pair.second.accept(listener), Ok(None));
    for round in 0..3 {
        pair.run(1);
        let asks = pair.first.add_tcp(256, 256).unwrap();
        pair.first.tcp(asks).connect(SocketAddr::new(SECOND, 80), 4000 + round).unwrap();
        pair.run(4);
        assert_eq!(pair.second.accept(listener), Ok(Some(served)));
        assert_eq!(pair.second.accept(listener), Ok(None));
        pair.second.tcp(served).abort().unwrap();
        pair.second.give_back(listener, served).unwrap();
        pair.run(2);
        assert_eq!(pair.first.tcp(asks).state(), Ok(State::Closed));
        assert_eq!(pair.first.tcp(asks).end_reason(), Ok(Some(EndReason::Reset)));
        pair.first.remove(asks).unwrap();
    }
    pair.second.remove_listener(listener).unwrap();
    assert_eq!(pair.second.accept(listener), Err(Error::NoListener));
    pair.second.remove(served).unwrap();
}

#[test]
fn a_client_of_dhcp_asks() {
    let mut plain = host(Medium::Ip, FIRST, 1);
    assert_eq!(plain.start_dhcp(1), Err(Error::Medium));
    assert_eq!(plain.dhcp_poll_at(), Err(Error::NoClient));
    let mut pair = Pair::new(true);
    let (client, server) = (pair.first.add_udp(4, 2048).unwrap(), pair.second.add_udp(4, 2048).unwrap());
    pair.first.udp(client).bind(68).unwrap();
    pair.second.udp(server).bind(67).unwrap();
    pair.first.start_dhcp(7).unwrap();
    assert_eq!(pair.first.dhcp_poll_at(), Ok(Some(Instant::ZERO)));
    pair.run(1);
    let now = Instant::from_micros(pair.now);
    assert_eq!(pair.first.poll_dhcp(client, now), Ok(Some(Event::Deconfigured)));
    assert_eq!(pair.first.poll_dhcp(client, now), Ok(None));
    pair.run(2);
    let mut data = [0; 400];
    let (count, from) = pair.second.udp(server).recv_slice(&mut data).unwrap();
    // a request of 300 bytes that names the station, with the magic number of RFC 2131
    assert_eq!((count, data[0], &data[28..34], &data[236..240]), (300, 1, &[2, 0, 0, 0, 0, 1][..], &[99, 130, 83, 99][..]));
    assert_eq!(from.endpoint.port(), 68);
}

#[test]
fn a_client_of_dns_asks_and_is_answered() {
    let mut pair = Pair::new(true);
    let (client, server) = (pair.first.add_udp(4, 2048).unwrap(), pair.second.add_udp(4, 2048).unwrap());
    pair.second.udp(server).bind(53).unwrap();
    assert_eq!(pair.first.start_query("example.test", DnsQueryType::A), Err(Error::NoClient));
    pair.first.start_dns(&[SECOND]).unwrap();
    assert_eq!(pair.first.query_result(), Err(Error::QueryFailed));
    assert_eq!(pair.first.start_query("a..b", DnsQueryType::A), Err(Error::InvalidName));
    assert_eq!(pair.first.start_query(&"a.".repeat(128), DnsQueryType::A), Err(Error::NameTooLong));
    pair.first.start_query("example.test", DnsQueryType::A).unwrap();
    assert_eq!(pair.first.start_query("example.test", DnsQueryType::A), Err(Error::QueryPending));
    let mut port = 0;
    pair.first.poll_dns(client, &mut port).unwrap();
    assert!(port >= 1024);
    pair.run(3);
    let mut data = [0; 400];
    let (count, from) = pair.second.udp(server).recv_slice(&mut data).unwrap();
    assert_eq!(from.endpoint, SocketAddr::new(FIRST, port));
    // the answer repeats the question, and one record gives its name 192.168.1.80 for a minute
    data[2] |= 0x80;
    data[7] = 1;
    let record = [0xc0, 12, 0, 1, 0, 1, 0, 0, 0, 60, 0, 4, 192, 168, 1, 80];
    data[count..count + 16].copy_from_slice(&record);
    pair.second.udp(server).send_slice(&data[..count + 16], from).unwrap();
    assert_eq!(pair.first.query_result(), Ok(None));
    pair.run(3);
    pair.first.poll_dns(client, &mut port).unwrap();
    assert_eq!(pair.first.query_result(), Ok(Some(vec![IpAddr::V4(Ipv4Addr::new(192, 168, 1, 80))])));
    assert_eq!(pair.first.query_result(), Err(Error::QueryFailed));
}

#[test]
fn a_hardware_address_is_told_of() {
    let mut plain = host(Medium::Ip, FIRST, 1);
    assert_eq!(plain.update_hardware_addr([2, 0, 0, 0, 0, 9]), Err(Error::Medium));
    let mut pair = Pair::new(true);
    assert_eq!(pair.first.update_hardware_addr([3, 0, 0, 0, 0, 9]), Err(Error::NotUnicast));
    assert_eq!(pair.first.update_hardware_addr([2, 0, 0, 0, 0, 9]), Ok(1));
    // a request to all that names 192.168.1.1 as the sender's address and as the one that is asked for (RFC 5227, 2.3)
    let mut frame = [0; 2048];
    assert_eq!(pair.first.transmit(&mut frame), Ok(42));
    assert_eq!((&frame[..6], &frame[6..12], &frame[12..14]), (&[255; 6][..], &[2, 0, 0, 0, 0, 9][..], &[8, 6][..]));
    assert_eq!((&frame[28..32], &frame[38..42]), (&[192, 168, 1, 1][..], &[192, 168, 1, 1][..]));
}

#[test]
fn settings_of_a_host_and_of_a_connection_are_taken() {
    let mut pair = Pair::new(true);
    assert_eq!(pair.first.set_reassembly_slots(usize::MAX), Err(Error::Memory));
    assert_eq!(pair.first.set_reassembly_slots(3), Ok(()));
    let stream = pair.first.add_tcp(64, 64).unwrap();
    assert_eq!(pair.first.tcp(stream).set_fine_timer(true), Ok(()));
}

#[test]
fn a_handle_names_one_socket() {
    let mut pair = Pair::new(true);
    let old = pair.first.add_udp(1, 64).unwrap();
    pair.first.set_user(old, 7).unwrap();
    assert_eq!(pair.first.user(old), Ok(7));
    pair.first.remove(old).unwrap();
    let next = pair.first.add_tcp(64, 48).unwrap();
    assert_ne!(old, next);
    assert_eq!(pair.first.user(old), Err(Error::NoSocket));
    assert_eq!(pair.first.set_user(old, 8), Err(Error::NoSocket));
    assert_eq!(pair.first.udp(old).bind(7), Err(Error::NoSocket));
    assert_eq!(pair.first.tcp(old).state(), Err(Error::NoSocket));
    assert_eq!(pair.first.remove(old), Err(Error::NoSocket));
    assert_eq!(pair.first.user(next), Ok(0));
    assert_eq!(pair.first.tcp(next).room(), Ok(48));
}

#[test]
fn bytes_are_written_and_read_where_they_stand() {
    let mut pair = Pair::new(false);
    let (one, other) = (pair.first.add_tcp(1000, 1000).unwrap(), pair.second.add_tcp(1000, 1000).unwrap());
    assert_eq!(pair.first.tcp(one).send(|room| (room.len(), ())), Err(Error::InvalidState));
    pair.second.tcp(other).listen(7).unwrap();
    pair.first.tcp(one).connect(SocketAddr::new(SECOND, 7), 4000).unwrap();
    pair.run(4);
    let (mut sent, mut read) = (0u32, 0u32);
    while read < 20_000 {
        let room = pair.first.tcp(one).send(|room| {
            let count = room.len().min(333);
            for byte in &mut room[..count] {
                *byte = sent as u8 ^ (sent >> 8) as u8;
                sent += 1;
            }
            (count, room.len())
        });
        assert!(room.unwrap() <= 1000);
        assert_eq!(pair.first.tcp(one).send(|room| (room.len() + 1, ())), Err(Error::TooLong));
        pair.run(20);
        assert_eq!(pair.second.tcp(other).recv(|bytes| (bytes.len() + 1, ())), Err(Error::TooLong));
        let all = |bytes: &[u8]| {
            for byte in bytes {
                assert_eq!(*byte, read as u8 ^ (read >> 8) as u8);
                read += 1;
            }
            (bytes.len(), bytes.len())
        };
        pair.second.tcp(other).recv(all).unwrap();
    }
}

/// A device that keeps its newest frames, and takes so many until it is emptied.
struct Kept {
    came: Vec<Vec<u8>>,
    went: Vec<Vec<u8>>,
    room: usize,
}

struct Came(Vec<u8>);

struct Leave<'a>(&'a mut Vec<Vec<u8>>);

impl RxToken for Came {
    fn consume<R, F: FnOnce(&[u8]) -> R>(self, f: F) -> R {
        f(&self.0)
    }
}

impl TxToken for Leave<'_> {
    fn consume<R, F: FnOnce(&mut [u8]) -> R>(self, len: usize, f: F) -> R {
        let mut frame = vec![0; len];
        let answer = f(&mut frame);
        self.0.push(frame);
        answer
    }
}

impl Device for Kept {
    type RxToken<'a> = Came;
    type TxToken<'a> = Leave<'a>;

    fn receive(&mut self, _: Instant) -> Option<(Came, Leave<'_>)> {
        let frame = self.came.pop()?;
        Some((Came(frame), Leave(&mut self.went)))
    }

    fn transmit(&mut self, _: Instant) -> Option<Leave<'_>> {
        (self.went.len() < self.room).then_some(Leave(&mut self.went))
    }

    fn capabilities(&self) -> DeviceCapabilities {
        DeviceCapabilities { medium: phy::Medium::Ip, max_transmission_unit: 1500 }
    }
}

#[test]
fn a_device_takes_what_it_has_room_for() {
    let mut device = Kept { came: Vec::new(), went: Vec::new(), room: 3 };
    let ethernet = Config { medium: Medium::Ethernet([2, 0, 0, 0, 0, 1]), max_transmission_unit: 0, random_seed: 1, isn_key: None, frames: 2, host_requirements: true, multicast_reports: true };
    assert_eq!(Interface::on_device(&ethernet, &device, Instant::ZERO).err(), Some(Error::Medium));
    let mut host = Interface::on_device(&Config { medium: Medium::Ip, ..ethernet }, &device, Instant::ZERO).unwrap();
    host.add_ip_addr(FIRST, 24).unwrap();
    host.reserve_frames(1500).unwrap();
    let socket = host.add_udp(8, 8192).unwrap();
    host.udp(socket).bind(9).unwrap();
    for _ in 0..8 {
        host.udp(socket).send_slice(b"datagram", SocketAddr::new(SECOND, 9)).unwrap();
    }
    for (poll, went) in [3, 3, 2, 0].into_iter().enumerate() {
        host.poll_device(Instant::from_millis(poll as i64), &mut device).unwrap();
        assert_eq!(device.went.len(), went);
        device.went.clear();
    }
    assert_eq!(host.transmit_with(|frame| frame.len()), None);
}

#[test]
fn a_stream_goes_round_a_loopback() {
    let mut device = Loopback::new(phy::Medium::Ip);
    let config = Config { medium: Medium::Ip, max_transmission_unit: 0, random_seed: 1, isn_key: None, frames: 4, host_requirements: false, multicast_reports: false };
    let mut host = Interface::on_device(&config, &device, Instant::ZERO).unwrap();
    host.add_ip_addr(IpAddr::V4(Ipv4Addr::LOCALHOST), 8).unwrap();
    let (client, server) = (host.add_tcp(4096, 4096).unwrap(), host.add_tcp(4096, 4096).unwrap());
    host.tcp(server).listen(7).unwrap();
    host.tcp(client).connect(SocketAddr::new(IpAddr::V4(Ipv4Addr::LOCALHOST), 7), 50000).unwrap();
    let mut now = 0;
    let mut run = |host: &mut Interface| {
        for _ in 0..30 {
            now += 1;
            host.poll_device(Instant::from_millis(now), &mut device).unwrap();
        }
    };
    run(&mut host);
    assert_eq!(host.tcp(server).state(), Ok(State::Established));
    host.tcp(client).send_slice(b"round and round").unwrap();
    run(&mut host);
    assert_eq!(host.tcp(server).recv(|bytes| (bytes.len(), bytes.to_vec())), Ok(b"round and round".to_vec()));
}

struct Counted(AtomicUsize);

impl Wake for Counted {
    fn wake(self: Arc<Self>) {
        self.0.fetch_add(1, Ordering::SeqCst);
    }
}

#[test]
fn tasks_that_wait_are_woken_once() {
    let mut pair = Pair::new(false);
    let (one, other) = (pair.first.add_udp(4, 4096).unwrap(), pair.second.add_udp(4, 4096).unwrap());
    pair.first.udp(one).bind(4000).unwrap();
    pair.second.udp(other).bind(7).unwrap();
    let woken = Arc::new(Counted(AtomicUsize::new(0)));
    let waker = Waker::from(woken.clone());
    pair.second.udp(other).register_recv_waker(&waker);
    pair.second.udp(other).register_recv_waker(&waker);
    pair.run(3);
    assert_eq!(woken.0.load(Ordering::SeqCst), 0);
    for _ in 0..2 {
        pair.first.udp(one).send_slice(b"wake", SocketAddr::new(SECOND, 7)).unwrap();
        pair.run(3);
        assert_eq!(woken.0.load(Ordering::SeqCst), 1);
    }
    pair.second.udp(other).register_send_waker(&waker);
    pair.second.remove(other).unwrap();
    assert_eq!(woken.0.load(Ordering::SeqCst), 2);
}
