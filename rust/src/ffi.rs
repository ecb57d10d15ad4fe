//! The calls of the static library, as `c/zemplovir.h` declares them.
use core::ffi::c_void;

/// A pointer of the user's, behind which nothing is read.
pub type User = *mut c_void;

#[repr(C)]
pub struct Host {
    pub inside: *mut c_void,
}

#[repr(C)]
#[derive(Clone, Copy, Default)]
pub struct Address {
    pub family: u8,
    pub bytes: [u8; 16],
}

#[repr(C)]
#[derive(Clone, Copy, Default)]
pub struct Endpoint {
    pub address: Address,
    pub port: u16,
}

#[repr(C)]
pub struct Hardware {
    pub bytes: [u8; 6],
}

#[repr(C)]
pub struct Settings {
    pub medium: u8,
    pub hardware: [u8; 6],
    pub mtu: usize,
    pub seed: u64,
    pub frames: usize,
    pub keyed: u8,
    pub isn_key: [u8; 16],
    pub without_host_requirements: u8,
    pub without_multicast_reports: u8,
}

/// What an interface has counted since it was made.
#[repr(C)]
#[derive(Clone, Copy, Debug, Default, PartialEq, Eq)]
pub struct Counters {
    /// Frames that came and were taken in.
    pub frames_in: u64,
    /// Frames that came and were refused.
    pub frames_dropped: u64,
    /// Frames that were fetched.
    pub frames_out: u64,
    /// Polls.
    pub polls: u64,
}

#[repr(C)]
#[derive(Clone, Copy, Default)]
pub struct Lease {
    pub event: u8,
    pub prefix: u8,
    pub address: Address,
    pub router: Address,
    pub server: Address,
    pub names: [Address; 3],
}

#[repr(C)]
#[derive(Clone, Copy, Default)]
pub struct Addresses {
    pub at: [Address; 4],
}

extern "C" {
    pub fn zv_host_new(host: *mut Host, settings: *const Settings, now: i64) -> u32;
    pub fn zv_host_free(host: *mut Host) -> u32;
    pub fn zv_address_add(host: *mut Host, address: *const Address, prefix: u8) -> u32;
    pub fn zv_address_remove(host: *mut Host, address: *const Address) -> u32;
    pub fn zv_route_add(host: *mut Host, network: *const Address, prefix: u8, router: *const Address) -> u32;
    pub fn zv_route_remove(host: *mut Host, network: *const Address, prefix: u8) -> u32;
    pub fn zv_group_join(host: *mut Host, group: *const Address) -> u32;
    pub fn zv_group_leave(host: *mut Host, group: *const Address) -> u32;
    pub fn zv_host_set_hardware(host: *mut Host, hardware: *const Hardware) -> u32;
    pub fn zv_host_update_hardware(host: *mut Host, hardware: *const Hardware, told: *mut usize) -> u32;
    pub fn zv_host_set_any_ip(host: *mut Host, enabled: u8) -> u32;
    pub fn zv_host_set_reassembly_timeout(host: *mut Host, micros: u64) -> u32;
    pub fn zv_host_set_reassembly_slots(host: *mut Host, count: usize) -> u32;
    pub fn zv_frame_in(host: *mut Host, frame: *const u8, length: usize) -> u32;
    pub fn zv_frame_out(host: *mut Host, frame: *mut u8, length: usize, count: *mut usize) -> u32;
    pub fn zv_frame_out_length(host: *mut Host, count: *mut usize) -> u32;
    pub fn zv_frame_peek_out(host: *mut Host, frame: *mut *const u8, count: *mut usize) -> u32;
    pub fn zv_frame_skip_out(host: *mut Host) -> u32;
    pub fn zv_frames_reserve(host: *mut Host, length: usize) -> u32;
    pub fn zv_trace_line(
        host: *mut Host,
        now: i64,
        sent: u8,
        frame: *const u8,
        length: usize,
        text: *mut u8,
        size: usize,
        count: *mut usize,
    ) -> u32;
    pub fn zv_poll(host: *mut Host, now: i64, budget: u16, changed: *mut u8) -> u32;
    pub fn zv_poll_at(host: *mut Host, now: i64, at: *mut i64) -> u32;
    pub fn zv_counters(host: *mut Host, counters: *mut Counters) -> u32;
    pub fn zv_socket_remove(host: *mut Host, socket: usize) -> u32;
    pub fn zv_socket_set_user(host: *mut Host, socket: usize, user: User) -> u32;
    pub fn zv_socket_user(host: *mut Host, socket: usize, user: *mut User) -> u32;
    pub fn zv_udp_new(host: *mut Host, packets: usize, bytes: usize, socket: *mut usize) -> u32;
    pub fn zv_udp_bind(host: *mut Host, socket: usize, address: *const Address, port: u16) -> u32;
    pub fn zv_udp_send(
        host: *mut Host,
        socket: usize,
        bytes: *const u8,
        length: usize,
        remote: *const Endpoint,
        local: *const Address,
    ) -> u32;
    pub fn zv_udp_recv(
        host: *mut Host,
        socket: usize,
        bytes: *mut u8,
        length: usize,
        count: *mut usize,
        remote: *mut Endpoint,
        local: *mut Address,
    ) -> u32;
    pub fn zv_udp_set_hop_limit(host: *mut Host, socket: usize, limit: u8) -> u32;
    pub fn zv_udp_close(host: *mut Host, socket: usize) -> u32;
    pub fn zv_tcp_new(host: *mut Host, received: usize, queued: usize, socket: *mut usize) -> u32;
    pub fn zv_tcp_listen(host: *mut Host, socket: usize, address: *const Address, port: u16) -> u32;
    pub fn zv_tcp_connect(
        host: *mut Host,
        socket: usize,
        remote: *const Endpoint,
        address: *const Address,
        port: u16,
    ) -> u32;
    pub fn zv_tcp_send(host: *mut Host, socket: usize, bytes: *const u8, length: usize, count: *mut usize) -> u32;
    pub fn zv_tcp_recv(host: *mut Host, socket: usize, bytes: *mut u8, length: usize, count: *mut usize) -> u32;
    pub fn zv_tcp_peek(host: *mut Host, socket: usize, bytes: *mut *const u8, count: *mut usize) -> u32;
    #[allow(dead_code)]
    pub fn zv_tcp_done(host: *mut Host, socket: usize, wanted: usize, count: *mut usize) -> u32;
    pub fn zv_tcp_skip(host: *mut Host, socket: usize, count: usize) -> u32;
    pub fn zv_tcp_reserve(host: *mut Host, socket: usize, bytes: *mut *mut u8, count: *mut usize) -> u32;
    pub fn zv_tcp_commit(host: *mut Host, socket: usize, count: usize) -> u32;
    pub fn zv_tcp_close(host: *mut Host, socket: usize) -> u32;
    pub fn zv_tcp_abort(host: *mut Host, socket: usize) -> u32;
    pub fn zv_tcp_state(host: *mut Host, socket: usize, state: *mut u8) -> u32;
    pub fn zv_tcp_end_reason(host: *mut Host, socket: usize, reason: *mut u8) -> u32;
    pub fn zv_tcp_peer(host: *mut Host, socket: usize, local: *mut Endpoint, remote: *mut Endpoint) -> u32;
    pub fn zv_tcp_queues(host: *mut Host, socket: usize, received: *mut usize, queued: *mut usize) -> u32;
    pub fn zv_tcp_room(host: *mut Host, socket: usize, room: *mut usize) -> u32;
    pub fn zv_tcp_set_timeout(host: *mut Host, socket: usize, micros: u64) -> u32;
    pub fn zv_tcp_set_keep_alive(host: *mut Host, socket: usize, micros: u64) -> u32;
    pub fn zv_tcp_set_ack_delay(host: *mut Host, socket: usize, micros: u64) -> u32;
    pub fn zv_tcp_set_min_rto(host: *mut Host, socket: usize, micros: u64) -> u32;
    pub fn zv_tcp_set_fine_timer(host: *mut Host, socket: usize, enabled: u8) -> u32;
    pub fn zv_tcp_set_nagle(host: *mut Host, socket: usize, enabled: u8) -> u32;
    pub fn zv_tcp_set_hop_limit(host: *mut Host, socket: usize, limit: u8) -> u32;
    pub fn zv_tcp_set_retries(host: *mut Host, socket: usize, limit: u16) -> u32;
    pub fn zv_tcp_set_congestion_control(host: *mut Host, socket: usize, control: u8) -> u32;
    pub fn zv_tcp_set_timestamps(host: *mut Host, socket: usize, enabled: u8, first: u32) -> u32;
    pub fn zv_tcp_pause_synack(host: *mut Host, socket: usize, paused: u8) -> u32;
    pub fn zv_listener_new(host: *mut Host, address: *const Address, port: u16, listener: *mut usize) -> u32;
    pub fn zv_listener_add(host: *mut Host, listener: usize, socket: usize) -> u32;
    pub fn zv_listener_add_keeper(host: *mut Host, listener: usize, socket: usize) -> u32;
    pub fn zv_listener_accept(host: *mut Host, listener: usize, socket: *mut usize) -> u32;
    pub fn zv_listener_give_back(host: *mut Host, listener: usize, socket: usize) -> u32;
    pub fn zv_listener_remove(host: *mut Host, listener: usize) -> u32;
    pub fn zv_icmp_new(host: *mut Host, packets: usize, bytes: usize, socket: *mut usize) -> u32;
    pub fn zv_icmp_bind(host: *mut Host, socket: usize, identifier: u16) -> u32;
    pub fn zv_icmp_bind_udp(host: *mut Host, socket: usize, address: *const Address, port: u16) -> u32;
    pub fn zv_icmp_bind_tcp(host: *mut Host, socket: usize, address: *const Address, port: u16) -> u32;
    pub fn zv_icmp_set_hop_limit(host: *mut Host, socket: usize, limit: u8) -> u32;
    pub fn zv_icmp_send(host: *mut Host, socket: usize, bytes: *const u8, length: usize, remote: *const Address) -> u32;
    pub fn zv_icmp_recv(
        host: *mut Host,
        socket: usize,
        bytes: *mut u8,
        length: usize,
        count: *mut usize,
        remote: *mut Address,
    ) -> u32;
    pub fn zv_raw_new(
        host: *mut Host,
        family: u8,
        protocol: u16,
        packets: usize,
        bytes: usize,
        socket: *mut usize,
    ) -> u32;
    pub fn zv_raw_send(host: *mut Host, socket: usize, bytes: *const u8, length: usize) -> u32;
    pub fn zv_raw_recv(host: *mut Host, socket: usize, bytes: *mut u8, length: usize, count: *mut usize) -> u32;
    pub fn zv_dhcp_new(host: *mut Host, seed: u64) -> u32;
    pub fn zv_dhcp_recv(
        host: *mut Host,
        bytes: *const u8,
        length: usize,
        remote: *const Endpoint,
        local: *const Address,
    ) -> u32;
    pub fn zv_dhcp_send(
        host: *mut Host,
        bytes: *mut u8,
        length: usize,
        count: *mut usize,
        remote: *mut Endpoint,
        local: *mut Endpoint,
    ) -> u32;
    pub fn zv_dhcp_sent(host: *mut Host, sent: u8) -> u32;
    pub fn zv_dhcp_poll(host: *mut Host, now: i64, lease: *mut Lease) -> u32;
    pub fn zv_dhcp_poll_at(host: *mut Host, at: *mut i64) -> u32;
    pub fn zv_dns_new(host: *mut Host, first: *const Address, second: *const Address, third: *const Address) -> u32;
    pub fn zv_dns_ask(host: *mut Host, name: *const u8, length: usize, family: u8) -> u32;
    pub fn zv_dns_recv(
        host: *mut Host,
        bytes: *const u8,
        length: usize,
        remote: *const Endpoint,
        local: *const Endpoint,
    ) -> u32;
    pub fn zv_dns_send(
        host: *mut Host,
        bytes: *mut u8,
        length: usize,
        count: *mut usize,
        remote: *mut Endpoint,
        local: *mut Endpoint,
    ) -> u32;
    pub fn zv_dns_sent(host: *mut Host, sent: u8) -> u32;
    pub fn zv_dns_result(host: *mut Host, addresses: *mut Addresses) -> u32;
    pub fn zv_dns_poll_at(host: *mut Host, at: *mut i64) -> u32;
}
