// How many frames of each kind of flood a host takes in a second of one processor, what it sends in answer, and whether it still answers others:
// frames that no socket wants, that ask for an answer to nobody, or that fill a table. A link in memory; frames are made before the clock runs.
//
//     floods [FRAMES]
#include "zemplovir.h"
#include <stdio.h>
#include <stdlib.h>
#include <string.h>
#include <time.h>

#define OK(call) do { uint32_t c_ = (call); if (c_ != ZV_OK) { fprintf(stderr, "line %d: %s: %u\n", __LINE__, #call, c_); exit(2); } } while (0)

enum { FRAMES = 4096, BATCH = 64, LONGEST = 1514 };
static const uint8_t host_hardware[6] = {2, 0, 0, 0, 0, 2}, peer_hardware[6] = {2, 0, 0, 0, 0, 10}, all[6] = {255, 255, 255, 255, 255, 255};
static const uint8_t host_v4[4] = {10, 77, 0, 2}, peer_v4[4] = {10, 77, 0, 10};
static const uint8_t host_v6[16] = {0xfd, [15] = 2}, peer_v6[16] = {0xfd, [15] = 10};
static struct { uint8_t bytes[LONGEST]; size_t length; } frames[FRAMES];
static zv_host host;
static int64_t now = 1000000;
static uint32_t word = 1;

static uint32_t next_word(void) { word = word * 1664525u + 1013904223u; return word >> 8; }
static void put16(uint8_t *at, uint32_t v) { at[0] = (uint8_t)(v >> 8); at[1] = (uint8_t)v; }

static uint32_t add(const uint8_t *at, size_t length, uint32_t sum) {
    for (size_t i = 0; i + 1 < length; i += 2) sum += (uint32_t)at[i] << 8 | at[i + 1];
    if (length & 1) sum += (uint32_t)at[length - 1] << 8;
    while (sum >> 16) sum = (sum & 0xffff) + (sum >> 16);
    return sum;
}

static uint8_t *ethernet(uint8_t *f, const uint8_t *to, uint32_t type) {
    memcpy(f, to, 6);
    memcpy(f + 6, peer_hardware, 6);
    put16(f + 12, type);
    return f + 14;
}

// An IPv4 packet without options: its payload's place.
static uint8_t *ipv4(uint8_t *f, const uint8_t *hardware, const uint8_t *from, const uint8_t *to, uint8_t protocol, size_t payload, uint32_t cut) {
    uint8_t *h = ethernet(f, hardware, 0x0800);
    memset(h, 0, 20);
    h[0] = 0x45;
    put16(h + 2, 20 + payload);
    put16(h + 4, next_word());
    put16(h + 6, cut);
    h[8] = 64;
    h[9] = protocol;
    memcpy(h + 12, from, 4);
    memcpy(h + 16, to, 4);
    put16(h + 10, ~add(h, 20, 0));
    return h + 20;
}

static uint8_t *ipv6(uint8_t *f, const uint8_t *hardware, const uint8_t *from, const uint8_t *to, uint8_t next, size_t payload, uint8_t limit) {
    uint8_t *h = ethernet(f, hardware, 0x86dd);
    memset(h, 0, 8);
    h[0] = 0x60;
    put16(h + 4, payload);
    h[6] = next;
    h[7] = limit;
    memcpy(h + 8, from, 16);
    memcpy(h + 24, to, 16);
    return h + 40;
}

// The checksum over the pseudo-header of either family and what follows, at `at`.
static void summed(uint8_t *payload, size_t length, const uint8_t *addresses, size_t size, uint8_t protocol, size_t at) {
    uint8_t tail[4] = {0, protocol, (uint8_t)(length >> 8), (uint8_t)length};
    put16(payload + at, 0);
    put16(payload + at, ~add(payload, length, add(tail, 4, add(addresses, size, 0))));
}

static void v4_nobody(uint8_t *a) { memcpy(a, (uint8_t[]){10, 88, (uint8_t)next_word(), (uint8_t)(1 + next_word() % 254)}, 4); }
static void v4_beside(uint8_t *a) { memcpy(a, (uint8_t[]){10, 77, (uint8_t)(1 + next_word() % 250), (uint8_t)(1 + next_word() % 254)}, 4); }
static void v6_beside(uint8_t *a) { memcpy(a, peer_v6, 16); put16(a + 12, next_word()); put16(a + 14, next_word()); }

static size_t segment(uint8_t *f, const uint8_t *from, uint32_t port, uint8_t flags) {
    uint8_t *t = ipv4(f, host_hardware, from, host_v4, 6, 20, 0);
    memset(t, 0, 20);
    put16(t, 1024 + next_word() % 60000);
    put16(t + 2, port);
    put16(t + 4, next_word());
    put16(t + 6, next_word());
    put16(t + 8, next_word());
    t[12] = 0x50;
    t[13] = flags;
    put16(t + 14, 64240);
    summed(t, 20, f + 26, 8, 6, 16);
    return 54;
}

static size_t datagram(uint8_t *f, const uint8_t *hardware, const uint8_t *from, const uint8_t *to, uint32_t port, size_t length) {
    uint8_t *u = ipv4(f, hardware, from, to, 17, 8 + length, 0);
    put16(u, 1024 + next_word() % 60000);
    put16(u + 2, port);
    put16(u + 4, 8 + length);
    memset(u + 8, 0, length);
    summed(u, 8 + length, f + 26, 8, 17, 6);
    return 42 + length;
}

static size_t arp(uint8_t *f, const uint8_t *from, const uint8_t *to) {
    uint8_t *a = ethernet(f, all, 0x0806);
    memcpy(a, (uint8_t[]){0, 1, 8, 0, 6, 4, 0, 1, 2, 0}, 10);
    put16(a + 10, next_word());
    put16(a + 12, next_word());
    memcpy(f + 6, a + 8, 6);
    memcpy(a + 14, from, 4);
    memset(a + 18, 0, 6);
    memcpy(a + 24, to, 4);
    return 42;
}

// THE FLOODS

static size_t pings(uint8_t *f) {
    uint8_t *p = ipv4(f, host_hardware, peer_v4, host_v4, 1, 64, 0);
    memset(p, 0, 64);
    p[0] = 8;
    put16(p + 2, ~add(p, 64, 0));
    return 98;
}
static size_t other_type(uint8_t *f) { ethernet(f, host_hardware, 0x88b5); memset(f + 14, 0, 46); return 60; }
static size_t other_station(uint8_t *f) { size_t n = pings(f); f[5] = 99; return n; }
static size_t other_host(uint8_t *f) { return datagram(f, host_hardware, peer_v4, (uint8_t[]){10, 77, 0, 77}, 9, 18); }
static size_t bad_header_sum(uint8_t *f) { size_t n = pings(f); f[24] ^= 1; return n; }
static size_t bad_segment_sum(uint8_t *f) { size_t n = segment(f, peer_v4, 80, 2); f[50] ^= 1; return n; }
static size_t syns_to_nobody(uint8_t *f) { return segment(f, peer_v4, 81, 2); }
static size_t acks_to_nobody(uint8_t *f) { return segment(f, peer_v4, 81, 16); }
static size_t syns_from_nobody(uint8_t *f) { uint8_t a[4]; v4_nobody(a); return segment(f, a, 80, 2); }
static size_t syns_from_beside(uint8_t *f) { uint8_t a[4]; v4_beside(a); return segment(f, a, 80, 2); }
static size_t datagrams_to_nobody(uint8_t *f) { return datagram(f, host_hardware, peer_v4, host_v4, 9, 18); }
static size_t datagrams_from_beside(uint8_t *f) { uint8_t a[4]; v4_beside(a); return datagram(f, host_hardware, a, host_v4, 9, 18); }
static size_t long_datagrams(uint8_t *f) { return datagram(f, host_hardware, peer_v4, host_v4, 9, 1472); }
static size_t queue_filled(uint8_t *f) { return datagram(f, host_hardware, peer_v4, host_v4, 7, 18); }
static size_t broadcasts(uint8_t *f) { return datagram(f, all, peer_v4, (uint8_t[]){10, 77, 255, 255}, 9, 18); }
static size_t from_own_address(uint8_t *f) { return datagram(f, host_hardware, host_v4, host_v4, 9, 18); }
static size_t first_fragments(uint8_t *f) { uint8_t a[4]; v4_beside(a); memset(ipv4(f, host_hardware, a, host_v4, 17, 1480, 0x2000), 0, 1480); return 1514; }
static size_t later_fragments(uint8_t *f) { uint8_t a[4]; v4_beside(a); memset(ipv4(f, host_hardware, a, host_v4, 17, 1480, 0x20b9), 0, 1480); return 1514; }
static size_t arp_for_us(uint8_t *f) { uint8_t a[4]; v4_beside(a); return arp(f, a, host_v4); }
static size_t arp_for_others(uint8_t *f) { uint8_t a[4]; v4_beside(a); return arp(f, a, (uint8_t[]){10, 77, 0, 77}); }
static size_t blind_errors(uint8_t *f) {
    uint8_t *p = ipv4(f, host_hardware, peer_v4, host_v4, 1, 36, 0);
    memset(p, 0, 36);
    memcpy(p, (uint8_t[]){3, 4}, 2);
    put16(p + 6, 576);
    memcpy(p + 8, (uint8_t[]){0x45, 0, 5, 0xdc, 0, 1, 0x40, 0, 64, 6}, 10);
    memcpy(p + 20, host_v4, 4);
    memcpy(p + 24, peer_v4, 4);
    put16(p + 28, 80);
    put16(p + 30, next_word());
    put16(p + 32, next_word());
    put16(p + 2, ~add(p, 36, 0));
    return 70;
}
static size_t solicitations(uint8_t *f) {
    uint8_t a[16];
    v6_beside(a);
    uint8_t *p = ipv6(f, (uint8_t[]){0x33, 0x33, 255, 0, 0, 2}, a, (uint8_t[]){0xff, 2, [11] = 1, 255, 0, 0, 2}, 58, 32, 255);
    memset(p, 0, 32);
    p[0] = 135;
    memcpy(p + 8, host_v6, 16);
    memcpy(p + 24, (uint8_t[]){1, 1}, 2);
    memcpy(p + 26, peer_hardware, 6);
    summed(p, 32, f + 22, 32, 58, 2);
    return 86;
}
static size_t option_headers(uint8_t *f) {
    uint8_t *p = ipv6(f, host_hardware, peer_v6, host_v6, 60, 88, 64);
    memset(p, 0, 88);
    for (int i = 0; i < 10; i++) memcpy(p + 8 * i, (uint8_t[]){i < 9 ? 60 : 17, 0, 1, 4}, 4);
    uint8_t *u = p + 80;
    put16(u, 4000);
    put16(u + 2, 9);
    put16(u + 4, 8);
    summed(u, 8, f + 22, 32, 17, 6);
    return 142;
}
static size_t v6_from_beside(uint8_t *f) {
    uint8_t a[16];
    v6_beside(a);
    uint8_t *u = ipv6(f, host_hardware, a, host_v6, 17, 26, 64);
    memset(u, 0, 26);
    put16(u, 4000);
    put16(u + 2, 9);
    put16(u + 4, 26);
    summed(u, 26, f + 22, 32, 17, 6);
    return 80;
}

static const struct { const char *name; size_t (*made)(uint8_t *); } kinds[] = {
    {"echo requests; each is answered", pings},
    {"frames of a type that nobody reads", other_type},
    {"frames to another station", other_station},
    {"packets to another host", other_host},
    {"a wrong sum of an IPv4 header", bad_header_sum},
    {"a wrong sum of a segment", bad_segment_sum},
    {"SYNs to a port that nobody listens on", syns_to_nobody},
    {"acknowledgements to it", acks_to_nobody},
    {"SYNs to a listener from behind a router that nobody is", syns_from_nobody},
    {"SYNs to a listener from addresses beside that nobody has", syns_from_beside},
    {"datagrams to a port that nobody reads", datagrams_to_nobody},
    {"the same from addresses beside that nobody has", datagrams_from_beside},
    {"the same of 1472 bytes", long_datagrams},
    {"datagrams to a socket whose queue is full", queue_filled},
    {"datagrams to all", broadcasts},
    {"packets from the own address", from_own_address},
    {"first fragments whose rest never comes", first_fragments},
    {"later fragments alone", later_fragments},
    {"ARP requests for the host from new addresses", arp_for_us},
    {"ARP requests for others", arp_for_others},
    {"errors that quote what was never sent", blind_errors},
    {"solicitations of IPv6 from new addresses", solicitations},
    {"ten option headers of IPv6 before a datagram", option_headers},
    {"datagrams of IPv6 from addresses beside that nobody has", v6_from_beside},
};

static double seconds(void) {
    struct timespec t;
    clock_gettime(CLOCK_PROCESS_CPUTIME_ID, &t);
    return (double)t.tv_sec + (double)t.tv_nsec * 1e-9;
}

// What the host sends goes away; answers how many frames that were, and whether an echo reply was among them.
static size_t emptied(int *replied) {
    static uint8_t f[65549];
    size_t count = 0, length;
    while (zv_frame_out(&host, f, sizeof f, &length) == ZV_OK) {
        count++;
        if (replied && length >= 35 && f[12] == 8 && f[13] == 0 && f[23] == 1 && f[34] == 0) *replied = 1;
    }
    return count;
}

static void make_host(void) {
    zv_settings s = {.medium = ZV_ETHERNET, .mtu = LONGEST, .seed = 1, .frames = 2 * BATCH};
    memcpy(s.hardware, host_hardware, 6);
    OK(zv_host_new(&host, &s, now));
    zv_address v4 = zv_ipv4(10, 77, 0, 2), router = zv_ipv4(10, 77, 0, 1), zero = zv_ipv4(0, 0, 0, 0), v6 = {.family = 6}, any = zv_any();
    memcpy(v6.bytes, host_v6, 16);
    OK(zv_address_add(&host, &v4, 16));
    OK(zv_address_add(&host, &v6, 64));
    OK(zv_route_add(&host, &zero, 0, &router));
    size_t listener, socket;
    OK(zv_listener_new(&host, &any, 80, &listener));
    for (int i = 0; i < 16; i++) {
        OK(zv_tcp_new(&host, 4096, 4096, &socket));
        OK(zv_listener_add(&host, listener, socket));
    }
    OK(zv_udp_new(&host, 8, 4096, &socket));
    OK(zv_udp_bind(&host, socket, &any, 7));
}

// The peer is known, and is answered.
static int answers_others(void) {
    uint8_t f[LONGEST], changed;
    int replied = 0;
    for (int i = 0; i < 3 && !replied; i++) {
        (void)!zv_frame_in(&host, f, arp(f, peer_v4, host_v4));
        (void)!zv_frame_in(&host, f, pings(f));
        OK(zv_poll(&host, now, BATCH, &changed));
        emptied(&replied);
        now += 1000;
    }
    return replied;
}

static void flood(const char *name, size_t (*made)(uint8_t *), uint32_t total) {
    make_host();
    if (!answers_others()) { fprintf(stderr, "no echo before: %s\n", name); exit(2); }
    for (int i = 0; i < FRAMES; i++) frames[i].length = made(frames[i].bytes);
    size_t sent = 0;
    uint8_t changed;
    double worst = 0, start = seconds();
    for (uint32_t done = 0; done < total; done += BATCH) {
        double before = seconds();
        for (uint32_t i = done; i < done + BATCH; i++) (void)!zv_frame_in(&host, frames[i % FRAMES].bytes, frames[i % FRAMES].length);
        OK(zv_poll(&host, now, BATCH, &changed));
        sent += emptied(NULL);
        double took = seconds() - before;
        if (took > worst) worst = took;
        now += BATCH * 10;
    }
    double took = seconds() - start;
    printf("%s,%.0f,%.2f,%.0f,%s\n", name, total / took / 1000, (double)sent / total, worst * 1e6, answers_others() ? "yes" : "no");
    fflush(stdout);
    OK(zv_host_free(&host));
}

int main(int count, char **words) {
    uint32_t total = count > 1 ? (uint32_t)strtoul(words[1], NULL, 10) : 400000;
    printf("flood,thousands of frames a second,frames sent for each,longest poll of %d in microseconds,an echo is answered after it\n", BATCH);
    for (size_t i = 0; i < sizeof kinds / sizeof *kinds; i++) flood(kinds[i].name, kinds[i].made, total);
    return 0;
}
