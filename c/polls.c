/* That a poll asks for no memory but what its device's sends take: two hosts with sockets of all kinds, few and many, talk twice. The second
 * time each request for memory during a poll is refused; nothing may be asked for, and all that goes and comes must be as the first time. What
 * their devices need, a buffer for each frame that waits, was there before. It ends with status 1 where that isn't so. Link it with
 * -Wl,--wrap=malloc,--wrap=realloc.
 */
#include "zemplovir.h"

#include <stdio.h>
#include <stdlib.h>
#include <string.h>

void *__real_malloc(size_t size);
void *__real_realloc(void *block, size_t size);
void *__wrap_malloc(size_t size);
void *__wrap_realloc(void *block, size_t size);

static int polling, refusing;
static size_t asked, calls;

/* Whether a request is refused. Those that come during a poll are counted. */
static int is_refused(size_t size)
{
    if (!polling)
        return 0;
    asked += size;
    calls++;
    return refusing;
}

void *__wrap_malloc(size_t size)
{
    return is_refused(size) ? NULL : __real_malloc(size);
}

void *__wrap_realloc(void *block, size_t size)
{
    return is_refused(size) ? NULL : __real_realloc(block, size);
}

enum { FRAMES = 16, LONGEST = 1514 };

static zv_host hosts[2];
static size_t tcp[2], raw, icmp, listener;
static uint64_t seen; /* of all that went and came, by FNV-1a */
static const zv_address any;

static void see(const uint8_t *bytes, size_t length)
{
    for (size_t i = 0; i < length; i++)
        seen = (seen ^ bytes[i]) * 0x100000001b3;
}

/* A queue may be full: then a later turn writes. */
static void try_to(uint32_t code)
{
    (void)code;
}

static void must(const char *what, uint32_t code)
{
    if (code == ZV_OK)
        return;
    printf("%s: %s\n", what, zv_strerror(code));
    exit(1);
}

static zv_address address_of(int host)
{
    return zv_ipv4(192, 168, 1, (uint8_t)(host + 1));
}

static void begin(void)
{
    for (int i = 0; i < 2; i++) {
        const zv_settings settings = {
            .medium = ZV_ETHERNET, .hardware = {2, 0, 0, 0, 0, (uint8_t)(i + 1)}, .mtu = LONGEST, .seed = 1, .frames = FRAMES};
        const zv_address own = address_of(i);
        must("a host", zv_host_new(&hosts[i], &settings, 0));
        must("an address", zv_address_add(&hosts[i], &own, 24));
    }
}

/* One poll of each host; what it sends comes to the other. Answers how many frames went. */
static size_t turn(int64_t now)
{
    uint8_t frame[LONGEST], changed;
    size_t length, went = 0;
    for (int i = 0; i < 2; i++) {
        polling = 1;
        const uint32_t code = zv_poll(&hosts[i], now, FRAMES, &changed);
        polling = 0;
        must("a poll", code);
        for (; zv_frame_out(&hosts[i], frame, sizeof frame, &length) == ZV_OK; went++) {
            see(frame, length);
            zv_frame_in(&hosts[1 - i], frame, length);
        }
    }
    return went;
}

/* Each host sends as many of the longest frames as may wait: from then on its device has a buffer for each. */
static int64_t warm(int64_t now)
{
    static const uint8_t bytes[1472];
    for (int i = 0; i < 2; i++) {
        const zv_endpoint remote = {address_of(1 - i), 9};
        size_t socket;
        must("a socket", zv_udp_new(&hosts[i], FRAMES, FRAMES * sizeof bytes, &socket));
        must("its port", zv_udp_bind(&hosts[i], socket, &any, 10));
        for (int k = 0; k < 2 * FRAMES; k++) {
            for (int n = 0; n < FRAMES; n++)
                zv_udp_send(&hosts[i], socket, bytes, sizeof bytes, &remote, &any);
            turn(now += 1000);
        }
        must("no socket", zv_socket_remove(&hosts[i], socket));
    }
    return now + 10000000;
}

/* Sockets of all kinds, and `many` of UDP beside them. */
static void fill(uint16_t many)
{
    size_t second, keeper, socket;
    for (int i = 0; i < 2; i++) {
        must("TCP", zv_tcp_new(&hosts[i], 4096, 4096, &tcp[i]));
        must("ICMP", zv_icmp_new(&hosts[i], 4, 1024, i == 0 ? &icmp : &socket));
        must("raw", zv_raw_new(&hosts[i], 4, 1, 4, 1024, i == 1 ? &raw : &socket));
        for (uint16_t k = 0; k < many; k++) {
            must("UDP", zv_udp_new(&hosts[i], 2, 512, &socket));
            must("a port", zv_udp_bind(&hosts[i], socket, &any, (uint16_t)(1000 + k)));
        }
    }
    must("an identifier", zv_icmp_bind(&hosts[0], icmp, 9));
    /* Where no socket is free, a half-open one gives way to the next SYN: with two a client has the time. */
    must("a second", zv_tcp_new(&hosts[1], 4096, 4096, &second));
    must("a keeper", zv_tcp_new(&hosts[1], 0, 0, &keeper));
    must("a listener", zv_listener_new(&hosts[1], &any, 80, &listener));
    must("its socket", zv_listener_add(&hosts[1], listener, tcp[1]));
    must("its second", zv_listener_add(&hosts[1], listener, second));
    must("its keeper", zv_listener_add_keeper(&hosts[1], listener, keeper));
}

/* What came to the socket of UDP at this place, of host 1. */
static void take_udp(size_t place)
{
    uint8_t bytes[512];
    size_t length;
    zv_endpoint remote;
    zv_address local;
    while (zv_udp_recv(&hosts[1], place, bytes, sizeof bytes, &length, &remote, &local) == ZV_OK)
        see(bytes, length);
}

/* Datagrams to every port and to one that is shut, a ping, a connection with text each way, and its end. */
static void talk(int64_t now, uint16_t many)
{
    static const uint8_t ping[] = {8, 0, 0, 0, 0, 9, 0, 1, 'z', 'v'};
    uint8_t bytes[512];
    const zv_address to = address_of(1);
    zv_endpoint remote = {to, 80};
    size_t length, accepted = SIZE_MAX;
    must("connect", zv_tcp_connect(&hosts[0], tcp[0], &remote, &any, 4000));
    for (int64_t k = 0; k < 400; k++) {
        const size_t first = 3; /* behind TCP, ICMP and raw */
        memset(bytes, (int)k, sizeof bytes);
        remote.port = (uint16_t)(1000 + k % (many + 1)); /* the last one is shut */
        zv_udp_send(&hosts[0], first + (size_t)(k % many), bytes, (size_t)(k % 200), &remote, &any);
        if (k % 16 == 0)
            zv_icmp_send(&hosts[0], icmp, ping, sizeof ping, &to);
        try_to(zv_tcp_send(&hosts[0], tcp[0], bytes, 300, &length));
        turn(now + k * 50000);
        if (accepted == SIZE_MAX && zv_listener_accept(&hosts[1], listener, &length) == ZV_OK)
            accepted = length;
        for (uint16_t n = 0; n < many; n++)
            take_udp(first + n);
        while (accepted != SIZE_MAX && zv_tcp_recv(&hosts[1], accepted, bytes, sizeof bytes, &length) == ZV_OK && length != 0) {
            see(bytes, length);
            try_to(zv_tcp_send(&hosts[1], accepted, bytes, length / 2, &length));
        }
        while (zv_tcp_recv(&hosts[0], tcp[0], bytes, sizeof bytes, &length) == ZV_OK && length != 0)
            see(bytes, length);
        while (zv_icmp_recv(&hosts[0], icmp, bytes, sizeof bytes, &length, &remote.address) == ZV_OK)
            see(bytes, length);
        while (zv_raw_recv(&hosts[1], raw, bytes, sizeof bytes, &length) == ZV_OK)
            see(bytes, length);
        if (k == 300)
            zv_tcp_close(&hosts[0], tcp[0]);
        if (k == 320)
            zv_tcp_close(&hosts[1], accepted);
    }
    if (accepted == SIZE_MAX)
        must("no connection came", ZV_EMPTY);
}

/* All that goes and comes beside so many sockets of UDP. */
static uint64_t course(uint16_t many, int refuse)
{
    refusing = 0;
    begin();
    const int64_t now = warm(0);
    asked = calls = 0;
    seen = 0xcbf29ce484222325;
    refusing = refuse;
    fill(many);
    talk(now, many);
    for (int i = 0; i < 2; i++)
        zv_host_free(&hosts[i]);
    return seen;
}

int main(void)
{
    static const uint16_t counts[] = {1, 2, 5, 60, 1000};
    int failed = 0;
    for (size_t i = 0; i < sizeof counts / sizeof counts[0]; i++) {
        const uint64_t free = course(counts[i], 0);
        const size_t bytes = asked, requests = calls;
        const uint64_t refused = course(counts[i], 1);
        printf("%u sockets of UDP beside those of other kinds: %zu bytes in %zu calls during polls; refused, %s\n", counts[i], bytes, requests,
               free == refused ? "all goes and comes as before" : "OTHER FRAMES GO");
        failed |= calls != 0 || requests != 0 || free != refused;
    }
    return failed;
}
