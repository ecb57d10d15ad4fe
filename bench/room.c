// The stack that calls of the library for C take: a host, a connection with 1 MiB of text, and 1,000 datagrams to the other host and back, over
// IPv4 without Ethernet at an MTU of 1500 (bench/room).
#include "painted.h"
#include "zemplovir.h"

#include <stdio.h>
#include <stdlib.h>

enum { BYTES = 1 << 20, TRIPS = 1000, ROOM = 65536 };
static zv_host hosts[2];
static size_t udp[2], tcp[2];
static uint8_t text[ROOM], got[ROOM], frame[1500];
static int64_t now;
static const zv_address any = {0, {0}};

static void do_it(uint32_t code) {
    if (code == ZV_OK) return;
    fprintf(stderr, "room: %s\n", zv_strerror(code));
    exit(1);
}

static void make(void) {
    for (uint8_t i = 0; i < 2; i++) {
        const zv_settings settings = {.medium = ZV_IP, .mtu = 1500, .seed = 1, .frames = 256};
        const zv_address own = zv_ipv4(192, 168, 1, i + 1);
        do_it(zv_host_new(&hosts[i], &settings, now));
        do_it(zv_address_add(&hosts[i], &own, 24));
        do_it(zv_udp_new(&hosts[i], 2, 4096, &udp[i]));
        do_it(zv_udp_bind(&hosts[i], udp[i], &any, 7));
        do_it(zv_tcp_new(&hosts[i], ROOM, ROOM, &tcp[i]));
    }
}

// Each host is polled once, and its frames go over.
static void turn(void) {
    uint8_t changed;
    size_t count;
    now += 1000;
    for (int i = 0; i < 2; i++) {
        do_it(zv_poll(&hosts[i], now, 64, &changed));
        while (zv_frame_out(&hosts[i], frame, sizeof frame, &count) == ZV_OK) do_it(zv_frame_in(&hosts[1 - i], frame, count));
    }
}

static void connection(void) {
    const zv_endpoint other = {zv_ipv4(192, 168, 1, 2), 80};
    size_t count, came = 0;
    do_it(zv_tcp_listen(&hosts[1], tcp[1], &any, 80));
    do_it(zv_tcp_connect(&hosts[0], tcp[0], &other, &any, 49500));
    for (int i = 0; i < 4; i++) turn();
    for (int i = 0; i < 10000 && came < BYTES; i++) {
        do_it(zv_tcp_send(&hosts[0], tcp[0], text, sizeof text, &count));
        turn();
        do_it(zv_tcp_recv(&hosts[1], tcp[1], got, sizeof got, &count));
        came += count;
    }
    if (came < BYTES) do_it(ZV_EMPTY);
}

static void trips(void) {
    zv_endpoint from, other = {zv_ipv4(192, 168, 1, 2), 7};
    zv_address to;
    size_t count;
    for (int i = 0; i < TRIPS; i++) {
        do_it(zv_udp_send(&hosts[0], udp[0], text, 64, &other, &any));
        turn();
        turn();
        do_it(zv_udp_recv(&hosts[1], udp[1], got, sizeof got, &count, &from, &to));
        do_it(zv_udp_send(&hosts[1], udp[1], got, count, &from, &any));
        turn();
        turn();
        do_it(zv_udp_recv(&hosts[0], udp[0], got, sizeof got, &count, &from, &to));
    }
}

int main(void) {
    printf("stack.make %zu\n", painted(make));
    printf("stack.tcp %zu\n", painted(connection));
    printf("stack.udp %zu\n", painted(trips));
    return 0;
}
