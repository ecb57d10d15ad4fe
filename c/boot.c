/* A first boot: a station without an address asks for one by DHCP over a TAP device of Linux, sets it with its router, and asks the server
 * of names that it was told of for the addresses of a name.
 *
 *   boot NAME HOST-NAME [SECONDS]        as root, the device made before: docs/guide/c_and_rust.md. It gives up after so many seconds, 20 by default.
 */
#include "zemplovir.h"

#include <fcntl.h>
#include <linux/if.h>
#include <linux/if_tun.h>
#include <poll.h>
#include <stdio.h>
#include <stdlib.h>
#include <string.h>
#include <sys/ioctl.h>
#include <sys/random.h>
#include <time.h>
#include <unistd.h>

enum { BUDGET = 16, CLIENT_PORT = 68 };

static void must(uint32_t code, const char *what)
{
    if (code != ZV_OK) {
        fprintf(stderr, "boot: %s: %s\n", what, zv_strerror(code));
        exit(1);
    }
}

static int64_t now(void)
{
    static int64_t first = -1;
    struct timespec t;
    clock_gettime(CLOCK_MONOTONIC, &t);
    int64_t micros = (int64_t)t.tv_sec * 1000000 + t.tv_nsec / 1000;
    if (first < 0)
        first = micros;
    return micros - first;
}

static uint64_t seed(void)
{
    uint64_t word;
    if (getrandom(&word, sizeof word, 0) != sizeof word)
        exit(1);
    return word;
}

static int open_device(const char *name)
{
    struct ifreq request;
    int device = open("/dev/net/tun", O_RDWR | O_NONBLOCK);
    memset(&request, 0, sizeof request);
    request.ifr_flags = IFF_TAP | IFF_NO_PI;
    strncpy(request.ifr_name, name, IFNAMSIZ - 1);
    if (device < 0 || ioctl(device, TUNSETIFF, &request) < 0) {
        perror("boot: device");
        exit(1);
    }
    return device;
}

static void say(const char *what, const zv_address *address)
{
    if (address->family == 4)
        printf("%s %u.%u.%u.%u\n", what, address->bytes[0], address->bytes[1], address->bytes[2], address->bytes[3]);
    fflush(stdout);
}

/* Sends what is to go. */
static void flush_frames(zv_host *host, int device)
{
    uint8_t frame[2048], changed;
    size_t count;
    must(zv_poll(host, now(), BUDGET, &changed), "poll");
    while (zv_frame_out(host, frame, sizeof frame, &count) == ZV_OK)
        if (write(device, frame, count) < 0)
            perror("boot: write");
}

static void wait_for(zv_host *host, int device)
{
    int64_t at, dhcp, dns;
    must(zv_poll_at(host, now(), &at), "poll at");
    must(zv_dhcp_poll_at(host, &dhcp), "dhcp poll at");
    must(zv_dns_poll_at(host, &dns), "dns poll at");
    at = dhcp < at ? dhcp : at;
    at = dns < at ? dns : at;
    const int64_t left = at - now();
    struct pollfd waits = {device, POLLIN, 0};
    poll(&waits, 1, left <= 0 ? 0 : left > 100000 ? 100 : (int)(left / 1000) + 1);
}

/* The lease's address, its router and its servers of names, in place of those before. */
static void configure(zv_host *host, const zv_lease *lease, zv_address *own)
{
    const zv_address everywhere = zv_ipv4(0, 0, 0, 0), none = zv_any();
    if (own->family != 0) {
        zv_address_remove(host, own);
        zv_route_remove(host, &everywhere, 0);
    }
    *own = lease->event == ZV_LEASE_NEW ? lease->address : none;
    if (lease->event != 1)
        return;
    must(zv_address_add(host, own, lease->prefix), "address");
    if (lease->router.family != 0)
        must(zv_route_add(host, &everywhere, 0, &lease->router), "router");
    must(zv_dns_new(host, &lease->names[0], &lease->names[1], &lease->names[2]), "dns");
}

int main(int count, char **words)
{
    if (count < 3) {
        fprintf(stderr, "usage: boot NAME HOST-NAME [SECONDS]\n");
        return 2;
    }
    const int64_t end = 1000000 * (int64_t)(count > 3 ? atoi(words[3]) : 20);
    const int device = open_device(words[1]);
    const zv_settings settings = {
        .medium = ZV_ETHERNET, .hardware = {2, 0, 0, 0, 0, 9}, .mtu = 1514, .seed = seed(), .frames = 16};
    const zv_address any = zv_any();
    zv_host host = {0};
    zv_address own = zv_any();
    zv_lease lease;
    zv_addresses found;
    size_t dhcp, dns;
    uint16_t port = 0;
    int asked = 0, status = 1;
    must(zv_host_new(&host, &settings, now()), "host");
    must(zv_udp_new(&host, 4, 2048, &dhcp), "socket");
    must(zv_udp_bind(&host, dhcp, &any, CLIENT_PORT), "port");
    must(zv_udp_new(&host, 4, 2048, &dns), "socket");
    must(zv_dhcp_new(&host, seed()), "dhcp");
    must(zv_dns_new(&host, &any, &any, &any), "dns");
    fprintf(stderr, "ready\n");
    while (status != 0 && now() < end) {
        uint8_t frame[2048], changed;
        ssize_t length;
        for (int i = 0; i < BUDGET && (length = read(device, frame, sizeof frame)) > 0; i++)
            zv_frame_in(&host, frame, (size_t)length);
        must(zv_poll(&host, now(), BUDGET, &changed), "poll");
        must(zv_dhcp_turn(&host, dhcp, now(), &lease), "dhcp turn");
        if (lease.event != ZV_LEASE_NONE)
            configure(&host, &lease, &own);
        if (lease.event == ZV_LEASE_NEW) {
            say("address", &lease.address);
            say("router", &lease.router);
            say("names", &lease.names[0]);
        }
        if (own.family != 0 && !asked) {
            must(zv_dns_ask(&host, (const uint8_t *)words[2], strlen(words[2]), 4), "ask");
            asked = 1;
        }
        must(zv_dns_turn(&host, dns, &port), "dns turn");
        const uint32_t code = asked ? zv_dns_result(&host, &found) : ZV_QUERY_PENDING;
        if (code == ZV_OK) {
            say(words[2], &found.at[0]);
            status = 0;
        } else if (code != ZV_QUERY_PENDING) {
            must(code, words[2]);
        }
        flush_frames(&host, device);
        wait_for(&host, device);
    }
    must(zv_host_free(&host), "free");
    close(device);
    return status;
}
