/* Echoes of datagrams and of streams at port 7, over the TAP device of this name, whose frames go behind a header of virtio, many in one
 * call (offload.h), or singly.
 *
 *   zv_echo NAME ADDRESS [singly]
 */
#include "offload.h"
#include "zemplovir.h"

#include <arpa/inet.h>
#include <fcntl.h>
#include <linux/if.h>
#include <linux/if_tun.h>
#include <signal.h>
#include <stdio.h>
#include <stdlib.h>
#include <string.h>
#include <sys/ioctl.h>
#include <sys/time.h>
#include <sys/uio.h>
#include <time.h>
#include <unistd.h>

enum { STREAMS = 2, ROOM = 180 * 1460, BUDGET = 64 };

static uint8_t frame[OFFLOAD_READ], bytes[65536];
static struct offload joined;
static int is_single;

static void must(uint32_t code, const char *what)
{
    if (code != ZV_OK) {
        fprintf(stderr, "zv_echo: %s: %s\n", what, zv_strerror(code));
        exit(1);
    }
}

static int64_t now(void)
{
    struct timespec t;
    clock_gettime(CLOCK_MONOTONIC, &t);
    return (int64_t)t.tv_sec * 1000000 + t.tv_nsec / 1000;
}

static int open_device(const char *name)
{
    struct ifreq request;
    int device = open("/dev/net/tun", O_RDWR);
    memset(&request, 0, sizeof request);
    request.ifr_flags = IFF_TAP | IFF_NO_PI;
    strncpy(request.ifr_name, name, IFNAMSIZ - 1);
    if (device < 0 || ioctl(device, TUNSETIFF, &request) < 0) {
        perror("zv_echo: /dev/net/tun");
        exit(1);
    }
    return device;
}

/* Where nothing was called for. The timer goes on until it is set anew, so that a call just before the wait isn't lost. */
static void called(int number)
{
    (void)number;
}

/* The timer calls at this moment at the latest. It isn't set back while it would call earlier. */
static void call_at(int64_t at, int64_t moment)
{
    static int64_t next = INT64_MAX;
    if (at >= next && moment < next)
        return;
    next = at;
    const int64_t left = at - moment > 1000000 ? 1000000 : at - moment;
    const struct itimerval timer = {{0, 1000}, {left / 1000000, left % 1000000}};
    setitimer(ITIMER_REAL, &timer, NULL);
}

static void frame_in(void *host, const uint8_t *it, size_t length)
{
    zv_frame_in(host, it, length);
}

/* What was read goes to the host. Says how many frames it has. */
static int give(zv_host *host, size_t length)
{
    if (!is_single)
        return offload_in(&joined, frame, length);
    zv_frame_in(host, frame, length);
    return 1;
}

/* Frames that came go to the host. Waits for the first read where it may, which goes alone, so that its answer goes at once. Says how many
 * frames there were. */
static int take(zv_host *host, int device, int may_wait)
{
    const struct iovec room = {frame, sizeof frame};
    int taken = 0;
    ssize_t length = may_wait ? read(device, frame, sizeof frame) : preadv2(device, &room, 1, -1, RWF_NOWAIT);
    while (length > 0) {
        taken += give(host, (size_t)length);
        if (taken >= BUDGET || may_wait)
            break;
        length = preadv2(device, &room, 1, -1, RWF_NOWAIT);
    }
    return taken;
}

/* Says whether a socket may have changed. */
static int polled(zv_host *host, int64_t moment, uint16_t budget)
{
    uint8_t changed;
    must(zv_poll(host, moment, budget, &changed), "poll");
    return changed;
}

static void send_frames(zv_host *host, int device)
{
    size_t count;
    while (is_single && zv_frame_out(host, frame, sizeof frame, &count) == ZV_OK)
        if (write(device, frame, count) < 0)
            perror("zv_echo: write");
    while (!is_single && zv_frame_out(host, offload_room(&joined), OFFLOAD_LONGEST, &count) == ZV_OK)
        offload_out(&joined, count);
    offload_flush(&joined);
}

static int echo_datagrams(zv_host *host, size_t socket)
{
    zv_endpoint remote;
    zv_address local;
    size_t count;
    int any = 0;
    while (zv_udp_recv(host, socket, bytes, sizeof bytes, &count, &remote, &local) == ZV_OK) {
        zv_udp_send(host, socket, bytes, count, &remote, &local);
        any = 1;
    }
    return any;
}

/* A socket whose remote has ended is closed, and listens again once its connection is over. Says whether it has to end. */
static int renew_stream(zv_host *host, size_t socket)
{
    const zv_address any = zv_any();
    uint8_t state;
    must(zv_tcp_state(host, socket, &state), "state");
    if (state == ZV_CLOSED)
        must(zv_tcp_listen(host, socket, &any, 7), "listen");
    return state == ZV_CLOSE_WAIT && zv_tcp_close(host, socket) == ZV_OK;
}

/* What is lent is read before the next call with the host. Says whether anything was done. */
static int echo_stream(zv_host *host, size_t socket)
{
    const uint8_t *lent;
    size_t count, sent, done;
    int any = 0;
    for (;;) {
        if (zv_tcp_peek(host, socket, &lent, &count) != ZV_OK)
            return renew_stream(host, socket) || any;
        if (count == 0)
            return any;
        if (count > sizeof bytes)
            count = sizeof bytes;
        memcpy(bytes, lent, count);
        if (zv_tcp_send(host, socket, bytes, count, &sent) != ZV_OK || sent == 0)
            return any;
        zv_tcp_done(host, socket, sent, &done);
        any = 1;
    }
}

/* Says whether anything was done. */
static int echo(zv_host *host, size_t datagrams, const size_t *streams)
{
    int any = echo_datagrams(host, datagrams);
    for (int i = 0; i < STREAMS; i++)
        any |= echo_stream(host, streams[i]);
    return any;
}

static void serve(zv_host *host, int device, size_t datagrams, const size_t *streams)
{
    int64_t at = 0;
    int is_idle = 0;
    for (;;) {
        const int may_wait = is_idle;
        const int taken = take(host, device, may_wait);
        const int64_t moment = now();
        is_idle = taken == 0 && moment < at;
        if (is_idle) {
            call_at(at, moment);
            continue;
        }
        const uint16_t budget = (uint16_t)(taken > BUDGET || may_wait ? taken : BUDGET);
        if (polled(host, moment, budget) && echo(host, datagrams, streams))
            polled(host, moment, budget);
        send_frames(host, device);
        must(zv_poll_at(host, moment, &at), "poll_at");
        is_idle = may_wait && moment < at;
        if (is_idle)
            call_at(at, moment);
    }
}

int main(int count, char **words)
{
    zv_host host = {0};
    zv_settings settings = {.medium = ZV_ETHERNET, .hardware = {2, 0, 0, 0, 0, 1}, .mtu = 1514, .seed = (uint64_t)now(), .frames = 256};
    zv_address own = {4, {0}};
    const zv_address any = zv_any();
    const struct sigaction on_call = {.sa_handler = called};
    size_t datagrams, streams[STREAMS];
    if (count < 3 || inet_pton(AF_INET, words[2], own.bytes) != 1) {
        fprintf(stderr, "usage: zv_echo NAME ADDRESS [singly]\n");
        return 2;
    }
    is_single = count > 3;
    const int device = is_single ? open_device(words[1]) : offload_open(&joined, words[1], 1, 0);
    if (device < 0) {
        perror("zv_echo: device");
        return 1;
    }
    offload_set(&joined, 1, 1, frame_in, &host);
    joined.is_trusted = 1;
    if (!is_single)
        settings.mtu = OFFLOAD_LONGEST;
    must(zv_host_new(&host, &settings, now()), "host");
    must(zv_address_add(&host, &own, 24), "address");
    must(zv_udp_new(&host, 64, 65536, &datagrams), "UDP socket");
    must(zv_udp_bind(&host, datagrams, &any, 7), "UDP port");
    for (int i = 0; i < STREAMS; i++) {
        must(zv_tcp_new(&host, ROOM, ROOM, &streams[i]), "TCP socket");
        must(zv_tcp_set_nagle(&host, streams[i], 0), "Nagle");
        must(zv_tcp_listen(&host, streams[i], &any, 7), "listen");
    }
    sigaction(SIGALRM, &on_call, NULL);
    fprintf(stderr, "zv_echo: ready\n");
    serve(&host, device, datagrams, streams);
    return 0;
}
