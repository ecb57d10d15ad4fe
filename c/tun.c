/* A host on a TUN or TAP device of Linux that sends back what it gets: UDP and TCP at port 7, a page at port 80, and answers to pings.
 *
 *   tun NAME tun|tap ADDRESS PREFIX [ROUTER] [--join GROUP].. [--trace] [--pcap FILE]        as root, the device made before:
 *                                                                                            docs/guide/c_and_rust.md
 *
 * What is sent to a multicast group that was joined is sent back, too; SIGUSR1 leaves all groups. --trace writes a line of text for each frame on standard error.
 * FILE gets each frame that came and each that went, one by one, as Wireshark reads them; `-` is standard output: tun .. --pcap - | tshark -r -
 *
 * Frames go behind a header of virtio, many in one call (offload.h).
 */
#include "offload.h"
#include "zemplovir.h"

#include <arpa/inet.h>
#include <fcntl.h>
#include <poll.h>
#include <signal.h>
#include <stdio.h>
#include <stdlib.h>
#include <string.h>
#include <time.h>
#include <unistd.h>

enum { STREAMS = 4, PAGES = 4, BUDGET = 64, GROUPS = 8 };

/* No socket. */
#define NONE ((size_t)-1)

static volatile sig_atomic_t is_over, is_leaving;

static void end(int number)
{
    if (number == SIGUSR1)
        is_leaving = 1;
    else
        is_over = 1;
}

static void must(uint32_t code, const char *what)
{
    if (code != ZV_OK) {
        fprintf(stderr, "tun: %s: %s\n", what, zv_strerror(code));
        exit(1);
    }
}

static int64_t now(void)
{
    static int64_t first = -1;
    struct timespec t;
    clock_gettime(CLOCK_MONOTONIC, &t);
    int64_t micros = (int64_t)t.tv_sec * 1000000 + t.tv_nsec / 1000;
    if (first < 0)
        first = micros;
    return micros - first;
}

static zv_address read_address(const char *text)
{
    zv_address address = {0, {0}};
    if (inet_pton(AF_INET, text, address.bytes) == 1)
        address.family = 4;
    else if (inet_pton(AF_INET6, text, address.bytes) == 1)
        address.family = 6;
    return address;
}

/* The capture, if there is one. */
static FILE *capture;

/* A capture's numbers are in this machine's order, which the first of them tells. */
static void put(uint32_t number)
{
    fwrite(&number, sizeof number, 1, capture);
}

/* Opens a capture of frames of this kind (LINKTYPE_ETHERNET or LINKTYPE_RAW). Says whether it is open. */
static int capture_to(const char *name, int is_tap)
{
    const uint16_t version[] = {2, 4};
    capture = strcmp(name, "-") == 0 ? stdout : fopen(name, "wb");
    if (capture == NULL)
        return 0;
    put(0xa1b2c3d4);
    fwrite(version, sizeof version, 1, capture);
    put(0);
    put(0);
    put(OFFLOAD_LONGEST);
    put(is_tap ? 1 : 101);
    return fflush(capture) == 0;
}

/* Writes a frame that came or goes, with the time of day. Where it can't be written, the capture ends, and the host goes on. */
static void capture_frame(const uint8_t *frame, size_t length)
{
    struct timespec t;
    if (capture == NULL)
        return;
    clock_gettime(CLOCK_REALTIME, &t);
    put((uint32_t)t.tv_sec);
    put((uint32_t)(t.tv_nsec / 1000));
    put((uint32_t)length);
    put((uint32_t)length);
    fwrite(frame, 1, length, capture);
    if (fflush(capture) != 0) {
        perror("tun: the capture ends");
        capture = NULL;
    }
}

/* Whether each frame is written as a line of text, too. */
static int is_traced;

/* Shows a frame that came (sent is 0) or goes to who looks on. */
static void show_frame(zv_host *host, uint8_t sent, const uint8_t *frame, size_t length)
{
    uint8_t line[400];
    size_t count;
    capture_frame(frame, length);
    if (is_traced && zv_trace_line(host, now(), sent, frame, length, line, sizeof line, &count) == ZV_OK)
        fwrite(line, 1, count, stderr);
}

/* Waits until the device has a frame, at most so many microseconds. */
static void wait_for(int device, int64_t left)
{
    struct pollfd waits = {device, POLLIN, 0};
    poll(&waits, 1, left > 1000000 ? 1000 : (int)((left + 999) / 1000));
}

static struct offload joined;

static void frame_in(void *host, const uint8_t *frame, size_t length)
{
    show_frame(host, 0, frame, length);
    zv_frame_in(host, frame, length);
}

/* What came goes to the host, reads of so many frames or some more. Says how many frames there were: one read may have many. */
static int take(int device, int most)
{
    static uint8_t bytes[OFFLOAD_READ];
    int taken = 0;
    while (taken < most) {
        ssize_t length = read(device, bytes, sizeof bytes);
        if (length <= 0)
            break;
        taken += offload_in(&joined, bytes, (size_t)length);
    }
    return taken;
}

/* The host does what is to be done. Says whether a socket may have changed. */
static int polled(zv_host *host, int64_t moment, uint16_t budget)
{
    uint8_t changed;
    must(zv_poll(host, moment, budget, &changed), "poll");
    return changed;
}

/* The frames that are to go go to the device. */
static void send_frames(zv_host *host)
{
    size_t count;
    while (zv_frame_out(host, offload_room(&joined), OFFLOAD_LONGEST, &count) == ZV_OK) {
        show_frame(host, 1, offload_room(&joined), count);
        offload_out(&joined, count);
    }
    offload_flush(&joined);
}

/* Says whether there was one. */
static int echo_datagrams(zv_host *host, size_t socket)
{
    static uint8_t bytes[65535];
    zv_endpoint remote;
    zv_address local;
    size_t count;
    int any = 0;
    while (zv_udp_recv(host, socket, bytes, sizeof bytes, &count, &remote, &local) == ZV_OK) {
        zv_udp_send(host, socket, bytes, count, &remote, &local);
        any = 1;
    }
    return any;
}

/* A socket whose remote has ended is closed, and listens again once its connection is over. Says whether it has to end. */
static int renew_stream(zv_host *host, size_t socket)
{
    const zv_address any = zv_any();
    uint8_t state;
    must(zv_tcp_state(host, socket, &state), "state");
    if (state == ZV_CLOSED)
        must(zv_tcp_listen(host, socket, &any, 7), "listen");
    return state == ZV_CLOSE_WAIT && zv_tcp_close(host, socket) == ZV_OK;
}

/* The bytes that wait go back, as many as there is room for. What is lent is read before the next call with the host. Says whether
 * anything was done. */
static int echo_stream(zv_host *host, size_t socket)
{
    static uint8_t bytes[65536];
    const uint8_t *lent;
    size_t count, sent, done;
    int is_done = 0;
    for (;;) {
        if (zv_tcp_peek(host, socket, &lent, &count) != ZV_OK)
            return renew_stream(host, socket) || is_done;
        if (count == 0)
            return is_done;
        if (count > sizeof bytes)
            count = sizeof bytes;
        memcpy(bytes, lent, count);
        if (zv_tcp_send(host, socket, bytes, count, &sent) != ZV_OK || sent == 0)
            return is_done;
        zv_tcp_done(host, socket, sent, &done);
        is_done = 1;
    }
}

/* A page for whoever asks for anything, at a listener with a backlog. An accepted socket goes back once it is closed. */
static int serve_page(zv_host *host, size_t socket)
{
    static const char page[] = "HTTP/1.0 200 OK\r\nContent-Type: text/plain\r\nContent-Length: 24\r\n"
                               "Connection: close\r\n\r\nserved by C over a TUN.\n";
    static uint8_t request[2048];
    size_t count;
    uint8_t state;
    must(zv_tcp_state(host, socket, &state), "state");
    const int is_asked = zv_tcp_recv(host, socket, request, sizeof request, &count) == ZV_OK && count > 3;
    if (!is_asked && state == ZV_ESTABLISHED)
        return 0;
    if (is_asked && zv_tcp_send(host, socket, (const uint8_t *)page, sizeof page - 1, &count) != ZV_OK)
        zv_tcp_abort(host, socket);
    zv_tcp_close(host, socket);
    return 1;
}

/* Says whether a socket was given back. */
static int serve_pages(zv_host *host, size_t listener, size_t *accepted)
{
    int any = 0, are_more = 1;
    for (int i = 0; i < PAGES; i++) {
        if (accepted[i] == NONE && are_more && zv_listener_accept(host, listener, &accepted[i]) != ZV_OK)
            are_more = 0;
        if (accepted[i] == NONE || !serve_page(host, accepted[i]))
            continue;
        must(zv_listener_give_back(host, listener, accepted[i]), "give back");
        accepted[i] = NONE;
        any = 1;
    }
    return any;
}

/* A listener at port 80, with its sockets behind it and a keeper for what is beyond them. */
static size_t listen_for_pages(zv_host *host)
{
    const zv_address any = zv_any();
    size_t listener, socket;
    must(zv_listener_new(host, &any, 80, &listener), "listener");
    for (int i = 0; i < PAGES; i++) {
        must(zv_tcp_new(host, 4096, 4096, &socket), "TCP socket");
        must(zv_listener_add(host, listener, socket), "backlog");
    }
    must(zv_tcp_new(host, 0, 0, &socket), "TCP socket");
    must(zv_listener_add_keeper(host, listener, socket), "keeper");
    return listener;
}

/* What is served. */
struct sockets {
    size_t datagrams, streams[STREAMS], listener, accepted[PAGES];
};

static struct sockets opened(zv_host *host)
{
    const zv_address any = zv_any();
    struct sockets it;
    must(zv_udp_new(host, 64, 65536, &it.datagrams), "UDP socket");
    must(zv_udp_bind(host, it.datagrams, &any, 7), "UDP port");
    for (int i = 0; i < STREAMS; i++) {
        must(zv_tcp_new(host, 262144, 262144, &it.streams[i]), "TCP socket");
        must(zv_tcp_set_nagle(host, it.streams[i], 0), "Nagle");
        must(zv_tcp_listen(host, it.streams[i], &any, 7), "listen");
    }
    it.listener = listen_for_pages(host);
    for (int i = 0; i < PAGES; i++)
        it.accepted[i] = NONE;
    return it;
}

/* Says whether anything was done. */
static int serve(zv_host *host, struct sockets *it)
{
    int any = echo_datagrams(host, it->datagrams);
    for (int i = 0; i < STREAMS; i++)
        any |= echo_stream(host, it->streams[i]);
    return any | serve_pages(host, it->listener, it->accepted);
}

/* The groups that are joined. */
static zv_address groups[GROUPS];
static int joined_groups;

/* Takes the words `--join GROUP` from the end of the line. Says how many words are left. */
static int read_groups(int count, char **words)
{
    while (count > 6 && joined_groups < GROUPS && strcmp(words[count - 2], "--join") == 0) {
        groups[joined_groups++] = read_address(words[count - 1]);
        count -= 2;
    }
    return count;
}

static void join_groups(zv_host *host)
{
    for (int i = 0; i < joined_groups; i++)
        must(zv_group_join(host, &groups[i]), "group");
}

static void leave_groups(zv_host *host)
{
    is_leaving = 0;
    while (joined_groups > 0)
        must(zv_group_leave(host, &groups[--joined_groups]), "group");
}

/* Behind a wait what one read has is taken alone and answered, so that the answer goes at once; then as much as there is. */
static void run(zv_host *host, int device, struct sockets *it)
{
    int64_t at = 0;
    int most = BUDGET;
    while (!is_over) {
        const int64_t moment = now();
        const int taken = take(device, most);
        if (is_leaving) {
            leave_groups(host);
            at = 0;
        }
        if (taken == 0 && moment < at) {
            wait_for(device, at - moment);
            most = 1;
            continue;
        }
        const uint16_t budget = (uint16_t)(taken > most ? taken : most);
        if (polled(host, moment, budget) && serve(host, it))
            polled(host, moment, budget);
        send_frames(host);
        must(zv_poll_at(host, moment, &at), "poll_at");
        most = BUDGET;
    }
}

int main(int count, char **words)
{
    zv_host host = {0};
    const char *file = NULL;
    if (count > 6 && strcmp(words[count - 2], "--pcap") == 0) {
        file = words[count - 1];
        count -= 2;
    }
    if (count > 5 && strcmp(words[count - 1], "--trace") == 0) {
        is_traced = 1;
        count--;
    }
    count = read_groups(count, words);
    if (count < 5 || count > 6) {
        fprintf(stderr, "usage: tun NAME tun|tap ADDRESS PREFIX [ROUTER] [--join GROUP].. [--trace] [--pcap FILE]\n");
        return 2;
    }
    const int is_tap = strcmp(words[2], "tap") == 0;
    if (file != NULL && !capture_to(file, is_tap)) {
        perror("tun: capture");
        return 1;
    }
    const int device = offload_open(&joined, words[1], is_tap, O_NONBLOCK);
    if (device < 0) {
        perror("tun: device");
        return 1;
    }
    offload_set(&joined, is_tap, 1, frame_in, &host);
    joined.is_trusted = 1;
    const zv_address own = read_address(words[3]);
    zv_settings settings = {
        .medium = is_tap ? ZV_ETHERNET : ZV_IP,
        .hardware = {2, 0, 0, 0, 0, 1},
        .mtu = is_tap ? OFFLOAD_LONGEST : OFFLOAD_LONGEST - 14,
        .frames = 256,
        .keyed = 1,
    };
    FILE *random = fopen("/dev/urandom", "rb");
    if (random == NULL || fread(&settings.seed, sizeof settings.seed, 1, random) != 1
        || fread(settings.isn_key, sizeof settings.isn_key, 1, random) != 1) {
        perror("tun: /dev/urandom");
        return 1;
    }
    fclose(random);
    must(zv_host_new(&host, &settings, now()), "host");
    must(zv_address_add(&host, &own, (uint8_t)atoi(words[4])), "address");
    if (count > 5) {
        const zv_address router = read_address(words[5]);
        const zv_address all = {router.family, {0}};
        must(zv_route_add(&host, &all, 0, &router), "route");
    }
    join_groups(&host);
    struct sockets sockets = opened(&host);
    signal(SIGUSR1, end);
    signal(SIGTERM, end);
    signal(SIGINT, end);
    fprintf(stderr, "tun: ready\n");
    run(&host, device, &sockets);

    zv_counts counts;
    must(zv_counters(&host, &counts), "counters");
    fprintf(stderr, "tun: %llu frames came in %llu reads, %llu were dropped, %llu went in %llu writes\n", (unsigned long long)counts.frames_in,
            (unsigned long long)joined.read, (unsigned long long)counts.frames_dropped, (unsigned long long)counts.frames_out,
            (unsigned long long)joined.written);
    must(zv_host_free(&host), "free");
    close(device);
    return 0;
}
