// Owns a TUN or TAP device, the clock and the waiting for the program `host`, as pump.py does, which is the readable one.
//
//     cc -O2 -o pump linux/pump.c c/offload.c
//
// Frames go to a device and come from it behind a header of virtio (c/offload.h): Linux hands over 64 KB of a connection in one call, which
// are cut here into the segments that the link carries, and what goes is put together.
//
//     pump [OPTIONS] DEVICE HOST ADDRESS/LEN ROUTER [ADDRESS6/LEN ROUTER6]     a link between the device and the program, whose settings
//                                                                             these are
//     pump [OPTIONS] DEVICE OTHER                                             the same link between two devices
//
// -l N, -r N, -h N, -d N: so many of 1000 packets each way are lost, repeated, held back behind the next one, or damaged in a byte;
// -b N: two of 1000 begin a time in which so many are lost; -t N: each takes so many microseconds; -j N: up to so many more by chance;
// -m N: so many kbit/s each way; -q N: of the bytes that then wait for the link so many at most, and a packet that doesn't fit is lost;
// -c N: where the random numbers begin; -s N: the seed of the host, which then has no key; -e MAC: the devices carry Ethernet frames (TAP),
// and the host has this hardware address; -k FOLDER keeps what the program read and wrote as the files stdin and stdout; -1: frames go to the
// devices one by one, each with its own sum, for what is to be seen there.
// SIGUSR1 lets the host's clock go on by an hour: each moment at which it wants a turn comes at once; it says when that is done. SIGTERM ends it.
//
// A turn is a packet's length (2 bytes), the moment in microseconds (8 bytes) and the packet, all numbers with the low byte first; the
// answer is each packet behind its length, a length of 0, and the moment of the next turn (8 bytes, all ones for never).
#define _GNU_SOURCE
#include "../c/offload.h"
#include <arpa/inet.h>
#include <fcntl.h>
#include <netinet/ether.h>
#include <linux/if.h>
#include <linux/if_tun.h>
#include <signal.h>
#include <stdint.h>
#include <stdio.h>
#include <stdlib.h>
#include <string.h>
#include <sys/epoll.h>
#include <sys/ioctl.h>
#include <sys/random.h>
#include <sys/socket.h>
#include <time.h>
#include <unistd.h>

enum { MOST = 65536, HEAD = 10, HOUR = 3600 };
typedef unsigned char byte;
static int kind = IFF_TUN, tun = -1, other = -1, host = -1;
static struct offload joined[2];  // of the other device, and of the device: what goes way 0, and way 1
static uint64_t lose, repeat, hold, damage, burst, delay, jitter, rate, queue, chance = 1, seed, ahead, turns, carried[2];
static byte key[16];
static int seeded, singly, traced;
static const char *capture;
static struct ether_addr station;
static FILE *said, *answered;
static volatile sig_atomic_t ends, skips;
static struct { byte bytes[MOST]; int len; } held[2];  // what goes behind the next packet, each way
static struct flying { struct flying *next; uint64_t at; int len; byte bytes[]; } *flying[2];  // what is on its way, the first first
static uint64_t bursting[2], link_free[2];  // how many more are lost, and when the link has sent what waits

static void stop(const char *why) { perror(why); exit(1); }
static void on_signal(int number) { if (number == SIGUSR1) skips = 1; else ends = 1; }

static void carry(int way, const byte *packet, int len);
static int ways[2] = {0, 1};
static void came(void *way, const byte *packet, size_t len) { carry(*(int *)way, packet, len); }

// What comes from the device goes this way.
static int open_device(const char *name, int way) {
    struct offload *its = &joined[1 - way];
    int device = offload_open(its, name, kind == IFF_TAP, O_NONBLOCK | O_CLOEXEC);
    if (device < 0) stop(name);
    its->mtu = 65535;  // the link carries what comes: no SYN is changed
    offload_set(its, kind == IFF_TAP, 0, came, &ways[way]);
    return device;
}

// A packet for a device waits until all that one read or moment brings are there.
static void put_on(int way, const byte *packet, int len) {
    memcpy(offload_room(&joined[way]), packet, len);
    offload_out(&joined[way], len);
    if (singly) offload_flush(&joined[way]);
}

static uint64_t now(void) {
    struct timespec it;
    clock_gettime(CLOCK_MONOTONIC, &it);
    static uint64_t began;
    uint64_t at = it.tv_sec * 1000000ull + it.tv_nsec / 1000;
    if (!began) began = at;
    return at - began + ahead;
}

static uint64_t random_below(uint64_t most) {  // xorshift64*
    chance ^= chance >> 12, chance ^= chance << 25, chance ^= chance >> 27;
    return (chance * 0x2545F4914F6CDD1Dull >> 33) % most;
}

static uint64_t take_turn(const byte *packet, int len);
static uint64_t next_turn = UINT64_MAX;

// Hands a packet over: way 0 to the host or the other device, way 1 to the device.
static void give(int way, const byte *packet, int len) {
    carried[way]++;
    if (way == 0 && host >= 0) next_turn = take_turn(packet, len);
    else put_on(way, packet, len);
}

// A packet goes: at once, or it waits for the link and then is on its way.
static void send_on(int way, const byte *packet, int len) {
    uint64_t at = now();
    if (!delay && !jitter && !rate) { give(way, packet, len); return; }
    if (rate) {
        if (link_free[way] < at) link_free[way] = at;
        if (queue && (link_free[way] - at) * rate / 8000 + len > queue) return;
        at = link_free[way] += len * 8000ull / rate;
    }
    struct flying *it = malloc(sizeof *it + len), **place = &flying[way];
    it->at = at + delay + (jitter ? random_below(jitter) : 0), it->len = len;
    memcpy(it->bytes, packet, len);
    while (*place && (*place)->at <= it->at) place = &(*place)->next;
    it->next = *place, *place = it;
}

// Gives what has come by now; when the next one comes.
static uint64_t land(void) {
    for (int way = 0; way < 2; way++)
        while (flying[way] && flying[way]->at <= now()) {
            struct flying *it = flying[way];
            flying[way] = it->next;
            give(way, it->bytes, it->len);
            free(it);
        }
    uint64_t first = flying[0] ? flying[0]->at : UINT64_MAX;
    return flying[1] && flying[1]->at < first ? flying[1]->at : first;
}

// What becomes of a packet on its way.
static void carry(int way, const byte *packet, int len) {
    static byte before[2][MOST], changed[2][MOST];
    int behind = held[way].len;
    uint64_t dice = lose + repeat + hold + damage ? random_below(1000) : 1000;
    if (burst && !bursting[way] && random_below(1000) < 2) bursting[way] = burst;
    if (bursting[way]) { bursting[way]--; return; }
    memcpy(before[way], held[way].bytes, behind);
    held[way].len = 0;
    if (dice >= lose && dice < lose + hold) {
        memcpy(held[way].bytes, packet, held[way].len = len);
    } else if (dice >= lose) {
        memcpy(changed[way], packet, len);
        if (dice < lose + hold + damage) changed[way][random_below(len)] ^= 1 + random_below(255);
        send_on(way, changed[way], len);
        if (dice >= lose + hold + damage && dice < lose + hold + damage + repeat) send_on(way, changed[way], len);
    }
    if (behind) send_on(way, before[way], behind);
}

static uint64_t number(const byte *from, int len) {
    uint64_t value = 0;
    while (len--) value = value << 8 | from[len];
    return value;
}

static void keep(FILE *file, const byte *bytes, size_t len) { if (file) fwrite(bytes, 1, len, file); }

// Reads so many bytes of the answer, of what was read at once.
static const byte *answer(int len) {
    static byte room[1 << 20];
    static int from, to;
    if (from == to) from = to = 0;
    if (from > (int)sizeof room - MOST) memmove(room, room + from, to - from), to -= from, from = 0;
    while (to - from < len) {
        ssize_t more = read(host, room + to, sizeof room - to);
        if (more <= 0) { fprintf(stderr, "pump: the program ended\n"); exit(1); }
        to += more;
    }
    keep(answered, room + from, len);
    from += len;
    return room + from - len;
}

// One turn, in one write; the moment of the next one.
static uint64_t take_turn(const byte *packet, int len) {
    static byte turn[HEAD + MOST];
    uint64_t at = now();
    turn[0] = len, turn[1] = len >> 8;
    for (int i = 0; i < 8; i++) turn[2 + i] = at >> 8 * i;
    memcpy(turn + HEAD, packet, len);
    for (int sent = 0, more; sent < HEAD + len; sent += more)
        if ((more = write(host, turn + sent, HEAD + len - sent)) < 0) stop("host");
    keep(said, turn, HEAD + len);
    turns++;
    for (int size; (size = number(answer(2), 2));) carry(1, answer(size), size);
    return number(answer(8), 8);
}

// An address, its prefix and a router, of so many bytes each.
static void put_family(byte *to, int family, int size, char *address, const char *router) {
    char *slash = strchr(address, '/');
    if (!slash) stop("ADDRESS/LEN");
    *slash = 0;
    if (!inet_pton(family, address, to) || !inet_pton(family, router, to + size + 1)) stop("address");
    to[size] = atoi(slash + 1);
}

static void start_host(const char *program, char **addresses, int count) {
    byte settings[73] = {kind == IFF_TAP};
    int ends_of[2];
    memcpy(settings + 1, station.ether_addr_octet, 6);
    put_family(settings + 7, AF_INET, 4, addresses[0], addresses[1]);
    if (count > 2) put_family(settings + 16, AF_INET6, 16, addresses[2], addresses[3]);
    for (int i = 0; i < 8; i++) settings[49 + i] = seed >> 8 * i;
    memcpy(settings + 57, key, sizeof key);
    if (socketpair(AF_UNIX, SOCK_STREAM, 0, ends_of) < 0) stop("socketpair");
    if (!fork()) {
        dup2(ends_of[1], 0), dup2(ends_of[1], 1), close(ends_of[0]), close(ends_of[1]);
        const char *said[5] = {program};
        int words_said = 1;
        if (traced) said[words_said++] = "--trace";
        if (capture) said[words_said++] = "--pcap", said[words_said++] = capture;
        execv(program, (char *const *)said);
        stop(program);
    }
    close(ends_of[1]);
    host = ends_of[0];
    next_turn = take_turn(settings, seeded ? 57 : 73);
}

static void pass(int device, int way) {
    static byte read_in[OFFLOAD_READ];
    for (int i = 0, len; i < 64 && (len = read(device, read_in, sizeof read_in)) > 0; i++) {
        offload_in(&joined[1 - way], read_in, len);
        offload_flush(&joined[0]), offload_flush(&joined[1]);
    }
}

static void skip_an_hour(void) {
    uint64_t until = now() + HOUR * 1000000ull;
    while (next_turn < until) {
        if (next_turn > now()) ahead += next_turn - now();
        next_turn = take_turn((const byte *)"", 0);
    }
    ahead += until - now();
    printf("pump: an hour on, %llu turns\n", (unsigned long long)turns), fflush(stdout);
}

int main(int count, char **words) {
    int option;
    char path[4096];
    if (getrandom(&seed, sizeof seed, 0) < 0 || getrandom(key, sizeof key, 0) < 0) stop("getrandom");
    while ((option = getopt(count, words, "1vl:r:h:d:b:t:j:m:q:c:s:k:e:w:")) != -1) {
        uint64_t value = optarg ? strtoull(optarg, 0, 10) : 0;
        switch (option) {
        case 'l': lose = value; break;
        case 'r': repeat = value; break;
        case 'h': hold = value; break;
        case 'd': damage = value; break;
        case 'b': burst = value; break;
        case 't': delay = value; break;
        case 'j': jitter = value; break;
        case 'm': rate = value; break;
        case 'q': queue = value; break;
        case 'c': chance = value | 1; break;
        case 's': seed = value, seeded = 1; break;
        case 'e': kind = IFF_TAP; if (!ether_aton_r(optarg, &station)) stop(optarg); break;
        case '1': singly = 1; break;
        case 'v': traced = 1; break;
        case 'w': capture = optarg; break;
        case 'k':
            snprintf(path, sizeof path, "%s/stdin", optarg), said = fopen(path, "wb");
            snprintf(path, sizeof path, "%s/stdout", optarg), answered = fopen(path, "wb");
            break;
        default: return 2;
        }
    }
    words += optind, count -= optind;
    if (count != 2 && count != 4 && count != 6)
        return fprintf(stderr, "pump [OPTIONS] DEVICE HOST ADDRESS/LEN ROUTER [ADDRESS6/LEN ROUTER6] | DEVICE OTHER\n"), 2;
    struct sigaction act = {.sa_handler = on_signal, .sa_flags = SA_RESTART};
    sigaction(SIGTERM, &act, 0), sigaction(SIGINT, &act, 0), sigaction(SIGUSR1, &act, 0);
    tun = open_device(words[0], 0);
    if (count > 2) start_host(words[1], words + 2, count - 2);
    else other = open_device(words[1], 1);
    int waiting = epoll_create1(0);
    struct epoll_event of_tun = {.events = EPOLLIN, .data.fd = tun}, of_other = {.events = EPOLLIN, .data.fd = other}, ready[2];
    epoll_ctl(waiting, EPOLL_CTL_ADD, tun, &of_tun);
    if (other >= 0) epoll_ctl(waiting, EPOLL_CTL_ADD, other, &of_other);
    printf("pump: ready\n"), fflush(stdout);
    while (!ends) {
        uint64_t next = land(), at = now();
        if (next_turn < next) next = next_turn;
        uint64_t wait = next > at ? next - at : 0;
        struct timespec until = {wait / 1000000, wait % 1000000 * 1000};
        int come = epoll_pwait2(waiting, ready, 2, next == UINT64_MAX ? 0 : &until, 0);
        for (int i = 0; i < come; i++) pass(ready[i].data.fd, ready[i].data.fd == tun ? 0 : 1);
        if (host >= 0 && next_turn <= now()) next_turn = take_turn((const byte *)"", 0);
        if (skips && host >= 0) skips = 0, skip_an_hour();
        offload_flush(&joined[0]), offload_flush(&joined[1]);
    }
    printf("pump: %llu turns, %llu packets in, %llu out\n", (unsigned long long)turns, (unsigned long long)carried[0], (unsigned long long)carried[1]);
    if (said) fclose(said), fclose(answered);
    return 0;
}
