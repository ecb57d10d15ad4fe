// Times whole runs of interfaces over a link in memory whose buffers are used again: polls of a host whose sockets have
// nothing to do, datagrams to another host and back, and a TCP connection's bytes. Each figure is the best of several runs.
// It counts what each run allocates (linked with --wrap for malloc, calloc and realloc).
#include <stdbool.h>
#include <stdint.h>
#include <stdio.h>
#include <stdlib.h>
#include <string.h>
#include <time.h>

uint32_t bench_idle(uint16_t sockets, uint32_t polls);
uint32_t bench_trips(const uint8_t *payload, size_t len, uint8_t *out, size_t out_len, size_t mtu, uint32_t trips, bool polls);
uint32_t bench_trips_at_once(const uint8_t *payload, size_t len, uint8_t *out, size_t out_len, size_t mtu, uint32_t trips);
uint32_t bench_tables(const uint8_t *payload, size_t len, uint8_t *out, size_t out_len, uint8_t neighbors, uint8_t routes, uint32_t trips);
uint64_t bench_stream(const uint8_t *text, size_t len, uint8_t *out, size_t out_len, size_t mtu, size_t room, uint64_t total, bool check,
                      bool calm, uint16_t idle, bool client);
uint64_t bench_frames(const uint8_t *text, size_t len, uint8_t *out, size_t out_len, size_t mtu, size_t room, uint64_t total, bool calm, bool back);

enum { ROUNDS = 9, PERIOD = 65521, READ = 65536, TEXT = READ + PERIOD, BUFFER = 262144 };
static const uint64_t MIB = 1 << 20;
static uint8_t text[TEXT], out[READ];
static uint64_t allocations;

void *__real_malloc(size_t);
void *__real_calloc(size_t, size_t);
void *__real_realloc(void *, size_t);
void *__wrap_malloc(size_t len) { allocations++; return __real_malloc(len); }
void *__wrap_calloc(size_t count, size_t len) { allocations++; return __real_calloc(count, len); }
void *__wrap_realloc(void *at, size_t len) { allocations++; return __real_realloc(at, len); }

static double now(void) {
    struct timespec t;
    clock_gettime(CLOCK_MONOTONIC, &t);
    return t.tv_sec + t.tv_nsec * 1e-9;
}

static void fail(const char *why) {
    fprintf(stderr, "%s\n", why);
    exit(1);
}

// What a poll takes in ns, without what making the host takes.
static double idle(uint16_t sockets, uint32_t polls) {
    double start = now();
    if (bench_idle(sockets, polls + 1) != polls + 1) fail("no memory for idle sockets");
    double many = now() - start;
    start = now();
    if (bench_idle(sockets, 1) != 1) fail("no memory for idle sockets");
    return (many - (now() - start)) / polls * 1e9;
}

enum way { STEPS, POLLS, AT_ONCE };
static const char *const ways[] = {"steps", "polls", "sent without the queue"};

// Round trips a second.
static double trips(size_t len, size_t mtu, uint32_t count, enum way way) {
    memset(out, 0, len);
    double start = now();
    uint32_t came = way == AT_ONCE ? bench_trips_at_once(text, len, out, READ, mtu, count)
                                   : bench_trips(text, len, out, READ, mtu, count, way == POLLS);
    if (came != count) fail("a datagram didn't come back");
    double took = now() - start;
    if (memcmp(out, text, len)) fail("other bytes came back");
    return count / took;
}

// Round trips a second on Ethernet between hosts that know so many other neighbours and have so many other routes.
static double tables(uint8_t neighbors, uint8_t routes, uint32_t count) {
    memset(out, 0, 64);
    double start = now();
    if (bench_tables(text, 64, out, READ, neighbors, routes, count) != count) fail("a datagram didn't come back");
    double took = now() - start;
    if (memcmp(out, text, 64)) fail("other bytes came back");
    return count / took;
}

// Bytes a second.
static double stream(size_t mtu, size_t room, uint64_t total, bool check, bool calm, uint16_t idle_sockets) {
    double start = now();
    uint64_t came = bench_stream(text, TEXT, out, READ, mtu, room, total, check, calm, idle_sockets, false);
    double took = now() - start;
    if (came < total) fail("other bytes were read, or the transfer stood still");
    return came / took;
}

// Bytes a second among so many idle sockets of both hosts, and behind a client of DHCP, without what making the hosts takes.
static double among(uint16_t sockets, uint64_t total, bool client) {
    double start = now();
    uint64_t came = bench_stream(text, TEXT, out, READ, 1500, 65536, total, true, false, sockets, client);
    double took = now() - start;
    if (came < total) fail("other bytes were read, or the transfer stood still");
    start = now();
    bench_stream(text, TEXT, out, READ, 1500, 65536, 0, true, false, sockets, client);
    return came / (took - (now() - start));
}

// How many frames went back for each hundred that went.
static double acks(size_t mtu, size_t room, uint64_t total, bool calm) {
    uint64_t went = bench_frames(text, TEXT, out, READ, mtu, room, total, calm, false);
    uint64_t back = bench_frames(text, TEXT, out, READ, mtu, room, total, calm, true);
    if (!went) fail("other bytes were read, or the transfer stood still");
    return 100.0 * back / went;
}

typedef uint64_t lanes __attribute__((vector_size(16)));
typedef uint64_t unaligned_lanes __attribute__((vector_size(16), aligned(1), may_alias));

// The sum of words of four bytes, 64 bytes a step in vectors: as fast as lwIP's sum, and as this stack's.
__attribute__((noipa)) static uint64_t sum(const uint8_t *bytes, size_t len) {
    lanes low[2] = {{0}, {0}}, high[2] = {{0}, {0}};
    uint64_t rest = 0;
    for (; len >= 64; len -= 64, bytes += 64) {
        const unaligned_lanes *words = (const unaligned_lanes *)bytes;
        for (int i = 0; i < 4; i++) {
            low[i / 2] += words[i] & 0xffffffff;
            high[i / 2] += words[i] >> 32;
        }
    }
    for (; len > 0; len--) rest += *bytes++;
    low[0] += low[1] + high[0] + high[1];
    return low[0][0] + low[0][1] + rest;
}

// One copy, which the compiler doesn't join with another.
static void copy(uint8_t *to, const uint8_t *from, size_t len) {
    memcpy(to, from, len);
    __asm__ volatile("" ::: "memory");
}

// Bytes a second where the payload of each packet is copied and summed as a stack does, and nothing else is done: from the writer into a buffer,
// into the frame, out of it (by way of a second buffer, where there are four copies) to the reader, and summed twice in the frame.
static double limit(size_t len, size_t room, size_t copies, uint64_t total) {
    static uint8_t queued[BUFFER], received[BUFFER], frame[READ];
    volatile uint64_t sums = 0;
    uint64_t done = 0;
    size_t at = 0;
    double start = now();
    while (done < total) {
        copy(queued + at, text + done % PERIOD, len);
        copy(frame, queued + at, len);
        sums += sum(frame, len);
        sums += sum(frame, len);
        if (copies == 4) copy(received + at, frame, len);
        copy(out, copies == 4 ? received + at : frame, len);
        if (memcmp(out, text + done % PERIOD, 16)) fail("other bytes came");
        done += len;
        at += len;
        if (at + len > room) at = 0;
    }
    return done / (now() - start);
}

static void keep_best(double *best, double is) {
    if (is > *best) *best = is;
}

static void show_idle(uint16_t sockets) {
    double least = 1e9;
    for (int r = 0; r < ROUNDS; r++) {
        double is = idle(sockets, sockets > 1000 ? 10000000 : 1000000);
        if (is < least) least = is;
    }
    printf("%5u idle sockets: %9.1f ns a poll\n", sockets, least);
}

static void show_trips(size_t len, size_t mtu, enum way way) {
    double best = 0;
    for (int r = 0; r < ROUNDS; r++) keep_best(&best, trips(len, mtu, 200000, way));
    printf("%5zu bytes, MTU %5zu, %s: %9.0f round trips a second, %7.1f ns each\n", len, mtu, ways[way], best, 1e9 / best);
}

static void show_tables(uint8_t neighbors, uint8_t routes) {
    double best = 0;
    for (int r = 0; r < ROUNDS; r++) keep_best(&best, tables(neighbors, routes, 200000));
    printf("   64 bytes on Ethernet, %3u other neighbours, %2u other routes: %9.0f round trips a second, %7.1f ns each\n", neighbors, routes, best, 1e9 / best);
}

static void show_stream(size_t mtu, size_t room, bool calm) {
    double best = 0;
    stream(mtu, room, 16 * MIB, true, calm, 0);
    for (int r = 0; r < ROUNDS; r++) keep_best(&best, stream(mtu, room, 256 * MIB, false, calm, 0));
    printf("MTU %5zu, buffers of %6zu bytes%s: %7.1f MB/s, %7.1f ns a segment, %.1f acknowledgements for 100 frames\n", mtu, room,
           calm ? ", Nagle and a delay" : "", best / 1e6, (mtu - 40) / best * 1e9, acks(mtu, room, 16 * MIB, calm));
}

static void show_among(uint16_t sockets, bool client) {
    double best = 0;
    for (int r = 0; r < ROUNDS; r++) keep_best(&best, among(sockets, sockets > 1000 ? 2048 * MIB : 64 * MIB, client));
    printf("MTU  1500, among %5u idle sockets%s: %7.1f MB/s\n", sockets, client ? ", behind a client of DHCP" : "", best / 1e6);
}

// What a run allocates, and one of 16 times its length.
static void show_allocations(void) {
    static const size_t mtus[] = {1500, 65535};
    uint64_t start = allocations;
    for (size_t i = 0; i < 2; i++) {
        size_t mtu = mtus[i], room = mtu > 1500 ? 262144 : 65536;
        stream(mtu, room, 16 * MIB, false, false, 0);
        printf("TCP, MTU %5zu: 16 MiB %llu, ", mtu, (unsigned long long)(allocations - start));
        start = allocations;
        stream(mtu, room, 256 * MIB, false, false, 0);
        printf("256 MiB %llu\n", (unsigned long long)(allocations - start));
        start = allocations;
    }
    trips(64, 1500, 10000, POLLS);
    printf("UDP: 10,000 round trips %llu, ", (unsigned long long)(allocations - start));
    start = allocations;
    trips(64, 1500, 160000, POLLS);
    printf("160,000 %llu\n", (unsigned long long)(allocations - start));
}

static uint64_t number(const char *word) {
    char *end;
    uint64_t value = strtoull(word, &end, 10);
    if (*word < '0' || *word > '9' || *end) fail("interface: what isn't a number stands where one belongs");
    return value;
}

// One figure of one round, for a script that runs several programs in turn.
static void one(char **word, int count) {
    uint64_t n[4] = {0};
    for (int i = 1; i < count && i < 5; i++) n[i - 1] = number(word[i]);
    if (count == 4 && (!strcmp(word[0], "stream") || !strcmp(word[0], "calm"))) {
        bool calm = word[0][0] == 'c';
        stream(n[0], n[1], 16 * MIB, true, calm, 0);
        printf("%.1f\n", stream(n[0], n[1], n[2] * MIB, false, calm, 0) / 1e6);
    } else if (count == 4 && (!strcmp(word[0], "acks") || !strcmp(word[0], "calm_acks"))) {
        printf("%.1f\n", acks(n[0], n[1], n[2] * MIB, word[0][0] == 'c'));
    } else if (count == 3 && (!strcmp(word[0], "among") || !strcmp(word[0], "behind"))) {
        printf("%.1f\n", among((uint16_t)n[0], n[1] * MIB, word[0][0] == 'b') / 1e6);
    } else if (count == 4 && !strcmp(word[0], "trips")) {
        printf("%.0f\n", trips(n[0], n[1], (uint32_t)n[2], STEPS));
    } else if (count == 4 && !strcmp(word[0], "polled")) {
        printf("%.0f\n", trips(n[0], n[1], (uint32_t)n[2], POLLS));
    } else if (count == 4 && !strcmp(word[0], "at_once")) {
        printf("%.0f\n", trips(n[0], n[1], (uint32_t)n[2], AT_ONCE));
    } else if (count == 5 && !strcmp(word[0], "limit") && n[0] >= 16 && n[0] <= READ && n[1] >= n[0] && n[1] <= BUFFER && (n[2] == 3 || n[2] == 4)) {
        printf("%.1f\n", limit(n[0], n[1], n[2], n[3] * MIB) / 1e6);
    } else if (count == 4 && !strcmp(word[0], "tables") && n[0] < 253 && n[1] < 255) {
        printf("%.0f\n", tables((uint8_t)n[0], (uint8_t)n[1], (uint32_t)n[2]));
    } else if (count == 3 && !strcmp(word[0], "idle")) {
        printf("%.1f\n", idle((uint16_t)n[0], (uint32_t)n[1]));
    } else if (count == 1 && !strcmp(word[0], "allocations")) {
        show_allocations();
    } else {
        fail("interface [stream MTU ROOM MIB | calm MTU ROOM MIB | acks MTU ROOM MIB | calm_acks MTU ROOM MIB | among SOCKETS MIB"
             " | behind SOCKETS MIB | trips LENGTH MTU COUNT | polled LENGTH MTU COUNT | at_once LENGTH MTU COUNT | tables NEIGHBORS ROUTES COUNT | idle SOCKETS POLLS | limit LENGTH ROOM COPIES MIB | allocations]");
    }
}

int main(int argc, char **argv) {
    for (size_t i = 0; i < TEXT; i++) text[i] = (uint8_t)(((uint32_t)(i % PERIOD) * 2654435761u) >> 13);
    if (argc > 1) {
        one(argv + 1, argc - 1);
        return 0;
    }
    puts("polls of a host with nothing to do");
    static const uint16_t counts[] = {0, 1, 10, 100, 1000, 10000};
    for (size_t i = 0; i < 6; i++) show_idle(counts[i]);
    puts("UDP, to the other host and back");
    show_trips(64, 1500, STEPS);
    show_trips(64, 1500, POLLS);
    show_trips(64, 1500, AT_ONCE);
    show_trips(1472, 1500, STEPS);
    show_trips(1472, 1500, AT_ONCE);
    static const uint8_t tables_of[][2] = {{0, 0}, {3, 0}, {63, 0}, {252, 0}, {0, 3}, {0, 15}, {0, 63}};
    for (size_t i = 0; i < 7; i++) show_tables(tables_of[i][0], tables_of[i][1]);
    puts("TCP, one way");
    show_stream(1500, 65536, false);
    show_stream(1500, 65536, true);
    show_stream(1500, 262144, false);
    show_stream(65535, 262144, false);
    show_stream(65535, 262144, true);
    show_among(1, false);
    show_among(100, false);
    show_among(10000, false);
    show_among(10000, true);
    puts("allocations of a whole run, the making of both hosts among them");
    show_allocations();
    return 0;
}
