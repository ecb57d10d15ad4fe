// Times calls of the stack beside plain C in one run, the best of many short runs of each: pieces through
// a ring buffer against two memory copies, the Internet checksum against a simple loop, and reading
// and writing of a datagram in an IPv4 packet against C functions that do the same work. The assembler's
// calls are timed alone.
#include <stdint.h>
#include <stdio.h>
#include <stdlib.h>
#include <string.h>
#include <time.h>

uint64_t bench_ring(const uint8_t *piece, size_t piece_len, uint8_t *out, size_t out_len, size_t capacity, uint32_t rounds);
uint64_t bench_receive(const uint16_t *offsets, size_t offsets_len, const uint16_t *sizes, size_t sizes_len);
uint64_t bench_add(const uint16_t *offsets, size_t offsets_len, const uint16_t *sizes, size_t sizes_len);
uint16_t bench_checksum(const uint8_t *bytes, size_t len);
uint64_t bench_parse(const uint8_t *bytes, size_t len, uint8_t *out, size_t out_len);
size_t bench_emit(uint8_t *out, size_t out_len, const uint8_t *payload, size_t len, uint32_t source, uint32_t destination,
                  uint16_t src_port, uint16_t dst_port);

enum { CAPACITY = 65535, TRIES = 300 };
static const uint32_t HERE = 0xc0a80101, THERE = 0xc0a80102;
static uint8_t piece[CAPACITY], out[CAPACITY], middle[CAPACITY];

static double now(void) {
    struct timespec t;
    clock_gettime(CLOCK_MONOTONIC, &t);
    return t.tv_sec + t.tv_nsec * 1e-9;
}

static void keep_least(double *best, double start) {
    double took = now() - start;
    if (took < *best) *best = took;
}

static void fail(const char *why) {
    puts(why);
    exit(1);
}

// Two copies of each piece, into a buffer and out of it, at a place that moves as a ring's does.
__attribute__((noipa)) static uint64_t two_copies(size_t len, uint32_t rounds) {
    size_t at = 0;
    for (uint32_t round = 0; round < rounds; round++) {
        memcpy(middle + at, piece, len);
        __asm__ volatile("" ::: "memory");
        memcpy(out, middle + at, len);
        __asm__ volatile("" ::: "memory");
        at += len;
        if (at + len > CAPACITY) at = 0;
    }
    return (uint64_t)len * rounds;
}

static void time_ring(size_t len) {
    uint32_t rounds = (uint32_t)(10000000 / len);
    double ring = 1e9, copies = 1e9;
    for (int t = 0; t < TRIES; t++) {
        double start = now();
        uint64_t passed = bench_ring(piece, len, out, len, CAPACITY, rounds);
        keep_least(&ring, start);
        if (passed != (uint64_t)len * rounds || memcmp(out, piece, len)) fail("wrong bytes");
        start = now();
        passed = two_copies(len, rounds);
        keep_least(&copies, start);
        if (passed != (uint64_t)len * rounds) fail("wrong count");
    }
    double bytes = (double)len * rounds;
    printf("%6zu bytes: %6.2f %6.2f  %.2f\n", len, bytes / ring / 1e9, bytes / copies / 1e9, ring / copies);
}

// The sum of the words of the bytes and of what came before (RFC 1071, section 4.1), in network order.
static inline uint64_t plain_sum(uint64_t sum, const uint8_t *bytes, size_t len) {
    while (len > 1) {
        sum += (uint16_t)(bytes[0] << 8 | bytes[1]);
        bytes += 2;
        len -= 2;
    }
    if (len) sum += bytes[0] << 8;
    return sum;
}

static inline uint16_t folded(uint64_t sum) {
    while (sum >> 16) sum = (sum & 0xffff) + (sum >> 16);
    return (uint16_t)sum;
}

__attribute__((noipa)) static uint16_t plain_checksum(const uint8_t *bytes, size_t len) {
    return folded(plain_sum(0, bytes, len));
}

static void time_checksum(size_t len) {
    uint32_t rounds = (uint32_t)(10000000 / (len + 40));
    double ours = 1e9, plain = 1e9;
    for (int t = 0; t < TRIES; t++) {
        uint32_t a = 0, b = 0;
        double start = now();
        for (uint32_t r = 0; r < rounds; r++) { piece[0] = (uint8_t)r; a += bench_checksum(piece, len); }
        keep_least(&ours, start);
        start = now();
        for (uint32_t r = 0; r < rounds; r++) { piece[0] = (uint8_t)r; b += plain_checksum(piece, len); }
        keep_least(&plain, start);
        if (a != b) fail("wrong sums");
    }
    double bytes = (double)len * rounds;
    printf("%6zu bytes: %6.2f %6.2f  %.2f\n", len, bytes / ours / 1e9, bytes / plain / 1e9, ours / plain);
}

static inline uint16_t get16(const uint8_t *bytes) { return (uint16_t)(bytes[0] << 8 | bytes[1]); }

static inline void put16(uint8_t *bytes, uint16_t value) {
    bytes[0] = (uint8_t)(value >> 8);
    bytes[1] = (uint8_t)value;
}

static inline void put32(uint8_t *bytes, uint32_t value) {
    put16(bytes, (uint16_t)(value >> 16));
    put16(bytes + 2, (uint16_t)value);
}

// The pseudo header of a datagram over IPv4: its addresses, the protocol and its length.
static inline uint64_t pseudo(const uint8_t *addresses, size_t len) { return plain_sum(17 + len, addresses, 8); }

// What `bench_parse` does: RFC 791, section 3.1, and RFC 768.
__attribute__((noipa)) static uint64_t plain_parse(const uint8_t *p, size_t len, uint8_t *to, size_t room) {
    if (len < 20) return 0;
    size_t header = (size_t)(p[0] & 15) * 4, total = get16(p + 2);
    if (header < 20 || header > total || total > len || p[0] >> 4 != 4) return 0;
    if (folded(plain_sum(0, p, header)) != 0xffff || p[9] != 17) return 0;
    const uint8_t *u = p + header;
    if (total - header < 8) return 0;
    size_t length = get16(u + 4);
    if (length < 8 || length > total - header || get16(u + 2) == 0) return 0;
    if (get16(u + 6) != 0 && folded(plain_sum(pseudo(p + 12, length), u, length)) != 0xffff) return 0;
    size_t payload = length - 8;
    if (payload > room) return 0;
    memcpy(to, u + 8, payload);
    return (uint64_t)get16(u) << 32 | (uint64_t)get16(u + 2) << 16 | payload;
}

// What `bench_emit` does.
__attribute__((noipa)) static size_t plain_emit(uint8_t *p, size_t room, const uint8_t *payload, size_t len, uint32_t source,
                                                uint32_t destination, uint16_t src_port, uint16_t dst_port) {
    if (len > 65507 || room < len + 28) return 0;
    p[0] = 0x45;
    p[1] = 0;
    put16(p + 2, (uint16_t)(len + 28));
    put32(p + 4, 0x4000);
    p[8] = 64;
    p[9] = 17;
    put16(p + 10, 0);
    put32(p + 12, source);
    put32(p + 16, destination);
    put16(p + 10, (uint16_t)~folded(plain_sum(0, p, 20)));
    uint8_t *u = p + 20;
    put16(u, src_port);
    put16(u + 2, dst_port);
    put16(u + 4, (uint16_t)(len + 8));
    put16(u + 6, 0);
    memcpy(u + 8, payload, len);
    uint16_t check = (uint16_t)~folded(plain_sum(pseudo(p + 12, len + 8), u, len + 8));
    put16(u + 6, check ? check : 0xffff);
    return len + 28;
}

static void time_parse(size_t len) {
    uint32_t rounds = (uint32_t)(10000000 / (len + 100));
    size_t total = plain_emit(middle, CAPACITY, piece, len, HERE, THERE, 48896, 53);
    double ours = 1e9, plain = 1e9;
    uint64_t answer = plain_parse(middle, total, out, CAPACITY);
    if (!answer || memcmp(out, piece, len)) fail("refused by C");
    memset(out, 0, len);
    if (bench_parse(middle, total, out, CAPACITY) != answer || memcmp(out, piece, len)) fail("read otherwise");
    middle[total - 1] ^= 1;
    if (bench_parse(middle, total, out, CAPACITY) || plain_parse(middle, total, out, CAPACITY)) fail("damage read");
    middle[total - 1] ^= 1;
    for (int t = 0; t < TRIES; t++) {
        uint64_t a = 0, b = 0;
        double start = now();
        for (uint32_t r = 0; r < rounds; r++) a += bench_parse(middle, total, out, CAPACITY);
        keep_least(&ours, start);
        start = now();
        for (uint32_t r = 0; r < rounds; r++) { b += plain_parse(middle, total, out, CAPACITY); __asm__ volatile("" ::: "memory"); }
        keep_least(&plain, start);
        if (a != b || a != answer * rounds) fail("wrong answers");
    }
    printf("%6zu bytes: %6.1f %6.1f  %.2f\n", len, ours / rounds * 1e9, plain / rounds * 1e9, ours / plain);
}

static void time_emit(size_t len) {
    uint32_t rounds = (uint32_t)(10000000 / (len + 100));
    double ours = 1e9, plain = 1e9;
    size_t total = len + 28;
    for (int t = 0; t < TRIES; t++) {
        uint64_t a = 0, b = 0;
        double start = now();
        for (uint32_t r = 0; r < rounds; r++) a += bench_emit(out, CAPACITY, piece, len, HERE, THERE, (uint16_t)r, 53);
        keep_least(&ours, start);
        start = now();
        for (uint32_t r = 0; r < rounds; r++) {
            b += plain_emit(middle, CAPACITY, piece, len, HERE, THERE, (uint16_t)r, 53);
            __asm__ volatile("" ::: "memory");
        }
        keep_least(&plain, start);
        if (a != b || a != (uint64_t)total * rounds || memcmp(out, middle, total)) fail("written otherwise");
    }
    printf("%6zu bytes: %6.1f %6.1f  %.2f\n", len, ours / rounds * 1e9, plain / rounds * 1e9, ours / plain);
}

enum { PIECES = 6000, PIECE = 10 };
static uint16_t offsets[PIECES], piece_sizes[PIECES];

static void time_pieces(const char *what, uint64_t (*call)(const uint16_t *, size_t, const uint16_t *, size_t), uint64_t answer) {
    double best = 1e9;
    for (int t = 0; t < TRIES; t++) {
        double start = now();
        uint64_t was = call(offsets, PIECES, piece_sizes, PIECES);
        keep_least(&best, start);
        if (was != answer) fail("wrong answers of the assembler");
    }
    printf("%s: %.2f\n", what, best / PIECES * 1e9);
}

// Pieces in order; pieces that open three holes and then fill them; and pieces that lengthen the last run, or are
// held already, behind three holes.
static void time_assembler(void) {
    static const uint16_t lost[] = {PIECE, 3 * PIECE, 5 * PIECE, 0, 0, 0};
    for (int i = 0; i < PIECES; i++) offsets[i] = 0, piece_sizes[i] = PIECE;
    time_pieces("add_then_remove_front in order", bench_receive, (uint64_t)PIECES * PIECE);
    for (int i = 0; i < PIECES; i++) offsets[i] = lost[i % 6];
    time_pieces("add_then_remove_front, three holes opened and filled", bench_receive, (uint64_t)PIECES * PIECE);
    for (int i = 0; i < PIECES; i++) offsets[i] = (uint16_t)(i < 3 ? lost[i] : (3 + i) * PIECE);
    time_pieces("add behind three holes, a longer last run", bench_add, PIECES);
    for (int i = 0; i < PIECES; i++) offsets[i] = lost[i % 3];
    time_pieces("add behind three holes, held already", bench_add, PIECES);
}

static void each(const char *title, void (*timed)(size_t), const size_t *lens, size_t count) {
    puts(title);
    for (size_t i = 0; i < count; i++) timed(lens[i]);
}

int main(void) {
    static const size_t pieces[] = {64, 536, 1460, 8192}, sizes[] = {20, 64, 256, 1500, 9000}, payloads[] = {20, 64, 256, 536, 1472};
    for (size_t i = 0; i < sizeof piece; i++) piece[i] = (uint8_t)(i * 131 + 7);
    each("ring: GB/s in and out, two copies: GB/s, time of the ring / time of the copies", time_ring, pieces, 4);
    puts("assembler of four runs, ns of a call");
    time_assembler();
    each("checksum: GB/s, plain loop at -O3: GB/s, time of the checksum / time of the loop", time_checksum, sizes, 5);
    each("parse of IPv4 and UDP, payload: ns, the same in C: ns, ours / C", time_parse, payloads, 5);
    each("emit of IPv4 and UDP, payload: ns, the same in C: ns, ours / C", time_emit, payloads, 5);
    return 0;
}
