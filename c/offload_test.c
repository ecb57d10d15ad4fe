/* Tries offload.c over frames made by hand, without a device: what is put together is what a kernel takes, and cut again it is the frames
 * that there were, byte for byte; what comes is given as frames whose sums are right; what is broken is refused.
 *
 *   offload_test            each layout in turn
 *   offload_test SECONDS SEED       then frames and reads at random
 *
 * With -DLIBFUZZER it is a target of libFuzzer. Layouts: RFC 791 (3.1), RFC 8200 (3), RFC 9293 (3.1), RFC 768; the header of virtio:
 * Virtual I/O Device 1.2, 5.1.6. The builder of frames and the sums here share nothing with offload.c.
 */
#include "offload.h"

#include <stdio.h>
#include <stdlib.h>
#include <string.h>
#include <time.h>

#define CHECK(it) ((it) ? (void)0 : failed(#it, __LINE__))

enum { MOST_FRAMES = 4096, KEPT = 8 << 20 };

static void failed(const char *what, int line)
{
    fprintf(stderr, "offload_test: line %d: %s\n", line, what);
    abort();
}

/* FRAMES BY HAND */

/* What a frame has. Numbers that aren't named are those of `usual`. */
struct spec {
    int is_tap, is_ipv6, is_udp;
    size_t options;      /* bytes of TCP's options: 0 or 12, a timestamp behind two no-operations */
    uint16_t source, identification, window;
    uint32_t number, acknowledged;
    uint8_t flags, hops, kind; /* kind: type of service, or of traffic */
    size_t text;
    uint8_t first;       /* the first byte of text; each following one is the one before and 7 */
    uint32_t moment;     /* of the timestamp */
    int is_wrong;        /* whether the sum behind the IP header is */
    int has_no_sum;      /* a datagram without one */
};

static const struct spec usual = {.source = 49152, .identification = 1, .window = 1000, .number = 4294966000u, .acknowledged = 77,
                                  .flags = 16, .hops = 64, .text = 1460};

struct kept {
    size_t count, used;
    size_t at[MOST_FRAMES], length[MOST_FRAMES];
    uint8_t bytes[KEPT];
};

static uint8_t *put16(uint8_t *at, unsigned value)
{
    at[0] = (uint8_t)(value >> 8 & 255), at[1] = (uint8_t)(value & 255);
    return at + 2;
}

static uint8_t *put32(uint8_t *at, uint32_t value)
{
    return put16(put16(at, value >> 16), value & 65535);
}

/* RFC 1071, byte by byte, the first one above the second. */
static uint32_t sum_of(uint32_t sum, const uint8_t *bytes, size_t length)
{
    uint64_t all = sum;
    for (size_t i = 0; i < length; i++)
        all += (uint64_t)bytes[i] << ((i & 1) != 0 ? 0 : 8);
    while (all >> 16 != 0)
        all = (all & 65535) + (all >> 16);
    return (uint32_t)all;
}

static size_t headers_of(const struct spec *it)
{
    return (it->is_tap ? 14u : 0u) + (it->is_ipv6 ? 40u : 20u) + (it->is_udp ? 8u : 20u + (unsigned)it->options);
}

/* The sum over addresses, length, protocol and what lies behind the IP header, whose own sum is in there. */
static uint32_t whole_sum(const uint8_t *ip, int is_ipv6, int is_udp, size_t length)
{
    uint32_t sum = is_ipv6 ? sum_of(0, ip + 8, 32) : sum_of(0, ip + 12, 8);
    sum += is_udp ? 17 : 6;
    sum += (uint32_t)length;
    return sum_of(sum, ip + (is_ipv6 ? 40 : 20), length);
}

static uint8_t *ethernet(uint8_t *at, const struct spec *it)
{
    static const uint8_t stations[12] = {2, 0, 0, 0, 0, 9, 2, 0, 0, 0, 0, 1};
    memcpy(at, stations, 12);
    return put16(at + 12, it->is_ipv6 ? 0x86dd : 0x0800);
}

static uint8_t *ip_header(uint8_t *at, const struct spec *it, size_t behind)
{
    if (it->is_ipv6) {
        put32(at, 0x60000000u | (uint32_t)it->kind << 20 | 0x12345);
        put16(at + 4, (unsigned)behind);
        at[6] = it->is_udp ? 17 : 6, at[7] = it->hops;
        for (int i = 0; i < 32; i++)
            at[8 + i] = (uint8_t)(i == 0 || i == 16 ? 0xfd : i == 15 ? 2 : i == 31 ? 1 : 0);
        return at + 40;
    }
    at[0] = 0x45, at[1] = it->kind;
    put16(at + 2, (unsigned)(20 + behind));
    put16(at + 4, it->identification);
    put16(at + 6, 0);
    at[8] = it->hops, at[9] = it->is_udp ? 17 : 6;
    put16(at + 10, 0);
    put32(at + 12, 0x0a090002), put32(at + 16, 0x0a090001);
    put16(at + 10, ~sum_of(0, at, 20) & 65535);
    return at + 20;
}

static uint8_t *tcp_header(uint8_t *at, const struct spec *it)
{
    put16(at, it->source), put16(at + 2, 7);
    put32(at + 4, it->number), put32(at + 8, it->acknowledged);
    at[12] = (uint8_t)((20 + it->options) / 4 << 4), at[13] = it->flags;
    put16(at + 14, it->window), put16(at + 16, 0), put16(at + 18, 0);
    if (it->options != 0) {
        put32(at + 20, 0x0101080a);
        put32(at + 24, it->moment), put32(at + 28, 99);
    }
    return at + 20 + it->options;
}

static uint8_t *udp_header(uint8_t *at, const struct spec *it)
{
    put16(at, it->source), put16(at + 2, 7), put16(at + 4, (unsigned)(8 + it->text)), put16(at + 6, 0);
    return at + 8;
}

/* Writes the frame, and says how many bytes it has. */
static size_t build(uint8_t *frame, const struct spec *it)
{
    const size_t length = headers_of(it) + it->text;
    uint8_t *ip = it->is_tap ? ethernet(frame, it) : frame;
    const size_t behind = length - (size_t)(ip - frame) - (it->is_ipv6 ? 40 : 20);
    uint8_t *own = ip_header(ip, it, behind);
    uint8_t *text = it->is_udp ? udp_header(own, it) : tcp_header(own, it);
    for (size_t i = 0; i < it->text; i++)
        text[i] = (uint8_t)(it->first + 7 * i);
    uint32_t sum = ~whole_sum(ip, it->is_ipv6, it->is_udp, behind) & 65535;
    if (it->is_udp && sum == 0)
        sum = 65535;
    if (it->is_wrong)
        sum ^= 0x100;
    put16(own + (it->is_udp ? 6 : 16), it->has_no_sum ? 0 : sum);
    return length;
}

/* WHAT IS WRITTEN AND GIVEN */

static struct kept writes, gives;
static struct offload joined, cut;

static void keep(struct kept *to, const uint8_t *bytes, size_t length)
{
    CHECK(to->count < MOST_FRAMES && to->used + length <= KEPT);
    to->at[to->count] = to->used, to->length[to->count++] = length;
    memcpy(to->bytes + to->used, bytes, length);
    to->used += length;
}

static ssize_t kept_write(int device, const struct iovec *pieces, int count)
{
    size_t length = 0;
    (void)device;
    CHECK(writes.count < MOST_FRAMES);
    writes.at[writes.count] = writes.used;
    for (int i = 0; i < count; i++) {
        CHECK(writes.used + pieces[i].iov_len <= KEPT);
        memcpy(writes.bytes + writes.used, pieces[i].iov_base, pieces[i].iov_len);
        writes.used += pieces[i].iov_len, length += pieces[i].iov_len;
    }
    writes.length[writes.count++] = length;
    return (ssize_t)length;
}

static void kept_give(void *context, const uint8_t *frame, size_t length)
{
    (void)context;
    keep(&gives, frame, length);
}

/* A frame that a read at random gives: it has no more bytes than there may be. */
static void counted_give(void *context, const uint8_t *frame, size_t length)
{
    (void)context, (void)frame;
    CHECK(length <= OFFLOAD_LONGEST);
}

static void begin(int is_tap, int takes_long)
{
    memset(&joined, 0, offsetof(struct offload, room));
    memset(&cut, 0, offsetof(struct offload, room));
    joined.write = kept_write, joined.joins_udp = 1;
    offload_set(&joined, is_tap, 1, kept_give, NULL);
    offload_set(&cut, is_tap, takes_long, kept_give, NULL);
    writes.count = writes.used = gives.count = gives.used = 0;
}

static void send(const struct spec *it)
{
    offload_out(&joined, build(offload_room(&joined), it));
}

static void cut_all(void)
{
    static uint8_t read[OFFLOAD_READ];
    for (size_t i = 0; i < writes.count; i++) {
        CHECK(writes.length[i] <= OFFLOAD_READ);
        memcpy(read, writes.bytes + writes.at[i], writes.length[i]);
        CHECK(offload_in(&cut, read, writes.length[i]) > 0);
    }
}

/* Whether the frame that was given is the one of these numbers. */
static void same(size_t index, const struct spec *it)
{
    static uint8_t frame[OFFLOAD_LONGEST];
    const size_t length = build(frame, it);
    CHECK(index < gives.count && gives.length[index] == length && memcmp(gives.bytes + gives.at[index], frame, length) == 0);
}

/* The one that goes behind, with the next number and identification. */
static struct spec behind(struct spec it)
{
    it.number += (uint32_t)it.text;
    it.identification++;
    it.first = (uint8_t)(it.first + 3);
    return it;
}

/* WHAT A KERNEL WANTS of what was put together: the header of virtio, the lengths, and the pseudo header's sum where the sum goes. */
static void is_wanted(size_t index, const struct spec *it, size_t text)
{
    const uint8_t *bytes = writes.bytes + writes.at[index], *frame = bytes + 12;
    const uint8_t *ip = frame + (it->is_tap ? 14 : 0), *own = ip + (it->is_ipv6 ? 40 : 20);
    const size_t length = headers_of(it) + text, behind_ip = length - (size_t)(own - frame);
    uint16_t sizes[4];
    memcpy(sizes, bytes + 2, 8);
    CHECK(writes.length[index] == 12 + length);
    CHECK(bytes[0] == 1 && bytes[1] == (it->is_udp ? 5 : it->is_ipv6 ? 4 : 1));
    CHECK(sizes[0] == headers_of(it) && sizes[1] == it->text);
    CHECK(sizes[2] == (size_t)(own - frame) && sizes[3] == (it->is_udp ? 6 : 16));
    if (it->is_ipv6)
        CHECK(ip[4] << 8 == (int)(behind_ip & 0xff00) && ip[5] == (behind_ip & 255));
    else
        CHECK((size_t)(ip[2] << 8 | ip[3]) == length - (size_t)(ip - frame) && sum_of(0, ip, 20) == 0xffff);
    if (it->is_udp)
        CHECK((size_t)(own[4] << 8 | own[5]) == behind_ip);
    uint32_t pseudo = (it->is_ipv6 ? sum_of(0, ip + 8, 32) : sum_of(0, ip + 12, 8)) + (it->is_udp ? 17 : 6) + (uint32_t)behind_ip;
    pseudo = (pseudo & 65535) + (pseudo >> 16);
    const uint8_t *sum = own + sizes[3];
    CHECK((uint32_t)(sum[0] << 8 | sum[1]) == (pseudo & 65535) + (pseudo >> 16));
}

/* EACH LAYOUT */

/* A run of full ones and a shorter last one goes as one write, and comes back as it was. */
static void run_of(struct spec first, int count)
{
    struct spec all[64];
    begin(first.is_tap, 0);
    all[0] = first;
    for (int i = 1; i < count; i++)
        all[i] = behind(all[i - 1]);
    all[count - 1].text = 100;
    if (!first.is_udp)
        all[count - 1].flags |= 8;
    for (int i = 0; i < count; i++)
        send(&all[i]);
    CHECK(writes.count == 0);
    offload_flush(&joined);
    CHECK(writes.count == 1 && joined.gone == (uint64_t)count);
    is_wanted(0, &first, first.text * (size_t)(count - 1) + 100);
    cut_all();
    CHECK(gives.count == (size_t)count);
    for (int i = 0; i < count; i++)
        same((size_t)i, &all[i]);
}

/* Two frames that may not go together go as two, as they are. */
static void apart(const struct spec *one, const struct spec *other)
{
    begin(one->is_tap, 0);
    send(one);
    send(other);
    offload_flush(&joined);
    CHECK(writes.count == 2);
    cut_all();
    CHECK(gives.count == 2);
    same(0, one);
    same(1, other);
}

#define APART(field, value)                   \
    do {                                      \
        struct spec next = behind(first);     \
        next.field = (value);                 \
        apart(&first, &next);                 \
    } while (0)

static void each_difference(struct spec first)
{
    APART(text, first.text + 1);
    APART(hops, 63);
    APART(kind, 4);
    APART(is_wrong, 1);
    if (!first.is_ipv6)
        APART(identification, (uint16_t)(first.identification + 2));
    if (first.is_udp) {
        APART(has_no_sum, 1);
        return;
    }
    APART(number, first.number);
    APART(number, first.number + 1461);
    APART(acknowledged, 78);
    APART(window, 999);
    for (int flag = 0; flag < 8; flag++)
        if (flag != 0 && flag != 3)
            APART(flags, (uint8_t)(16 ^ 1 << flag));
    APART(text, 0);
    if (first.options != 0)
        APART(moment, 1);
    struct spec pushed = first;
    pushed.flags |= 8;
    struct spec next = behind(pushed);
    apart(&pushed, &next);
    struct spec shorter = behind(first);
    shorter.text = 10;
    begin(first.is_tap, 0);
    next = behind(shorter);
    next.text = 10;
    send(&first), send(&shorter), send(&next);
    offload_flush(&joined);
    CHECK(writes.count == 2);
}

/* Two flows in turns go as one write each, in the order in which they began, and each keeps its own order. */
static void two_flows(struct spec one)
{
    struct spec other = one, all[8];
    other.source++;
    begin(one.is_tap, 0);
    for (int i = 0; i < 4; i++, one = behind(one), other = behind(other))
        send(&one), send(&other), all[i] = one, all[4 + i] = other;
    offload_flush(&joined);
    CHECK(writes.count == 2);
    cut_all();
    for (size_t i = 0; i < 8; i++)
        same(i, &all[i]);
}

/* As many flows as there is place for, and one more: the first one goes, and no frame is lost. */
static void many_flows(struct spec it)
{
    begin(it.is_tap, 0);
    for (int i = 0; i <= OFFLOAD_FLOWS; i++, it.source++)
        send(&it);
    CHECK(writes.count == 1);
    offload_flush(&joined);
    CHECK(writes.count == OFFLOAD_FLOWS + 1);
}

/* No more than so many go as one. */
static void no_more_than_most(struct spec it)
{
    begin(it.is_tap, 0);
    it.text = 900;
    for (int i = 0; i <= OFFLOAD_FRAMES; i++, it = behind(it))
        send(&it);
    CHECK(writes.count == 1 && joined.gone == OFFLOAD_FRAMES);
}

/* Two frames of a flow with these two bytes of each set to a value, so that they are none that may be put together. */
static void alone_with(struct spec it, size_t at, unsigned value)
{
    begin(it.is_tap, 0);
    joined.is_trusted = 1;
    for (int i = 0; i < 2; i++, it = behind(it)) {
        uint8_t *room = offload_room(&joined);
        const size_t length = build(room, &it);
        put16(room + at, value);
        offload_out(&joined, length);
    }
    offload_flush(&joined);
    CHECK(writes.count == 2);
}

/* Pieces of a datagram, a header with options, a version that isn't the one that the link's header says, another length in UDP's header. */
static void others_stay_alone(struct spec it)
{
    const size_t ip = it.is_tap ? 14 : 0, own = ip + (it.is_ipv6 ? 40 : 20);
    if (!it.is_ipv6)
        alone_with(it, ip + 6, 0x2000), alone_with(it, ip + 6, 1), alone_with(it, ip, 0x4600);
    if (it.is_tap)
        alone_with(it, 12, it.is_ipv6 ? 0x0800 : 0x86dd), alone_with(it, 12, 0x0806);
    if (it.is_udp)
        alone_with(it, own + 4, 9);
}

/* A packet that ends before its frame does stays alone, as it is, and so do a datagram without a sum where sums aren't looked at, all
 * datagrams where the kernel doesn't cut them, and a segment whose header would end within itself or behind the frame. */
static void some_stay_alone(struct spec it)
{
    struct spec next = behind(it);
    next.text = 100;
    begin(it.is_tap, 0);
    joined.is_trusted = 1;
    send(&it);
    const size_t length = build(offload_room(&joined), &next);
    offload_out(&joined, length + 3);
    offload_flush(&joined);
    CHECK(writes.count == 2 && writes.length[1] == 12 + length + 3 && writes.bytes[writes.at[1]] == 0);
    begin(it.is_tap, 0);
    joined.is_trusted = 1;
    next.has_no_sum = it.is_udp;
    send(&it), send(&next);
    offload_flush(&joined);
    CHECK(writes.count == (it.is_udp ? 2 : 1));
    begin(it.is_tap, 0);
    joined.joins_udp = 0;
    next.has_no_sum = 0;
    send(&it), send(&next);
    offload_flush(&joined);
    CHECK(writes.count == (it.is_udp ? 2 : 1));
    if (it.is_udp)
        return;
    for (int words = 4; words < 16; words += 11) {
        begin(it.is_tap, 0);
        joined.is_trusted = 1;
        it.text = 10;
        for (int i = 0; i < 2; i++, it = behind(it), it.number += words == 4 ? 4 : (uint32_t)it.options - 40, it.first = 0) {
            uint8_t *room = offload_room(&joined);
            const size_t whole = build(room, &it);
            room[headers_of(&it) - it.options - 8] = (uint8_t)(words << 4);
            offload_out(&joined, whole);
        }
        offload_flush(&joined);
        CHECK(writes.count == 2);
    }
}

/* A frame whose sum the kernel left open, as Linux hands them out: the sum's field has the pseudo header's. */
static size_t open_frame(uint8_t *bytes, const struct spec *it, uint8_t type, size_t size)
{
    uint8_t *frame = bytes + 12;
    const size_t length = build(frame, it), at = headers_of(it) - (it->is_udp ? 8 : 20 + it->options);
    const uint8_t *ip = frame + (it->is_tap ? 14 : 0);
    const uint16_t sizes[5] = {(uint16_t)headers_of(it), (uint16_t)size, (uint16_t)at, it->is_udp ? 6 : 16, 0};
    bytes[0] = 1, bytes[1] = type;
    memcpy(bytes + 2, sizes, 10);
    uint32_t pseudo = (it->is_ipv6 ? sum_of(0, ip + 8, 32) : sum_of(0, ip + 12, 8)) + (it->is_udp ? 17 : 6) + (uint32_t)(length - at);
    pseudo = (pseudo & 65535) + (pseudo >> 16);
    put16(frame + at + (it->is_udp ? 6 : 16), (pseudo & 65535) + (pseudo >> 16));
    return 12 + length;
}

/* What comes with an open sum is given with the right one, long or not. */
static void sums_are_completed(struct spec it)
{
    static uint8_t bytes[OFFLOAD_READ];
    for (size_t text = 0; text < 65000; text = text * 3 + 1) {
        it.text = text;
        begin(it.is_tap, 1);
        const int is_long = text > 1400 && !it.is_udp;
        const size_t length = open_frame(bytes, &it, (uint8_t)(is_long ? (it.is_ipv6 ? 4 : 1) : 0), is_long ? 1400 : 0);
        CHECK(offload_in(&cut, bytes, length) == 1 && gives.count == 1);
        same(0, &it);
    }
}

/* A long one of UDP is given as its datagrams, and of TCP, where the stack takes no long ones, as its segments. */
static void long_ones_are_cut(struct spec it)
{
    static uint8_t bytes[OFFLOAD_READ];
    struct spec part = it;
    it.text = 10 * 1400 + 1;
    if (!it.is_udp)
        it.flags = 16 | 8 | 1;
    begin(it.is_tap, 0);
    const size_t length = open_frame(bytes, &it, (uint8_t)(it.is_udp ? 5 : it.is_ipv6 ? 4 : 1), 1400);
    CHECK(offload_in(&cut, bytes, length) == 11 && gives.count == 11);
    part.text = 1400;
    for (size_t i = 0; i < 11; i++) {
        if (i == 10)
            part.text = 1, part.flags = it.flags;
        same(i, &part);
        part.number += 1400, part.identification++, part.first = (uint8_t)(part.first + 7 * 1400);
    }
}

/* A SYN names 8,960 or 9,000 bytes, at an even or an odd place: it is given and goes with what the link carries, and its sum is right. */
static void segments_are_bounded(struct spec it, int is_odd, unsigned named, unsigned told)
{
    for (int way = 0; way < 2; way++) {
        uint8_t bytes[200] = {0}, *frame = bytes + 12;
        it.options = 12, it.text = 0, it.flags = 2;
        size_t length = build(frame, &it), at = headers_of(&it) - 32;
        uint8_t *tcp = frame + at, *option = tcp + 20;
        const uint8_t even[12] = {2, 4, (uint8_t)(named >> 8), (uint8_t)named, 1, 3, 3, 7, 4, 2, 0, 0};
        const uint8_t odd[12] = {1, 2, 4, (uint8_t)(named >> 8), (uint8_t)named, 3, 3, 7, 4, 2, 0, 0};
        memcpy(option, is_odd ? odd : even, 12);
        put16(tcp + 16, 0);
        put16(tcp + 16, ~whole_sum(frame + (it.is_tap ? 14 : 0), it.is_ipv6, 0, 32) & 65535);
        begin(it.is_tap, 1);
        if (way == 0) {
            CHECK(offload_in(&cut, bytes, 12 + length) == 1);
        } else {
            memcpy(offload_room(&joined), frame, length);
            offload_out(&joined, length);
            CHECK(writes.count == 1);
            keep(&gives, writes.bytes + 12, writes.length[0] - 12);
        }
        const uint8_t *came = gives.bytes, *value = came + at + 20 + (is_odd ? 3 : 2);
        CHECK(gives.count == 1 && gives.length[0] == length && (unsigned)(value[0] << 8 | value[1]) == told);
        CHECK(whole_sum(came + (it.is_tap ? 14 : 0), it.is_ipv6, 0, 32) == 0xffff);
    }
}

/* Datagrams from all ports, of one of which the sum is 0, which goes as 65535. */
static void no_sum_is_none(struct spec it)
{
    uint8_t bytes[200];
    it.text = 2, it.source = 0;
    begin(it.is_tap, 0);
    do {
        gives.count = gives.used = 0;
        it.source++;
        CHECK(offload_in(&cut, bytes, open_frame(bytes, &it, 0, 0)) == 1);
        same(0, &it);
    } while (it.source != 0);
}

/* An option that is cut by the end of the header is let be, and nothing beyond is written. */
static void cut_options_are_let_be(struct spec it)
{
    static const uint8_t options[12] = {1, 1, 1, 1, 1, 1, 1, 1, 1, 2, 4, 255};
    uint8_t bytes[200] = {0}, before[200];
    it.options = 12, it.text = 1, it.flags = 2;
    const size_t length = build(bytes + 12, &it);
    memcpy(bytes + 12 + headers_of(&it) - 12, options, 12);
    memcpy(before, bytes, sizeof bytes);
    begin(it.is_tap, 1);
    CHECK(offload_in(&cut, bytes, 12 + length) == 1 && memcmp(before, bytes, sizeof bytes) == 0);
}

/* Headers of virtio that no frame goes with. */
static void broken_ones_are_refused(void)
{
    static uint8_t bytes[OFFLOAD_READ + 1];
    struct spec it = usual;
    begin(0, 0);
    CHECK(offload_in(&cut, bytes, 0) == 0 && offload_in(&cut, bytes, 12) == 0);
    size_t length = open_frame(bytes, &it, 0, 0);
    const uint16_t beyond = (uint16_t)(length - 12 - 17);
    memcpy(bytes + 6, &beyond, 2);
    CHECK(offload_in(&cut, bytes, length) == 0);
    length = open_frame(bytes, &it, 1, 0);
    CHECK(offload_in(&cut, bytes, length) == 0);
    length = open_frame(bytes, &it, 4, 100);
    CHECK(offload_in(&cut, bytes, length) == 0);
    length = open_frame(bytes, &it, 5, 100);
    CHECK(offload_in(&cut, bytes, length) == 0);
    length = open_frame(bytes, &it, 1, 100);
    CHECK(offload_in(&cut, bytes, length - 1) == 0);
    it.flags = 2 | 16;
    length = open_frame(bytes, &it, 1, 100);
    CHECK(offload_in(&cut, bytes, length) == 0);
    it.flags = 16, it.text = 10;
    length = open_frame(bytes, &it, 1, 100);
    bytes[12 + 20 + 12] = 15 << 4;
    CHECK(offload_in(&cut, bytes, length) == 0);
    memset(bytes, 0, sizeof bytes);
    CHECK(offload_in(&cut, bytes, sizeof bytes) == 0);
    CHECK(gives.count == 0 && cut.refused == 10);
}

static void each_layout(void)
{
    for (int way = 0; way < 16; way++) {
        struct spec it = usual;
        it.is_tap = way & 1, it.is_ipv6 = way >> 1 & 1, it.is_udp = way >> 2 & 1, it.options = (way >> 3) != 0 ? 12 : 0;
        if (it.is_udp && it.options != 0)
            continue;
        it.text = 1460 - it.options - (it.is_ipv6 ? 20 : 0);
        run_of(it, 2), run_of(it, 3), run_of(it, 44);
        it.text = 900;
        run_of(it, 64);
        each_difference(it);
        two_flows(it);
        many_flows(it);
        no_more_than_most(it);
        some_stay_alone(it);
        others_stay_alone(it);
        if (it.is_udp)
            no_sum_is_none(it);
        sums_are_completed(it);
        long_ones_are_cut(it);
        if (!it.is_udp)
            cut_options_are_let_be(it);
        if (!it.is_udp)
            for (int odd = 0; odd < 2; odd++) {
                segments_are_bounded(it, odd, 65495, it.is_ipv6 ? 1440 : 1460);
                segments_are_bounded(it, odd, 8960, it.is_ipv6 ? 1440 : 1460);
                segments_are_bounded(it, odd, 1400, 1400);
            }
    }
    broken_ones_are_refused();
}

/* AT RANDOM */

struct source {
    const uint8_t *bytes;
    size_t left;
};

static unsigned draw(struct source *from, unsigned below)
{
    if (from->left == 0)
        return 0;
    from->left--;
    return *from->bytes++ % below;
}

/* A frame that mostly goes behind the one of its flow before. */
static struct spec drawn(struct source *from, const struct spec *before)
{
    struct spec it = behind(*before);
    const unsigned what = draw(from, 32);
    if (what < 12)
        it.text = before->text;
    else if (what == 12)
        it.text = draw(from, 256);
    else if (what == 13)
        it.text = 1 + (draw(from, 4) == 0 ? 251 : 10) * draw(from, 256);
    else if (what == 14)
        it.flags = (uint8_t)draw(from, 64);
    else if (what == 15)
        it.flags |= 8;
    else if (what == 16)
        it.acknowledged++;
    else if (what == 17)
        it.window--;
    else if (what == 18)
        it.hops--;
    else if (what == 19)
        it.is_wrong = 1;
    else if (what == 20)
        it.has_no_sum = it.is_udp;
    else if (what == 21)
        it.number += 5;
    else if (what == 22)
        it.identification = (uint16_t)(it.identification + draw(from, 3));
    else if (what == 23)
        it.moment++;
    else if (what == 24)
        it.kind++;
    if (it.text == 0 && what != 12)
        it.text = 100;
    return it;
}

/* Frames of four flows at random: what comes back has each flow's frames in their order, byte for byte. */
static void frames_at_random(struct source *from)
{
    static struct kept sent;
    struct spec flows[4];
    const int is_tap = (int)draw(from, 2);
    int owner[512], count = 0;
    sent.count = sent.used = 0;
    begin(is_tap, 0);
    for (int i = 0; i < 4; i++) {
        flows[i] = usual;
        flows[i].is_tap = is_tap, flows[i].is_ipv6 = (int)draw(from, 2), flows[i].is_udp = (int)draw(from, 2);
        flows[i].options = draw(from, 2) != 0 && !flows[i].is_udp ? 12 : 0;
        flows[i].source = (uint16_t)(1000 + i), flows[i].text = 1 + 6 * draw(from, 64);
    }
    while (from->left > 0 && count < 512 && sent.used < KEPT / 2) {
        const unsigned which = draw(from, 4);
        struct spec it = drawn(from, &flows[which]);
        uint8_t *room = offload_room(&joined);
        const size_t length = build(room, &it);
        keep(&sent, room, length);
        owner[count++] = (int)which;
        offload_out(&joined, length);
        flows[which] = it;
        flows[which].is_wrong = flows[which].has_no_sum = 0;
        flows[which].flags = 16;
        if (draw(from, 16) == 0)
            offload_flush(&joined);
    }
    offload_flush(&joined);
    cut_all();
    CHECK(gives.count == sent.count);
    size_t next[4] = {0, 0, 0, 0};
    for (size_t i = 0; i < gives.count; i++) {
        const uint8_t *frame = gives.bytes + gives.at[i];
        const size_t at = (is_tap ? 14 : 0) + ((frame[is_tap ? 14 : 0] >> 4) == 6 ? 40u : 20u);
        const int which = (frame[at] << 8 | frame[at + 1]) - 1000;
        CHECK(which >= 0 && which < 4);
        while (owner[next[which]] != which)
            next[which]++;
        const size_t it = next[which]++;
        CHECK(gives.length[i] == sent.length[it] && memcmp(frame, sent.bytes + sent.at[it], sent.length[it]) == 0);
    }
}

/* Bytes at random as a read, and as a frame that goes; or a good read with some bytes changed. */
static void reads_at_random(struct source *from)
{
    static uint8_t bytes[OFFLOAD_READ];
    begin((int)draw(from, 2), (int)draw(from, 2));
    size_t length = 0;
    if (draw(from, 2) == 0) {
        struct spec it = usual;
        it.is_tap = cut.link != 0, it.is_ipv6 = (int)draw(from, 2), it.is_udp = (int)draw(from, 2), it.text = 1 + 250 * draw(from, 256);
        length = open_frame(bytes, &it, (uint8_t)(it.is_udp ? 5 : it.is_ipv6 ? 4 : 1), 1 + 8 * draw(from, 256));
        for (unsigned i = draw(from, 8); i > 0; i--)
            bytes[draw(from, 100)] = (uint8_t)draw(from, 256);
        length -= draw(from, 3);
    } else {
        length = from->left < 3000 ? from->left : 3000;
        memcpy(bytes, from->bytes, length);
        from->bytes += length, from->left -= length;
    }
    if (length > 0 && length <= OFFLOAD_LONGEST) {
        memcpy(offload_room(&joined), bytes, length);
        offload_out(&joined, length);
        offload_flush(&joined);
    }
    /* The room is of the read's own length, so that a sanitizer sees what is beyond. */
    uint8_t *own = malloc(length + 1);
    memcpy(own, bytes, length);
    cut.give = counted_give;
    offload_in(&cut, own, length);
    free(own);
}

int LLVMFuzzerTestOneInput(const uint8_t *bytes, size_t length)
{
    struct source from = {bytes, length};
    if (draw(&from, 2) == 0)
        frames_at_random(&from);
    else
        reads_at_random(&from);
    return 0;
}

#ifdef LIBFUZZER
int LLVMFuzzerInitialize(int *count, char ***words)
{
    (void)count, (void)words;
    each_layout();
    return 0;
}
#else
int main(int count, char **words)
{
    static uint8_t bytes[4000];
    long runs = 0;
    each_layout();
    if (count > 2) {
        const time_t end = time(NULL) + atol(words[1]);
        srand((unsigned)atol(words[2]));
        for (; time(NULL) < end; runs++) {
            const size_t length = (size_t)rand() % sizeof bytes;
            for (size_t i = 0; i < length; i++)
                bytes[i] = (uint8_t)(rand() >> 7);
            LLVMFuzzerTestOneInput(bytes, length);
        }
    }
    printf("offload_test: each layout, and %ld runs at random\n", runs);
    return 0;
}
#endif
