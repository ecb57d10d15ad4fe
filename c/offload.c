#include "offload.h"

#include <errno.h>
#include <fcntl.h>
#include <linux/if.h>
#include <linux/if_tun.h>
#include <string.h>
#include <sys/ioctl.h>
#include <sys/socket.h>
#include <unistd.h>

/* Of Linux 6.2, behind what older headers have. */
#ifndef TUN_F_USO4
#define TUN_F_USO4 0x20
#define TUN_F_USO6 0x40
#endif

enum { ETHERNET = 14, IPV4 = 20, IPV6 = 40, TCP = 20, UDP = 8, MOST = 65535 };
enum { FIN = 1, SYN = 2, PSH = 8, ACK = 16 };
enum { KIND_TCP = 6, KIND_UDP = 17 };

/* SUMS: RFC 1071, in the order in which bytes lie. */

typedef uint64_t words __attribute__((vector_size(16), aligned(1)));

static uint16_t folded(uint64_t sum)
{
    sum = (sum & 0xffffffff) + (sum >> 32);
    sum = (sum & 0xffff) + (sum >> 16);
    sum = (sum & 0xffff) + (sum >> 16);
    return (uint16_t)((sum & 0xffff) + (sum >> 16));
}

static uint64_t added(const uint8_t *bytes, size_t length)
{
    words low = {0, 0}, high = {0, 0};
    uint64_t sum = 0;
    for (; length >= 16; length -= 16, bytes += 16) {
        words all;
        memcpy(&all, bytes, 16);
        low += all & 0xffffffff;
        high += all >> 32;
    }
    for (; length > 0;) {
        uint32_t word = 0;
        const size_t some = length < 4 ? length : 4;
        memcpy(&word, bytes, some);
        sum += word;
        bytes += some, length -= some;
    }
    sum += low[0] + low[1] + high[0] + high[1];
    return sum;
}

static uint16_t number(const uint8_t *at)
{
    return (uint16_t)(at[0] << 8 | at[1]);
}

static uint32_t long_number(const uint8_t *at)
{
    return (uint32_t)number(at) << 16 | number(at + 2);
}

static void put(uint8_t *at, size_t value)
{
    at[0] = (uint8_t)(value >> 8), at[1] = (uint8_t)value;
}

static void put_long(uint8_t *at, uint32_t value)
{
    put(at, value >> 16), put(at + 2, value & 0xffff);
}

static void put_sum(uint8_t *at, uint16_t sum)
{
    memcpy(at, &sum, 2);
}

/* A sum that comes into UDP's header: 0 there would mean that there is none (RFC 768). */
static uint16_t closed(uint64_t sum, int is_udp)
{
    const uint16_t it = (uint16_t)~folded(sum);
    return it == 0 && is_udp ? 0xffff : it;
}

/* FRAMES */

static int is_tcp(const struct offload_shape *it)
{
    return it->type != OFFLOAD_UDP;
}

static size_t sum_at(const struct offload_shape *it)
{
    return it->at + (is_tcp(it) ? 16 : 6);
}

/* The pseudo header's sum: addresses, protocol and length (RFC 9293, 3.1; RFC 8200, 8.1). */
static uint64_t pseudo(const uint8_t *frame, const struct offload_shape *it, size_t length)
{
    const uint8_t *ip = frame + it->ip;
    uint8_t last[4] = {0, is_tcp(it) ? KIND_TCP : KIND_UDP};
    put(last + 2, length);
    return (it->is_ipv6 ? added(ip + 8, 32) : added(ip + 12, 8)) + added(last, 4);
}

/* Whether TCP's header and text begin at `at`, of a frame of this length. */
static int read_tcp(const uint8_t *frame, size_t length, struct offload_shape *it)
{
    const uint8_t *tcp = frame + it->at;
    if (length < it->at + TCP)
        return 0;
    const size_t own = (size_t)(tcp[12] >> 4) * 4;
    it->headers = it->at + own;
    if (own < TCP || length < it->headers)
        return 0;
    it->text = length - it->headers;
    it->closes = (tcp[13] & (PSH | FIN)) != 0;
    it->joins = it->text != 0 && (tcp[12] & 15) == 0 && (tcp[13] & ~(PSH | FIN)) == ACK && number(tcp + 18) == 0;
    return 1;
}

static int read_udp(const uint8_t *frame, size_t length, struct offload_shape *it)
{
    it->headers = it->at + UDP;
    if (length < it->headers || number(frame + it->at + 4) != length - it->at)
        return 0;
    it->text = length - it->headers;
    it->joins = it->text != 0;
    return 1;
}

/* Where TCP's or UDP's header begins, of an IP packet without options that is whole and as long as its frame. The protocol, or 0. */
static int read_ip(const uint8_t *frame, size_t length, size_t link, struct offload_shape *it)
{
    const uint8_t *ip = frame + link;
    if (link != 0 && (length < ETHERNET || (number(frame + 12) != 0x0800 && number(frame + 12) != 0x86dd)))
        return 0;
    if (length < link + IPV4)
        return 0;
    it->ip = link;
    it->is_ipv6 = ip[0] >> 4 == 6;
    it->at = link + (it->is_ipv6 ? IPV6 : IPV4);
    if (link != 0 && it->is_ipv6 != (number(frame + 12) == 0x86dd))
        return 0;
    if (it->is_ipv6)
        return length >= it->at && number(ip + 4) == length - it->at ? ip[6] : 0;
    if (ip[0] != 0x45 || number(ip + 2) != length - link || (number(ip + 6) & 0x3fff) != 0)
        return 0;
    return ip[9];
}

/* What the frame is. */
static struct offload_shape shape_of(const uint8_t *frame, size_t length, size_t link)
{
    struct offload_shape it = {0};
    const int protocol = read_ip(frame, length, link, &it);
    if (protocol == KIND_TCP && read_tcp(frame, length, &it))
        it.type = it.is_ipv6 ? OFFLOAD_TCP6 : OFFLOAD_TCP4;
    else if (protocol == KIND_UDP && read_udp(frame, length, &it))
        it.type = OFFLOAD_UDP;
    return it;
}

/* Sets the length of the packet, of a frame of so many bytes, and of IPv4 the identification and the header's sum. */
static void put_lengths(uint8_t *frame, const struct offload_shape *it, size_t length, uint16_t identification)
{
    uint8_t *ip = frame + it->ip;
    if (it->is_ipv6) {
        put(ip + 4, length - it->at);
    } else {
        put(ip + 2, length - it->ip);
        put(ip + 4, identification);
        put(ip + 10, 0);
        put_sum(ip + 10, closed(added(ip, IPV4), 0));
    }
    if (!is_tcp(it))
        put(frame + it->at + 4, length - it->at);
}

/* Sets the largest segment that a SYN names to what the link carries, and its sum by what that changes (RFC 1624). */
static void bound_segments(const struct offload *it, uint8_t *frame, size_t length)
{
    struct offload_shape shape;
    if (read_ip(frame, length, it->link, &shape) != KIND_TCP || length < shape.at + TCP)
        return;
    uint8_t *tcp = frame + shape.at;
    const size_t most = it->mtu - (shape.is_ipv6 ? IPV6 : IPV4) - TCP;
    size_t end = (size_t)(tcp[12] >> 4) * 4;
    if ((tcp[13] & SYN) == 0 || end < TCP || length < shape.at + end)
        return;
    for (size_t at = TCP; at < end && tcp[at] != 0;) {
        const size_t own = tcp[at] == 1 ? 1 : at + 1 < end ? tcp[at + 1] : 0;
        if (own == 0 || at + own > end || (own < 2 && tcp[at] != 1))
            return;
        if (tcp[at] == 2 && own == 4 && number(tcp + at + 2) > most) {
            const uint64_t before = (at & 1) != 0 ? (uint64_t)tcp[at + 3] << 8 | tcp[at + 2] : number(tcp + at + 2);
            put(tcp + at + 2, most);
            const uint64_t after = (at & 1) != 0 ? (uint64_t)tcp[at + 3] << 8 | tcp[at + 2] : number(tcp + at + 2);
            const uint64_t sum = (uint16_t)~number(tcp + 16) + (uint16_t)~before + after;
            put(tcp + 16, (uint16_t)~folded(sum));
            return;
        }
        at += own;
    }
}

/* WHAT COMES */

static void give(struct offload *it, const uint8_t *frame, size_t length)
{
    it->given++;
    it->give(it->context, frame, length);
}

/* Completes a sum that the kernel left open. Says whether it lies within the frame. */
static int complete(const struct offload_head *head, uint8_t *frame, size_t length)
{
    if ((head->flags & OFFLOAD_NEEDS_SUM) == 0)
        return 1;
    if ((size_t)head->start + head->offset + 2 > length)
        return 0;
    put_sum(frame + head->start + head->offset, closed(added(frame + head->start, length - head->start), head->offset == 6));
    return 1;
}

/* One segment or datagram of a long frame: `size` bytes of text from the frame's byte `from` on. */
static void give_part(struct offload *it, const uint8_t *frame, const struct offload_shape *shape, size_t from, size_t size, size_t index)
{
    uint8_t *part = it->cut, *own = part + shape->at;
    const int is_last = from + size == shape->headers + shape->text;
    const size_t length = shape->headers + size;
    memcpy(part, frame, shape->headers);
    memcpy(part + shape->headers, frame + from, size);
    put_lengths(part, shape, length, (uint16_t)(shape->is_ipv6 ? 0 : number(frame + shape->ip + 4) + index));
    if (is_tcp(shape)) {
        put_long(own + 4, (uint32_t)(long_number(own + 4) + from - shape->headers));
        if (!is_last)
            own[13] &= (uint8_t)~(PSH | FIN);
    }
    put(part + sum_at(shape), 0);
    put_sum(part + sum_at(shape), closed(pseudo(part, shape, length - shape->at) + added(own, length - shape->at), !is_tcp(shape)));
    give(it, part, length);
}

/* Gives a long frame in parts of so many bytes of text. How many there were. */
static int give_parts(struct offload *it, const uint8_t *frame, const struct offload_shape *shape, size_t size)
{
    const size_t end = shape->headers + shape->text;
    int count = 0;
    for (size_t from = shape->headers; from < end; from += size)
        give_part(it, frame, shape, from, end - from < size ? end - from : size, (size_t)count++);
    return count;
}

static int refused(struct offload *it)
{
    it->refused++;
    return 0;
}

int offload_in(struct offload *it, uint8_t *bytes, size_t length)
{
    struct offload_head head;
    it->read++;
    if (length <= OFFLOAD_HEAD || length > OFFLOAD_READ)
        return refused(it);
    memcpy(&head, bytes, OFFLOAD_HEAD);
    uint8_t *frame = bytes + OFFLOAD_HEAD;
    length -= OFFLOAD_HEAD;
    head.type &= (uint8_t)~OFFLOAD_ECN;
    if (head.type != OFFLOAD_NONE && (head.type == OFFLOAD_UDP || !it->takes_long)) {
        const struct offload_shape shape = shape_of(frame, length, it->link);
        if (head.size == 0 || shape.type != head.type || !shape.joins)
            return refused(it);
        return give_parts(it, frame, &shape, head.size);
    }
    if (!complete(&head, frame, length))
        return refused(it);
    bound_segments(it, frame, length);
    give(it, frame, length);
    return 1;
}

/* WHAT GOES */

static void send_pieces(struct offload *it, const struct iovec *pieces, size_t count, size_t frames)
{
    it->written++;
    it->gone += frames;
    it->write(it->device, pieces, (int)count);
}

/* Makes one frame of those that were put together. Its sum is left to the kernel: its field has the pseudo header's. */
static void close_flow(struct offload_flow *flow)
{
    uint8_t *frame = flow->pieces[1].iov_base;
    const struct offload_shape *first = &flow->first;
    put_lengths(frame, first, flow->length, (uint16_t)(first->is_ipv6 ? 0 : number(frame + first->ip + 4)));
    put_sum(frame + sum_at(first), folded(pseudo(frame, first, flow->length - first->at)));
    flow->head = (struct offload_head){
        .flags = OFFLOAD_NEEDS_SUM,
        .type = first->type,
        .headers = (uint16_t)first->headers,
        .size = (uint16_t)first->text,
        .start = (uint16_t)first->at,
        .offset = is_tcp(first) ? 16 : 6,
    };
}

static void send_flow(struct offload *it, struct offload_flow *flow)
{
    if (flow->count == 0)
        return;
    if (flow->count > 1)
        close_flow(flow);
    else
        memset(&flow->head, 0, sizeof flow->head);
    flow->pieces[0] = (struct iovec){&flow->head, OFFLOAD_HEAD};
    send_pieces(it, flow->pieces, flow->count + 1, flow->count);
    flow->count = 0;
}

/* The flow that has waited for longest, or null. */
static struct offload_flow *oldest(struct offload *it)
{
    struct offload_flow *found = NULL;
    for (size_t i = 0; i < OFFLOAD_FLOWS; i++)
        if (it->flows[i].count != 0 && (found == NULL || it->flows[i].since < found->since))
            found = &it->flows[i];
    return found;
}

void offload_flush(struct offload *it)
{
    for (struct offload_flow *flow; (flow = oldest(it)) != NULL;)
        send_flow(it, flow);
    it->used = 0;
}

uint8_t *offload_room(struct offload *it)
{
    if (it->used + OFFLOAD_LONGEST > OFFLOAD_ROOM)
        offload_flush(it);
    return it->room + it->used;
}

/* Whether frames of this shape are of the flow: of the same kind, from and to the same endpoints. */
static int is_of(const struct offload_flow *flow, const uint8_t *frame, const struct offload_shape *shape)
{
    const uint8_t *first = flow->pieces[1].iov_base;
    const struct offload_shape *own = &flow->first;
    const size_t addresses = shape->ip + (shape->is_ipv6 ? 8 : 12);
    return own->type == shape->type && own->is_ipv6 == shape->is_ipv6
        && memcmp(first + addresses, frame + addresses, shape->at + 4 - addresses) == 0;
}

/* Whether all that the kernel repeats in each frame is the same: the link's header, the packet's but for its length, identification and
 * sum, and of TCP what is acknowledged, the window and the options. */
static int is_alike(const struct offload_flow *flow, const uint8_t *frame, const struct offload_shape *shape)
{
    const uint8_t *first = flow->pieces[1].iov_base, *ip = frame + shape->ip, *own = first + shape->ip;
    if (memcmp(first, frame, shape->ip) != 0 || flow->first.headers != shape->headers)
        return 0;
    if (shape->is_ipv6 ? memcmp(own, ip, 4) != 0 || own[7] != ip[7] : memcmp(own, ip, 2) != 0 || memcmp(own + 6, ip + 6, 3) != 0)
        return 0;
    if (!is_tcp(shape))
        return 1;
    const size_t at = shape->at;
    return memcmp(first + at + 8, frame + at + 8, 5) == 0 && memcmp(first + at + 14, frame + at + 14, 2) == 0
        && memcmp(first + at + TCP, frame + at + TCP, shape->headers - at - TCP) == 0;
}

/* Whether the identification of IPv4 is the one behind, or the same in all. */
static int is_next(struct offload_flow *flow, const uint8_t *frame, const struct offload_shape *shape)
{
    const uint8_t *first = flow->pieces[1].iov_base;
    if (shape->is_ipv6)
        return 1;
    const uint16_t behind = (uint16_t)(number(frame + shape->ip + 4) - number(first + shape->ip + 4));
    if (flow->count == 1)
        flow->step = behind == 1;
    return behind == (flow->step ? flow->count : 0);
}

/* Whether the frame goes behind those of the flow. */
static int goes_behind(struct offload_flow *flow, const uint8_t *frame, const struct offload_shape *shape)
{
    const uint8_t *first = flow->pieces[1].iov_base;
    const size_t text = flow->length - flow->first.headers;
    if (flow->is_closed || flow->count == OFFLOAD_FRAMES || shape->text > flow->first.text
        || flow->length + shape->text - flow->first.ip > MOST || !is_alike(flow, frame, shape))
        return 0;
    if (is_tcp(shape) && long_number(frame + shape->at + 4) != (uint32_t)(long_number(first + shape->at + 4) + text))
        return 0;
    return is_next(flow, frame, shape);
}

static void join(struct offload_flow *flow, uint8_t *frame, const struct offload_shape *shape)
{
    uint8_t *first = flow->pieces[1].iov_base;
    flow->pieces[1 + flow->count++] = (struct iovec){frame + shape->headers, shape->text};
    flow->length += shape->text;
    flow->is_closed = shape->closes || shape->text < flow->first.text;
    if (is_tcp(shape))
        first[shape->at + 13] |= frame[shape->at + 13];
}

/* The frame begins a flow. The one that waits for longest makes place for it. */
static void begin(struct offload *it, uint8_t *frame, size_t length, const struct offload_shape *shape)
{
    struct offload_flow *flow = NULL;
    for (size_t i = 0; i < OFFLOAD_FLOWS && flow == NULL; i++)
        if (it->flows[i].count == 0)
            flow = &it->flows[i];
    if (flow == NULL)
        send_flow(it, flow = oldest(it));
    flow->count = 1;
    flow->length = length;
    flow->since = it->flows_begun++;
    flow->is_closed = shape->closes;
    flow->first = *shape;
    flow->pieces[1] = (struct iovec){frame, length};
}

/* Whether the sums are right: the kernel sums anew what is put together, which would make a wrong one right. */
static int is_right(const uint8_t *frame, size_t length, const struct offload_shape *shape)
{
    return (shape->is_ipv6 || folded(added(frame + shape->ip, IPV4)) == 0xffff)
        && folded(pseudo(frame, shape, length - shape->at) + added(frame + shape->at, length - shape->at)) == 0xffff;
}

/* Whether the frame may go with others. A datagram without a sum may not. */
static int may_join(const struct offload *it, const uint8_t *frame, size_t length, const struct offload_shape *shape)
{
    if (!shape->joins || (shape->type == OFFLOAD_UDP && (!it->joins_udp || number(frame + sum_at(shape)) == 0)))
        return 0;
    return it->is_trusted || is_right(frame, length, shape);
}

static void send_alone(struct offload *it, uint8_t *frame, size_t length)
{
    struct offload_head head = {0};
    const struct iovec pieces[2] = {{&head, OFFLOAD_HEAD}, {frame, length}};
    bound_segments(it, frame, length);
    send_pieces(it, pieces, 2, 1);
}

/* The flow that the frame is of, or null. */
static struct offload_flow *flow_of(struct offload *it, const uint8_t *frame, const struct offload_shape *shape)
{
    for (size_t i = 0; i < OFFLOAD_FLOWS; i++)
        if (it->flows[i].count != 0 && is_of(&it->flows[i], frame, shape))
            return &it->flows[i];
    return NULL;
}

void offload_out(struct offload *it, size_t length)
{
    uint8_t *frame = it->room + it->used;
    const struct offload_shape shape = shape_of(frame, length, it->link);
    if (shape.type == OFFLOAD_NONE) {
        offload_flush(it);
        send_alone(it, frame, length);
        return;
    }
    struct offload_flow *flow = flow_of(it, frame, &shape);
    const int joins = may_join(it, frame, length, &shape);
    if (joins)
        it->used += (length + 7) & ~(size_t)7;
    if (flow != NULL && joins && goes_behind(flow, frame, &shape)) {
        join(flow, frame, &shape);
        return;
    }
    if (flow != NULL)
        send_flow(it, flow);
    if (joins)
        begin(it, frame, length, &shape);
    else
        send_alone(it, frame, length);
}

/* THE DEVICE */

static ssize_t write_pieces(int device, const struct iovec *pieces, int count)
{
    return writev(device, pieces, count);
}

void offload_set(struct offload *it, int is_tap, int takes_long, void (*to)(void *, const uint8_t *, size_t), void *context)
{
    it->link = is_tap ? ETHERNET : 0;
    it->takes_long = takes_long;
    it->give = to;
    it->context = context;
    if (it->mtu == 0)
        it->mtu = 1500;
    if (it->write == NULL)
        it->write = write_pieces;
}

/* The MTU of the device that the request names, or 1500 where it can't be asked. */
static size_t mtu_of(struct ifreq *request)
{
    const int any = socket(AF_INET, SOCK_DGRAM | SOCK_CLOEXEC, 0);
    const int is_told = any >= 0 && ioctl(any, SIOCGIFMTU, request) == 0 && request->ifr_mtu >= 576;
    if (any >= 0)
        close(any);
    return !is_told ? 1500 : request->ifr_mtu > MOST ? MOST : (size_t)request->ifr_mtu;
}

int offload_open(struct offload *it, const char *name, int is_tap, int flags)
{
    struct ifreq request;
    const int head = OFFLOAD_HEAD;
    const unsigned tcp = TUN_F_CSUM | TUN_F_TSO4 | TUN_F_TSO6;
    const int device = open("/dev/net/tun", O_RDWR | flags);
    if (device < 0)
        return -1;
    memset(&request, 0, sizeof request);
    request.ifr_flags = (short)((is_tap ? IFF_TAP : IFF_TUN) | IFF_NO_PI | IFF_VNET_HDR);
    strncpy(request.ifr_name, name, IFNAMSIZ - 1);
    if (ioctl(device, TUNSETIFF, &request) < 0 || ioctl(device, TUNSETVNETHDRSZ, &head) < 0) {
        const int why = errno;
        close(device);
        errno = why;
        return -1;
    }
    it->joins_udp = ioctl(device, TUNSETOFFLOAD, tcp | TUN_F_USO4 | TUN_F_USO6) == 0;
    if (!it->joins_udp && ioctl(device, TUNSETOFFLOAD, tcp) < 0)
        ioctl(device, TUNSETOFFLOAD, 0);
    it->device = device;
    it->link = is_tap ? ETHERNET : 0;
    it->mtu = mtu_of(&request);
    return device;
}
