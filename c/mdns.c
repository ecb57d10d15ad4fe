/* A responder and a browser of multicast DNS (RFC 6762, RFC 6763) over a TAP device of Linux: one service of one host, of an IPv4 or an IPv6
 * address.
 *
 *   mdns DEVICE ADDRESS PREFIX serve NAME TYPE PORT     NAME.local is this address, and NAME.TYPE.local a service at the port
 *   mdns DEVICE ADDRESS PREFIX browse TYPE              writes a line for each record of services of the type, as `_http._tcp`
 *   mdns DEVICE ADDRESS PREFIX find NAME                writes the address of NAME.local, and ends
 *
 * A name is tried first (probed), then announced, answered for, and at SIGTERM taken back. `find` has status 0 where an answer came within five
 * seconds. Not there: more than sixteen questions in a packet, known answers, the random delay of shared answers.
 */
#include "zemplovir.h"

#include <arpa/inet.h>
#include <fcntl.h>
#include <linux/if.h>
#include <linux/if_tun.h>
#include <poll.h>
#include <signal.h>
#include <stdio.h>
#include <stdlib.h>
#include <string.h>
#include <strings.h>
#include <sys/ioctl.h>
#include <time.h>
#include <unistd.h>

enum { PORT = 5353, BUDGET = 16, LONGEST = 1440, NAME_ROOM = 256, QUESTIONS = 16 };
enum { A = 1, PTR = 12, TXT = 16, AAAA = 28, SRV = 33, ANY = 255, INTERNET = 1, FLUSH = 0x8000 };
enum { RESPONSE = 0x8400, HOST_TTL = 120, OTHER_TTL = 4500, PROBES = 3, ANNOUNCEMENTS = 2 };

static volatile sig_atomic_t is_over;

static void end(int signal)
{
    (void)signal;
    is_over = 1;
}

static void must(uint32_t code, const char *what)
{
    if (code == ZV_OK)
        return;
    fprintf(stderr, "mdns: %s: %s\n", what, zv_strerror(code));
    exit(1);
}

static int64_t now(void)
{
    static int64_t first = -1;
    struct timespec t;
    clock_gettime(CLOCK_MONOTONIC, &t);
    const int64_t micros = (int64_t)t.tv_sec * 1000000 + t.tv_nsec / 1000;
    if (first < 0)
        first = micros;
    return micros - first;
}

/* MESSAGES (RFC 1035, 4) */

/* A message that is written. Names aren't compressed. */
struct message {
    uint8_t bytes[LONGEST];
    size_t length;
};

static void put8(struct message *m, unsigned number)
{
    if (m->length < LONGEST)
        m->bytes[m->length++] = (uint8_t)number;
}

static void put16(struct message *m, unsigned number)
{
    put8(m, number >> 8);
    put8(m, number);
}

static void put32(struct message *m, uint32_t number)
{
    put16(m, number >> 16);
    put16(m, number & 0xffff);
}

/* Labels that are separated by dots, and the root. */
static void put_name(struct message *m, const char *name)
{
    while (*name != 0) {
        const size_t length = strcspn(name, ".");
        put8(m, (unsigned)length);
        for (size_t i = 0; i < length; i++)
            put8(m, (uint8_t)name[i]);
        name += length + (name[length] == '.');
    }
    put8(m, 0);
}

/* One more question (section 0), answer (1), authority (2) or addition (3) is counted. */
static void count_one(struct message *m, int section)
{
    m->bytes[5 + 2 * section]++;
}

static struct message begun(unsigned identifier, unsigned flags)
{
    struct message m = {{0}, 0};
    put16(&m, identifier);
    put16(&m, flags);
    put32(&m, 0);
    put32(&m, 0);
    return m;
}

static void put_question(struct message *m, const char *name, unsigned type)
{
    put_name(m, name);
    put16(m, type);
    put16(m, INTERNET);
    count_one(m, 0);
}

static uint16_t be16(const uint8_t *bytes)
{
    return (uint16_t)(bytes[0] << 8 | bytes[1]);
}

/* Reads the name at an offset into text with dots; says the offset after it, 0 where there is none. A pointer leads back only. */
static size_t read_name(const uint8_t *bytes, size_t length, size_t at, char *text)
{
    size_t after = 0, room = NAME_ROOM - 1, least = at;
    while (at < length) {
        const size_t size = bytes[at++];
        if (size == 0) {
            *text = 0;
            return after != 0 ? after : at;
        }
        if (size >= 192) {
            const size_t to = at < length ? (size - 192) << 8 | bytes[at] : least;
            if (to >= least)
                return 0;
            after = after == 0 ? at + 1 : after;
            at = least = to;
            continue;
        }
        if (size > 63 || size > length - at || size + 1 > room)
            return 0;
        memcpy(text, bytes + at, size);
        text += size;
        at += size;
        room -= size + 1;
        if (at < length && bytes[at] != 0)
            *text++ = '.';
    }
    return 0;
}

/* A record that was read. */
struct record {
    char name[NAME_ROOM];
    unsigned type;
    uint32_t ttl;
    size_t data, length; /* its data, in the message */
};

/* Says the offset after the record, 0 where there is none. */
static size_t read_record(const uint8_t *bytes, size_t length, size_t at, struct record *r)
{
    at = read_name(bytes, length, at, r->name);
    if (at == 0 || length - at < 10)
        return 0;
    r->type = be16(bytes + at);
    r->ttl = (uint32_t)be16(bytes + at + 4) << 16 | be16(bytes + at + 6);
    r->length = be16(bytes + at + 8);
    r->data = at + 10;
    return r->length <= length - r->data ? r->data + r->length : 0;
}

/* THE HOST */

static zv_host host;
static size_t udp;
static int device;
static zv_address own;

/* 224.0.0.251 or ff02::fb (RFC 6762, 3). */
static zv_endpoint group(void)
{
    zv_endpoint it = {{own.family, {224, 0, 0, 251}}, PORT};
    if (own.family == 6) {
        memset(it.address.bytes, 0, 16);
        it.address.bytes[0] = 255;
        it.address.bytes[1] = 2;
        it.address.bytes[15] = 251;
    }
    return it;
}

static void send_to(const struct message *m, const zv_endpoint *remote)
{
    const zv_address any = zv_any();
    const uint32_t code = zv_udp_send(&host, udp, m->bytes, m->length, remote, &any);
    if (code != ZV_OK)
        fprintf(stderr, "mdns: a message isn't sent: %s\n", zv_strerror(code));
}

static void send_to_all(const struct message *m)
{
    const zv_endpoint all = group();
    send_to(m, &all);
}

/* Brings frames in, polls, and takes frames out. */
static void turn(void)
{
    uint8_t frame[2048], changed;
    size_t count;
    ssize_t length;
    for (int i = 0; i < BUDGET && (length = read(device, frame, sizeof frame)) > 0; i++)
        zv_frame_in(&host, frame, (size_t)length);
    must(zv_poll(&host, now(), BUDGET, &changed), "poll");
    while (zv_frame_out(&host, frame, sizeof frame, &count) == ZV_OK)
        if (write(device, frame, count) < 0)
            perror("mdns: write");
}

/* Waits for a frame, at most until then, or until the host wants to be polled. */
static void wait_until(int64_t then)
{
    int64_t at;
    must(zv_poll_at(&host, now(), &at), "poll_at");
    const int64_t left = (then < at ? then : at) - now();
    struct pollfd waits = {device, POLLIN, 0};
    poll(&waits, 1, left <= 0 ? 0 : left > 1000000 ? 1000 : (int)((left + 999) / 1000));
}

static zv_address read_address(const char *text)
{
    zv_address address = {0, {0}};
    if (inet_pton(AF_INET, text, address.bytes) == 1)
        address.family = 4;
    else if (inet_pton(AF_INET6, text, address.bytes) == 1)
        address.family = 6;
    return address;
}

static void open_device(const char *name)
{
    struct ifreq request;
    memset(&request, 0, sizeof request);
    request.ifr_flags = IFF_TAP | IFF_NO_PI;
    strncpy(request.ifr_name, name, IFNAMSIZ - 1);
    device = open("/dev/net/tun", O_RDWR | O_NONBLOCK);
    if (device < 0 || ioctl(device, TUNSETIFF, &request) < 0) {
        perror("mdns: device");
        exit(1);
    }
}

static uint64_t random_word(void)
{
    uint64_t word;
    FILE *file = fopen("/dev/urandom", "rb");
    if (file == NULL || fread(&word, sizeof word, 1, file) != 1) {
        perror("mdns: /dev/urandom");
        exit(1);
    }
    fclose(file);
    return word;
}

static void open_host(const char *address, const char *prefix)
{
    const zv_address any = zv_any();
    zv_settings settings = {.medium = ZV_ETHERNET, .mtu = 1514, .frames = 64, .seed = random_word()};
    const uint8_t hardware[6] = {2, 0, 0, 0x6d, (uint8_t)(settings.seed >> 8), (uint8_t)settings.seed};
    memcpy(settings.hardware, hardware, sizeof hardware);
    own = read_address(address);
    const zv_endpoint all = group();
    must(zv_host_new(&host, &settings, now()), "host");
    must(zv_address_add(&host, &own, (uint8_t)atoi(prefix)), "address");
    must(zv_group_join(&host, &all.address), "group");
    must(zv_udp_new(&host, 16, 16384, &udp), "UDP socket");
    must(zv_udp_bind(&host, udp, &any, PORT), "UDP port");
    must(zv_udp_set_hop_limit(&host, udp, 255), "hop limit");
}

/* THE RESPONDER */

static char host_name[NAME_ROOM], type_name[NAME_ROOM], instance[NAME_ROOM];
static unsigned service_port;
static const char all_types[] = "_services._dns-sd._udp.local";

static unsigned address_type(void)
{
    return own.family == 4 ? A : AAAA;
}

/* Whether the host has a record of this type at a name. */
static int has_record(const char *name, unsigned type)
{
    if (strcasecmp(name, host_name) == 0)
        return type == address_type();
    if (strcasecmp(name, instance) == 0)
        return type == SRV || type == TXT;
    return (strcasecmp(name, type_name) == 0 || strcasecmp(name, all_types) == 0) && type == PTR;
}

/* The data of a record, after its length. */
static void put_data(struct message *m, const char *name, unsigned type)
{
    const size_t at = m->length;
    put16(m, 0);
    if (type == PTR)
        put_name(m, strcasecmp(name, all_types) == 0 ? type_name : instance);
    else if (type == TXT)
        put8(m, 0);
    else if (type == SRV) {
        put32(m, 0);
        put16(m, service_port);
        put_name(m, host_name);
    } else
        for (int i = 0; i < (own.family == 4 ? 4 : 16); i++)
            put8(m, own.bytes[i]);
    const size_t length = m->length - at - 2;
    m->bytes[at] = (uint8_t)(length >> 8);
    m->bytes[at + 1] = (uint8_t)length;
}

/* A record in a section. One that is this host's alone replaces what is known of it (RFC 6762, 10.2), but in probes. A record that is taken back
 * has 0 seconds (10.1). */
static void put_record(struct message *m, int section, const char *name, unsigned type, int is_gone)
{
    const uint32_t ttl = type == A || type == AAAA || type == SRV ? HOST_TTL : OTHER_TTL;
    put_name(m, name);
    put16(m, type);
    put16(m, type == PTR || section == 2 ? INTERNET : INTERNET | FLUSH);
    put32(m, is_gone ? 0 : ttl);
    put_data(m, name, type);
    count_one(m, section);
}

static void announce(int is_gone)
{
    struct message m = begun(0, RESPONSE);
    put_record(&m, 1, type_name, PTR, is_gone);
    put_record(&m, 1, instance, SRV, is_gone);
    put_record(&m, 1, instance, TXT, is_gone);
    put_record(&m, 1, host_name, address_type(), is_gone);
    send_to_all(&m);
}

/* Asks whether another host has the names, and says which records are wanted (8.1). */
static void probe(void)
{
    struct message m = begun(0, 0);
    put_question(&m, host_name, ANY);
    put_question(&m, instance, ANY);
    put_record(&m, 2, host_name, address_type(), 0);
    put_record(&m, 2, instance, SRV, 0);
    send_to_all(&m);
}

/* Adds what the host has of this question. Says how many records. */
static int answer_one(struct message *m, const char *name, unsigned type)
{
    static const unsigned types[] = {A, AAAA, PTR, SRV, TXT};
    int records = 0;
    for (size_t i = 0; i < sizeof types / sizeof *types; i++)
        if ((type == types[i] || type == ANY) && has_record(name, types[i])) {
            put_record(m, 1, name, types[i], 0);
            records++;
        }
    return records;
}

/* Answers a query: to all, or, where a resolver asks that knows nothing of multicast DNS, to it, with its questions and identifier (6.7). */
static void answer(const uint8_t *bytes, size_t length, const zv_endpoint *remote)
{
    static char names[QUESTIONS][NAME_ROOM];
    const int is_plain = remote->port != PORT;
    unsigned types[QUESTIONS];
    int questions = 0, records = 0;
    size_t at = 12;
    for (int left = be16(bytes + 4); left > 0 && questions < QUESTIONS; left--, questions++) {
        at = read_name(bytes, length, at, names[questions]);
        if (at == 0 || length - at < 4)
            return;
        types[questions] = be16(bytes + at);
        at += 4;
    }
    struct message m = begun(is_plain ? be16(bytes) : 0, RESPONSE);
    for (int i = 0; is_plain && i < questions; i++)
        put_question(&m, names[i], types[i]);
    for (int i = 0; i < questions; i++)
        records += answer_one(&m, names[i], types[i]);
    if (records > 0 && is_plain)
        send_to(&m, remote);
    else if (records > 0)
        send_to_all(&m);
}

/* Whether a record at one of the names isn't this host's: then another host has the name (9). */
static int is_conflict(const uint8_t *bytes, const struct record *r)
{
    struct message m = {{0}, 0};
    if (!has_record(r->name, r->type) || r->type == PTR || r->type == TXT)
        return 0;
    put_data(&m, r->name, r->type);
    return m.length - 2 != r->length || memcmp(m.bytes + 2, bytes + r->data, r->length) != 0;
}

/* THE BROWSER */

static const char *wanted;
static int is_found;

/* Writes what a record says of what is looked for. */
static void show(const uint8_t *bytes, size_t length, const struct record *r)
{
    char name[NAME_ROOM], text[INET6_ADDRSTRLEN];
    if (r->type == PTR && strcasecmp(r->name, wanted) == 0 && read_name(bytes, length, r->data, name) != 0)
        printf("%s %s\n", r->ttl == 0 ? "gone" : "service", name);
    else if (r->type == SRV && r->length > 6 && strcasestr(r->name, wanted) != NULL
             && read_name(bytes, length, r->data + 6, name) != 0)
        printf("%s is at port %u of %s\n", r->name, be16(bytes + r->data + 4), name);
    else if ((r->type == A && r->length == 4) || (r->type == AAAA && r->length == 16)) {
        inet_ntop(r->type == A ? AF_INET : AF_INET6, bytes + r->data, text, sizeof text);
        printf("%s is %s\n", r->name, text);
        is_found |= r->type == address_type() && strcasecmp(r->name, wanted) == 0;
    }
    fflush(stdout);
}

static void ask(unsigned type)
{
    struct message m = begun(0, 0);
    put_question(&m, wanted, type);
    send_to_all(&m);
}

/* WHAT IS RECEIVED */

/* Each record of a response is looked at. Says whether one tells that another host has this one's name. */
static int read_response(const uint8_t *bytes, size_t length)
{
    int left = be16(bytes + 6) + be16(bytes + 8) + be16(bytes + 10), conflicts = 0;
    size_t at = 12;
    struct record r;
    for (int questions = be16(bytes + 4); questions > 0 && at != 0; questions--) {
        at = read_name(bytes, length, at, r.name);
        at = at == 0 || length - at < 4 ? 0 : at + 4;
    }
    while (left-- > 0 && at != 0 && (at = read_record(bytes, length, at, &r)) != 0)
        if (wanted != NULL)
            show(bytes, length, &r);
        else
            conflicts |= is_conflict(bytes, &r);
    return conflicts;
}

/* Reads what was received. Says whether another host has this one's name. */
static int read_all(int answers)
{
    static uint8_t bytes[9000];
    zv_endpoint remote;
    zv_address local;
    size_t length;
    int conflicts = 0;
    while (zv_udp_recv(&host, udp, bytes, sizeof bytes, &length, &remote, &local) == ZV_OK) {
        if (length < 12)
            continue;
        if ((bytes[2] & 128) != 0)
            conflicts |= remote.port == PORT && read_response(bytes, length);
        else if (answers)
            answer(bytes, length, &remote);
    }
    return conflicts;
}

/* Probes and announcements that are due. Says when the next is. */
static int64_t advertise(int64_t next, int *sent)
{
    if (now() < next)
        return next;
    if ((*sent)++ < PROBES) {
        probe();
        return next + 250000;
    }
    announce(0);
    if (*sent > PROBES + 1)
        return INT64_MAX;
    fprintf(stderr, "mdns: %s is announced\n", instance);
    return next + 1000000;
}

static int serve(const char *name, const char *type, const char *port)
{
    int64_t next = now();
    int sent = 0;
    snprintf(host_name, NAME_ROOM, "%s.local", name);
    snprintf(type_name, NAME_ROOM, "%s.local", type);
    snprintf(instance, NAME_ROOM, "%s.%s.local", name, type);
    service_port = (unsigned)atoi(port);
    while (!is_over) {
        next = advertise(next, &sent);
        turn();
        if (read_all(sent > PROBES)) {
            fprintf(stderr, "mdns: another host has this name\n");
            return 1;
        }
        turn();
        wait_until(next);
    }
    announce(1);
    turn();
    return 0;
}

/* Asks at 0, 1, 3, 7 .. seconds (5.2), at most an hour apart. */
static int look_for(const char *name, unsigned type, int64_t most)
{
    static char full[NAME_ROOM];
    int64_t next = now(), gap = 1000000;
    snprintf(full, NAME_ROOM, "%s.local", name);
    wanted = full;
    while (!is_over && !is_found && now() < most) {
        if (now() >= next) {
            ask(type);
            next += gap;
            gap = gap < 1800000000 ? 2 * gap : 3600000000;
        }
        turn();
        read_all(0);
        wait_until(next);
    }
    return type == PTR || is_found ? 0 : 1;
}

int main(int count, char **words)
{
    if (count < 6 || (strcmp(words[4], "serve") == 0 && count < 8)) {
        fprintf(stderr, "usage: mdns DEVICE ADDRESS PREFIX serve NAME TYPE PORT | browse TYPE | find NAME\n");
        return 2;
    }
    signal(SIGTERM, end);
    signal(SIGINT, end);
    open_device(words[1]);
    open_host(words[2], words[3]);
    int status = 2;
    if (strcmp(words[4], "serve") == 0)
        status = serve(words[5], words[6], words[7]);
    else if (strcmp(words[4], "browse") == 0)
        status = look_for(words[5], PTR, INT64_MAX);
    else if (strcmp(words[4], "find") == 0)
        status = look_for(words[5], address_type(), 5000000);
    must(zv_host_free(&host), "free");
    close(device);
    return status;
}
