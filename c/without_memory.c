/* One course of all calls, again and again, with the first allocation refused, then the second, and so on until none is: each call either
 * does what it does with memory or says ZV_MEMORY, and no block is left at the end. Link it with
 * -Wl,--wrap=malloc,--wrap=realloc,--wrap=free.
 *
 *   without_memory         tries that
 *   without_memory stack   says how many bytes of stack the course takes
 */
#include "zemplovir.h"

#include <stdio.h>
#include <stdlib.h>
#include <string.h>
#include <ucontext.h>

void *__real_malloc(size_t size);
void *__real_realloc(void *block, size_t size);
void __real_free(void *block);
void *__wrap_malloc(size_t size);
void *__wrap_realloc(void *block, size_t size);
void __wrap_free(void *block);

static long asked, refused_at, blocks, refusals;

static int is_refused(void)
{
    if (++asked != refused_at)
        return 0;
    refusals++;
    return 1;
}

void *__wrap_malloc(size_t size)
{
    if (is_refused())
        return NULL;
    void *block = __real_malloc(size);
    blocks += block != NULL;
    return block;
}

void *__wrap_realloc(void *block, size_t size)
{
    if (is_refused())
        return NULL;
    void *made = __real_realloc(block, size);
    blocks += block == NULL && made != NULL;
    return made;
}

void __wrap_free(void *block)
{
    blocks -= block != NULL;
    __real_free(block);
}

static void stop(const char *what, unsigned long number)
{
    fprintf(stderr, "without_memory: allocation %ld refused: %s (%lu)\n", refused_at, what, number);
    exit(1);
}

/* Whether the call was done. It may have been refused for memory where an allocation was refused in it. */
static int is_done(uint32_t code, long before, const char *what)
{
    if (code == ZV_MEMORY && refusals > before)
        return 0;
    if (code != ZV_OK)
        stop(what, code);
    return 1;
}

#define DO(call)                                                                                                                            \
    do {                                                                                                                                    \
        long before = refusals;                                                                                                             \
        if (!is_done(call, before, #call))                                                                                                  \
            is_done(call, refusals, #call);                                                                                                 \
    } while (0)

/* A call that is refused for a reason of its own, whatever memory there is. */
#define SAYS(call, code)                                                                                                                    \
    do {                                                                                                                                    \
        const uint32_t said = (call);                                                                                                       \
        if (said != (code))                                                                                                                 \
            stop(#call, said);                                                                                                              \
    } while (0)

static void cross(zv_host *from, zv_host *to)
{
    static uint8_t frame[2048];
    size_t count;
    while (zv_frame_out(from, frame, sizeof frame, &count) == ZV_OK)
        DO(zv_frame_in(to, frame, count));
}

static void turns(zv_host *hosts, int64_t *now)
{
    uint8_t changed;
    for (int i = 0; i < 48; i++) {
        *now += 250000;
        for (int k = 0; k < 2; k++) {
            DO(zv_poll(&hosts[k], *now, 8, &changed));
            cross(&hosts[k], &hosts[1 - k]);
        }
    }
}

/* What a course has. */
typedef struct course {
    zv_host hosts[2];
    size_t udp[2], tcp[3], icmp, raw, listener, dhcp, dns;
    int64_t now;
    uint16_t port;
} course;

static const zv_address any = {0, {0}};
static uint8_t bytes[512] = {8, 0, 0, 0, 0, 9, 0, 1}, got[512];

static void make_hosts(course *it)
{
    for (int i = 0; i < 2; i++) {
        const zv_settings settings = {
            .medium = ZV_ETHERNET, .hardware = {2, 0, 0, 0, 0, (uint8_t)(i + 1)}, .mtu = 1514, .seed = 5, .frames = 16};
        const zv_address own = zv_ipv4(192, 168, 1, (uint8_t)(i + 1));
        DO(zv_host_new(&it->hosts[i], &settings, it->now));
        DO(zv_address_add(&it->hosts[i], &own, 24));
        DO(zv_udp_new(&it->hosts[i], 4, 2048, &it->udp[i]));
        DO(zv_udp_bind(&it->hosts[i], it->udp[i], &any, 7));
        DO(zv_tcp_new(&it->hosts[i], 1024, 1024, &it->tcp[i]));
    }
    DO(zv_icmp_new(&it->hosts[0], 2, 1024, &it->icmp));
    DO(zv_icmp_bind(&it->hosts[0], it->icmp, 9));
    DO(zv_raw_new(&it->hosts[1], 4, 1, 2, 1024, &it->raw));
    DO(zv_tcp_new(&it->hosts[1], 0, 0, &it->tcp[2]));
    DO(zv_listener_new(&it->hosts[1], &any, 8, &it->listener));
    DO(zv_listener_add(&it->hosts[1], it->listener, it->tcp[1]));
    DO(zv_listener_add_keeper(&it->hosts[1], it->listener, it->tcp[2]));
}

/* Addresses, routes and settings of a host. */
static void set_up(zv_host *host)
{
    const zv_address other = zv_ipv4(192, 168, 2, 1), router = zv_ipv4(192, 168, 1, 9), all = zv_ipv4(0, 0, 0, 0),
                     group = zv_ipv4(224, 0, 0, 251);
    const zv_hardware station = {{2, 0, 0, 0, 0, 1}};
    zv_counts counts;
    size_t told;
    int64_t at;
    DO(zv_address_add(host, &other, 24));
    DO(zv_address_remove(host, &other));
    SAYS(zv_address_add(host, &any, 24), ZV_BAD_ARGUMENT);
    SAYS(zv_route_add(host, &any, 0, &router), ZV_BAD_ARGUMENT);
    DO(zv_route_add(host, &all, 0, &router));
    DO(zv_route_remove(host, &all, 0));
    SAYS(zv_address_remove(host, &other), ZV_NOT_FOUND);
    DO(zv_group_join(host, &group));
    DO(zv_group_leave(host, &group));
    SAYS(zv_group_join(host, &other), ZV_UNADDRESSABLE);
    DO(zv_host_set_hardware(host, &station));
    DO(zv_host_update_hardware(host, &station, &told));
    DO(zv_host_set_any_ip(host, 0));
    DO(zv_host_set_reassembly_timeout(host, 60000000));
    DO(zv_host_set_reassembly_slots(host, 3));
    DO(zv_frames_reserve(host, 200));
    DO(zv_counters(host, &counts));
    DO(zv_poll_at(host, 0, &at));
}

static void set_sockets(zv_host *host, size_t udp, size_t tcp, size_t icmp)
{
    size_t count, queued, errors;
    void *user;
    uint8_t state;
    DO(zv_udp_set_hop_limit(host, udp, 9));
    DO(zv_icmp_set_hop_limit(host, icmp, 9));
    for (int i = 0; i < 2; i++) {
        DO(zv_icmp_new(host, 1, 64, &errors));
        DO(i == 0 ? zv_icmp_bind_udp(host, errors, &any, 7) : zv_icmp_bind_tcp(host, errors, &any, 7));
        DO(zv_socket_remove(host, errors));
    }
    DO(zv_tcp_listen(host, tcp, &any, 9));
    DO(zv_tcp_close(host, tcp));
    DO(zv_tcp_set_timeout(host, tcp, UINT64_MAX));
    DO(zv_tcp_set_keep_alive(host, tcp, UINT64_MAX));
    DO(zv_tcp_set_ack_delay(host, tcp, 10000));
    DO(zv_tcp_set_min_rto(host, tcp, 1000000));
    DO(zv_tcp_set_fine_timer(host, tcp, 1));
    DO(zv_tcp_set_nagle(host, tcp, 1));
    DO(zv_tcp_set_hop_limit(host, tcp, 64));
    DO(zv_tcp_set_retries(host, tcp, 16));
    DO(zv_tcp_set_congestion_control(host, tcp, ZV_CONGESTION_CUBIC));
    DO(zv_tcp_set_timestamps(host, tcp, 1, 7));
    DO(zv_tcp_pause_synack(host, tcp, 0));
    DO(zv_tcp_state(host, tcp, &state));
    DO(zv_tcp_end_reason(host, tcp, &state));
    DO(zv_tcp_queues(host, tcp, &count, &queued));
    DO(zv_tcp_room(host, tcp, &count));
    DO(zv_socket_set_user(host, tcp, &count));
    DO(zv_socket_user(host, tcp, &user));
}

/* The clients ask, and nobody answers. */
static void ask(course *it)
{
    zv_host *host = &it->hosts[0];
    const zv_address server = zv_ipv4(192, 168, 1, 2);
    zv_endpoint remote, local;
    zv_addresses found;
    zv_lease lease, later;
    int64_t at;
    size_t count;
    DO(zv_udp_new(host, 2, 1024, &it->dhcp));
    DO(zv_udp_bind(host, it->dhcp, &any, 68));
    DO(zv_udp_new(host, 2, 1024, &it->dns));
    DO(zv_dhcp_new(host, 3));
    DO(zv_dns_new(host, &server, &any, &any));
    DO(zv_dns_ask(host, (const uint8_t *)"example.test", 12, 4));
    DO(zv_dhcp_send(host, got, sizeof got, &count, &remote, &local));
    DO(zv_dhcp_sent(host, 0));
    DO(zv_dhcp_recv(host, got, count, &local, &remote.address));
    DO(zv_dns_send(host, got, sizeof got, &count, &remote, &local));
    DO(zv_dns_sent(host, 0));
    DO(zv_dns_recv(host, got, count, &remote, &local));
    DO(zv_dhcp_turn(host, it->dhcp, it->now, &lease));
    DO(zv_dns_turn(host, it->dns, &it->port));
    DO(zv_dhcp_poll(host, it->now, &later));
    DO(zv_dhcp_poll_at(host, &at));
    DO(zv_dns_poll_at(host, &at));
    SAYS(zv_dns_result(host, &found), ZV_QUERY_PENDING);
    if (lease.event != ZV_LEASE_LOST || later.event != ZV_LEASE_NONE || it->port < 1024)
        stop("the clients don't ask", it->port);
}

/* What came, where memory was never refused. */
static void see(course *it)
{
    zv_endpoint from, to;
    zv_address address;
    const uint8_t *lent;
    size_t count, first;
    if (zv_udp_recv(&it->hosts[1], it->udp[1], got, sizeof got, &count, &from, &address) != ZV_OK || count != sizeof bytes)
        stop("the datagram didn't come", count);
    if (zv_listener_accept(&it->hosts[1], it->listener, &count) != ZV_OK || count != it->tcp[1])
        stop("the connection doesn't wait", count);
    if (zv_tcp_peer(&it->hosts[1], it->tcp[1], &to, &from) != ZV_OK || from.port != 4000 || to.port != 8)
        stop("the connection is another", from.port);
    if (zv_tcp_peek(&it->hosts[1], it->tcp[1], &lent, &count) != ZV_OK || count == 0 || lent[0] != bytes[0])
        stop("no text is lent", count);
    if (zv_tcp_done(&it->hosts[1], it->tcp[1], 5, &first) != ZV_OK || first != 5 || zv_tcp_skip(&it->hosts[1], it->tcp[1], 3) != ZV_OK)
        stop("the first bytes aren't given up", first);
    first += 3;
    if (zv_tcp_recv(&it->hosts[1], it->tcp[1], got, sizeof got, &count) != ZV_OK || count != sizeof bytes - first)
        stop("the text didn't come", count);
    if (zv_icmp_recv(&it->hosts[0], it->icmp, got, sizeof got, &count, &address) != ZV_OK || count != 16)
        stop("the ping isn't answered", count);
    if (zv_raw_recv(&it->hosts[1], it->raw, got, sizeof got, &count) != ZV_OK || count != 36)
        stop("the raw socket didn't get the ping", count);
}

static void talk(course *it)
{
    uint8_t packet[24] = {0x45, 0, 0, 24, 0, 1, 0, 0, 64, 1, 0, 0, 192, 168, 1, 2, 192, 168, 1, 1, 8, 0, 0, 0}, changed;
    zv_endpoint remote = {zv_ipv4(192, 168, 1, 2), 7};
    uint8_t *room = NULL;
    size_t count;
    DO(zv_udp_send(&it->hosts[0], it->udp[0], bytes, sizeof bytes, &remote, &any));
    DO(zv_icmp_send(&it->hosts[0], it->icmp, bytes, 16, &remote.address));
    remote.port = 8;
    DO(zv_tcp_connect(&it->hosts[0], it->tcp[0], &remote, &any, 4000));
    turns(it->hosts, &it->now);
    turns(it->hosts, &it->now);
    DO(zv_tcp_send(&it->hosts[0], it->tcp[0], bytes, sizeof bytes - 4, &count));
    DO(zv_tcp_reserve(&it->hosts[0], it->tcp[0], &room, &count));
    if (room == NULL || count < 4)
        stop("no room is lent", count);
    memcpy(room, bytes + sizeof bytes - 4, 4);
    DO(zv_tcp_commit(&it->hosts[0], it->tcp[0], 4));
    turns(it->hosts, &it->now);
    if (refused_at == 0)
        see(it);
    DO(zv_raw_send(&it->hosts[1], it->raw, packet, sizeof packet));
    DO(zv_poll(&it->hosts[1], it->now, 8, &changed));
    if (refused_at == 0)
        DO(zv_frame_out_length(&it->hosts[1], &count));
    const uint8_t *first;
    if (zv_frame_peek_out(&it->hosts[1], &first, &count) == ZV_OK)
        DO(zv_frame_skip_out(&it->hosts[1]));
    uint8_t line[200];
    DO(zv_trace_line(&it->hosts[1], it->now, 0, packet, sizeof packet, line, sizeof line, &count));
    turns(it->hosts, &it->now);
}

static void run(void)
{
    const long had = blocks; /* the C library's own, where it is linked statically */
    course it = {{{0}, {0}}, {0, 0}, {0, 0, 0}, 0, 0, 0, 0, 0, 0, 0};
    make_hosts(&it);
    set_up(&it.hosts[0]);
    set_sockets(&it.hosts[0], it.udp[0], it.tcp[0], it.icmp);
    ask(&it);
    turns(it.hosts, &it.now);
    talk(&it);
    DO(zv_tcp_close(&it.hosts[0], it.tcp[0]));
    DO(zv_tcp_abort(&it.hosts[1], it.tcp[1]));
    DO(zv_listener_give_back(&it.hosts[1], it.listener, it.tcp[1]));
    turns(it.hosts, &it.now);
    DO(zv_listener_remove(&it.hosts[1], it.listener));
    for (int i = 0; i < 2; i++) {
        DO(zv_udp_close(&it.hosts[i], it.udp[i]));
        DO(zv_socket_remove(&it.hosts[i], it.udp[i]));
        DO(zv_host_free(&it.hosts[i]));
    }
    if (blocks != had)
        stop("blocks are left", (unsigned long)(blocks - had));
}

static uint8_t stack[256 * 1024];

/* How many bytes of stack a course takes that is run on one of its own. */
static size_t depth_of(void (*course)(void))
{
    enum { PAINT = 0xa5 };
    ucontext_t here, there;
    size_t unused = 0;
    memset(stack, PAINT, sizeof stack);
    if (getcontext(&there) != 0)
        return 0;
    there.uc_stack.ss_sp = stack;
    there.uc_stack.ss_size = sizeof stack;
    there.uc_link = &here;
    makecontext(&there, course, 0);
    if (swapcontext(&here, &there) != 0)
        return 0;
    while (unused < sizeof stack && stack[unused] == PAINT)
        unused++;
    return sizeof stack - unused;
}

int main(int count, char **words)
{
    if (count > 1 && strcmp(words[1], "stack") == 0) {
        printf("without_memory: %zu bytes of stack\n", depth_of(run));
        return 0;
    }
    run();
    const long all = asked;
    for (refused_at = 1; refused_at <= all; refused_at++) {
        asked = refusals = 0;
        run();
        if (refusals == 0)
            break;
    }
    printf("without_memory: %ld allocations, each refused in turn\n", all);
    return 0;
}
