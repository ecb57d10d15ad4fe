/* What a program's descriptors are of the stack. All of it under the lock. */
#include "run.h"

#include <dlfcn.h>
#include <errno.h>
#include <fcntl.h>
#include <stdio.h>
#include <stdlib.h>
#include <string.h>
#include <sys/syscall.h>
#include <unistd.h>

enum { FULL = 2000, LONGEST_DATAGRAM = 65535, KEPT_DATAGRAMS = 64, INTERNAL = 4096, LEAST_LISTENING = 32, RESTING = 64, SPARE = 64, EVERY = 50000 };

struct run_file *run_files[MOST_FILES];

/* All that there are, and sockets whose descriptors are closed and which still have something to send. */
static struct run_file *all[MOST_FILES];
static size_t all_count;
static size_t ending[MOST_FILES], ending_count;
static size_t spare[SPARE], spare_count;
static int wants_poll, touches_all; /* something was called that the next poll does; a packet may be for any socket */

REAL(ssize_t, recv, (int at, void *bytes, size_t length, int flags), (at, bytes, length, flags))
REAL(ssize_t, send, (int at, const void *bytes, size_t length, int flags), (at, bytes, length, flags))
REAL(int, shutdown, (int at, int how), (at, how))
REAL(int, setsockopt, (int at, int level, int name, const void *value, socklen_t length), (at, level, name, value, length))

/* THE PAIR */

static void mark(struct run_file *it, int wanted)
{
    char byte = 0;
    if (wanted == it->has_mark)
        return;
    it->has_mark = wanted;
    if (wanted)
        real_send(it->far, &byte, 1, MSG_DONTWAIT | MSG_NOSIGNAL);
    else
        real_recv(it->inner, &byte, 1, MSG_DONTWAIT);
}

static void fill(struct run_file *it, int wanted)
{
    char bytes[FULL + 64] = {0};
    if (wanted == it->is_full)
        return;
    it->is_full = wanted;
    if (wanted)
        real_send(it->inner, bytes, FULL, MSG_DONTWAIT | MSG_NOSIGNAL);
    else
        real_recv(it->far, bytes, sizeof bytes, MSG_DONTWAIT);
}

/* The remote has closed its way, or the connection is over: so much is told to who waits, once. */
static void tell_end(struct run_file *it, int how)
{
    if (it->are_ended >= how)
        return;
    it->are_ended = how;
    real_shutdown(it->far, how == 2 ? SHUT_RDWR : SHUT_WR);
}

static int above(int it)
{
    const int moved = fcntl(it, F_DUPFD_CLOEXEC, INTERNAL);
    if (moved < 0)
        return it;
    syscall(SYS_close, it);
    return moved;
}

struct run_file *run_new(int kind, int family)
{
    int ends[2], least = 0;
    struct run_file *it = calloc(1, sizeof *it);
    if (it == NULL || all_count == MOST_FILES || syscall(SYS_socketpair, AF_UNIX, SOCK_STREAM | SOCK_CLOEXEC, 0, ends) < 0) {
        free(it);
        return NULL;
    }
    real_setsockopt(ends[0], SOL_SOCKET, SO_SNDBUF, &least, sizeof least);
    it->kind = kind, it->family = family, it->socket = NONE;
    it->inner = above(ends[0]), it->far = above(ends[1]);
    all[all_count++] = it;
    return it;
}

/* SOCKETS OF THE STACK */

/* A closed socket: one that was used before, else a new one. */
static size_t new_stream(void)
{
    size_t socket;
    if (spare_count > 0)
        return spare[--spare_count];
    if (zv_tcp_new(&run_host, run_room, run_room, &socket) != ZV_OK)
        return NONE;
    zv_tcp_set_min_rto(&run_host, socket, 200000);
    zv_tcp_set_fine_timer(&run_host, socket, 1);
    zv_tcp_set_congestion_control(&run_host, socket, ZV_CONGESTION_CUBIC);
    zv_tcp_set_timestamps(&run_host, socket, 1, run_random());
    return socket;
}

/* A socket whose connection is over, or may be forgotten. */
static void old_stream(size_t socket)
{
    zv_tcp_abort(&run_host, socket);
    zv_tcp_set_timeout(&run_host, socket, UINT64_MAX);
    zv_tcp_set_keep_alive(&run_host, socket, UINT64_MAX);
    zv_tcp_set_nagle(&run_host, socket, 1);
    if (spare_count < SPARE)
        spare[spare_count++] = socket;
    else
        zv_socket_remove(&run_host, socket);
}

void run_set_no_delay(struct run_file *it)
{
    if (it->socket != NONE && it->kind == SOCK_STREAM)
        zv_tcp_set_nagle(&run_host, it->socket, !it->no_delay);
}

static uint8_t state_of(size_t socket)
{
    uint8_t state = ZV_CLOSED;
    zv_tcp_state(&run_host, socket, &state);
    return state;
}

/* Whether a connection that was closed here has nothing more to do. */
static int is_done(size_t socket)
{
    const uint8_t state = state_of(socket);
    return state == ZV_CLOSED || state == ZV_TIME_WAIT;
}

/* Binds a datagram socket, to a port of its own where it has none. */
static int bind_datagrams(struct run_file *it)
{
    if (it->socket != NONE)
        return 0;
    if (it->local.port == 0)
        it->local.port = run_port(SOCK_DGRAM);
    if (zv_udp_new(&run_host, KEPT_DATAGRAMS, 4 * LONGEST_DATAGRAM, &it->socket) != ZV_OK)
        return errno = ENOMEM, -1;
    const uint32_t code = zv_udp_bind(&run_host, it->socket, &it->local.address, it->local.port);
    if (code == ZV_OK)
        return 0;
    zv_socket_remove(&run_host, it->socket);
    it->socket = NONE;
    return errno = code == ZV_ADDRESS_IN_USE ? EADDRINUSE : EADDRNOTAVAIL, -1;
}

int run_connect(struct run_file *it, const zv_endpoint *remote)
{
    it->remote = *remote;
    if (it->kind == SOCK_DGRAM)
        return bind_datagrams(it);
    if (it->is_connected || it->listener != NULL)
        return errno = EISCONN, -1;
    if (it->is_connecting)
        return errno = EALREADY, -1;
    if (it->socket == NONE)
        it->socket = new_stream();
    if (it->socket == NONE)
        return errno = ENOMEM, -1;
    if (it->local.port == 0)
        it->local.port = run_port(SOCK_STREAM);
    run_set_no_delay(it);
    const uint32_t code = zv_tcp_connect(&run_host, it->socket, remote, &it->local.address, it->local.port);
    if (code != ZV_OK)
        return errno = code == ZV_UNADDRESSABLE || code == ZV_NO_ROUTE ? ENETUNREACH : code == ZV_ADDRESS_IN_USE ? EADDRINUSE : EINVAL, -1;
    it->is_connecting = 1;
    fill(it, 1);
    run_turn();
    return errno = EINPROGRESS, -1;
}

/* LISTENERS */

/* Open connections wait to be accepted, and as many sockets listen as are wanted. */
static void take_connections(struct run_listener *it)
{
    size_t kept = 0, listening = 0;
    for (size_t i = 0; i < it->count; i++) {
        const size_t socket = it->sockets[i];
        const uint8_t state = state_of(socket);
        if (state == ZV_CLOSED)
            zv_tcp_listen(&run_host, socket, &it->local.address, it->local.port);
        listening += state == ZV_LISTEN || state == ZV_CLOSED;
        if (state == ZV_CLOSED || state == ZV_LISTEN || state == ZV_SYN_RECEIVED || it->waiting_count == MOST_WAITING)
            it->sockets[kept++] = socket;
        else
            it->waiting[it->waiting_count++] = socket;
    }
    for (it->count = kept; listening < it->wanted && it->count < MOST_LISTENING; listening++) {
        const size_t socket = new_stream();
        if (socket == NONE)
            return;
        zv_tcp_listen(&run_host, socket, &it->local.address, it->local.port);
        it->sockets[it->count++] = socket;
    }
}

int run_listen(struct run_file *it, int backlog)
{
    if (it->listener != NULL)
        return 0;
    if (it->local.port == 0)
        it->local.port = run_port(SOCK_STREAM);
    struct run_listener *made = calloc(1, sizeof *made);
    if (made == NULL)
        return errno = ENOMEM, -1;
    made->local = it->local;
    made->wanted = backlog < LEAST_LISTENING ? LEAST_LISTENING : backlog > 2 * LEAST_LISTENING ? 2 * LEAST_LISTENING : (size_t)backlog;
    it->listener = made;
    run_marks(it);
    run_turn();
    return 0;
}

struct run_file *run_accept(struct run_file *it)
{
    struct run_listener *from = it->listener;
    if (from == NULL || from->waiting_count == 0)
        return errno = from == NULL ? EINVAL : EAGAIN, NULL;
    struct run_file *made = run_new(SOCK_STREAM, it->family);
    if (made == NULL)
        return errno = EMFILE, NULL;
    made->socket = from->waiting[0];
    made->is_connected = 1;
    memmove(from->waiting, from->waiting + 1, --from->waiting_count * sizeof from->waiting[0]);
    zv_tcp_peer(&run_host, made->socket, &made->local, &made->remote);
    run_set_no_delay(made);
    run_marks(it);
    run_marks(made);
    return made;
}

/* A listener ends: what waited to be accepted is reset. */
static void end_listener(struct run_listener *it)
{
    for (size_t i = 0; i < it->waiting_count; i++)
        zv_tcp_abort(&run_host, it->waiting[i]), ending[ending_count++] = it->waiting[i];
    for (size_t i = 0; i < it->count; i++)
        zv_tcp_abort(&run_host, it->sockets[i]), ending[ending_count++] = it->sockets[i];
    free(it);
}

/* ENDS */

/* A stream is closed, and its socket is given back once its connection is over. */
static void give_back(struct run_file *it)
{
    size_t received = 0, queued = 0;
    zv_tcp_queues(&run_host, it->socket, &received, &queued);
    if (received > 0 || it->linger_zero)
        zv_tcp_abort(&run_host, it->socket);
    else
        zv_tcp_close(&run_host, it->socket);
    ending[ending_count++] = it->socket;
    wants_poll = 1;
}

static void end_file(struct run_file *it)
{
    if (it->listener != NULL)
        end_listener(it->listener);
    if (it->socket != NONE && it->kind == SOCK_STREAM)
        give_back(it);
    else if (it->socket != NONE)
        zv_socket_remove(&run_host, it->socket);
    it->socket = NONE;
}

void run_forget(struct run_file *it)
{
    if (--it->references > 0)
        return;
    end_file(it);
    for (size_t i = 0; i < all_count; i++)
        if (all[i] == it)
            all[i] = all[--all_count];
    syscall(SYS_close, it->inner);
    syscall(SYS_close, it->far);
    free(it->datagram);
    free(it);
    run_turn();
}

/* Sockets whose connections are over are spare, and of those in TIME-WAIT what is beyond RESTING. */
static void remove_ended(void)
{
    size_t resting = 0;
    for (size_t i = 0; i < ending_count; i++) {
        const uint8_t state = state_of(ending[i]);
        resting += state == ZV_TIME_WAIT;
        if (state != ZV_CLOSED && (state != ZV_TIME_WAIT || resting <= RESTING))
            continue;
        old_stream(ending[i]);
        ending[i--] = ending[--ending_count];
    }
}

int run_ends(void)
{
    size_t received, queued;
    int is_more = 0;
    for (size_t i = 0; i < all_count; i++) {
        if (all[i]->kind != SOCK_STREAM || all[i]->socket == NONE || !all[i]->is_connected)
            continue;
        zv_tcp_close(&run_host, all[i]->socket);
        is_more |= zv_tcp_queues(&run_host, all[i]->socket, &received, &queued) == ZV_OK && queued > 0 && !is_done(all[i]->socket);
        const uint8_t state = state_of(all[i]->socket);
        is_more |= state == ZV_FIN_WAIT_1 || state == ZV_LAST_ACK || state == ZV_CLOSING;
    }
    for (size_t i = 0; i < ending_count; i++) {
        const uint8_t state = state_of(ending[i]);
        is_more |= state != ZV_CLOSED && state != ZV_TIME_WAIT && state != ZV_FIN_WAIT_2;
    }
    return is_more;
}

/* WHAT WAITS */

/* The first datagram that waits, from the remote where there is one. */
static void take_datagram(struct run_file *it)
{
    zv_address local;
    if (it->datagram == NULL)
        it->datagram = malloc(LONGEST_DATAGRAM);
    while (it->datagram != NULL && !it->has_datagram && it->socket != NONE) {
        const uint32_t code = zv_udp_recv(&run_host, it->socket, it->datagram, LONGEST_DATAGRAM, &it->datagram_length, &it->datagram_from, &local);
        if (code != ZV_OK)
            return;
        const int is_from = it->remote.address.family == 0
            || (it->remote.port == it->datagram_from.port && it->remote.address.family == it->datagram_from.address.family
                && memcmp(it->remote.address.bytes, it->datagram_from.address.bytes, it->remote.address.family == 4 ? 4 : 16) == 0);
        it->has_datagram = is_from;
    }
}

size_t run_waiting(struct run_file *it)
{
    size_t received = 0, queued;
    if (it->kind == SOCK_DGRAM)
        return it->has_datagram ? it->datagram_length : 0;
    if (it->socket != NONE)
        zv_tcp_queues(&run_host, it->socket, &received, &queued);
    return received;
}

static void mark_stream(struct run_file *it)
{
    size_t received = 0, queued = 0;
    const uint8_t state = state_of(it->socket);
    if (it->is_connecting && state != ZV_SYN_SENT && state != ZV_SYN_RECEIVED) {
        it->is_connecting = 0;
        it->is_connected = state != ZV_CLOSED;
        it->error = state == ZV_CLOSED ? ECONNREFUSED : 0;
        fill(it, 0);
    }
    if (it->is_connecting)
        return;
    zv_tcp_queues(&run_host, it->socket, &received, &queued);
    const int is_open = state == ZV_ESTABLISHED || state == ZV_FIN_WAIT_1 || state == ZV_FIN_WAIT_2;
    if (it->is_full && (queued <= run_room - run_room / 3 || state == ZV_CLOSED))
        fill(it, 0);
    mark(it, received > 0 || !is_open);
    if (state == ZV_CLOSED || (!is_open && it->is_write_closed))
        tell_end(it, 2);
    else if (!is_open)
        tell_end(it, 1);
}

void run_marks(struct run_file *it)
{
    it->is_touched = 0;
    if (it->listener != NULL) {
        take_connections(it->listener);
        mark(it, it->listener->waiting_count > 0);
    } else if (it->kind == SOCK_DGRAM) {
        take_datagram(it);
        mark(it, it->has_datagram);
    } else if (it->socket != NONE) {
        mark_stream(it);
    }
}

/* Looks at those that a packet may have been for, and at all from time to time: each call about a socket has the next poll look at it, too. */
int run_update(int64_t now)
{
    static int64_t all_at;
    const int are_all = touches_all || now >= all_at;
    wants_poll = touches_all = 0;
    if (are_all)
        all_at = now + EVERY;
    for (size_t i = 0; i < all_count; i++)
        if (are_all || all[i]->is_touched)
            run_marks(all[i]);
    if (are_all)
        remove_ended();
    return wants_poll;
}

static int has_ports(const struct run_file *it, int kind, uint16_t local, uint16_t remote)
{
    return it->kind == kind && it->local.port == local && (kind == SOCK_DGRAM || it->remote.port == remote);
}

/* A packet whose ports can't be seen may be for any. One of TCP for no connection may be for a listener. */
void run_touch(const uint8_t *packet, size_t length)
{
    const int is_ipv6 = packet[0] >> 4 == 6;
    const size_t own = is_ipv6 ? 40 : (size_t)(packet[0] & 15) * 4;
    const int protocol = length < 40 ? 0 : is_ipv6 ? packet[6] : packet[9];
    if (length < own + 4 || (protocol != IPPROTO_TCP && protocol != IPPROTO_UDP) || (!is_ipv6 && ((packet[6] & 0x3f) | packet[7]) != 0)) {
        touches_all |= protocol != 0;
        return;
    }
    const int kind = protocol == IPPROTO_TCP ? SOCK_STREAM : SOCK_DGRAM;
    const uint16_t remote = (uint16_t)(packet[own] << 8 | packet[own + 1]), local = (uint16_t)(packet[own + 2] << 8 | packet[own + 3]);
    int is_found = 0;
    for (size_t i = 0; i < all_count; i++)
        if (has_ports(all[i], kind, local, remote))
            all[i]->is_touched = is_found = 1;
    for (size_t i = 0; i < all_count && !is_found; i++)
        all[i]->is_touched |= all[i]->listener != NULL && all[i]->local.port == local;
}

/* BYTES: -1 with errno, EAGAIN where nothing can be had now. */

static ssize_t receive_datagram(struct run_file *it, void *bytes, size_t length, int flags, zv_endpoint *from)
{
    take_datagram(it);
    if (!it->has_datagram)
        return errno = EAGAIN, -1;
    const size_t some = length < it->datagram_length ? length : it->datagram_length;
    const size_t whole = it->datagram_length;
    memcpy(bytes, it->datagram, some);
    if (from != NULL)
        *from = it->datagram_from;
    if ((flags & MSG_PEEK) == 0)
        it->has_datagram = 0;
    run_marks(it);
    return (ssize_t)((flags & MSG_TRUNC) != 0 ? whole : some);
}

static ssize_t peek_stream(struct run_file *it, void *bytes, size_t length)
{
    const uint8_t *lent;
    size_t count;
    const uint32_t code = zv_tcp_peek(&run_host, it->socket, &lent, &count);
    if (code != ZV_OK)
        return code == ZV_FINISHED ? 0 : (errno = ENOTCONN, -1);
    if (count == 0)
        return errno = EAGAIN, -1;
    count = count < length ? count : length;
    memcpy(bytes, lent, count);
    return (ssize_t)count;
}

ssize_t run_receive(struct run_file *it, void *bytes, size_t length, int flags, zv_endpoint *from)
{
    size_t count = 0;
    if (it->kind == SOCK_DGRAM)
        return receive_datagram(it, bytes, length, flags, from);
    if (it->error != 0) {
        errno = it->error, it->error = 0;
        return -1;
    }
    if (it->is_read_closed)
        return 0;
    if (it->socket == NONE || (!it->is_connected && !it->is_connecting))
        return errno = ENOTCONN, -1;
    if (it->is_connecting)
        return errno = EAGAIN, -1;
    if ((flags & MSG_PEEK) != 0)
        return peek_stream(it, bytes, length);
    const uint32_t code = zv_tcp_recv(&run_host, it->socket, bytes, length, &count);
    if (code == ZV_FINISHED)
        return 0;
    if (code != ZV_OK && it->is_over)
        return 0;
    if (code != ZV_OK)
        return it->is_over = 1, errno = ECONNRESET, -1;
    it->read += count;
    if (it->read >= run_room / 8) { /* else no window has to be told */
        it->read = 0;
        run_turn();
    }
    run_marks(it);
    if (count == 0 && length > 0)
        return errno = EAGAIN, -1;
    return (ssize_t)count;
}

static ssize_t send_datagram(struct run_file *it, const void *bytes, size_t length, const zv_endpoint *to)
{
    const zv_address any = zv_any();
    if (to == NULL && it->remote.address.family == 0)
        return errno = EDESTADDRREQ, -1;
    if (bind_datagrams(it) < 0)
        return -1;
    const uint32_t code = zv_udp_send(&run_host, it->socket, bytes, length, to != NULL ? to : &it->remote, &any);
    run_turn();
    if (code == ZV_FULL)
        return errno = EAGAIN, -1;
    if (code == ZV_TOO_LONG)
        return errno = EMSGSIZE, -1;
    return code == ZV_OK ? (ssize_t)length : (errno = ENETUNREACH, -1);
}

ssize_t run_send(struct run_file *it, const void *bytes, size_t length, const zv_endpoint *to)
{
    size_t count = 0;
    if (it->kind == SOCK_DGRAM)
        return send_datagram(it, bytes, length, to);
    if (it->error != 0) {
        errno = it->error, it->error = 0;
        return -1;
    }
    if (it->is_connecting)
        return errno = EAGAIN, -1;
    if (it->socket == NONE || !it->is_connected)
        return errno = it->is_write_closed ? EPIPE : ENOTCONN, -1;
    if (zv_tcp_send(&run_host, it->socket, bytes, length, &count) != ZV_OK)
        return errno = EPIPE, -1;
    run_turn();
    if (count < length) {
        fill(it, 1);
        run_marks(it);
    }
    return count == 0 && length > 0 ? (errno = EAGAIN, -1) : (ssize_t)count;
}

int run_shutdown(struct run_file *it, int how)
{
    if (it->kind == SOCK_STREAM && !it->is_connected)
        return errno = ENOTCONN, -1;
    if (how != SHUT_WR)
        it->is_read_closed = 1, tell_end(it, 1);
    if (how != SHUT_RD && it->kind == SOCK_STREAM) {
        it->is_write_closed = 1;
        zv_tcp_close(&run_host, it->socket);
        run_turn();
    }
    run_marks(it);
    return 0;
}

/* Whether a socket has this port. */
static int is_used(int kind, uint16_t port)
{
    for (size_t i = 0; i < all_count; i++)
        if (all[i]->kind == kind && all[i]->local.port == port)
            return 1;
    return 0;
}

uint16_t run_port(int kind)
{
    static uint16_t next;
    if (next == 0)
        next = (uint16_t)(49152 + run_random() % 16384);
    do
        next = next == 65535 ? 49152 : (uint16_t)(next + 1);
    while (is_used(kind, next));
    return next;
}
