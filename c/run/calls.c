/* The calls of a program: those about sockets of IPv4 and IPv6 are the stack's, all others the kernel's. */
#include "run.h"

#include <dlfcn.h>
#include <errno.h>
#include <fcntl.h>
#include <netinet/tcp.h>
#include <poll.h>
#include <pthread.h>
#include <signal.h>
#include <stdarg.h>
#include <stdlib.h>
#include <string.h>
#include <sys/ioctl.h>
#include <sys/sendfile.h>
#include <sys/uio.h>
#include <unistd.h>

enum { GATHERED = 65536 };

/* What stands here is called by the program; all else is hidden. */
#pragma GCC visibility push(default)

REAL(int, socket, (int family, int kind, int protocol), (family, kind, protocol))
REAL(int, bind, (int at, const struct sockaddr *own, socklen_t length), (at, own, length))
REAL(int, listen, (int at, int backlog), (at, backlog))
REAL(int, accept4, (int at, struct sockaddr *remote, socklen_t *length, int flags), (at, remote, length, flags))
REAL(int, connect, (int at, const struct sockaddr *remote, socklen_t length), (at, remote, length))
REAL(int, shutdown, (int at, int how), (at, how))
REAL(int, getsockname, (int at, struct sockaddr *own, socklen_t *length), (at, own, length))
REAL(int, getpeername, (int at, struct sockaddr *remote, socklen_t *length), (at, remote, length))
REAL(int, getsockopt, (int at, int level, int name, void *value, socklen_t *length), (at, level, name, value, length))
REAL(int, setsockopt, (int at, int level, int name, const void *value, socklen_t length), (at, level, name, value, length))
REAL(ssize_t, recvfrom, (int at, void *bytes, size_t length, int flags, struct sockaddr *from, socklen_t *its), (at, bytes, length, flags, from, its))
REAL(ssize_t, sendto, (int at, const void *bytes, size_t length, int flags, const struct sockaddr *to, socklen_t its), (at, bytes, length, flags, to, its))
REAL(ssize_t, recvmsg, (int at, struct msghdr *message, int flags), (at, message, flags))
REAL(ssize_t, sendmsg, (int at, const struct msghdr *message, int flags), (at, message, flags))
REAL(int, recvmmsg, (int at, struct mmsghdr *all, unsigned count, int flags, struct timespec *wait), (at, all, count, flags, wait))
REAL(int, sendmmsg, (int at, struct mmsghdr *all, unsigned count, int flags), (at, all, count, flags))
REAL(ssize_t, read, (int at, void *bytes, size_t length), (at, bytes, length))
REAL(ssize_t, write, (int at, const void *bytes, size_t length), (at, bytes, length))
REAL(ssize_t, readv, (int at, const struct iovec *pieces, int count), (at, pieces, count))
REAL(ssize_t, writev, (int at, const struct iovec *pieces, int count), (at, pieces, count))
REAL(ssize_t, sendfile, (int to, int from, off_t *offset, size_t count), (to, from, offset, count))
REAL(int, close, (int at), (at))
REAL(int, dup, (int at), (at))
REAL(int, dup2, (int at, int wanted), (at, wanted))
REAL(int, dup3, (int at, int wanted, int flags), (at, wanted, flags))
REAL(int, fcntl, (int at, int what, void *value), (at, what, value))
REAL(int, ioctl, (int at, unsigned long what, void *value), (at, what, value))
REAL(int, poll, (struct pollfd *all, nfds_t count, int wait), (all, count, wait))

/* WHICH CALLS ARE THE STACK'S */

static int is_ours(int at)
{
    return at >= 0 && at < MOST_FILES && run_files[at] != NULL && run_is_there();
}

/* The socket, under the lock; null, without it, where it isn't there any more. */
static struct run_file *locked(int at)
{
    run_lock();
    if (is_ours(at))
        return run_files[at];
    run_unlock();
    errno = EBADF;
    return NULL;
}

/* One more descriptor for the socket, at least this one. */
static int name(struct run_file *it, int least, int is_closed_by_exec)
{
    const int at = real_fcntl(it->inner, is_closed_by_exec ? F_DUPFD_CLOEXEC : F_DUPFD, (void *)(intptr_t)least);
    if (at >= MOST_FILES) {
        real_close(at);
        return errno = EMFILE, -1;
    }
    if (at >= 0) {
        run_files[at] = it;
        it->references++;
    }
    return at;
}

static void set_flags(struct run_file *it, int at, int is_nonblocking)
{
    it->flags = is_nonblocking ? O_NONBLOCK : 0;
    real_fcntl(at, F_SETFL, (void *)(intptr_t)(O_RDWR | it->flags));
}

/* A new socket becomes a descriptor, or is given up. */
static int described(struct run_file *it, int flags)
{
    const int at = it == NULL ? -1 : name(it, 0, (flags & SOCK_CLOEXEC) != 0);
    if (at >= 0) {
        set_flags(it, at, (flags & SOCK_NONBLOCK) != 0);
    } else if (it != NULL) {
        it->references = 1;
        run_forget(it);
    }
    return at;
}

/* ADDRESSES */

/* Whether the address is one, and which endpoint. An unspecified address is that of family 0. */
static int read_address(const struct sockaddr *from, socklen_t length, zv_endpoint *to)
{
    memset(to, 0, sizeof *to);
    if (from != NULL && from->sa_family == AF_INET && length >= sizeof(struct sockaddr_in)) {
        const struct sockaddr_in *it = (const void *)from;
        to->port = ntohs(it->sin_port);
        to->address.family = it->sin_addr.s_addr != 0 ? 4 : 0;
        memcpy(to->address.bytes, &it->sin_addr, 4);
        return 1;
    }
    if (from == NULL || from->sa_family != AF_INET6 || length < sizeof(struct sockaddr_in6))
        return 0;
    const struct sockaddr_in6 *it = (const void *)from;
    to->port = ntohs(it->sin6_port);
    if (IN6_IS_ADDR_V4MAPPED(&it->sin6_addr)) {
        memcpy(to->address.bytes, it->sin6_addr.s6_addr + 12, 4);
        to->address.family = memcmp(to->address.bytes, "\0\0\0\0", 4) != 0 ? 4 : 0;
    } else {
        memcpy(to->address.bytes, &it->sin6_addr, 16);
        to->address.family = !IN6_IS_ADDR_UNSPECIFIED(&it->sin6_addr) ? 6 : 0;
    }
    return 1;
}

static void write_address(int family, const zv_endpoint *from, struct sockaddr *to, socklen_t *length)
{
    struct sockaddr_in6 six = {.sin6_family = AF_INET6, .sin6_port = htons(from->port)};
    struct sockaddr_in four = {.sin_family = AF_INET, .sin_port = htons(from->port)};
    if (to == NULL || length == NULL)
        return;
    memcpy(&four.sin_addr, from->address.bytes, 4);
    if (from->address.family == 4) {
        memset(six.sin6_addr.s6_addr + 10, 255, 2);
        memcpy(six.sin6_addr.s6_addr + 12, from->address.bytes, 4);
    } else {
        memcpy(&six.sin6_addr, from->address.bytes, 16);
    }
    const void *it = family == AF_INET ? (const void *)&four : (const void *)&six;
    const socklen_t own = family == AF_INET ? sizeof four : sizeof six;
    memcpy(to, it, *length < own ? *length : own);
    *length = own;
}

/* Whether the address is this machine's own: such sockets are the kernel's. */
static int is_loopback(const zv_endpoint *it)
{
    static const uint8_t one[16] = {[15] = 1};
    return (it->address.family == 4 && it->address.bytes[0] == 127) || (it->address.family == 6 && memcmp(it->address.bytes, one, 16) == 0);
}

/* The socket at this descriptor becomes one of the kernel's. */
static int becomes_real(int at)
{
    struct run_file *it = locked(at);
    if (it == NULL)
        return -1;
    const int made = real_socket(it->family, it->kind | (it->flags != 0 ? SOCK_NONBLOCK : 0), 0);
    const int flags = (int)(intptr_t)real_fcntl(at, F_GETFD, NULL);
    if (made >= 0 && real_dup3(made, at, (flags & FD_CLOEXEC) != 0 ? O_CLOEXEC : 0) >= 0) {
        run_files[at] = NULL;
        run_forget(it);
    }
    run_unlock();
    return made < 0 ? -1 : real_close(made);
}

/* WAITS */

/* Waits for the descriptor: 1 where it is ready, else -1 with errno. */
static int wait_for(int at, short events, int64_t micros)
{
    struct pollfd it = {at, events, 0};
    const int ready = real_poll(&it, 1, micros == 0 ? -1 : (int)((micros + 999) / 1000));
    return ready > 0 ? 1 : ready < 0 ? -1 : (errno = EAGAIN, -1);
}

static ssize_t receive(int at, void *bytes, size_t length, int flags, zv_endpoint *from)
{
    size_t done = 0;
    for (;;) {
        struct run_file *it = locked(at);
        if (it == NULL)
            return -1;
        const ssize_t some = run_receive(it, (char *)bytes + done, length - done, flags, from);
        const int why = errno, waits = it->flags == 0 && (flags & MSG_DONTWAIT) == 0, is_all = (flags & MSG_WAITALL) != 0 && it->kind == SOCK_STREAM;
        const int64_t wait = it->receive_wait;
        run_unlock();
        errno = why;
        if (some > 0)
            done += (size_t)some;
        if (some == 0 || (some > 0 && (!is_all || done >= length)))
            return (ssize_t)done;
        if (some < 0 && (why != EAGAIN || !waits))
            return done > 0 ? (ssize_t)done : -1;
        if (some < 0 && wait_for(at, POLLIN, wait) < 0)
            return done > 0 ? (ssize_t)done : -1;
    }
}

static ssize_t broken(int flags)
{
    if (errno == EPIPE && (flags & MSG_NOSIGNAL) == 0) {
        pthread_kill(pthread_self(), SIGPIPE);
        errno = EPIPE;
    }
    return -1;
}

static ssize_t transmit(int at, const void *bytes, size_t length, int flags, const zv_endpoint *to)
{
    size_t done = 0;
    for (;;) {
        struct run_file *it = locked(at);
        if (it == NULL)
            return -1;
        const ssize_t some = run_send(it, (const char *)bytes + done, length - done, to);
        const int why = errno, waits = it->flags == 0 && (flags & MSG_DONTWAIT) == 0;
        const int64_t wait = it->send_wait;
        run_unlock();
        errno = why;
        if (some > 0)
            done += (size_t)some;
        if (done >= length && some >= 0)
            return (ssize_t)done;
        if ((some < 0 && why != EAGAIN) || !waits)
            return done > 0 ? (ssize_t)done : broken(flags);
        if (wait_for(at, POLLOUT, wait) < 0)
            return done > 0 ? (ssize_t)done : -1;
    }
}

/* SOCKETS */

int socket(int family, int kind, int protocol)
{
    const int flags = kind & (SOCK_NONBLOCK | SOCK_CLOEXEC), bare = kind & ~flags;
    const int is_stream = bare == SOCK_STREAM && (protocol == 0 || protocol == IPPROTO_TCP);
    const int is_datagram = bare == SOCK_DGRAM && (protocol == 0 || protocol == IPPROTO_UDP);
    if ((family != AF_INET && family != AF_INET6) || (!is_stream && !is_datagram) || !run_begins())
        return real_socket(family, kind, protocol);
    run_lock();
    const int at = described(run_new(bare, family), flags);
    run_unlock();
    return at;
}

/* Whether another socket of this kind and family is bound to the endpoint's port. */
static int is_taken(const struct run_file *it, const zv_endpoint *own)
{
    for (int i = 0; i < MOST_FILES && own->port != 0; i++)
        if (run_files[i] != NULL && run_files[i] != it && run_files[i]->kind == it->kind && run_files[i]->family == it->family
            && run_files[i]->local.port == own->port && (run_files[i]->listener != NULL || it->kind == SOCK_DGRAM))
            return 1;
    return 0;
}

int bind(int at, const struct sockaddr *own, socklen_t length)
{
    zv_endpoint wanted;
    if (!is_ours(at))
        return real_bind(at, own, length);
    if (!read_address(own, length, &wanted))
        return errno = EINVAL, -1;
    if (is_loopback(&wanted))
        return becomes_real(at) < 0 ? -1 : real_bind(at, own, length);
    struct run_file *it = locked(at);
    if (it == NULL)
        return -1;
    const int why = it->local.port != 0 ? EINVAL : is_taken(it, &wanted) ? EADDRINUSE : 0;
    if (why == 0) {
        it->local = wanted;
        if (wanted.port == 0)
            it->local.port = run_port(it->kind);
    }
    if (why == 0 && it->kind == SOCK_DGRAM) {
        const zv_endpoint none = it->remote;
        run_connect(it, &none);
    }
    run_unlock();
    return why == 0 ? 0 : (errno = why, -1);
}

int listen(int at, int backlog)
{
    if (!is_ours(at))
        return real_listen(at, backlog);
    struct run_file *it = locked(at);
    if (it == NULL)
        return -1;
    const int answer = it->kind == SOCK_STREAM ? run_listen(it, backlog) : (errno = EOPNOTSUPP, -1);
    run_unlock();
    return answer;
}

int accept4(int at, struct sockaddr *remote, socklen_t *length, int flags)
{
    if (!is_ours(at))
        return real_accept4(at, remote, length, flags);
    for (;;) {
        struct run_file *it = locked(at);
        if (it == NULL)
            return -1;
        struct run_file *made = run_accept(it);
        const int why = errno, waits = it->flags == 0;
        const int64_t wait = it->receive_wait;
        if (made != NULL)
            write_address(made->family, &made->remote, remote, length);
        const int answer = described(made, flags);
        run_unlock();
        if (made != NULL)
            return answer;
        errno = why;
        if (why != EAGAIN || !waits || wait_for(at, POLLIN, wait) < 0)
            return -1;
    }
}

int accept(int at, struct sockaddr *remote, socklen_t *length)
{
    return accept4(at, remote, length, 0);
}

/* Waits for a connection that was begun. */
static int connected(int at)
{
    for (;;) {
        if (wait_for(at, POLLOUT, 0) < 0)
            return -1;
        struct run_file *it = locked(at);
        if (it == NULL)
            return -1;
        const int is_over = !it->is_connecting, why = it->error;
        it->error = 0;
        run_unlock();
        if (is_over)
            return why == 0 ? 0 : (errno = why, -1);
    }
}

int connect(int at, const struct sockaddr *remote, socklen_t length)
{
    zv_endpoint wanted;
    if (!is_ours(at))
        return real_connect(at, remote, length);
    const int is_named = read_address(remote, length, &wanted);
    if (is_named && (is_loopback(&wanted) || wanted.address.family == 0))
        return becomes_real(at) < 0 ? -1 : real_connect(at, remote, length);
    struct run_file *it = locked(at);
    if (it == NULL)
        return -1;
    if (!is_named) { /* AF_UNSPEC: no remote any more */
        const int is_stream = it->kind == SOCK_STREAM;
        if (!is_stream)
            memset(&it->remote, 0, sizeof it->remote);
        run_unlock();
        return is_stream ? (errno = EAFNOSUPPORT, -1) : 0;
    }
    const int answer = run_connect(it, &wanted), why = errno, waits = it->flags == 0;
    run_unlock();
    errno = why;
    return answer < 0 && why == EINPROGRESS && waits ? connected(at) : answer;
}

int shutdown(int at, int how)
{
    if (!is_ours(at))
        return real_shutdown(at, how);
    struct run_file *it = locked(at);
    if (it == NULL)
        return -1;
    const int answer = run_shutdown(it, how);
    run_unlock();
    return answer;
}

int getsockname(int at, struct sockaddr *own, socklen_t *length)
{
    if (!is_ours(at))
        return real_getsockname(at, own, length);
    struct run_file *it = locked(at);
    if (it == NULL)
        return -1;
    zv_endpoint local = it->local, remote;
    if (it->socket != NONE && it->kind == SOCK_STREAM)
        zv_tcp_peer(&run_host, it->socket, &local, &remote);
    write_address(it->family, &local, own, length);
    run_unlock();
    return 0;
}

int getpeername(int at, struct sockaddr *remote, socklen_t *length)
{
    if (!is_ours(at))
        return real_getpeername(at, remote, length);
    struct run_file *it = locked(at);
    if (it == NULL)
        return -1;
    const int has_one = it->remote.address.family != 0 && (it->is_connected || it->kind == SOCK_DGRAM);
    if (has_one)
        write_address(it->family, &it->remote, remote, length);
    run_unlock();
    return has_one ? 0 : (errno = ENOTCONN, -1);
}

/* OPTIONS */

static int option_of(struct run_file *it, int level, int name)
{
    int why = 0;
    if (level == SOL_SOCKET && name == SO_ERROR)
        why = it->error, it->error = 0;
    else if (level == SOL_SOCKET && name == SO_TYPE)
        why = it->kind;
    else if (level == SOL_SOCKET && name == SO_DOMAIN)
        why = it->family;
    else if (level == SOL_SOCKET && name == SO_PROTOCOL)
        why = it->kind == SOCK_STREAM ? IPPROTO_TCP : IPPROTO_UDP;
    else if (level == SOL_SOCKET && name == SO_ACCEPTCONN)
        why = it->listener != NULL;
    else if (level == SOL_SOCKET && (name == SO_RCVBUF || name == SO_SNDBUF))
        why = (int)run_room;
    else if (level == IPPROTO_TCP && name == TCP_NODELAY)
        why = it->no_delay;
    else if (level == IPPROTO_TCP && name == TCP_MAXSEG)
        why = 1448;
    return why;
}

int getsockopt(int at, int level, int name, void *value, socklen_t *length)
{
    if (!is_ours(at))
        return real_getsockopt(at, level, name, value, length);
    struct run_file *it = locked(at);
    if (it == NULL)
        return -1;
    if (level == IPPROTO_TCP && name == TCP_CONGESTION) {
        strncpy(value, "cubic", *length);
    } else if (*length >= sizeof(int)) {
        const int answer = option_of(it, level, name);
        memset(value, 0, *length);
        memcpy(value, &answer, sizeof answer);
        if (*length < sizeof(struct timeval) || level == SOL_SOCKET)
            *length = sizeof answer;
    }
    run_unlock();
    return 0;
}

static int64_t wait_of(const void *value, socklen_t length)
{
    struct timeval it;
    if (length < sizeof it)
        return 0;
    memcpy(&it, value, sizeof it);
    return (int64_t)it.tv_sec * 1000000 + it.tv_usec;
}

static void set_option(struct run_file *it, int level, int name, const void *value, socklen_t length)
{
    int number = 0;
    memcpy(&number, value, length < sizeof number ? length : sizeof number);
    const int is_open = it->socket != NONE && it->kind == SOCK_STREAM;
    if (level == SOL_SOCKET && name == SO_RCVTIMEO)
        it->receive_wait = wait_of(value, length);
    else if (level == SOL_SOCKET && name == SO_SNDTIMEO)
        it->send_wait = wait_of(value, length);
    else if (level == SOL_SOCKET && name == SO_LINGER && length >= sizeof(struct linger))
        it->linger_zero = ((const struct linger *)value)->l_onoff != 0 && ((const struct linger *)value)->l_linger == 0;
    else if (level == SOL_SOCKET && name == SO_KEEPALIVE && is_open)
        zv_tcp_set_keep_alive(&run_host, it->socket, number != 0 ? 75000000 : UINT64_MAX);
    else if (level == IPPROTO_TCP && name == TCP_USER_TIMEOUT && is_open)
        zv_tcp_set_timeout(&run_host, it->socket, number != 0 ? (uint64_t)number * 1000 : UINT64_MAX);
    else if (level == IPPROTO_TCP && name == TCP_NODELAY)
        it->no_delay = number != 0, run_set_no_delay(it);
}

/* What isn't known is taken and has no effect. */
int setsockopt(int at, int level, int name, const void *value, socklen_t length)
{
    if (!is_ours(at))
        return real_setsockopt(at, level, name, value, length);
    struct run_file *it = locked(at);
    if (it == NULL)
        return -1;
    if (value != NULL)
        set_option(it, level, name, value, length);
    run_unlock();
    return 0;
}

/* BYTES */

/* Where it came from, for the descriptor's family; nothing of a stream. */
static void write_from(int at, const zv_endpoint *from, struct sockaddr *to, socklen_t *length)
{
    struct run_file *it = from->address.family != 0 ? locked(at) : NULL;
    if (it != NULL) {
        write_address(it->family, from, to, length);
        run_unlock();
    } else if (length != NULL) {
        *length = 0;
    }
}

ssize_t recvfrom(int at, void *bytes, size_t length, int flags, struct sockaddr *from, socklen_t *its)
{
    zv_endpoint remote = {{0, {0}}, 0};
    if (!is_ours(at))
        return real_recvfrom(at, bytes, length, flags, from, its);
    const ssize_t some = receive(at, bytes, length, flags, &remote);
    if (some >= 0 && from != NULL)
        write_from(at, &remote, from, its);
    return some;
}

ssize_t recv(int at, void *bytes, size_t length, int flags)
{
    return recvfrom(at, bytes, length, flags, NULL, NULL);
}

ssize_t sendto(int at, const void *bytes, size_t length, int flags, const struct sockaddr *to, socklen_t its)
{
    zv_endpoint remote;
    if (!is_ours(at))
        return real_sendto(at, bytes, length, flags, to, its);
    if (to != NULL && !read_address(to, its, &remote))
        return errno = EINVAL, -1;
    return transmit(at, bytes, length, flags, to != NULL ? &remote : NULL);
}

ssize_t send(int at, const void *bytes, size_t length, int flags)
{
    return sendto(at, bytes, length, flags, NULL, 0);
}

ssize_t read(int at, void *bytes, size_t length)
{
    return is_ours(at) ? receive(at, bytes, length, 0, NULL) : real_read(at, bytes, length);
}

ssize_t write(int at, const void *bytes, size_t length)
{
    return is_ours(at) ? transmit(at, bytes, length, 0, NULL) : real_write(at, bytes, length);
}

static size_t length_of(const struct iovec *pieces, size_t count)
{
    size_t length = 0;
    for (size_t i = 0; i < count; i++)
        length += pieces[i].iov_len;
    return length;
}

/* Pieces go as one, so that they are segments of their own only where they are long. */
static ssize_t send_pieces(int at, const struct iovec *pieces, size_t count, int flags, const zv_endpoint *to)
{
    const size_t length = length_of(pieces, count);
    char *all = malloc(length + 1);
    size_t done = 0;
    if (all == NULL)
        return errno = ENOMEM, -1;
    for (size_t i = 0; i < count; done += pieces[i++].iov_len)
        memcpy(all + done, pieces[i].iov_base, pieces[i].iov_len);
    const ssize_t sent = transmit(at, all, length, flags, to);
    free(all);
    return sent;
}

static ssize_t receive_pieces(int at, const struct iovec *pieces, size_t count, int flags, zv_endpoint *from)
{
    size_t length = length_of(pieces, count), done = 0;
    if (length > GATHERED)
        length = GATHERED;
    char *all = malloc(length + 1);
    if (all == NULL)
        return errno = ENOMEM, -1;
    const ssize_t came = receive(at, all, length, flags & ~MSG_WAITALL, from);
    for (size_t i = 0; came > 0 && i < count && done < (size_t)came; i++) {
        const size_t left = (size_t)came - done, some = left < pieces[i].iov_len ? left : pieces[i].iov_len;
        memcpy(pieces[i].iov_base, all + done, some);
        done += some;
    }
    free(all);
    return came;
}

ssize_t readv(int at, const struct iovec *pieces, int count)
{
    return is_ours(at) ? receive_pieces(at, pieces, (size_t)count, 0, NULL) : real_readv(at, pieces, count);
}

ssize_t writev(int at, const struct iovec *pieces, int count)
{
    return is_ours(at) ? send_pieces(at, pieces, (size_t)count, 0, NULL) : real_writev(at, pieces, count);
}

ssize_t recvmsg(int at, struct msghdr *message, int flags)
{
    zv_endpoint from = {{0, {0}}, 0};
    if (!is_ours(at))
        return real_recvmsg(at, message, flags);
    const ssize_t came = receive_pieces(at, message->msg_iov, message->msg_iovlen, flags, &from);
    message->msg_controllen = 0;
    message->msg_flags = 0;
    if (came >= 0 && message->msg_name != NULL)
        write_from(at, &from, message->msg_name, &message->msg_namelen);
    else
        message->msg_namelen = 0;
    return came;
}

ssize_t sendmsg(int at, const struct msghdr *message, int flags)
{
    zv_endpoint to;
    if (!is_ours(at))
        return real_sendmsg(at, message, flags);
    const int has_name = message->msg_name != NULL && message->msg_namelen > 0;
    if (has_name && !read_address(message->msg_name, message->msg_namelen, &to))
        return errno = EINVAL, -1;
    return send_pieces(at, message->msg_iov, message->msg_iovlen, flags, has_name ? &to : NULL);
}

int recvmmsg(int at, struct mmsghdr *all, unsigned count, int flags, struct timespec *wait)
{
    unsigned done = 0;
    if (!is_ours(at))
        return real_recvmmsg(at, all, count, flags, wait);
    for (; done < count; done++) {
        const ssize_t came = recvmsg(at, &all[done].msg_hdr, done == 0 ? flags : flags | MSG_DONTWAIT);
        if (came < 0)
            break;
        all[done].msg_len = (unsigned)came;
    }
    return done > 0 ? (int)done : -1;
}

int sendmmsg(int at, struct mmsghdr *all, unsigned count, int flags)
{
    unsigned done = 0;
    if (!is_ours(at))
        return real_sendmmsg(at, all, count, flags);
    for (; done < count; done++) {
        const ssize_t sent = sendmsg(at, &all[done].msg_hdr, flags);
        if (sent < 0)
            break;
        all[done].msg_len = (unsigned)sent;
    }
    return done > 0 ? (int)done : -1;
}

ssize_t sendfile(int to, int from, off_t *offset, size_t count)
{
    static __thread char bytes[GATHERED];
    size_t done = 0;
    if (!is_ours(to))
        return real_sendfile(to, from, offset, count);
    while (done < count) {
        const size_t wanted = count - done < sizeof bytes ? count - done : sizeof bytes;
        const off_t at = offset != NULL ? *offset : lseek(from, 0, SEEK_CUR);
        const ssize_t some = pread(from, bytes, wanted, at);
        if (some <= 0)
            return done > 0 || some == 0 ? (ssize_t)done : -1;
        const ssize_t sent = transmit(to, bytes, (size_t)some, 0, NULL);
        if (sent < 0)
            return done > 0 ? (ssize_t)done : -1;
        done += (size_t)sent;
        if (offset != NULL)
            *offset += sent;
        else
            lseek(from, at + sent, SEEK_SET);
        if (sent < some)
            break;
    }
    return (ssize_t)done;
}

ssize_t sendfile64(int to, int from, off_t *offset, size_t count)
{
    return sendfile(to, from, offset, count);
}

/* DESCRIPTORS */

int close(int at)
{
    if (!is_ours(at))
        return real_close(at);
    struct run_file *it = locked(at);
    if (it == NULL)
        return real_close(at);
    run_files[at] = NULL;
    const int answer = real_close(at);
    run_forget(it);
    run_unlock();
    return answer;
}

/* One more descriptor of what is at `at`, where there is a socket. */
static int named(int at, int least, int is_closed_by_exec)
{
    struct run_file *it = locked(at);
    if (it == NULL)
        return -1;
    const int made = name(it, least, is_closed_by_exec);
    run_unlock();
    return made;
}

int dup(int at)
{
    return is_ours(at) ? named(at, 0, 0) : real_dup(at);
}

int dup3(int at, int wanted, int flags)
{
    if (is_ours(wanted) && wanted != at)
        close(wanted);
    const int made = real_dup3(at, wanted, flags);
    struct run_file *it = made >= 0 && is_ours(at) ? locked(at) : NULL;
    if (it != NULL) {
        run_files[made] = it;
        it->references++;
        run_unlock();
    }
    return made;
}

int dup2(int at, int wanted)
{
    if (at == wanted || (!is_ours(at) && !is_ours(wanted)))
        return real_dup2(at, wanted);
    return dup3(at, wanted, 0);
}

static int file_control(int at, int what, void *value)
{
    if (!is_ours(at))
        return real_fcntl(at, what, value);
    if (what == F_DUPFD || what == F_DUPFD_CLOEXEC)
        return named(at, (int)(intptr_t)value, what == F_DUPFD_CLOEXEC);
    struct run_file *it = what == F_SETFL ? locked(at) : NULL;
    if (it != NULL) {
        it->flags = (int)(intptr_t)value & O_NONBLOCK;
        run_unlock();
    }
    return real_fcntl(at, what, value);
}

int fcntl(int at, int what, ...)
{
    va_list more;
    va_start(more, what);
    void *value = va_arg(more, void *);
    va_end(more);
    return file_control(at, what, value);
}

int fcntl64(int at, int what, ...)
{
    va_list more;
    va_start(more, what);
    void *value = va_arg(more, void *);
    va_end(more);
    return file_control(at, what, value);
}

int ioctl(int at, unsigned long what, ...)
{
    va_list more;
    va_start(more, what);
    void *value = va_arg(more, void *);
    va_end(more);
    if (!is_ours(at) || (what != FIONBIO && what != FIONREAD))
        return real_ioctl(at, what, value);
    struct run_file *it = locked(at);
    if (it == NULL)
        return -1;
    if (what == FIONREAD)
        *(int *)value = (int)run_waiting(it);
    else
        set_flags(it, at, *(int *)value != 0);
    run_unlock();
    return 0;
}
