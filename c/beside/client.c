/* Talks to an echo at port 7: so many megabytes there and back, each byte compared, and then round trips of 64 bytes. 0 megabytes, or 0
 * seconds, for none.
 *
 *   client ADDRESS MEGABYTES SECONDS
 */
#include <arpa/inet.h>
#include <fcntl.h>
#include <netdb.h>
#include <netinet/tcp.h>
#include <poll.h>
#include <stdio.h>
#include <stdlib.h>
#include <string.h>
#include <sys/socket.h>
#include <time.h>
#include <unistd.h>

enum { PIECE = 1 << 20 };

static unsigned char piece[PIECE], got[PIECE / 4];

static double now(void)
{
    struct timespec t;
    clock_gettime(CLOCK_MONOTONIC, &t);
    return (double)t.tv_sec + (double)t.tv_nsec / 1e9;
}

static void fail(const char *what)
{
    perror(what);
    exit(1);
}

static int connected(const char *address)
{
    const struct addrinfo wanted = {.ai_flags = AI_NUMERICHOST | AI_NUMERICSERV, .ai_socktype = SOCK_STREAM};
    struct addrinfo *remote;
    const int yes = 1;
    if (getaddrinfo(address, "7", &wanted, &remote) != 0)
        fail("client: address");
    const int it = socket(remote->ai_family, SOCK_STREAM, 0);
    if (connect(it, remote->ai_addr, remote->ai_addrlen) != 0)
        fail("client: connect");
    freeaddrinfo(remote);
    setsockopt(it, IPPROTO_TCP, TCP_NODELAY, &yes, sizeof yes);
    return it;
}

static long least(long a, long b)
{
    return a < b ? a : b;
}

/* Sends what the stream takes of so many bytes, from this one on. */
static long send_some(int it, long sent, long total)
{
    const long at = sent % PIECE;
    const ssize_t some = write(it, piece + at, (size_t)least(PIECE - at, total - sent));
    if (some <= 0)
        return sent;
    if (sent + some == total)
        shutdown(it, SHUT_WR);
    return sent + some;
}

/* Reads what has come back, and compares it. */
static long read_some(int it, long came)
{
    const long at = came % PIECE;
    const ssize_t some = read(it, got, (size_t)least(PIECE - at, sizeof got));
    if (some <= 0)
        fail("client: the stream ended");
    if (memcmp(got, piece + at, (size_t)some) != 0)
        fail("client: other bytes came back");
    return came + some;
}

static void there_and_back(const char *address, long total)
{
    const int it = connected(address);
    const double begun = now();
    long sent = 0, came = 0;
    fcntl(it, F_SETFL, O_NONBLOCK);
    while (came < total) {
        struct pollfd waits = {it, (short)(POLLIN | (sent < total ? POLLOUT : 0)), 0};
        if (poll(&waits, 1, 5000) != 1)
            fail("client: nothing came back for five seconds");
        if (waits.revents & POLLOUT)
            sent = send_some(it, sent, total);
        if (waits.revents & (POLLIN | POLLHUP))
            came = read_some(it, came);
    }
    printf("%.0f MB/s there and back\n", (double)came / 1e6 / (now() - begun));
    close(it);
}

static void round_trips(const char *address, double seconds)
{
    const int it = connected(address);
    const double begun = now();
    long count = 0;
    for (; now() - begun < seconds; count++) {
        if (write(it, piece, 64) != 64)
            fail("client: write");
        for (ssize_t left = 64, some; left > 0; left -= some)
            if ((some = read(it, got, (size_t)left)) <= 0)
                fail("client: read");
    }
    printf("%.0f round trips a second\n", (double)count / (now() - begun));
    close(it);
}

int main(int count, char **words)
{
    if (count < 4) {
        fprintf(stderr, "usage: client ADDRESS MEGABYTES SECONDS\n");
        return 2;
    }
    for (int i = 0; i < PIECE; i++)
        piece[i] = (unsigned char)(i * 7 % 251);
    if (atol(words[2]) > 0)
        there_and_back(words[1], atol(words[2]) << 20);
    if (atof(words[3]) > 0)
        round_trips(words[1], atof(words[3]));
    return 0;
}
