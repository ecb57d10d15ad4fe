/* Socket calls of any program, over the stack: what stack.c, sockets.c, calls.c and names.c share. See zv-run. */
#ifndef RUN_H
#define RUN_H

/* Where a call is refused, values are those from before it. */
#define ZV_MAY_IGNORE
#include "zemplovir.h"

#include <netinet/in.h>
#include <stdint.h>
#include <sys/socket.h>

/* No socket of the stack. */
#define NONE ((size_t)-1)

enum { MOST_FILES = 65536, MOST_WAITING = 256, MOST_LISTENING = 256 };

/* The descriptor that a program has of a socket is one end of a pair of local ones, so that poll, select and epoll wait for it as for any
 * other. `inner` is a copy of it, `far` the other end. A byte that waits there says that there is something to read; a full way out that
 * nothing can be written. */
struct run_file {
    int kind, family, inner, far, references;
    int flags;                           /* O_NONBLOCK */
    size_t socket;                       /* of the stack */
    struct run_listener *listener;       /* of one that listens */
    zv_endpoint local, remote;           /* family 0 for none */
    int is_connecting, is_connected, is_over, has_mark, is_full, is_read_closed, is_write_closed;
    int error, no_delay, linger_zero, are_ended, is_touched;
    size_t read;                         /* bytes, since the stack had a turn for them */
    int64_t receive_wait, send_wait;     /* microseconds, 0 for ever */
    uint8_t *datagram;                   /* the first one that waits, of a UDP socket */
    size_t datagram_length;
    int has_datagram;
    zv_endpoint datagram_from;
};

/* What listens at a port: sockets that listen or whose connections aren't open yet, as many as are wanted, and open connections that wait to
 * be accepted. They are plain sockets, one connection each: with a listener of the stack's own each poll looks at all that it ever had. */
struct run_listener {
    zv_endpoint local;
    size_t wanted, count, waiting_count;
    size_t sockets[MOST_LISTENING], waiting[MOST_WAITING];
};

/* stack.c: the host, its device, its thread and its lock */

extern zv_host run_host;
extern size_t run_room;            /* bytes of a stream's buffers, each way */
extern int run_has_ipv4, run_has_ipv6;
extern zv_address run_names[3];    /* servers of names */

int run_begins(void);              /* makes the host where there is none. 0 where there can't be one: then calls are the kernel's */
int run_is_there(void);            /* whether this process has the host */
void run_lock(void);
void run_unlock(void);
void run_turn(void);               /* what is to be done is done; under the lock */
int64_t run_now(void);
uint32_t run_random(void);
uint16_t run_port(int kind);       /* a port that no socket has, 49152 on */

/* sockets.c: what a program's descriptors are; under the lock */

extern struct run_file *run_files[MOST_FILES];

struct run_file *run_new(int kind, int family);
void run_forget(struct run_file *it);                   /* one name less */
void run_touch(const uint8_t *packet, size_t length);   /* a packet comes: sockets that it may be for are looked at after the poll */
int run_update(int64_t now);                            /* after a poll: says whether something was called that wants another one */
int run_connect(struct run_file *it, const zv_endpoint *remote);
int run_listen(struct run_file *it, int backlog);
struct run_file *run_accept(struct run_file *it);
ssize_t run_receive(struct run_file *it, void *bytes, size_t length, int flags, zv_endpoint *from);
ssize_t run_send(struct run_file *it, const void *bytes, size_t length, const zv_endpoint *to);
int run_shutdown(struct run_file *it, int how);
size_t run_waiting(struct run_file *it);
void run_set_no_delay(struct run_file *it);
void run_marks(struct run_file *it);
int run_ends(void);                                     /* closes all; says whether something is still under way */

/* calls.c */

int run_descriptor(struct run_file *it);                /* where it is among the program's descriptors; -1 for nowhere */

/* The kernel's own calls. */
#define REAL(type, name, parameters, given)                                                   \
    static type real_##name parameters                                                        \
    {                                                                                         \
        static type(*it) parameters;                                                          \
        if (it == NULL)                                                                       \
            *(void **)&it = dlsym(RTLD_NEXT, #name);                                          \
        return it given;                                                                      \
    }

#endif
