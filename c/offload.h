/* Frames of a TUN or TAP device of Linux that go behind a header of virtio (IFF_VNET_HDR): one system call carries up to 64 KB, as many
 * segments of one connection or datagrams of one socket. The stack behind it makes and takes single frames, as before.
 *
 * What comes: a checksum that the kernel left open is completed; TCP that Linux would have cut later comes as one long frame and is given
 * whole where the stack takes it, else cut; UDP is cut into its datagrams. What goes: frames of one flow that follow one another are put
 * together, each but the last with the same length of text, and the kernel cuts them, if anything does: to a program on this machine they
 * go whole. Frames of one flow keep their order.
 *
 * A stack that is to take long frames whole has an MTU of 65535, which is more than the link's. So the largest segment that a SYN names,
 * either way, is set to what the link carries (RFC 9293, 3.7.1; RFC 6691): neither side sends longer ones.
 *
 * Of frames that go, IPv4's identification counts on from the first one's where the kernel cuts; the rest of each frame stays as it was.
 */
#ifndef OFFLOAD_H
#define OFFLOAD_H

#include <stddef.h>
#include <stdint.h>
#include <sys/uio.h>

enum {
    OFFLOAD_HEAD = 12,                    /* bytes of a header of virtio */
    OFFLOAD_LONGEST = 65535 + 14,         /* bytes of the longest frame */
    OFFLOAD_READ = 12 + 65535 + 14,       /* bytes of the longest read */
    OFFLOAD_FLOWS = 8,                    /* how many flows are put together at a time */
    OFFLOAD_FRAMES = 64,                  /* of how many frames each at most */
    OFFLOAD_ROOM = 4 * (65535 + 14)       /* for the frames that wait */
};

/* The header of virtio, numbers in the machine's order (Virtual I/O Device, 5.1.6, with the legacy interface's order). */
struct offload_head {
    uint8_t flags, type;
    uint16_t headers, size; /* bytes of all headers, bytes of text of each segment */
    uint16_t start, offset; /* from where a sum is open, and where it is to go, from there */
    uint16_t buffers;
};

enum { OFFLOAD_NEEDS_SUM = 1 };                                                                  /* flags */
enum { OFFLOAD_NONE = 0, OFFLOAD_TCP4 = 1, OFFLOAD_TCP6 = 4, OFFLOAD_UDP = 5, OFFLOAD_ECN = 128 }; /* type */

/* What a frame is to this file. `type` is OFFLOAD_NONE where it is neither a segment of TCP nor a datagram of UDP that is whole. */
struct offload_shape {
    uint8_t type, is_ipv6;
    uint8_t joins, closes;         /* whether it may go with others, and whether none goes behind it */
    size_t ip, at, headers, text;  /* where its IP header begins, and TCP's or UDP's; bytes of all headers, and behind them */
};

/* Frames that are put together: the first one, and the text of those behind it. */
struct offload_flow {
    size_t count, length;
    uint64_t since;
    int is_closed, step; /* step: by how much identifications differ */
    struct offload_shape first;
    struct offload_head head;
    struct iovec pieces[1 + OFFLOAD_FRAMES];
};

/* One side of a device. All zero before offload_set. */
struct offload {
    int device;
    size_t link;       /* bytes of the link's header: 14 on Ethernet, else 0 */
    size_t mtu;        /* the longest IP packet that the link carries */
    int takes_long;    /* whether the stack takes long frames of TCP: else they are cut, as those of UDP always are */
    int joins_udp;     /* whether the kernel cuts datagrams */
    int is_trusted;    /* whether sums of frames that go are right: else what is to be put together is summed before */
    void (*give)(void *context, const uint8_t *frame, size_t length);
    void *context;
    ssize_t (*write)(int device, const struct iovec *pieces, int count);
    uint64_t read, refused, given, gone, written; /* reads, of which refused; frames given; frames that went, in how many writes */
    uint64_t flows_begun;
    size_t used;
    struct offload_flow flows[OFFLOAD_FLOWS];
    uint8_t room[OFFLOAD_ROOM + 64], cut[OFFLOAD_LONGEST];
};

/* Opens the device of this name, which the kernel makes where it isn't there: a descriptor, which `flags` of open are for, or -1 with errno.
 * `mtu` and `joins_udp` are the device's from then on. */
int offload_open(struct offload *it, const char *name, int is_tap, int flags);

/* Sets what isn't the device's: who takes frames, and whether long ones of TCP. */
void offload_set(struct offload *it, int is_tap, int takes_long, void (*give)(void *, const uint8_t *, size_t), void *context);

/* What was read from the device: `length` bytes from `bytes` on, its header of virtio first. They are changed. Gives each frame, and says
 * how many there were: 0 for one that is refused. */
int offload_in(struct offload *it, uint8_t *bytes, size_t length);

/* Where the next frame that goes is to be written, of up to OFFLOAD_LONGEST bytes. */
uint8_t *offload_room(struct offload *it);

/* The frame that was written there, of so many bytes, goes: at once, or with others. */
void offload_out(struct offload *it, size_t length);

/* All that waits goes. */
void offload_flush(struct offload *it);

#endif
