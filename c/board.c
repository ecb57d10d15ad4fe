/* The loop of a bare board: no operating system, no files. Two functions stand for its Ethernet controller and one for its clock; here
 * they are stubs, whose controller loops one ARP request in, so that the program can be run anywhere. Of the C library it needs what the
 * stack needs (docs/guide/c_and_rust.md). It compiles with -ffreestanding.
 */
#include "zemplovir.h"

enum { MOST = 1514, BUDGET = 8 };

/* THE BOARD: put your controller's driver here. */

static uint8_t from_wire[MOST], to_wire[MOST];
static size_t from_wire_length, to_wire_length, frames_sent;
static int64_t microseconds;

/* The next frame that came, its length, 0 for none. */
static size_t ethernet_receive(uint8_t *frame, size_t room)
{
    size_t length = from_wire_length <= room ? from_wire_length : 0;
    for (size_t i = 0; i < length; i++)
        frame[i] = from_wire[i];
    from_wire_length = 0;
    return length;
}

/* Sends a frame. */
static void ethernet_send(const uint8_t *frame, size_t length)
{
    for (size_t i = 0; i < length; i++)
        to_wire[i] = frame[i];
    to_wire_length = length;
    frames_sent++;
}

/* Microseconds since the board began. */
static int64_t clock_now(void)
{
    return microseconds += 1000;
}

/* THE PROGRAM */

static zv_host host;
static size_t echo;

static uint32_t begin(void)
{
    const zv_settings settings = {.medium = ZV_ETHERNET, .hardware = {2, 0, 0, 0, 0, 9}, .mtu = MOST, .seed = 1, .frames = 4};
    const zv_address own = zv_ipv4(192, 168, 1, 9), any = zv_any();
    uint32_t code = zv_host_new(&host, &settings, clock_now());
    if (code == ZV_OK)
        code = zv_address_add(&host, &own, 24);
    if (code == ZV_OK)
        code = zv_udp_new(&host, 4, 2048, &echo);
    if (code == ZV_OK)
        code = zv_udp_bind(&host, echo, &any, 7);
    return code;
}

/* One turn of the loop. */
static uint32_t turn(void)
{
    static uint8_t frame[MOST], bytes[1024];
    uint8_t changed;
    size_t length;
    zv_endpoint remote;
    zv_address local;
    while ((length = ethernet_receive(frame, sizeof frame)) > 0)
        zv_frame_in(&host, frame, length);
    uint32_t code = zv_poll(&host, clock_now(), BUDGET, &changed);
    while (zv_udp_recv(&host, echo, bytes, sizeof bytes, &length, &remote, &local) == ZV_OK)
        zv_udp_send(&host, echo, bytes, length, &remote, &local);
    if (code == ZV_OK)
        code = zv_poll(&host, clock_now(), BUDGET, &changed);
    const uint8_t *first;
    while (zv_frame_peek_out(&host, &first, &length) == ZV_OK) {
        ethernet_send(first, length);
        zv_frame_skip_out(&host);
    }
    return code;
}

int main(void)
{
    /* Who has 192.168.1.9? Tell 192.168.1.1, which is 02:00:00:00:00:01. */
    static const uint8_t request[42] = {0xff, 0xff, 0xff, 0xff, 0xff, 0xff, 2, 0, 0, 0, 0, 1, 8, 6, 0, 1, 8, 0, 6, 4, 0,
                                        1,    2,    0,    0,    0,    0,    1, 192, 168, 1, 1, 0, 0, 0, 0, 0, 0, 192, 168, 1, 9};
    if (begin() != ZV_OK)
        return 1;
    for (size_t i = 0; i < sizeof request; i++)
        from_wire[i] = request[i];
    from_wire_length = sizeof request;
    for (int turns = 0; turns < 4; turns++)
        if (turn() != ZV_OK)
            return 2;
    if (frames_sent != 1 || to_wire_length < 42 || to_wire[21] != 2 || to_wire[27] != 9)
        return 3; /* the request isn't answered */
    return zv_host_free(&host) == ZV_OK ? 0 : 4;
}
