/* A board without an operating system: qemu's `virt` with an aarch64 processor. It takes an address by DHCP, answers pings, and sends back what it
 * gets by UDP and TCP at port 7. `tools/try-bare` builds and runs it.
 */
#include "virtio.h"
#include "zemplovir.h"

enum { BUDGET = 32 };

/* THE BOARD */

static void write_text(const char *text)
{
    volatile uint32_t *const uart = (volatile uint32_t *)0x09000000;
    while (*text != 0)
        *uart = (uint8_t)*text++;
}

static void write_number(uint64_t number)
{
    char digits[21] = {0};
    int at = 20;
    do
        digits[--at] = (char)('0' + number % 10);
    while ((number /= 10) != 0);
    write_text(digits + at);
}

/* Microseconds since the board began, by the processor's counter. */
static int64_t now(void)
{
    uint64_t ticks, a_second;
    __asm__ volatile("isb; mrs %0, cntvct_el0; mrs %1, cntfrq_el0" : "=r"(ticks), "=r"(a_second));
    return (int64_t)(ticks / a_second * 1000000 + ticks % a_second * 1000000 / a_second);
}

static void stop(const char *what, uint32_t code)
{
    write_text("bare: ");
    write_text(what);
    write_text(": ");
    write_text(zv_strerror(code));
    write_text("\n");
    for (;;)
        __asm__ volatile("wfi");
}

static void must(uint32_t code, const char *what)
{
    if (code != ZV_OK)
        stop(what, code);
}

/* Called where the processor traps, as at an unaligned word. */
void trapped(uint64_t syndrome, uint64_t at, uint64_t address)
{
    write_text("bare: trapped: ");
    write_number(syndrome >> 26);
    write_text(" at ");
    write_number(at);
    write_text(" by ");
    write_number(address);
    write_text("\n");
}

/* THE PROGRAM */

static zv_host host;
static size_t dhcp, datagrams, stream;
static zv_lease lease;

static void begin(void)
{
    zv_settings settings = {.medium = ZV_ETHERNET, .mtu = VIRTIO_FRAME, .frames = 16, .seed = (uint64_t)now()};
    const zv_address any = zv_any();
    if (!virtio_start(settings.hardware))
        stop("no Ethernet controller", ZV_OK);
    must(zv_host_new(&host, &settings, now()), "host");
    must(zv_dhcp_new(&host, now()), "DHCP");
    must(zv_udp_new(&host, 4, 4096, &dhcp), "UDP socket");
    must(zv_udp_bind(&host, dhcp, &any, 68), "UDP port");
    must(zv_udp_new(&host, 16, 16384, &datagrams), "UDP socket");
    must(zv_udp_bind(&host, datagrams, &any, 7), "UDP port");
    must(zv_tcp_new(&host, 32768, 32768, &stream), "TCP socket");
    must(zv_tcp_set_nagle(&host, stream, 0), "Nagle");
}

static void write_address(const zv_address *address)
{
    for (int i = 0; i < 4; i++) {
        write_text(i > 0 ? "." : "");
        write_number(address->bytes[i]);
    }
}

/* A lease's address and router are the host's, until it is over. */
static void take_lease(void)
{
    static zv_lease had;
    const zv_address all = {4, {0}};
    if (lease.event != ZV_LEASE_NONE && had.address.family != 0) {
        zv_address_remove(&host, &had.address);
        zv_route_remove(&host, &all, 0);
        had.address.family = 0;
    }
    if (lease.event != ZV_LEASE_NEW)
        return;
    must(zv_address_add(&host, &lease.address, lease.prefix), "address");
    if (lease.router.family != 0)
        must(zv_route_add(&host, &all, 0, &lease.router), "route");
    had = lease;
    write_text("bare: the address is ");
    write_address(&lease.address);
    write_text("\n");
}

/* Frames that came go in, the host is polled, and frames that are to go go out. */
static void turn(void)
{
    static uint8_t frame[VIRTIO_FRAME];
    const uint8_t *first;
    uint8_t changed;
    size_t length;
    for (int i = 0; i < BUDGET && (length = virtio_receive(frame)) > 0; i++)
        zv_frame_in(&host, frame, length);
    must(zv_poll(&host, now(), BUDGET, &changed), "poll");
    while (zv_frame_peek_out(&host, &first, &length) == ZV_OK && virtio_send(first, length))
        zv_frame_skip_out(&host);
}

static void echo_datagrams(void)
{
    static uint8_t bytes[2048];
    zv_endpoint remote;
    zv_address local;
    size_t length;
    while (zv_udp_recv(&host, datagrams, bytes, sizeof bytes, &length, &remote, &local) == ZV_OK)
        zv_udp_send(&host, datagrams, bytes, length, &remote, &local);
}

/* What came goes back; a connection that is over makes room for the next. */
static void echo_stream(void)
{
    const zv_address any = zv_any();
    const uint8_t *bytes;
    size_t length, sent;
    uint8_t state;
    must(zv_tcp_state(&host, stream, &state), "state");
    if (state == ZV_CLOSED)
        must(zv_tcp_listen(&host, stream, &any, 7), "listen");
    static uint8_t copy[4096];
    while (zv_tcp_peek(&host, stream, &bytes, &length) == ZV_OK && length > 0) {
        length = length < sizeof copy ? length : sizeof copy;
        for (size_t i = 0; i < length; i++)
            copy[i] = bytes[i];
        if (zv_tcp_send(&host, stream, copy, length, &sent) != ZV_OK || sent == 0)
            return;
        zv_tcp_done(&host, stream, sent, &length);
    }
    if (state == ZV_CLOSE_WAIT && zv_tcp_peek(&host, stream, &bytes, &length) != ZV_OK)
        zv_tcp_close(&host, stream);
}

int main(void)
{
    write_text("bare: begun\n");
    begin();
    for (;;) {
        turn();
        must(zv_dhcp_turn(&host, dhcp, now(), &lease), "DHCP");
        take_lease();
        echo_datagrams();
        echo_stream();
    }
}
