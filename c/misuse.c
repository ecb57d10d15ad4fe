/* Null pointers, one at each call's pointer in turn, at the library of tools/library-for-debug: ZV_NO_HOST of a null host, else ZV_BAD_ARGUMENT.
 *
 *   misuse         says each answer that is another, and ends with status 1 then
 */
#include "zemplovir.h"

#include <stdio.h>

static int wrong, tried;

static void wants(uint32_t got, uint32_t wanted, const char *call)
{
    tried++;
    if (got == wanted)
        return;
    printf("misuse: %s: %s, not: %s\n", call, zv_strerror(got), zv_strerror(wanted));
    wrong++;
}

#define NO_HOST(call) wants(call, ZV_NO_HOST, #call)
#define BAD(call) wants(call, ZV_BAD_ARGUMENT, #call)

static zv_host host = {0};
static uint8_t bytes[64];
static size_t count, other;
static zv_endpoint remote, local;
static zv_address address;

static void frames(void)
{
    zv_settings settings = {.medium = ZV_IP, .mtu = 1500, .frames = 4};
    NO_HOST(zv_host_new(NULL, &settings, 0));
    BAD(zv_host_new(&host, NULL, 0));
    NO_HOST(zv_host_free(NULL));
    NO_HOST(zv_frame_in(NULL, bytes, 0));
    BAD(zv_frame_in(&host, NULL, 0));
    BAD(zv_frame_out(&host, NULL, 0, &count));
    BAD(zv_frame_out(&host, bytes, 1, NULL));
    BAD(zv_frame_out_length(&host, NULL));
    BAD(zv_frame_peek_out(&host, NULL, &count));
    NO_HOST(zv_frame_skip_out(NULL));
    NO_HOST(zv_frames_reserve(NULL, 64));
    BAD(zv_trace_line(&host, 0, 0, NULL, 0, bytes, 1, &count));
    BAD(zv_trace_line(&host, 0, 0, bytes, 0, NULL, 0, &count));
    BAD(zv_trace_line(&host, 0, 0, bytes, 0, bytes, 0, NULL));
    BAD(zv_poll(&host, 0, 1, NULL));
    BAD(zv_poll_at(&host, 0, NULL));
    BAD(zv_counters(&host, NULL));
    BAD(zv_address_add(&host, NULL, 24));
    BAD(zv_route_add(&host, &address, 24, NULL));
}

static void sockets(void)
{
    NO_HOST(zv_socket_remove(NULL, 0));
    BAD(zv_socket_user(&host, 0, NULL));
    BAD(zv_udp_new(&host, 1, 1, NULL));
    BAD(zv_udp_bind(&host, 0, NULL, 7));
    BAD(zv_udp_send(&host, 0, NULL, 0, &remote, &address));
    BAD(zv_udp_send(&host, 0, bytes, 1, NULL, &address));
    BAD(zv_udp_send(&host, 0, bytes, 1, &remote, NULL));
    BAD(zv_udp_recv(&host, 0, bytes, 1, &count, NULL, &address));
    BAD(zv_tcp_new(&host, 1, 1, NULL));
    NO_HOST(zv_tcp_close(NULL, 0));
    BAD(zv_tcp_send(&host, 0, NULL, 0, &count));
    BAD(zv_tcp_recv(&host, 0, bytes, 1, NULL));
    BAD(zv_tcp_peek(&host, 0, NULL, &count));
    NO_HOST(zv_tcp_skip(NULL, 0, 0));
    BAD(zv_tcp_reserve(&host, 0, NULL, &count));
    NO_HOST(zv_tcp_commit(NULL, 0, 0));
    BAD(zv_tcp_peer(&host, 0, &local, NULL));
    BAD(zv_tcp_queues(&host, 0, &count, NULL));
    BAD(zv_tcp_queues(&host, 0, NULL, &other));
    BAD(zv_listener_accept(&host, 0, NULL));
    BAD(zv_dns_ask(&host, NULL, 0, 4));
    BAD(zv_dhcp_poll(&host, 0, NULL));
}

int main(void)
{
    zv_settings settings = {.medium = ZV_IP, .mtu = 1500, .frames = 4};
    NO_HOST(zv_counters(&host, &(zv_counts){0}));
    frames();
    wants(zv_host_new(&host, &settings, 0), ZV_OK, "a host");
    frames();
    sockets();
    wants(zv_tcp_new(&host, 64, 64, &count), ZV_OK, "a socket");
    wants(zv_socket_set_user(&host, count, NULL), ZV_OK, "a null pointer of the user's");
    wants(zv_host_free(&host), ZV_OK, "freed");
    printf("misuse: %d calls, %d answers are others\n", tried, wrong);
    return wrong != 0;
}
