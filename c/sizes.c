/* What a host and its sockets ask malloc for, and that frames which come and go ask for nothing once as many have waited as ever do: it ends
 * with status 1 where they do; behind zv_frames_reserve from the first one on. Link it with -Wl,--wrap=malloc,--wrap=realloc.
 */
#define ZV_MAY_IGNORE /* what is asked for is printed, and would be seen to be less */
#include "zemplovir.h"

#include <stdio.h>
#include <stdlib.h>

void *__real_malloc(size_t size);
void *__real_realloc(void *block, size_t size);
void *__wrap_malloc(size_t size);
void *__wrap_realloc(void *block, size_t size);

static size_t asked, calls, largest;

static void count(size_t size)
{
    asked += size;
    calls++;
    largest = size > largest ? size : largest;
}

void *__wrap_malloc(size_t size)
{
    count(size);
    return __real_malloc(size);
}

void *__wrap_realloc(void *block, size_t size)
{
    count(size);
    return __real_realloc(block, size);
}

static void say(const char *what, uint32_t code)
{
    if (code == ZV_OK)
        printf("%s: %zu bytes in %zu calls, the largest %zu\n", what, asked, calls, largest);
    else
        printf("%s: %s\n", what, zv_strerror(code));
    asked = calls = largest = 0;
}

static void made(void)
{
    zv_settings settings = {.medium = ZV_ETHERNET, .hardware = {2, 0, 0, 0, 0, 1}, .mtu = 1514, .seed = 1, .frames = 16};
    const zv_address own = zv_ipv4(192, 168, 1, 1), any = zv_any();
    zv_host host = {0};
    size_t socket;
    say("a host with a table of 256 neighbours", zv_host_new(&host, &settings, 0));
    zv_host_free(&host);
    settings.without_host_requirements = 1;
    say("a host with one of four", zv_host_new(&host, &settings, 0));
    say("an address", zv_address_add(&host, &own, 24));
    say("the clients", zv_dhcp_new(&host, 1) == ZV_OK ? zv_dns_new(&host, &own, &any, &any) : ZV_MEDIUM);
    for (int i = 0; i < 5; i++)
        say(i == 0 ? "a UDP socket with 4 places and 4 KB each way, and the table's first place" : "one more, and the table where it grows",
            zv_udp_new(&host, 4, 4096, &socket));
    say("a TCP socket with 4 KB each way", zv_tcp_new(&host, 4096, 4096, &socket));
    zv_host_free(&host);
}

/* Two hosts, each of which sends the other datagrams of all lengths. */
static zv_host hosts[2];
static size_t udp[2];

static void begin(int is_reserved)
{
    const zv_address any = zv_any();
    for (int i = 0; i < 2; i++) {
        const zv_settings settings = {
            .medium = ZV_ETHERNET, .hardware = {2, 0, 0, 0, 0, (uint8_t)(i + 1)}, .mtu = 1514, .seed = 1, .frames = 16};
        const zv_address own = zv_ipv4(192, 168, 1, (uint8_t)(i + 1));
        hosts[i].inside = NULL;
        zv_host_new(&hosts[i], &settings, 0);
        zv_address_add(&hosts[i], &own, 24);
        asked = calls = largest = 0;
        if (is_reserved)
            say("memory for 16 frames each way of 1514 bytes", zv_frames_reserve(&hosts[i], 1514));
        zv_udp_new(&hosts[i], 4, 8192, &udp[i]);
        zv_udp_bind(&hosts[i], udp[i], &any, 7);
    }
}

/* So many turns of both. Answers how many datagrams came. */
static size_t turns(int64_t from, int64_t to)
{
    static uint8_t bytes[1472], frame[1514];
    size_t length, came = 0;
    uint8_t changed;
    zv_endpoint remote;
    zv_address local = zv_any();
    for (int64_t turn = from; turn < to; turn++)
        for (int i = 0; i < 2; i++) {
            const zv_endpoint other = {zv_ipv4(192, 168, 1, (uint8_t)(2 - i)), 7};
            const zv_address any = zv_any();
            zv_udp_send(&hosts[i], udp[i], bytes, (size_t)(turn * 7919 % 1473), &other, &any);
            zv_poll(&hosts[i], turn * 1000, 16, &changed);
            while (zv_frame_out(&hosts[i], frame, sizeof frame, &length) == ZV_OK)
                zv_frame_in(&hosts[1 - i], frame, length);
            zv_poll(&hosts[1 - i], turn * 1000, 16, &changed);
            while (zv_udp_recv(&hosts[1 - i], udp[1 - i], bytes, sizeof bytes, &length, &remote, &local) == ZV_OK)
                came++;
        }
    return came;
}

int main(void)
{
    made();
    begin(0);
    size_t came = turns(0, 2000);
    printf("%zu datagrams: %zu bytes in %zu calls\n", came, asked, calls);
    asked = calls = 0;
    came = turns(2000, 20000);
    printf("%zu more: %zu bytes in %zu calls\n", came, asked, calls);
    for (int i = 0; i < 2; i++)
        zv_host_free(&hosts[i]);
    if (came != 36000 || calls != 0)
        return 1;
    begin(1);
    asked = calls = 0;
    came = turns(0, 2000);
    printf("%zu datagrams behind that: %zu bytes in %zu calls\n", came, asked, calls);
    for (int i = 0; i < 2; i++)
        zv_host_free(&hosts[i]);
    return came == 4000 && calls == 0 ? 0 : 1;
}
