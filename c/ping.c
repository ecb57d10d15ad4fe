/* Pings a host through a TUN device of Linux, five times by default. It ends with status 0 where any ping was answered: Linux may take a
 * moment to send once its device is open.
 *
 *   ping NAME OWN-ADDRESS PREFIX REMOTE [COUNT]        IPv4; as root, the device made before: docs/guide/c_and_rust.md
 */
#include "zemplovir.h"

#include <arpa/inet.h>
#include <fcntl.h>
#include <linux/if.h>
#include <linux/if_tun.h>
#include <poll.h>
#include <stdio.h>
#include <stdlib.h>
#include <string.h>
#include <sys/ioctl.h>
#include <time.h>
#include <unistd.h>

enum { IDENTIFIER = 0x5a56, LENGTH = 64, BUDGET = 16 };

static void must(uint32_t code, const char *what)
{
    if (code != ZV_OK) {
        fprintf(stderr, "ping: %s: %s\n", what, zv_strerror(code));
        exit(1);
    }
}

static int64_t now(void)
{
    static int64_t first = -1;
    struct timespec t;
    clock_gettime(CLOCK_MONOTONIC, &t);
    int64_t micros = (int64_t)t.tv_sec * 1000000 + t.tv_nsec / 1000;
    if (first < 0)
        first = micros;
    return micros - first;
}

static zv_address read_address(const char *text)
{
    zv_address address = {4, {0}};
    if (inet_pton(AF_INET, text, address.bytes) != 1) {
        fprintf(stderr, "ping: %s is no IPv4 address\n", text);
        exit(2);
    }
    return address;
}

/* Brings frames in, polls, and takes frames out. */
static void turn(zv_host *host, int device)
{
    uint8_t frame[2048], changed;
    size_t count;
    ssize_t length;
    for (int i = 0; i < BUDGET && (length = read(device, frame, sizeof frame)) > 0; i++)
        zv_frame_in(host, frame, (size_t)length);
    must(zv_poll(host, now(), BUDGET, &changed), "poll");
    while (zv_frame_out(host, frame, sizeof frame, &count) == ZV_OK)
        if (write(device, frame, count) < 0)
            perror("ping: write");
}

int main(int count, char **words)
{
    if (count < 5) {
        fprintf(stderr, "usage: ping NAME OWN-ADDRESS PREFIX REMOTE [COUNT]\n");
        return 2;
    }
    struct ifreq request;
    int device = open("/dev/net/tun", O_RDWR | O_NONBLOCK);
    memset(&request, 0, sizeof request);
    request.ifr_flags = IFF_TUN | IFF_NO_PI;
    strncpy(request.ifr_name, words[1], IFNAMSIZ - 1);
    if (device < 0 || ioctl(device, TUNSETIFF, &request) < 0) {
        perror("ping: device");
        return 1;
    }
    zv_host host = {0};
    const zv_settings settings = {.medium = ZV_IP, .mtu = 1500, .seed = (uint64_t)getpid(), .frames = 16};
    const zv_address own = read_address(words[2]), remote = read_address(words[4]);
    const int wanted = count > 5 ? atoi(words[5]) : 5;
    size_t socket;
    must(zv_host_new(&host, &settings, now()), "host");
    must(zv_address_add(&host, &own, (uint8_t)atoi(words[3])), "address");
    must(zv_icmp_new(&host, 8, 4096, &socket), "socket");
    must(zv_icmp_bind(&host, socket, IDENTIFIER), "identifier");
    int answered = 0;
    for (int number = 1; number <= wanted; number++) {
        uint8_t message[LENGTH] = {8, 0, 0, 0, IDENTIFIER >> 8, IDENTIFIER & 0xff, (uint8_t)(number >> 8), (uint8_t)number};
        uint8_t reply[256];
        zv_address from;
        size_t length;
        const int64_t sent = now();
        must(zv_icmp_send(&host, socket, message, sizeof message, &remote), "send");
        int got = 0;
        while (!got && now() - sent < 1000000) {
            turn(&host, device);
            while (zv_icmp_recv(&host, socket, reply, sizeof reply, &length, &from) == ZV_OK)
                if (length >= 8 && reply[0] == 0 && reply[6] == message[6] && reply[7] == message[7])
                    got = 1;
            struct pollfd waits = {device, POLLIN, 0};
            if (!got)
                poll(&waits, 1, 10);
        }
        if (got) {
            answered++;
            printf("%s: number %d is answered after %lld us\n", words[4], number, (long long)(now() - sent));
        } else {
            printf("%s: number %d stays without answer\n", words[4], number);
        }
    }
    must(zv_host_free(&host), "free");
    close(device);
    return answered > 0 ? 0 : 1;
}
