// lwIP among idle UDP sockets: SOCKETS of each of the two endpoints, bound to a port each, to which nobody sends. It prints the bytes a second
// of a connection of MIB MiB beside them, and ns of a turn of both endpoints with nothing to do, the clock's reading among them.
//
//   lwip_among SOCKETS MIB TURNS
#include "set_up.h"

static void add_idle(unsigned long count) {
    for (int server = 0; server < 2; server++) {
        ip_addr_t address;
        endpoint(server, &address);
        for (unsigned long i = 0; i < count; i++) {
            struct udp_pcb *pcb = udp_new();
            if (pcb == NULL || udp_bind(pcb, &address, (u16_t)(10000 + i)) != ERR_OK) die("no room for %lu idle sockets", count);
        }
    }
}

static double idle_turn(unsigned long turns) {
    double start = seconds();
    for (unsigned long i = 0; i < turns; i++) {
        poll_server();
        poll_client();
        sys_check_timeouts();
    }
    return (seconds() - start) / turns * 1e9;
}

int main(int argc, char **argv) {
    unsigned long sockets, mib, turns;
    if (argc != 4) die("usage: lwip_among SOCKETS MIB TURNS");
    sockets = strtoul(argv[1], NULL, 10), mib = strtoul(argv[2], NULL, 10), turns = strtoul(argv[3], NULL, 10);
    if (sockets > 10000 || mib == 0 || turns == 0) die("usage: lwip_among SOCKETS MIB TURNS, at most 10000 sockets");
    set_up();
    add_idle(sockets);
    printf("%.1f %.1f\n", ((uint64_t)mib << 20) / bulk_run((uint64_t)mib << 20, 8 * TCP_MSS, 0).seconds / 1e6, idle_turn(turns));
    return 0;
}
