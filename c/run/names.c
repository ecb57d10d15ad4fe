/* Addresses of names: of the hosts file, else by the stack's client of DNS. */
#include "run.h"

#include <arpa/inet.h>
#include <dlfcn.h>
#include <netdb.h>
#include <pthread.h>
#include <stdio.h>
#include <stdlib.h>
#include <string.h>
#include <unistd.h>

enum { WAIT = 10000000 };

static pthread_mutex_t asking = PTHREAD_MUTEX_INITIALIZER;

REAL(int, getaddrinfo, (const char *name, const char *service, const struct addrinfo *wanted, struct addrinfo **found), (name, service, wanted, found))

/* Whether a line of the hosts file has the name, and its address of this family. */
static int is_line(char *line, const char *name, int family, zv_address *found)
{
    char *rest = line, *first = strsep(&rest, " \t\n"), *one;
    line[strcspn(line, "#")] = 0;
    found->family = family == 4 ? 4 : 6;
    if (inet_pton(family == 4 ? AF_INET : AF_INET6, first, found->bytes) != 1)
        return 0;
    while ((one = strsep(&rest, " \t\n")) != NULL)
        if (strcasecmp(one, name) == 0)
            return 1;
    return 0;
}

static int in_file(const char *name, int family, zv_address *found)
{
    const char *path = getenv("ZV_HOSTS");
    char line[1024];
    int is_there = 0;
    FILE *hosts = fopen(path != NULL ? path : "/etc/hosts", "re");
    while (hosts != NULL && !is_there && fgets(line, sizeof line, hosts) != NULL)
        is_there = is_line(line, name, family, found);
    if (hosts != NULL)
        fclose(hosts);
    return is_there;
}

/* Asks until there is an answer. Says whether there is an address. */
static int ask(const char *name, int family, zv_address *found)
{
    zv_addresses all;
    uint16_t port = 0;
    size_t socket;
    uint32_t code = ZV_QUERY_FAILED;
    const int64_t until = run_now() + WAIT;
    run_lock();
    if (run_names[0].family != 0 && zv_udp_new(&run_host, 4, 4096, &socket) == ZV_OK) {
        zv_dns_new(&run_host, &run_names[0], &run_names[1], &run_names[2]);
        code = zv_dns_ask(&run_host, (const uint8_t *)name, strlen(name), (uint8_t)family);
        for (int is_asked = code == ZV_OK; is_asked;) {
            zv_dns_turn(&run_host, socket, &port);
            run_turn();
            code = zv_dns_result(&run_host, &all);
            is_asked = code == ZV_QUERY_PENDING && run_now() < until;
            run_unlock();
            if (is_asked)
                usleep(1000);
            run_lock();
        }
        zv_socket_remove(&run_host, socket);
    }
    run_unlock();
    if (code == ZV_OK)
        *found = all.at[0];
    return code == ZV_OK && all.at[0].family != 0;
}

static int look_up(const char *name, int family, zv_address *found)
{
    if (in_file(name, family, found))
        return 1;
    pthread_mutex_lock(&asking);
    const int is_there = ask(name, family, found);
    pthread_mutex_unlock(&asking);
    return is_there;
}

/* What glibc makes of the address as a number, with what the caller wants otherwise. */
static int as_number(const zv_address *it, const char *name, const char *service, const struct addrinfo *wanted, struct addrinfo **found)
{
    char text[INET6_ADDRSTRLEN];
    struct addrinfo own = {0};
    if (wanted != NULL)
        own.ai_flags = wanted->ai_flags, own.ai_family = wanted->ai_family, own.ai_socktype = wanted->ai_socktype, own.ai_protocol = wanted->ai_protocol;
    own.ai_flags = (own.ai_flags & ~(AI_ADDRCONFIG | AI_CANONNAME)) | AI_NUMERICHOST;
    if (it != NULL)
        inet_ntop(it->family == 4 ? AF_INET : AF_INET6, it->bytes, text, sizeof text);
    return real_getaddrinfo(it != NULL ? text : name, service, &own, found);
}

__attribute__((visibility("default")))
int getaddrinfo(const char *name, const char *service, const struct addrinfo *wanted, struct addrinfo **found)
{
    zv_address it;
    const int family = wanted != NULL ? wanted->ai_family : AF_UNSPEC;
    const int answer = as_number(NULL, name, service, wanted, found);
    if (name == NULL || answer != EAI_NONAME || (wanted != NULL && (wanted->ai_flags & AI_NUMERICHOST) != 0) || !run_begins())
        return answer;
    if (family != AF_INET6 && run_has_ipv4 && look_up(name, 4, &it))
        return as_number(&it, name, service, wanted, found);
    if (family != AF_INET && run_has_ipv6 && look_up(name, 6, &it))
        return as_number(&it, name, service, wanted, found);
    return EAI_NONAME;
}
