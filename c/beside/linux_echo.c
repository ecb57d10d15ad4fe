/* Echoes of datagrams and of streams at port 7 with Linux's own stack, one thread. */
#include <errno.h>
#include <netinet/in.h>
#include <netinet/tcp.h>
#include <poll.h>
#include <stdio.h>
#include <string.h>
#include <sys/socket.h>
#include <unistd.h>

enum { MOST = 16, ROOM = 262144 };

static int bound(int kind)
{
    int it = socket(AF_INET, kind, 0), yes = 1;
    struct sockaddr_in own = {.sin_family = AF_INET, .sin_port = htons(7)};
    setsockopt(it, SOL_SOCKET, SO_REUSEADDR, &yes, sizeof yes);
    if (bind(it, (struct sockaddr *)&own, sizeof own) != 0)
        perror("linux_echo: bind");
    return it;
}

int main(void)
{
    static char bytes[ROOM];
    struct pollfd all[MOST] = {{bound(SOCK_STREAM), POLLIN, 0}, {bound(SOCK_DGRAM), POLLIN, 0}};
    nfds_t count = 2;
    listen(all[0].fd, 8);
    fprintf(stderr, "linux_echo: ready\n");
    while (poll(all, count, -1) >= 0) {
        if (all[0].revents && count < MOST) {
            int yes = 1;
            all[count] = (struct pollfd){accept(all[0].fd, NULL, NULL), POLLIN, 0};
            setsockopt(all[count++].fd, IPPROTO_TCP, TCP_NODELAY, &yes, sizeof yes);
        }
        if (all[1].revents) {
            struct sockaddr_in from;
            socklen_t length = sizeof from;
            ssize_t got = recvfrom(all[1].fd, bytes, sizeof bytes, 0, (struct sockaddr *)&from, &length);
            if (got >= 0)
                sendto(all[1].fd, bytes, (size_t)got, 0, (struct sockaddr *)&from, length);
        }
        for (nfds_t i = 2; i < count; i++) {
            if (!all[i].revents)
                continue;
            ssize_t got = recv(all[i].fd, bytes, sizeof bytes, 0);
            for (ssize_t sent = 0, some; sent < got; sent += some)
                if ((some = send(all[i].fd, bytes + sent, (size_t)(got - sent), MSG_NOSIGNAL)) <= 0)
                    break;
            if (got <= 0) {
                close(all[i].fd);
                all[i--] = all[--count];
            }
        }
    }
    return 0;
}
