/* Calls with their room's length, as a compiler makes them of a program's (_FORTIFY_SOURCE). */
#include <sys/socket.h>
#include <unistd.h>

#pragma GCC visibility push(default)

void __chk_fail(void) __attribute__((noreturn));

ssize_t __read_chk(int at, void *bytes, size_t length, size_t room)
{
    if (length > room)
        __chk_fail();
    return read(at, bytes, length);
}

ssize_t __recv_chk(int at, void *bytes, size_t length, size_t room, int flags)
{
    if (length > room)
        __chk_fail();
    return recv(at, bytes, length, flags);
}

ssize_t __recvfrom_chk(int at, void *bytes, size_t length, size_t room, int flags, struct sockaddr *from, socklen_t *its)
{
    if (length > room)
        __chk_fail();
    return recvfrom(at, bytes, length, flags, from, its);
}
