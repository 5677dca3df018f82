/* An echo over a TCP connection of this machine, as plain as it can be: `echo MESSAGES ASKED
   ANSWERED` sends ASKED octets MESSAGES times, and waits each time for ANSWERED octets of a second
   process. It prints how many nanoseconds each took. */

#include <arpa/inet.h>
#include <err.h>
#include <netinet/tcp.h>
#include <stdio.h>
#include <stdlib.h>
#include <sys/socket.h>
#include <time.h>
#include <unistd.h>

static char octets[4096];

static int checked(int result)
{
    if (result < 0)
        err(2, "echo");
    return result;
}

static void receive(int line, size_t count)
{
    if (recv(line, octets, count, MSG_WAITALL) != (ssize_t)count)
        err(2, "echo");
}

static int without_delay(int line)
{
    checked(setsockopt(checked(line), IPPROTO_TCP, TCP_NODELAY, &(int){1}, sizeof(int)));
    return line;
}

int main(int count, char **words)
{
    struct sockaddr_in address = {.sin_family = AF_INET, .sin_addr.s_addr = htonl(INADDR_LOOPBACK)};
    struct timespec begun, ended;
    socklen_t length = sizeof address;
    int line, listener = checked(socket(AF_INET, SOCK_STREAM, 0));
    long messages = count == 4 ? atol(words[1]) : 0, asked = count == 4 ? atol(words[2]) : 0;
    long answered = count == 4 ? atol(words[3]) : 0, most = sizeof octets;

    if (messages < 1 || asked < 1 || answered < 1 || asked > most || answered > most)
        errx(2, "usage: echo MESSAGES ASKED ANSWERED");
    checked(bind(listener, (struct sockaddr *)&address, length));
    checked(listen(listener, 1));
    checked(getsockname(listener, (struct sockaddr *)&address, &length));
    if (checked(fork()) == 0) {
        line = without_delay(accept(listener, NULL, NULL));
        for (long at = 0; at < messages; at++) {
            receive(line, asked);
            checked(write(line, octets, answered));
        }
        return 0;
    }
    line = without_delay(socket(AF_INET, SOCK_STREAM, 0));
    checked(connect(line, (struct sockaddr *)&address, length));
    clock_gettime(CLOCK_MONOTONIC, &begun);
    for (long at = 0; at < messages; at++) {
        checked(write(line, octets, asked));
        receive(line, answered);
    }
    clock_gettime(CLOCK_MONOTONIC, &ended);
    long long took = (ended.tv_sec - begun.tv_sec) * 1000000000LL + ended.tv_nsec - begun.tv_nsec;
    printf("%lld\n", took / messages);
}
