/* Reads all that a port of this machine sends by the system's sockets, to compare. */
#include <arpa/inet.h>
#include <stdio.h>
#include <stdlib.h>
#include <sys/socket.h>
#include <time.h>
#include <unistd.h>

int main(int count, char **word)
{
    static char buffer[65536];
    struct sockaddr_in to = {.sin_family = AF_INET, .sin_addr = {htonl(INADDR_LOOPBACK)}};
    struct timespec a, b;
    double got = 0;
    ssize_t more;
    int fd = socket(AF_INET, SOCK_STREAM, 0);
    to.sin_port = htons((unsigned short)(count > 1 ? atoi(word[1]) : 0));
    if (connect(fd, (struct sockaddr *)&to, sizeof to)) return 1;
    clock_gettime(CLOCK_MONOTONIC, &a);
    while ((more = read(fd, buffer, sizeof buffer)) > 0) got += (double)more;
    clock_gettime(CLOCK_MONOTONIC, &b);
    close(fd);
    printf("%.0f bytes, %.0f MB a second\n", got,
           got / ((double)(b.tv_sec - a.tv_sec) + (double)(b.tv_nsec - a.tv_nsec) / 1e9) / 1e6);
    return 0;
}
