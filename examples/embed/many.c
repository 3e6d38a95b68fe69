/* Times calls across the boundary, as many as the word says. Fails where 256 KiB more memory are
 * held at the end than after 10,000 of them. */
#include "kaxtubor.h"
#include <stdio.h>
#include <stdlib.h>
#include <string.h>
#include <time.h>

static double now(void)
{
    struct timespec t;
    clock_gettime(CLOCK_MONOTONIC, &t);
    return (double)t.tv_sec + (double)t.tv_nsec / 1e9;
}

static long held(void)
{
    long kib = 0;
    char line[128];
    FILE *file = fopen("/proc/self/status", "r");
    while (file && fgets(line, sizeof line, file)) sscanf(line, "VmRSS: %ld", &kib);
    if (file) fclose(file);
    return kib;
}

int main(int words, char **word)
{
    const long count = words > 1 ? atol(word[1]) : 1000000;
    const kx_context contexts[] = {{KX_TCP, KX_NO_LIMIT}};
    kx_setup setup = {0, 0, 0, 0};
    kx_host *host;
    kx_answer_t answer;
    uint8_t memory[64];
    char reply[64];
    size_t wrote;
    if (kx_open(&host, &setup, contexts, 1, "", 0, "", 0)) return 1;
    const kx_request create = {KX_CREATE_TCP_SOCKET, 0, 0, 0, 0};
    const kx_request family = {KX_TCP_ADDRESS_FAMILY, 0, 0, 0, 0};
    const uint64_t args[] = {0, 0}, socket[] = {1};
    if (kx_call(host, &create, args, 2, memory, 64, &answer)) return 2;
    if (kx_line(host, "0 tcp-address-family 1", 22, reply, 64, &wrote)) return 4;
    printf("%ld KiB\n", held());
    long before = 0;
    double start = now();
    for (long k = 0; k < count; k++) {
        if (k == 10000) before = held(), printf("after 10,000 calls: %ld KiB\n", before);
        if (kx_call(host, &family, socket, 1, memory, 64, &answer)) return 3;
    }
    printf("%.0f ns a call by number\n", (now() - start) / (double)count * 1e9);
    start = now();
    for (long k = 0; k < count / 10; k++)
        if (kx_line(host, "0 tcp-address-family 1", 22, reply, 64, &wrote)) return 4;
    printf("%.0f ns a line\n", (now() - start) / (double)(count / 10) * 1e9);
    const long after = held();
    printf("after %ld calls: %ld KiB\n", count + count / 10, after);
    kx_free(host);
    return count > 10000 && after > before + 256 ? 5 : 0;
}
