/* A host in C: a guest's calls as lines, then by number. It serves itself on 127.0.0.1. */
#include "kaxtubor.h"
#include <stdio.h>
#include <string.h>

static kx_host *host;
static uint8_t memory[4096]; /* the guest's */
static kx_answer_t answer;

/* Does a line of a script and prints its reply. */
static void line(const char *text)
{
    char reply[256];
    size_t wrote;
    uint32_t status = kx_line(host, text, strlen(text), reply, sizeof reply, &wrote);
    printf("%s\n    %u %.*s", text, status, (int)wrote, reply);
    if (!wrote) puts("");
}

/* Makes a call, waits until it is done, and prints the case of its result. */
static uint32_t call(uint32_t op, size_t count, const uint64_t *args)
{
    kx_request request = {op, 0, 0, 1024, 1024};
    uint32_t status = kx_finish(host, &request, args, count, memory, sizeof memory, &answer);
    printf("call %u: status %u, case %u\n", op, status, memory[0]);
    return status;
}

int main(void)
{
    static const char rules[] = "allow tcp-connect 4 127 0 0 1 32 18090 18090\n"
                                "deny tcp-connect any 0 65535\nallow any any 0 65535\n";
    const kx_context contexts[] = {{KX_TCP, KX_NO_LIMIT}};
    kx_setup setup = {1, 0, 0, 0};
    uint32_t status = kx_open(&host, &setup, contexts, 1, rules, sizeof rules - 1, "", 0);
    if (status) return printf("open: %u, line %u\n", status, setup.bad_line), 1;
    line("0 network");
    line("0 tcp-create 4");
    line("0 tcp-start-bind 2 1 4 127 0 0 1 18090");
    line("0 tcp-finish-bind 2");
    line("0 tcp-start-listen 2");
    line("0 tcp-finish-listen 2");
    call(KX_CREATE_TCP_SOCKET, 2, (const uint64_t[]){0, 0}); /* handle 3 */
    call(KX_TCP_START_CONNECT, 15,
         (const uint64_t[]){3, 1, 0, 18090, 127, 0, 0, 1, 0, 0, 0, 0, 0, 0, 0});
    call(KX_TCP_FINISH_CONNECT, 2, (const uint64_t[]){3, 0}); /* 4 and 5 */
    call(KX_TCP_ACCEPT, 2, (const uint64_t[]){2, 0});         /* 6, 7 and 8 */
    memcpy(memory + 512, "hello", 5);
    call(KX_BLOCKING_WRITE_AND_FLUSH, 4, (const uint64_t[]){5, 512, 5, 0});
    call(KX_BLOCKING_READ, 3, (const uint64_t[]){7, 100, 0});
    printf("read: %.5s\n", memory + 1024);
    line("0 tcp-create 4");
    line("0 tcp-start-connect 9 1 4 127 0 0 1 22");
    line("0 tcp-finish-connect 9"); /* no rule allows it */
    kx_close(host);
    line("0 network");
    kx_free(host);
    return 0;
}
