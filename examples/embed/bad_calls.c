/* Bad calls: each has its code, and none does anything. */
#include "kaxtubor.h"
#include <stdio.h>
#include <stdlib.h>
#include <string.h>

static int failed;

#define IS(call, wanted)                                                                      \
    do {                                                                                      \
        uint32_t got = (call);                                                                \
        if (got != (wanted)) {                                                                \
            printf("line %d: %s is %u, not %u\n", __LINE__, #call, got, (uint32_t)(wanted));  \
            failed = 1;                                                                       \
        }                                                                                     \
    } while (0)

static const kx_context contexts[] = {{KX_TCP | KX_UDP | KX_NAMES, KX_NO_LIMIT}};
static kx_host *host;
static char text[512];
static size_t wrote;
static uint8_t *memory;
static kx_answer_t answer;

static uint32_t open_with(const char *rules, uint32_t keep_log, uint32_t most_asks)
{
    kx_setup setup = {keep_log, 0, most_asks, 0};
    return kx_open(&host, &setup, contexts, 1, rules, strlen(rules), NULL, 0);
}

static uint32_t line(const char *words)
{
    return kx_line(host, words, strlen(words), text, sizeof text, &wrote);
}

static uint32_t call(uint32_t op, const uint64_t *args, size_t count)
{
    const kx_request request = {op, 0, 0, 0, 64};
    return kx_call(host, &request, args, count, memory, 256, &answer);
}

#define ARGS(...) (const uint64_t[]){__VA_ARGS__}, sizeof((const uint64_t[]){__VA_ARGS__}) / 8

static void texts(void)
{
    kx_setup setup = {0, 0, 0, 0};
    IS(kx_open(NULL, &setup, contexts, 1, "", 0, "", 0), KX_NULL);
    IS(kx_open(&host, NULL, contexts, 1, "", 0, "", 0), KX_NULL);
    IS(kx_open(&host, &setup, NULL, 1, "", 0, "", 0), KX_NULL);
    IS(kx_open(&host, &setup, contexts, 1, NULL, 1, "", 0), KX_NULL);
    IS(kx_open(&host, &setup, contexts, (size_t)1 << 63, "", 0, "", 0), KX_RANGE);
    IS(kx_open(&host, &setup, contexts, 1, "", (size_t)1 << 63, "", 0), KX_RANGE);
    IS(kx_open(&host, &setup, contexts, 1, "nonsense\n", 9, "", 0), KX_RULES);
    IS(setup.bad_line, 1);
    IS(kx_open(&host, &setup, contexts, 1, "", 0, "127.0.0.1 \xff\n", 12), KX_TEXT);
    IS(kx_open(&host, &setup, NULL, 0, NULL, 0, NULL, 0), KX_OK);
    IS(kx_line(host, "0 network", 9, text, sizeof text, &wrote), KX_LINE);
    kx_free(host);
}

static void lines(void)
{
    IS(open_with("", 0, 0), KX_OK);
    IS(kx_line(NULL, "turn", 4, text, 9, &wrote), KX_NULL);
    IS(kx_line(host, NULL, 4, text, 9, &wrote), KX_NULL);
    IS(kx_line(host, "turn", 4, NULL, 9, &wrote), KX_NULL);
    IS(kx_line(host, "turn", 4, text, 9, NULL), KX_NULL);
    IS(kx_line(host, "turn", (size_t)1 << 63, text, 9, &wrote), KX_RANGE);
    IS(kx_line(host, "turn", 4, text, (size_t)1 << 63, &wrote), KX_RANGE);
    IS(line("\xff\xfe"), KX_LINE);
    IS(line("1 network"), KX_LINE);
    IS(line("0 network 1"), KX_LINE);
    IS(line(""), KX_LINE);
    IS(kx_line(host, NULL, 0, NULL, 0, &wrote), KX_LINE);
    IS(kx_line(host, "0 network", 9, text, 2, &wrote), KX_ROOM);
    IS(wrote, 5);
    IS(kx_reply(host, text, 4, &wrote), KX_ROOM);
    IS(kx_reply(host, text, sizeof text, &wrote), KX_OK);
    IS(memcmp(text, "ok 1\n", 5), 0);
    IS(line("poll 3"), KX_OK);
    IS(memcmp(text, "no-such-call\n", 13), 0);
    IS(line("0 drop 77"), KX_OK);
    IS(memcmp(text, "trap no-such-handle\n", 20), 0);
    IS(line("0 network"), KX_OVER);
    IS(kx_turn(host), KX_OVER);
    kx_free(host);
}

static void calls(void)
{
    const kx_request outside = {KX_READ, 0, 0, 200, 100};
    const kx_request far = {KX_READ, 0, 0, UINT32_MAX, UINT32_MAX};
    const kx_request nobody = {KX_INSTANCE_NETWORK, 7, 0, 0, 0};
    const kx_request poll7 = {KX_TCP_FINISH_BIND, 0, 7, 0, 0};
    IS(open_with("", 0, 0), KX_OK);
    IS(kx_call(host, NULL, NULL, 0, memory, 256, &answer), KX_NULL);
    IS(kx_call(host, &nobody, NULL, 1, memory, 256, &answer), KX_NULL);
    IS(kx_call(host, &nobody, NULL, 0, NULL, 256, &answer), KX_NULL);
    IS(kx_call(host, &nobody, NULL, 0, memory, 256, NULL), KX_NULL);
    IS(kx_call(host, &nobody, NULL, 0, memory, (size_t)1 << 63, &answer), KX_RANGE);
    IS(kx_call(host, &nobody, NULL, 0, NULL, 0, &answer), KX_CONTEXT);
    IS(call(7, NULL, 0), KX_ARGUMENT);
    IS(call(UINT32_MAX, NULL, 0), KX_ARGUMENT);
    IS(call(KX_CREATE_TCP_SOCKET, ARGS(0)), KX_ARGUMENT);
    IS(call(KX_CREATE_TCP_SOCKET, ARGS(2, 0)), KX_ARGUMENT);
    IS(call(KX_CREATE_TCP_SOCKET, ARGS(0, 249)), KX_BOUNDS);
    IS(call(KX_CREATE_TCP_SOCKET, ARGS(0, UINT32_MAX)), KX_BOUNDS);
    IS(call(KX_CREATE_TCP_SOCKET, ARGS(0, (uint64_t)1 << 63)), KX_ARGUMENT);
    IS(kx_call(host, &outside, ARGS(1, 1, 0), memory, 256, &answer), KX_BOUNDS);
    IS(kx_call(host, &far, ARGS(1, 1, 0), memory, 256, &answer), KX_BOUNDS);
    IS(call(KX_WRITE, ARGS(1, 255, 2, 0)), KX_BOUNDS);
    IS(call(KX_WRITE, ARGS(1, UINT32_MAX, UINT32_MAX, 0)), KX_BOUNDS);
    IS(call(KX_UDP_RECEIVE, ARGS(1, 1, 0)), KX_ROOM);
    IS(call(KX_UDP_SEND, ARGS(1, 0, UINT32_MAX, 0)), KX_BOUNDS);
    IS(call(KX_POLL, ARGS(0, 17, 0)), KX_ROOM);
    IS(call(KX_POLL, ARGS(0, UINT32_MAX, 0)), KX_ROOM);
    IS(kx_call(host, &poll7, ARGS(1, 0), memory, 256, &answer), KX_NO_CALL);
    IS(kx_cancel(host, 7, &answer), KX_NO_CALL);
    IS(kx_cancel(host, 7, NULL), KX_NULL);
    memory[100] = 0xff;
    IS(call(KX_RESOLVE_ADDRESSES, ARGS(1, 100, 1, 0)), KX_ARGUMENT);
    IS(call(KX_INSTANCE_NETWORK, NULL, 0), KX_OK);
    IS(call(KX_CREATE_TCP_SOCKET, ARGS(0, 248)), KX_OK);
    IS(call(KX_READ, ARGS(77, (uint64_t)1 << 63, 0)), KX_TRAP);
    IS(call(KX_INSTANCE_NETWORK, NULL, 0), KX_OVER);
    kx_free(host);
}

static void asks(void)
{
    kx_ask ask;
    struct pollfd fds[2];
    size_t count;
    IS(open_with("", 0, 1), KX_OK);
    IS(kx_asked(host, 0, &ask), KX_NO_ASK);
    IS(kx_asked(host, 0, NULL), KX_NULL);
    IS(kx_answer(host, 1, true), KX_NO_ASK);
    IS(line("0 network"), KX_OK);
    IS(line("0 tcp-create 4"), KX_OK);
    IS(line("0 tcp-start-bind 2 1 4 127 0 0 1 0"), KX_OK);
    IS(memcmp(text, "pending 3\n", 10), 0);
    IS(kx_asked(host, 0, &ask), KX_OK);
    IS(ask.port == 0 && ask.use == 0 && ask.family == 4 && ask.address[0] == 127, 1);
    IS(kx_asked(host, ask.number, &ask), KX_NO_ASK);
    IS(kx_answer(host, 2, true), KX_NO_ASK);
    IS(line("poll 3"), KX_OK);
    IS(memcmp(text, "pending 3\n", 10), 0);
    IS(kx_answer(host, ask.number, false), KX_OK);
    IS(kx_answer(host, ask.number, true), KX_NO_ASK);
    IS(line("poll 3"), KX_OK);
    IS(memcmp(text, "err access-denied\n", 18), 0);
    IS(kx_waits(host, NULL, 1, &count), KX_NULL);
    IS(kx_waits(host, fds, (size_t)1 << 63, &count), KX_RANGE);
    IS(kx_waits(host, fds, 2, &count), KX_OK);
    kx_free(host);
}

/* A context is kept as it was given: a log begins with a line for each. */
static void limits(void)
{
    static const char wanted[] = "context yes no no 100\ncontext no yes yes 18446744073709551615\n";
    const kx_context two[] = {{KX_TCP, 100}, {KX_UDP | KX_NAMES, KX_NO_LIMIT}};
    kx_setup setup = {1, 0, 0, 0};
    IS(kx_open(&host, &setup, two, 2, "", 0, NULL, 0), KX_OK);
    IS(kx_log(host, text, sizeof text, &wrote), KX_OK);
    IS(wrote, sizeof wanted - 1);
    IS(memcmp(text, wanted, sizeof wanted - 1), 0);
    kx_free(host);
}

static void closed(void)
{
    kx_ask ask;
    size_t count;
    IS(open_with("allow tcp-bind any 0 65535\n", 1, 0), KX_OK);
    IS(line("0 network"), KX_OK);
    IS(line("0 tcp-create 4"), KX_OK);
    IS(kx_log(host, NULL, 1, &wrote), KX_NULL);
    IS(kx_log(host, text, (size_t)1 << 63, &wrote), KX_RANGE);
    IS(kx_log(host, text, 8, &wrote), KX_OK);
    IS(memcmp(text, "context ", 8), 0);
    IS(kx_close(host), KX_OK);
    IS(kx_close(host), KX_CLOSED);
    IS(line("0 network"), KX_CLOSED);
    IS(call(KX_INSTANCE_NETWORK, NULL, 0), KX_CLOSED);
    IS(kx_turn(host), KX_CLOSED);
    IS(kx_cancel(host, 1, &answer), KX_CLOSED);
    IS(kx_asked(host, 0, &ask), KX_CLOSED);
    IS(kx_answer(host, 1, true), KX_CLOSED);
    IS(kx_waits(host, NULL, 0, &count), KX_OK);
    IS(count, 0);
    kx_free(host);
    kx_free(NULL);
    IS(kx_close(NULL), KX_NULL);
}

int main(void)
{
    memory = calloc(1, 256);
    if (!memory) return 1;
    texts();
    lines();
    calls();
    asks();
    limits();
    closed();
    free(memory);
    puts(failed ? "bad calls: failed" : "bad calls: each has its code");
    return failed;
}
