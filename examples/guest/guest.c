/* A wasm guest: HTTP over wasi:sockets 0.2, by the names of its imports. */
#include <stddef.h>
#include <stdint.h>
#include <stdlib.h>
#include <string.h>

#define IMPORT(module, name) __attribute__((import_module(module), import_name(name)))
#define EXPORT(name) __attribute__((export_name(name)))
#define TCP "wasi:sockets/tcp@0.2.0"
#define STREAMS "wasi:io/streams@0.2.0"
#define POLL "wasi:io/poll@0.2.0"

IMPORT("wasi:sockets/instance-network@0.2.0", "instance-network") int32_t instance_network(void);
IMPORT("wasi:sockets/tcp-create-socket@0.2.0", "create-tcp-socket")
void create_tcp_socket(int32_t family, void *result);
IMPORT(TCP, "[method]tcp-socket.start-connect")
void start_connect(int32_t self, int32_t network, int32_t tag, int32_t p0, int32_t p1, int32_t p2,
                   int32_t p3, int32_t p4, int32_t p5, int32_t p6, int32_t p7, int32_t p8,
                   int32_t p9, int32_t p10, void *result);
IMPORT(TCP, "[method]tcp-socket.finish-connect") void finish_connect(int32_t self, void *result);
IMPORT(TCP, "[method]tcp-socket.subscribe") int32_t tcp_subscribe(int32_t self);
IMPORT(TCP, "[method]tcp-socket.address-family") int32_t address_family(int32_t self);
IMPORT(TCP, "[resource-drop]tcp-socket") void tcp_drop(int32_t self);
IMPORT(POLL, "[method]pollable.block") void pollable_block(int32_t self);
IMPORT(POLL, "[resource-drop]pollable") void pollable_drop(int32_t self);
IMPORT(STREAMS, "[method]output-stream.blocking-write-and-flush")
void blocking_write(int32_t self, const void *at, size_t len, void *result);
IMPORT(STREAMS, "[method]input-stream.blocking-read")
void blocking_read(int32_t self, int64_t len, void *result);
IMPORT(STREAMS, "[resource-drop]input-stream") void input_drop(int32_t self);
IMPORT(STREAMS, "[resource-drop]output-stream") void output_drop(int32_t self);

EXPORT("cabi_realloc") void *cabi_realloc(void *at, size_t old, size_t align, size_t len)
{
    (void)old, (void)align;
    return realloc(at, len);
}

typedef struct {
    uint8_t is_err;
    union {
        int32_t handles[2];
        uint8_t code;
        struct {
            uint8_t *at;
            size_t len;
        } list;
    };
} result_t;

static uint8_t page[1 << 16];
static size_t page_len;
static int32_t code;

EXPORT("page") uint8_t *page_at(void) { return page; }
EXPORT("page-len") size_t page_length(void) { return page_len; }

/* Connects to a port of this machine; the error-code is kept where it fails. */
static int connect_to(int32_t port, int32_t *socket, int32_t *input, int32_t *output)
{
    result_t r;
    int32_t network = instance_network(), pollable;
    create_tcp_socket(0, &r);
    if (r.is_err) return code = r.code, 0;
    *socket = r.handles[0];
    memset(&r, 0, sizeof r);
    start_connect(*socket, network, 0, port, 127, 0, 0, 1, 0, 0, 0, 0, 0, 0, &r);
    if (r.is_err) return code = ((uint8_t *)&r)[1], tcp_drop(*socket), 0;
    pollable = tcp_subscribe(*socket);
    for (;;) {
        finish_connect(*socket, &r);
        if (!r.is_err || r.code != 8) break;
        pollable_block(pollable);
    }
    pollable_drop(pollable);
    if (r.is_err) return code = r.code, tcp_drop(*socket), 0;
    *input = r.handles[0], *output = r.handles[1];
    return 1;
}

/* Gets a page; 0, or 1 + the error-code of the connect. */
EXPORT("get") int32_t get(int32_t port)
{
    static const char request[] = "GET / HTTP/1.0\r\nHost: localhost\r\n\r\n";
    int32_t socket, input, output;
    result_t r;
    if (!connect_to(port, &socket, &input, &output)) return 1 + code;
    blocking_write(output, request, sizeof request - 1, &r);
    for (page_len = 0;;) {
        blocking_read(input, 65536, &r);
        if (r.is_err) break;
        if (page_len + r.list.len > sizeof page) break;
        memcpy(page + page_len, r.list.at, r.list.len);
        page_len += r.list.len;
        free(r.list.at);
    }
    input_drop(input), output_drop(output), tcp_drop(socket);
    return 0;
}

/* Reads all that comes; how many bytes that was. */
EXPORT("drain") int64_t drain(int32_t port)
{
    int32_t socket, input, output;
    int64_t got = 0;
    result_t r;
    if (!connect_to(port, &socket, &input, &output)) return -1;
    for (;;) {
        blocking_read(input, 65536, &r);
        if (r.is_err) break;
        got += r.list.len;
        free(r.list.at);
    }
    input_drop(input), output_drop(output), tcp_drop(socket);
    return got;
}

/* Makes so many calls that ask nothing of the network. */
EXPORT("spin") int32_t spin(int32_t count)
{
    result_t r;
    int32_t sum = 0;
    create_tcp_socket(0, &r);
    for (int32_t k = 0; k < count; k++) sum += address_family(r.handles[0]);
    tcp_drop(r.handles[0]);
    return sum;
}
