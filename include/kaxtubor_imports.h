/* kaxtubor_imports.h: what a guest imports of wasi:sockets and wasi:io 0.2, by name.
 *
 * A runtime finds an import of a component's core module by kx_import_find, defines it with the
 * types that stand there, and makes it by kx_import_call. A program in C calls the function of that
 * name, such as kx_tcp_start_bind. Both take the import's arguments in the canonical ABI, in order,
 * and return a kx_status; what the import returns is guest->answer.value then.
 *
 * After KX_PENDING make the same call again, which polls it. After anything else but KX_OK end the
 * guest by a trap. Not in here is error.to-debug-string, whose text is the runtime's own. */
#ifndef KAXTUBOR_IMPORTS_H
#define KAXTUBOR_IMPORTS_H
#include "kaxtubor.h"
#include <string.h>
#ifdef __cplusplus
extern "C" {
#endif

/* What list an import gives. */
typedef enum {
    KX_NO_LIST,
    KX_LIST_OF_BYTES,     /* at most 65,536 bytes, and no more than were asked for */
    KX_LIST_OF_PLACES,    /* at most 4 bytes for each pollable */
    KX_LIST_OF_DATAGRAMS, /* one datagram at most, with its bytes */
    KX_LISTS
} kx_list;

typedef struct {
    const char *module; /* without its version */
    const char *name;
    uint32_t op;        /* its kx_op */
    uint32_t count;     /* how many parameters it has */
    const char *params; /* a letter each: i for i32, I for i64 */
    const char *result; /* "i", or "" where it returns nothing */
    kx_list list;
} kx_import;

/* A guest, as its imports see it. */
typedef struct kx_guest kx_guest;
struct kx_guest {
    kx_host *host;
    uint32_t context;
    bool waits;    /* whether each call waits until it is done, as kx_finish does */
    void *runtime; /* yours */
    /* The guest's memory: set both before each call, since it may have grown. */
    uint8_t *memory;
    size_t size;
    /* Calls the guest's cabi_realloc, and sets memory and size anew. */
    uint32_t (*cabi_realloc)(kx_guest *guest, uint32_t at, uint32_t old_len, uint32_t align,
                             uint32_t len);
    /* Room for each kind of list. Where cabi_realloc is null, set it yourself. */
    struct {
        uint32_t at, len;
    } room[KX_LISTS];
    uint32_t pending; /* the number of the call that is pending, or 0; after kx_cancel set 0 */
    kx_answer_t answer;
};

/* The imports, each with its interface, its name, its function, its call, its parameters, and what
 * it returns or what list it gives. A result that is more than one number goes to the place that
 * the last argument names. */
#define KX_IMPORTS(IT)                                                                            \
    IT(NETWORK, "[resource-drop]network", network_drop, DROP, i, void)                            \
    IT(NETWORK, "network-error-code", network_error_code, NETWORK_ERROR_CODE, ii, void)           \
    IT(INSTANCE, "instance-network", instance_network, INSTANCE_NETWORK, none, i32)               \
    IT(NEW_TCP, "create-tcp-socket", create_tcp_socket, CREATE_TCP_SOCKET, ii, void)              \
    IT(NEW_UDP, "create-udp-socket", create_udp_socket, CREATE_UDP_SOCKET, ii, void)              \
    IT(TCP, "[resource-drop]tcp-socket", tcp_drop, DROP, i, void)                                 \
    IT(TCP, "[method]tcp-socket.start-bind", tcp_start_bind, TCP_START_BIND, address, void)       \
    IT(TCP, "[method]tcp-socket.finish-bind", tcp_finish_bind, TCP_FINISH_BIND, ii, void)         \
    IT(TCP, "[method]tcp-socket.start-connect", tcp_start_connect, TCP_START_CONNECT, address,    \
       void)                                                                                      \
    IT(TCP, "[method]tcp-socket.finish-connect", tcp_finish_connect, TCP_FINISH_CONNECT, ii,      \
       void)                                                                                      \
    IT(TCP, "[method]tcp-socket.start-listen", tcp_start_listen, TCP_START_LISTEN, ii, void)      \
    IT(TCP, "[method]tcp-socket.finish-listen", tcp_finish_listen, TCP_FINISH_LISTEN, ii, void)   \
    IT(TCP, "[method]tcp-socket.accept", tcp_accept, TCP_ACCEPT, ii, void)                        \
    IT(TCP, "[method]tcp-socket.local-address", tcp_local_address, TCP_LOCAL_ADDRESS, ii, void)   \
    IT(TCP, "[method]tcp-socket.remote-address", tcp_remote_address, TCP_REMOTE_ADDRESS, ii,      \
       void)                                                                                      \
    IT(TCP, "[method]tcp-socket.is-listening", tcp_is_listening, TCP_IS_LISTENING, i, i32)        \
    IT(TCP, "[method]tcp-socket.address-family", tcp_address_family, TCP_ADDRESS_FAMILY, i, i32)  \
    IT(TCP, "[method]tcp-socket.shutdown", tcp_shutdown, TCP_SHUTDOWN, iii, void)                 \
    IT(TCP, "[method]tcp-socket.subscribe", tcp_subscribe, SUBSCRIBE, i, i32)                     \
    IT(TCP, "[method]tcp-socket.keep-alive-enabled", tcp_keep_alive_enabled,                      \
       TCP_KEEP_ALIVE_ENABLED, ii, void)                                                          \
    IT(TCP, "[method]tcp-socket.keep-alive-idle-time", tcp_keep_alive_idle_time,                  \
       TCP_KEEP_ALIVE_IDLE_TIME, ii, void)                                                        \
    IT(TCP, "[method]tcp-socket.keep-alive-interval", tcp_keep_alive_interval,                    \
       TCP_KEEP_ALIVE_INTERVAL, ii, void)                                                         \
    IT(TCP, "[method]tcp-socket.keep-alive-count", tcp_keep_alive_count, TCP_KEEP_ALIVE_COUNT,    \
       ii, void)                                                                                  \
    IT(TCP, "[method]tcp-socket.hop-limit", tcp_hop_limit, TCP_HOP_LIMIT, ii, void)               \
    IT(TCP, "[method]tcp-socket.receive-buffer-size", tcp_receive_buffer_size,                    \
       TCP_RECEIVE_BUFFER_SIZE, ii, void)                                                         \
    IT(TCP, "[method]tcp-socket.send-buffer-size", tcp_send_buffer_size, TCP_SEND_BUFFER_SIZE,    \
       ii, void)                                                                                  \
    IT(TCP, "[method]tcp-socket.set-keep-alive-enabled", tcp_set_keep_alive_enabled,              \
       TCP_SET_KEEP_ALIVE_ENABLED, iii, void)                                                     \
    IT(TCP, "[method]tcp-socket.set-keep-alive-idle-time", tcp_set_keep_alive_idle_time,          \
       TCP_SET_KEEP_ALIVE_IDLE_TIME, iIi, void)                                                   \
    IT(TCP, "[method]tcp-socket.set-keep-alive-interval", tcp_set_keep_alive_interval,            \
       TCP_SET_KEEP_ALIVE_INTERVAL, iIi, void)                                                    \
    IT(TCP, "[method]tcp-socket.set-keep-alive-count", tcp_set_keep_alive_count,                  \
       TCP_SET_KEEP_ALIVE_COUNT, iii, void)                                                       \
    IT(TCP, "[method]tcp-socket.set-hop-limit", tcp_set_hop_limit, TCP_SET_HOP_LIMIT, iii, void)  \
    IT(TCP, "[method]tcp-socket.set-receive-buffer-size", tcp_set_receive_buffer_size,            \
       TCP_SET_RECEIVE_BUFFER_SIZE, iIi, void)                                                    \
    IT(TCP, "[method]tcp-socket.set-send-buffer-size", tcp_set_send_buffer_size,                  \
       TCP_SET_SEND_BUFFER_SIZE, iIi, void)                                                       \
    IT(TCP, "[method]tcp-socket.set-listen-backlog-size", tcp_set_listen_backlog_size,            \
       TCP_SET_LISTEN_BACKLOG_SIZE, iIi, void)                                                    \
    IT(UDP, "[resource-drop]udp-socket", udp_drop, DROP, i, void)                                 \
    IT(UDP, "[method]udp-socket.start-bind", udp_start_bind, UDP_START_BIND, address, void)       \
    IT(UDP, "[method]udp-socket.finish-bind", udp_finish_bind, UDP_FINISH_BIND, ii, void)         \
    IT(UDP, "[method]udp-socket.stream", udp_stream, UDP_STREAM, address, void)                   \
    IT(UDP, "[method]udp-socket.local-address", udp_local_address, UDP_LOCAL_ADDRESS, ii, void)   \
    IT(UDP, "[method]udp-socket.remote-address", udp_remote_address, UDP_REMOTE_ADDRESS, ii,      \
       void)                                                                                      \
    IT(UDP, "[method]udp-socket.address-family", udp_address_family, UDP_ADDRESS_FAMILY, i, i32)  \
    IT(UDP, "[method]udp-socket.subscribe", udp_subscribe, SUBSCRIBE, i, i32)                     \
    IT(UDP, "[method]udp-socket.unicast-hop-limit", udp_unicast_hop_limit, UDP_UNICAST_HOP_LIMIT, \
       ii, void)                                                                                  \
    IT(UDP, "[method]udp-socket.receive-buffer-size", udp_receive_buffer_size,                    \
       UDP_RECEIVE_BUFFER_SIZE, ii, void)                                                         \
    IT(UDP, "[method]udp-socket.send-buffer-size", udp_send_buffer_size, UDP_SEND_BUFFER_SIZE,    \
       ii, void)                                                                                  \
    IT(UDP, "[method]udp-socket.set-unicast-hop-limit", udp_set_unicast_hop_limit,                \
       UDP_SET_UNICAST_HOP_LIMIT, iii, void)                                                      \
    IT(UDP, "[method]udp-socket.set-receive-buffer-size", udp_set_receive_buffer_size,            \
       UDP_SET_RECEIVE_BUFFER_SIZE, iIi, void)                                                    \
    IT(UDP, "[method]udp-socket.set-send-buffer-size", udp_set_send_buffer_size,                  \
       UDP_SET_SEND_BUFFER_SIZE, iIi, void)                                                       \
    IT(UDP, "[resource-drop]incoming-datagram-stream", incoming_drop, DROP, i, void)              \
    IT(UDP, "[method]incoming-datagram-stream.receive", incoming_receive, UDP_RECEIVE, iIi,       \
       datagrams)                                                                                 \
    IT(UDP, "[method]incoming-datagram-stream.subscribe", incoming_subscribe, SUBSCRIBE, i, i32)  \
    IT(UDP, "[resource-drop]outgoing-datagram-stream", outgoing_drop, DROP, i, void)              \
    IT(UDP, "[method]outgoing-datagram-stream.check-send", outgoing_check_send, UDP_CHECK_SEND,   \
       ii, void)                                                                                  \
    IT(UDP, "[method]outgoing-datagram-stream.send", outgoing_send, UDP_SEND, iiii, void)         \
    IT(UDP, "[method]outgoing-datagram-stream.subscribe", outgoing_subscribe, SUBSCRIBE, i, i32)  \
    IT(NAMES, "resolve-addresses", resolve_addresses, RESOLVE_ADDRESSES, iiii, void)              \
    IT(NAMES, "[resource-drop]resolve-address-stream", resolve_drop, DROP, i, void)               \
    IT(NAMES, "[method]resolve-address-stream.resolve-next-address", resolve_next_address,        \
       RESOLVE_NEXT_ADDRESS, ii, void)                                                            \
    IT(NAMES, "[method]resolve-address-stream.subscribe", resolve_subscribe, SUBSCRIBE, i, i32)   \
    IT(POLL, "poll", poll, POLL, iii, places)                                                     \
    IT(POLL, "[resource-drop]pollable", pollable_drop, DROP, i, void)                             \
    IT(POLL, "[method]pollable.ready", pollable_ready, READY, i, i32)                             \
    IT(POLL, "[method]pollable.block", pollable_block, BLOCK, i, void)                            \
    IT(ERROR, "[resource-drop]error", error_drop, DROP, i, void)                                  \
    IT(STREAMS, "[resource-drop]input-stream", input_drop, DROP, i, void)                         \
    IT(STREAMS, "[method]input-stream.read", input_read, READ, iIi, bytes)                        \
    IT(STREAMS, "[method]input-stream.blocking-read", input_blocking_read, BLOCKING_READ, iIi,    \
       bytes)                                                                                     \
    IT(STREAMS, "[method]input-stream.skip", input_skip, SKIP, iIi, void)                         \
    IT(STREAMS, "[method]input-stream.blocking-skip", input_blocking_skip, BLOCKING_SKIP, iIi,    \
       void)                                                                                      \
    IT(STREAMS, "[method]input-stream.subscribe", input_subscribe, SUBSCRIBE, i, i32)             \
    IT(STREAMS, "[resource-drop]output-stream", output_drop, DROP, i, void)                       \
    IT(STREAMS, "[method]output-stream.check-write", output_check_write, CHECK_WRITE, ii, void)   \
    IT(STREAMS, "[method]output-stream.write", output_write, WRITE, iiii, void)                   \
    IT(STREAMS, "[method]output-stream.blocking-write-and-flush",                                 \
       output_blocking_write_and_flush, BLOCKING_WRITE_AND_FLUSH, iiii, void)                     \
    IT(STREAMS, "[method]output-stream.flush", output_flush, FLUSH, ii, void)                     \
    IT(STREAMS, "[method]output-stream.blocking-flush", output_blocking_flush, BLOCKING_FLUSH,    \
       ii, void)                                                                                  \
    IT(STREAMS, "[method]output-stream.write-zeroes", output_write_zeroes, WRITE_ZEROES, iIi,     \
       void)                                                                                      \
    IT(STREAMS, "[method]output-stream.blocking-write-zeroes-and-flush",                          \
       output_blocking_write_zeroes_and_flush, BLOCKING_WRITE_ZEROES_AND_FLUSH, iIi, void)        \
    IT(STREAMS, "[method]output-stream.splice", output_splice, SPLICE, iiIi, void)                \
    IT(STREAMS, "[method]output-stream.blocking-splice", output_blocking_splice, BLOCKING_SPLICE, \
       iiIi, void)                                                                                \
    IT(STREAMS, "[method]output-stream.subscribe", output_subscribe, SUBSCRIBE, i, i32)

#define KX_IN_NETWORK "wasi:sockets/network"
#define KX_IN_INSTANCE "wasi:sockets/instance-network"
#define KX_IN_NEW_TCP "wasi:sockets/tcp-create-socket"
#define KX_IN_NEW_UDP "wasi:sockets/udp-create-socket"
#define KX_IN_TCP "wasi:sockets/tcp"
#define KX_IN_UDP "wasi:sockets/udp"
#define KX_IN_NAMES "wasi:sockets/ip-name-lookup"
#define KX_IN_POLL "wasi:io/poll"
#define KX_IN_ERROR "wasi:io/error"
#define KX_IN_STREAMS "wasi:io/streams"

/* Parameters: their letters, how a function takes them, and how it passes them on. An address is a
 * handle, and another or whether there is one, and the address's case and eleven numbers, and the
 * place for the result. */
#define KX_LETTERS_none ""
#define KX_LETTERS_i "i"
#define KX_LETTERS_ii "ii"
#define KX_LETTERS_iii "iii"
#define KX_LETTERS_iIi "iIi"
#define KX_LETTERS_iiii "iiii"
#define KX_LETTERS_iiIi "iiIi"
#define KX_LETTERS_address "iiiiiiiiiiiiiii"
#define KX_TAKES_none
#define KX_TAKES_i , uint32_t a
#define KX_TAKES_ii , uint32_t a, uint32_t b
#define KX_TAKES_iii , uint32_t a, uint32_t b, uint32_t c
#define KX_TAKES_iIi , uint32_t a, uint64_t b, uint32_t c
#define KX_TAKES_iiii , uint32_t a, uint32_t b, uint32_t c, uint32_t d
#define KX_TAKES_iiIi , uint32_t a, uint32_t b, uint64_t c, uint32_t d
#define KX_TAKES_address                                                                          \
    , uint32_t a, uint32_t b, uint32_t c, uint32_t d, uint32_t e, uint32_t f, uint32_t g,         \
        uint32_t h, uint32_t i, uint32_t j, uint32_t k, uint32_t l, uint32_t m, uint32_t n,       \
        uint32_t o
#define KX_GIVES_none 0
#define KX_GIVES_i a
#define KX_GIVES_ii a, b
#define KX_GIVES_iii a, b, c
#define KX_GIVES_iIi a, b, c
#define KX_GIVES_iiii a, b, c, d
#define KX_GIVES_iiIi a, b, c, d
#define KX_GIVES_address a, b, c, d, e, f, g, h, i, j, k, l, m, n, o

/* Results. */
#define KX_RESULT_void ""
#define KX_RESULT_i32 "i"
#define KX_RESULT_bytes ""
#define KX_RESULT_places ""
#define KX_RESULT_datagrams ""
#define KX_LIST_void KX_NO_LIST
#define KX_LIST_i32 KX_NO_LIST
#define KX_LIST_bytes KX_LIST_OF_BYTES
#define KX_LIST_places KX_LIST_OF_PLACES
#define KX_LIST_datagrams KX_LIST_OF_DATAGRAMS

#define KX_ROW(in, name, function, op, params, result)                                            \
    {KX_IN_##in, name, KX_##op, sizeof KX_LETTERS_##params - 1, KX_LETTERS_##params,              \
     KX_RESULT_##result, KX_LIST_##result},
static const kx_import kx_imports[] = {KX_IMPORTS(KX_ROW)};
enum { KX_IMPORT_COUNT = sizeof kx_imports / sizeof *kx_imports };

/* Whether a module's name is this one at a version 0.2.x: each of them stands for the others. */
static inline bool kx_import_is_in(const char *module, const char *wanted)
{
    const size_t len = strlen(wanted);
    if (strncmp(module, wanted, len) || strncmp(module + len, "@0.2.", 5)) return false;
    module += len + 5;
    return *module && !module[strspn(module, "0123456789")];
}

/* The import of a name, such as "wasi:sockets/tcp@0.2.0" and "[method]tcp-socket.start-bind"; null
 * where there is none. */
static inline const kx_import *kx_import_find(const char *module, const char *name)
{
    for (size_t k = 0; module && name && k < KX_IMPORT_COUNT; k++)
        if (!strcmp(name, kx_imports[k].name) && kx_import_is_in(module, kx_imports[k].module))
            return &kx_imports[k];
    return NULL;
}

static inline uint32_t kx_word_at(const kx_guest *guest, uint32_t at)
{
    const uint8_t *b = guest->memory + at;
    return b[0] | (uint32_t)b[1] << 8 | (uint32_t)b[2] << 16 | (uint32_t)b[3] << 24;
}

static inline void kx_set_word(kx_guest *guest, uint32_t at, uint32_t word)
{
    for (uint32_t k = 0; k < 4; k++) guest->memory[at + k] = (uint8_t)(word >> 8 * k);
}

static inline bool kx_lies_within(const kx_guest *guest, uint32_t at, uint32_t len)
{
    return at <= guest->size && len <= guest->size - at;
}

/* Gets room for the list that a call gives, or takes what an earlier call left unused. */
static inline uint32_t kx_get_room(kx_guest *guest, kx_list list, const uint64_t *args)
{
    const uint32_t at = guest->room[list].at, old_len = guest->room[list].len;
    uint64_t len = 65576;
    if (list == KX_NO_LIST || !guest->cabi_realloc) return KX_OK;
    if (list == KX_LIST_OF_BYTES) len = args[1] < 65536 ? args[1] : 65536;
    if (list == KX_LIST_OF_PLACES) len = args[1] < UINT32_MAX / 4 ? args[1] * 4 : UINT32_MAX;
    if (list == KX_LIST_OF_PLACES && len > guest->size) return KX_BOUNDS;
    if (!len) len = 1;
    if (len <= old_len) return KX_OK;
    guest->room[list].at = guest->cabi_realloc(guest, at, old_len,
                                               list == KX_LIST_OF_BYTES ? 1 : 4, (uint32_t)len);
    guest->room[list].len = (uint32_t)len;
    return KX_OK;
}

/* Gives the bytes of a datagram a place of their own, since the guest frees them by themselves. */
static inline uint32_t kx_move_bytes(kx_guest *guest, uint32_t at)
{
    const uint32_t len = kx_word_at(guest, at + 4);
    uint32_t to = at + 40;
    if (len > 65536) return KX_BOUNDS;
    if (len) to = guest->cabi_realloc(guest, 0, 0, 1, len);
    if (!kx_lies_within(guest, to, len) || !kx_lies_within(guest, at, 40 + len)) return KX_BOUNDS;
    memmove(guest->memory + to, guest->memory + at + 40, len);
    kx_set_word(guest, at, to);
    return KX_OK;
}

/* Leaves to the guest what the list that a call gave takes of its room. For an empty one that is
 * nothing, and the room stays. */
static inline uint32_t kx_leave_room(kx_guest *guest, kx_list list, uint32_t result)
{
    const uint32_t sizes[KX_LISTS] = {0, 1, 4, 40}, aligns[KX_LISTS] = {0, 1, 4, 4};
    const uint32_t place = list == KX_LIST_OF_PLACES ? result : result + 4;
    const uint32_t at = guest->room[list].at, len = guest->room[list].len;
    uint32_t used, to = at;
    if (list == KX_NO_LIST || !guest->cabi_realloc) return KX_OK;
    if (list != KX_LIST_OF_PLACES && guest->memory[result]) return KX_OK; /* an error */
    used = kx_word_at(guest, place + 4) * sizes[list];
    if (used && list == KX_LIST_OF_DATAGRAMS && kx_move_bytes(guest, at)) return KX_BOUNDS;
    if (!used) to = guest->cabi_realloc(guest, 0, 0, aligns[list], 0);
    else if (used < len) to = guest->cabi_realloc(guest, at, len, aligns[list], used);
    if (!kx_lies_within(guest, place, 8)) return KX_BOUNDS;
    kx_set_word(guest, place, to);
    if (used) guest->room[list].at = guest->room[list].len = 0;
    return KX_OK;
}

/* Makes a call of a guest, or polls the one that is pending. */
static inline uint32_t kx_guest_call(kx_guest *guest, uint32_t op, const uint64_t *args,
                                     size_t count, kx_list list)
{
    uint32_t status = guest ? kx_get_room(guest, list, args) : (uint32_t)KX_NULL;
    if (status) return status;
    const kx_request request = {op, guest->context, guest->pending, guest->room[list].at,
                                guest->room[list].len};
    status = (guest->waits ? kx_finish : kx_call)(guest->host, &request, args, count,
                                                  guest->memory, guest->size, &guest->answer);
    guest->pending = status == KX_PENDING ? guest->answer.call : 0;
    return status || !list ? status : kx_leave_room(guest, list, (uint32_t)args[count - 1]);
}

/* Makes the call of an import. An argument that is an i32 is passed without its sign. */
static inline uint32_t kx_import_call(kx_guest *guest, const kx_import *import,
                                      const uint64_t *args)
{
    if (!import || (!args && import->count)) return KX_NULL;
    return kx_guest_call(guest, import->op, args, import->count, import->list);
}

#define KX_FUNCTION(in, name, function, op, params, result)                                       \
    static inline uint32_t kx_##function(kx_guest *guest KX_TAKES_##params)                       \
    {                                                                                             \
        const uint64_t args[] = {KX_GIVES_##params};                                              \
        return kx_guest_call(guest, KX_##op, args, sizeof KX_LETTERS_##params - 1,                \
                             KX_LIST_##result);                                                   \
    }
KX_IMPORTS(KX_FUNCTION)

#ifdef __cplusplus
}
#endif
#endif
