/* kaxtubor.h: a proved host of wasi:sockets 0.2 for programs in C and C++.
 *
 * A host owns a guest's sockets, streams and pollables, and asks rules, or you, before an address
 * is used. Use it from one thread at a time. Each function returns a kx_status; where that says
 * so, nothing was done. What can't be tested: a host's pointer must be one that kx_open gave and
 * kx_free didn't take, and pointers must point to as much memory as their lengths say.
 *
 * Other languages link the functions kx_raw_*, and make the tests that stand below themselves:
 * no pointer is null, and no length is over KX_MOST. */
#ifndef KAXTUBOR_H
#define KAXTUBOR_H
#include <poll.h>
#include <stdbool.h>
#include <stddef.h>
#include <stdint.h>
#ifdef __cplusplus
extern "C" {
#endif

typedef struct kx_host kx_host;

typedef enum {
    KX_OK,        /* done */
    KX_PENDING,   /* the guest waits: poll the call by its number */
    KX_TRAP,      /* the guest broke a rule: end it */
    KX_BUSY,      /* another call of the guest is pending */
    KX_NO_CALL,   /* no call is pending under this number */
    KX_OVER,      /* after a trap or out of memory: nothing was done */
    KX_TOO_MANY,  /* after 4,294,967,295 calls: nothing was done */
    KX_CONTEXT,   /* no such context: nothing was done */
    KX_MEMORY,    /* memory ran out */
    KX_CLOSED,    /* after kx_close: nothing was done */
    KX_TEXT,      /* not UTF-8: nothing was done */
    KX_LINE,      /* no step: nothing was done */
    KX_ROOM,      /* a buffer is too small */
    KX_BOUNDS,    /* not within the guest's memory: nothing was done */
    KX_ARGUMENT,  /* no such call, or an argument is missing or too great: nothing was done */
    KX_RULES,     /* a line of the rules is wrong, see bad_line: nothing was done */
    KX_MISFIT,    /* a poll under another call's number: its result is lost */
    KX_NO_ASK,    /* no check waits for an answer, or none of this number */
    KX_NULL,      /* a pointer is null: nothing was done */
    KX_RANGE      /* a length is over KX_MOST: nothing was done */
} kx_status;

#define KX_MOST ((size_t)-1 / 2)

typedef struct {
    uint32_t keep_log;  /* 1: the log is kept, which takes memory for each call of the network */
    uint32_t anywhere;  /* 1: every address; 0: this machine's own alone */
    uint32_t most_asks; /* how many checks wait for you at most; 0: you aren't asked */
    uint32_t bad_line;  /* of KX_RULES, the line */
} kx_setup;

enum { KX_TCP = 1, KX_UDP = 2, KX_NAMES = 4 };

#define KX_NO_LIMIT UINT64_MAX

/* A context; its place in the list is its number. */
typedef struct {
    uint32_t may;         /* what it may use: KX_TCP, KX_UDP, KX_NAMES, or their sum */
    uint64_t write_limit; /* how many bytes its 0.2 TCP writers may hold together, as permits and
                             as bytes that aren't written yet; or KX_NO_LIMIT */
} kx_context;

typedef struct {
    uint32_t op;      /* one of kx_op */
    uint32_t context;
    uint32_t pending; /* the number of a pending call that is polled, or 0 */
    uint32_t place;   /* where a list that the call gives may lie in the guest's memory .. */
    uint32_t room;    /* .. and how many bytes it may have: get them by cabi_realloc before */
} kx_request;

typedef struct {
    uint32_t status;
    uint32_t code;  /* of a trap its kind, of an error its error-code */
    uint32_t call;  /* of KX_PENDING, the call's number */
    uint32_t spare;
    uint64_t value; /* what the call returns, where it has no place for its result */
} kx_answer_t;

typedef struct {
    uint64_t number;
    uint32_t context;
    uint32_t use;    /* 0 TCP bind, 1 listen, 2 accept, 3 connect, 4 UDP bind, 5 send, 6 receive */
    uint32_t family; /* 4 or 6 */
    uint32_t port;
    uint8_t address[16]; /* in network order */
} kx_ask;

/* The calls, by the names of the interface. The arguments of each are those of its import in the
 * canonical ABI, in order, the place for its result last; KX_SUBSCRIBE and KX_DROP serve every
 * resource. kaxtubor_imports.h has the imports by name. */
typedef enum {
    KX_INSTANCE_NETWORK,
    KX_CREATE_TCP_SOCKET,
    KX_CREATE_UDP_SOCKET,
    KX_TCP_START_BIND = 10,
    KX_TCP_FINISH_BIND,
    KX_TCP_START_CONNECT,
    KX_TCP_FINISH_CONNECT,
    KX_TCP_START_LISTEN,
    KX_TCP_FINISH_LISTEN,
    KX_TCP_ACCEPT,
    KX_TCP_LOCAL_ADDRESS,
    KX_TCP_REMOTE_ADDRESS,
    KX_TCP_IS_LISTENING,
    KX_TCP_ADDRESS_FAMILY,
    KX_TCP_SHUTDOWN,
    KX_TCP_KEEP_ALIVE_ENABLED = 30,
    KX_TCP_KEEP_ALIVE_IDLE_TIME,
    KX_TCP_KEEP_ALIVE_INTERVAL,
    KX_TCP_KEEP_ALIVE_COUNT,
    KX_TCP_HOP_LIMIT,
    KX_TCP_RECEIVE_BUFFER_SIZE,
    KX_TCP_SEND_BUFFER_SIZE,
    KX_TCP_SET_KEEP_ALIVE_ENABLED = 40,
    KX_TCP_SET_KEEP_ALIVE_IDLE_TIME,
    KX_TCP_SET_KEEP_ALIVE_INTERVAL,
    KX_TCP_SET_KEEP_ALIVE_COUNT,
    KX_TCP_SET_HOP_LIMIT,
    KX_TCP_SET_RECEIVE_BUFFER_SIZE,
    KX_TCP_SET_SEND_BUFFER_SIZE,
    KX_TCP_SET_LISTEN_BACKLOG_SIZE,
    KX_UDP_START_BIND = 50,
    KX_UDP_FINISH_BIND,
    KX_UDP_STREAM,
    KX_UDP_LOCAL_ADDRESS,
    KX_UDP_REMOTE_ADDRESS,
    KX_UDP_ADDRESS_FAMILY,
    KX_UDP_RECEIVE, /* gives a datagram at most, its bytes behind it; room: 65,576 bytes at least */
    KX_UDP_CHECK_SEND,
    KX_UDP_SEND,
    KX_UDP_UNICAST_HOP_LIMIT = 60,
    KX_UDP_RECEIVE_BUFFER_SIZE,
    KX_UDP_SEND_BUFFER_SIZE,
    KX_UDP_SET_UNICAST_HOP_LIMIT = 65,
    KX_UDP_SET_RECEIVE_BUFFER_SIZE,
    KX_UDP_SET_SEND_BUFFER_SIZE,
    KX_RESOLVE_ADDRESSES = 70,
    KX_RESOLVE_NEXT_ADDRESS,
    KX_SUBSCRIBE = 80,
    KX_READY,
    KX_BLOCK,
    KX_POLL, /* its room is at least 4 bytes a pollable */
    KX_DROP,
    KX_NETWORK_ERROR_CODE,
    KX_READ = 90, /* gives no more bytes than there is room for */
    KX_BLOCKING_READ,
    KX_SKIP,
    KX_BLOCKING_SKIP,
    KX_CHECK_WRITE,
    KX_WRITE,
    KX_BLOCKING_WRITE_AND_FLUSH,
    KX_FLUSH,
    KX_BLOCKING_FLUSH,
    KX_WRITE_ZEROES,
    KX_BLOCKING_WRITE_ZEROES_AND_FLUSH,
    KX_SPLICE,
    KX_BLOCKING_SPLICE
} kx_op;

uint32_t kx_raw_open(kx_host **out, kx_setup *setup, const kx_context *contexts, size_t count,
                     const uint8_t *rules, size_t rules_len, const uint8_t *hosts,
                     size_t hosts_len);
uint32_t kx_raw_close(kx_host *host);
void kx_raw_free(kx_host *host);
uint32_t kx_raw_line(kx_host *host, const uint8_t *line, size_t len, uint8_t *out, size_t cap,
                     size_t *wrote);
uint32_t kx_raw_reply(kx_host *host, uint8_t *out, size_t cap, size_t *wrote);
uint32_t kx_raw_call(kx_host *host, const kx_request *request, const uint64_t *args, size_t count,
                     uint8_t *memory, size_t size, kx_answer_t *answer);
uint32_t kx_raw_turn(kx_host *host);
uint32_t kx_raw_cancel(kx_host *host, uint32_t call, kx_answer_t *answer);
uint32_t kx_raw_waits(kx_host *host, struct pollfd *fds, size_t cap, size_t *count);
uint32_t kx_raw_asked(kx_host *host, uint64_t after, kx_ask *ask);
uint32_t kx_raw_answer(kx_host *host, uint64_t number, bool yes);
uint32_t kx_raw_log(kx_host *host, uint8_t *out, size_t cap, size_t *wrote);

/* Whether a pointer with a length may be passed on: none is null, but for an empty one. */
static inline uint32_t kx_tested(const void *at, size_t len)
{
    if (len > KX_MOST) return KX_RANGE;
    return at || !len ? KX_OK : KX_NULL;
}

static inline const uint8_t *kx_there(const void *at)
{
    return at ? (const uint8_t *)at : (const uint8_t *)"";
}

/* Opens a host. A check goes by the first of the rules that matches; where none does, it waits for
 * kx_answer, or is told no. Names are looked up in hosts, a text as /etc/hosts. */
static inline uint32_t kx_open(kx_host **out, kx_setup *setup, const kx_context *contexts,
                               size_t count, const char *rules, size_t rules_len,
                               const char *hosts, size_t hosts_len)
{
    const size_t each = sizeof *contexts;
    uint32_t status = kx_tested(contexts, count > KX_MOST / each ? (size_t)-1 : count * each);
    if (!out || !setup) return KX_NULL;
    if (!status) status = kx_tested(rules, rules_len);
    if (!status) status = kx_tested(hosts, hosts_len);
    if (status) return status;
    static const kx_context none = {0, 0};
    return kx_raw_open(out, setup, contexts ? contexts : &none, count, kx_there(rules), rules_len,
                       kx_there(hosts), hosts_len);
}

/* Closes every socket. The pointer may be used on: each call then returns KX_CLOSED. */
static inline uint32_t kx_close(kx_host *host)
{
    return host ? kx_raw_close(host) : (uint32_t)KX_NULL;
}

/* Closes the host where it is open, and frees it. */
static inline void kx_free(kx_host *host)
{
    if (host) kx_raw_free(host);
}

/* Does one line of a script, without its newline, and writes its reply, with one. Where the reply
 * doesn't fit, *wrote is its length, and kx_reply gives it. */
static inline uint32_t kx_line(kx_host *host, const char *line, size_t len, char *out, size_t cap,
                               size_t *wrote)
{
    uint32_t status = kx_tested(line, len);
    if (!host || !wrote) return KX_NULL;
    if (!status) status = kx_tested(out, cap);
    if (status) return status;
    char none;
    return kx_raw_line(host, kx_there(line), len, (uint8_t *)(out ? out : &none), cap, wrote);
}

/* Writes the last line's reply once more. */
static inline uint32_t kx_reply(kx_host *host, char *out, size_t cap, size_t *wrote)
{
    uint32_t status = kx_tested(out, cap);
    if (!host || !wrote) return KX_NULL;
    if (status) return status;
    char none;
    return kx_raw_reply(host, (uint8_t *)(out ? out : &none), cap, wrote);
}

/* Makes a guest's call, or polls it where request->pending is its number, and writes its result
 * into the guest's memory as the canonical ABI has it. */
static inline uint32_t kx_call(kx_host *host, const kx_request *request, const uint64_t *args,
                               size_t count, uint8_t *memory, size_t size, kx_answer_t *answer)
{
    uint32_t status = kx_tested(args, count > KX_MOST / 8 ? (size_t)-1 : count * 8);
    if (!host || !request || !answer) return KX_NULL;
    if (!status) status = kx_tested(memory, size);
    if (status) return status;
    static const uint64_t no_args = 0;
    uint8_t none;
    return kx_raw_call(host, request, args ? args : &no_args, count, memory ? memory : &none, size,
                       answer);
}

/* Lets writes, datagrams and lookups in the background go on. */
static inline uint32_t kx_turn(kx_host *host)
{
    return host ? kx_raw_turn(host) : (uint32_t)KX_NULL;
}

/* Gives up a pending call. */
static inline uint32_t kx_cancel(kx_host *host, uint32_t call, kx_answer_t *answer)
{
    return host && answer ? kx_raw_cancel(host, call, answer) : (uint32_t)KX_NULL;
}

/* What to poll(2) before a pending call is polled. *count is how many there are. */
static inline uint32_t kx_waits(kx_host *host, struct pollfd *fds, size_t cap, size_t *count)
{
    uint32_t status = kx_tested(fds, cap > KX_MOST / 8 ? (size_t)-1 : cap * 8);
    if (!host || !count) return KX_NULL;
    if (status) return status;
    struct pollfd none;
    return kx_raw_waits(host, fds ? fds : &none, cap, count);
}

/* The first check after this number that waits for your answer. */
static inline uint32_t kx_asked(kx_host *host, uint64_t after, kx_ask *ask)
{
    return host && ask ? kx_raw_asked(host, after, ask) : (uint32_t)KX_NULL;
}

/* Answers a check; the call that waits for it goes on when it is polled. */
static inline uint32_t kx_answer(kx_host *host, uint64_t number, bool yes)
{
    return host ? kx_raw_answer(host, number, yes) : (uint32_t)KX_NULL;
}

/* Writes as much of the log as fits and wasn't read yet; *wrote is 0 at its end. With a last line
 * `end` it is a log for ./kaxtubor replay. */
static inline uint32_t kx_log(kx_host *host, char *out, size_t cap, size_t *wrote)
{
    uint32_t status = kx_tested(out, cap);
    if (!host || !wrote) return KX_NULL;
    if (status) return status;
    char none;
    return kx_raw_log(host, (uint8_t *)(out ? out : &none), cap, wrote);
}

/* Makes a guest's call and waits, without using the processor, until it is done. Use it where no
 * check waits for you. */
static inline uint32_t kx_finish(kx_host *host, const kx_request *request, const uint64_t *args,
                                 size_t count, uint8_t *memory, size_t size, kx_answer_t *answer)
{
    kx_request again;
    struct pollfd fds[64];
    size_t waits;
    uint32_t status = kx_call(host, request, args, count, memory, size, answer);
    while (status == KX_PENDING) {
        again = *request;
        again.pending = answer->call;
        if (kx_waits(host, fds, 64, &waits) == KX_OK && waits)
            poll(fds, (nfds_t)(waits < 64 ? waits : 64), 1000);
        kx_turn(host);
        status = kx_call(host, &again, args, count, memory, size, answer);
    }
    return status;
}

#ifdef __cplusplus
}
#endif
#endif
