/* Runs guest.wasm, translated by wasm2c: each of its imports is a call of the host. */
#include "guest_w2c.h"
#include "kaxtubor_imports.h"
#include "wasm-rt-impl.h"
#include "wasm-rt.h"
#include <inttypes.h>
#include <stdio.h>
#include <stdlib.h>
#include <string.h>
#include <time.h>

#define POLLS Z_wasiZ3AioZ2FpollZ400Z2E2Z2E0
#define STREAMS Z_wasiZ3AioZ2FstreamsZ400Z2E2Z2E0
#define NETWORK Z_wasiZ3AsocketsZ2FinstanceZ2DnetworkZ400Z2E2Z2E0
#define CREATE Z_wasiZ3AsocketsZ2FtcpZ2DcreateZ2DsocketZ400Z2E2Z2E0
#define TCP Z_wasiZ3AsocketsZ2FtcpZ400Z2E2Z2E0
#define JOIN2(a, b) a##b
#define JOIN(a, b) JOIN2(a, b)
#define INSTANCE(of) struct JOIN(of, _instance_t)

static Z_guest_instance_t guest;
INSTANCE(POLLS) { int unused; };
INSTANCE(STREAMS) { int unused; };
INSTANCE(NETWORK) { int unused; };
INSTANCE(CREATE) { int unused; };
INSTANCE(TCP) { int unused; };

static uint32_t cabi_realloc(kx_guest *of, u32 at, u32 old_len, u32 align, u32 len);
static kx_guest it = {.waits = true, .cabi_realloc = cabi_realloc};

/* The guest, as its imports see it, with its memory as it is now. */
static kx_guest *seen(void)
{
    const wasm_rt_memory_t *memory = Z_guestZ_memory(&guest);
    it.memory = memory->data, it.size = memory->size;
    return &it;
}

static uint32_t cabi_realloc(kx_guest *of, u32 at, u32 old_len, u32 align, u32 len)
{
    (void)of;
    at = Z_guestZ_cabi_realloc(&guest, at, old_len, align, len);
    return seen(), at;
}

/* What a call returned. One that isn't done ends the guest. */
static u32 done(uint32_t status)
{
    if (status) {
        fprintf(stderr, "status %u, code %u\n", status, it.answer.code);
        wasm_rt_trap(WASM_RT_TRAP_UNREACHABLE);
    }
    return (u32)it.answer.value;
}

/* An import by the name that wasm2c gives it: a call of the host's function. */
#define CALLS(of, name, function, params)                                                         \
    void JOIN(of, name)(INSTANCE(of) * instance KX_TAKES_##params)                                \
    {                                                                                             \
        (void)instance, done(kx_##function(seen(), KX_GIVES_##params));                           \
    }
#define RETURNS(of, name, function, params)                                                       \
    u32 JOIN(of, name)(INSTANCE(of) * instance KX_TAKES_##params)                                 \
    {                                                                                             \
        return (void)instance, done(kx_##function(seen(), KX_GIVES_##params));                    \
    }

CALLS(POLLS, Z_Z5BmethodZ5DpollableZ2Eblock, pollable_block, i)
CALLS(POLLS, Z_Z5BresourceZ2DdropZ5Dpollable, pollable_drop, i)
CALLS(STREAMS, Z_Z5BmethodZ5DinputZ2DstreamZ2EblockingZ2Dread, input_blocking_read, iIi)
CALLS(STREAMS, Z_Z5BmethodZ5DoutputZ2DstreamZ2EblockingZ2DwriteZ2DandZ2Dflush,
      output_blocking_write_and_flush, iiii)
CALLS(STREAMS, Z_Z5BresourceZ2DdropZ5DinputZ2Dstream, input_drop, i)
CALLS(STREAMS, Z_Z5BresourceZ2DdropZ5DoutputZ2Dstream, output_drop, i)
CALLS(CREATE, Z_createZ2DtcpZ2Dsocket, create_tcp_socket, ii)
RETURNS(TCP, Z_Z5BmethodZ5DtcpZ2DsocketZ2EaddressZ2Dfamily, tcp_address_family, i)
CALLS(TCP, Z_Z5BmethodZ5DtcpZ2DsocketZ2EfinishZ2Dconnect, tcp_finish_connect, ii)
CALLS(TCP, Z_Z5BmethodZ5DtcpZ2DsocketZ2EstartZ2Dconnect, tcp_start_connect, address)
RETURNS(TCP, Z_Z5BmethodZ5DtcpZ2DsocketZ2Esubscribe, tcp_subscribe, i)
CALLS(TCP, Z_Z5BresourceZ2DdropZ5DtcpZ2Dsocket, tcp_drop, i)
u32 JOIN(NETWORK, Z_instanceZ2Dnetwork)(INSTANCE(NETWORK) * instance)
{
    return (void)instance, done(kx_instance_network(seen()));
}

static double now(void)
{
    struct timespec t;
    clock_gettime(CLOCK_MONOTONIC, &t);
    return (double)t.tv_sec + (double)t.tv_nsec / 1e9;
}

/* The words: what the guest does, the port that it connects to, and the port that is allowed. */
int main(int count, char **word)
{
    char rules[128];
    const kx_context contexts[] = {{KX_TCP, KX_NO_LIMIT}};
    kx_setup setup = {0, 0, 0, 0};
    int port = count > 2 ? atoi(word[2]) : 0, allowed = count > 3 ? atoi(word[3]) : port;
    int status = 0;
    int len = snprintf(rules, sizeof rules,
                       "allow tcp-bind any 0 0\nallow tcp-connect 4 127 0 0 1 32 %d %d\n", allowed,
                       allowed);
    wasm_rt_init();
    Z_guest_init_module();
    INSTANCE(POLLS) polls; INSTANCE(STREAMS) streams; INSTANCE(NETWORK) network;
    INSTANCE(CREATE) create; INSTANCE(TCP) tcp;
    Z_guest_instantiate(&guest, &polls, &streams, &network, &create, &tcp);
    if (kx_open(&it.host, &setup, contexts, 1, rules, (size_t)len, NULL, 0)) return 1;
    wasm_rt_trap_t trap = wasm_rt_impl_try();
    if (trap) return printf("trap: %s\n", wasm_rt_strerror(trap)), 2;
    Z_guestZ__initialize(&guest);
    double start = now();
    if (!strcmp(word[1], "get")) {
        u32 code = Z_guestZ_get(&guest, (u32)port);
        if (code) status = 3, puts(code == 2 ? "access-denied" : "not connected");
        else fwrite(seen()->memory + Z_guestZ_page(&guest), 1, Z_guestZ_pageZ2Dlen(&guest), stdout);
    } else if (!strcmp(word[1], "drain")) {
        double got = (double)(int64_t)Z_guestZ_drain(&guest, (u32)port);
        if (got < 0) return puts("not connected"), 3;
        printf("%.0f bytes, %.0f MB a second\n", got, got / (now() - start) / 1e6);
    } else {
        Z_guestZ_spin(&guest, (u32)port);
        printf("%.0f ns a call of an import\n", (now() - start) / port * 1e9);
    }
    Z_guest_free(&guest);
    kx_free(it.host);
    return status;
}
