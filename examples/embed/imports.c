/* The table of imports: it has each call of the library, with the arguments that the call takes,
 * and the functions of its names make them. */
#include "kaxtubor_imports.h"
#include <stdio.h>

static int failed;

#define IS(what, wanted)                                                                       \
    do {                                                                                       \
        const unsigned long got = (unsigned long)(what), is = (unsigned long)(wanted);         \
        if (got != is) {                                                                       \
            printf("line %d: %s is %lu, not %lu\n", __LINE__, #what, got, is);                 \
            failed = 1;                                                                        \
        }                                                                                      \
    } while (0)

static uint8_t memory[1 << 18];
static size_t used = 1 << 17; /* what lies above was got as room */
static unsigned long got_room;

static uint32_t get(kx_guest *guest, uint32_t at, uint32_t old_len, uint32_t align, uint32_t len)
{
    got_room += len != 0;
    if (at && len <= old_len) return at;
    used = (used + align - 1) / align * align;
    if (at) memcpy(guest->memory + used, guest->memory + at, old_len);
    used += len;
    return (uint32_t)(used - len);
}

static kx_guest guest_of(const char *rules, uint32_t most_asks)
{
    const kx_context contexts[] = {{KX_TCP | KX_UDP | KX_NAMES, KX_NO_LIMIT}};
    kx_setup setup = {0, 0, most_asks, 0};
    kx_guest guest;
    memset(&guest, 0, sizeof guest);
    guest.waits = !most_asks, guest.cabi_realloc = get;
    guest.memory = memory, guest.size = sizeof memory;
    IS(kx_open(&guest.host, &setup, contexts, 1, rules, strlen(rules), NULL, 0), KX_OK);
    return guest;
}

/* The status of a call with these arguments. None is made, since the guest broke a rule before. */
static uint32_t refused(kx_host *host, uint32_t op, const uint64_t *args, size_t count)
{
    const kx_request request = {op, 0, 0, 1 << 17, 1 << 17};
    kx_answer_t answer;
    return kx_call(host, &request, args, count, memory, sizeof memory, &answer);
}

/* Each import is a call with its parameters, no more and no fewer. */
static void parameters(kx_host *host, const kx_import *import)
{
    uint64_t args[16];
    for (int k = 0; k < 16; k++) args[k] = 1; /* an address is of IPv6, which uses all of them */
    IS(strlen(import->params), import->count);
    IS(refused(host, import->op, args, import->count), KX_OVER);
    if (import->count) IS(refused(host, import->op, args, import->count - 1), KX_ARGUMENT);
    for (uint32_t k = 0; k < import->count; k++) {
        args[k] = (uint64_t)1 << 32;
        IS(refused(host, import->op, args, import->count),
           import->params[k] == 'I' ? KX_OVER : KX_ARGUMENT);
        args[k] = 1;
    }
}

/* Each import stands once, and is found by its name at each version 0.2.x alone. */
static void names(const kx_import *import)
{
    static const char *versions[] = {"@0.2.0", "@0.2.12", "@0.2.", "@0.20.0", "@0.3.0",
                                     "@0.2.0-rc", "@1.2.0", "", "s@0.2.0"};
    char module[64];
    for (size_t k = 0; k < sizeof versions / sizeof *versions; k++) {
        snprintf(module, sizeof module, "%s%s", import->module, versions[k]);
        IS(kx_import_find(module, import->name) == (k < 2 ? import : NULL), true);
    }
}

static void table(void)
{
    const uint64_t args[16] = {0};
    bool has[256] = {false};
    kx_guest guest = guest_of("", 0);
    IS(kx_tcp_drop(&guest, 77), KX_TRAP);
    for (const kx_import *it = kx_imports; it < kx_imports + KX_IMPORT_COUNT; it++) {
        parameters(guest.host, it);
        names(it);
        has[it->op] = true;
    }
    for (uint32_t op = 0; op < 256; op++)
        IS(refused(guest.host, op, args, 16) != KX_ARGUMENT, has[op]);
    IS(kx_import_find("wasi:sockets/tcp@0.2.0", "[method]tcp-socket.nothing") == NULL, true);
    IS(kx_import_find(NULL, "poll") == NULL, true);
    IS(kx_import_find("wasi:io/poll@0.2.0", NULL) == NULL, true);
    IS(kx_import_call(&guest, NULL, args), KX_NULL);
    IS(kx_import_call(&guest, kx_imports, NULL), KX_NULL);
    IS(kx_import_call(NULL, kx_imports, args), KX_NULL);
    kx_free(guest.host);
}

/* Calls that wait for the embedder's answer, and then are made again. */
static void asked(void)
{
    kx_guest guest = guest_of("", 1);
    kx_ask ask;
    IS(kx_instance_network(&guest), KX_OK);
    const uint32_t network = (uint32_t)guest.answer.value;
    IS(kx_create_tcp_socket(&guest, 0, 0), KX_OK);
    const uint32_t socket = kx_word_at(&guest, 4);
    for (int k = 0; k < 2; k++) {
        IS(kx_tcp_start_bind(&guest, socket, network, 0, 0, 127, 0, 0, 1, 0, 0, 0, 0, 0, 0, 0),
           KX_PENDING);
        IS(guest.pending != 0, true);
    }
    IS(kx_asked(guest.host, 0, &ask), KX_OK);
    IS(kx_answer(guest.host, ask.number, true), KX_OK);
    IS(kx_tcp_start_bind(&guest, socket, network, 0, 0, 127, 0, 0, 1, 0, 0, 0, 0, 0, 0, 0), KX_OK);
    IS(memory[0] == 0 && guest.pending == 0, true);
    IS(kx_tcp_address_family(&guest, socket), KX_OK);
    IS(guest.answer.value, 0);
    kx_free(guest.host);
}

/* A datagram to oneself: its record and its bytes have room of their own, as long as they are. */
static void datagram(void)
{
    kx_guest guest = guest_of("allow any any 0 65535\n", 0);
    IS(kx_instance_network(&guest), KX_OK);
    const uint32_t network = (uint32_t)guest.answer.value;
    IS(kx_create_udp_socket(&guest, 0, 0), KX_OK);
    const uint32_t socket = kx_word_at(&guest, 4);
    IS(kx_udp_start_bind(&guest, socket, network, 0, 0, 127, 0, 0, 1, 0, 0, 0, 0, 0, 0, 0), KX_OK);
    IS(kx_udp_finish_bind(&guest, socket, 0), KX_OK);
    IS(kx_udp_local_address(&guest, socket, 64), KX_OK);
    IS(kx_udp_stream(&guest, socket, 0, 0, 0, 0, 0, 0, 0, 0, 0, 0, 0, 0, 0, 0), KX_OK);
    const uint32_t incoming = kx_word_at(&guest, 4), outgoing = kx_word_at(&guest, 8);
    const unsigned long before = got_room;
    for (int k = 0; k < 3; k++) IS(kx_incoming_receive(&guest, incoming, 1, 0), KX_OK);
    IS(kx_word_at(&guest, 8), 0);
    IS(got_room, before + 1);
    kx_set_word(&guest, 1024, 2048), kx_set_word(&guest, 1028, 5), memory[1032] = 1;
    memcpy(memory + 1036, memory + 68, 32), memcpy(memory + 2048, "hello", 5);
    IS(kx_outgoing_check_send(&guest, outgoing, 0), KX_OK);
    IS(kx_outgoing_send(&guest, outgoing, 1024, 1, 0), KX_OK);
    IS(memory[0] == 0 && memory[8] == 1, true);
    IS(kx_incoming_subscribe(&guest, incoming), KX_OK);
    kx_set_word(&guest, 3000, (uint32_t)guest.answer.value);
    IS(kx_poll(&guest, 3000, 1, 0), KX_OK);
    IS(kx_word_at(&guest, 4) == 1 && kx_word_at(&guest, kx_word_at(&guest, 0)) == 0, true);
    IS(kx_incoming_receive(&guest, incoming, 1, 0), KX_OK);
    IS(memory[0] == 0 && kx_word_at(&guest, 8) == 1, true);
    const uint32_t record = kx_word_at(&guest, 4), at = kx_word_at(&guest, record);
    IS(kx_word_at(&guest, record + 4) == 5 && at >= record + 65576, true);
    IS(memcmp(memory + at, "hello", 5) || memcmp(memory + record + 8, memory + 68, 10), 0);
    IS(guest.room[KX_LIST_OF_DATAGRAMS].len, 0);
    kx_free(guest.host);
}

int main(void)
{
    table();
    asked();
    datagram();
    puts(failed ? "imports: failed" : "imports: each is a call, with the arguments that it takes");
    return failed;
}
