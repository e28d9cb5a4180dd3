/* A driver in small: it dials a peer, gets its msg2, hears a frame, polls and closes, and says what it would do with sockets and leases. */
#include "settle.h"

#include <stdio.h>
#include <string.h>

static uint8_t table[SETTLE_TABLE_SIZE];
static uint8_t out[SETTLE_OUT_SIZE];

/* ---- a record, field by field; the length is put in last */

static uint8_t rec[512];
static size_t end;

static void number(uint64_t v, int bytes) {
    for (int i = bytes - 1; i >= 0; i--) rec[end++] = (uint8_t)(v >> (8 * i));
}

static void run(const void *bytes, size_t n) {
    memcpy(rec + end, bytes, n);
    end += n;
}

static void begin(uint8_t kind, uint64_t clock) {
    end = 2;
    number(1, 1);
    number(kind, 1);
    number(clock, 8);
}

static void pair(uint32_t transport, const char *addr) {
    number(transport, 4);
    number(strlen(addr), 1);
    run(addr, strlen(addr));
}

static void message(const char *bytes) {
    number(strlen(bytes), 2);
    run(bytes, strlen(bytes));
}

static size_t finished(void) {
    rec[0] = (uint8_t)((end - 2) >> 8);
    rec[1] = (uint8_t)(end - 2);
    return end;
}

/* ---- the outputs, and what a driver does with each */

static uint64_t get(const uint8_t *s, int bytes) {
    uint64_t v = 0;
    for (int i = 0; i < bytes; i++) v = v << 8 | s[i];
    return v;
}

static void close_pairs(const uint8_t *list) {
    const uint8_t *p = list + 1;
    for (int i = 0; i < list[0]; i++, p += 5 + p[4]) printf("    close the connection %.*s on transport %u\n", p[4], (const char *)p + 5, (unsigned)get(p, 4));
}

static void act(uint8_t kind, const uint8_t *f, size_t n) {
    switch (kind) {
    case 1: printf("  opened link %llu: connect, then send msg1\n", (unsigned long long)get(f, 8)); break;
    case 3: printf("  resend %zu bytes on link %llu\n", n - 10, (unsigned long long)get(f, 8)); break;
    case 5: printf("  install the peer on link %llu; lease %u is the session's\n", (unsigned long long)get(f + 16, 8), (unsigned)get(f + n - 4, 4)); break;
    case 6: printf("  session of the peer: transition %u\n", f[16]); break;
    case 7: printf("  remove the peer, why %u\n", f[16]); break;
    case 8: printf("  retire link %llu\n", (unsigned long long)get(f, 8)); close_pairs(f + 8); break;
    case 10: printf("  close what the legs had\n"); close_pairs(f); break;
    case 11: printf("  give lease %u back\n", (unsigned)get(f, 4)); break;
    case 14: f[0] ? printf("  wake at %llu ns\n", (unsigned long long)get(f + 1, 8)) : printf("  no wake needed\n"); break;
    default: printf("  output %u of %zu bytes\n", kind, n); break;
    }
}

static void call(const char *what) {
    settle_answer a = settle_call(table, sizeof table, rec, finished(), out, sizeof out);
    printf("%s: number %u\n", what, a.number);
    for (size_t i = 0; i < a.len; i += 2 + get(out + i, 2)) act(out[i + 3], out + i + 4, get(out + i, 2) - 2);
}

int main(void) {
    const uint8_t me[16] = {0}, peer[16] = {0x22, 0x22};
    const uint64_t second = 1000000000;

    if (settle_table_size() != sizeof table) return 1;
    begin(17, 0), run(me, 16), number(1, 8), number(0, 1);
    if (settle_new(table, sizeof table, rec, finished()) != SETTLE_OK) return 1;

    begin(1, 0), run(peer, 16), pair(7, "north"), message("hello"), number(9, 4);
    call("dial");
    begin(16, 0);
    call("wake");
    begin(12, second);
    call("poll after a second");
    begin(6, second), number(1, 8);
    call("sent");
    begin(8, second), number(1, 8), number(5, 8), pair(7, "north");
    call("msg2");
    begin(10, 2 * second), run(peer, 16), pair(8, "east");
    call("heard from another pair");
    begin(12, 3 * second);
    call("poll with nothing to do");
    begin(13, 4 * second);
    call("close");
    return 0;
}
