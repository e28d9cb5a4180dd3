/* The settle table: which peer is held on which link. bin/libsettle makes the library, target/lib/libsettle.a.
 *
 * The library keeps nothing of its own: no memory but what is lent, no clock, no sockets. The driver lends a table, a record and a
 * buffer for the length of one call, and does what the outputs say: it sends, dials and closes connections, and gives leases (receive
 * indices) back. Records and outputs are those of docs/RECORDS.md, integers big-endian. A clock reading is 64 bits of nanoseconds; what
 * would be due past 2^64 - 1 is due at 2^64 - 1.
 *
 * Proved of these functions, for every record, buffer and clock: crates/settle/specs/Contract.antt; for every list of calls:
 * crates/settle/specs/Promise.antt.
 *
 * What the driver owes, and nothing here can check:
 *   - the table has settle_table_size() bytes;
 *   - table, record and buffer do not overlap, and nobody else reads or writes them during a call;
 *   - settle_call gets a table that settle_new made (number 0), which only settle_call has changed since;
 *   - pointers are not null, also for a length of 0.
 */
#ifndef SETTLE_H
#define SETTLE_H

#include <stddef.h>
#include <stdint.h>

#ifdef __cplusplus
extern "C" {
#endif

#define SETTLE_TABLE_SIZE 45478 /* bytes of a table */
#define SETTLE_OUT_SIZE 10240   /* bytes of buffer that are enough for every call; fewer are refused */

/* Refusals. A refused call has changed no byte of table and buffer, and its lease remains the driver's. */
enum settle_number {
    SETTLE_OK = 0,
    SETTLE_SETTINGS = 1, /* new: counted 0 or above 8, or replays above 8 */
    SETTLE_BUFFER = 2,   /* the buffer is under 10,240 bytes */
    SETTLE_RECORD = 3,   /* not a record of a call, or of new */
    SETTLE_NUMBERS = 4,  /* no link number is left */
    SETTLE_LINKS = 5,    /* 32 links are live */
    SETTLE_NAMES = 6,    /* 32 peers have a place, and this one has none */
    SETTLE_PATHS = 7     /* the link has four paths */
};

/* What a call answers, `Answer` in the library. number: a refusal, or SETTLE_OK; len: how many bytes of the buffer are outputs. The bytes
 * beyond keep what they held. */
typedef struct {
    uint8_t number;
    size_t len;
} settle_answer;

/* How many bytes a table has: SETTLE_TABLE_SIZE. */
size_t settle_table_size(void);

/* Makes a table of the lent bytes, whatever they held. Refused with SETTLE_SETTINGS or SETTLE_RECORD, it has changed nothing. */
uint8_t settle_new(uint8_t *table, size_t table_len, const uint8_t *record, size_t record_len);

/* Answers one call. */
settle_answer settle_call(uint8_t *table, size_t table_len, const uint8_t *record, size_t record_len, uint8_t *out, size_t out_len);

#ifdef __cplusplus
}
#endif

#endif
