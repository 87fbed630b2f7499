/* Pierloft: the journal of fjall 3.1.13, uncompressed, proved. The functions of libpierloft.a (tools/archive builds it).
 *
 * Each function's contract is proved; these declarations are not, and tests/c holds them to the library.
 *
 * No function allocates, keeps a pointer, reads a clock or calls the system. There is no shared state: any number of threads may call at
 * once, as long as none writes to what another's call is lent. Calls follow the System V convention of x86-64, and the code is for processors
 * with SSE4.2 (x86-64-v2), which it takes for granted. Each call takes less than 4 KiB of stack, its arguments and its answer included; this is
 * measured (tests/c/stack.c) and not proved.
 *
 * A pointer comes with its length, stays the caller's, and is not used after the call. It must not be null, unless the length is 0. The
 * pointers to a hash's state and to its parts come without a length and must not be null. Buffers that a call writes to must not overlap
 * what it reads. No contents, state, position or dialect is forbidden: what is wrong is refused.
 *
 * A refused call answers a number, writes no byte, not even one that stands there already, and gives the state back as it came; every other
 * field of its answer is 0.
 */
#ifndef PIERLOFT_H
#define PIERLOFT_H

#include <stddef.h>
#include <stdint.h>

#ifdef __cplusplus
extern "C" {
#endif

/* The number of this header's structs and calls. It rises with each change of one, and the function's name with it: whatever gcc or clang
 * compiles with this header refers to that name, so that it does not link with a library of another number. */
#define PIERLOFT_ABI 1
uint32_t pierloft_abi_1(void); /* answers PIERLOFT_ABI */

#ifdef __GNUC__
#if defined __has_attribute
#if __has_attribute(retain)
__attribute__((retain)) /* else the linker's --gc-sections drops it, and the test with it */
#endif
#endif
__attribute__((used)) static uint32_t (*const pierloft_abi)(void) = pierloft_abi_1;
#endif

/* Why a call is refused; 0 where it is not. The first that applies, in the order 20, 21, 22, 24, 23, 26, 25, 27. */
enum {
    PIERLOFT_REFUSED_DIALECT = 20,  /* the dialect is not good */
    PIERLOFT_REFUSED_TOO_LONG = 21, /* a buffer, or a hash's total after this piece, above 4,294,967,295 bytes */
    PIERLOFT_REFUSED_STATE = 22,    /* a position past the buffer, or a state that is out of range */
    PIERLOFT_REFUSED_COUNT = 23,    /* a batch opened with a count above 4,294,967,295 */
    PIERLOFT_REFUSED_ORDER = 24,    /* open, write_raw or write_clear inside a batch; a put or close outside */
    PIERLOFT_REFUSED_KEY = 25,      /* a key above 65,535 bytes, or an empty key put in a batch */
    PIERLOFT_REFUSED_COUNTED = 26,  /* a put with none to come, or close with some to come */
    PIERLOFT_REFUSED_NO_ROOM = 27   /* the buffer is too short */
};

/* Why no entry, or no Item, can be read at a position. */
enum {
    PIERLOFT_FAULT_INCOMPLETE = 30,  /* a field runs past the image */
    PIERLOFT_FAULT_TAG = 31,         /* a tag that is not 1 to 4 */
    PIERLOFT_FAULT_VALUE_TYPE = 32,  /* a type code that is none of the dialect's; or a value type handed over that is none of the four */
    PIERLOFT_FAULT_COMPRESSION = 33, /* a compression code that is not the dialect's */
    PIERLOFT_FAULT_TRAILER = 34,     /* the magic is not there */
    PIERLOFT_FAULT_NOT_AN_ITEM = 35  /* a key or a value asked for at a Start, End or Clear */
};

/* How a reading ended. */
enum {
    PIERLOFT_OUTCOME_CLEAN = 0,        /* keep all bytes */
    PIERLOFT_OUTCOME_TORN = 1,         /* keep those up to the last valid position */
    PIERLOFT_OUTCOME_INSUFFICIENT = 2, /* an End with entries still to come: keep all */
    PIERLOFT_OUTCOME_TOO_MANY = 3,     /* an entry with none to come: keep all */
    PIERLOFT_OUTCOME_MISMATCH = 4      /* another checksum: keep all */
};

/* The four types of an Item's value. fjall's own recovery of a sealed journal panics at an indirection: docs/DIFFERENCES.md. */
enum {
    PIERLOFT_TYPE_VALUE = 0,
    PIERLOFT_TYPE_TOMBSTONE = 1,
    PIERLOFT_TYPE_WEAK_TOMBSTONE = 2,
    PIERLOFT_TYPE_INDIRECTION = 3
};

/* An entry's tag. */
enum {
    PIERLOFT_TAG_START = 1,
    PIERLOFT_TAG_ITEM = 2,
    PIERLOFT_TAG_END = 3,
    PIERLOFT_TAG_CLEAR = 4
};

/* ---- dialects */

/* The numbers that the format leaves open. Good if length is 1 to 8, the last used byte of the magic is not 0, its unused bytes are 0, and
 * the four codes differ pairwise. */
typedef struct {
    uint8_t magic[8];
    size_t length;
    uint8_t value;
    uint8_t tombstone;
    uint8_t weak;
    uint8_t indirection;
    uint8_t none; /* the code for no compression */
} pierloft_dialect;

/* fjall 3.1.13's. The codes of the value types are not confirmed: docs/DIFFERENCES.md. */
pierloft_dialect pierloft_shipped(void);

/* Magic 4A 4C 31 01, codes 0, 1, 2, 3, compression 0. */
pierloft_dialect pierloft_test(void);

/* 0, or PIERLOFT_REFUSED_DIALECT where it is not good. Every call that takes a dialect looks for itself. */
uint32_t pierloft_check(pierloft_dialect dialect);

/* ---- reading */

/* Where a reading stands. It starts as {0, 0, 0}. `ended` is 0 or not. */
typedef struct {
    size_t position;
    uint32_t ended;
    uint32_t outcome;
} pierloft_reader;

/* What a step came to: with number 0, an accepted batch (accepted is 1), or the end of the reading (accepted is 0) by its outcome. */
typedef struct {
    uint32_t number;
    uint32_t accepted;
    uint32_t outcome;
    uint64_t seqno;
    uint64_t count;
    size_t body; /* the batch's entries lie from here .. */
    size_t end;  /* .. to here */
    size_t next; /* and the next batch begins here */
    pierloft_reader reader; /* to hand to the next step */
} pierloft_stepped;

/* The next batch of an image, or the end of its reading. An ended state answers its outcome again.
 *
 * The body of an accepted batch has Items and Clears alone, `count` of them, and each can be read. They are walked so:
 *
 *     for (size_t at = step.body; at < step.end;) {
 *         pierloft_entry entry = pierloft_decode(image, length, at, dialect);
 *         .. entry.tag is PIERLOFT_TAG_ITEM or PIERLOFT_TAG_CLEAR ..
 *         at = entry.next;
 *     }
 */
pierloft_stepped pierloft_step(const uint8_t *image, size_t length, pierloft_reader reader, pierloft_dialect dialect);

/* A number of bytes. */
typedef struct {
    uint32_t number;
    size_t bytes;
} pierloft_count;

/* How many of an image's bytes to keep: up to the position where the reading ended torn, else all, as where it has not ended. */
pierloft_count pierloft_kept(size_t length, pierloft_reader reader);

/* What stands at a position: with number 0, an entry, by its tag; the fields that it does not have are 0. Key and value are the image's own
 * bytes from key_at and value_at on. */
typedef struct {
    uint32_t number;
    uint8_t tag;
    uint8_t value_type;
    uint64_t count;    /* Start */
    uint64_t seqno;    /* Start */
    uint64_t keyspace; /* Item, Clear */
    uint64_t checksum; /* End */
    size_t key_at;     /* Item */
    size_t value_at;   /* Item */
    size_t next;       /* where the entry ends */
    size_t key_len;    /* Item */
    size_t value_len;  /* Item */
} pierloft_entry;

pierloft_entry pierloft_decode(const uint8_t *image, size_t length, size_t at, pierloft_dialect dialect);

/* A part of an image: its place and its length; both 0 where the number is not 0. */
typedef struct {
    uint32_t number;
    size_t at;
    size_t length;
} pierloft_span;

/* The key and the value of the Item at a position; its fault, or PIERLOFT_FAULT_NOT_AN_ITEM at another entry. */
pierloft_span pierloft_key(const uint8_t *image, size_t length, size_t at, pierloft_dialect dialect);
pierloft_span pierloft_value(const uint8_t *image, size_t length, size_t at, pierloft_dialect dialect);

/* The body of a batch, by its place and its end, in an image of so many bytes: PIERLOFT_REFUSED_TOO_LONG where the image is, and
 * PIERLOFT_REFUSED_STATE where the body ends past the image, or begins after it ends. */
pierloft_span pierloft_body(size_t length, size_t body, size_t end);

/* ---- writing */

/* Each encoder fills the front of the part that it is lent with one entry and answers its length. An empty key is taken. A value type is
 * one of the four; any other is PIERLOFT_FAULT_VALUE_TYPE, judged before all else, here and in the writer's calls. */
pierloft_count pierloft_encode_start(uint8_t *buffer, size_t length, pierloft_dialect dialect, uint32_t count, uint64_t seqno);
pierloft_count pierloft_encode_item(uint8_t *buffer, size_t length, pierloft_dialect dialect, uint8_t value_type, uint64_t keyspace,
                                    const uint8_t *key, size_t key_length, const uint8_t *value, size_t value_length);
pierloft_count pierloft_encode_end(uint8_t *buffer, size_t length, pierloft_dialect dialect, uint64_t checksum);
pierloft_count pierloft_encode_clear(uint8_t *buffer, size_t length, pierloft_dialect dialect, uint64_t keyspace);

/* Where a writer stands in its buffer. It starts as {0, 0, 0, 0}; a later call is given the state that the one before it answered. `open` is
 * 0 or not.
 *
 * Old bytes behind the position are read on as the journal's own. A torn batch may hold a whole batch in one of its values: a new batch of
 * the right length written over its front leaves that one standing right behind, and reading accepts it. So a state that is set by hand,
 * {0, 0, 0, 0} on a used buffer too, asks for zeros first, from its position to the end of the buffer. To resume, read the buffer to its end
 * by pierloft_step. Where that is clean or torn:
 *
 *     memset(buffer + reader.position, 0, length - reader.position);
 *     pierloft_writer writer = {reader.position, 0, 0, 0};
 *
 * Where it is not, leave all bytes as they are: a person must look. */
typedef struct {
    size_t position;
    size_t start; /* of the open batch */
    uint32_t open;
    uint64_t left; /* entries still to come */
} pierloft_writer;

/* With number 0, how many bytes were written at the position, and the state behind them. */
typedef struct {
    uint32_t number;
    size_t bytes;
    pierloft_writer writer;
} pierloft_reply;

/* A batch of so many entries. A count of 0 writes and opens nothing. */
pierloft_reply pierloft_open(uint8_t *buffer, size_t length, pierloft_dialect dialect, pierloft_writer writer, uint64_t count,
                             uint64_t seqno);
pierloft_reply pierloft_put_item(uint8_t *buffer, size_t length, pierloft_dialect dialect, pierloft_writer writer, uint8_t value_type,
                                 uint64_t keyspace, const uint8_t *key, size_t key_length, const uint8_t *value, size_t value_length);

/* fjall replays a batch's Items before its Clears, whatever their order: docs/DIFFERENCES.md. */
pierloft_reply pierloft_put_clear(uint8_t *buffer, size_t length, pierloft_dialect dialect, pierloft_writer writer, uint64_t keyspace);

/* Ends the batch, with the checksum of the bytes that then stand between its Start and the position. */
pierloft_reply pierloft_close(uint8_t *buffer, size_t length, pierloft_dialect dialect, pierloft_writer writer);

/* A whole batch of one entry. An empty key is taken. The seqno stands first, where fjall has it last. */
pierloft_reply pierloft_write_raw(uint8_t *buffer, size_t length, pierloft_dialect dialect, pierloft_writer writer, uint64_t seqno,
                                  uint8_t value_type, uint64_t keyspace, const uint8_t *key, size_t key_length, const uint8_t *value,
                                  size_t value_length);
pierloft_reply pierloft_write_clear(uint8_t *buffer, size_t length, pierloft_dialect dialect, pierloft_writer writer, uint64_t seqno,
                                    uint64_t keyspace);

/* ---- XXH3-64, seed 0 and the default secret */

/* A hash; or PIERLOFT_REFUSED_TOO_LONG or PIERLOFT_REFUSED_STATE. */
typedef struct {
    uint32_t number;
    uint64_t hash;
} pierloft_hash;

pierloft_hash pierloft_xxh3_64(const uint8_t *bytes, size_t length);

/* Where a hash by pieces stands: the accumulators, the last bytes of the input (byte n at place n mod 256), and how many came. */
typedef struct {
    uint64_t acc[8];
    uint8_t hold[256];
    uint64_t total;
} pierloft_hasher;

typedef struct {
    uint32_t number;
    pierloft_hasher state;
} pierloft_absorbed;

pierloft_hasher pierloft_hasher_new(void);

/* The state after a piece, or PIERLOFT_REFUSED_TOO_LONG where the total would pass the limit. */
pierloft_absorbed pierloft_absorb(pierloft_hasher state, const uint8_t *piece, size_t length);

/* The same on a state that is changed in place; the number is what it answers. */
uint32_t pierloft_absorb_into(pierloft_hasher *state, const uint8_t *piece, size_t length);

/* The hash of the pieces joined, or PIERLOFT_REFUSED_STATE where the state's total is past the limit. */
pierloft_hash pierloft_finish(pierloft_hasher state);

/* The last two over the parts of a state, each lent, so that no copy of it is made:
   pierloft_absorb_at(h.acc, h.hold, &h.total, piece, length). */
uint32_t pierloft_absorb_at(uint64_t acc[8], uint8_t hold[256], uint64_t *total, const uint8_t *piece, size_t length);
pierloft_hash pierloft_finish_at(const uint64_t acc[8], const uint8_t hold[256], uint64_t total);

#ifdef __cplusplus
}
#endif

#endif
