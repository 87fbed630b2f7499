/* Each exported function, called from C by the declarations of include/pierloft.h: its answer on inputs whose answers document 01 gives,
 * and what it gives back of a state that it refuses, so that every field of every struct is seen to cross. layout.h, which layout.awk
 * makes, holds the structs and the functions' types to the source. */
#include "pierloft.h"
#include "check.h"
#include <string.h>

/* As _Static_assert, which is neither C99 nor C++. */
#define HELD(what) extern char held[(what) ? 1 : -1]
#include "layout.h"

/* A batch of seqno 7 under TEST: a value in keyspace 2, key `a`, value `xy`; then its End; and three zeros behind. */
static const uint8_t journal[53] = {
    1, 1, 0, 0, 0, 7, 0, 0, 0, 0, 0, 0, 0,                                     /* Start */
    2, 0, 0, 2, 0, 0, 0, 0, 0, 0, 0, 1, 0, 2, 0, 0, 0, 2, 0, 0, 0, 0x61, 0x78, 0x79, /* Item */
    3, 0x58, 0xad, 0x25, 0xba, 0x4e, 0xb1, 0x51, 0xdd, 0x4a, 0x4c, 0x31, 1,    /* End */
    0, 0, 0};

static const pierloft_reader begin = {0, 0, 0};

static int same_reader(pierloft_reader a, pierloft_reader b)
{
    return a.position == b.position && a.ended == b.ended && a.outcome == b.outcome;
}

static void dialects(void)
{
    static const uint8_t shipped[8] = {0x46, 0x4a, 0x4c, 3}, test[8] = {0x4a, 0x4c, 0x31, 1};
    pierloft_dialect d = pierloft_shipped();
    IS(memcmp(d.magic, shipped, 8) == 0 && d.length == 4);
    IS(d.value == 0 && d.tombstone == 1 && d.weak == 2 && d.indirection == 4 && d.none == 0);
    IS(pierloft_check(d) == 0);
    d = pierloft_test();
    IS(memcmp(d.magic, test, 8) == 0 && d.length == 4);
    IS(d.value == 0 && d.tombstone == 1 && d.weak == 2 && d.indirection == 3 && d.none == 0);
    IS(pierloft_check(d) == 0);
    d.length = 9;
    IS(pierloft_check(d) == PIERLOFT_REFUSED_DIALECT);
    d.length = 0;
    IS(pierloft_check(d) == PIERLOFT_REFUSED_DIALECT);
    d.length = 3;
    IS(pierloft_check(d) == PIERLOFT_REFUSED_DIALECT);
    d = pierloft_test();
    d.magic[7] = 1;
    IS(pierloft_check(d) == PIERLOFT_REFUSED_DIALECT);
    d.length = 8;
    IS(pierloft_check(d) == 0);
    d.indirection = d.tombstone;
    IS(pierloft_check(d) == PIERLOFT_REFUSED_DIALECT);
    d.none = 9;
    d.indirection = 9;
    IS(pierloft_check(d) == 0);
}

static void entries(void)
{
    pierloft_dialect d = pierloft_test();
    pierloft_entry e = pierloft_decode(journal, sizeof journal, 0, d);
    IS(e.number == 0 && e.tag == PIERLOFT_TAG_START && e.count == 1 && e.seqno == 7 && e.next == 13);
    IS(e.value_type == 0 && e.keyspace == 0 && e.checksum == 0 && e.key_at == 0 && e.key_len == 0 && e.value_at == 0 && e.value_len == 0);
    e = pierloft_decode(journal, sizeof journal, 13, d);
    IS(e.number == 0 && e.tag == PIERLOFT_TAG_ITEM && e.value_type == PIERLOFT_TYPE_VALUE && e.keyspace == 2);
    IS(e.key_at == 34 && e.key_len == 1 && e.value_at == 35 && e.value_len == 2 && e.next == 37);
    IS(e.count == 0 && e.seqno == 0 && e.checksum == 0);
    e = pierloft_decode(journal, sizeof journal, 37, d);
    IS(e.number == 0 && e.tag == PIERLOFT_TAG_END && e.checksum == UINT64_C(0xdd51b14eba25ad58) && e.next == 50);
    IS(pierloft_decode(journal, sizeof journal, 50, d).number == PIERLOFT_FAULT_TAG);
    IS(pierloft_decode(journal, sizeof journal, 53, d).number == PIERLOFT_FAULT_INCOMPLETE);
    IS(pierloft_decode(journal, sizeof journal, 54, d).number == PIERLOFT_REFUSED_STATE);
    IS(pierloft_decode(journal, 49, 37, d).number == PIERLOFT_FAULT_INCOMPLETE);
    IS(pierloft_decode(NULL, 0, 0, d).number == PIERLOFT_FAULT_INCOMPLETE);
    static const uint8_t clear[9] = {4, 2, 0, 0, 0, 0, 0, 0, 1};
    e = pierloft_decode(clear, sizeof clear, 0, d);
    IS(e.number == 0 && e.tag == PIERLOFT_TAG_CLEAR && e.keyspace == (UINT64_C(1) << 56 | 2) && e.next == 9);
    /* each field of the dialect has its say */
    d.none = 1;
    IS(pierloft_decode(journal, sizeof journal, 13, d).number == PIERLOFT_FAULT_COMPRESSION);
    d = pierloft_test();
    d.value = 4;
    IS(pierloft_decode(journal, sizeof journal, 13, d).number == PIERLOFT_FAULT_VALUE_TYPE);
    d.tombstone = 0;
    IS(pierloft_decode(journal, sizeof journal, 13, d).value_type == PIERLOFT_TYPE_TOMBSTONE);
    d.tombstone = 1;
    d.weak = 0;
    IS(pierloft_decode(journal, sizeof journal, 13, d).value_type == PIERLOFT_TYPE_WEAK_TOMBSTONE);
    d.weak = 2;
    d.indirection = 0;
    IS(pierloft_decode(journal, sizeof journal, 13, d).value_type == PIERLOFT_TYPE_INDIRECTION);
    d = pierloft_test();
    d.magic[3] = 2;
    IS(pierloft_decode(journal, sizeof journal, 37, d).number == PIERLOFT_FAULT_TRAILER);
    d.magic[3] = 0;
    e = pierloft_decode(journal, sizeof journal, 37, d);
    IS(e.number == PIERLOFT_REFUSED_DIALECT && e.tag == 0 && e.checksum == 0 && e.next == 0);
    d.length = 3;
    e = pierloft_decode(journal, sizeof journal, 37, d);
    IS(e.number == 0 && e.next == 49);
}

static void reading(void)
{
    pierloft_dialect d = pierloft_test();
    pierloft_stepped s = pierloft_step(journal, sizeof journal, begin, d);
    pierloft_reader on = {50, 0, 0}, torn = {50, 1, PIERLOFT_OUTCOME_TORN}, odd = {51, 7, 5}, any = {50, 0, 9};
    IS(s.number == 0 && s.accepted == 1 && s.outcome == 0 && s.seqno == 7 && s.count == 1);
    IS(s.body == 13 && s.end == 37 && s.next == 50 && same_reader(s.reader, on));
    s = pierloft_step(journal, sizeof journal, s.reader, d);
    IS(s.number == 0 && s.accepted == 0 && s.outcome == PIERLOFT_OUTCOME_TORN && same_reader(s.reader, torn));
    IS(s.seqno == 0 && s.count == 0 && s.body == 0 && s.end == 0 && s.next == 0);
    s = pierloft_step(journal, sizeof journal, s.reader, d);
    IS(s.number == 0 && s.accepted == 0 && s.outcome == PIERLOFT_OUTCOME_TORN && same_reader(s.reader, torn));
    s = pierloft_step(journal, 50, on, d);
    IS(s.number == 0 && s.accepted == 0 && s.outcome == PIERLOFT_OUTCOME_CLEAN && s.reader.ended == 1 && s.reader.position == 50);
    s = pierloft_step(NULL, 0, begin, d);
    IS(s.number == 0 && s.accepted == 0 && s.outcome == PIERLOFT_OUTCOME_CLEAN);
    /* a refusal gives the state back as it came */
    s = pierloft_step(journal, sizeof journal, odd, d);
    IS(s.number == PIERLOFT_REFUSED_STATE && s.accepted == 0 && s.outcome == 0 && same_reader(s.reader, odd));
    s = pierloft_step(journal, 49, any, d);
    IS(s.number == PIERLOFT_REFUSED_STATE && same_reader(s.reader, any));
    d.length = 0;
    s = pierloft_step(journal, sizeof journal, any, d);
    IS(s.number == PIERLOFT_REFUSED_DIALECT && same_reader(s.reader, any));
    /* what is kept */
    IS(pierloft_kept(53, torn).number == 0 && pierloft_kept(53, torn).bytes == 50);
    IS(pierloft_kept(53, on).bytes == 53 && pierloft_kept(53, any).bytes == 53);
    torn.outcome = PIERLOFT_OUTCOME_MISMATCH;
    IS(pierloft_kept(53, torn).bytes == 53);
    IS(pierloft_kept(49, torn).number == PIERLOFT_REFUSED_STATE && pierloft_kept(49, torn).bytes == 0);
    IS(pierloft_kept((size_t)1 << 32, torn).number == PIERLOFT_REFUSED_TOO_LONG);
}

static int is_span(pierloft_span s, uint32_t number, size_t at, size_t length)
{
    return s.number == number && s.at == at && s.length == length;
}

static void views(void)
{
    pierloft_dialect d = pierloft_test();
    IS(is_span(pierloft_key(journal, sizeof journal, 13, d), 0, 34, 1));
    IS(is_span(pierloft_value(journal, sizeof journal, 13, d), 0, 35, 2));
    IS(is_span(pierloft_key(journal, sizeof journal, 0, d), PIERLOFT_FAULT_NOT_AN_ITEM, 0, 0));
    IS(is_span(pierloft_value(journal, sizeof journal, 37, d), PIERLOFT_FAULT_NOT_AN_ITEM, 0, 0));
    IS(is_span(pierloft_key(journal, 36, 13, d), PIERLOFT_FAULT_INCOMPLETE, 0, 0));
    IS(is_span(pierloft_value(journal, sizeof journal, 50, d), PIERLOFT_FAULT_TAG, 0, 0));
    IS(is_span(pierloft_key(journal, sizeof journal, 54, d), PIERLOFT_REFUSED_STATE, 0, 0));
    IS(is_span(pierloft_body(53, 13, 37), 0, 13, 24));
    IS(is_span(pierloft_body(53, 53, 53), 0, 53, 0));
    IS(is_span(pierloft_body(36, 13, 37), PIERLOFT_REFUSED_STATE, 0, 0));
    IS(is_span(pierloft_body(53, 38, 37), PIERLOFT_REFUSED_STATE, 0, 0));
    IS(is_span(pierloft_body((size_t)1 << 32, 13, 37), PIERLOFT_REFUSED_TOO_LONG, 0, 0));
    d.length = 0;
    IS(is_span(pierloft_value(journal, sizeof journal, 13, d), PIERLOFT_REFUSED_DIALECT, 0, 0));
}

static void hashes(void)
{
    const uint64_t none = UINT64_C(0x2d06800538d394c2); /* of no bytes, as published */
    pierloft_hash h = pierloft_xxh3_64(NULL, 0);
    IS(h.number == 0 && h.hash == none);
    h = pierloft_xxh3_64(journal + 13, 24);
    IS(h.number == 0 && h.hash == UINT64_C(0xdd51b14eba25ad58));
    pierloft_hasher fresh = pierloft_hasher_new(), lent = fresh, parts = fresh;
    IS(fresh.total == 0 && fresh.acc[0] == UINT64_C(0xc2b2ae3d) && fresh.acc[7] == UINT64_C(0x9e3779b1) && fresh.hold[255] == 0);
    IS(pierloft_finish(fresh).hash == none);
    IS(pierloft_finish_at(fresh.acc, fresh.hold, fresh.total).hash == none);
    pierloft_absorbed a = pierloft_absorb(fresh, journal + 13, 20);
    IS(a.number == 0 && a.state.total == 20 && memcmp(a.state.hold, journal + 13, 20) == 0);
    IS(pierloft_absorb_into(&lent, journal + 13, 20) == 0 && memcmp(&lent, &a.state, sizeof lent) == 0);
    IS(pierloft_absorb_at(parts.acc, parts.hold, &parts.total, journal + 13, 20) == 0 && memcmp(&parts, &a.state, sizeof parts) == 0);
    a = pierloft_absorb(a.state, journal + 33, 4);
    IS(a.number == 0 && pierloft_finish(a.state).hash == UINT64_C(0xdd51b14eba25ad58));
    IS(pierloft_absorb_into(&lent, journal + 33, 4) == 0 && memcmp(&lent, &a.state, sizeof lent) == 0);
    IS(pierloft_absorb_at(parts.acc, parts.hold, &parts.total, journal + 33, 4) == 0 && memcmp(&parts, &a.state, sizeof parts) == 0);
    IS(pierloft_finish_at(parts.acc, parts.hold, parts.total).hash == UINT64_C(0xdd51b14eba25ad58));
    lent.total = UINT64_C(0xfffffffe);
    for (int i = 0; i < 8; i++)
        lent.acc[i] = 100 + i;
    for (int i = 0; i < 256; i++)
        lent.hold[i] = 255 - i;
    pierloft_hasher came = lent;
    a = pierloft_absorb(lent, journal, 2);
    IS(a.number == PIERLOFT_REFUSED_TOO_LONG && memcmp(&a.state, &came, sizeof came) == 0);
    IS(pierloft_absorb_into(&lent, journal, 2) == PIERLOFT_REFUSED_TOO_LONG && memcmp(&lent, &came, sizeof came) == 0);
    parts = came;
    IS(pierloft_absorb_at(parts.acc, parts.hold, &parts.total, journal, 2) == PIERLOFT_REFUSED_TOO_LONG);
    IS(memcmp(&parts, &came, sizeof came) == 0);
    IS(pierloft_absorb_into(&lent, journal, 1) == 0 && lent.total == UINT64_C(0xffffffff));
    IS(pierloft_absorb_at(parts.acc, parts.hold, &parts.total, journal, 1) == 0 && memcmp(&parts, &lent, sizeof lent) == 0);
    lent.total++;
    h = pierloft_finish(lent);
    IS(h.number == PIERLOFT_REFUSED_STATE && h.hash == 0);
    h = pierloft_finish_at(lent.acc, lent.hold, lent.total);
    IS(h.number == PIERLOFT_REFUSED_STATE && h.hash == 0);
}

static int same_writer(pierloft_writer a, pierloft_writer b)
{
    return a.position == b.position && a.start == b.start && a.open == b.open && a.left == b.left;
}

static void encoders(void)
{
    uint8_t buffer[32];
    pierloft_dialect d = pierloft_test();
    pierloft_count c = pierloft_encode_start(buffer, 13, d, 1, 7);
    IS(c.number == 0 && c.bytes == 13 && memcmp(buffer, journal, 13) == 0);
    IS(pierloft_encode_start(buffer, 12, d, 1, 7).number == PIERLOFT_REFUSED_NO_ROOM);
    c = pierloft_encode_item(buffer, 24, d, PIERLOFT_TYPE_VALUE, 2, journal + 34, 1, journal + 35, 2);
    IS(c.number == 0 && c.bytes == 24 && memcmp(buffer, journal + 13, 24) == 0);
    c = pierloft_encode_item(buffer, 23, d, PIERLOFT_TYPE_VALUE, 2, journal + 34, 1, journal + 35, 2);
    IS(c.number == PIERLOFT_REFUSED_NO_ROOM && c.bytes == 0);
    c = pierloft_encode_item(buffer, 23, d, 4, 2, journal + 34, 1, journal + 35, 2);
    IS(c.number == PIERLOFT_FAULT_VALUE_TYPE && c.bytes == 0 && memcmp(buffer, journal + 13, 24) == 0);
    for (uint8_t t = 0; t < 4; t++) {
        d.indirection = 9;
        IS(pierloft_encode_item(buffer, 21, d, t, 0, NULL, 0, NULL, 0).bytes == 21 && buffer[1] == (t == 3 ? 9 : t));
    }
    d = pierloft_test();
    c = pierloft_encode_end(buffer, 13, d, UINT64_C(0xdd51b14eba25ad58));
    IS(c.number == 0 && c.bytes == 13 && memcmp(buffer, journal + 37, 13) == 0);
    c = pierloft_encode_clear(buffer, 9, d, UINT64_C(0x0102030405060708));
    IS(c.number == 0 && c.bytes == 9 && buffer[0] == 4 && buffer[1] == 8 && buffer[8] == 1);
    d.length = 9;
    c = pierloft_encode_clear(buffer, 9, d, 0);
    IS(c.number == PIERLOFT_REFUSED_DIALECT && c.bytes == 0 && buffer[1] == 8);
}

static void writing(void)
{
    uint8_t buffer[150], twin[150];
    static const uint8_t key[65536] = {'a'};
    pierloft_dialect d = pierloft_test();
    const pierloft_writer empty = {0, 0, 0, 0}, opened = {13, 0, 1, 1}, full = {37, 0, 1, 0}, closed = {50, 0, 0, 0};
    memset(buffer, 0xaa, sizeof buffer);
    memcpy(twin, buffer, sizeof twin);
    pierloft_reply r = pierloft_open(buffer, sizeof buffer, d, empty, 1, 7);
    IS(r.number == 0 && r.bytes == 13 && same_writer(r.writer, opened));
    r = pierloft_put_item(buffer, sizeof buffer, d, r.writer, PIERLOFT_TYPE_VALUE, 2, journal + 34, 1, journal + 35, 2);
    IS(r.number == 0 && r.bytes == 24 && same_writer(r.writer, full));
    r = pierloft_close(buffer, sizeof buffer, d, r.writer);
    IS(r.number == 0 && r.bytes == 13 && same_writer(r.writer, closed));
    IS(memcmp(buffer, journal, 50) == 0 && memcmp(buffer + 50, twin + 50, sizeof buffer - 50) == 0);
    r = pierloft_write_raw(buffer, 100, d, r.writer, 7, PIERLOFT_TYPE_VALUE, 2, journal + 34, 1, journal + 35, 2);
    IS(r.number == 0 && r.bytes == 50 && r.writer.position == 100 && memcmp(buffer + 50, journal, 50) == 0);
    r = pierloft_write_clear(buffer, 135, d, r.writer, 8, 3);
    IS(r.number == 0 && r.bytes == 35 && r.writer.position == 135 && buffer[113] == 4 && buffer[114] == 3);
    IS(pierloft_open(buffer, 0, d, empty, 0, 7).number == 0);
    /* refused: the number, the state as it came, no byte */
    memcpy(twin, buffer, sizeof twin);
    pierloft_writer odd = {136, 5, 3, 9};
    r = pierloft_put_clear(buffer, 135, d, odd, 3);
    IS(r.number == PIERLOFT_REFUSED_STATE && r.bytes == 0 && same_writer(r.writer, odd));
    r = pierloft_put_clear(buffer, 150, d, odd, 3);
    IS(r.number == PIERLOFT_REFUSED_NO_ROOM && same_writer(r.writer, odd));
    IS(pierloft_open(buffer, 150, d, odd, 1, 7).number == PIERLOFT_REFUSED_ORDER);
    IS(pierloft_close(buffer, 150, d, odd).number == PIERLOFT_REFUSED_COUNTED);
    IS(pierloft_put_clear(buffer, 150, d, full, 3).number == PIERLOFT_REFUSED_COUNTED);
    IS(pierloft_close(buffer, 49, d, full).number == PIERLOFT_REFUSED_NO_ROOM);
    IS(pierloft_close(buffer, 150, d, empty).number == PIERLOFT_REFUSED_ORDER);
    IS(pierloft_open(buffer, 150, d, empty, (uint64_t)1 << 32, 7).number == PIERLOFT_REFUSED_COUNT);
    IS(pierloft_open(buffer, 25, d, empty, 1, 7).number == PIERLOFT_REFUSED_NO_ROOM);
    IS(pierloft_put_item(buffer, 150, d, opened, PIERLOFT_TYPE_VALUE, 2, NULL, 0, NULL, 0).number == PIERLOFT_REFUSED_KEY);
    IS(pierloft_put_item(buffer, 150, d, opened, PIERLOFT_TYPE_VALUE, 2, key, 65536, NULL, 0).number == PIERLOFT_REFUSED_KEY);
    IS(pierloft_put_item(buffer, 150, d, opened, PIERLOFT_TYPE_VALUE, 2, key, 65535, NULL, 0).number == PIERLOFT_REFUSED_NO_ROOM);
    r = pierloft_put_item(buffer, 150, d, odd, 4, 2, key, 1, NULL, 0);
    IS(r.number == PIERLOFT_FAULT_VALUE_TYPE && r.bytes == 0 && same_writer(r.writer, odd));
    IS(pierloft_write_raw(buffer, 150, d, empty, 7, 255, 2, key, 1, NULL, 0).number == PIERLOFT_FAULT_VALUE_TYPE);
    IS(pierloft_write_raw(buffer, 49, d, empty, 7, PIERLOFT_TYPE_VALUE, 2, key, 1, key, 2).number == PIERLOFT_REFUSED_NO_ROOM);
    IS(pierloft_write_clear(buffer, 150, d, opened, 7, 2).number == PIERLOFT_REFUSED_ORDER);
    d.length = 0;
    IS(pierloft_write_clear(buffer, 150, d, empty, 7, 2).number == PIERLOFT_REFUSED_DIALECT);
    IS(memcmp(buffer, twin, sizeof buffer) == 0);
}

/* Every pointer that comes with a length may be null where the length is 0. */
static void nulls(void)
{
    const pierloft_dialect d = pierloft_test();
    const pierloft_writer empty = {0, 0, 0, 0}, opened = {13, 0, 1, 1};
    uint8_t buffer[64];
    pierloft_hasher state = pierloft_hasher_new();
    IS(pierloft_step(NULL, 0, begin, d).number == 0 && pierloft_decode(NULL, 0, 0, d).number == PIERLOFT_FAULT_INCOMPLETE);
    IS(is_span(pierloft_key(NULL, 0, 0, d), PIERLOFT_FAULT_INCOMPLETE, 0, 0));
    IS(is_span(pierloft_value(NULL, 0, 0, d), PIERLOFT_FAULT_INCOMPLETE, 0, 0));
    IS(pierloft_encode_start(NULL, 0, d, 1, 7).number == PIERLOFT_REFUSED_NO_ROOM);
    IS(pierloft_encode_item(NULL, 0, d, 0, 2, NULL, 0, NULL, 0).number == PIERLOFT_REFUSED_NO_ROOM);
    IS(pierloft_encode_item(buffer, sizeof buffer, d, 0, 2, NULL, 0, NULL, 0).bytes == 21);
    IS(pierloft_encode_end(NULL, 0, d, 7).number == PIERLOFT_REFUSED_NO_ROOM);
    IS(pierloft_encode_clear(NULL, 0, d, 2).number == PIERLOFT_REFUSED_NO_ROOM);
    IS(pierloft_open(NULL, 0, d, empty, 1, 7).number == PIERLOFT_REFUSED_NO_ROOM && pierloft_open(NULL, 0, d, empty, 0, 7).number == 0);
    IS(pierloft_put_item(NULL, 0, d, opened, 0, 2, NULL, 0, NULL, 0).number == PIERLOFT_REFUSED_STATE);
    IS(pierloft_put_item(buffer, sizeof buffer, d, opened, 0, 2, journal, 1, NULL, 0).bytes == 22);
    IS(pierloft_put_clear(NULL, 0, d, opened, 2).number == PIERLOFT_REFUSED_STATE);
    IS(pierloft_close(NULL, 0, d, empty).number == PIERLOFT_REFUSED_ORDER);
    IS(pierloft_write_raw(NULL, 0, d, empty, 7, 0, 2, NULL, 0, NULL, 0).number == PIERLOFT_REFUSED_NO_ROOM);
    IS(pierloft_write_raw(buffer, sizeof buffer, d, empty, 7, 0, 2, NULL, 0, NULL, 0).bytes == 47);
    IS(pierloft_write_clear(NULL, 0, d, empty, 7, 2).number == PIERLOFT_REFUSED_NO_ROOM);
    IS(pierloft_absorb(state, NULL, 0).number == 0 && pierloft_absorb_into(&state, NULL, 0) == 0);
    IS(pierloft_absorb_at(state.acc, state.hold, &state.total, NULL, 0) == 0 && state.total == 0);
}

static pierloft_reader read_to_the_end(const uint8_t *image, size_t length, int *batches)
{
    pierloft_reader reader = begin;
    for (*batches = -1; !reader.ended; ++*batches)
        reader = pierloft_step(image, length, reader, pierloft_test()).reader;
    return reader;
}

/* Resumes as the header says, or without its zeros, behind a torn batch whose value is a batch; answers how many batches are then read. */
static int resumed(int zeros)
{
    enum { CLEAR_BATCH = 13 + 9 + 13, TORN = 13 + 21 + 1 + CLEAR_BATCH };
    uint8_t planted[CLEAR_BATCH], torn[TORN + 13], buffer[53 + TORN];
    const size_t length = 50 + TORN;
    const pierloft_dialect d = pierloft_test();
    const pierloft_writer empty = {0, 0, 0, 0};
    int batches;
    pierloft_write_clear(planted, sizeof planted, d, empty, 99, 9);
    pierloft_write_raw(torn, sizeof torn, d, empty, 8, PIERLOFT_TYPE_VALUE, 2, journal, 1, planted, sizeof planted);
    memcpy(buffer, journal, 50);
    memcpy(buffer + 50, torn, TORN);
    pierloft_reader reader = read_to_the_end(buffer, length, &batches);
    IS(batches == 1 && reader.outcome == PIERLOFT_OUTCOME_TORN && reader.position == 50);
    if (zeros)
        memset(buffer + reader.position, 0, length - reader.position);
    pierloft_writer writer = {reader.position, 0, 0, 0};
    IS(pierloft_write_clear(buffer, length, d, writer, 8, 3).bytes == CLEAR_BATCH);
    read_to_the_end(buffer, length, &batches);
    return batches;
}

int main(void)
{
    IS(pierloft_abi_1() == PIERLOFT_ABI);
    dialects();
    entries();
    reading();
    views();
    hashes();
    encoders();
    writing();
    nulls();
    IS(resumed(1) == 2);
    IS(resumed(0) == 3); /* what was only a value is accepted */
    return checked("answers");
}
