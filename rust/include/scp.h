/*
 * scp.h: the C interface of libscp.a, the proved SCP-ECG library.
 *
 * Make the archive by `scripts/archive` (it is for x86-64), include this file, link target/staticlib/libscp.a.
 * The library allocates nothing, keeps nothing between calls, does no input or output, and needs under 256 KiB of stack
 * a call.
 *
 * These rules hold for every call:
 *   - Lent bytes are a pointer and a length. A call reads and writes nothing outside them. A part that a call writes to must
 *     not overlap any other part lent to the same call.
 *   - Any bytes and any numbers may be given, and every call ends.
 *   - `refusal` is 0 (accepted) or the number of the rule that is broken (SCP_REFUSED_...), the smallest if there are several;
 *     where a call says an order of its own, the first in that order.
 *   - With a refusal every other field of the answer is 0 and no lent byte is changed, but for work space (scp_read_lead,
 *     scp_encode_lead, scp_write_record).
 *   - Places of bytes (`start`, `next`, `at`) count from 0; an occurrence and a lead's place count from 1.
 *     A pointer's index is as the record stores it: it counts the record's bytes from 1.
 */
#ifndef SCP_H
#define SCP_H

#include <stddef.h>
#include <stdint.h>

#ifdef __cplusplus
extern "C" {
#endif

/* The refusals. */
enum {
    SCP_REFUSED_LENGTH = 1,                 /* the length is outside 142 to 1,048,576 bytes, or is not what the size field says */
    SCP_REFUSED_RECORD_CHECK = 2,           /* the record's CRC differs */
    SCP_REFUSED_SECTION_0 = 3,              /* Section 0 breaks its rules */
    SCP_REFUSED_PLACES = 4,                 /* a section's place, length or header breaks its rules, or Section 1 is absent */
    SCP_REFUSED_SECTION_CHECK = 5,          /* a section's CRC differs */
    SCP_REFUSED_SECTION_1 = 6,              /* Section 1's data break their rules */
    SCP_REFUSED_SECTION_2 = 7,              /* Section 2 breaks its rules or bounds */
    SCP_REFUSED_SECTIONS_3_TO_6 = 8,        /* Sections 3 to 6 break their rules or bounds, or one that is needed is absent */
    SCP_REFUSED_BIMODAL_STEP_INTERVAL = 9,  /* there is bimodal compression, or Sections 5 and 6 differ in step or interval */
    SCP_REFUSED_ABSENT = 10,                /* there is no such field, no lead at that place, or no Section 3 or 6 */
    SCP_REFUSED_ROOM = 11,                  /* the output, the work space or the index is too short */
    SCP_REFUSED_CODE = 12,                  /* a value's code matches nothing, or the stream ends in it */
    SCP_REFUSED_SAMPLE = 13,                /* a sample does not fit 16 bits */
    SCP_REFUSED_LEFT_OVER_BITS = 14,        /* 16 or more bits are left after the last sample; up to 15 are ignored */
    SCP_REFUSED_NO_STREAM = 15,             /* these samples cannot be encoded with these tables */
    SCP_REFUSED_TOO_LONG = 16,              /* the shortest stream has more than 65,535 bytes, or the record more than 1,048,576 */
    /* 0 or more than 65,536 samples are to be coded, or the order is over 2; for a record also: 0 or more than 32 leads, a
     * step or interval of 0, a first sample number of 0 or a last one past 32 bits, samples lent that differ in number from
     * the counts of the leads together, or lists of leads of unequal length */
    SCP_REFUSED_WRITER_BOUNDS = 17,
    SCP_REFUSED_DATE = 24,                  /* the month of tag 25 is outside 1 to 12, or its day outside 1 to 31 */
    SCP_REFUSED_INDEX = 26                  /* an index is not whole entries in order, or more of it is in use than was lent */
};

/* The most pointers that a record has, and the room in numbers that scp_open asks for. */
#define SCP_POINTERS_MAX 64
#define SCP_POINTERS_ROOM (3 * SCP_POINTERS_MAX)

/* The most samples that a lead has, and the most that a reference beat has: so much room is always enough. */
#define SCP_SAMPLES_MAX 65536

/* The most leads that a record has. */
#define SCP_LEADS_MAX 32

/* The most tables that Section 2 has. One byte of work space for each of these and each sample is always enough. */
#define SCP_TABLES_MAX 8

/* The most bytes that a lead's stream has: so much room for one is always enough. */
#define SCP_STREAM_MAX 65535

/* The most bytes that a record has: so much room for one is always enough. */
#define SCP_RECORD_MAX 1048576

/* The most bytes that an entry of an index has: so much room beyond what is in use is always enough to add one. */
#define SCP_INDEX_ENTRY_MAX 68

/* The answer to opening a record. */
typedef struct {
    uint8_t refusal;
    uint32_t count; /* how many pointers Section 0 has */
} ScpOpened;

/* A part of the bytes that were lent. */
typedef struct {
    uint8_t refusal;
    size_t start, length;
} ScpPart;

/* A step of the walk over the fields of Section 1. */
typedef struct {
    uint8_t more, tag;          /* more is 1: a field is shown; 0: the end (tag, start and length 0, next the place asked) */
    size_t start, length, next; /* the field's bytes, without its tag and length, and the place of the next step */
} ScpStep;

/* A lead that was read; its samples are in the output. */
typedef struct {
    uint8_t refusal, id, flags; /* the flags are Section 3's, for all leads; bit 0: a reference beat was subtracted */
    uint16_t step, interval;    /* the step of a sample in nanovolts, the interval between two in microseconds */
    uint32_t first, count;      /* the number of the first sample, and how many there are */
    uint32_t compared;          /* how many code structures were compared, summed over its codes (scp_read_lead) */
} ScpLead;

/* A record's description of a lead, its stream unread. */
typedef struct {
    uint8_t refusal, id, flags, order; /* the order is that of the differences stored in Section 6: 0, 1 or 2 */
    uint16_t step, interval;
    uint32_t first, last;  /* the numbers of the first and the last sample */
    uint32_t leads, bytes; /* how many leads the record has, and how many bytes this one's stream has in Section 6 */
} ScpEntry;

/* A lead that was coded; its stream is in the output. */
typedef struct {
    uint8_t refusal;
    uint32_t bytes, bits; /* how many bytes the stream has, and how many bits of them its codes take: the rest are 0 */
} ScpCoded;

/* A record that was written; it is in the output. */
typedef struct {
    uint8_t refusal;
    uint32_t bytes; /* how many bytes the record has */
} ScpWritten;

/* An index that a record was added to, or that two were merged into. */
typedef struct {
    uint8_t refusal;
    size_t used; /* how many bytes of it are in use now */
} ScpIndexed;

/* An entry of an index. */
typedef struct {
    uint8_t more, month, day, leads; /* more is 1: an entry is shown; 0: none is (next the place asked, all others 0) */
    uint16_t year;
    size_t start, length, next; /* the identifier's bytes, which have no NUL, and the place behind the entry */
} ScpIndexEntry;

/* CRC-CCITT of n bytes: polynomial 1021 hex, preset FFFF, most significant bit first, no final change. Never refused. */
uint16_t scp_crc(const uint8_t *p, size_t n);

/*
 * Opens a record. Each pointer is answered as it is stored, three numbers for each: ID, length, index. The first
 * 3 * count numbers are changed and no others; none on refusal. Refusals 1 to 6.
 */
ScpOpened scp_open(const uint8_t *record, size_t n, uint32_t pointers[SCP_POINTERS_ROOM]);

/*
 * Finds a field of Section 1 by its tag and occurrence, from 1. The answer is the part of the record that holds the
 * field's bytes, without its tag and length. Refusals 1 to 6, then 10; tag 255 and occurrence 0 are always 10.
 */
ScpPart scp_field(const uint8_t *record, size_t n, uint8_t tag, size_t occurrence);

/* 1 if the two identifiers have the same bytes, all of them; else 0. No number, trimming or folding. Never refused. */
uint8_t scp_same_identifier(const uint8_t *a, size_t an, const uint8_t *b, size_t bn);

/* Finds Section 1, whole with its 16 bytes of header, as a part of the record: where a walk starts. Refusals 1 to 6. */
ScpPart scp_walk_start(const uint8_t *record, size_t n);

/*
 * Shows the field at `at` in a section, which holds its header: the first is at 16. The walk ends at the
 * end mark, at any other tag 255, and where there is no whole field. The section is not judged; any bytes and any place
 * may be given. Never refused.
 */
ScpStep scp_walk_step(const uint8_t *section, size_t n, size_t at);

/*
 * Reads the lead at a place of Section 3, from 1: every sample as it was before it was coded, with the reference beat
 * added back where one was subtracted. The first `count` elements of the output are changed and no others; none on
 * refusal. Nothing is shown of a lead in which anything is wrong.
 *
 * Work space is needed where bit 0 of the flags is 1, an element for each sample of the beat; elsewhere none is. All of
 * what was lent, however long, is zeros once the reading of a beat has begun: with refusals 12 to 14 and with acceptance,
 * where bit 0 is 1. Otherwise it is untouched. Output and work space are lent apart: they share no element.
 *
 * Refusals: the smallest of 1 to 11 that applies; then the beat's stream is read, then the lead's, then the sums are
 * made, and the first fault met decides, 12 to 14. All leads' entries are judged whatever place is asked for; another
 * lead's stream is not met.
 *
 * `compared` is how many code structures were compared: for every code that was read, the place of its structure in its table,
 * from 1, and all of these added up. Switches count like other codes, and where a beat was subtracted its stream counts too,
 * once. In the default table 0 is first, then 1, -1 up to 8, -8, then the remainders of 8 and of 16 bits. Bits left over do
 * not count. It is 0 with a refusal, and in a record without Section 2. It is at most 64 times the bits of the codes, and so
 * at most 64 * 524,280 = 33,553,920 for each stream; there are one or two.
 */
ScpLead scp_read_lead(const uint8_t *record, size_t n, size_t place, int16_t *out, size_t out_n, int16_t *work,
                      size_t work_n);

/* Shows what a record says of the lead at a place of Section 3, from 1, judged as reading is: refusals 1 to 10. */
ScpEntry scp_lead(const uint8_t *record, size_t n, size_t place);

/*
 * 1 if the record breaks the rule of a row, 1 to 9, asked alone; else 0, as for every other row. The answer means its row
 * where the rules of all smaller rows are kept; of other bytes it is 0 or 1, and no more. Never refused.
 */
uint8_t scp_breaks(const uint8_t *record, size_t n, uint8_t row);

/*
 * Codes the samples of a lead, 1 to 65,536 of them, by differences of order 0, 1 or 2. `section2` is Section 2's data with
 * no spare byte; empty data mean that there is no Section 2, and each value then takes two bytes.
 *
 * The stream is the shortest: of all that a reader takes to these samples, starting in table 1, it has the fewest bits,
 * switches counted, and of those equally short it is the one that is smaller at the first differing bit. The first `bytes`
 * bytes of the output are changed and no others; none on refusal. The bits that fill up the last byte are 0.
 *
 * Work space is needed where there is a Section 2: one byte for each sample times each table, tables that are never
 * reached counted; the default table is one. All of what was lent, however long, is zeros once the search has begun: with
 * refusals 15, 16 and 11 for the output, and with acceptance. Otherwise, and always without Section 2, it is untouched.
 * Output and work space are lent apart: they share no byte with each other, nor with what is read.
 *
 * Refusals, the first that applies: 17, 7, 11 for the work space, 15, 16, 11 for the output.
 */
ScpCoded scp_encode_lead(const uint8_t *section2, size_t n2, const int16_t *samples, size_t n, uint8_t order,
                         uint8_t *work, size_t work_n, uint8_t *out, size_t out_n);

/*
 * Writes a record with Sections 0, 1, 2 (if it is given), 3 and 6.
 *
 * `section1` is Section 1's data up to its end mark, FF 00 00, and nothing after it; more is 6. `section2` is Section 2's
 * data with no spare byte; empty data mean that there is no Section 2; more is 7. Lead k has first sample number `firsts[k]`,
 * `counts[k]` samples and ID `ids[k]`: nf, nc and ni are equal, 1 to 32. The samples of all leads follow one another in
 * `samples`, ns of them. `order` is that of the differences stored; each lead's stream is the one of scp_encode_lead.
 *
 * The record has twelve pointers, those of absent sections with index 0; the sections follow by rising ID without gaps;
 * `version` is in both version bytes of each; Section 3 has `flags` with bit 0 cleared; bimodal, reserved and spare bytes are
 * 0; all CRCs are set. scp_open accepts what is written, scp_field shows it byte for byte, and scp_read_lead gives it back
 * sample for sample. The first `bytes` bytes of the output are changed and no others; none on refusal.
 *
 * Work space is needed where there is a Section 2: one byte for each sample of the longest lead times each table, tables that
 * are never reached counted; the default table is one. All of what was lent, however long, is zeros once a search has begun:
 * with refusals 15, 16 and 11 for the output, and with acceptance. Otherwise, and always without Section 2, it is untouched.
 * Output and work space are lent apart: they share no byte with each other, nor with what is read.
 *
 * Refusals, the first that applies: 17, 6, 7, 11 for the work space, 15 for any of the leads, 16, 11 for the output.
 */
ScpWritten scp_write_record(const uint8_t *section1, size_t n1, const uint8_t *section2, size_t n2, uint8_t version,
                            uint8_t flags, uint16_t step, uint16_t interval, uint8_t order, const uint32_t *firsts, size_t nf,
                            const uint32_t *counts, size_t nc, const uint8_t *ids, size_t ni, const int16_t *samples,
                            size_t ns, uint8_t *work, size_t work_n, uint8_t *out, size_t out_n);

/*
 * An index is a buffer whose first `used` bytes are entries, each behind the one before it; that of no records has `used` 0.
 * An entry is five bytes and the identifier without its NUL. The five hold, most significant bit first: the identifier's
 * length in 6 bits (1 to 63), the year in 16, the month in 4 (1 to 12), the day in 5 (1 to 31), the leads in 8 (0 to 32) and
 * one bit that is 0. Entries are sorted by the identifier's bytes, a shorter one before a longer one that begins with it, then
 * by year, month and day; equal ones stand in order of arrival. Adding, looking up and merging judge all bytes in use.
 */

/*
 * Adds a record to an index: the identifier of tag 2, the date of tag 25, and how many leads Section 3 has, 0 where it is
 * absent. The entry is put behind all that are not greater, and those after it move on; the answer is how many bytes are then
 * in use. They are what adding all these records to an empty index gives, in order of arrival. No byte behind them is changed,
 * and none at all on refusal. A refusal answers `used` 0, as it answers nothing else: what was in use still is.
 *
 * Refusals, the first that applies: 26, 1 to 6 of the record, 8 if Section 3 is present and breaks its rules or bounds, 24, 11
 * if the entry has no room. Sections 2, 4, 5 and 6 are not asked for theirs.
 */
ScpIndexed scp_index_add(uint8_t *index, size_t n, size_t used, const uint8_t *record, size_t m);

/*
 * Looks up an identifier, lent without its NUL: the answer is the part of the index that holds all of its entries and no
 * others. Where it has none, start and length are 0. Identifiers are compared as by scp_same_identifier. Refusal 26.
 */
ScpPart scp_index_find(const uint8_t *index, size_t n, size_t used, const uint8_t *identifier, size_t k);

/*
 * Shows the entry at `at` in an index of which all n bytes are in use: the first is at 0. There is none at the end, and none
 * where no whole entry by these rules stands. The order is not judged; any bytes and any place may be given. Never refused.
 */
ScpIndexEntry scp_index_step(const uint8_t *index, size_t n, size_t at);

/*
 * Merges two indexes, each with all of its bytes in use: the output is then the index of both. The entries of both stand in
 * order, those of `a` before equal ones of `b`; entries are equal if identifier and date are, whatever their leads. If the
 * records of `a` arrived before those of `b`, the index is what adding all of them to an empty one gives, in order of arrival.
 * The answer is how many bytes it has, an + bn. The first an + bn bytes of the output are changed and no others; none on
 * refusal. The time that it takes is linear in an + bn.
 *
 * Refusals, the first that applies: 26 if either is no index, 11 if the output has fewer than an + bn bytes.
 */
ScpIndexed scp_index_merge(const uint8_t *a, size_t an, const uint8_t *b, size_t bn, uint8_t *out, size_t out_n);

#ifdef __cplusplus
}
#endif

#endif
