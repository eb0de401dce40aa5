/*
 * encoding.c: encoding one lead.
 */
#include "check.h"

/* Section 2's data: the two tables of EC71's example. */
static const uint8_t example[] = {
    2, 0,
    7, 0,
    1, 1, 1, 0, 0, 0, 0, 0, 0,          /* 0 is a 0 */
    3, 3, 1, 1, 0, 1, 0, 0, 0,          /* 100 is a 1 */
    3, 3, 1, 0xFF, 0xFF, 5, 0, 0, 0,    /* 101 is a -1 */
    4, 4, 1, 2, 0, 3, 0, 0, 0,          /* 1100 is a 2 */
    4, 4, 1, 0xFE, 0xFF, 11, 0, 0, 0,   /* 1101 is a -2 */
    4, 4, 0, 2, 0, 7, 0, 0, 0,          /* 1110 switches to table 2 */
    4, 12, 1, 0, 0, 15, 0, 0, 0,        /* 1111 has 8 bits after it */
    5, 0,
    1, 9, 1, 0, 0, 0, 0, 0, 0,
    3, 3, 1, 0, 0, 1, 0, 0, 0,
    3, 3, 1, 1, 0, 5, 0, 0, 0,
    3, 3, 1, 0xFF, 0xFF, 3, 0, 0, 0,
    3, 3, 0, 1, 0, 7, 0, 0, 0
};

static uint8_t code_out[GUARDS + CODE_ROOM + GUARDS];

/* Whether the output holds these bytes first, and guards in all else. */
static int output_holds(const uint8_t *bytes, size_t count) {
    for (size_t k = 0; k < sizeof code_out; k++) {
        uint8_t right = k >= GUARDS && k < GUARDS + count ? bytes[k - GUARDS] : CODE_GUARD;
        if (code_out[k] != right) return 0;
    }
    return 1;
}

static const uint8_t no_bytes[CODE_ROOM];

/* The data lent to be encoded, and how much room. */
typedef struct {
    const uint8_t *section2;
    size_t n2;
    const int16_t *numbers;
    size_t n;
    uint8_t order;
    size_t work_n, out_n;
} Asked;

/* Encodes and holds the answer to what is right: the refusal, the stream, and how many bytes of the work space are zeros. */
static void coded_is(Asked asked, uint8_t refusal, const uint8_t *stream, uint32_t bytes, uint32_t bits, size_t cleared) {
    memset(code_out, CODE_GUARD, sizeof code_out);
    memset(code_work, CODE_GUARD, sizeof code_work);
    ScpCoded coded = scp_encode_lead(asked.section2, asked.n2, asked.numbers, asked.n, asked.order, code_work + GUARDS,
                                     asked.work_n, code_out + GUARDS, asked.out_n);
    EXPECT(coded.refusal == refusal);
    EXPECT(coded.bytes == bytes);
    EXPECT(coded.bits == bits);
    EXPECT(output_holds(stream, bytes));
    EXPECT(work_is_cleared(cleared));
}

static void code_refused(Asked asked, uint8_t refusal, size_t cleared) { coded_is(asked, refusal, no_bytes, 0, 0, cleared); }

static void by_the_default_table(void) {
    /* by the default table: FF 83 .. BD are the first 64 bits of the published stream, then come the last 7 of 5 */
    static const int16_t seven[] = {14, 18, 22, 22, 13, 3, -2};
    static const uint8_t seven_coded[] = {0xFF, 0x83, 0xBF, 0xE1, 0x27, 0xBF, 0xF7, 0xBD, 0xF8};
    Asked by_default = {default_table, 2, seven, 7, 2, 7, 9};
    coded_is(by_default, 0, seven_coded, 9, 71, 7);
    by_default.work_n = by_default.out_n = CODE_ROOM;
    coded_is(by_default, 0, seven_coded, 9, 71, CODE_ROOM); /* all of the work space is zeros */
    by_default.out_n = 8;
    code_refused(by_default, SCP_REFUSED_ROOM, CODE_ROOM);
    by_default.work_n = 6;
    code_refused(by_default, SCP_REFUSED_ROOM, 0);
    by_default.n2 = 1;
    code_refused(by_default, SCP_REFUSED_SECTION_2, 0);
    by_default.order = 3;
    code_refused(by_default, SCP_REFUSED_WRITER_BOUNDS, 0);
}

static void by_two_tables(void) {
    /* by two tables: 15 once is 1111 and 8 bits, 15 twice is 1110, then twice 0 and 8 bits */
    static const int16_t fifteen[] = {15, 15};
    static const uint8_t once[] = {0xF0, 0xF0}, twice[] = {0xE0, 0x78, 0x3C};
    coded_is((Asked){example, sizeof example, fifteen, 1, 0, 2, 2}, 0, once, 2, 12, 2);
    coded_is((Asked){example, sizeof example, fifteen, 2, 0, 4, 3}, 0, twice, 3, 22, 4);
    code_refused((Asked){example, sizeof example, fifteen, 2, 0, 3, 3}, SCP_REFUSED_ROOM, 0);
    code_refused((Asked){example, sizeof example, fifteen, 0, 0, 4, 3}, SCP_REFUSED_WRITER_BOUNDS, 0);
}

static void without_stream_or_tables(void) {
    /* a difference of -131070 has no code anywhere */
    static const int16_t widest[] = {-32768, 32767, -32768};
    code_refused((Asked){default_table, 2, widest, 3, 2, CODE_ROOM, CODE_ROOM}, SCP_REFUSED_NO_STREAM, CODE_ROOM);
    code_refused((Asked){default_table, 0, widest, 3, 2, CODE_ROOM, CODE_ROOM}, SCP_REFUSED_NO_STREAM, 0);

    /* without Section 2 there is no search */
    static const uint8_t plain_coded[] = {0, 0x80, 0xFF, 0x7F, 0, 0x80};
    coded_is((Asked){default_table, 0, widest, 3, 0, CODE_ROOM, 6}, 0, plain_coded, 6, 48, 0);
    code_refused((Asked){default_table, 0, widest, 3, 0, 0, 5}, SCP_REFUSED_ROOM, 0);
}

static void too_many_samples(void) {
    static const int16_t many[SCP_SAMPLES_MAX + 1];
    code_refused((Asked){default_table, 0, many, 32768, 0, CODE_ROOM, CODE_ROOM}, SCP_REFUSED_TOO_LONG, 0);
    code_refused((Asked){default_table, 2, many, SCP_SAMPLES_MAX, 0, CODE_ROOM, CODE_ROOM}, SCP_REFUSED_ROOM, 0);
    code_refused((Asked){default_table, 2, many, SCP_SAMPLES_MAX + 1, 0, CODE_ROOM, CODE_ROOM}, SCP_REFUSED_WRITER_BOUNDS, 0);
}

void check_encoding(void) {
    by_the_default_table();
    by_two_tables();
    without_stream_or_tables();
    too_many_samples();
}
