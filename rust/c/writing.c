/*
 * writing.c: writing a record.
 */
#include "check.h"

enum { RECORD_ROOM = 512 };

static uint8_t record_out[GUARDS + RECORD_ROOM + GUARDS];

/* Two leads of different lengths: 14 18 22 22 13 3 -2 from 1 on, and -5 7 from 41 on. */
static const uint32_t write_firsts[] = {1, 41}, write_counts[] = {7, 2};
static const uint8_t write_ids[] = {1, 62};
static const int16_t write_samples[] = {14, 18, 22, 22, 13, 3, -2, -5, 7};

/* The data lent to be written, and how much room. */
typedef struct {
    size_t n1, n2, nf, nc, ni, ns;
    uint16_t step, interval;
    uint8_t order;
    size_t work_n, out_n;
} Writing;

static const Writing whole = {sizeof fields, 2, 2, 2, 2, 9, 5000, 2000, 2, 7, RECORD_ROOM};

static ScpWritten write_guarded(Writing asked) {
    memset(record_out, CODE_GUARD, sizeof record_out);
    memset(code_work, CODE_GUARD, sizeof code_work);
    return scp_write_record(fields, asked.n1, default_table, asked.n2, 13, 0xFF, asked.step, asked.interval, asked.order,
                            write_firsts, asked.nf, write_counts, asked.nc, write_ids, asked.ni, write_samples, asked.ns,
                            code_work + GUARDS, asked.work_n, record_out + GUARDS, asked.out_n);
}

/* Whether all but the first `written` bytes of the output is as it was. */
static int output_is_untouched(size_t written) {
    for (size_t k = 0; k < sizeof record_out; k++)
        if ((k < GUARDS || k >= GUARDS + written) && record_out[k] != CODE_GUARD) return 0;
    return 1;
}

static void write_refused(Writing asked, uint8_t refusal, size_t cleared) {
    ScpWritten written = write_guarded(asked);
    EXPECT(written.refusal == refusal);
    EXPECT(written.bytes == 0);
    EXPECT(output_is_untouched(0));
    EXPECT(work_is_cleared(cleared));
}

/* Checks that the record just written opens, shows its fields and is read back. */
static void written_is_read(uint32_t bytes, uint32_t section_6) {
    const uint8_t *at = record_out + GUARDS;
    EXPECT(check_of(at + 2, bytes - 2) == (at[0] | at[1] << 8));
    ScpOpened opened = open_guarded(at, bytes);
    EXPECT(opened.refusal == 0 && opened.count == POINTERS);
    EXPECT(room[GUARDS + 3 * 6 + 1] == section_6);
    for (unsigned id = 0; id < POINTERS; id++) {
        const uint32_t *stored = room + GUARDS + 3 * id;
        if (stored[1] == 0) EXPECT(stored[2] == 0);
        else EXPECT(at[stored[2] - 1 + 8] == 13 && at[stored[2] - 1 + 9] == 13);
    }
    ScpPart part = scp_field(at, bytes, 2, 1);
    EXPECT(part.refusal == 0 && part.length == 4 && memcmp(at + part.start, "007", 4) == 0);
    for (size_t place = 1, from = 0; place <= 2; place++) {
        int16_t back[8];
        uint32_t count = write_counts[place - 1];
        ScpLead lead = scp_read_lead(at, bytes, place, back, count, NULL, 0);
        EXPECT(lead.refusal == 0 && lead.id == write_ids[place - 1] && lead.flags == 0xFE);
        EXPECT(lead.step == 5000 && lead.interval == 2000);
        EXPECT(lead.first == write_firsts[place - 1] && lead.count == count);
        EXPECT(memcmp(back, write_samples + from, count * sizeof back[0]) == 0);
        EXPECT(scp_lead(at, bytes, place).order == 2);
        from += count;
    }
}

static void with_the_default_table(void) {
    /* Section 1 has 30 bytes of data, Section 3 has 20, Section 6 has 10 and streams of 9 and 3 */
    ScpWritten written = write_guarded(whole);
    EXPECT(written.refusal == 0 && written.bytes == 142 + 46 + 18 + 36 + 38);
    EXPECT(output_is_untouched(written.bytes));
    EXPECT(work_is_cleared(7));
    written_is_read(written.bytes, 38);

    Writing asked = whole;
    asked.out_n = written.bytes;
    EXPECT(write_guarded(asked).refusal == 0);
    asked.out_n--;
    write_refused(asked, SCP_REFUSED_ROOM, 7);
    asked.work_n = CODE_ROOM;
    write_refused(asked, SCP_REFUSED_ROOM, CODE_ROOM); /* all of the work space is zeros */
    asked.work_n = 6;
    write_refused(asked, SCP_REFUSED_ROOM, 0);
    asked.n2 = 1;
    write_refused(asked, SCP_REFUSED_SECTION_2, 0);
    asked.n1--;
    write_refused(asked, SCP_REFUSED_SECTION_1, 0);
    asked.order = 3;
    write_refused(asked, SCP_REFUSED_WRITER_BOUNDS, 0);
}

/* Row 17, one by one. */
static void bounds(void) {
    for (unsigned fault = 0; fault < 8; fault++) {
        Writing asked = whole;
        if (fault == 0) asked.nf = 1;
        if (fault == 1) asked.nc = 1;
        if (fault == 2) asked.ni = 1;
        if (fault == 3) asked.ns = 8;
        if (fault == 4) asked.step = 0;
        if (fault == 5) asked.interval = 0;
        if (fault == 6) asked.order = 255;
        if (fault == 7) asked.nf = asked.nc = asked.ni = asked.ns = 0;
        write_refused(asked, SCP_REFUSED_WRITER_BOUNDS, 0);
    }
}

static void without_tables(void) {
    /* without Section 2 there is no search, and a value takes two bytes */
    Writing asked = whole;
    asked.n2 = 0;
    asked.work_n = CODE_ROOM;
    ScpWritten written = write_guarded(asked);
    EXPECT(written.refusal == 0 && written.bytes == 142 + 46 + 36 + 44);
    EXPECT(output_is_untouched(written.bytes));
    EXPECT(work_is_cleared(0));
    written_is_read(written.bytes, 44);
    asked.out_n = written.bytes - 1;
    write_refused(asked, SCP_REFUSED_ROOM, 0);
}

void check_writing(void) {
    with_the_default_table();
    bounds();
    without_tables();
}
