/*
 * opening.c: opening a record, its fields, the walk over them, the refusals of a record, and the calls that refuse nothing.
 */
#include "check.h"

/* ---- a small record: Section 0 with twelve pointers, then Section 1 with five fields; 189 bytes with one after them */

enum {
    SIZE = 189,         /* an odd length of the record: the last byte is in no section */
    SECTION_0 = 6,      /* where the sections start, from 0 */
    SECTION_1 = 142,
    LENGTH_0 = 136,
    LENGTH_1 = 46,
    POINTER_1 = SECTION_0 + 16 + 10
};

static uint8_t record[SIZE];

static void put(size_t at, unsigned width, uint32_t number) {
    while (width--) {
        record[at++] = (uint8_t)number;
        number >>= 8;
    }
}

static void seal_section(size_t start, size_t length) { put(start, 2, check_of(record + start + 2, length - 2)); }
static void seal_record(void) { put(0, 2, check_of(record + 2, SIZE - 2)); }

/* Puts every check right, sections before the record. */
static void seal(void) {
    seal_section(SECTION_0, LENGTH_0);
    seal_section(SECTION_1, LENGTH_1);
    seal_record();
}

static void header(size_t start, uint32_t id, uint32_t length) {
    put(start + 2, 2, id);
    put(start + 4, 4, length);
    put(start + 8, 2, 0x0D0D);
}

static void pointer(uint32_t id, uint32_t length, uint32_t index) {
    size_t at = SECTION_0 + 16 + 10 * (size_t)id;
    put(at, 2, id);
    put(at + 2, 4, length);
    put(at + 6, 4, index);
}

static void make(void) {
    memset(record, 0, sizeof record);
    put(2, 4, SIZE);
    header(SECTION_0, 0, LENGTH_0);
    memcpy(record + SECTION_0 + 10, "SCPECG", 6);
    for (uint32_t id = 0; id < POINTERS; id++) pointer(id, 0, id); /* absent, with an index that means nothing */
    pointer(0, LENGTH_0, SECTION_0 + 1);
    pointer(1, LENGTH_1, SECTION_1 + 1);
    header(SECTION_1, 1, LENGTH_1);
    memcpy(record + SECTION_1 + 16, fields, sizeof fields);
    seal();
}

/* ---- what is asked of an accepted record */

static void accepted(void) {
    uint8_t before[SIZE];
    make();
    memcpy(before, record, SIZE);

    ScpOpened opened = open_guarded(record, SIZE);
    EXPECT(opened.refusal == 0);
    EXPECT(opened.count == POINTERS);
    for (uint32_t id = 0; id < POINTERS; id++) {
        const uint32_t *stored = room + GUARDS + 3 * id;
        EXPECT(stored[0] == id);
        EXPECT(stored[1] == (id == 0 ? LENGTH_0 : id == 1 ? LENGTH_1 : 0));
        EXPECT(stored[2] == (id == 0 ? SECTION_0 + 1 : id == 1 ? SECTION_1 + 1 : id));
    }
    EXPECT(rest_is_untouched(3 * POINTERS));

    ScpPart part = scp_field(record, SIZE, 2, 1);
    EXPECT(part.refusal == 0);
    EXPECT(part.start == SECTION_1 + 19);
    EXPECT(part.length == 4);
    EXPECT(memcmp(record + part.start, "007", 4) == 0);
    part = scp_field(record, SIZE, 14, 1);
    EXPECT(part.refusal == 0);
    EXPECT(part.start == SECTION_1 + 26);
    EXPECT(part.length == 0);

    part = scp_walk_start(record, SIZE);
    EXPECT(part.refusal == 0);
    EXPECT(part.start == SECTION_1);
    EXPECT(part.length == LENGTH_1);

    EXPECT(memcmp(before, record, SIZE) == 0);
}

/* Asks for fields that are not there. */
static void no_such_field(void) {
    static const struct { uint8_t tag; size_t occurrence; } asked[] = {
        {2, 2}, {2, 0}, {2, SIZE_MAX}, {3, 1}, {255, 1}, {255, 0}, {0, 0}
    };
    make();
    for (size_t k = 0; k < sizeof asked / sizeof asked[0]; k++) {
        ScpPart part = scp_field(record, SIZE, asked[k].tag, asked[k].occurrence);
        EXPECT(part.refusal == SCP_REFUSED_ABSENT);
        EXPECT(part.start == 0);
        EXPECT(part.length == 0);
    }
}

/* ---- the walk */

static void walk_ends(const uint8_t *section, size_t n, size_t at) {
    ScpStep step = scp_walk_step(section, n, at);
    EXPECT(step.more == 0);
    EXPECT(step.tag == 0);
    EXPECT(step.start == 0);
    EXPECT(step.length == 0);
    EXPECT(step.next == at);
}

static void walk(void) {
    static const uint8_t tags[] = {2, 14, 25, 26, 30};
    make();
    const uint8_t *section = record + SECTION_1;
    size_t at = 16;
    for (size_t k = 0; k < sizeof tags; k++) {
        ScpStep step = scp_walk_step(section, LENGTH_1, at);
        EXPECT(step.more == 1);
        EXPECT(step.tag == tags[k]);
        EXPECT(step.start == at + 3);
        EXPECT(step.length == section[at + 1]);
        EXPECT(step.next == step.start + step.length);
        at = step.next;
    }
    EXPECT(section[at] == 255);
    walk_ends(section, LENGTH_1, at);
    walk_ends(section, LENGTH_1, LENGTH_1);
    walk_ends(section, LENGTH_1, SIZE_MAX);
    walk_ends(section, 0, 0);
    walk_ends(section + 16, 6, 0); /* the end cuts off the last of the field's seven bytes */
    EXPECT(scp_walk_step(section + 16, 7, 0).more == 1);
}

/* ---- refusals: each asked of every call that judges a record */

static void refused(uint8_t number, const uint8_t *bytes, size_t n) {
    static uint8_t before[SIZE + 1];
    memcpy(before, bytes, n);

    ScpOpened opened = open_guarded(bytes, n);
    EXPECT(opened.refusal == number);
    EXPECT(opened.count == 0);
    EXPECT(rest_is_untouched(0));

    ScpPart part = scp_field(bytes, n, 2, 1);
    EXPECT(part.refusal == number);
    EXPECT(part.start == 0);
    EXPECT(part.length == 0);
    part = scp_walk_start(bytes, n);
    EXPECT(part.refusal == number);
    EXPECT(part.start == 0);
    EXPECT(part.length == 0);

    EXPECT(memcmp(before, bytes, n) == 0);
}

static void refusals(void) {
    make();
    refused(SCP_REFUSED_LENGTH, record, 0);
    refused(SCP_REFUSED_LENGTH, record, 141);
    refused(SCP_REFUSED_LENGTH, record, SIZE - 1);

    make();
    record[1] ^= 1;
    refused(SCP_REFUSED_RECORD_CHECK, record, SIZE);

    make();
    record[SECTION_0 + 10] = 's';
    seal();
    refused(SCP_REFUSED_SECTION_0, record, SIZE);

    make();
    put(POINTER_1 + 2, 4, 0); /* Section 1 absent */
    seal();
    refused(SCP_REFUSED_PLACES, record, SIZE);

    make();
    record[SECTION_1] ^= 1;
    seal_record();
    refused(SCP_REFUSED_SECTION_CHECK, record, SIZE);

    make();
    record[SECTION_1 + 22] = '!'; /* the identifier without its NUL */
    seal();
    refused(SCP_REFUSED_SECTION_1, record, SIZE);
}

/* ---- calls that refuse nothing */

static void plain(void) {
    static const uint8_t digits[] = "123456789";
    EXPECT(scp_crc(digits, 9) == 0x29B1);
    EXPECT(scp_crc(digits, 0) == 0xFFFF);
    make();
    EXPECT(scp_crc(record, SIZE) == check_of(record, SIZE));

    static const uint8_t a[] = {'0', '0', '7', 0}, b[] = {'7', 0}, c[] = {'0', '0', '7', 0};
    EXPECT(scp_same_identifier(a, 4, c, 4) == 1);
    EXPECT(scp_same_identifier(a, 4, b, 2) == 0);
    EXPECT(scp_same_identifier(a, 4, a, 3) == 0);
    EXPECT(scp_same_identifier(a, 3, a, 4) == 0);
    EXPECT(scp_same_identifier(a, 0, b, 0) == 1);
}

void check_opening(void) {
    accepted();
    no_such_field();
    walk();
    refusals();
    plain();
}
