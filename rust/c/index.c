/*
 * index.c: the index: adding records, looking identifiers up, the steps over the entries, and merging. The records are
 * those of samples/, all of 2024-03-14, some with a byte changed.
 */
#include "check.h"

enum {
    INDEX_ROOM = 64,
    SECTION_HEADER = 16,
    MONTH = 15, /* where the month and the day are in the data of Section 1, if the identifier has three bytes */
    DAY = 16
};

/* An entry's bytes. */
typedef struct {
    size_t size;
    uint8_t bytes[16];
} Entry;

/* Entries of 2024-03-14, and of 2024-02-31. The first byte has the identifier's length, and the fifth the leads. */
#define DATE_AFTER(first) first, 0x1F, 0xA0, 0xDC
static const Entry february = {8, {0x0C, 0x1F, 0xA0, 0xBE, 0, '0', '0', '7'}};
static const Entry no_leads = {8, {DATE_AFTER(3 << 2), 0, '0', '0', '7'}};
static const Entry two_leads = {8, {DATE_AFTER(3 << 2), 2 << 1, '0', '0', '7'}};
static const Entry six_leads = {8, {DATE_AFTER(3 << 2), 6 << 1, '0', '0', '7'}};
static const Entry seven = {6, {DATE_AFTER(1 << 2), 0, '7'}};
static const Entry c_1204 = {11, {DATE_AFTER(6 << 2), 2 << 1, 'C', '-', '1', '2', '0', '4'}};

/* ---- an index, with guards on both sides and in the room that is not in use */

static uint8_t lent[GUARDS + INDEX_ROOM + GUARDS];
static uint8_t *const index_lent = lent + GUARDS;

/* What is right for all of it, and how much of it is in use. */
static uint8_t right[sizeof lent];
static size_t right_used;

/* Has these entries be right, and guards in all else. */
static void right_is(const Entry *entries, size_t count) {
    memset(right, CODE_GUARD, sizeof right);
    right_used = 0;
    for (size_t k = 0; k < count; k++) {
        memcpy(right + GUARDS + right_used, entries[k].bytes, entries[k].size);
        right_used += entries[k].size;
    }
}

/* Starts with an index of these entries. */
static void start_with(const Entry *entries, size_t count) {
    right_is(entries, count);
    memcpy(lent, right, sizeof lent);
}

/* Adds the file, and holds the answer and all that was lent to these entries. */
static void added(const Entry *entries, size_t count) {
    size_t used = right_used;
    right_is(entries, count);
    ScpIndexed indexed = scp_index_add(index_lent, INDEX_ROOM, used, file, file_size);
    EXPECT(indexed.refusal == 0);
    EXPECT(indexed.used == right_used);
    EXPECT(memcmp(lent, right, sizeof lent) == 0);
}

static void add_refused(uint8_t refusal, size_t n, size_t used) {
    ScpIndexed indexed = scp_index_add(index_lent, n, used, file, file_size);
    EXPECT(indexed.refusal == refusal);
    EXPECT(indexed.used == 0);
    EXPECT(memcmp(lent, right, sizeof lent) == 0);
}

static void found_is(size_t n, size_t used, const char *identifier, size_t k, ScpPart asked) {
    ScpPart part = scp_index_find(index_lent, n, used, (const uint8_t *)identifier, k);
    EXPECT(part.refusal == asked.refusal);
    EXPECT(part.start == asked.start && part.length == asked.length);
    EXPECT(memcmp(lent, right, sizeof lent) == 0);
}

/* ---- records with a byte changed */

static void seal(uint8_t *start, size_t length) {
    uint16_t check = check_of(start + 2, length - 2);
    start[0] = (uint8_t)check;
    start[1] = (uint8_t)(check >> 8);
}

/* Changes a byte in the data of a section of the file, and puts the checks right. */
static void change(unsigned section, size_t at, uint8_t byte) {
    EXPECT(open_guarded(file, file_size).refusal == 0);
    const uint32_t *stored = room + GUARDS + 3 * section;
    uint8_t *start = file + stored[2] - 1;
    start[SECTION_HEADER + at] = byte;
    seal(start, stored[1]);
    seal(file, file_size);
}

/* ---- what is asked */

/* Records that arrive in no order, and the index after each. */
static void adding(void) {
    start_with(NULL, 0);
    load("two-leads.scp");
    added((Entry[]){c_1204}, 1);
    load("limb-leads.scp");
    added((Entry[]){six_leads, c_1204}, 2);
    load("7.scp");
    added((Entry[]){six_leads, seven, c_1204}, 3);
    load("007.scp"); /* as great as the entry with six leads: it comes behind it */
    added((Entry[]){six_leads, no_leads, seven, c_1204}, 4);
    change(1, MONTH, 2);
    change(1, DAY, 31);
    added((Entry[]){february, six_leads, no_leads, seven, c_1204}, 5);
}

/* Lookups in the index that `adding` leaves: 24 bytes of 007, 6 of 7, 11 of C-1204. */
static void looking_up(void) {
    EXPECT(right_used == 41);
    found_is(INDEX_ROOM, 41, "007", 3, (ScpPart){0, 0, 24});
    found_is(41, 41, "7", 1, (ScpPart){0, 24, 6});
    found_is(41, 41, "C-1204", 6, (ScpPart){0, 30, 11});
    found_is(41, 41, "C-120", 5, (ScpPart){0, 0, 0});
    found_is(41, 41, "C-1204", 7, (ScpPart){0, 0, 0}); /* with its NUL */
    found_is(41, 41, NULL, 0, (ScpPart){0, 0, 0});
    found_is(INDEX_ROOM, 30, "C-1204", 6, (ScpPart){0, 0, 0});
    found_is(INDEX_ROOM, 0, "007", 3, (ScpPart){0, 0, 0});
    found_is(40, 41, "007", 3, (ScpPart){SCP_REFUSED_INDEX, 0, 0});
    found_is(41, 40, "007", 3, (ScpPart){SCP_REFUSED_INDEX, 0, 0});
    found_is(INDEX_ROOM, SIZE_MAX, "007", 3, (ScpPart){SCP_REFUSED_INDEX, 0, 0});
}

/* Steps over the index that `adding` leaves. */
static void steps(void) {
    static const uint8_t days[] = {31, 14, 14, 14, 14}, leads[] = {0, 6, 0, 0, 2}, lengths[] = {3, 3, 3, 1, 6};
    size_t at = 0;
    for (size_t k = 0; k < sizeof days; k++) {
        ScpIndexEntry entry = scp_index_step(index_lent, 41, at);
        EXPECT(entry.more == 1 && entry.year == 2024 && entry.month == (k == 0 ? 2 : 3));
        EXPECT(entry.day == days[k] && entry.leads == leads[k]);
        EXPECT(entry.start == at + 5 && entry.length == lengths[k]);
        EXPECT(entry.next == entry.start + entry.length);
        at = entry.next;
    }
    EXPECT(at == 41);
}

/* Where there is no entry, nothing is shown; and an index of these bytes is none. */
static void no_entry(const uint8_t *bytes, size_t n, size_t at) {
    ScpIndexEntry entry = scp_index_step(bytes, n, at);
    EXPECT(entry.more == 0 && entry.year == 0 && entry.month == 0 && entry.day == 0 && entry.leads == 0);
    EXPECT(entry.start == 0 && entry.length == 0);
    EXPECT(entry.next == at);
    if (at == 0 && n != 0) EXPECT(scp_index_find(bytes, n, n, bytes, 0).refusal == SCP_REFUSED_INDEX);
}

static void broken_entries(void) {
    static const struct { size_t at; uint8_t byte; } broken[] = {
        {0, 0x00}, {0, 0x10},         /* an identifier of no bytes, and of one more than there are */
        {7, 0}, {3, 0x1C}, {2, 0xA3}, /* a NUL in it; months 0 and 15 */
        {3, 0xC0}, {4, 66}, {4, 1}    /* day 0; 33 leads; the last bit */
    };
    for (size_t k = 0; k < sizeof broken / sizeof broken[0]; k++) {
        Entry entry = no_leads;
        EXPECT(scp_index_step(entry.bytes, entry.size, 0).more == 1);
        entry.bytes[broken[k].at] = broken[k].byte;
        no_entry(entry.bytes, entry.size, 0);
    }
    const uint8_t *whole = no_leads.bytes;
    no_entry(whole, 7, 0);
    no_entry(whole, 4, 0);
    no_entry(whole, 0, 0);
    no_entry(whole, 8, 8);
    no_entry(whole, 8, SIZE_MAX);
}

/* Refusals in their order; each leaves the index as it is. */
static void refusals(void) {
    load("refused-1.scp");
    start_with((Entry[]){seven, no_leads}, 2);
    add_refused(SCP_REFUSED_INDEX, INDEX_ROOM, right_used);
    start_with(&no_leads, 1);
    add_refused(SCP_REFUSED_INDEX, INDEX_ROOM, 7);
    add_refused(SCP_REFUSED_INDEX, 7, 8);
    for (char number = '1'; number <= '6'; number++) {
        char name[] = "refused-N.scp";
        name[8] = number;
        load(name);
        add_refused((uint8_t)(number - '0'), INDEX_ROOM, 8);
    }
    load("limb-leads.scp");
    change(1, MONTH, 13);
    add_refused(SCP_REFUSED_DATE, 8, 8);
    change(3, 0, 7); /* seven leads, of which six are there */
    add_refused(SCP_REFUSED_SECTIONS_3_TO_6, 8, 8);
    load("007.scp");
    change(1, DAY, 32);
    add_refused(SCP_REFUSED_DATE, 8, 8);
    change(1, DAY, 0);
    add_refused(SCP_REFUSED_DATE, 8, 8);
    change(1, DAY, 14);
    add_refused(SCP_REFUSED_ROOM, 8, 8);
    add_refused(SCP_REFUSED_ROOM, 15, 8);
    EXPECT(scp_index_add(index_lent, 16, 8, file, file_size).used == 16);
}

/* Records that open, and whose leads are refused for another section than Section 3. */
static void section_3_alone_is_asked(void) {
    static const char *const names[] = {"refused-7.scp", "refused-8.scp", "refused-9.scp", "refused-10.scp"};
    for (size_t k = 0; k < sizeof names / sizeof names[0]; k++) {
        load(names[k]);
        start_with(NULL, 0);
        added(&two_leads, 1);
    }
}

/* ---- merging */

/* An index that is lent to be read, with guards on both sides. */
typedef struct {
    size_t used;
    uint8_t lent[GUARDS + INDEX_ROOM + GUARDS];
} Index;

static Index index_of(const Entry *entries, size_t count) {
    Index index;
    right_is(entries, count);
    index.used = right_used;
    memcpy(index.lent, right, sizeof right);
    return index;
}

static int is_same(const Index *index, const Index *before) {
    return memcmp(index->lent, before->lent, sizeof before->lent) == 0;
}

/* Merges two into an output of n bytes, which has guards in it, and holds the answer and all that was lent to what is right:
 * the output is to be `right`. */
static void merge_is(Index a, Index b, size_t n, ScpIndexed asked) {
    const Index a_before = a, b_before = b;
    memset(lent, CODE_GUARD, sizeof lent);
    ScpIndexed merged = scp_index_merge(a.lent + GUARDS, a.used, b.lent + GUARDS, b.used, index_lent, n);
    EXPECT(merged.refusal == asked.refusal);
    EXPECT(merged.used == asked.used);
    EXPECT(memcmp(lent, right, sizeof lent) == 0);
    EXPECT(is_same(&a, &a_before) && is_same(&b, &b_before));
}

/* The index of both has these entries, with just enough room and with more. */
static void merged(Index a, Index b, const Entry *entries, size_t count) {
    right_is(entries, count);
    EXPECT(right_used == a.used + b.used);
    merge_is(a, b, right_used, (ScpIndexed){0, right_used});
    merge_is(a, b, right_used + 1, (ScpIndexed){0, right_used});
    merge_is(a, b, INDEX_ROOM, (ScpIndexed){0, right_used});
}

static void merge_refused(uint8_t refusal, Index a, Index b, size_t n) {
    right_is(NULL, 0);
    merge_is(a, b, n, (ScpIndexed){refusal, 0});
}

static void merging(void) {
    const Index none = index_of(NULL, 0), some = index_of((Entry[]){six_leads, c_1204}, 2);
    merged(none, none, NULL, 0);
    merged(some, none, (Entry[]){six_leads, c_1204}, 2);
    merged(none, some, (Entry[]){six_leads, c_1204}, 2);

    const Index others = index_of((Entry[]){february, no_leads, seven}, 3);
    merged(some, others, (Entry[]){february, six_leads, no_leads, seven, c_1204}, 5);
    /* equal ones of the first index come first */
    merged(others, some, (Entry[]){february, no_leads, six_leads, seven, c_1204}, 5);

    const Index front = index_of((Entry[]){february, two_leads}, 2), back = index_of((Entry[]){two_leads, seven}, 2);
    merged(front, back, (Entry[]){february, two_leads, two_leads, seven}, 4);
    merged(back, front, (Entry[]){february, two_leads, two_leads, seven}, 4);

    /* the same bytes lent twice, and null pointers for indexes of no bytes */
    right_is((Entry[]){seven, seven}, 2);
    memset(lent, CODE_GUARD, sizeof lent);
    EXPECT(scp_index_merge(seven.bytes, seven.size, seven.bytes, seven.size, index_lent, INDEX_ROOM).used == 12);
    EXPECT(memcmp(lent, right, sizeof lent) == 0);
    EXPECT(scp_index_merge(NULL, 0, NULL, 0, NULL, 0).refusal == 0);
    EXPECT(scp_index_merge(NULL, 0, NULL, 0, NULL, 0).used == 0);
}

/* What is merged in runs is what is added one by one: the index that `adding` leaves. */
static void merging_runs(void) {
    uint8_t all[sizeof lent];
    adding();
    memcpy(all, lent, sizeof lent);
    const Index one = index_of(&c_1204, 1), two = index_of((Entry[]){six_leads, seven}, 2);
    const Index three = index_of((Entry[]){february, no_leads}, 2);
    merged(one, two, (Entry[]){six_leads, seven, c_1204}, 3);
    merged(index_of((Entry[]){six_leads, seven, c_1204}, 3), three,
           (Entry[]){february, six_leads, no_leads, seven, c_1204}, 5);
    EXPECT(memcmp(lent, all, sizeof lent) == 0);
    merged(two, three, (Entry[]){february, six_leads, no_leads, seven}, 4);
    merged(one, index_of((Entry[]){february, six_leads, no_leads, seven}, 4),
           (Entry[]){february, six_leads, no_leads, seven, c_1204}, 5);
    EXPECT(memcmp(lent, all, sizeof lent) == 0);
}

static void merging_refused(void) {
    const Index sound = index_of((Entry[]){no_leads, seven}, 2), unsorted = index_of((Entry[]){seven, no_leads}, 2);
    Index cut = sound;
    cut.used--;
    static const size_t rooms[] = {0, 27, 28, INDEX_ROOM};
    for (size_t k = 0; k < sizeof rooms / sizeof rooms[0]; k++) {
        merge_refused(SCP_REFUSED_INDEX, sound, unsorted, rooms[k]);
        merge_refused(SCP_REFUSED_INDEX, unsorted, sound, rooms[k]);
        merge_refused(SCP_REFUSED_INDEX, unsorted, unsorted, rooms[k]);
        merge_refused(SCP_REFUSED_INDEX, sound, cut, rooms[k]);
        merge_refused(SCP_REFUSED_INDEX, cut, sound, rooms[k]);
    }
    merge_refused(SCP_REFUSED_ROOM, sound, sound, 27);
    merge_refused(SCP_REFUSED_ROOM, sound, sound, 14);
    merge_refused(SCP_REFUSED_ROOM, sound, index_of(NULL, 0), 13);
    merge_refused(SCP_REFUSED_ROOM, index_of(NULL, 0), sound, 0);
}

void check_index(void) {
    adding();
    looking_up();
    steps();
    broken_entries();
    refusals();
    section_3_alone_is_asked();
    merging();
    merging_runs();
    merging_refused();
}
