/*
 * leads.c: what a record says of a lead, and reading it. The records are those of samples/.
 */
#include "check.h"

enum { LEAD_ROOM = 64 };
static const int16_t LEAD_GUARD = 0x5A3C;

/* Output and work space, with guards on both sides. */
static int16_t out[GUARDS + LEAD_ROOM + GUARDS], work[GUARDS + LEAD_ROOM + GUARDS];

static ScpLead read_guarded(size_t place, size_t out_n, size_t work_n) {
    static uint8_t before[FILE_MAX];
    memcpy(before, file, file_size);
    for (size_t k = 0; k < sizeof out / sizeof out[0]; k++) out[k] = work[k] = LEAD_GUARD;
    ScpLead lead = scp_read_lead(file, file_size, place, out + GUARDS, out_n, work + GUARDS, work_n);
    EXPECT(memcmp(before, file, file_size) == 0);
    return lead;
}

/* Whether the room holds these numbers first, and guards in all else. */
static int room_holds(const int16_t *at, const int16_t *numbers, size_t count) {
    for (size_t k = 0; k < GUARDS + LEAD_ROOM + GUARDS; k++) {
        int16_t right = k >= GUARDS && k < GUARDS + count ? numbers[k - GUARDS] : LEAD_GUARD;
        if (at[k] != right) return 0;
    }
    return 1;
}

static const int16_t zeros[LEAD_ROOM];

/* Asks for a lead that is refused: nothing is shown, and `cleared` elements of the work space are zeros. */
static void lead_refused(uint8_t number, size_t place, size_t out_n, size_t work_n, size_t cleared) {
    ScpLead lead = read_guarded(place, out_n, work_n);
    EXPECT(lead.refusal == number);
    EXPECT(lead.id == 0 && lead.flags == 0 && lead.step == 0 && lead.interval == 0);
    EXPECT(lead.first == 0 && lead.count == 0 && lead.compared == 0);
    EXPECT(room_holds(out, zeros, 0));
    EXPECT(room_holds(work, zeros, cleared));
}

/* Reads a lead and holds it to these samples, and to how many structures are compared. */
static void lead_is(size_t place, size_t out_n, size_t work_n, size_t cleared, uint8_t id, uint8_t flags, uint32_t first,
                    const int16_t *numbers, uint32_t count, uint32_t compared) {
    ScpLead lead = read_guarded(place, out_n, work_n);
    EXPECT(lead.refusal == 0);
    EXPECT(lead.id == id);
    EXPECT(lead.flags == flags);
    EXPECT(lead.step == 5000);
    EXPECT(lead.interval == 2000);
    EXPECT(lead.first == first);
    EXPECT(lead.count == count);
    EXPECT(lead.compared == compared);
    EXPECT(room_holds(out, numbers, count));
    EXPECT(room_holds(work, zeros, cleared));
}

/* Checks what a record says of a lead; all is 0 if it is refused. */
static void entry_is(size_t place, ScpEntry right) {
    ScpEntry entry = scp_lead(file, file_size, place);
    EXPECT(entry.refusal == right.refusal);
    EXPECT(entry.id == right.id && entry.flags == right.flags && entry.order == right.order);
    EXPECT(entry.step == right.step && entry.interval == right.interval);
    EXPECT(entry.first == right.first && entry.last == right.last);
    EXPECT(entry.leads == right.leads && entry.bytes == right.bytes);
}

/* The smallest row that is broken, all rows asked one by one; 0 if none is. */
static unsigned broken_row(void) {
    for (unsigned row = 0; row < 256; row++)
        if (scp_breaks(file, file_size, (uint8_t)row)) return row;
    return 0;
}

/* Without Section 2: no structure is compared. */
static void two_bytes_a_value(void) {
    static const int16_t one[] = {10, 12, 13, 15, 18, 22, 20, 15}, two[] = {-3, -3, -2, -1, 4, 0, -1, -1};
    load("two-leads.scp");
    lead_is(1, 8, 0, 0, 1, 0, 1, one, 8, 0);
    lead_is(2, 8, 0, 0, 2, 0, 1, two, 8, 0);
    lead_is(2, LEAD_ROOM, LEAD_ROOM, 0, 2, 0, 1, two, 8, 0); /* no beat: the work space is untouched */
    lead_refused(SCP_REFUSED_ROOM, 1, 7, 0, 0);
    lead_refused(SCP_REFUSED_ROOM, 1, 0, LEAD_ROOM, 0);
    lead_refused(SCP_REFUSED_ABSENT, 0, LEAD_ROOM, LEAD_ROOM, 0);
    lead_refused(SCP_REFUSED_ABSENT, 3, LEAD_ROOM, LEAD_ROOM, 0);
    lead_refused(SCP_REFUSED_ABSENT, SIZE_MAX, LEAD_ROOM, LEAD_ROOM, 0);
    entry_is(2, (ScpEntry){.id = 2, .order = 1, .step = 5000, .interval = 2000, .first = 1, .last = 8, .leads = 2, .bytes = 16});
    entry_is(0, (ScpEntry){.refusal = SCP_REFUSED_ABSENT});
    entry_is(3, (ScpEntry){.refusal = SCP_REFUSED_ABSENT});
    EXPECT(broken_row() == 0);
}

/*
 * The stream of EC71's own example, with both its switches; then one that switches once, and is read by table 2. The switches
 * are at place 6 of table 1 and at place 5 of table 2.
 */
static void own_tables(void) {
    static const int16_t one[] = {1, 2, -1, 0, 3, 0, 4, 1, 0, -2, 0, 15, -1, 0, 13, 0, 1, -2, -1, 1};
    static const int16_t two[] = {15, 15, 0, -128, 127, 1, 1, 1};
    enum {
        BEFORE = 2 + 4 + 3 + 1 + 7 + 1 + 7 + 2 + 1 + 5,
        IN_TABLE_2 = 2 + 1 + 4 + 2 + 1,
        AFTER = 1 + 2 + 5 + 3 + 2,
        ALL_IN_TABLE_2 = 1 + 1 + 2 + 1 + 1 + 3 + 3 + 3
    };
    EXPECT(BEFORE + 6 + IN_TABLE_2 + 5 + AFTER == 67);
    load("own-tables.scp");
    lead_is(1, 20, 0, 0, 1, 0, 1, one, 20, 67);
    lead_is(2, 8, 0, 0, 2, 0, 7, two, 8, 6 + ALL_IN_TABLE_2);
    entry_is(1, (ScpEntry){.id = 1, .step = 5000, .interval = 2000, .first = 1, .last = 20, .leads = 2, .bytes = 12});
}

/*
 * The structures compared for the beats of beat.scp, 0 4 40 90 60 -20 -5 0 and 0 2 30 120 80 -10 -4 1. In the default table 0 is
 * at place 1, k at 2k, -k at 2k + 1, and every other number of 8 bits at 18.
 */
enum { BEAT_1 = 1 + 8 + 4 * 18 + 11 + 1, BEAT_2 = 1 + 4 + 4 * 18 + 9 + 2 };

/*
 * A beat of eight samples, added to samples 3 to 10 and 26 to 32 of a lead that has 5 to 30. Its stream counts once; the
 * residual's first differences are -2, then 1 four times and -4, over and over.
 */
static void subtracted_beat(void) {
    static const int16_t two[] = {28, 119, 80, -9, -2, -1, -1, 0, 1, 2, -2, -1, 0, 1, 2, -2, -1, 0, 1, 2, -2, 1, 30, 121, 82, -12};
    enum { COMPARED = BEAT_2 + 5 + 20 * 2 + 5 * 9 };
    EXPECT(COMPARED == 178);
    load("beat.scp");
    lead_is(2, 26, 8, 8, 2, 5, 5, two, 26, COMPARED);
    lead_is(2, LEAD_ROOM, LEAD_ROOM, LEAD_ROOM, 2, 5, 5, two, 26, COMPARED); /* all of the work space is zeros */
    lead_refused(SCP_REFUSED_ROOM, 2, 26, 7, 0);
    lead_refused(SCP_REFUSED_ROOM, 2, 25, 8, 0);
    lead_refused(SCP_REFUSED_ROOM, 2, 26, 0, 0);
}

/*
 * Streams padded to an even number of bytes, in Sections 5 and 6: each lead is read to what it is in beat.scp. Padding is not
 * compared; the residual's second differences are -2 -1, then 0 three times, -5 and 5, over and over.
 */
static void padded_streams(void) {
    static const uint32_t compared[] = {BEAT_1 + 5 + 3 + 24 + 7 * 11 + 7 * 10, BEAT_2 + 5 + 3 + 15 + 5 * 11 + 4 * 10};
    EXPECT(compared[0] == 272 && compared[1] == 206);
    for (size_t place = 1; place <= 2; place++) {
        int16_t numbers[LEAD_ROOM];
        load("beat.scp");
        ScpLead lead = read_guarded(place, LEAD_ROOM, LEAD_ROOM);
        EXPECT(lead.refusal == 0 && lead.count == (place == 1 ? 40 : 26));
        EXPECT(lead.compared == (place == 1 ? 225 : 178));
        memcpy(numbers, out + GUARDS, sizeof numbers);
        load("padded.scp");
        lead_is(place, lead.count, 8, 8, lead.id, lead.flags, lead.first, numbers, lead.count, compared[place - 1]);
        EXPECT(scp_lead(file, file_size, place).bytes % 2 == 0);
    }
    EXPECT(broken_row() == 0);
}

/* Records that open, and are refused in all leads or in the second. */
static void refused_leads(void) {
    static const struct { const char *name; uint8_t number; size_t cleared; } asked[] = {
        {"refused-7.scp", SCP_REFUSED_SECTION_2, 0},
        {"refused-8.scp", SCP_REFUSED_SECTIONS_3_TO_6, 0},
        {"refused-9.scp", SCP_REFUSED_BIMODAL_STEP_INTERVAL, 0},
        {"refused-10.scp", SCP_REFUSED_ABSENT, 0},
        {"refused-12.scp", SCP_REFUSED_CODE, 0},
        {"refused-13.scp", SCP_REFUSED_SAMPLE, LEAD_ROOM},
        {"refused-14.scp", SCP_REFUSED_LEFT_OVER_BITS, 0}
    };
    for (size_t k = 0; k < sizeof asked / sizeof asked[0]; k++) {
        uint8_t number = asked[k].number;
        load(asked[k].name);
        EXPECT(open_guarded(file, file_size).refusal == 0);
        lead_refused(number, 2, LEAD_ROOM, LEAD_ROOM, asked[k].cleared);
        EXPECT(broken_row() == (number <= SCP_REFUSED_BIMODAL_STEP_INTERVAL ? number : 0));
        EXPECT(scp_lead(file, file_size, 2).refusal == (number <= SCP_REFUSED_ABSENT ? number : 0));
        if (number > SCP_REFUSED_ABSENT) {
            ScpLead other = read_guarded(1, LEAD_ROOM, LEAD_ROOM);
            EXPECT(other.refusal == 0 && other.compared > 0);
        }
    }
    for (char number = '1'; number <= '6'; number++) {
        char name[] = "refused-N.scp";
        name[8] = number;
        load(name);
        lead_refused((uint8_t)(number - '0'), 1, LEAD_ROOM, LEAD_ROOM, 0);
        entry_is(1, (ScpEntry){.refusal = (uint8_t)(number - '0')});
        EXPECT(broken_row() == (unsigned)(number - '0'));
    }
}

void check_leads(void) {
    EXPECT(sizeof(ScpLead) == 20 && offsetof(ScpLead, compared) == 16);
    two_bytes_a_value();
    own_tables();
    subtracted_beat();
    padded_streams();
    refused_leads();
}
