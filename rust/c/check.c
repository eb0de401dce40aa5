/*
 * check.c: the library as a C program sees it. Calls every function of scp.h on a small record and on damaged ones, and
 * looks at each answer and at the memory around it, so that header and archive cannot part.
 *
 * The right answers are written in these files by hand from the rules; the CRCs of the records are made by a loop of this
 * file's own. Leads are read from files of samples/, and indexes made of them; the folder is named on the command line.
 */
#include "check.h"

/* ---- counting */

static unsigned checks, failures;

void expect(int holds, const char *file, int line, const char *words) {
    checks++;
    if (holds) return;
    failures++;
    fprintf(stderr, "%s:%d: does not hold: %s\n", file, line, words);
}

/* ---- bytes to start from */

const uint8_t fields[30] = {
    2,  4, 0, '0', '0', '7', 0, /* the identifier 007 */
    14, 0, 0,                   /* an empty field */
    25, 4, 0, 0xE9, 7, 3, 14,
    26, 3, 0, 9, 26, 53,
    30, 1, 0, 'x',              /* a remark */
    255, 0, 0
};

const uint8_t default_table[2] = {0x1F, 0x4E};

uint16_t check_of(const uint8_t *p, size_t n) {
    unsigned sum = 0xFFFF;
    while (n--) {
        sum ^= (unsigned)*p++ << 8;
        for (int bit = 0; bit < 8; bit++) sum = (sum & 0x8000 ? sum << 1 ^ 0x1021 : sum << 1) & 0xFFFF;
    }
    return (uint16_t)sum;
}

static const char *samples;

uint8_t file[FILE_MAX];
size_t file_size;

void load(const char *name) {
    char path[4096];
    snprintf(path, sizeof path, "%s/%s", samples, name);
    FILE *from = fopen(path, "rb");
    if (!from) {
        perror(path);
        exit(2);
    }
    file_size = fread(file, 1, FILE_MAX, from);
    fclose(from);
}

/* ---- lent memory, with guards on both sides */

#define GUARD 0xA5C3A5C3u

uint32_t room[GUARDS + SCP_POINTERS_ROOM + GUARDS];

int rest_is_untouched(size_t changed) {
    for (size_t k = 0; k < sizeof room / sizeof room[0]; k++)
        if ((k < GUARDS || k >= GUARDS + changed) && room[k] != GUARD) return 0;
    return 1;
}

ScpOpened open_guarded(const uint8_t *bytes, size_t n) {
    for (size_t k = 0; k < sizeof room / sizeof room[0]; k++) room[k] = GUARD;
    return scp_open(bytes, n, room + GUARDS);
}

uint8_t code_work[GUARDS + CODE_ROOM + GUARDS];

int work_is_cleared(size_t cleared) {
    for (size_t k = 0; k < sizeof code_work; k++) {
        uint8_t right = k >= GUARDS && k < GUARDS + cleared ? 0 : CODE_GUARD;
        if (code_work[k] != right) return 0;
    }
    return 1;
}

int main(int count, char **words) {
    if (count != 2) {
        fprintf(stderr, "usage: c-check SAMPLES\n");
        return 2;
    }
    samples = words[1];
    check_opening();
    check_leads();
    check_encoding();
    check_writing();
    check_index();
    printf("c: %u checks\n", checks);
    if (failures) printf("c: %u FAILED\n", failures);
    return failures != 0;
}
