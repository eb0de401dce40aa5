/*
 * check.h: what the parts of the C test share: counting, lent memory with guards around it, and a few bytes to start from.
 */
#ifndef CHECK_H
#define CHECK_H

#include <stdio.h>
#include <stdlib.h>
#include <string.h>

#include "scp.h"

/* ---- counting */

void expect(int holds, const char *file, int line, const char *words);
#define EXPECT(holds) expect((holds), __FILE__, __LINE__, #holds)

/* ---- the parts */

void check_opening(void);
void check_leads(void);
void check_encoding(void);
void check_writing(void);
void check_index(void);

/* ---- bytes to start from */

/* The pointers that a record has at least. */
enum { POINTERS = 12 };

/* The data of Section 1: five fields and the end mark. */
extern const uint8_t fields[30];

/* The data of Section 2 that name the default table. */
extern const uint8_t default_table[2];

/* The check, bit by bit: not by the library. */
uint16_t check_of(const uint8_t *p, size_t n);

/* A file of samples/, which `load` reads, or ends the program. */
enum { FILE_MAX = 4096 };
extern uint8_t file[FILE_MAX];
extern size_t file_size;
void load(const char *name);

/* ---- lent memory, with guards on both sides */

enum { GUARDS = 8, CODE_ROOM = 32 };
static const uint8_t CODE_GUARD = 0xA5;

extern uint32_t room[GUARDS + SCP_POINTERS_ROOM + GUARDS];
ScpOpened open_guarded(const uint8_t *bytes, size_t n);

/* Whether all of the room but the first `changed` numbers of the answer is as it was. */
int rest_is_untouched(size_t changed);

/* Work space of bytes; whether it holds zeros in its first `cleared` bytes, and guards in all else. */
extern uint8_t code_work[GUARDS + CODE_ROOM + GUARDS];
int work_is_cleared(size_t cleared);

#endif
