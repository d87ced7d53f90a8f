/* The calls of Ribalonga for C and C++, as crates/ribalonga_c exports them. docs/CALLS.md says what each refuses and what it changes.
 *
 * A lent buffer is a pointer and its length in elements. It is not NULL, also where the length is 0, and a buffer that a call may change
 * overlaps no other buffer of that call. Beyond this every call takes every input: bad input is refused by its number. */
#ifndef RIBALONGA_H
#define RIBALONGA_H

#include <stddef.h>
#include <stdint.h>

#ifdef __cplusplus
extern "C" {
#endif

/* Elements that the buffers have room for; one with less is refused with 20, a table with 15. */
enum {
    RIBALONGA_COMMANDS = 64,      /* records for a scheme's commands */
    RIBALONGA_ROSTER = 128,       /* words for a roster */
    RIBALONGA_STORE = 2305,       /* words for a store */
    RIBALONGA_ANSWERS = 256,      /* bytes for a batch's answers */
    RIBALONGA_LIST = 64,          /* words for an access list */
    RIBALONGA_ROW = 8,            /* words of a table for each state of the budget */
    RIBALONGA_TABLE = 16384,      /* words of a table for the largest budget */
    RIBALONGA_BATCH_TEXT = 52554, /* bytes for the text of a batch */
    RIBALONGA_VERDICT_TEXT = 7488 /* bytes for the text of a verdict */
};

/* A command: its form (1 create, 2 grant, 3 internal), its two types, its kind, and its three sets of rights. */
typedef struct {
    uint8_t form, source, destination, kind;
    uint32_t x, y, z;
} ribalonga_command;

/* The answers. Fields that a refusal doesn't name are 0. */
typedef struct {
    uint8_t number;
    size_t types, kinds, rights, commands;
} ribalonga_scheme_read;

typedef struct {
    uint8_t number;
    size_t people;
} ribalonga_roster_read;

typedef struct {
    uint8_t number;
    size_t requests, done;
} ribalonga_batch_run;

typedef struct {
    uint8_t number, may;
} ribalonga_may_use;

typedef struct {
    uint8_t number;
    size_t people;
} ribalonga_access_list;

typedef struct {
    uint8_t number;
    size_t states;
    uint8_t held;
    size_t state, command;
} ribalonga_verdict;

typedef struct {
    uint8_t number;
    size_t bytes;
} ribalonga_text;

/* A scheme card, read into the list of commands. */
ribalonga_scheme_read read_scheme(const uint8_t *card, size_t card_length, ribalonga_command *commands, size_t commands_length);

/* A roster card, read with its scheme into the roster. */
ribalonga_roster_read read_roster(const ribalonga_command *commands, size_t commands_length, size_t types, size_t kinds, size_t rights,
                                  const uint8_t *card, size_t card_length, uint32_t *roster, size_t roster_length);

/* A command by a source person to a destination person, on the design with this code. */
uint8_t request(const ribalonga_command *commands, size_t commands_length, size_t types, size_t kinds, size_t rights,
                const uint32_t *roster, size_t roster_length, size_t people, uint32_t *store, size_t store_length, size_t command,
                size_t source, size_t destination, const uint8_t *code, size_t code_length);

/* The requests of a batch card, one after the other, each with its answer. */
ribalonga_batch_run run_batch(const ribalonga_command *commands, size_t commands_length, size_t types, size_t kinds, size_t rights,
                              const uint32_t *roster, size_t roster_length, size_t people, uint32_t *store, size_t store_length,
                              const uint8_t *card, size_t card_length, uint8_t *answers, size_t answers_length);

/* May this person use this right on the design with this code? */
ribalonga_may_use may_use(const ribalonga_command *commands, size_t commands_length, size_t types, size_t kinds, size_t rights,
                          const uint32_t *roster, size_t roster_length, size_t people, const uint32_t *store, size_t store_length,
                          size_t person, size_t right, const uint8_t *code, size_t code_length);

/* The access list of the design with this code. */
ribalonga_access_list access_list(const ribalonga_command *commands, size_t commands_length, size_t types, size_t kinds, size_t rights,
                                  const uint32_t *roster, size_t roster_length, size_t people, const uint32_t *store,
                                  size_t store_length, const uint8_t *code, size_t code_length, uint32_t *list, size_t list_length);

/* What a type of person can ever reach on a design that this create command makes. */
ribalonga_verdict verdict_of_create(const ribalonga_command *commands, size_t commands_length, size_t types, size_t kinds, size_t rights,
                                    size_t command, size_t person_type, size_t right, size_t budget, uint32_t *table,
                                    size_t table_length);

/* What a type of person can ever reach on the design with this code, as it stands. */
ribalonga_verdict verdict_of_design(const ribalonga_command *commands, size_t commands_length, size_t types, size_t kinds, size_t rights,
                                    const uint32_t *roster, size_t roster_length, size_t people, const uint32_t *store,
                                    size_t store_length, const uint8_t *code, size_t code_length, size_t person_type, size_t right,
                                    size_t budget, uint32_t *table, size_t table_length);

/* The text that the batch program prints for the bytes it has read. */
ribalonga_text batch_text(const uint8_t *bytes, size_t bytes_length, uint8_t *text, size_t text_length);

/* The text that the verdict program prints for the bytes it has read. */
ribalonga_text verdict_text(const uint8_t *bytes, size_t bytes_length, uint32_t *table, size_t table_length, uint8_t *text,
                            size_t text_length);

/* How many more bytes the batch program must read. */
size_t batch_wanted(const uint8_t *bytes, size_t bytes_length);

/* How many more bytes the verdict program must read. */
size_t verdict_wanted(const uint8_t *bytes, size_t bytes_length);

#ifdef __cplusplus
}
#endif

#endif
