/* The library from C: reads the cards of the worked batch, runs it, and asks what the README asks. Built and run by tests/examples/run. */
#include "ribalonga.h"

#include <stdio.h>

static uint8_t bytes[65536];
static ribalonga_command commands[RIBALONGA_COMMANDS];
static uint32_t roster[RIBALONGA_ROSTER], store[RIBALONGA_STORE], list[RIBALONGA_LIST], table[RIBALONGA_TABLE];
static uint8_t answers[RIBALONGA_ANSWERS];

/* A card's bytes, and how many. */
static size_t card(const char *path) {
    FILE *file = fopen(path, "rb");
    if (!file)
        return 0;
    size_t length = fread(bytes, 1, sizeof bytes, file);
    fclose(file);
    return length;
}

int main(void) {
    ribalonga_scheme_read s = read_scheme(bytes, card("examples/scheme-a.card"), commands, RIBALONGA_COMMANDS);
    printf("scheme %u: %zu types, %zu kinds, %zu rights, %zu commands\n", s.number, s.types, s.kinds, s.rights, s.commands);

    ribalonga_roster_read r = read_roster(commands, s.commands, s.types, s.kinds, s.rights, bytes, card("examples/roster.card"), roster,
                                          RIBALONGA_ROSTER);
    printf("roster %u: %zu people\n", r.number, r.people);

    /* A store of zeros is an empty one. */
    ribalonga_batch_run b = run_batch(commands, s.commands, s.types, s.kinds, s.rights, roster, RIBALONGA_ROSTER, r.people, store,
                                      RIBALONGA_STORE, bytes, card("examples/batch.card"), answers, RIBALONGA_ANSWERS);
    printf("batch %u: %zu requests, %zu done\n", b.number, b.requests, b.done);

    const uint8_t code[] = {'W', '-', '1', '0', '4'};
    ribalonga_may_use m = may_use(commands, s.commands, s.types, s.kinds, s.rights, roster, RIBALONGA_ROSTER, r.people, store,
                                  RIBALONGA_STORE, 0, 5, code, sizeof code);
    printf("may person 0 use right 5 on W-104: %u, %u\n", m.number, m.may);

    ribalonga_access_list a = access_list(commands, s.commands, s.types, s.kinds, s.rights, roster, RIBALONGA_ROSTER, r.people, store,
                                          RIBALONGA_STORE, code, sizeof code, list, RIBALONGA_LIST);
    printf("access list of W-104: %u, %zu people", a.number, a.people);
    for (size_t i = 0; i < a.people; i++)
        printf(", %u with %08X", list[2 * i], list[2 * i + 1]);
    printf("\n");

    for (size_t type = 0; type < s.types; type++) {
        ribalonga_verdict v = verdict_of_create(commands, s.commands, s.types, s.kinds, s.rights, 0, type, 7, 2048, table, RIBALONGA_TABLE);
        printf("right 7 for type %zu: %u, %zu states, held %u, state %zu\n", type, v.number, v.states, v.held, v.state);
    }
    return 0;
}
