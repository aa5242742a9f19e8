/*
 * Packs that come and go: three packs arrive at a board, two queries are watched, the installer asks what a pack's leaving would
 * change, and the pack leaves.
 *
 *     make library
 *     cc -std=c99 -I include examples/c/packs.c -L target/staticlib -lresource_manager -o packs
 */
#include "resource_manager.h"

#include <stdio.h>
#include <string.h>

/* A board is large: some 656 kilobytes, here not on the stack. */
static uint16_t words[RESOURCE_MANAGER_BOARD_WORDS];
static uint8_t bytes[RESOURCE_MANAGER_BOARD_BYTES];

struct pack {
    uint16_t number;
    const char *text;
};

static const struct pack packs[] = {
    {7, "*search.range: book\n*font.size: 12\n"},
    {9, "reader.search.range: chapter\n*font.size: 14\n"},
    {2, "*font.size: 14\n"},
};

static const char *const queries[] = {"reader.search.range", "reader.font.size"};

enum { PACKS = sizeof packs / sizeof packs[0], QUERIES = sizeof queries / sizeof queries[0] };

/* Says by which number a call is refused: that is no answer, and not "none". */
static int is_ok(uint64_t answer)
{
    if (resource_manager_status_of(answer) != RESOURCE_MANAGER_OK) {
        printf("refused by %d\n", (int)resource_manager_status_of(answer));
        return 0;
    }
    return 1;
}

/* Reads a pack's text, and has it arrive. One image does for all packs, as the board keeps a copy of each. */
static int arrive(const struct pack *pack)
{
    static const uint8_t no_files[] = {0, 0};
    static uint16_t contents[RESOURCE_MANAGER_CONTENTS_WORDS];
    static uint8_t bodies[RESOURCE_MANAGER_BODIES_BYTES];
    return is_ok(resource_manager_read((const uint8_t *)pack->text, strlen(pack->text), no_files, sizeof no_files, contents,
                                       RESOURCE_MANAGER_CONTENTS_WORDS, bodies, RESOURCE_MANAGER_BODIES_BYTES)) &&
           is_ok(resource_manager_board_arrive(words, RESOURCE_MANAGER_BOARD_WORDS, bytes, RESOURCE_MANAGER_BOARD_BYTES,
                                               pack->number, contents, RESOURCE_MANAGER_CONTENTS_WORDS, bodies,
                                               RESOURCE_MANAGER_BODIES_BYTES));
}

static int watch(const char *query)
{
    return is_ok(resource_manager_board_watch(words, RESOURCE_MANAGER_BOARD_WORDS, bytes, RESOURCE_MANAGER_BOARD_BYTES,
                                              (const uint8_t *)query, strlen(query), (const uint8_t *)"", 0));
}

static int set_up(void)
{
    int good = is_ok(
        resource_manager_board_make(words, RESOURCE_MANAGER_BOARD_WORDS, bytes, RESOURCE_MANAGER_BOARD_BYTES));
    size_t n;
    for (n = 0; n < QUERIES && good; n++) {
        good = watch(queries[n]);
    }
    for (n = 0; n < PACKS && good; n++) {
        good = arrive(&packs[n]);
    }
    return good;
}

static int show_answer(const char *query, uint64_t answer, uint16_t number)
{
    struct resource_manager_bytes value;
    printf("%s: ", query);
    if (resource_manager_status_of(answer) == RESOURCE_MANAGER_NONE) {
        printf("none\n");
        return 1;
    }
    if (!is_ok(answer)) {
        return 0;
    }
    value = resource_manager_board_value_of(words, bytes, answer, number);
    printf("'%.*s', of pack %u\n", (int)value.count, (const char *)value.start, number);
    return 1;
}

/* All by one call, which judges the board once. */
static int show_answers(void)
{
    uint64_t answers[RESOURCE_MANAGER_QUERIES];
    uint16_t numbers[RESOURCE_MANAGER_QUERIES];
    size_t query;
    int good = is_ok(resource_manager_board_answers(words, RESOURCE_MANAGER_BOARD_WORDS, bytes,
                                                    RESOURCE_MANAGER_BOARD_BYTES, answers, numbers));
    for (query = 0; query < QUERIES && good; query++) {
        good = show_answer(queries[query], answers[query], numbers[query]);
    }
    return good;
}

static int show_report(uint16_t number)
{
    uint64_t answer = resource_manager_board_report(words, RESOURCE_MANAGER_BOARD_WORDS, bytes,
                                                    RESOURCE_MANAGER_BOARD_BYTES, number);
    uint32_t changes = resource_manager_changes_of(answer);
    size_t query;
    if (!is_ok(answer)) {
        return 0;
    }
    printf("without pack %u these would change:%s\n", number, changes == 0 ? " none" : "");
    for (query = 0; query < QUERIES; query++) {
        if (changes >> query & 1) {
            printf("  %s\n", queries[query]);
        }
    }
    return 1;
}

static int show_reports(void)
{
    size_t n;
    for (n = 0; n < PACKS; n++) {
        if (!show_report(packs[n].number)) {
            return 0;
        }
    }
    return 1;
}

static int leave_and_come_again(const struct pack *pack)
{
    printf("pack %u leaves\n", pack->number);
    if (!is_ok(resource_manager_board_leave(words, RESOURCE_MANAGER_BOARD_WORDS, bytes, RESOURCE_MANAGER_BOARD_BYTES,
                                            pack->number)) ||
        !show_answers()) {
        return 0;
    }
    printf("and comes again\n");
    return arrive(pack) && show_answers();
}

int main(void)
{
    return set_up() && show_answers() && show_reports() && leave_and_come_again(&packs[1]) ? 0 : 1;
}
