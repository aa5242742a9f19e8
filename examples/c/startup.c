/*
 * Starts as a reader does: lends the texts that x11rb's Database::new_from_default reads, and looks a value up.
 *
 *     make library
 *     cc -std=c99 -I include examples/c/startup.c -L target/staticlib -lresource_manager -o startup
 *     ./startup HOST [PROPERTY-FILE]
 *
 * A reader has the property from the X server, as the reply to a request for RESOURCE_MANAGER, with its format. Here a
 * file stands in for it.
 */
#include "resource_manager.h"

#include <stdio.h>
#include <stdlib.h>
#include <string.h>

/* A text, with room for a byte more than may be read: a file that is longer is refused, and not cut. */
struct text {
    uint8_t bytes[RESOURCE_MANAGER_TEXT_BYTES + 1];
    size_t count;
    uint8_t is_read;
};

static struct text property, xresources, xdefaults, xenvironment, host;

/* A shelf of one file: the lengths of its name and its body, 4 and 22, and both. An include of "pack" finds it. */
static const char shelf[] = "\1\0" "\4\0\26\0" "pack" "*search.range: chapter";

/* What a comparison writes. */
static uint16_t contents[RESOURCE_MANAGER_CONTENTS_WORDS], contents_without[RESOURCE_MANAGER_CONTENTS_WORDS];
static uint8_t bodies[RESOURCE_MANAGER_BODIES_BYTES], bodies_without[RESOURCE_MANAGER_BODIES_BYTES];
static uint8_t struck[sizeof shelf - 1];

/* A file that is not there, or that is a directory, could not be read. */
static void read_file(struct text *into, const char *path)
{
    FILE *file = fopen(path, "rb");
    if (file != NULL) {
        into->count = fread(into->bytes, 1, sizeof into->bytes, file);
        into->is_read = !ferror(file);
        fclose(file);
    }
}

static void read_in(struct text *into, const char *folder, const char *name, const char *last)
{
    char path[4096];
    int length = snprintf(path, sizeof path, "%s/%s%s", folder, name, last);
    if (length >= 0 && (size_t)length < sizeof path) {
        read_file(into, path);
    }
}

/* What could not be read stays empty. A text that is not used need not have been read. */
static void read_texts(const char *home, const char *named, const char *host_name)
{
    if (home != NULL) {
        read_in(&xresources, home, ".Xresources", "");
        read_in(&xdefaults, home, ".Xdefaults", "");
    }
    if (named != NULL) {
        read_file(&xenvironment, named);
    } else {
        read_in(&host, home != NULL ? home : ".", ".Xdefaults-", host_name);
    }
}

static void show(const char *what, uint64_t answer, const uint8_t *in)
{
    if (resource_manager_status_of(answer) == RESOURCE_MANAGER_OK) {
        printf("%s: '%.*s'\n", what, (int)resource_manager_length_of(answer),
               (const char *)in + resource_manager_place_of(answer));
    } else {
        printf("%s: none\n", what);
    }
}

int main(int count, char **words)
{
    static const char name[] = "reader.search.range", class_name[] = "Reader.Search.Range";
    const char *named = getenv("XENVIRONMENT");
    uint64_t answer, with_it, without;

    if (count < 2) {
        fputs("usage: startup HOST [PROPERTY-FILE]\n", stderr);
        return 1;
    }
    if (count > 2) {
        read_file(&property, words[2]);
    }
    read_texts(getenv("HOME"), named, words[1]);

    answer = resource_manager_read_default(
        8, property.bytes, property.count, xresources.is_read, xresources.bytes, xresources.count, xdefaults.is_read,
        xdefaults.bytes, xdefaults.count, named != NULL, xenvironment.is_read, xenvironment.bytes, xenvironment.count,
        host.is_read, host.bytes, host.count, (const uint8_t *)shelf, sizeof shelf - 1, contents,
        RESOURCE_MANAGER_CONTENTS_WORDS, bodies, RESOURCE_MANAGER_BODIES_BYTES);
    if (resource_manager_status_of(answer) != RESOURCE_MANAGER_OK) {
        printf("refused %d\n", (int)resource_manager_status_of(answer));
        return 1;
    }
    printf("%zu entries, %zu files opened\n", resource_manager_entries_of(answer), resource_manager_opens_of(answer));

    /* The same start-up, with the pack and without it. */
    answer = resource_manager_compare_default_without(
        8, property.bytes, property.count, xresources.is_read, xresources.bytes, xresources.count, xdefaults.is_read,
        xdefaults.bytes, xdefaults.count, named != NULL, xenvironment.is_read, xenvironment.bytes, xenvironment.count,
        host.is_read, host.bytes, host.count, (const uint8_t *)shelf, sizeof shelf - 1, 0, (const uint8_t *)name,
        strlen(name), (const uint8_t *)class_name, strlen(class_name), struck, sizeof struck, contents,
        RESOURCE_MANAGER_CONTENTS_WORDS, bodies, RESOURCE_MANAGER_BODIES_BYTES, contents_without,
        RESOURCE_MANAGER_CONTENTS_WORDS, bodies_without, RESOURCE_MANAGER_BODIES_BYTES, &with_it, &without);
    if (resource_manager_status_of(answer) != RESOURCE_MANAGER_OK) {
        printf("refused %d\n", (int)resource_manager_status_of(answer));
        return 1;
    }
    show("reader.search.range", with_it, bodies);
    show("without the pack", without, bodies_without);
    return 0;
}
