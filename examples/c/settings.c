/*
 * Reads a text of X resources with a shelf of two files, looks values up, also as the dictionary window does, lists the
 * entries of a settings page while a line is added, and writes all settings out as one text.
 *
 *     make library
 *     cc -std=c99 -I include examples/c/settings.c -L target/staticlib -lresource_manager -o settings
 */
#include "resource_manager.h"

#include <inttypes.h>
#include <stdio.h>
#include <string.h>

struct file {
    const char *name;
    const char *body;
};

struct shelf {
    uint8_t bytes[RESOURCE_MANAGER_SHELF_BYTES];
    size_t count;
};

/* An image is large: 37 kilobytes, here not on the stack. */
static uint16_t contents[RESOURCE_MANAGER_CONTENTS_WORDS];
static uint8_t bodies[RESOURCE_MANAGER_BODIES_BYTES];
static struct shelf shelf;

static const struct file files[] = {
    {"pack/fonts", "reader.font.size: 14\nreader.font.family: Serif\n"},
    {"pack/settings", "#include \"fonts\"\nreader.search.range: chapter\n"},
};

/* Room for the text of any image. */
static uint8_t written[RESOURCE_MANAGER_WRITTEN_BYTES];

static int put(struct shelf *to, const void *bytes, size_t count)
{
    if (count > sizeof to->bytes - to->count) {
        return 0;
    }
    memcpy(to->bytes + to->count, bytes, count);
    to->count += count;
    return 1;
}

static int put_number(struct shelf *to, size_t number)
{
    const uint8_t two[2] = {(uint8_t)(number & 255), (uint8_t)(number >> 8 & 255)};
    return number <= 65535 && put(to, two, sizeof two);
}

/* Lays files out. Their names must rise; the reading refuses a shelf where they don't. */
static int lay_out(struct shelf *to, const struct file *files, size_t count)
{
    size_t n;
    to->count = 0;
    if (!put_number(to, count)) {
        return 0;
    }
    for (n = 0; n < count; n++) {
        if (!put_number(to, strlen(files[n].name)) || !put_number(to, strlen(files[n].body))) {
            return 0;
        }
    }
    for (n = 0; n < count; n++) {
        if (!put(to, files[n].name, strlen(files[n].name)) || !put(to, files[n].body, strlen(files[n].body))) {
            return 0;
        }
    }
    return 1;
}

static const uint8_t *bytes_of(const char *text)
{
    return (const uint8_t *)text;
}

static void print_bytes(uint64_t answer)
{
    switch (resource_manager_status_of(answer)) {
    case RESOURCE_MANAGER_OK:
        printf("'%.*s'\n", (int)resource_manager_length_of(answer),
               (const char *)bodies + resource_manager_place_of(answer));
        break;
    case RESOURCE_MANAGER_NONE:
        printf("none\n");
        break;
    default:
        printf("refused %d\n", (int)resource_manager_status_of(answer));
    }
}

static void show_bytes(const char *name, const char *class_name)
{
    printf("%s, as bytes: ", name);
    print_bytes(resource_manager_get_bytes(contents, RESOURCE_MANAGER_CONTENTS_WORDS, bodies,
                                           RESOURCE_MANAGER_BODIES_BYTES, bytes_of(name), strlen(name),
                                           bytes_of(class_name), strlen(class_name)));
}

/* The dictionary window has little stack, and shorter queries. What it admits gets the answer of the call above. */
static void show_in_window(const char *name, const char *class_name)
{
    printf("%s, in the window: ", name);
    print_bytes(resource_manager_window_get_bytes(contents, RESOURCE_MANAGER_CONTENTS_WORDS, bodies,
                                                  RESOURCE_MANAGER_BODIES_BYTES, bytes_of(name), strlen(name),
                                                  bytes_of(class_name), strlen(class_name)));
}

/* A default is shown where there is no value, or where the lookup is refused. */
static void show_or(const char *name, const char *class_name, const char *otherwise)
{
    struct resource_manager_bytes shown;
    shown.start = bytes_of(otherwise);
    shown.count = strlen(otherwise);
    (void)resource_manager_show(contents, RESOURCE_MANAGER_CONTENTS_WORDS, bodies, RESOURCE_MANAGER_BODIES_BYTES,
                                bytes_of(name), strlen(name), bytes_of(class_name), strlen(class_name), &shown);
    printf("%s, or else '%s': '%.*s'\n", name, otherwise, (int)shown.count, (const char *)shown.start);
}

static void show_bool(const char *name, const char *class_name)
{
    uint64_t answer = resource_manager_get_bool(contents, RESOURCE_MANAGER_CONTENTS_WORDS, bodies,
                                                RESOURCE_MANAGER_BODIES_BYTES, bytes_of(name), strlen(name),
                                                bytes_of(class_name), strlen(class_name));
    printf("%s, as a boolean: ", name);
    if (answer == RESOURCE_MANAGER_TRUE || answer == RESOURCE_MANAGER_FALSE) {
        printf("%s\n", answer == RESOURCE_MANAGER_TRUE ? "true" : "false");
    } else if (answer == RESOURCE_MANAGER_NONE) {
        printf("none\n");
    } else {
        printf("refused %d\n", (int)resource_manager_status_of(answer));
    }
}

static void show_number(const char *name, const char *class_name)
{
    int64_t number = 0;
    uint64_t answer = resource_manager_get_value(contents, RESOURCE_MANAGER_CONTENTS_WORDS, bodies,
                                                 RESOURCE_MANAGER_BODIES_BYTES, bytes_of(name), strlen(name),
                                                 bytes_of(class_name), strlen(class_name), &number);
    printf("%s, as a number: ", name);
    switch (resource_manager_status_of(answer)) {
    case RESOURCE_MANAGER_OK:
        printf("%" PRId64 "\n", number);
        break;
    case RESOURCE_MANAGER_NOT_A_NUMBER:
        printf("not a number\n");
        break;
    case RESOURCE_MANAGER_NONE:
        printf("none\n");
        break;
    default:
        printf("refused %d\n", (int)resource_manager_status_of(answer));
    }
}

static void add(const char *line)
{
    uint64_t answer = resource_manager_add(contents, RESOURCE_MANAGER_CONTENTS_WORDS, bodies,
                                           RESOURCE_MANAGER_BODIES_BYTES, bytes_of(line), strlen(line));
    if (resource_manager_status_of(answer) == RESOURCE_MANAGER_OK) {
        printf("added as entry %zu: %s\n", resource_manager_number_of(answer), line);
    } else {
        printf("refused %d: %s\n", (int)resource_manager_status_of(answer), line);
    }
}

/* Where the line of an entry stands. */
static const char *place_of(size_t number)
{
    size_t place = resource_manager_file_of(contents, number);
    if (place == 0) {
        return "main text";
    }
    return place == RESOURCE_MANAGER_UNKNOWN_FILE ? "added" : files[place - 1].name;
}

/* A settings page: each entry that aligns with the query, and its file. A line that is added after its first entry shows in the next page. */
static void show_page(const char *name, const char *class_name, const char *line)
{
    uint16_t next, count;
    uint64_t answer = resource_manager_walk_start(contents, RESOURCE_MANAGER_CONTENTS_WORDS, bodies,
                                                  RESOURCE_MANAGER_BODIES_BYTES, bytes_of(name), strlen(name),
                                                  bytes_of(class_name), strlen(class_name), &next, &count);
    printf("%s, as a page:\n", name);
    while (resource_manager_status_of(answer) == RESOURCE_MANAGER_OK) {
        answer = resource_manager_walk_step(contents, RESOURCE_MANAGER_CONTENTS_WORDS, bodies,
                                            RESOURCE_MANAGER_BODIES_BYTES, bytes_of(name), strlen(name),
                                            bytes_of(class_name), strlen(class_name), &next, count);
        if (resource_manager_status_of(answer) == RESOURCE_MANAGER_OK) {
            size_t number = resource_manager_number_of(answer);
            struct resource_manager_bytes key = resource_manager_key_of(contents, bodies, number);
            struct resource_manager_bytes value = resource_manager_value_of(contents, bodies, number);
            printf("%zu %s: %.*s: %.*s\n", number, place_of(number), (int)key.count, (const char *)key.start,
                   (int)value.count, (const char *)value.start);
        }
        if (line != NULL) {
            add(line);
            line = NULL;
        }
    }
}

static void write_out(void)
{
    uint64_t answer = resource_manager_write(contents, RESOURCE_MANAGER_CONTENTS_WORDS, bodies,
                                             RESOURCE_MANAGER_BODIES_BYTES, written, sizeof written);
    if (resource_manager_status_of(answer) == RESOURCE_MANAGER_OK) {
        printf("%zu bytes written:\n", resource_manager_written_of(answer));
        fwrite(written, 1, resource_manager_written_of(answer), stdout);
    } else {
        printf("refused %d\n", (int)resource_manager_status_of(answer));
    }
}

int main(void)
{
    static const char text[] = "#include \"pack/settings\"\n"
                               "*search.range: book\n"
                               "reader.hyphenation: on\n";
    uint64_t answer;

    if (!lay_out(&shelf, files, sizeof files / sizeof files[0])) {
        fputs("the files are too large for a shelf\n", stderr);
        return 1;
    }
    answer = resource_manager_read(bytes_of(text), strlen(text), shelf.bytes, shelf.count, contents,
                                   RESOURCE_MANAGER_CONTENTS_WORDS, bodies, RESOURCE_MANAGER_BODIES_BYTES);
    if (resource_manager_status_of(answer) != RESOURCE_MANAGER_OK) {
        fprintf(stderr, "refused %d\n", (int)resource_manager_status_of(answer));
        return 1;
    }
    printf("%zu entries, %zu files opened\n", resource_manager_entries_of(answer), resource_manager_opens_of(answer));

    show_bytes("reader.search.range", "Reader.Search.Range");
    show_bytes("library.search.range", "Library.Search.Range");
    show_bytes("reader.margin", "Reader.Margin");
    show_in_window("reader.search.range", "Reader.Search.Range");
    show_in_window("a.a.a.a.a.a.a.a.a", "");
    show_or("reader.margin", "Reader.Margin", "narrow");
    show_or("reader.font.family", "Reader.Font.Family", "Sans");
    show_bool("reader.hyphenation", "");
    show_number("reader.font.size", "Reader.Font.Size");
    show_number("reader.font.family", "Reader.Font.Family");
    show_number("a.a.a.a.a.a.a.a.a.a.a.a.a.a.a.a.a.a.a.a.a.a.a.a.a.a.a.a.a.a.a.a.a", "");
    show_page("reader.search.range", "Reader.Search.Range", "*range: page");
    show_page("reader.search.range", "Reader.Search.Range", "no resource");
    write_out();
    return 0;
}
