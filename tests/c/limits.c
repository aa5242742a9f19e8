/*
 * Each call of the header at its limits: what is within them is accepted, and one more is refused. Everything lent
 * ends at a page that nobody may touch, so that a call that goes past it is stopped by the machine.
 */
#define _DEFAULT_SOURCE
#include "resource_manager.h"

#include <inttypes.h>
#include <pthread.h>
#include <stdio.h>
#include <stdlib.h>
#include <string.h>
#include <sys/mman.h>

#define PAGE ((size_t)4096)
#define ROOM (20 * PAGE)  /* more than anything that is lent, but for a board's bytes */
#define BOARD_ROOM (150 * PAGE)
#define STACK (16 * PAGE) /* what the header says that a call may take */

/* Where the room for each thing that is lent ends. */
static uint8_t *text_end, *second_end, *shelf_end, *contents_end, *bodies_end, *name_end, *class_end;
static uint8_t *struck_end, *contents_without_end, *bodies_without_end, *default_end, *written_end;
static uint8_t *next_end, *count_end, *old_contents_end, *old_bodies_end, *board_words_end, *board_bytes_end;
static uint8_t *answers_end, *packs_end;
static size_t text_count, second_count, shelf_count;
static size_t contents_count = RESOURCE_MANAGER_CONTENTS_WORDS, bodies_count = RESOURCE_MANAGER_BODIES_BYTES;
static int checks;

static void fail(const char *what)
{
    printf("%s\n", what);
    exit(1);
}

static void expect(const char *what, uint64_t seen, uint64_t wanted)
{
    checks++;
    if (seen != wanted) {
        printf("%s: %" PRIu64 ", and not %" PRIu64 "\n", what, seen, wanted);
        exit(1);
    }
}

/* The end of a room of so many bytes, whole pages, with a fence behind it. */
static uint8_t *fenced_room(size_t room)
{
    uint8_t *start = (uint8_t *)mmap(NULL, room + PAGE, PROT_READ | PROT_WRITE, MAP_PRIVATE | MAP_ANONYMOUS, -1, 0);
    if (start == MAP_FAILED || mprotect(start + room, PAGE, PROT_NONE) != 0) {
        fail("no room");
    }
    return start + room;
}

static uint8_t *fenced(void)
{
    return fenced_room(ROOM);
}

/* ---- What is lent */

static uint16_t *lent_contents(void)
{
    return (uint16_t *)(void *)contents_end - contents_count;
}

static uint8_t *lent_bodies(void)
{
    return bodies_end - bodies_count;
}

/* Puts `times` times `piece` and then `last` before `end`, and gives how many bytes these are. */
static size_t put_before(uint8_t *end, const char *piece, size_t times, const char *last)
{
    size_t size = strlen(piece), count = size * times + strlen(last), n;
    uint8_t *at = end - count;
    for (n = 0; n < times; n++) {
        memcpy(at + n * size, piece, size);
    }
    memcpy(at + times * size, last, strlen(last));
    return count;
}

static void set_text(const char *piece, size_t times, const char *last)
{
    text_count = put_before(text_end, piece, times, last);
}

/* The second text of a start-up. */
static void set_second(const char *piece, size_t times, const char *last)
{
    second_count = put_before(second_end, piece, times, last);
}

struct file {
    const char *name;
    const char *body;
};

static uint8_t *put_number(uint8_t *at, size_t number)
{
    at[0] = (uint8_t)(number & 255);
    at[1] = (uint8_t)(number >> 8 & 255);
    return at + 2;
}

static uint8_t *put(uint8_t *at, const char *bytes)
{
    memcpy(at, bytes, strlen(bytes));
    return at + strlen(bytes);
}

static void set_shelf(const struct file *files, size_t count)
{
    uint8_t *at;
    size_t n;
    shelf_count = 2;
    for (n = 0; n < count; n++) {
        shelf_count += 4 + strlen(files[n].name) + strlen(files[n].body);
    }
    at = put_number(shelf_end - shelf_count, count);
    for (n = 0; n < count; n++) {
        at = put_number(put_number(at, strlen(files[n].name)), strlen(files[n].body));
    }
    for (n = 0; n < count; n++) {
        at = put(put(at, files[n].name), files[n].body);
    }
}

/* Text that is kept as long as the program runs: `count` times `byte`, then `last`. */
static char *repeated(const char *first, char byte, size_t count, const char *last)
{
    size_t before = strlen(first);
    char *all = (char *)malloc(before + count + strlen(last) + 1);
    if (all == NULL) {
        fail("no memory");
    }
    memcpy(all, first, before);
    memset(all + before, byte, count);
    strcpy(all + before + count, last);
    return all;
}

/* So many `a` joined by '.', and then `last`. */
static char *parts(size_t count, const char *last)
{
    char *all = repeated("", 'a', 2 * count - 1, last);
    size_t n;
    for (n = 1; n < 2 * count - 1; n += 2) {
        all[n] = '.';
    }
    return all;
}

/* The texts of a start-up, and a main text: as what a text is lent. */
enum { PROPERTY, XRESOURCES, XDEFAULTS, XENVIRONMENT, HOST, MAIN };
static int lent_as = MAIN, second_as;

/* A text of a start-up. Its flag says whether it could be read, or is the property's format. */
static struct {
    uint8_t flag;
    const uint8_t *start;
    size_t count;
} texts[MAIN];
static uint8_t xenvironment_set;

/* No text is used, and none is there to be looked at: each begins at a fence, and is too long. */
static void lend_none(void)
{
    int n;
    for (n = 0; n < MAIN; n++) {
        texts[n].flag = 0;
        texts[n].start = text_end;
        texts[n].count = RESOURCE_MANAGER_TEXT_BYTES + 1;
    }
    xenvironment_set = 1;
}

/* Has a text used. Those that stand back for it could be read too. */
static void lend(int as, const uint8_t *start, size_t count)
{
    int n;
    if (as < XENVIRONMENT) {
        for (n = as + 1; n < XENVIRONMENT; n++) {
            texts[n].flag = 1;
        }
    } else {
        texts[XENVIRONMENT].flag = texts[HOST].flag = 1;
        xenvironment_set = as == XENVIRONMENT;
    }
    texts[as].flag = as == PROPERTY ? 8 : 1;
    texts[as].start = start;
    texts[as].count = count;
}

static uint64_t start_up(void)
{
    return resource_manager_read_default(
        texts[PROPERTY].flag, texts[PROPERTY].start, texts[PROPERTY].count, texts[XRESOURCES].flag,
        texts[XRESOURCES].start, texts[XRESOURCES].count, texts[XDEFAULTS].flag, texts[XDEFAULTS].start,
        texts[XDEFAULTS].count, xenvironment_set, texts[XENVIRONMENT].flag, texts[XENVIRONMENT].start,
        texts[XENVIRONMENT].count, texts[HOST].flag, texts[HOST].start, texts[HOST].count, shelf_end - shelf_count,
        shelf_count, lent_contents(), contents_count, lent_bodies(), bodies_count);
}

static uint64_t start_up_depth(uint64_t depth)
{
    return resource_manager_read_default_depth(
        texts[PROPERTY].flag, texts[PROPERTY].start, texts[PROPERTY].count, texts[XRESOURCES].flag,
        texts[XRESOURCES].start, texts[XRESOURCES].count, texts[XDEFAULTS].flag, texts[XDEFAULTS].start,
        texts[XDEFAULTS].count, xenvironment_set, texts[XENVIRONMENT].flag, texts[XENVIRONMENT].start,
        texts[XENVIRONMENT].count, texts[HOST].flag, texts[HOST].start, texts[HOST].count, shelf_end - shelf_count,
        shelf_count, depth, lent_contents(), contents_count, lent_bodies(), bodies_count);
}

/* Lends the text alone to a start-up, or with the second text after it. */
static void lend_one(void)
{
    lend_none();
    lend(lent_as, text_end - text_count, text_count);
}

static void lend_both(void)
{
    lend_one();
    lend(second_as, second_end - second_count, second_count);
}

static uint64_t read_it(void)
{
    if (lent_as != MAIN) {
        lend_one();
        return start_up();
    }
    return resource_manager_read(text_end - text_count, text_count, shelf_end - shelf_count, shelf_count,
                                 lent_contents(), contents_count, lent_bodies(), bodies_count);
}

/* The depth of a reading that is given none. */
static size_t no_depth(void)
{
    return lent_as == MAIN ? RESOURCE_MANAGER_DEFAULT_DEPTH : RESOURCE_MANAGER_GREATEST_DEPTH;
}

/* The same at a depth. */
static uint64_t read_depth(uint64_t depth)
{
    if (lent_as != MAIN) {
        lend_one();
        return start_up_depth(depth);
    }
    return resource_manager_read_depth(text_end - text_count, text_count, shelf_end - shelf_count, shelf_count, depth,
                                       lent_contents(), contents_count, lent_bodies(), bodies_count);
}

typedef uint64_t lookup(const uint16_t *, size_t, const uint8_t *, size_t, const uint8_t *, size_t, const uint8_t *,
                        size_t);

static uint64_t ask(lookup *call, const char *name, const char *class_name)
{
    uint8_t *lent_name = name_end - strlen(name), *lent_class = class_end - strlen(class_name);
    memcpy(lent_name, name, strlen(name));
    memcpy(lent_class, class_name, strlen(class_name));
    return call(lent_contents(), contents_count, lent_bodies(), bodies_count, lent_name, strlen(name), lent_class,
                strlen(class_name));
}

static int64_t number;

/* resource_manager_get_value in the shape of the others; the number is left in `number`. */
static uint64_t get_value(const uint16_t *contents, size_t words, const uint8_t *bodies, size_t bytes,
                          const uint8_t *name, size_t name_count, const uint8_t *class_name, size_t class_count)
{
    return resource_manager_get_value(contents, words, bodies, bytes, name, name_count, class_name, class_count,
                                      &number);
}

static struct resource_manager_bytes shown;

/* What a call to show leaves in `shown` is where its answer says. */
static uint64_t shown_by(uint64_t answer, const uint8_t *bodies)
{
    if (resource_manager_status_of(answer) == RESOURCE_MANAGER_OK) {
        expect("what is shown is the value", shown.start == bodies + resource_manager_place_of(answer), 1);
        expect("and all of it", shown.count, resource_manager_length_of(answer));
    } else {
        expect("what is shown is the default", shown.start == default_end - 4, 1);
        expect("and all of it", shown.count, 4);
    }
    return answer;
}

/* The state of a walk ends at fences too. */
static uint16_t *lent_next(void)
{
    return (uint16_t *)(void *)next_end - 1;
}

static uint16_t *lent_count(void)
{
    return (uint16_t *)(void *)count_end - 1;
}

static void set_state(size_t next, size_t count)
{
    *lent_next() = (uint16_t)next;
    *lent_count() = (uint16_t)count;
}

/* resource_manager_walk_start in the shape of the others. */
static uint64_t walk_start(const uint16_t *contents, size_t words, const uint8_t *bodies, size_t bytes,
                           const uint8_t *name, size_t name_count, const uint8_t *class_name, size_t class_count)
{
    return resource_manager_walk_start(contents, words, bodies, bytes, name, name_count, class_name, class_count,
                                       lent_next(), lent_count());
}

/* resource_manager_walk_step in the shape of the others, from the state that is lent, which moves with a number alone. */
static uint64_t walk_step(const uint16_t *contents, size_t words, const uint8_t *bodies, size_t bytes,
                          const uint8_t *name, size_t name_count, const uint8_t *class_name, size_t class_count)
{
    uint16_t before = *lent_next();
    uint64_t answer = resource_manager_walk_step(contents, words, bodies, bytes, name, name_count, class_name,
                                                 class_count, lent_next(), *lent_count());
    if (resource_manager_status_of(answer) == RESOURCE_MANAGER_OK) {
        expect("the next number", *lent_next(), resource_manager_number_of(answer) + 1);
    } else {
        expect("a next number that stays", *lent_next(), before);
    }
    return answer;
}

static void lend_default(void)
{
    memcpy(default_end - 4, "else", 4);
    shown.start = default_end - 4;
    shown.count = 4;
}

/* resource_manager_show in the shape of the others, and the dictionary window's. */
static uint64_t show(const uint16_t *contents, size_t words, const uint8_t *bodies, size_t bytes, const uint8_t *name,
                     size_t name_count, const uint8_t *class_name, size_t class_count)
{
    lend_default();
    return shown_by(resource_manager_show(contents, words, bodies, bytes, name, name_count, class_name, class_count,
                                          &shown),
                    bodies);
}

static uint64_t window_show(const uint16_t *contents, size_t words, const uint8_t *bodies, size_t bytes,
                            const uint8_t *name, size_t name_count, const uint8_t *class_name, size_t class_count)
{
    lend_default();
    return shown_by(resource_manager_window_show(contents, words, bodies, bytes, name, name_count, class_name,
                                                 class_count, &shown),
                    bodies);
}

static uint64_t window_value(const uint16_t *contents, size_t words, const uint8_t *bodies, size_t bytes,
                             const uint8_t *name, size_t name_count, const uint8_t *class_name, size_t class_count)
{
    return resource_manager_window_get_value(contents, words, bodies, bytes, name, name_count, class_name, class_count,
                                             &number);
}

static lookup *const lookups[] = {resource_manager_get_bytes, resource_manager_get_string, resource_manager_get_bool,
                                  get_value, show, walk_step};

/* How much too short the buffers of a comparison are that no other call takes. */
static size_t short_struck, short_contents, short_bodies;
static uint64_t with_it, without;

/* Compares with the shelf, and without one of its files; a start-up, as its texts are lent. */
static uint64_t compare_lent(size_t file, const char *name)
{
    size_t struck = shelf_count - short_struck;
    size_t words = RESOURCE_MANAGER_CONTENTS_WORDS - short_contents;
    size_t bytes = RESOURCE_MANAGER_BODIES_BYTES - short_bodies;
    uint8_t *lent_name = name_end - strlen(name);
    memcpy(lent_name, name, strlen(name));
    with_it = without = 77;
    if (lent_as != MAIN) {
        return resource_manager_compare_default_without(
            texts[PROPERTY].flag, texts[PROPERTY].start, texts[PROPERTY].count, texts[XRESOURCES].flag,
            texts[XRESOURCES].start, texts[XRESOURCES].count, texts[XDEFAULTS].flag, texts[XDEFAULTS].start,
            texts[XDEFAULTS].count, xenvironment_set, texts[XENVIRONMENT].flag, texts[XENVIRONMENT].start,
            texts[XENVIRONMENT].count, texts[HOST].flag, texts[HOST].start, texts[HOST].count, shelf_end - shelf_count,
            shelf_count, file, lent_name, strlen(name), class_end, 0, struck_end - struck, struck, lent_contents(),
            contents_count, lent_bodies(), bodies_count, (uint16_t *)(void *)contents_without_end - words, words,
            bodies_without_end - bytes, bytes, &with_it, &without);
    }
    return resource_manager_compare_without(
        text_end - text_count, text_count, shelf_end - shelf_count, shelf_count, file, lent_name, strlen(name),
        class_end, 0, struck_end - struck, struck, lent_contents(), contents_count, lent_bodies(), bodies_count,
        (uint16_t *)(void *)contents_without_end - words, words, bodies_without_end - bytes, bytes, &with_it, &without);
}

/* The same at a depth, of a main text. */
static uint64_t compare_depth(uint64_t depth, size_t file, const char *name)
{
    size_t words = RESOURCE_MANAGER_CONTENTS_WORDS, bytes = RESOURCE_MANAGER_BODIES_BYTES;
    uint8_t *lent_name = name_end - strlen(name);
    memcpy(lent_name, name, strlen(name));
    with_it = without = 77;
    return resource_manager_compare_without_depth(
        text_end - text_count, text_count, shelf_end - shelf_count, shelf_count, depth, file, lent_name, strlen(name),
        class_end, 0, struck_end - shelf_count, shelf_count, lent_contents(), contents_count, lent_bodies(), bodies_count,
        (uint16_t *)(void *)contents_without_end - words, words, bodies_without_end - bytes, bytes, &with_it, &without);
}

static uint64_t compare(size_t file, const char *name)
{
    if (lent_as != MAIN) {
        lend_one();
    }
    return compare_lent(file, name);
}

static uint64_t accepted(size_t entries, size_t opens)
{
    return (uint64_t)entries << 16 | (uint64_t)opens << 32;
}

/* ---- The limits of a reading */

static void short_buffers(void)
{
    set_text("", 0, "a:1");
    set_shelf(NULL, 0);
    expect("buffers just long enough", read_it(), accepted(1, 0));
    contents_count = RESOURCE_MANAGER_CONTENTS_WORDS - 1;
    expect("contents one word short", read_it(), RESOURCE_MANAGER_SHORT_BUFFERS);
    expect("a lookup in them", ask(resource_manager_get_bytes, "a", ""), RESOURCE_MANAGER_NO_IMAGE);
    contents_count = RESOURCE_MANAGER_CONTENTS_WORDS;
    bodies_count = RESOURCE_MANAGER_BODIES_BYTES - 1;
    expect("bodies one byte short", read_it(), RESOURCE_MANAGER_SHORT_BUFFERS);
    expect("a lookup in them", ask(resource_manager_get_bytes, "a", ""), RESOURCE_MANAGER_NO_IMAGE);
    bodies_count = RESOURCE_MANAGER_BODIES_BYTES;
}

static void long_text(void)
{
    set_shelf(NULL, 0);
    set_text("\n", RESOURCE_MANAGER_TEXT_BYTES, "");
    expect("the longest text", read_it(), accepted(0, 0));
    set_text("\n", RESOURCE_MANAGER_TEXT_BYTES + 1, "");
    expect("a text one byte longer", read_it(), RESOURCE_MANAGER_LONG_TEXT);
}

static void shelf_files(void)
{
    static char names[RESOURCE_MANAGER_SHELF_FILES + 1][4];
    struct file files[RESOURCE_MANAGER_SHELF_FILES + 1];
    size_t n;
    for (n = 0; n <= RESOURCE_MANAGER_SHELF_FILES; n++) {
        sprintf(names[n], "p%02u", (unsigned)(n % 100));
        files[n].name = names[n];
        files[n].body = "a:1";
    }
    set_text("", 0, "#include \"p63\"");
    set_shelf(files, RESOURCE_MANAGER_SHELF_FILES);
    expect("the most files", read_it(), accepted(1, 1));
    set_shelf(files, RESOURCE_MANAGER_SHELF_FILES + 1);
    expect("a file more", read_it(), RESOURCE_MANAGER_BAD_SHELF);
}

static void shelf_bytes(void)
{
    struct file file = {"p", repeated("a:1\n", '\n', RESOURCE_MANAGER_SHELF_BYTES - 11, "")};
    set_text("", 0, "#include \"p\"");
    set_shelf(&file, 1);
    expect("the largest shelf's bytes", shelf_count, RESOURCE_MANAGER_SHELF_BYTES);
    expect("the largest shelf", read_it(), accepted(1, 1));
    file.body = repeated("a:1\n", '\n', RESOURCE_MANAGER_SHELF_BYTES - 10, "");
    set_shelf(&file, 1);
    expect("a shelf one byte larger", read_it(), RESOURCE_MANAGER_BAD_SHELF);
    shelf_count = 0;
    expect("a shelf of no bytes", read_it(), RESOURCE_MANAGER_BAD_SHELF);
}

static void shelf_names(void)
{
    struct file file = {repeated("", 'p', RESOURCE_MANAGER_FILE_NAME_BYTES, ""), "a:1"};
    set_text("", 0, "b:");
    set_shelf(&file, 1);
    expect("the longest name of a file", read_it(), accepted(1, 0));
    file.name = repeated("", 'p', RESOURCE_MANAGER_FILE_NAME_BYTES + 1, "");
    set_shelf(&file, 1);
    expect("a name one byte longer", read_it(), RESOURCE_MANAGER_BAD_SHELF);
}

/* Each include of p makes 16 opens, each of q one. */
static void opens(void)
{
    const char *many = "#include \"q\"\n#include \"q\"\n#include \"q\"\n#include \"q\"\n#include \"q\"\n";
    char three[256];
    struct file files[] = {{"p", three}, {"q", ""}};
    char single[512] = "";
    size_t n;
    sprintf(three, "%s%s%s", many, many, many);
    for (n = 0; n < RESOURCE_MANAGER_OPENS % 16 + 16; n++) {
        strcat(single, "#include \"q\"\n");
    }
    set_shelf(files, 2);
    set_text("#include \"p\"\n", RESOURCE_MANAGER_OPENS / 16 - 1, single);
    expect("the most opens", read_it(), accepted(0, RESOURCE_MANAGER_OPENS));
    strcat(single, "#include \"q\"\n");
    set_text("#include \"p\"\n", RESOURCE_MANAGER_OPENS / 16 - 1, single);
    expect("an open more", read_it(), RESOURCE_MANAGER_MANY_OPENS);
    expect("what it leaves", lent_contents()[0], 0);
}

/* Fills memory with sevens, and counts the bytes that are none any more. */
static void fill(void *start, size_t bytes)
{
    memset(start, 7, bytes);
}

static size_t changed(const void *start, size_t bytes)
{
    const uint8_t *at = start;
    size_t n, count = 0;
    for (n = 0; n < bytes; n++) {
        count += at[n] != 7;
    }
    return count;
}

/* A depth over the greatest, whatever its low bits, changes no word and no byte. */
static void too_deep(uint64_t depth)
{
    fill(lent_contents(), 2 * contents_count);
    fill(lent_bodies(), bodies_count);
    expect("a depth over the greatest", read_depth(depth), RESOURCE_MANAGER_TOO_DEEP);
    expect("its contents", changed(lent_contents(), 2 * contents_count), 0);
    expect("its bodies", changed(lent_bodies(), bodies_count), 0);
}

static void depth(void)
{
    struct file file = {"p", "#include \"p\"\na:1"};
    set_text("", 0, "#include \"p\"");
    set_shelf(&file, 1);
    expect("the deepest include", read_depth(RESOURCE_MANAGER_GREATEST_DEPTH),
           accepted(RESOURCE_MANAGER_GREATEST_DEPTH, RESOURCE_MANAGER_GREATEST_DEPTH));
    expect("one less", read_depth(RESOURCE_MANAGER_GREATEST_DEPTH - 1),
           accepted(RESOURCE_MANAGER_GREATEST_DEPTH - 1, RESOURCE_MANAGER_GREATEST_DEPTH - 1));
    expect("at depth 1", read_depth(1), accepted(1, 1));
    expect("at depth 0 nothing is opened", read_depth(0), accepted(0, 0));
    expect("where none is given", read_it(), accepted(no_depth(), no_depth()));
    expect("a comparison where none is given", compare(0, "a"), RESOURCE_MANAGER_OK);
    expect("the entries with the file", lent_contents()[0], no_depth());
    too_deep(RESOURCE_MANAGER_GREATEST_DEPTH + 1);
    too_deep(((uint64_t)1 << 32) + 5);
    too_deep(UINT64_MAX);
    set_text("", 0, parts(RESOURCE_MANAGER_ENTRY_PARTS + 1, ":"));
    expect("a depth more before a part more", read_depth(RESOURCE_MANAGER_GREATEST_DEPTH + 1), RESOURCE_MANAGER_TOO_DEEP);
    shelf_count = 0;
    expect("a shelf of no bytes before a depth more", read_depth(RESOURCE_MANAGER_GREATEST_DEPTH + 1),
           RESOURCE_MANAGER_BAD_SHELF);
    set_text("\n", RESOURCE_MANAGER_TEXT_BYTES + 1, "");
    expect("a byte more before that", read_depth(RESOURCE_MANAGER_GREATEST_DEPTH + 1), RESOURCE_MANAGER_LONG_TEXT);
    contents_count--;
    expect("a word less before that", read_depth(RESOURCE_MANAGER_GREATEST_DEPTH + 1), RESOURCE_MANAGER_SHORT_BUFFERS);
    contents_count++;
}

/* The path of an include is on the stack too. */
static void dots(void)
{
    struct file file = {"d/p", "#include \"../d/./p\"\na:1"};
    set_text("", 0, "#include \"./x/../d/p\"");
    set_shelf(&file, 1);
    expect("the deepest include by dots", read_depth(RESOURCE_MANAGER_GREATEST_DEPTH),
           accepted(RESOURCE_MANAGER_GREATEST_DEPTH, RESOURCE_MANAGER_GREATEST_DEPTH));
    set_text("", 0, "#include \"../d/p\"");
    expect("an include above the root", read_it(), accepted(0, 0));
}

static void entry_parts(void)
{
    set_shelf(NULL, 0);
    set_text("", 0, parts(RESOURCE_MANAGER_ENTRY_PARTS, ":"));
    expect("the most parts", read_it(), accepted(1, 0));
    set_text("", 0, parts(RESOURCE_MANAGER_ENTRY_PARTS + 1, ":"));
    expect("a part more", read_it(), RESOURCE_MANAGER_MANY_ENTRY_PARTS);
}

static void entries(void)
{
    set_shelf(NULL, 0);
    set_text("a:\n", RESOURCE_MANAGER_ENTRIES, "");
    expect("the most entries", read_it(), accepted(RESOURCE_MANAGER_ENTRIES, 0));
    set_text("a:\n", RESOURCE_MANAGER_ENTRIES + 1, "");
    expect("an entry more", read_it(), RESOURCE_MANAGER_MANY_ENTRIES);
}

/* Two files fill the store but for two bytes, which are the key of an entry with an empty value. */
static void store(void)
{
    struct file files[] = {{"p", repeated("a:", 'z', RESOURCE_MANAGER_BODIES_BYTES - 20002, "")},
                           {"q", repeated("b:", 'z', 20000 - 4, "")}};
    uint64_t found;
    set_shelf(files, 2);
    set_text("", 0, "#include \"p\"\n#include \"q\"\nc:");
    expect("a full store", read_it(), accepted(3, 2));
    found = ask(resource_manager_get_bytes, "c", "");
    expect("status of an empty value", resource_manager_status_of(found), RESOURCE_MANAGER_OK);
    expect("its place", resource_manager_place_of(found), RESOURCE_MANAGER_BODIES_BYTES);
    expect("its length", resource_manager_length_of(found), 0);
    found = ask(resource_manager_get_string, "b", "");
    expect("a long value's place", resource_manager_place_of(found), RESOURCE_MANAGER_BODIES_BYTES - 20000 + 2);
    expect("a long value's length", resource_manager_length_of(found), 20000 - 4);
    set_text("", 0, "#include \"p\"\n#include \"q\"\nc:1");
    expect("a byte more", read_it(), RESOURCE_MANAGER_FULL_STORE);
    expect("what it leaves", ask(resource_manager_get_bytes, "a", ""), RESOURCE_MANAGER_NONE);
}

/* ---- The limits of a lookup */

static void queries(void)
{
    const char *longest = repeated("", 'a', RESOURCE_MANAGER_QUERY_BYTES, "");
    const char *longer = repeated("", 'a', RESOURCE_MANAGER_QUERY_BYTES + 1, "");
    const char *most = parts(RESOURCE_MANAGER_QUERY_PARTS, ""), *more = parts(RESOURCE_MANAGER_QUERY_PARTS + 1, "");
    size_t n;
    set_shelf(NULL, 0);
    set_text("", 0, "b:1");
    expect("a reading", read_it(), accepted(1, 0));
    set_state(0, 65535);
    for (n = 0; n < sizeof lookups / sizeof lookups[0]; n++) {
        expect("the longest name", ask(lookups[n], longest, ""), RESOURCE_MANAGER_NONE);
        expect("a longer name", ask(lookups[n], longer, ""), RESOURCE_MANAGER_LONG_QUERY);
        expect("the longest class", ask(lookups[n], "a", longest), RESOURCE_MANAGER_NONE);
        expect("a longer class", ask(lookups[n], "a", longer), RESOURCE_MANAGER_LONG_QUERY);
        expect("the most parts in a name", ask(lookups[n], most, ""), RESOURCE_MANAGER_NONE);
        expect("a part more", ask(lookups[n], more, ""), RESOURCE_MANAGER_MANY_QUERY_PARTS);
        expect("the most parts in a class", ask(lookups[n], "a", most), RESOURCE_MANAGER_NONE);
        expect("a part more", ask(lookups[n], "a", more), RESOURCE_MANAGER_MANY_QUERY_PARTS);
        expect("a malformed name", ask(lookups[n], ".b", ""), RESOURCE_MANAGER_NONE);
        expect("an empty query", ask(lookups[n], "", ""), RESOURCE_MANAGER_NONE);
    }
}

/* The dictionary window's calls: at their own limits, and within these as the shell's. */
static void window_queries(void)
{
    static lookup *const window[] = {resource_manager_window_get_bytes, resource_manager_window_get_string,
                                     resource_manager_window_get_bool, window_value, window_show};
    const char *longest = repeated("", 'a', RESOURCE_MANAGER_WINDOW_BYTES, "");
    const char *longer = repeated("", 'a', RESOURCE_MANAGER_WINDOW_BYTES + 1, "");
    const char *most = parts(RESOURCE_MANAGER_WINDOW_PARTS, ""), *more = parts(RESOURCE_MANAGER_WINDOW_PARTS + 1, "");
    const char *full = parts(RESOURCE_MANAGER_WINDOW_PARTS,
                             repeated("", '.', RESOURCE_MANAGER_WINDOW_BYTES - 2 * RESOURCE_MANAGER_WINDOW_PARTS + 1, ""));
    const char *shorter = repeated("", 'a', RESOURCE_MANAGER_WINDOW_BYTES - 1, "");
    const char *queries[] = {"b", "a.b", ".b", "", longest, shorter, most, parts(RESOURCE_MANAGER_WINDOW_PARTS - 1, ""), full};
    size_t n, m;
    set_shelf(NULL, 0);
    set_text("", 0, "*b:1\n*a:yes");
    expect("a reading", read_it(), accepted(2, 0));
    for (n = 0; n < sizeof window / sizeof window[0]; n++) {
        expect("a longer name", ask(window[n], longer, ""), RESOURCE_MANAGER_LONG_QUERY);
        expect("a longer class", ask(window[n], "a", longer), RESOURCE_MANAGER_LONG_QUERY);
        expect("a part more", ask(window[n], more, ""), RESOURCE_MANAGER_MANY_QUERY_PARTS);
        expect("a part more", ask(window[n], "a", more), RESOURCE_MANAGER_MANY_QUERY_PARTS);
        expect("malformed before 10", ask(window[n], more, ".a"), RESOURCE_MANAGER_NONE);
        expect("9 before malformed", ask(window[n], ".a", longer), RESOURCE_MANAGER_LONG_QUERY);
        for (m = 0; m < sizeof queries / sizeof queries[0]; m++) {
            expect("the shell's answer", ask(window[n], queries[m], ""), ask(lookups[n], queries[m], ""));
            expect("the shell's answer", ask(window[n], "a", queries[m]), ask(lookups[n], "a", queries[m]));
        }
        memset(lent_contents(), 0, 2 * contents_count);
        lent_contents()[0] = RESOURCE_MANAGER_ENTRIES + 1;
        expect("no image", ask(window[n], longer, ""), RESOURCE_MANAGER_NO_IMAGE);
        set_text("", 0, "*b:1\n*a:yes");
        expect("a reading", read_it(), accepted(2, 0));
    }
}

static void images(void)
{
    size_t n;
    for (n = 0; n < sizeof lookups / sizeof lookups[0]; n++) {
        memset(lent_contents(), 0, 2 * contents_count);
        expect("an image of no entries", ask(lookups[n], "a", ""), RESOURCE_MANAGER_NONE);
        lent_contents()[0] = RESOURCE_MANAGER_ENTRIES + 1;
        expect("no image", ask(lookups[n], "a", ""), RESOURCE_MANAGER_NO_IMAGE);
    }
}

static void a_number(const char *line, uint64_t status, int64_t wanted)
{
    set_shelf(NULL, 0);
    set_text("", 0, line);
    expect("a reading", read_it(), accepted(1, 0));
    number = 77;
    expect(line, ask(get_value, "a", ""), status);
    expect("the number", (uint64_t)number, (uint64_t)wanted);
}

static void numbers(void)
{
    a_number("a:9223372036854775807", RESOURCE_MANAGER_OK, INT64_MAX);
    a_number("a:9223372036854775808", RESOURCE_MANAGER_NOT_A_NUMBER, 77);
    a_number("a:-9223372036854775808", RESOURCE_MANAGER_OK, INT64_MIN);
    a_number("a:-9223372036854775809", RESOURCE_MANAGER_NOT_A_NUMBER, 77);
    a_number("b:1", RESOURCE_MANAGER_NONE, 77);
    a_number("a:\\377", RESOURCE_MANAGER_NONE, 77);
}

static void a_boolean(const char *line, uint64_t wanted)
{
    set_shelf(NULL, 0);
    set_text("", 0, line);
    expect("a reading", read_it(), accepted(1, 0));
    expect(line, ask(resource_manager_get_bool, "a", ""), wanted);
}

static void booleans(void)
{
    a_boolean("a:Yes", RESOURCE_MANAGER_TRUE);
    a_boolean("a:oFF", RESOURCE_MANAGER_FALSE);
    a_boolean("a:-0", RESOURCE_MANAGER_FALSE);
    a_boolean("a:-9223372036854775808", RESOURCE_MANAGER_TRUE);
    a_boolean("a:9223372036854775808", RESOURCE_MANAGER_NONE);
}

/* What a query shows: a value, an empty value, and the default for none and for each refusal. */
static void shows(void)
{
    set_shelf(NULL, 0);
    set_text("", 0, "a:value\nb:");
    expect("a reading", read_it(), accepted(2, 0));
    expect("a value", ask(show, "a", ""), ask(resource_manager_get_bytes, "a", ""));
    expect("its bytes", (uint64_t)memcmp(shown.start, "value", 5), 0);
    expect("an empty value", ask(show, "b", ""), (uint64_t)(2 + 5 + 2) << 16);
    expect("no value", ask(show, "c", ""), RESOURCE_MANAGER_NONE);
    expect("the default's bytes", (uint64_t)memcmp(shown.start, "else", 4), 0);
    expect("a malformed name", ask(show, ".a", ""), RESOURCE_MANAGER_NONE);
    expect("a longer name", ask(show, repeated("", 'a', RESOURCE_MANAGER_QUERY_BYTES + 1, ""), ""),
           RESOURCE_MANAGER_LONG_QUERY);
    expect("a part more", ask(show, parts(RESOURCE_MANAGER_QUERY_PARTS + 1, ""), ""),
           RESOURCE_MANAGER_MANY_QUERY_PARTS);
    lent_contents()[0] = RESOURCE_MANAGER_ENTRIES + 1;
    expect("no image", ask(show, "a", ""), RESOURCE_MANAGER_NO_IMAGE);
}

/* Two files with a value each: the second's counts, and the first's if the second is struck off. */
static void set_comparison(void)
{
    const struct file files[] = {{"p", "a:first"}, {"q", "b:\na:2"}};
    set_shelf(files, 2);
    set_text("", 0, "#include \"p\"\n#include \"q\"");
}

static void comparisons(void)
{
    const uint8_t *found;
    set_comparison();
    expect("a file struck off", compare(1, "a"), RESOURCE_MANAGER_OK);
    expect("the place with it", resource_manager_place_of(with_it), 2 + 5 + 2 + 2);
    expect("the length with it", resource_manager_length_of(with_it), 1);
    expect("the place without it", resource_manager_place_of(without), 2);
    expect("the length without it", resource_manager_length_of(without), 5);
    found = bodies_without_end - RESOURCE_MANAGER_BODIES_BYTES + resource_manager_place_of(without);
    expect("the bytes without it", (uint64_t)memcmp(found, "first", 5), 0);
    expect("a value that goes", compare(1, "b"), RESOURCE_MANAGER_OK);
    expect("it, with the file", resource_manager_status_of(with_it), RESOURCE_MANAGER_OK);
    expect("it, without the file", without, RESOURCE_MANAGER_NONE);
}

static void refused_comparison(const char *what, uint64_t wanted, size_t file, const char *name)
{
    expect(what, compare(file, name), wanted);
    expect("the first answer", with_it, 77);
    expect("the second answer", without, 77);
}

static void refused_comparisons(void)
{
    set_comparison();
    refused_comparison("no such file", RESOURCE_MANAGER_NONE, 2, "a");
    refused_comparison("the highest number of a file", RESOURCE_MANAGER_NONE, SIZE_MAX, "a");
    refused_comparison("a longer name", RESOURCE_MANAGER_LONG_QUERY, 0,
                       repeated("", 'a', RESOURCE_MANAGER_QUERY_BYTES + 1, ""));
    refused_comparison("a part more", RESOURCE_MANAGER_MANY_QUERY_PARTS, 0,
                       parts(RESOURCE_MANAGER_QUERY_PARTS + 1, ""));
    short_struck = 1;
    refused_comparison("no room for a shelf", RESOURCE_MANAGER_SHORT_BUFFERS, 0, "a");
    short_struck = 0;
    short_contents = 1;
    refused_comparison("second contents one word short", RESOURCE_MANAGER_SHORT_BUFFERS, 0, "a");
    short_contents = 0;
    short_bodies = 1;
    refused_comparison("second bodies one byte short", RESOURCE_MANAGER_SHORT_BUFFERS, 0, "a");
    short_bodies = 0;
    set_text("a:\n", RESOURCE_MANAGER_ENTRIES + 1, "");
    refused_comparison("a refused reading", RESOURCE_MANAGER_MANY_ENTRIES, 0, "a");
}

/* A file that the second reading lacks is missed just where the first, at the same depth, opens it. */
static void depth_of_comparisons(void)
{
    const struct file files[] = {{"p", "#include \"q\"\nb:"}, {"q", "a:2"}};
    size_t last = 1, words = RESOURCE_MANAGER_CONTENTS_WORDS, bytes = RESOURCE_MANAGER_BODIES_BYTES;
    set_shelf(files, 2);
    set_text("a:\n", 1, "#include \"p\"");
    expect("depth 1 of two", compare_depth(1, last, "a"), RESOURCE_MANAGER_OK);
    expect("the empty value with it", resource_manager_length_of(with_it), 0);
    expect("and without it", without, with_it);
    expect("depth 2 of two", compare_depth(2, last, "a"), RESOURCE_MANAGER_OK);
    expect("the value with it", resource_manager_length_of(with_it), 1);
    expect("the empty value without it", resource_manager_length_of(without), 0);
    expect("depth 0", compare_depth(0, 0, "b"), RESOURCE_MANAGER_OK);
    expect("no value with it", with_it, RESOURCE_MANAGER_NONE);
    expect("nor without it", without, RESOURCE_MANAGER_NONE);
    expect("the greatest depth", compare_depth(RESOURCE_MANAGER_GREATEST_DEPTH, last, "a"), RESOURCE_MANAGER_OK);
    fill(struck_end - shelf_count, shelf_count);
    fill(lent_contents(), 2 * contents_count);
    fill(lent_bodies(), bodies_count);
    fill(contents_without_end - 2 * words, 2 * words);
    fill(bodies_without_end - bytes, bytes);
    expect("a depth more", compare_depth(RESOURCE_MANAGER_GREATEST_DEPTH + 1, last, "a"), RESOURCE_MANAGER_TOO_DEEP);
    expect("the first answer", with_it, 77);
    expect("the second answer", without, 77);
    expect("the room for a shelf", changed(struck_end - shelf_count, shelf_count), 0);
    expect("the first contents", changed(lent_contents(), 2 * contents_count), 0);
    expect("the first bodies", changed(lent_bodies(), bodies_count), 0);
    expect("the second contents", changed(contents_without_end - 2 * words, 2 * words), 0);
    expect("the second bodies", changed(bodies_without_end - bytes, bytes), 0);
    expect("a depth more before a file too few", compare_depth(UINT64_MAX, 2, "a"), RESOURCE_MANAGER_TOO_DEEP);
    shelf_count = 0;
    expect("a shelf of no bytes before a depth more", compare_depth(UINT64_MAX, last, "a"), RESOURCE_MANAGER_BAD_SHELF);
}

/* ---- Writing out */

#define FILLED 0xA5

/* Writes the image out into a buffer of so many bytes. All but the text is then as it was, on both sides of the buffer. */
static uint64_t write_out(size_t count)
{
    uint8_t *start = written_end - ROOM, *buffer = written_end - count, *at;
    size_t written = 0;
    uint64_t answer;
    memset(start, FILLED, ROOM);
    answer = resource_manager_write(lent_contents(), contents_count, lent_bodies(), bodies_count, buffer, count);
    if (resource_manager_status_of(answer) == RESOURCE_MANAGER_OK) {
        written = resource_manager_written_of(answer);
    }
    for (at = start; at < written_end; at++) {
        if ((at < buffer || at >= buffer + written) && *at != FILLED) {
            fail("a byte is changed that is none of the text's");
        }
    }
    return answer;
}

static uint64_t written(size_t count)
{
    return (uint64_t)count << 32;
}

/* The image of a text, written out into buffers that are just long enough, longer, and one byte short. */
static void writes(const char *from, const char *to, size_t count)
{
    set_shelf(NULL, 0);
    set_text("", 0, from);
    expect("a reading's status", resource_manager_status_of(read_it()), RESOURCE_MANAGER_OK);
    expect(from, write_out(count), written(count));
    expect("its bytes", (uint64_t)memcmp(written_end - count, to, count), 0);
    expect("a longer buffer", write_out(count + 9), written(count));
    expect("its bytes", (uint64_t)memcmp(written_end - count - 9, to, count), 0);
    expect("the longest buffer", write_out(RESOURCE_MANAGER_WRITTEN_BYTES), written(count));
    if (count > 0) {
        expect("a buffer one byte short", write_out(count - 1), RESOURCE_MANAGER_SHORT_TEXT_BUFFER);
        expect("a buffer of no bytes", write_out(0), RESOURCE_MANAGER_SHORT_TEXT_BUFFER);
    }
}

#define LITERAL(text) text, sizeof text - 1

static void texts_written(void)
{
    writes("", LITERAL(""));
    writes("a.b:x\n! none\nb..*c :\t y", LITERAL(".a.b: x\n.b*c: y\n"));
    writes("a:", LITERAL(".a: \n"));
    writes("a:\\\\", LITERAL(".a: \\\\\n"));
    writes("a:1\\n2\\n", LITERAL(".a: 1\\n2\\n\n"));
    writes("a:\\  b ", LITERAL(".a: \\  b \n"));
    writes("a:\\\t\tb", LITERAL(".a: \\\t\tb\n"));
    writes("a:\\000\\377", LITERAL(".a: \0\377\n"));
}

/* Sixty-four entries whose values are backslashes alone, eight times: an image with no room for another byte. */
static void longest_text(void)
{
    size_t line = 2 + 4 * (RESOURCE_MANAGER_BODIES_BYTES / RESOURCE_MANAGER_ENTRIES - 2) + 1, n;
    struct file file = {"p", repeated("", '\n', 64 * line, "")};
    char *at = (char *)file.body;
    while (*at != '\0') {
        memcpy(at, "a:", 2);
        for (n = 2; n + 1 < line; n += 4) {
            memcpy(at + n, "\\134", 4);
        }
        at += line;
    }
    set_shelf(&file, 1);
    set_text("#include \"p\"\n", RESOURCE_MANAGER_ENTRIES / 64, "");
    expect("a full image", read_it(), accepted(RESOURCE_MANAGER_ENTRIES, RESOURCE_MANAGER_ENTRIES / 64));
    expect("the longest text", write_out(RESOURCE_MANAGER_WRITTEN_BYTES), written(RESOURCE_MANAGER_WRITTEN_BYTES));
    expect("its first bytes", (uint64_t)memcmp(written_end - RESOURCE_MANAGER_WRITTEN_BYTES, ".a: \\\\", 6), 0);
    expect("its last bytes", (uint64_t)memcmp(written_end - 3, "\\\\\n", 3), 0);
    expect("a byte less", write_out(RESOURCE_MANAGER_WRITTEN_BYTES - 1), RESOURCE_MANAGER_SHORT_TEXT_BUFFER);
}

/* The longest text that is read again, and one byte more. */
static void text_read_again(void)
{
    set_shelf(NULL, 0);
    set_text("", 0, repeated("a:", 'z', RESOURCE_MANAGER_TEXT_BYTES - 5, ""));
    expect("a reading", read_it(), accepted(1, 0));
    expect("its text", write_out(RESOURCE_MANAGER_TEXT_BYTES), written(RESOURCE_MANAGER_TEXT_BYTES));
    text_count = RESOURCE_MANAGER_TEXT_BYTES;
    memcpy(text_end - text_count, written_end - text_count, text_count);
    memset(lent_bodies(), FILLED, bodies_count);
    expect("the text read again", read_it(), accepted(1, 0));
    expect("its value", resource_manager_length_of(ask(resource_manager_get_bytes, "a", "")), text_count - 5);
    set_text("", 0, repeated("a:", 'z', RESOURCE_MANAGER_TEXT_BYTES - 4, ""));
    expect("a reading", read_it(), accepted(1, 0));
    expect("its text", write_out(RESOURCE_MANAGER_TEXT_BYTES + 1), written(RESOURCE_MANAGER_TEXT_BYTES + 1));
}

/* 8 comes before 11. */
static void no_images_written(void)
{
    memset(lent_contents(), 0, 2 * contents_count);
    expect("an image of no entries", write_out(0), written(0));
    lent_contents()[0] = RESOURCE_MANAGER_ENTRIES + 1;
    expect("no image", write_out(RESOURCE_MANAGER_WRITTEN_BYTES), RESOURCE_MANAGER_NO_IMAGE);
    expect("no image, and no buffer", write_out(0), RESOURCE_MANAGER_NO_IMAGE);
    memset(lent_contents(), 0, 2 * contents_count);
    contents_count--;
    expect("contents one word short", write_out(9), RESOURCE_MANAGER_NO_IMAGE);
    contents_count++;
    bodies_count--;
    expect("bodies one byte short", write_out(9), RESOURCE_MANAGER_NO_IMAGE);
    bodies_count++;
}

static void writings(void)
{
    texts_written();
    longest_text();
    text_read_again();
    no_images_written();
}

/* ---- Walks */

#define UNTOUCHED 7777

static void begins(const char *name, const char *class_name, size_t count)
{
    set_state(UNTOUCHED, UNTOUCHED);
    expect("a walk begins", ask(walk_start, name, class_name), RESOURCE_MANAGER_OK);
    expect("its next number", *lent_next(), 0);
    expect("its count", *lent_count(), count);
}

/* A start that is refused leaves both numbers. */
static void begins_not(const char *what, const char *name, const char *class_name, uint64_t wanted)
{
    set_state(UNTOUCHED, UNTOUCHED);
    expect(what, ask(walk_start, name, class_name), wanted);
    expect("a next number that stays", *lent_next(), UNTOUCHED);
    expect("a count that stays", *lent_count(), UNTOUCHED);
}

/* A step from a state of its own. */
static void steps(size_t next, size_t count, const char *name, uint64_t wanted)
{
    set_state(next, count);
    expect("a step", ask(walk_step, name, ""), wanted);
}

static uint64_t numbered(size_t number_of_entry)
{
    return (uint64_t)number_of_entry << 16;
}

static void walk_states(void)
{
    const size_t most = 65535;
    size_t n;
    set_shelf(NULL, 0);
    set_text("", 0, "a.b:0\n*b:1\nc:2\na*b:3\n?.b:4");
    expect("a reading", read_it(), accepted(5, 0));
    begins("a.b", "", 5);
    for (n = 0; n < 5; n++) {
        if (n != 2) {
            expect("a step", ask(walk_step, "a.b", ""), numbered(n));
        }
    }
    expect("the end", ask(walk_step, "a.b", ""), RESOURCE_MANAGER_NONE);
    expect("the end again", ask(walk_step, "a.b", ""), RESOURCE_MANAGER_NONE);
    begins("", "x.b", 5);
    expect("a step by class", ask(walk_step, "", "x.b"), numbered(1));
    steps(2, most, "a.b", numbered(3));
    steps(2, 4, "a.b", numbered(3));
    steps(2, 3, "a.b", RESOURCE_MANAGER_NONE);
    steps(0, 0, "a.b", RESOURCE_MANAGER_NONE);
    steps(5, most, "a.b", RESOURCE_MANAGER_NONE);
    steps(most, most, "a.b", RESOURCE_MANAGER_NONE);
    steps(most, 5, "a.b", RESOURCE_MANAGER_NONE);
    begins(".a", "", 5);
    expect("a malformed query", ask(walk_step, ".a", ""), RESOURCE_MANAGER_NONE);
}

/* 8, 9, malformed, 10, as a lookup. */
static void walks_refused(void)
{
    const char *longer = repeated("", 'a', RESOURCE_MANAGER_QUERY_BYTES + 1, "");
    const char *more = parts(RESOURCE_MANAGER_QUERY_PARTS + 1, "");
    begins(repeated("", 'a', RESOURCE_MANAGER_QUERY_BYTES, ""), parts(RESOURCE_MANAGER_QUERY_PARTS, ""), 5);
    begins_not("a longer name", longer, "", RESOURCE_MANAGER_LONG_QUERY);
    begins_not("a longer class", ".a", longer, RESOURCE_MANAGER_LONG_QUERY);
    begins_not("a part more", more, "", RESOURCE_MANAGER_MANY_QUERY_PARTS);
    begins_not("a part more in the class", "", more, RESOURCE_MANAGER_MANY_QUERY_PARTS);
    begins(".a", more, 5);
    contents_count--;
    begins_not("contents one word short", longer, "", RESOURCE_MANAGER_NO_IMAGE);
    contents_count++;
    bodies_count--;
    begins_not("bodies one byte short", ".a", "", RESOURCE_MANAGER_NO_IMAGE);
    bodies_count++;
    lent_contents()[0] = RESOURCE_MANAGER_ENTRIES + 1;
    begins_not("no image", "a", "", RESOURCE_MANAGER_NO_IMAGE);
}

static void longest_walk(void)
{
    size_t n;
    set_shelf(NULL, 0);
    set_text("a:\n", RESOURCE_MANAGER_ENTRIES, "");
    expect("the most entries", read_it(), accepted(RESOURCE_MANAGER_ENTRIES, 0));
    begins("a", "", RESOURCE_MANAGER_ENTRIES);
    for (n = 0; n < RESOURCE_MANAGER_ENTRIES; n++) {
        expect("a step", ask(walk_step, "a", ""), numbered(n));
    }
    expect("the end", ask(walk_step, "a", ""), RESOURCE_MANAGER_NONE);
}

/* ---- Additions */

static uint16_t words_before[RESOURCE_MANAGER_CONTENTS_WORDS];
static uint8_t bytes_before[RESOURCE_MANAGER_BODIES_BYTES];

/* The bytes of two slices are the same. */
static void stays(const char *what, const void *now, const void *before, size_t count)
{
    expect(what, (uint64_t)memcmp(now, before, count), 0);
}

/* All that an addition must leave: both buffers but for a row, its bytes and the first two words. */
static void else_as_it_was(size_t entry)
{
    const uint16_t *contents = lent_contents();
    const uint8_t *bodies = lent_bodies();
    size_t row = 2 + 4 * entry, used = words_before[1], end = contents[1];
    expect("the number is the old count", entry, words_before[0]);
    expect("the new count", contents[0], entry + 1);
    expect("where the entry starts", contents[row], used);
    expect("where it ends", used + contents[row + 1] + contents[row + 2], end);
    expect("its file", resource_manager_file_of(contents, entry), RESOURCE_MANAGER_UNKNOWN_FILE);
    stays("the rows before", contents + 2, words_before + 2, 2 * (row - 2));
    stays("what is behind its row", contents + row + 4, words_before + row + 4, 2 * (contents_count - row - 4));
    stays("the bytes before", bodies, bytes_before, used);
    stays("what is behind its bytes", bodies + end, bytes_before + end, bodies_count - end);
}

/* Adds the text to the image. A refusal leaves every word and byte. */
static uint64_t add(void)
{
    uint64_t answer;
    memcpy(words_before, lent_contents(), 2 * contents_count);
    memcpy(bytes_before, lent_bodies(), bodies_count);
    answer = resource_manager_add(lent_contents(), contents_count, lent_bodies(), bodies_count, text_end - text_count,
                                  text_count);
    if (resource_manager_status_of(answer) == RESOURCE_MANAGER_OK) {
        else_as_it_was(resource_manager_number_of(answer));
    } else {
        stays("contents", lent_contents(), words_before, 2 * contents_count);
        stays("bodies", lent_bodies(), bytes_before, bodies_count);
    }
    return answer;
}

static void adds(const char *text, uint64_t wanted)
{
    set_text("", 0, text);
    expect(text, add(), wanted);
}

static void holds(size_t entry, const char *key, const char *value)
{
    struct resource_manager_bytes seen = resource_manager_key_of(lent_contents(), lent_bodies(), entry);
    expect("a key's length", seen.count, strlen(key));
    stays("a key", seen.start, key, seen.count);
    seen = resource_manager_value_of(lent_contents(), lent_bodies(), entry);
    expect("a value's length", seen.count, strlen(value));
    stays("a value", seen.start, value, seen.count);
}

/* The image of a text, with garbage behind it. */
static void set_image(const char *piece, size_t times, const char *last)
{
    uint16_t *contents = lent_contents();
    size_t words;
    set_shelf(NULL, 0);
    set_text(piece, times, last);
    expect("a reading's status", resource_manager_status_of(read_it()), RESOURCE_MANAGER_OK);
    words = 2 + 4 * (size_t)contents[0];
    memset(contents + words, FILLED, 2 * (contents_count - words));
    memset(lent_bodies() + contents[1], FILLED, bodies_count - contents[1]);
}

/* ---- From which file, and old images */

static void file_is(size_t entry, size_t wanted)
{
    expect("the file of a line", resource_manager_file_of(lent_contents(), entry), wanted);
}

static void files_of_lines(void)
{
    static const size_t wanted[] = {0, 1, 3, 2, 0};
    const struct file files[] = {{"a", "x:a"}, {"p", "#include \"q\"\nx:p"}, {"q", "#include \"./a\"\nx:q"}};
    size_t n;
    set_shelf(files, 3);
    set_text("", 0, "x:\n#include \"p\"\nx:");
    expect("lines of three files", read_it(), accepted(5, 3));
    for (n = 0; n < 5; n++)
        file_is(n, wanted[n]);
    lent_contents()[5] = RESOURCE_MANAGER_SHELF_FILES;
    expect("the last place", resource_manager_length_of(ask(resource_manager_get_bytes, "x", "")), 0);
    lent_contents()[5] = RESOURCE_MANAGER_SHELF_FILES + 1;
    expect("a place more", ask(resource_manager_get_bytes, "x", ""), RESOURCE_MANAGER_NO_IMAGE);
    lent_contents()[5] = RESOURCE_MANAGER_UNKNOWN_FILE - 1;
    expect("just below unknown", ask(resource_manager_get_bytes, "x", ""), RESOURCE_MANAGER_NO_IMAGE);
}

static uint16_t *old_contents(void)
{
    return (uint16_t *)(void *)old_contents_end - RESOURCE_MANAGER_OLD_CONTENTS_WORDS;
}

static uint8_t *old_bodies(void)
{
    return old_bodies_end - RESOURCE_MANAGER_BODIES_BYTES;
}

static uint64_t migrate(size_t old_words, size_t old_bytes)
{
    return resource_manager_migrate(old_contents(), old_words, old_bodies(), old_bytes, lent_contents(),
                                    contents_count, lent_bodies(), bodies_count);
}

/* Refused, with both buffers as they were. */
static void not_carried(const char *what, size_t old_words, size_t old_bytes, uint64_t wanted)
{
    memcpy(words_before, lent_contents(), 2 * contents_count);
    memcpy(bytes_before, lent_bodies(), bodies_count);
    expect(what, migrate(old_words, old_bytes), wanted);
    stays("contents", lent_contents(), words_before, 2 * contents_count);
    stays("bodies", lent_bodies(), bytes_before, bodies_count);
}

/* The image of a text, as it was before rows had a fourth word, and then carried over. */
static void old_images(void)
{
    const size_t words = RESOURCE_MANAGER_OLD_CONTENTS_WORDS, bytes = RESOURCE_MANAGER_BODIES_BYTES;
    size_t n, end;
    expect("words of an old image", words, 2 + 3 * RESOURCE_MANAGER_ENTRIES);
    set_shelf(NULL, 0);
    set_text("a.b:1\n", RESOURCE_MANAGER_ENTRIES - 1, "*c: last");
    expect("a reading", read_it(), accepted(RESOURCE_MANAGER_ENTRIES, 0));
    memcpy(old_bodies(), lent_bodies(), bytes);
    memcpy(old_contents(), lent_contents(), 4);
    for (n = 0; n < RESOURCE_MANAGER_ENTRIES; n++)
        memcpy(old_contents() + 2 + 3 * n, lent_contents() + 2 + 4 * n, 6);
    end = old_contents()[1];
    memset(old_bodies() + end, FILLED, bytes - end);
    memset(lent_contents(), FILLED, 2 * contents_count);
    memset(lent_bodies(), FILLED, bodies_count);
    not_carried("old contents one word short", words - 1, bytes, RESOURCE_MANAGER_NO_IMAGE);
    not_carried("old bodies one byte short", words, bytes - 1, RESOURCE_MANAGER_NO_IMAGE);
    contents_count--;
    not_carried("new contents one word short", words, bytes, RESOURCE_MANAGER_SHORT_BUFFERS);
    not_carried("8 before 1", words - 1, bytes, RESOURCE_MANAGER_NO_IMAGE);
    contents_count++;
    bodies_count--;
    not_carried("new bodies one byte short", words, bytes, RESOURCE_MANAGER_SHORT_BUFFERS);
    bodies_count++;
    expect("an old image", migrate(words, bytes), accepted(RESOURCE_MANAGER_ENTRIES, 0));
    stays("its bytes", lent_bodies(), old_bodies(), end);
    for (n = end; n < bytes; n++)
        expect("a byte behind them", lent_bodies()[n], 0);
    for (n = 0; n < RESOURCE_MANAGER_ENTRIES; n++) {
        stays("its rows", lent_contents() + 2 + 4 * n, old_contents() + 2 + 3 * n, 6);
        file_is(n, RESOURCE_MANAGER_UNKNOWN_FILE);
    }
    expect("a lookup", resource_manager_length_of(ask(resource_manager_get_bytes, "c", "")), 4);
    old_contents()[0] = old_contents()[1] = 0;
    expect("an old image of no entries", migrate(words, bytes), accepted(0, 0));
    for (n = 0; n < contents_count; n++)
        expect("a word of it", lent_contents()[n], 0);
}

static void entries_added(void)
{
    set_image("", 0, "");
    adds("a:1", numbered(0));
    adds("! a comment\n\n#include \"p\"\nno resource\n*b..c :\t y\\nz\na.?:none\n", numbered(1));
    adds("d:", numbered(2));
    holds(0, ".a", "1");
    holds(1, "*b.c", "y\nz");
    holds(2, ".d", "");
    expect("a lookup", resource_manager_length_of(ask(resource_manager_get_bytes, "x.b.c", "")), 3);
    adds("", RESOURCE_MANAGER_NOT_ONE_ENTRY);
    adds("! a:1\n#include \"p\"\n a:1", RESOURCE_MANAGER_NOT_ONE_ENTRY);
    adds("a:1\na:1", RESOURCE_MANAGER_NOT_ONE_ENTRY);
    set_text("a:\n", RESOURCE_MANAGER_ENTRIES + 1, "");
    expect("many entries", add(), RESOURCE_MANAGER_NOT_ONE_ENTRY);
}

/* 8, 2, 12, 5, 6, 7. */
static void additions_refused(void)
{
    const char *wide = parts(RESOURCE_MANAGER_ENTRY_PARTS + 1, ":");
    set_image("", 0, "a:1");
    adds(parts(RESOURCE_MANAGER_ENTRY_PARTS, ":"), numbered(1));
    adds(wide, RESOURCE_MANAGER_MANY_ENTRY_PARTS);
    adds(parts(RESOURCE_MANAGER_ENTRY_PARTS + 1, ":\nb:"), RESOURCE_MANAGER_NOT_ONE_ENTRY);
    set_text("\n", RESOURCE_MANAGER_TEXT_BYTES - 3, "b:1");
    expect("the longest text", add(), numbered(2));
    set_text("\n", RESOURCE_MANAGER_TEXT_BYTES - 2, "b:1");
    expect("a byte more", add(), RESOURCE_MANAGER_LONG_TEXT);
    set_text("\n", RESOURCE_MANAGER_TEXT_BYTES + 1, "");
    expect("a long text of no entry", add(), RESOURCE_MANAGER_LONG_TEXT);
    set_image("a:\n", RESOURCE_MANAGER_ENTRIES - 1, "");
    adds("b:", numbered(RESOURCE_MANAGER_ENTRIES - 1));
    adds("b:", RESOURCE_MANAGER_MANY_ENTRIES);
    adds(wide, RESOURCE_MANAGER_MANY_ENTRY_PARTS);
    set_text("", 0, repeated("b:", 'z', RESOURCE_MANAGER_BODIES_BYTES - 2, ""));
    expect("neither an entry nor its bytes", add(), RESOURCE_MANAGER_MANY_ENTRIES);
    set_image("", 0, repeated("a:", 'z', RESOURCE_MANAGER_BODIES_BYTES - 5, ""));
    adds("b:12", RESOURCE_MANAGER_FULL_STORE);
    adds("b:1", numbered(1));
    adds("b:", RESOURCE_MANAGER_FULL_STORE);
}

/* 8 comes first. */
static void no_images_added_to(void)
{
    set_image("", 0, "a:1");
    set_text("\n", RESOURCE_MANAGER_TEXT_BYTES + 1, "");
    contents_count--;
    expect("contents one word short", add(), RESOURCE_MANAGER_NO_IMAGE);
    contents_count++;
    bodies_count--;
    expect("bodies one byte short", add(), RESOURCE_MANAGER_NO_IMAGE);
    bodies_count++;
    lent_contents()[0] = RESOURCE_MANAGER_ENTRIES + 1;
    expect("no image", add(), RESOURCE_MANAGER_NO_IMAGE);
}

/* An added entry shows in a walk that is begun after it. */
static void added_under_way(void)
{
    set_image("", 0, "a:0\nb:1\na:2");
    begins("a", "", 3);
    expect("a step", ask(walk_step, "a", ""), numbered(0));
    adds("a:3", numbered(3));
    expect("a step", ask(walk_step, "a", ""), numbered(2));
    adds("*a:4", numbered(4));
    expect("the end", ask(walk_step, "a", ""), RESOURCE_MANAGER_NONE);
    begins("a", "", 5);
    expect("a step", ask(walk_step, "a", ""), numbered(0));
    expect("a step", ask(walk_step, "a", ""), numbered(2));
    expect("a step", ask(walk_step, "a", ""), numbered(3));
    expect("a step", ask(walk_step, "a", ""), numbered(4));
    expect("the end", ask(walk_step, "a", ""), RESOURCE_MANAGER_NONE);
}

static void walks_and_additions(void)
{
    walk_states();
    walks_refused();
    longest_walk();
    entries_added();
    additions_refused();
    no_images_added_to();
    added_under_way();
}

/* ---- A start-up of two texts */

/* Every text has an entry whose key is the text's letter. Used are those with these letters. */
static void uses(const char *what, const char *letters)
{
    size_t n;
    set_shelf(NULL, 0);
    expect(what, start_up(), accepted(strlen(letters), 0));
    for (n = 0; n < strlen(letters); n++) {
        expect("the letter of a text that is used", lent_bodies()[2 * n + 1], (uint8_t)letters[n]);
    }
}

static void which_texts(void)
{
    static const uint8_t formats[] = {0, 7, 9, 16, 32, 255}, flags[] = {1, 2, 128, 255};
    const uint8_t *p = (const uint8_t *)"p:", *r = (const uint8_t *)"r:", *d = (const uint8_t *)"d:";
    const uint8_t *x = (const uint8_t *)"x:", *h = (const uint8_t *)"h:";
    size_t n;
    lend_none();
    uses("no text could be read", "");
    lend(HOST, h, 2);
    uses("the host's text alone", "h");
    lend(XDEFAULTS, d, 2);
    uses(".Xdefaults where .Xresources could not be read", "dh");
    lend(XRESOURCES, r, 0);
    uses("an empty .Xresources", "h");
    lend(XRESOURCES, r, 2);
    uses(".Xresources before .Xdefaults", "rh");
    lend(PROPERTY, p, 0);
    uses("an empty property", "rh");
    lend(PROPERTY, p, 2);
    uses("the property before .Xresources", "ph");
    for (n = 0; n < sizeof formats; n++) {
        texts[PROPERTY].flag = formats[n];
        uses("a property of another format", "rh");
    }
    lend(XENVIRONMENT, x, 2);
    uses("the text that XENVIRONMENT names", "rx");
    texts[XENVIRONMENT].flag = 0;
    uses("XENVIRONMENT set, and its text not read", "r");
    for (n = 0; n < sizeof flags; n++) {
        texts[XRESOURCES].flag = texts[XENVIRONMENT].flag = xenvironment_set = flags[n];
        uses("flags that say yes", "rx");
        texts[XRESOURCES].flag = xenvironment_set = 0;
        texts[XDEFAULTS].flag = texts[HOST].flag = flags[n];
        uses("flags that say yes and no", "dh");
        lend(XENVIRONMENT, x, 2);
    }
}

static void expect_both(const char *what, uint64_t wanted)
{
    lend_both();
    expect(what, start_up(), wanted);
}

/* Limits that only both texts together pass. */
static void over_both(void)
{
    const struct file files[] = {{"p", "#include \"q\"\n#include \"q\"\n#include \"q\""}, {"q", ""}};
    set_shelf(files, 2);
    set_text("#include \"p\"\n", RESOURCE_MANAGER_OPENS / 8, "");
    set_second("#include \"p\"\n", RESOURCE_MANAGER_OPENS / 8, "");
    expect_both("the most opens of both", accepted(0, RESOURCE_MANAGER_OPENS));
    set_second("#include \"p\"\n", RESOURCE_MANAGER_OPENS / 8, "#include \"q\"");
    expect_both("an open more", RESOURCE_MANAGER_MANY_OPENS);
    set_text("a:\n", RESOURCE_MANAGER_ENTRIES - 1, "");
    set_second("", 0, "a:\n");
    expect_both("the most entries of both", accepted(RESOURCE_MANAGER_ENTRIES, 0));
    set_second("", 0, "a:\na:");
    expect_both("an entry more", RESOURCE_MANAGER_MANY_ENTRIES);
    expect("what it leaves", lent_contents()[0], 0);
    set_text("", 0, repeated("a:", 'z', 20000 - 2, ""));
    set_second("", 0, repeated("b:", 'z', RESOURCE_MANAGER_BODIES_BYTES - 20002, ""));
    expect_both("a store that both fill", accepted(2, 0));
    set_second("", 0, repeated("b:", 'z', RESOURCE_MANAGER_BODIES_BYTES - 20001, ""));
    expect_both("a byte more", RESOURCE_MANAGER_FULL_STORE);
}

/* Limits that each text has for itself, and the order in which both are told. */
static void of_each(void)
{
    const struct file deep = {"p", "#include \"p\"\na:1"};
    set_shelf(&deep, 1);
    set_text("", 0, "#include \"p\"");
    set_second("", 0, "#include \"p\"");
    expect_both("the deepest include of each", accepted(2 * RESOURCE_MANAGER_GREATEST_DEPTH, 2 * RESOURCE_MANAGER_GREATEST_DEPTH));
    set_second("", 0, parts(RESOURCE_MANAGER_ENTRY_PARTS + 1, ":"));
    expect_both("a part more in the second text", RESOURCE_MANAGER_MANY_ENTRY_PARTS);
    set_text("a:\n", RESOURCE_MANAGER_ENTRIES + 1, "");
    expect_both("an entry more in the first before it", RESOURCE_MANAGER_MANY_ENTRIES);
    set_second("\n", RESOURCE_MANAGER_TEXT_BYTES + 1, "");
    expect_both("a second text one byte longer", RESOURCE_MANAGER_LONG_TEXT);
    shelf_count = 0;
    expect_both("before a shelf of no bytes", RESOURCE_MANAGER_LONG_TEXT);
    second_count--;
    expect_both("a shelf of no bytes", RESOURCE_MANAGER_BAD_SHELF);
}

/* A text ends at its own end. */
static void ends(void)
{
    static const struct {
        const char *text;
        size_t entries;
    } unfinished[] = {{"a:1\\", 1}, {"a:\\1", 1}, {"a:\\12", 1}, {"a:", 1}, {"a", 0},
                      {"a.", 0},    {"!", 0},     {"#", 0},       {"\n", 0}, {"#include \"p", 0}};
    size_t n;
    set_shelf(NULL, 0);
    set_second("", 0, "7b:2");
    for (n = 0; n < sizeof unfinished / sizeof unfinished[0]; n++) {
        set_text("", 0, unfinished[n].text);
        expect_both(unfinished[n].text, accepted(unfinished[n].entries + 1, 0));
        expect("the next text", resource_manager_length_of(ask(resource_manager_get_bytes, "7b", "")), 1);
    }
}

/* A file that only the second text includes, and one that both do. */
static void comparisons_of_both(void)
{
    const struct file files[] = {{"p", "a:first"}, {"q", "b:\na:2"}};
    set_shelf(files, 2);
    set_text("", 0, "#include \"p\"");
    set_second("", 0, "#include \"q\"");
    lend_both();
    expect("a file struck off", compare_lent(1, "a"), RESOURCE_MANAGER_OK);
    expect("the place with it", resource_manager_place_of(with_it), 2 + 5 + 2 + 2);
    expect("the place without it", resource_manager_place_of(without), 2);
    expect("the length without it", resource_manager_length_of(without), 5);
    set_second("", 0, "#include \"p\"\n#include \"q\"");
    lend_both();
    expect("a file of both texts struck off", compare_lent(0, "a"), RESOURCE_MANAGER_OK);
    expect("the place with it", resource_manager_place_of(with_it), 2 * (2 + 5) + 2 + 2);
    expect("the place without it", resource_manager_place_of(without), 2 + 2);
}

static void readings(void)
{
    short_buffers();
    files_of_lines();
    old_images();
    long_text();
    shelf_files();
    shelf_bytes();
    shelf_names();
    opens();
    depth();
    dots();
    entry_parts();
    entries();
    store();
    comparisons();
    refused_comparisons();
}

/* The first text is lent as `lent_as`, the second in both ways. */
static void chains(void)
{
    for (second_as = XENVIRONMENT; second_as < MAIN; second_as++) {
        over_both();
        of_each();
        ends();
        comparisons_of_both();
    }
}

/* ---- A board */

static uint16_t *lent_words(size_t words)
{
    return (uint16_t *)(void *)board_words_end - words;
}

static uint64_t *lent_answers(void)
{
    return (uint64_t *)(void *)answers_end - RESOURCE_MANAGER_QUERIES;
}

static uint16_t *lent_packs(void)
{
    return (uint16_t *)(void *)packs_end - RESOURCE_MANAGER_QUERIES;
}

static uint64_t make_board(size_t words, size_t bytes)
{
    return resource_manager_board_make(lent_words(words), words, board_bytes_end - bytes, bytes);
}

static uint64_t watch(const char *name, const char *class_name)
{
    const size_t words = RESOURCE_MANAGER_BOARD_WORDS, bytes = RESOURCE_MANAGER_BOARD_BYTES;
    size_t name_count = put_before(name_end, name, 1, ""), class_count = put_before(class_end, class_name, 1, "");
    return resource_manager_board_watch(lent_words(words), words, board_bytes_end - bytes, bytes, name_end - name_count,
                                        name_count, class_end - class_count, class_count);
}

static uint64_t arrive(uint16_t number)
{
    const size_t words = RESOURCE_MANAGER_BOARD_WORDS, bytes = RESOURCE_MANAGER_BOARD_BYTES;
    return resource_manager_board_arrive(lent_words(words), words, board_bytes_end - bytes, bytes, number, lent_contents(),
                                         contents_count, lent_bodies(), bodies_count);
}

static uint64_t leave(uint16_t number)
{
    const size_t words = RESOURCE_MANAGER_BOARD_WORDS, bytes = RESOURCE_MANAGER_BOARD_BYTES;
    return resource_manager_board_leave(lent_words(words), words, board_bytes_end - bytes, bytes, number);
}

static uint64_t watched(uint16_t query, uint16_t *pack)
{
    const size_t words = RESOURCE_MANAGER_BOARD_WORDS, bytes = RESOURCE_MANAGER_BOARD_BYTES;
    return resource_manager_board_answer(lent_words(words), words, board_bytes_end - bytes, bytes, query, pack);
}

/* All answers, in arrays at their fences. */
static uint64_t all_watched(void)
{
    const size_t words = RESOURCE_MANAGER_BOARD_WORDS, bytes = RESOURCE_MANAGER_BOARD_BYTES;
    return resource_manager_board_answers(lent_words(words), words, board_bytes_end - bytes, bytes, lent_answers(), lent_packs());
}

static uint64_t report(uint16_t number)
{
    const size_t words = RESOURCE_MANAGER_BOARD_WORDS, bytes = RESOURCE_MANAGER_BOARD_BYTES;
    return resource_manager_board_report(lent_words(words), words, board_bytes_end - bytes, bytes, number);
}

/* In garbage: buffers one short, one call of each kind on what is no board, a full board, and one that is emptied again. */
static void boards(void)
{
    const size_t words = RESOURCE_MANAGER_BOARD_WORDS, bytes = RESOURCE_MANAGER_BOARD_BYTES;
    uint16_t pack = 7;
    size_t n;
    memset(board_words_end - ROOM, FILLED, ROOM);
    memset(board_bytes_end - BOARD_ROOM, FILLED, BOARD_ROOM);
    expect("a board one word short", make_board(words - 1, bytes), RESOURCE_MANAGER_SHORT_BUFFERS);
    expect("a board one byte short", make_board(words, bytes - 1), RESOURCE_MANAGER_SHORT_BUFFERS);
    expect("a query where no board is", watch("a", ""), RESOURCE_MANAGER_NO_IMAGE);
    expect("an answer where no board is", watched(0, &pack), RESOURCE_MANAGER_NO_IMAGE);
    memset(answers_end - ROOM, FILLED, ROOM);
    memset(packs_end - ROOM, FILLED, ROOM);
    expect("all answers where no board is", all_watched(), RESOURCE_MANAGER_NO_IMAGE);
    expect("the first of them as it was", lent_answers()[0], UINT64_C(0x0101010101010101) * FILLED);
    expect("a report where no board is", report(1), RESOURCE_MANAGER_NO_IMAGE);
    expect("a board", make_board(words, bytes), RESOURCE_MANAGER_OK);
    for (n = 0; n < RESOURCE_MANAGER_QUERIES; n++) {
        expect("a query's number", resource_manager_number_of(watch(n == 1 ? ".a" : "a", "")), n);
    }
    expect("a query too many", watch("a", ""), RESOURCE_MANAGER_FULL_BOARD);
    expect("none", watched(0, &pack), RESOURCE_MANAGER_NONE);
    expect("the pack's number as it was", pack, 7);
    set_image("", 0, "*a:1");
    expect("a pack of number 0", arrive(0), RESOURCE_MANAGER_BAD_PACK_NUMBER);
    for (n = 1; n <= RESOURCE_MANAGER_PACKS; n++) {
        expect("a pack", arrive((uint16_t)n), RESOURCE_MANAGER_OK);
    }
    expect("a pack too many", arrive(0), RESOURCE_MANAGER_FULL_BOARD);
    contents_count--;
    expect("no image", arrive(100), RESOURCE_MANAGER_NO_IMAGE);
    contents_count++;
    expect("the same bytes of another pack", report(RESOURCE_MANAGER_PACKS), RESOURCE_MANAGER_OK);
    set_image("", 0, "a:22");
    expect("a leaving", leave(1), RESOURCE_MANAGER_OK);
    expect("a pack in its place", arrive(65535), RESOURCE_MANAGER_OK);
    expect("its value's length", resource_manager_length_of(watched(0, &pack)), 2);
    expect("its value's place", resource_manager_place_of(watched(RESOURCE_MANAGER_QUERIES - 1, &pack)), 2);
    expect("its number", pack, 65535);
    expect("all answers", resource_manager_number_of(all_watched()), RESOURCE_MANAGER_QUERIES);
    for (n = 0; n < RESOURCE_MANAGER_QUERIES; n++) {
        pack = 0x0101 * FILLED;
        expect("one of them", lent_answers()[n], watched((uint16_t)n, &pack));
        expect("its pack", lent_packs()[n], pack);
    }
    expect("no query of that number", watched(RESOURCE_MANAGER_QUERIES, &pack), RESOURCE_MANAGER_NONE);
    expect("all change but the malformed one", resource_manager_changes_of(report(65535)), 4294967293u);
    expect("a report of no pack", report(1), RESOURCE_MANAGER_BAD_PACK_NUMBER);
    expect("a leaving of no pack", leave(1), RESOURCE_MANAGER_BAD_PACK_NUMBER);
}

/* The lent image is gone: nothing of it is needed for a watched value. */
static void forget_image(void)
{
    memset(lent_contents(), FILLED, 2 * contents_count);
    memset(lent_bodies(), FILLED, bodies_count);
}

static struct resource_manager_bytes watched_value(uint64_t answer, uint16_t pack)
{
    return resource_manager_board_value_of(lent_words(RESOURCE_MANAGER_BOARD_WORDS),
                                           board_bytes_end - RESOURCE_MANAGER_BOARD_BYTES, answer, pack);
}

/* The value of query 0 stands in this slot, at this place of its bodies, and is this. */
static void expect_value(size_t slot, size_t place, const char *wanted)
{
    uint16_t pack = 0;
    uint64_t answer = watched(0, &pack);
    struct resource_manager_bytes value = watched_value(answer, pack);
    expect("where a value stands in a board", (uint64_t)(value.start - (board_bytes_end - 589824)),
           65536 + 32768 * slot + place);
    expect("its length", value.count, strlen(wanted));
    expect("its bytes", memcmp(value.start, wanted, strlen(wanted)) == 0, 1);
}

static void expect_no_value(const char *what, uint64_t answer, uint16_t pack)
{
    struct resource_manager_bytes value = watched_value(answer, pack);
    expect(what, value.start == NULL && value.count == 0, 1);
}

/* The bytes of an answer, where the board keeps them: in each slot, after slots have moved up, empty, and where there are none. */
static void board_values(void)
{
    char text[] = "b:longer\n*a:1A";
    uint16_t pack = 0;
    uint64_t answer;
    size_t n;
    make_board(RESOURCE_MANAGER_BOARD_WORDS, RESOURCE_MANAGER_BOARD_BYTES);
    watch("a", "");
    watch("c", "");
    for (n = 0; n < RESOURCE_MANAGER_PACKS; n++, text[sizeof text - 2]++) {
        set_image("", 0, text);
        expect("a pack", arrive((uint16_t)(100 - n)), RESOURCE_MANAGER_OK);
        forget_image();
        expect_value(n, 10, text + sizeof text - 3);
    }
    answer = watched(0, &pack);
    expect_no_value("no pack of that number", answer, 1);
    expect_no_value("an answer that is none", watched(1, &pack), pack);
    expect_no_value("an answer that is refused", RESOURCE_MANAGER_NO_IMAGE, pack);
    expect("the first leaves", leave(100), RESOURCE_MANAGER_OK);
    expect_value(RESOURCE_MANAGER_PACKS - 2, 10, "1P");
    expect("the last leaves", leave(pack), RESOURCE_MANAGER_OK);
    expect_no_value("a pack that left", answer, pack);
    set_image("", 0, "a:");
    expect("a pack", arrive(65535), RESOURCE_MANAGER_OK);
    forget_image();
    expect_value(RESOURCE_MANAGER_PACKS - 2, 2, "");
}

static void *all(void *unused)
{
    readings();
    queries();
    window_queries();
    images();
    numbers();
    booleans();
    shows();
    depth_of_comparisons();
    writings();
    walks_and_additions();
    boards();
    board_values();
    which_texts();
    for (lent_as = 0; lent_as < MAIN; lent_as++) {
        readings();
        if (lent_as < XENVIRONMENT) {
            chains();
        }
    }
    return unused;
}

int main(void)
{
    pthread_attr_t small;
    pthread_t thread;
    uint8_t **rooms[] = {&text_end, &second_end, &shelf_end, &contents_end, &bodies_end, &name_end, &class_end,
                         &struck_end, &contents_without_end, &bodies_without_end, &default_end, &written_end,
                         &next_end, &count_end, &old_contents_end, &old_bodies_end, &board_words_end, &answers_end, &packs_end};
    size_t n;
    for (n = 0; n < sizeof rooms / sizeof rooms[0]; n++) {
        *rooms[n] = fenced();
    }
    board_bytes_end = fenced_room(BOARD_ROOM);
    if (pthread_attr_init(&small) != 0 || pthread_attr_setstacksize(&small, STACK) != 0 ||
        pthread_create(&thread, &small, all, NULL) != 0 || pthread_join(thread, NULL) != 0) {
        fail("no thread");
    }
    printf("%d answers\n", checks);
    return 0;
}
