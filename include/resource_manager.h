/*
 * X resource texts read into a database image, looked up and listed in it, added to it, and written out again; and a
 * board of packs that come and go, each an image, with the answers of its watched queries.
 *
 * The functions stand in the static library libresource_manager.a, for x86-64 Linux. Their contracts, which
 * crates/resource_manager_c states and proves, are here in words. They allocate nothing, keep nothing between calls,
 * call no function of the host but memcpy and memset, and may run in several threads at once on buffers of their own.
 * A stack of 64 kilobytes is enough for each, which is tested and not proved.
 *
 * The caller answers for what it lends:
 *   - a pointer is never NULL, also where its count is 0, and is aligned for its type;
 *   - behind it are as many readable elements as its count says, or writable ones where it is not const;
 *   - a buffer that is written overlaps nothing else that is lent to the same call.
 * A count is a count of elements: of 16-bit words for contents and for the words of a board, of bytes for all else.
 */
#ifndef RESOURCE_MANAGER_H
#define RESOURCE_MANAGER_H

#include <stddef.h>
#include <stdint.h>

#ifdef __cplusplus
extern "C" {
#endif

/* The two buffers of a database image: at least this long. What is lent beyond is never touched. */
#define RESOURCE_MANAGER_CONTENTS_WORDS 2050 /* 16-bit words: two, and four for each entry */
#define RESOURCE_MANAGER_BODIES_BYTES 32768  /* also the most bytes of keys and values in an image */

/*
 * Contents are the entry count, the bytes used, and a row for each entry: where its key starts in the bodies, the lengths
 * of its key and of its value, which stands behind the key, and where its line stands. That is 0 for a main text or a text
 * of a start-up, else the place on the shelf, from 1, of the file where the line stands, or RESOURCE_MANAGER_UNKNOWN_FILE.
 */
#define RESOURCE_MANAGER_UNKNOWN_FILE 65535

/* Contents of an old image: its rows have three words, and do not say where a line stands. */
#define RESOURCE_MANAGER_OLD_CONTENTS_WORDS 1538

/* The most that is accepted; one more is refused. */
#define RESOURCE_MANAGER_TEXT_BYTES 32768 /* of a main text, and of each text of a start-up */
#define RESOURCE_MANAGER_SHELF_BYTES 65536
#define RESOURCE_MANAGER_SHELF_FILES 64
#define RESOURCE_MANAGER_FILE_NAME_BYTES 96
#define RESOURCE_MANAGER_OPENS 4096
#define RESOURCE_MANAGER_ENTRY_PARTS 16
#define RESOURCE_MANAGER_ENTRIES 512
#define RESOURCE_MANAGER_QUERY_BYTES 1024 /* of the name, and of the class */
#define RESOURCE_MANAGER_QUERY_PARTS 32   /* of the name, and of the class */
#define RESOURCE_MANAGER_WINDOW_BYTES 128 /* the same for the calls of the dictionary window */
#define RESOURCE_MANAGER_WINDOW_PARTS 8

/* The longest text that an image is written out as: a buffer of so many bytes is enough for every image. */
#define RESOURCE_MANAGER_WRITTEN_BYTES 66048

/* The two buffers of a board: at least this long. What is lent beyond is never touched. */
#define RESOURCE_MANAGER_BOARD_WORDS 32882  /* 16-bit words */
#define RESOURCE_MANAGER_BOARD_BYTES 589824
#define RESOURCE_MANAGER_PACKS 16           /* the most that a board keeps */
#define RESOURCE_MANAGER_QUERIES 32         /* the most that it watches */

/*
 * The depth of a reading: a main text, or a text of a start-up, is at depth 0, a file that it includes at depth 1, and so
 * on; at depth d the texts at depths 0 to d are read. A deeper include adds nothing, and is no refusal. The greatest that a
 * caller may give, which is x11rb's and which start-ups have where none is given; and what all other calls have then.
 */
#define RESOURCE_MANAGER_GREATEST_DEPTH 100
#define RESOURCE_MANAGER_DEFAULT_DEPTH 20

/* The low 16 bits of every answer. 1 to 15 are refusals, and then all higher bits are 0. */
enum resource_manager_status {
    RESOURCE_MANAGER_OK = 0,
    RESOURCE_MANAGER_SHORT_BUFFERS = 1,      /* the buffers of an image, or of a board, are too short */
    RESOURCE_MANAGER_LONG_TEXT = 2,          /* main text, a text that a start-up uses, or an added text too long */
    RESOURCE_MANAGER_BAD_SHELF = 3,          /* shelf not laid out as below */
    RESOURCE_MANAGER_MANY_OPENS = 4,         /* too many included files opened */
    RESOURCE_MANAGER_MANY_ENTRY_PARTS = 5,   /* an entry has too many parts */
    RESOURCE_MANAGER_MANY_ENTRIES = 6,       /* too many entries */
    RESOURCE_MANAGER_FULL_STORE = 7,         /* keys and values too large in all */
    RESOURCE_MANAGER_NO_IMAGE = 8,           /* the buffers that a call lends hold no database image, or no board */
    RESOURCE_MANAGER_LONG_QUERY = 9,         /* name or class too long */
    RESOURCE_MANAGER_MANY_QUERY_PARTS = 10,  /* name or class of too many parts */
    RESOURCE_MANAGER_SHORT_TEXT_BUFFER = 11, /* the buffer of a writing is shorter than the text */
    RESOURCE_MANAGER_NOT_ONE_ENTRY = 12,     /* the text of an addition makes no entry or more than one */
    RESOURCE_MANAGER_FULL_BOARD = 13,        /* a seventeenth pack, or a thirty-third query */
    RESOURCE_MANAGER_BAD_PACK_NUMBER = 14,   /* 0; one that is there already, or that is not there to leave */
    RESOURCE_MANAGER_TOO_DEEP = 15,          /* a depth over the greatest */
    RESOURCE_MANAGER_NOT_A_NUMBER = 65534,   /* get_value: the value is no 64-bit decimal number */
    RESOURCE_MANAGER_NONE = 65535            /* no such value; the end of a walk; of a comparing call: no such file;
                                                of a board: no query of that number */
};

/* The status of any answer. */
static inline enum resource_manager_status resource_manager_status_of(uint64_t answer)
{
    return (enum resource_manager_status)(answer & 65535);
}

/*
 * Reads a main text, and the files of a shelf that it includes, at depth RESOURCE_MANAGER_DEFAULT_DEPTH, into a database
 * image.
 *
 * The shelf is an archive of files: the number of files (0 to 64) in two bytes, low byte first; for each file the
 * lengths of its name and of its body, in two such bytes each; then for each file its name and its body, and nothing
 * after. A name is parts joined by single '/', of A-Z a-z 0-9 '_' '-' '.', and no part is "." or "..". Names rise
 * strictly by bytes. The shelf of no files is two zero bytes.
 *
 * An include is looked for below the folder of its own file (what stands before the last '/' of the file's name; none
 * for a main text). Of folder and name joined, parts "." are dropped, and ".." removes the part before it, whatever that
 * is. What goes above the root, has an empty part, ends in "." or "..", or has more than 96 bytes then, finds nothing,
 * and adds nothing.
 *
 * Accepted: status OK, with the entries and the opens in the answer, and unused words and bytes of the image zeroed.
 * Refused: status 1 to 7. 1 to 3 change neither buffer; 4 to 7 leave the image of no entries.
 */
uint64_t resource_manager_read(const uint8_t *text, size_t text_count, const uint8_t *shelf, size_t shelf_count,
                               uint16_t *contents, size_t contents_count, uint8_t *bodies, size_t bodies_count);

/*
 * As resource_manager_read, at a depth of the caller's. At 0 no file is opened. A depth over
 * RESOURCE_MANAGER_GREATEST_DEPTH is refused by 15, after 1, 2 and 3 and before 4 to 7, and changes neither buffer.
 */
uint64_t resource_manager_read_depth(const uint8_t *text, size_t text_count, const uint8_t *shelf, size_t shelf_count,
                                     uint64_t depth, uint16_t *contents, size_t contents_count, uint8_t *bodies,
                                     size_t bodies_count);

/* The entries of an accepted reading. */
static inline size_t resource_manager_entries_of(uint64_t answer)
{
    return (size_t)(answer >> 16 & 65535);
}

/* The opens of an accepted reading: how many times it read an included file. */
static inline size_t resource_manager_opens_of(uint64_t answer)
{
    return (size_t)(answer >> 32);
}

/*
 * Reads what a start-up uses of five lent texts, as x11rb's Database::new_from_default does: two texts at most, one
 * after the other, at depth RESOURCE_MANAGER_GREATEST_DEPTH, into one image.
 *
 * The first is the property if its format is 8 and it is not empty; else .Xresources if it could be read, even if it
 * is empty; else .Xdefaults. The second is the text that XENVIRONMENT names if XENVIRONMENT is set, else the host's
 * .Xdefaults. A text that could not be read adds nothing: where XENVIRONMENT is set and its text could not be read, the
 * host's does not stand in for it. A flag, which says that a text could be read or that XENVIRONMENT is set, is no if
 * it is 0, and yes otherwise.
 *
 * A text that is not used or could not be read is not looked at, however long it is; "" of 0 bytes will do for it. Each
 * text that is used is read as a main text is: it ends at its own end, also within a line, and its includes are looked
 * for from the empty folder. Opens, entries, and bytes of keys and values are counted over both texts.
 *
 * The answer, and what is left in the buffers, are as for resource_manager_read. Of what refuses, the first counts: 1;
 * 2 if a text that is used and could be read is too long; 3; then 4 to 7 in the order of the first text's lines and
 * then the second's.
 */
uint64_t resource_manager_read_default(uint8_t property_format, const uint8_t *property, size_t property_count,
                                       uint8_t xresources_read, const uint8_t *xresources, size_t xresources_count,
                                       uint8_t xdefaults_read, const uint8_t *xdefaults, size_t xdefaults_count,
                                       uint8_t xenvironment_set, uint8_t xenvironment_read,
                                       const uint8_t *xenvironment, size_t xenvironment_count, uint8_t host_read,
                                       const uint8_t *host, size_t host_count, const uint8_t *shelf,
                                       size_t shelf_count, uint16_t *contents, size_t contents_count, uint8_t *bodies,
                                       size_t bodies_count);

/* The same at a depth of the caller's, with 15 as for resource_manager_read_depth. */
uint64_t resource_manager_read_default_depth(uint8_t property_format, const uint8_t *property, size_t property_count,
                                             uint8_t xresources_read, const uint8_t *xresources,
                                             size_t xresources_count, uint8_t xdefaults_read, const uint8_t *xdefaults,
                                             size_t xdefaults_count, uint8_t xenvironment_set,
                                             uint8_t xenvironment_read, const uint8_t *xenvironment,
                                             size_t xenvironment_count, uint8_t host_read, const uint8_t *host,
                                             size_t host_count, const uint8_t *shelf, size_t shelf_count,
                                             uint64_t depth, uint16_t *contents, size_t contents_count,
                                             uint8_t *bodies, size_t bodies_count);

/*
 * Carries an old image over into new buffers, without reading again: old contents of RESOURCE_MANAGER_OLD_CONTENTS_WORDS or
 * more, with three words for each entry, and old bodies of RESOURCE_MANAGER_BODIES_BYTES or more.
 *
 * OK: the new image has the old entries, which are counted in the answer, with RESOURCE_MANAGER_UNKNOWN_FILE in every row;
 * unused words and bytes are zeroed as by a reading. Every lookup in it, the window's too, every walk and the written text
 * are those of the old image. Refused: 8 if the old buffers hold no old image, then 1. Both change nothing.
 */
uint64_t resource_manager_migrate(const uint16_t *old_contents, size_t old_contents_count, const uint8_t *old_bodies,
                                  size_t old_bodies_count, uint16_t *contents, size_t contents_count, uint8_t *bodies,
                                  size_t bodies_count);

/*
 * The value of a query, as bytes: status OK with its place in the bodies and its length, NONE, or refused by 8, 9 or
 * 10. An empty value has status OK and length 0. Name and class are parts joined by '.', without a zero byte at the
 * end; the class may be empty. A malformed query finds NONE.
 */
uint64_t resource_manager_get_bytes(const uint16_t *contents, size_t contents_count, const uint8_t *bodies,
                                    size_t bodies_count, const uint8_t *name, size_t name_count,
                                    const uint8_t *class_name, size_t class_count);

/* As resource_manager_get_bytes, but NONE unless the value is well-formed UTF-8. */
uint64_t resource_manager_get_string(const uint16_t *contents, size_t contents_count, const uint8_t *bodies,
                                     size_t bodies_count, const uint8_t *name, size_t name_count,
                                     const uint8_t *class_name, size_t class_count);

/* Bytes that stand somewhere. */
struct resource_manager_bytes {
    const uint8_t *start;
    size_t count;
};

/*
 * The value of a query, or else a default. *shown is the default before the call. The answer is that of
 * resource_manager_get_bytes: with status OK *shown is the value afterwards, where it stands in the bodies, and with
 * any other status *shown is as it was. An empty value is shown, and not the default.
 */
uint64_t resource_manager_show(const uint16_t *contents, size_t contents_count, const uint8_t *bodies,
                               size_t bodies_count, const uint8_t *name, size_t name_count, const uint8_t *class_name,
                               size_t class_count, struct resource_manager_bytes *shown);

/* Where a value that was found begins in the bodies. */
static inline size_t resource_manager_place_of(uint64_t answer)
{
    return (size_t)(answer >> 16 & 65535);
}

/* How many bytes a value that was found has. */
static inline size_t resource_manager_length_of(uint64_t answer)
{
    return (size_t)(answer >> 32);
}

/*
 * The value of a query as a boolean: status OK with RESOURCE_MANAGER_TRUE or RESOURCE_MANAGER_FALSE as the whole
 * answer, NONE if there is no value or it is no boolean, or refused by 8, 9 or 10. True are numbers but 0, and true,
 * on, yes; false are 0, and false, off, no. The case of letters is ignored.
 */
uint64_t resource_manager_get_bool(const uint16_t *contents, size_t contents_count, const uint8_t *bodies,
                                   size_t bodies_count, const uint8_t *name, size_t name_count,
                                   const uint8_t *class_name, size_t class_count);

#define RESOURCE_MANAGER_FALSE ((uint64_t)0)
#define RESOURCE_MANAGER_TRUE ((uint64_t)65536)

/*
 * The value of a query as a decimal number of 64 bits: OK with the number in *out; NOT_A_NUMBER, NONE, or refused by
 * 8, 9 or 10, with *out as it was.
 */
uint64_t resource_manager_get_value(const uint16_t *contents, size_t contents_count, const uint8_t *bodies,
                                    size_t bodies_count, const uint8_t *name, size_t name_count,
                                    const uint8_t *class_name, size_t class_count, int64_t *out);

/*
 * The calls of the dictionary window, which has little stack: each takes less than 1,024 bytes of it, all that it calls
 * counted; a test reads that off the object code, and runs them on a stack of its own. Each is as the one above of the
 * same name, but that it refuses a name or a class of more than RESOURCE_MANAGER_WINDOW_BYTES by 9, and one of more than
 * RESOURCE_MANAGER_WINDOW_PARTS parts by 10. A query that it does not so refuse gets the same answer from both.
 */
uint64_t resource_manager_window_get_bytes(const uint16_t *contents, size_t contents_count, const uint8_t *bodies,
                                           size_t bodies_count, const uint8_t *name, size_t name_count,
                                           const uint8_t *class_name, size_t class_count);
uint64_t resource_manager_window_get_string(const uint16_t *contents, size_t contents_count, const uint8_t *bodies,
                                            size_t bodies_count, const uint8_t *name, size_t name_count,
                                            const uint8_t *class_name, size_t class_count);
uint64_t resource_manager_window_get_bool(const uint16_t *contents, size_t contents_count, const uint8_t *bodies,
                                          size_t bodies_count, const uint8_t *name, size_t name_count,
                                          const uint8_t *class_name, size_t class_count);
uint64_t resource_manager_window_get_value(const uint16_t *contents, size_t contents_count, const uint8_t *bodies,
                                           size_t bodies_count, const uint8_t *name, size_t name_count,
                                           const uint8_t *class_name, size_t class_count, int64_t *out);
uint64_t resource_manager_window_show(const uint16_t *contents, size_t contents_count, const uint8_t *bodies,
                                      size_t bodies_count, const uint8_t *name, size_t name_count,
                                      const uint8_t *class_name, size_t class_count,
                                      struct resource_manager_bytes *shown);

/*
 * Writes a database image out as a text that resource_manager_read reads back: for each entry its key, ": ", its value
 * and a newline. In the value a backslash is doubled, a newline is a backslash and an 'n', and a space or tab that begins
 * the value has a backslash before it. All other bytes stand as they are, zero bytes too; none is put after the text.
 *
 * OK: the text stands at the front of the buffer, its length is in the answer, and bytes past it are as they were.
 * Refused: 8, or else 11 if the buffer is shorter than the text; the buffer is as it was.
 *
 * A text of at most RESOURCE_MANAGER_TEXT_BYTES, read again with any shelf, leaves an image of the same entries and opens
 * nothing; a longer one is refused by 2 there. Two images have the same text just where they hold the same entries.
 */
uint64_t resource_manager_write(const uint16_t *contents, size_t contents_count, const uint8_t *bodies,
                                size_t bodies_count, uint8_t *text, size_t text_count);

/* How many bytes the text has that was written. */
static inline size_t resource_manager_written_of(uint64_t answer)
{
    return (size_t)(answer >> 32);
}

/*
 * A walk lists the entries that align with a query, lowest number first, a step at a time; numbers count from 0. Its state
 * is the caller's: the number that it comes to next, and the entry count of the image when it began. Entries that are added
 * meanwhile do not show in it: an entry shows in a walk that is begun after it.
 *
 *     uint16_t next, count;
 *     uint64_t answer = resource_manager_walk_start(.., &next, &count);
 *     if (resource_manager_status_of(answer) == RESOURCE_MANAGER_OK)
 *         while (resource_manager_status_of(answer = resource_manager_walk_step(.., &next, count)) == RESOURCE_MANAGER_OK)
 *             .. resource_manager_number_of(answer) ..
 *
 * Begins a walk: OK with 0 in *next and the image's entry count in *count, for a malformed query too; or refused by 8, 9
 * or 10, with both as they were.
 */
uint64_t resource_manager_walk_start(const uint16_t *contents, size_t contents_count, const uint8_t *bodies,
                                     size_t bodies_count, const uint8_t *name, size_t name_count,
                                     const uint8_t *class_name, size_t class_count, uint16_t *next, uint16_t *count);

/*
 * A step of a walk: OK with the least number of an entry that aligns, not below *next and below both count and the image's
 * own entry count, and *next is then one more than that number; or NONE at the end, which a malformed query is at always;
 * or refused by 8, 9 or 10. With NONE and with a refusal *next is as it was. Every *next and count are taken.
 */
uint64_t resource_manager_walk_step(const uint16_t *contents, size_t contents_count, const uint8_t *bodies,
                                    size_t bodies_count, const uint8_t *name, size_t name_count,
                                    const uint8_t *class_name, size_t class_count, uint16_t *next, uint16_t count);

/*
 * Adds a line to a database image: the entry that the text makes, read with a shelf of no files, behind those that are
 * there. Comments, includes, and lines that are no resource may stand beside it.
 *
 * OK: the entry's number is in the answer. Its row of four words, the bytes of its key and its value, and the first two
 * words of contents are written, and nothing else is: what stood behind the image stays there. Its line stands in no file
 * that is known.
 * Refused, the first that holds: 8; 2; 12 if the text makes no entry or more than one, whatever they are; 5 if the entry
 * has too many parts; 6 or 7 if the image has no room for it. Both buffers are as they were.
 */
uint64_t resource_manager_add(uint16_t *contents, size_t contents_count, uint8_t *bodies, size_t bodies_count,
                              const uint8_t *text, size_t text_count);

/* The number of the entry that a step came to, or that was added; of a query that is watched; of all answers, how many. */
static inline size_t resource_manager_number_of(uint64_t answer)
{
    return (size_t)(answer >> 16);
}

/* The key of an entry of an image that holds it: where it stands in the bodies, each part with '.' or '*' before it. */
static inline struct resource_manager_bytes resource_manager_key_of(const uint16_t *contents, const uint8_t *bodies,
                                                                    size_t number)
{
    const uint16_t *row = contents + 2 + 4 * number;
    struct resource_manager_bytes key;
    key.start = bodies + row[0];
    key.count = row[1];
    return key;
}

/* Where the line of an entry of an image that holds it stands: 0, a file's place, or RESOURCE_MANAGER_UNKNOWN_FILE. */
static inline size_t resource_manager_file_of(const uint16_t *contents, size_t number)
{
    return contents[2 + 4 * number + 3];
}

/* The value of an entry of an image that holds it. */
static inline struct resource_manager_bytes resource_manager_value_of(const uint16_t *contents, const uint8_t *bodies,
                                                                      size_t number)
{
    const uint16_t *row = contents + 2 + 4 * number;
    struct resource_manager_bytes value;
    value.start = bodies + row[0] + row[1];
    value.count = row[2];
    return value;
}

/*
 * A board keeps up to 16 packs, each a database image with a number from 1 to 65,535, in the order in which they
 * arrived, and watches up to 32 queries, numbered from 0. A pack that left and comes again is the last.
 *
 *     static uint16_t words[RESOURCE_MANAGER_BOARD_WORDS];
 *     static uint8_t bytes[RESOURCE_MANAGER_BOARD_BYTES];
 *     resource_manager_board_make(words, RESOURCE_MANAGER_BOARD_WORDS, bytes, RESOURCE_MANAGER_BOARD_BYTES);
 *
 * Every call but this one is refused by 8 for buffers that hold no board, and judges all of it; no call leaves such.
 * What is refused leaves the board as it was.
 *
 * The words are the number of packs, the number of queries, 32 pairs of lengths (of a query's name and of its class),
 * and 16 slots of 2,051: a pack's number, and its contents. The bytes are 32 times 2,048 for a query's name with its
 * class behind it, and 16 times 32,768 for a pack's bodies. The packs stand in the first slots, in their order.
 *
 * Makes an empty board: OK, or refused by 1.
 */
uint64_t resource_manager_board_make(uint16_t *words, size_t words_count, uint8_t *bytes, size_t bytes_count);

/*
 * Watches a query from now on: OK with its number in the answer (resource_manager_number_of). Equal queries get numbers
 * of their own, and a malformed query is kept, and gets NONE. Refused by 1, 8, 13, and then 9 or 10.
 */
uint64_t resource_manager_board_watch(uint16_t *words, size_t words_count, uint8_t *bytes, size_t bytes_count,
                                      const uint8_t *name, size_t name_count, const uint8_t *class_name,
                                      size_t class_count);

/*
 * A pack arrives, last. Its image is copied, and what becomes of the lent one is not seen. Refused by 1; 8, also if
 * contents and bodies hold no image; 13; and 14 if the number is 0 or that of a pack which is there.
 */
uint64_t resource_manager_board_arrive(uint16_t *words, size_t words_count, uint8_t *bytes, size_t bytes_count,
                                       uint16_t number, const uint16_t *contents, size_t contents_count,
                                       const uint8_t *bodies, size_t bodies_count);

/* A pack leaves; the rest keep their order. Refused by 1, 8, and 14 if no pack has that number. */
uint64_t resource_manager_board_leave(uint16_t *words, size_t words_count, uint8_t *bytes, size_t bytes_count,
                                      uint16_t number);

/*
 * The answer of a watched query: the value that a lookup finds in the entries of all packs, one pack's behind
 * another's. OK: its place and length (resource_manager_place_of, resource_manager_length_of) in the bodies of the pack
 * whose number is then in *pack, as those were lent. NONE: no value, or no query of that number. Refused by 1 or 8.
 * Without a value *pack is as it was.
 */
uint64_t resource_manager_board_answer(const uint16_t *words, size_t words_count, const uint8_t *bytes,
                                       size_t bytes_count, uint16_t query, uint16_t *pack);

/*
 * The bytes of a watched answer, given the pack's number that came with it, where the board itself keeps them: the lent
 * image may be gone. By the layout (crates/definition/specs/Board.antt: slot_start, body_start), slot n, from 0, has its
 * pack's number in word 2 + 2 * 32 + 2051 * n, and that pack's bodies from byte 2 * 1024 * 32 + 32768 * n on; word 0 says
 * how many slots are in use. The bytes stand there until a pack leaves or the board is made again. NULL of 0 bytes if the
 * answer has no value, or no pack has that number.
 */
static inline struct resource_manager_bytes resource_manager_board_value_of(const uint16_t *words, const uint8_t *bytes,
                                                                            uint64_t answer, uint16_t pack)
{
    const uint16_t *slots = words + 2 + 2 * RESOURCE_MANAGER_QUERIES;
    const uint8_t *bodies = bytes + 2 * RESOURCE_MANAGER_QUERY_BYTES * RESOURCE_MANAGER_QUERIES;
    struct resource_manager_bytes value = {NULL, 0};
    size_t n;
    for (n = 0; n < words[0] && n < RESOURCE_MANAGER_PACKS; n++) {
        if (slots[(1 + RESOURCE_MANAGER_CONTENTS_WORDS) * n] == pack &&
            resource_manager_status_of(answer) == RESOURCE_MANAGER_OK) {
            value.start = bodies + RESOURCE_MANAGER_BODIES_BYTES * n + resource_manager_place_of(answer);
            value.count = resource_manager_length_of(answer);
        }
    }
    return value;
}

/*
 * All watched answers by one judging of the board: OK with their number (resource_manager_number_of). Then
 * answers[query] and packs[query], for each query from 0 to 31, are what resource_manager_board_answer gives for that
 * query and leaves in *pack. Refused by 1 or 8: both arrays are as they were.
 */
uint64_t resource_manager_board_answers(const uint16_t *words, size_t words_count, const uint8_t *bytes,
                                        size_t bytes_count, uint64_t answers[RESOURCE_MANAGER_QUERIES],
                                        uint16_t packs[RESOURCE_MANAGER_QUERIES]);

/*
 * Which watched answers would change, in their bytes or between bytes and none, if a pack left: OK with the bits of
 * these queries, the lowest for query 0. The board is as it was. Refused as its leaving would be.
 */
uint64_t resource_manager_board_report(const uint16_t *words, size_t words_count, const uint8_t *bytes,
                                       size_t bytes_count, uint16_t number);

/* The bits of a report. */
static inline uint32_t resource_manager_changes_of(uint64_t answer)
{
    return (uint32_t)(answer >> 32);
}

/*
 * What one file of a shelf changes: reads the text with the shelf, and again with file number `file`, from 0, struck
 * off, both at depth RESOURCE_MANAGER_DEFAULT_DEPTH, and looks the query up in both images as resource_manager_get_bytes
 * does.
 *
 * OK: both answers, the first in *with_it with its place in bodies, the second in *without with its place in
 * bodies_without. NONE: the shelf has no such file. Refused: 1 for a buffer that is too short, 2 to 7 as the first
 * reading is, 9 or 10. *with_it and *without change only with OK.
 *
 * The buffers of both images are as resource_manager_read takes and leaves them; struck is room for the shelf with the
 * file struck off, and is at least as long as the shelf. Rows of contents_without have the places on that shelf: files
 * behind the one struck off have one less. What a call does not come to write is as it was.
 */
uint64_t resource_manager_compare_without(const uint8_t *text, size_t text_count, const uint8_t *shelf,
                                          size_t shelf_count, size_t file, const uint8_t *name, size_t name_count,
                                          const uint8_t *class_name, size_t class_count, uint8_t *struck,
                                          size_t struck_count, uint16_t *contents, size_t contents_count,
                                          uint8_t *bodies, size_t bodies_count, uint16_t *contents_without,
                                          size_t contents_without_count, uint8_t *bodies_without,
                                          size_t bodies_without_count, uint64_t *with_it, uint64_t *without);

/* The same at a depth of the caller's, which is that of both readings: 15 as resource_manager_read_depth gives it, before
 * the file is looked for; nothing lent changes then. */
uint64_t resource_manager_compare_without_depth(
    const uint8_t *text, size_t text_count, const uint8_t *shelf, size_t shelf_count, uint64_t depth, size_t file,
    const uint8_t *name, size_t name_count, const uint8_t *class_name, size_t class_count, uint8_t *struck,
    size_t struck_count, uint16_t *contents, size_t contents_count, uint8_t *bodies, size_t bodies_count,
    uint16_t *contents_without, size_t contents_without_count, uint8_t *bodies_without, size_t bodies_without_count,
    uint64_t *with_it, uint64_t *without);

/*
 * What one file of a shelf changes for a start-up: as resource_manager_compare_without, with both readings as
 * resource_manager_read_default reads the same texts. All that comes after them is lent, written and answered as there.
 */
uint64_t resource_manager_compare_default_without(
    uint8_t property_format, const uint8_t *property, size_t property_count, uint8_t xresources_read,
    const uint8_t *xresources, size_t xresources_count, uint8_t xdefaults_read, const uint8_t *xdefaults,
    size_t xdefaults_count, uint8_t xenvironment_set, uint8_t xenvironment_read, const uint8_t *xenvironment,
    size_t xenvironment_count, uint8_t host_read, const uint8_t *host, size_t host_count, const uint8_t *shelf,
    size_t shelf_count, size_t file, const uint8_t *name, size_t name_count, const uint8_t *class_name,
    size_t class_count, uint8_t *struck, size_t struck_count, uint16_t *contents, size_t contents_count,
    uint8_t *bodies, size_t bodies_count, uint16_t *contents_without, size_t contents_without_count,
    uint8_t *bodies_without, size_t bodies_without_count, uint64_t *with_it, uint64_t *without);

#ifdef __cplusplus
}
#endif

#endif
