/*
 * How many bytes of stack each call of the dictionary window takes in a run: a line for each call, its name and the
 * bytes. The stack is a painted buffer, and what is no longer painted was used. The queries are those that use the most:
 * matched, not matched, malformed, refused.
 */
#include "resource_manager.h"

#include <stdio.h>
#include <string.h>
#include <ucontext.h>

enum { PAINT = 0xA5, STACK = 65536, BUSY = 512 };


static uint16_t contents[RESOURCE_MANAGER_CONTENTS_WORDS];
static uint8_t bodies[RESOURCE_MANAGER_BODIES_BYTES];
static uint8_t stack[STACK];
static int64_t number;
static struct resource_manager_bytes shown;
static ucontext_t here, there;

/* What is called, and with which query. All nine arguments are handed over: a call takes no notice of one that it has not. */
typedef uint64_t call(const uint16_t *, size_t, const uint8_t *, size_t, const uint8_t *, size_t, const uint8_t *, size_t, void *);
static call *called;
static const char *name;
static size_t name_count;
static void *last;

/* Takes its return address. */
static uint64_t nothing(const uint16_t *c, size_t words, const uint8_t *b, size_t bytes, const uint8_t *n, size_t names,
                        const uint8_t *k, size_t classes, void *out)
{
    (void)c, (void)words, (void)b, (void)bytes, (void)n, (void)names, (void)k, (void)classes, (void)out;
    return 0;
}

static void run(void)
{
    (void)called(contents, RESOURCE_MANAGER_CONTENTS_WORDS, bodies, RESOURCE_MANAGER_BODIES_BYTES, (const uint8_t *)name,
                 name_count, (const uint8_t *)name, name_count, last);
}

/* The bytes that the context's function and what it calls have used. */
static size_t used(call *what, const char *query)
{
    size_t n;
    called = what;
    name = query;
    name_count = strlen(query);
    memset(stack, PAINT, sizeof stack);
    if (getcontext(&there) != 0) {
        return 0;
    }
    there.uc_stack.ss_sp = stack;
    there.uc_stack.ss_size = sizeof stack;
    there.uc_link = &here;
    makecontext(&there, run, 0);
    if (swapcontext(&here, &there) != 0) {
        return 0;
    }
    for (n = 0; n < sizeof stack && stack[n] == PAINT; n++) {
    }
    return sizeof stack - n;
}

/* The most that a call takes, its return address too. */
static void tell(const char *what, call *of, void *out)
{
    static const char *const queries[] = {"a.a.a.a.a.a.a.a", "b.a.b.a.b.a.b.a", "b", ".", "a.a.a.a.a.a.a.a.a"};
    size_t most = 0, n;
    last = out;
    for (n = 0; n < sizeof queries / sizeof queries[0]; n++) {
        size_t bytes = used(of, queries[n]) - used(nothing, queries[n]) + sizeof(void *);
        most = bytes > most ? bytes : most;
    }
    printf("%s %zu\n", what, most);
}

int main(void)
{
    static const char line[] = "*?*?*?*?*?*?*?*a: -12\n";
    static char text[BUSY * (sizeof line - 1)];
    static const uint8_t shelf[2];
    size_t n;
    for (n = 0; n < BUSY; n++) {
        memcpy(text + n * (sizeof line - 1), line, sizeof line - 1);
    }
    if (resource_manager_read((const uint8_t *)text, sizeof text, shelf, sizeof shelf, contents,
                              RESOURCE_MANAGER_CONTENTS_WORDS, bodies, RESOURCE_MANAGER_BODIES_BYTES) !=
        (uint64_t)BUSY << 16) {
        fputs("the text is not read\n", stderr);
        return 1;
    }
    tell("resource_manager_window_get_bytes", (call *)(void (*)(void))resource_manager_window_get_bytes, NULL);
    tell("resource_manager_window_get_string", (call *)(void (*)(void))resource_manager_window_get_string, NULL);
    tell("resource_manager_window_get_bool", (call *)(void (*)(void))resource_manager_window_get_bool, NULL);
    tell("resource_manager_window_get_value", (call *)(void (*)(void))resource_manager_window_get_value, &number);
    tell("resource_manager_window_show", (call *)(void (*)(void))resource_manager_window_show, &shown);
    return 0;
}
