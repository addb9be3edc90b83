/* What the harnesses share; see lent.h. */
#define _GNU_SOURCE
#include "lent.h"
#include <signal.h>
#include <stdio.h>
#include <stdlib.h>
#include <string.h>
#include <sys/mman.h>
#include <unistd.h>

enum { MOST_WORDS = 16 };
enum { FENCE = 1 << 16 };

static const char *line;    /* the call being answered */
static char place[32] = ""; /* its line in the script, in words */

void stop(const char *why)
{
    fflush(stdout);
    fprintf(stderr, "harness: %s%s: %s\n", place, why, line ? line : "");
    exit(1);
}

static void complain(const char *text)
{
    if (write(2, text, strlen(text)) < 0)
        _exit(2);
}

/* Names the call in which the library faulted, or was running when time was up. */
static void fault(int signal_number)
{
    (void)signal_number;
    complain("harness: ");
    complain(place);
    complain("the library or the harness left its buffers, faulted or did not end in this call: ");
    complain(line ? line : "");
    complain("\n");
    _exit(1);
}

uint8_t *fenced(void)
{
    uint8_t *start = mmap(NULL, ROOM + FENCE, PROT_NONE, MAP_PRIVATE | MAP_ANONYMOUS, -1, 0);
    if (start == MAP_FAILED || mprotect(start, ROOM, PROT_READ | PROT_WRITE) != 0)
        stop("no memory");
    return start + ROOM;
}

static unsigned digit(char c)
{
    if (c >= '0' && c <= '9')
        return (unsigned)(c - '0');
    if (c < 'A' || c > 'F')
        stop("no hex");
    return (unsigned)(c - 'A') + 10;
}

uint8_t *lay(const char *word, uint8_t *fence, size_t *count)
{
    size_t digits = strcmp(word, "-") == 0 ? 0 : strlen(word);
    uint8_t *start = fence - digits / 2;
    if (digits % 2 != 0 || digits / 2 > ROOM)
        stop("octets out of rule");
    for (size_t i = 0; i < digits / 2; i++)
        start[i] = (uint8_t)(digit(word[2 * i]) << 4 | digit(word[2 * i + 1]));
    *count = digits / 2;
    return start;
}

size_t number(const char *word, size_t most)
{
    char *end;
    unsigned long value = strtoul(word, &end, 10);
    if (end == word || *end != '\0' || value > most)
        stop("number out of rule");
    return value;
}

uint8_t octet(const char *word)
{
    return (uint8_t)number(word, 255);
}

uint8_t point(const char *word)
{
    return strcmp(word, "-") == 0 ? NO_POINT : (uint8_t)number(word, NO_POINT - 1);
}

void say_point(uint8_t point)
{
    if (point == NO_POINT)
        printf("-");
    else
        printf("%u", point);
}

void say_octets(const uint8_t *octets, size_t count)
{
    for (size_t i = 0; i < count; i++) {
        putchar("0123456789ABCDEF"[octets[i] >> 4]);
        putchar("0123456789ABCDEF"[octets[i] & 15]);
    }
    if (count == 0)
        putchar('-');
}

/* Splits a call into its words and asks it. */
static void ask(char *text, const struct call *calls, size_t count)
{
    char *word[MOST_WORDS + 1];
    size_t words = 0;
    for (char *w = strtok(text, " "); w != NULL && words <= MOST_WORDS; w = strtok(NULL, " "))
        word[words++] = w;
    for (size_t i = 0; i < count; i++) {
        if (words == calls[i].words && strcmp(word[0], calls[i].word) == 0) {
            calls[i].ask(word);
            return;
        }
    }
    stop("no call");
}

void watch(void)
{
    static const int faults[] = {SIGSEGV, SIGBUS, SIGILL, SIGFPE, SIGABRT, SIGTERM};
    for (size_t i = 0; i < sizeof faults / sizeof faults[0]; i++)
        signal(faults[i], fault);
}

void name_call(size_t number, const char *text)
{
    snprintf(place, sizeof place, "line %zu: ", number);
    line = text;
}

int answer_all(const struct call *calls, size_t count)
{
    char *given = NULL;
    size_t size = 0, lines = 0;
    watch();
    for (ssize_t length; (length = getline(&given, &size, stdin)) > 0;) {
        given[strcspn(given, "\n")] = '\0';
        name_call(++lines, given);
        char *text = strdup(given);
        if (text == NULL)
            stop("no memory");
        ask(text, calls, count);
        free(text);
    }
    if (fflush(stdout) != 0)
        stop("output");
    return 0;
}
