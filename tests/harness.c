/* The harness: reads a script on standard input, asks the library each call and prints its answers, a line a
 * call, as `reference answer` does. Every buffer that it lends ends at a fence, so that a read or a write past
 * the end stops the program and names the call. */
#include "../include/cihlomet.h"
#include "lent.h"
#include <stdio.h>
#include <string.h>

static uint8_t *input_end;  /* the fences behind what is lent to be read and to be written */
static uint8_t *output_end;

/* An output of `room` octets right before the output fence, as every call finds it. */
static uint8_t *output(size_t room)
{
    return memset(output_end - room, BEFORE, room);
}

static void say_read(struct cihlomet_frame frame)
{
    if (frame.refused != 0) {
        printf("refused %u\n", frame.refused);
    } else if (frame.form == CIHLOMET_TOKEN) {
        printf("token %u %u\n", frame.destination, frame.source);
    } else if (frame.form == CIHLOMET_SHORT) {
        printf("short\n");
    } else if (frame.form == CIHLOMET_FRAME) {
        printf("frame %u ", frame.destination);
        say_point(frame.to);
        printf(" %u ", frame.source);
        say_point(frame.from);
        printf(" %u %zu %zu\n", frame.control, frame.start, frame.count);
    } else {
        printf("form %u\n", frame.form);
    }
}

/* Shows the outcome and the whole output, refused or not. */
static void say_written(struct cihlomet_written written, const uint8_t *out, size_t room)
{
    if (written.refused != 0)
        printf("refused %u ", written.refused);
    else
        printf("ok %zu ", written.count);
    say_octets(out, room);
    putchar('\n');
}

/* Shows a listing in one line, and whether an octet behind it was touched. */
static void say_listing(size_t length, const uint8_t *out, size_t room)
{
    if (length > room)
        stop("a listing longer than its output");
    printf(length == 0 ? "nothing" : "listed ");
    for (size_t i = 0; i < length; i++)
        putchar(out[i] == '\n' ? '/' : out[i]);
    for (size_t i = length; i < room; i++) {
        if (out[i] != BEFORE) {
            printf(" and touched octet %zu", i);
            break;
        }
    }
    putchar('\n');
}

static void ask_read(char **word)
{
    size_t count;
    const uint8_t *octets = lay(word[1], input_end, &count);
    say_read(cihlomet_read(octets, count));
}

static void ask_write(char **word)
{
    size_t count, room = number(word[7], ROOM);
    const uint8_t *data = lay(word[6], input_end, &count);
    uint8_t *out = output(room);
    say_written(cihlomet_write(octet(word[1]), point(word[2]), octet(word[3]), point(word[4]),
                               octet(word[5]), data, count, out, room), out, room);
}

static void ask_token(char **word)
{
    size_t room = number(word[3], ROOM);
    uint8_t *out = output(room);
    say_written(cihlomet_token(octet(word[1]), octet(word[2]), out, room), out, room);
}

static void ask_short(char **word)
{
    size_t room = number(word[1], ROOM);
    uint8_t *out = output(room);
    say_written(cihlomet_short(out, room), out, room);
}

static void ask_list(char **word)
{
    size_t count, room = number(word[2], ROOM);
    const uint8_t *capture = lay(word[1], input_end, &count);
    uint8_t *out = output(room);
    say_listing(cihlomet_list(capture, count, out, room), out, room);
}

int main(void)
{
    static const struct call calls[] = {
        {"read", 2, ask_read},   {"flip", 2, ask_read},   {"write", 8, ask_write},
        {"token", 4, ask_token}, {"short", 2, ask_short}, {"list", 3, ask_list},
    };
    input_end = fenced();
    output_end = fenced();
    return answer_all(calls, sizeof calls / sizeof calls[0]);
}
