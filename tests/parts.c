/* The harness of the station's parts: reads a script on standard input, asks the library each call and prints its
 * answers, a line a call, as `reference parts` does. Calls on a row go to the row that the last `row` line laid out.
 * The standard settings are asked of libcihlomet, which hands them out. Every buffer that it lends ends at a fence.
 * What a call may not touch is compared with what it was before. */
#include "../include/cihlomet.h"
#include "parts.h"
#include "lent.h"
#include <stdio.h>
#include <stdlib.h>
#include <string.h>

enum { ADDRESSES = 127, RECORD = 13, DATA = 246, MOST_OCTETS = 1 << 17 };

_Static_assert(RECORD == (int)CIHLOMET_RECORD && DATA == (int)CIHLOMET_DATA, "a row as the station has it");
_Static_assert(sizeof(struct parts_queue) == 5, "five octets");
_Static_assert(offsetof(struct parts_collected, limit) == 9 && offsetof(struct parts_collected, asks) == 10 &&
                   offsetof(struct parts_collected, unconfirmed) == 13 &&
                   offsetof(struct parts_collected, reference) == 16 && sizeof(struct parts_collected) == 20,
               "fourteen octets, then the reference");

static uint8_t *input_end, *row_end, *area_end; /* the fences */

/* The row that is lent, with what it held before the call. */
static struct {
    uint8_t ts, places, first, confirmed, unconfirmed;
    uint8_t *row, *area;
    size_t row_count, area_count;
} lent;
static uint8_t row_before[MOST_OCTETS], area_before[MOST_OCTETS];

static uint32_t wide(const char *word)
{
    return (uint32_t)number(word, UINT32_MAX);
}

static void ask_standard(char **word)
{
    (void)word;
    struct cihlomet_settings s = cihlomet_standard();
    printf("%u %u %u %u %u %u %u %u\n", s.tset, s.tqui, s.min_tsdr, s.max_tsdr, s.ttd, s.ttr, s.retries, s.tsdi);
}

static void ask_settings(char **word)
{
    struct parts_times t = parts_reckon(wide(word[1]), wide(word[2]), wide(word[3]), wide(word[4]), wide(word[5]),
                                        wide(word[6]), wide(word[7]), wide(word[8]), octet(word[9]));
    printf("%u %u %u %u %u %u %u %u %u\n", t.refused, t.tsm, t.tid1, t.tid2, t.tsl, t.tto, t.reply, t.after_sdn,
           t.other);
}

static void ask_left(char **word)
{
    printf("%u\n", parts_left(wide(word[1]), wide(word[2]), wide(word[3])));
}

static void ask_ring(char **word)
{
    uint8_t *masters = memset(input_end - ADDRESSES, 0, ADDRESSES), ts = octet(word[1]);
    for (char *at = word[2];; at++) {
        unsigned long address = strtoul(at, &at, 10);
        if (address >= ADDRESSES || (*at != ',' && *at != '\0'))
            stop("no list of addresses");
        masters[address] = 1;
        if (*at == '\0')
            break;
    }
    printf("%u %u\n", parts_next(masters, ts), parts_previous(masters, ts));
}

/* Makes one change, `e5` or `r7`; gives its address, and where the next one is or the end. */
static uint8_t change(uint8_t *masters, char **at)
{
    char kind = *(*at)++;
    unsigned long address = strtoul(*at, at, 10);
    if ((kind != 'e' && kind != 'r') || address > UINT8_MAX || (**at != ',' && **at != '\0'))
        stop("no list of changes");
    *at += **at == ',';
    (kind == 'e' ? parts_enter : parts_remove)(masters, (uint8_t)address);
    return (uint8_t)address;
}

/* The masters after the changes, NS and PS. A place that no change names is as it was, one that is named holds 0 or 1. */
static void ask_changes(char **word)
{
    uint8_t ts = octet(word[2]), before[ADDRESSES], named[UINT8_MAX + 1] = {0};
    size_t count;
    uint8_t *masters = lay(word[3], input_end, &count);
    if (count != ADDRESSES)
        stop("no list of 127 octets");
    memcpy(before, masters, ADDRESSES);
    for (char *at = word[4]; strcmp(word[4], "-") != 0 && *at != '\0';)
        named[change(masters, &at)] = 1;
    const char *comma = "";
    for (unsigned address = 0; address < ADDRESSES; address++) {
        if (named[address] ? masters[address] > 1 : masters[address] != before[address])
            printf("place %u is %u ", address, masters[address]);
        if (masters[address] == 1) {
            printf("%s%u", comma, address);
            comma = ",";
        }
    }
    printf(" %u %u\n", parts_next(masters, ts), parts_previous(masters, ts));
}

static void ask_row(char **word)
{
    lent.ts = octet(word[1]);
    lent.places = octet(word[2]);
    lent.first = octet(word[3]);
    lent.confirmed = octet(word[4]);
    lent.unconfirmed = octet(word[5]);
    lent.row = lay(word[6], row_end, &lent.row_count);
    lent.area_count = number(word[7], MOST_OCTETS);
    lent.area = memset(area_end - lent.area_count, BEFORE, lent.area_count);
    if (lent.row_count > MOST_OCTETS)
        stop("a row too long");
    puts("row");
}

static void keep(void)
{
    memcpy(row_before, lent.row, lent.row_count);
    memcpy(area_before, lent.area, lent.area_count);
}

/* How many places have other octets than before the call, where a place has `each`. */
static size_t changed(const uint8_t *octets, const uint8_t *before, size_t count, size_t each)
{
    size_t places = 0;
    for (size_t at = 0; at < count; at += each)
        places += memcmp(octets + at, before + at, count - at < each ? count - at : each) != 0;
    return places;
}

/* Ends an answer with the queue, which the next call gets, and whether more places were touched than `most`. */
static void end(uint8_t first, uint8_t confirmed, uint8_t unconfirmed, size_t most)
{
    size_t records = changed(lent.row, row_before, lent.row_count, RECORD);
    size_t data = changed(lent.area, area_before, lent.area_count, DATA);
    lent.first = first;
    lent.confirmed = confirmed;
    lent.unconfirmed = unconfirmed;
    printf(" %u %u %u", first, confirmed, unconfirmed);
    if (records > most || data > most)
        printf(" and touched %zu records and the data of %zu", records, data);
    putchar('\n');
}

/* Shows what a call answered that may touch so many places unless it refuses. */
static void say_queue(struct parts_queue queue, size_t most)
{
    if (queue.refused != 0)
        printf("refused %u", queue.refused);
    else
        printf("ok %u", queue.place);
    end(queue.first, queue.confirmed, queue.unconfirmed, queue.refused != 0 ? 0 : most);
}

static void ask_submit(char **word)
{
    size_t count;
    const uint8_t *data = lay(word[8], input_end, &count);
    keep();
    say_queue(parts_submit(lent.ts, lent.places, lent.first, lent.confirmed, lent.unconfirmed, octet(word[1]),
                           octet(word[2]), point(word[3]), point(word[4]), wide(word[5]), octet(word[6]),
                           octet(word[7]), data, count, lent.row, lent.row_count, lent.area, lent.area_count), 1);
}

static void ask_confirm(char **word)
{
    size_t count;
    const uint8_t *data = lay(word[3], input_end, &count);
    keep();
    say_queue(parts_confirm(lent.places, lent.first, lent.confirmed, lent.unconfirmed, octet(word[1]), octet(word[2]),
                            data, count, lent.row, lent.row_count, lent.area, lent.area_count), 1);
}

static void ask_drain(char **word)
{
    keep();
    say_queue(parts_drain(lent.places, lent.first, lent.confirmed, lent.unconfirmed, octet(word[1]), lent.row,
                          lent.row_count, lent.area, lent.area_count), lent.unconfirmed);
}

static void ask_collect(char **word)
{
    (void)word;
    keep();
    struct parts_collected record = parts_collect(lent.places, lent.first, lent.confirmed, lent.unconfirmed, lent.row,
                                                  lent.row_count, lent.area, lent.area_count);
    if (record.refused != 0) {
        printf("refused %u", record.refused);
        if ((record.place | record.service | record.destination | record.to | record.from | record.length |
             record.status | record.count | record.limit | record.asks) != 0 || record.reference != 0)
            printf(" and answered a record");
    } else {
        printf("handed %u %u %u ", record.place, record.service, record.destination);
        say_point(record.to);
        putchar(' ');
        say_point(record.from);
        printf(" %u %u %u %u %u %u ", record.length, record.status, record.count, record.reference, record.limit,
               record.asks);
        say_octets(lent.area + (size_t)DATA * record.place, record.length < DATA ? record.length : DATA);
    }
    end(record.first, record.confirmed, record.unconfirmed, 0);
}

static void ask_sound(char **word)
{
    (void)word;
    keep();
    printf("%u", parts_sound(lent.ts, lent.places, lent.first, lent.confirmed, lent.unconfirmed, lent.row,
                             lent.row_count, lent.area, lent.area_count));
    end(lent.first, lent.confirmed, lent.unconfirmed, 0);
}

static void ask_look(char **word)
{
    (void)word;
    say_octets(lent.area, lent.area_count);
    putchar('\n');
}

static void ask_records(char **word)
{
    (void)word;
    say_octets(lent.row, lent.row_count);
    putchar('\n');
}

int main(void)
{
    static const struct call calls[] = {
        {"standard", 1, ask_standard}, {"settings", 10, ask_settings}, {"left", 4, ask_left},
        {"ring", 3, ask_ring},         {"changes", 5, ask_changes},    {"row", 8, ask_row},
        {"submit", 9, ask_submit},     {"confirm", 4, ask_confirm},    {"drain", 2, ask_drain},
        {"collect", 1, ask_collect},   {"sound", 1, ask_sound},        {"look", 1, ask_look},
        {"records", 1, ask_records},
    };
    input_end = fenced();
    row_end = fenced();
    area_end = fenced();
    lent.row = row_end;
    lent.area = area_end;
    return answer_all(calls, sizeof calls / sizeof calls[0]);
}
