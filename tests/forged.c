/* The harness of forged stations: reads a script on standard input, a call a line with all that it is given, asks the
 * library and prints whether it is refused, as `reference refusal` does. tests/reference/src/cases.rs has the words.
 * Every buffer that it lends ends at a fence of its own. A refused call must answer the core that it was given and
 * leave all that is lent as it was; an accepted one must leave what it is lent only to read, a submit must write the
 * reference and the limit of its request and a collect hand back the record that lies there. What else an accepted call
 * does is compared elsewhere. */
#define _GNU_SOURCE
#include "../include/cihlomet.h"
#include "lent.h"
#include <stdbool.h>
#include <stdio.h>
#include <stdlib.h>
#include <string.h>
#include <sys/mman.h>

_Static_assert(sizeof(struct cihlomet_core) == 60, "no padding: a core is compared by its octets");
_Static_assert(offsetof(struct cihlomet_collected, reference) == 12, "behind eleven octets");
_Static_assert(offsetof(struct cihlomet_collected, core) == 16, "behind the reference");
_Static_assert(sizeof(struct cihlomet_collected) == 76, "a core behind the reference");

/* A buffer as lent, and a copy of what it held before the call. */
struct part {
    const char *name;
    bool constant; /* lent only to be read */
    uint8_t *fence, *octets, *before;
    size_t count;
};

/* The parts; a queue's data area follows its row. */
enum { MASTERS, STARTED, MARKS, POINTS, MEMORY, HIGH, HIGH_DATA, LOW, LOW_DATA, OUT, UPDATE_HIGH, UPDATE_LOW, INPUT };
enum { PARTS = INPUT + 1 };

static struct part parts[PARTS] = {
    [MASTERS] = {.name = "the set of masters"},
    [STARTED] = {.name = "the set as started"},
    [MARKS] = {.name = "the marks"},
    [POINTS] = {.name = "the access points"},
    [MEMORY] = {.name = "the memory"},
    [HIGH] = {.name = "the high row"},
    [HIGH_DATA] = {.name = "the high data"},
    [LOW] = {.name = "the low row"},
    [LOW_DATA] = {.name = "the low data"},
    [OUT] = {.name = "the output"},
    [UPDATE_HIGH] = {.name = "the high update"},
    [UPDATE_LOW] = {.name = "the low update"},
    [INPUT] = {.name = "the input"},
};

/* Memory for counts over 32 bits, with a fence too; it can only be read, so that a write stops the program. */
static const size_t WIDE = ((size_t)1 << 32) + ROOM;
static uint8_t *wide_fence;

static struct cihlomet_core core; /* as given */

#define LENT(p) parts[p].octets, parts[p].count
#define AT(p) parts[p].octets
#define ARRAYS AT(MASTERS), AT(STARTED), AT(MARKS), AT(POINTS), AT(MEMORY)
#define ROWS LENT(HIGH), LENT(HIGH_DATA), LENT(LOW), LENT(LOW_DATA)

/* ---- What is lent. */

/* Nothing is lent yet in this call. */
static void clear(void)
{
    for (size_t i = 0; i < PARTS; i++) {
        parts[i].octets = parts[i].fence;
        parts[i].count = 0;
        parts[i].constant = false;
    }
}

/* Lends `count` octets right before a fence, all as before a first call. */
static uint8_t *lend(size_t which, size_t count)
{
    struct part *part = &parts[which];
    part->count = count;
    if (count > ROOM) {
        part->octets = wide_fence - count;
        return NULL;
    }
    part->octets = memset(part->fence - count, BEFORE, count);
    return part->octets;
}

/* Lends as many octets as a word says; `null` are none at no address. */
static uint8_t *lend_count(size_t which, const char *word)
{
    if (strcmp(word, "null") == 0) {
        parts[which].octets = NULL;
        parts[which].count = 0;
        return NULL;
    }
    return lend(which, number(word, WIDE));
}

/* Lends a row, COUNT:HEX, and its data area. */
static void lend_row(size_t row, char **word)
{
    static uint8_t *scratch;
    char *records = strchr(word[0], ':');
    size_t given = 0;
    if (scratch == NULL)
        scratch = fenced();
    if (records != NULL)
        *records++ = '\0';
    uint8_t *octets = lend_count(row, word[0]);
    const uint8_t *laid = lay(records == NULL ? "-" : records, scratch, &given);
    if (octets != NULL)
        memcpy(octets, laid, given < parts[row].count ? given : parts[row].count);
    lend_count(row + 1, word[1]);
}

/* Lends a list: the octet of every place, then PLACE=OCTET of others. */
static void lend_list(size_t which, char *word, size_t count)
{
    uint8_t *octets = lend(which, count);
    char *entry = strtok(word, ",");
    memset(octets, octet(entry == NULL ? "" : entry), count);
    while ((entry = strtok(NULL, ",")) != NULL) {
        char *value = strchr(entry, '=');
        if (value == NULL)
            stop("no place");
        *value++ = '\0';
        octets[number(entry, count - 1)] = octet(value);
    }
}

/* Lends what struct cihlomet_station holds beside the core. The memory's octets are never looked at to refuse. */
static void lend_arrays(char **word)
{
    lend_list(MASTERS, word[0], CIHLOMET_ADDRESSES);
    lend_list(STARTED, word[1], CIHLOMET_ADDRESSES);
    lend_list(MARKS, word[2], CIHLOMET_ADDRESSES);
    lend_list(POINTS, word[3], CIHLOMET_POINTS);
    lend(MEMORY, CIHLOMET_LONGEST);
}

/* These are lent only to be read. */
static void constant(const size_t *which, size_t count)
{
    for (size_t i = 0; i < count; i++)
        parts[which[i]].constant = true;
}

#define CONSTANT(...) constant((const size_t[]){__VA_ARGS__}, sizeof((const size_t[]){__VA_ARGS__}) / sizeof(size_t))

/* ---- What was lent, before and after. */
static void keep(void)
{
    for (size_t i = 0; i < PARTS; i++)
        if (parts[i].count <= ROOM && parts[i].count != 0)
            memcpy(parts[i].before, parts[i].octets, parts[i].count);
}

static void same(bool all)
{
    static char why[64];
    for (size_t i = 0; i < PARTS; i++) {
        const struct part *part = &parts[i];
        if ((!all && !part->constant) || part->count > ROOM || part->count == 0)
            continue;
        if (memcmp(part->octets, part->before, part->count) != 0) {
            snprintf(why, sizeof why, "%s call touched %s", all ? "a refused" : "an accepted", part->name);
            stop(why);
        }
    }
}

/* Shows the answer, once what it may not touch is seen to be as it was. */
static void say(uint8_t refused, const struct cihlomet_core *answered)
{
    same(refused != 0);
    if (refused == 0) {
        puts("ok");
        return;
    }
    if (answered != NULL && memcmp(answered, &core, sizeof core) != 0)
        stop("a refused call answered another core");
    printf("refused %u\n", refused);
}

/* Shows the answer of hear, sent or slot. An accepted one leaves the output behind the octets to send as it was, and a
 * state that is accepted again. */
static void say_turn(const struct cihlomet_answer *answer)
{
    const struct part *out = &parts[OUT];
    say(answer->refused, &answer->core);
    if (answer->refused != 0)
        return;
    if (answer->length > CIHLOMET_LONGEST)
        stop("more octets than a frame has");
    if (memcmp(out->octets + answer->length, out->before + answer->length, out->count - answer->length) != 0)
        stop("an accepted call touched the output behind the octets to send");
    if (cihlomet_slot(answer->core, ARRAYS, 0, ROWS, LENT(OUT)).refused != 0)
        stop("an accepted call left a state that is refused");
}

/* ---- The numbers of a core: those of the word `first`, then with NULL the next ones of that word. */
static uint32_t next_number(char *first, uint32_t most)
{
    char *word = strtok(first, ",");
    return (uint32_t)number(word == NULL ? "" : word, most);
}

static struct cihlomet_settings read_settings(char *word)
{
    struct cihlomet_settings settings;
    uint32_t *const setting[] = {&settings.tset, &settings.tqui, &settings.min_tsdr, &settings.max_tsdr,
                                 &settings.ttd,  &settings.ttr,  &settings.retries,  &settings.tsdi};
    for (size_t i = 0; i < sizeof setting / sizeof setting[0]; i++)
        *setting[i] = next_number(i == 0 ? word : NULL, UINT32_MAX);
    return settings;
}

static void read_core(char *word)
{
    uint8_t *const small[] = {
        &core.ts,          &core.ps,         &core.stranger,       &core.phase,
        &core.served,      &core.sendings,   &core.sdn,            &core.begun,
        &core.high_places, &core.high_first, &core.high_confirmed, &core.high_unconfirmed,
        &core.low_places,  &core.low_first,  &core.low_confirmed,  &core.low_unconfirmed,
        &core.source,      &core.bit};
    core.settings = read_settings(word);
    core.acceptance = next_number(NULL, UINT32_MAX);
    core.before = next_number(NULL, UINT32_MAX);
    for (size_t i = 0; i < sizeof small / sizeof small[0]; i++)
        *small[i] = (uint8_t)next_number(NULL, UINT8_MAX);
    core.length = (uint16_t)next_number(NULL, UINT16_MAX);
}

/* ---- The calls; word[1] to word[5] are a station. */
static void read_station(char **word)
{
    clear();
    read_core(word[1]);
    lend_arrays(word + 2);
    CONSTANT(STARTED, POINTS);
}

static void read_rows(char **word)
{
    read_station(word);
    lend_row(HIGH, word + 6);
    lend_row(LOW, word + 8);
}

static void ask_hear(char **word)
{
    size_t count;
    read_rows(word);
    lend_count(OUT, word[10]);
    lend_count(UPDATE_HIGH, word[13]);
    lend_count(UPDATE_LOW, word[14]);
    parts[INPUT].octets = lay(word[15], parts[INPUT].fence, &count);
    parts[INPUT].count = count;
    CONSTANT(UPDATE_HIGH, UPDATE_LOW, INPUT);
    keep();
    struct cihlomet_answer answer =
        cihlomet_hear(core, ARRAYS, (uint32_t)number(word[11], UINT32_MAX), octet(word[12]), LENT(UPDATE_HIGH),
                      LENT(UPDATE_LOW), LENT(INPUT), ROWS, LENT(OUT));
    say_turn(&answer);
}

static void ask_sent(char **word)
{
    read_rows(word);
    lend_count(OUT, word[10]);
    CONSTANT(MASTERS, MEMORY);
    keep();
    struct cihlomet_answer answer =
        cihlomet_sent(core, ARRAYS, (uint32_t)number(word[11], UINT32_MAX), ROWS, LENT(OUT));
    say_turn(&answer);
}

static void ask_slot(char **word)
{
    read_rows(word);
    lend_count(OUT, word[10]);
    CONSTANT(MEMORY);
    keep();
    struct cihlomet_answer answer =
        cihlomet_slot(core, ARRAYS, (uint32_t)number(word[11], UINT32_MAX), ROWS, LENT(OUT));
    say_turn(&answer);
}

static void ask_reset(char **word)
{
    read_rows(word);
    CONSTANT(MEMORY);
    keep();
    struct cihlomet_renewed answer = cihlomet_reset(core, ARRAYS, ROWS);
    say(answer.refused, &answer.core);
}

/* ---- A record: where these lie in its octets, tests/parts.h says. */
enum { LENGTH = 4, REFERENCE = 7, LIMIT = 11, ASKS = 12 };

static const uint8_t *record_at(size_t row, uint8_t place)
{
    if (((size_t)place + 1) * CIHLOMET_RECORD > parts[row].count)
        stop("a place out of the row");
    return parts[row].octets + (size_t)place * CIHLOMET_RECORD;
}

static uint32_t reference_of(const uint8_t *record)
{
    const uint8_t *at = record + REFERENCE;
    return (uint32_t)at[0] | (uint32_t)at[1] << 8 | (uint32_t)at[2] << 16 | (uint32_t)at[3] << 24;
}

/* What an accepted submit wrote: the reference as given, and the station's limit if the request asks, else its own. */
static void written(const uint8_t *record, uint32_t reference, uint8_t limit, uint8_t asks)
{
    if (reference_of(record) != reference)
        stop("the record has another reference than the request");
    if (record[LIMIT] != (asks != 0 ? core.settings.retries : limit))
        stop("the record has another limit than it was to go by");
    if (record[ASKS] != (asks != 0))
        stop("the record does not say whether the request asked");
}

static void ask_submit(char **word)
{
    bool high = strcmp(word[0], "submit_high") == 0;
    size_t row = high ? HIGH : LOW;
    uint32_t reference = (uint32_t)number(word[12], UINT32_MAX);
    uint8_t limit = octet(word[13]), asks = octet(word[14]);
    read_station(word);
    lend_row(row, word + 6);
    lend_count(INPUT, word[15]);
    CONSTANT(MASTERS, MARKS, MEMORY, INPUT);
    keep();
    struct cihlomet_accepted answer =
        (high ? cihlomet_submit_high : cihlomet_submit_low)(core, ARRAYS, octet(word[8]), octet(word[9]),
                                                            octet(word[10]), octet(word[11]), reference, limit, asks,
                                                            LENT(INPUT), LENT(row), LENT(row + 1));
    if (answer.refused == 0)
        written(record_at(row, answer.place), reference, limit, asks);
    else if (answer.place != 0)
        stop("a refused submit answered a place");
    say(answer.refused, &answer.core);
}

/* What a refused collect answers. */
static void no_record(const struct cihlomet_collected *answer)
{
    if ((answer->place | answer->service | answer->destination | answer->length | answer->count) != 0 ||
        answer->to != CIHLOMET_NO_POINT || answer->from != CIHLOMET_NO_POINT ||
        answer->status != CIHLOMET_WAITING || (answer->limit | answer->asks) != 0 || answer->reference != 0)
        stop("a refused collect answered a record");
}

/* What an accepted collect answers: the record as it lies, but for whether it asked, which is 0 or 1. A length that no
 * place has room for is not looked at. */
static void handed_back(const struct cihlomet_collected *answer, const uint8_t *record)
{
    const uint8_t length = record[LENGTH] > CIHLOMET_DATA ? record[LENGTH] : answer->length;
    const uint8_t fields[] = {answer->service, answer->destination, answer->to,   answer->from,
                              length,          answer->status,      answer->count};
    if (memcmp(fields, record, sizeof fields) != 0)
        stop("collect answered another record than lies at the place");
    if (answer->reference != reference_of(record) || answer->limit != record[LIMIT])
        stop("collect answered another reference or limit than lies at the place");
    if (answer->asks != (record[ASKS] != 0))
        stop("collect does not say whether the request asked");
}

static void ask_collect(char **word)
{
    bool high = strcmp(word[0], "collect_high") == 0;
    size_t row = high ? HIGH : LOW;
    read_station(word);
    lend_row(row, word + 6);
    CONSTANT(MASTERS, MARKS, MEMORY, row, row + 1);
    keep();
    struct cihlomet_collected answer =
        (high ? cihlomet_collect_high : cihlomet_collect_low)(core, ARRAYS, LENT(row), LENT(row + 1));
    if (answer.refused != 0)
        no_record(&answer);
    else
        handed_back(&answer, record_at(row, answer.place));
    say(answer.refused, &answer.core);
}

/* The core of a refused start must be refused too, whatever rows fit it. */
static void refused_again(const struct cihlomet_core *blank)
{
    lend(HIGH, (size_t)blank->high_places * CIHLOMET_RECORD);
    lend(HIGH_DATA, (size_t)blank->high_places * CIHLOMET_DATA);
    lend(LOW, (size_t)blank->low_places * CIHLOMET_RECORD);
    lend(LOW_DATA, (size_t)blank->low_places * CIHLOMET_DATA);
    if (cihlomet_reset(*blank, ARRAYS, ROWS).refused == 0)
        stop("the core of a refused start is accepted");
}

static void ask_start(char **word)
{
    clear();
    lend_list(MASTERS, word[3], CIHLOMET_ADDRESSES);
    lend_list(POINTS, word[4], CIHLOMET_POINTS);
    lend(STARTED, CIHLOMET_ADDRESSES);
    lend(MARKS, CIHLOMET_ADDRESSES);
    lend(MEMORY, CIHLOMET_LONGEST);
    CONSTANT(MASTERS, POINTS);
    keep();
    struct cihlomet_renewed answer = cihlomet_start(read_settings(word[1]), octet(word[2]), ARRAYS,
                                                    number(word[5], SIZE_MAX), number(word[6], SIZE_MAX));
    say(answer.refused, NULL);
    if (answer.refused != 0)
        refused_again(&answer.core);
}

int main(void)
{
    static const struct call calls[] = {
        {"hear", 16, ask_hear},           {"sent", 12, ask_sent},          {"slot", 12, ask_slot},
        {"reset", 10, ask_reset},         {"submit_high", 16, ask_submit}, {"submit_low", 16, ask_submit},
        {"collect_high", 8, ask_collect}, {"collect_low", 8, ask_collect}, {"start", 7, ask_start},
    };
    for (size_t i = 0; i < PARTS; i++) {
        parts[i].fence = fenced();
        parts[i].before = malloc(ROOM);
        if (parts[i].before == NULL)
            stop("no memory");
    }
    uint8_t *wide = mmap(NULL, WIDE + ROOM, PROT_NONE, MAP_PRIVATE | MAP_ANONYMOUS | MAP_NORESERVE, -1, 0);
    if (wide == MAP_FAILED || mprotect(wide, WIDE, PROT_READ) != 0)
        stop("no memory");
    wide_fence = wide + WIDE;
    return answer_all(calls, sizeof calls / sizeof calls[0]);
}
