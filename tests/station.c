/* The harness of the station: reads a replay script on standard input, drives one station of the library with it and
 * prints its answers, a line a call, as `reference replay` does. It takes the same memory for any script. What it lends
 * ends at a fence; of what it lends together, the last part. What a call may not touch is compared with what it was
 * before: all of it where the call was refused, else the output behind the octets to send, and whatever the call is
 * lent only to read. */
#include "../include/cihlomet.h"
#include "lent.h"
#include <stdbool.h>
#include <stdio.h>
#include <string.h>

enum { LONGEST_LINE = 4096, MOST_WORDS = 15, MOST_PLACES = 64 };
enum { ROW = MOST_PLACES * CIHLOMET_RECORD, AREA = MOST_PLACES * CIHLOMET_DATA };

_Static_assert(sizeof(struct cihlomet_core) == 60, "no padding: a core is compared by its octets");
_Static_assert(sizeof(struct cihlomet_station) == 760, "no padding: a station ends with its memory");
_Static_assert(offsetof(struct cihlomet_collected, reference) == 12, "behind eleven octets");
_Static_assert(offsetof(struct cihlomet_collected, core) == 16, "behind the reference");
_Static_assert(sizeof(struct cihlomet_collected) == 76, "a core behind the reference");

/* A queue's row and data area, and of the request at each place what no answer of a script shows: the limit that it was
 * to go by, and whether it asked for the station's. */
struct rows {
    uint8_t *row, *area;
    size_t row_count, area_count;
    uint8_t *row_end, *area_end; /* their fences */
    uint8_t limit[MOST_PLACES], asks[MOST_PLACES];
};

static struct cihlomet_station *station, *offered; /* the station, and what start is to fill */
static struct rows high, low;
static uint8_t *out;
static bool started;
static uint8_t *update_high_end, *update_low_end, *input_end; /* the fences behind octets of a line */

#define ROWS(r) (r)->row, (r)->row_count, (r)->area, (r)->area_count
#define OUT out, (size_t)CIHLOMET_LONGEST

/* ---- What all that is lent held before the call. */
static struct {
    struct cihlomet_station station;
    uint8_t high[ROW], high_data[AREA], low[ROW], low_data[AREA], out[CIHLOMET_LONGEST];
} before;

static void keep(void)
{
    before.station = *station;
    memcpy(before.high, high.row, high.row_count);
    memcpy(before.high_data, high.area, high.area_count);
    memcpy(before.low, low.row, low.row_count);
    memcpy(before.low_data, low.area, low.area_count);
    memcpy(before.out, out, CIHLOMET_LONGEST);
}

static void same(const void *now, const void *then, size_t count, const char *what)
{
    if (memcmp(now, then, count) != 0)
        stop(what);
}

static void same_high(void)
{
    same(high.row, before.high, high.row_count, "the high row was touched");
    same(high.area, before.high_data, high.area_count, "the high data were touched");
}

static void same_low(void)
{
    same(low.row, before.low, low.row_count, "the low row was touched");
    same(low.area, before.low_data, low.area_count, "the low data were touched");
}

static void same_lists(void)
{
    same(station->started, before.station.started, CIHLOMET_ADDRESSES, "the set as started was touched");
    same(station->points, before.station.points, CIHLOMET_POINTS, "the access points were touched");
}

static void same_arrays(void)
{
    same(station->masters, before.station.masters, CIHLOMET_ADDRESSES, "the set of masters was touched");
    same(station->marks, before.station.marks, CIHLOMET_ADDRESSES, "the marks were touched");
    same(station->memory, before.station.memory, CIHLOMET_LONGEST, "the memory was touched");
    same_lists();
}

/* Holds what a refused call left and the core that it answered against what it was given. */
static void same_all(const struct cihlomet_core *answered)
{
    same(answered, &before.station.core, sizeof *answered, "a refused call answered another core");
    same_arrays();
    same_high();
    same_low();
    same(out, before.out, CIHLOMET_LONGEST, "a refused call touched the output");
}

/* ---- Words of a line; each of these is false for a word that does not fit its place. */
static bool number_in(const char *word, uint32_t most, uint32_t *value)
{
    uint64_t sum = 0;
    for (const char *c = word; *c != '\0'; c++) {
        if (*c < '0' || *c > '9')
            return false;
        sum = sum * 10 + (uint64_t)(*c - '0');
        if (sum > most)
            return false;
    }
    *value = (uint32_t)sum;
    return *word != '\0';
}

static bool octet_in(const char *word, uint8_t most, uint8_t *value)
{
    uint32_t wide;
    if (!number_in(word, most, &wide))
        return false;
    *value = (uint8_t)wide;
    return true;
}

/* An access point: a number that the boundary has for none is out of range like 254. */
static bool point_in(const char *word, uint8_t *point)
{
    if (strcmp(word, "-") == 0) {
        *point = CIHLOMET_NO_POINT;
        return true;
    }
    if (!octet_in(word, 255, point))
        return false;
    if (*point == CIHLOMET_NO_POINT)
        *point = CIHLOMET_NO_POINT - 1;
    return true;
}

static int digit_of(char c)
{
    if (c >= '0' && c <= '9')
        return c - '0';
    if (c >= 'A' && c <= 'F')
        return c - 'A' + 10;
    if (c >= 'a' && c <= 'f')
        return c - 'a' + 10;
    return -1;
}

/* Octets, laid right before a fence. */
static bool octets_in(const char *word, uint8_t *fence, uint8_t **octets, size_t *count)
{
    size_t digits = strcmp(word, "-") == 0 ? 0 : strlen(word);
    *count = digits / 2;
    *octets = fence - *count;
    for (size_t i = 0; i < *count; i++) {
        int upper = digit_of(word[2 * i]), lower = digit_of(word[2 * i + 1]);
        if (upper < 0 || lower < 0)
            return false;
        (*octets)[i] = (uint8_t)(upper << 4 | lower);
    }
    return digits % 2 == 0;
}

/* A list of numbers joined by commas, each marked with 1; `none`, where it may be, is marked at `most` + 1. */
static bool list_in(char *word, uint8_t most, bool none, uint8_t *marks)
{
    if (strcmp(word, "-") == 0)
        return true;
    for (char *next; word != NULL; word = next) {
        uint8_t entry = (uint8_t)(most + 1);
        next = strchr(word, ',');
        if (next != NULL)
            *next++ = '\0';
        if (!(none && strcmp(word, "none") == 0) && !octet_in(word, most, &entry))
            return false;
        marks[entry] = 1;
    }
    return true;
}

static bool queue_in(const char *word, struct rows **queue)
{
    *queue = strcmp(word, "high") == 0 ? &high : strcmp(word, "low") == 0 ? &low : NULL;
    return *queue != NULL;
}

static const struct {
    const char *word;
    uint8_t number; /* of FC, where the boundary has none */
} services[] = {{"sda", CIHLOMET_SDA}, {"sdn", CIHLOMET_SDN}, {"srd", CIHLOMET_SRD},
                {"status", 9},         {"ident", 14},         {"lsap", 15}};

static bool service_in(const char *word, uint8_t *service)
{
    for (size_t i = 0; i < sizeof services / sizeof services[0]; i++) {
        if (strcmp(word, services[i].word) == 0) {
            *service = services[i].number;
            return true;
        }
    }
    return false;
}

/* ---- What is printed. */
static void say_service(uint8_t service)
{
    for (size_t i = 0; i < sizeof services / sizeof services[0]; i++) {
        if (service == services[i].number) {
            printf("%s", services[i].word);
            return;
        }
    }
    printf("service %u", service);
}

static void say_status(uint8_t status)
{
    static const char *const words[] = {"OK", "UE", "RR", "RS", NULL,  NULL,  NULL, NULL, "DL",
                                        "NR", "DH", NULL, "RDL", "RDH", NULL, NULL, "NA", "DS"};
    if (status < sizeof words / sizeof words[0] && words[status] != NULL)
        printf("%s", words[status]);
    else
        printf("status %u", status);
}

static void say_points(uint8_t to, uint8_t from)
{
    say_point(to);
    putchar(' ');
    say_point(from);
    putchar(' ');
}

/* SDA and SDN high have the low one's number and two more, SRD high one more. */
static void say_indication(const struct cihlomet_indication *shown, const uint8_t *octets, size_t count)
{
    uint8_t code = shown->control & 15;
    bool upper = code == CIHLOMET_SDA + 2 || code == CIHLOMET_SDN + 2 || code == CIHLOMET_SRD + 1;
    if (shown->start > count || shown->count > count - shown->start)
        stop("the data indicated are not in the frame");
    printf(" indicate ");
    say_service(!upper ? code : code == CIHLOMET_SRD + 1 ? CIHLOMET_SRD : (uint8_t)(code - 2));
    printf(" %s %u %u ", upper ? "high" : "low", shown->destination, shown->source);
    say_points(shown->to, shown->from);
    say_octets(octets + shown->start, shown->count);
}

static bool say_refused(uint8_t refused, const struct cihlomet_core *answered)
{
    if (refused == 0)
        return false;
    same_all(answered);
    printf("refused %u\n", refused);
    return true;
}

/* Shows what hear, sent or slot answered; `octets` were heard. */
static void say_answer(const struct cihlomet_answer *answer, const uint8_t *octets, size_t count)
{
    if (say_refused(answer->refused, &answer->core))
        return;
    if (answer->length > CIHLOMET_LONGEST)
        stop("more octets than the output has");
    same(out + answer->length, before.out + answer->length, CIHLOMET_LONGEST - answer->length,
         "the output behind the octets to send was touched");
    same_lists();
    station->core = answer->core;
    printf("ok");
    if (answer->length != 0) {
        printf(" send %u ", answer->wait);
        say_octets(out, answer->length);
    } else if (answer->wait != 0) {
        stop("a wait and nothing to send");
    }
    if (answer->indication.indicated == 1)
        say_indication(&answer->indication, octets, count);
    else if (answer->indication.indicated != 0)
        stop("neither indicated nor not");
    putchar('\n');
}

/* ---- The calls; each is false if a word does not fit its place, and then nothing was asked. */
static void lay_rows(struct rows *r, size_t places)
{
    r->row_count = places * CIHLOMET_RECORD;
    r->area_count = places * CIHLOMET_DATA;
    r->row = memset(r->row_end - r->row_count, 0, r->row_count);
    r->area = memset(r->area_end - r->area_count, 0, r->area_count);
}

static void ask_start(const struct cihlomet_settings *settings, uint8_t ts, uint8_t places_high, uint8_t places_low)
{
    struct cihlomet_station given = *offered;
    struct cihlomet_renewed answer =
        cihlomet_start(*settings, ts, offered->masters, offered->started, offered->marks, offered->points,
                       offered->memory, places_high, places_low);
    if (answer.refused != 0) {
        same(offered, &given, sizeof given, "a refused start touched what it was lent");
        printf("refused %u\n", answer.refused);
        return;
    }
    same(offered->masters, given.masters, sizeof given.masters, "start touched the set of masters");
    same(offered->points, given.points, sizeof given.points, "start touched the access points");
    offered->core = answer.core;
    struct cihlomet_station *old = station;
    station = offered;
    offered = old;
    lay_rows(&high, places_high);
    lay_rows(&low, places_low);
    started = true;
    puts("ok");
}

/* A pair that may stand behind a line's words: its name, the most that it takes, its value, which is standard until it
 * is said, and whether it was. */
struct pair {
    const char *name;
    uint32_t most, value;
    bool said;
};

/* The pairs behind a line's words, in their order. The words end with NULL. */
static bool pairs_in(char **word, struct pair *pairs, size_t count)
{
    for (size_t i = 0; i < count; i++) {
        if (*word == NULL || strcmp(*word, pairs[i].name) != 0)
            continue;
        if (word[1] == NULL || !number_in(word[1], pairs[i].most, &pairs[i].value))
            return false;
        pairs[i].said = true;
        word += 2;
    }
    return *word == NULL;
}

static bool start(char **word)
{
    struct cihlomet_settings settings;
    uint32_t *const setting[] = {&settings.tset, &settings.tqui, &settings.min_tsdr, &settings.max_tsdr,
                                 &settings.ttd,  &settings.ttr,  &settings.retries};
    struct pair tsdi = {"tsdi", UINT32_MAX, cihlomet_standard().tsdi, false};
    uint32_t ts;
    uint8_t places_high, places_low;
    for (size_t i = 0; i < 7; i++)
        if (!number_in(word[1 + i], UINT32_MAX, setting[i]))
            return false;
    memset(offered, BEFORE, sizeof *offered);
    memset(offered->masters, 0, sizeof offered->masters);
    memset(offered->points, 0, sizeof offered->points);
    if (!number_in(word[8], UINT32_MAX, &ts) || !list_in(word[9], 126, false, offered->masters) ||
        !list_in(word[10], 62, true, offered->points) || !octet_in(word[11], 255, &places_high) ||
        !octet_in(word[12], 255, &places_low) || !pairs_in(word + 13, &tsdi, 1))
        return false;
    settings.tsdi = tsdi.value;
    ask_start(&settings, ts > 255 ? 255 : (uint8_t)ts, places_high, places_low);
    return true;
}

/* What a request that asks for the station's limit is given beside: it may not make a difference. */
static const struct {
    uint8_t limit, asks;
} asking[] = {{0, 1}, {255, 1}, {15, 255}, {16, 2}, {1, 128}};

static bool submit(char **word)
{
    static size_t asked;
    struct pair pairs[] = {{"ref", UINT32_MAX, 0, false}, {"limit", UINT8_MAX, 0, false}};
    struct rows *queue;
    uint8_t service, destination, to, from, *data;
    size_t count;
    if (!queue_in(word[1], &queue) || !service_in(word[2], &service) || !octet_in(word[3], 255, &destination) ||
        !point_in(word[4], &to) || !point_in(word[5], &from) || !octets_in(word[6], input_end, &data, &count) ||
        !pairs_in(word + 7, pairs, 2))
        return false;
    uint8_t limit = (uint8_t)pairs[1].value, asks = 0;
    if (!pairs[1].said) {
        limit = asking[asked % (sizeof asking / sizeof asking[0])].limit;
        asks = asking[asked++ % (sizeof asking / sizeof asking[0])].asks;
    }
    keep();
    struct cihlomet_accepted answer = (queue == &high ? cihlomet_submit_high : cihlomet_submit_low)(
        CIHLOMET_STATION(station), service, destination, to, from, pairs[0].value, limit, asks, data, count,
        ROWS(queue));
    if (say_refused(answer.refused, &answer.core))
        return true;
    same_arrays();
    (queue == &high ? same_low : same_high)();
    if (answer.place >= queue->row_count / CIHLOMET_RECORD)
        stop("a place out of its row");
    station->core = answer.core;
    queue->limit[answer.place] = asks != 0 ? (uint8_t)station->core.settings.retries : limit;
    queue->asks[answer.place] = asks != 0;
    puts("ok");
    return true;
}

static bool collect(char **word)
{
    struct rows *queue;
    if (!queue_in(word[1], &queue))
        return false;
    keep();
    struct cihlomet_collected answer =
        (queue == &high ? cihlomet_collect_high : cihlomet_collect_low)(CIHLOMET_STATION(station), ROWS(queue));
    if (say_refused(answer.refused, &answer.core))
        return true;
    same_all(&before.station.core);
    if (answer.length > CIHLOMET_DATA || answer.place >= queue->row_count / CIHLOMET_RECORD)
        stop("a record out of its row");
    if (answer.limit != queue->limit[answer.place] || answer.asks != queue->asks[answer.place])
        stop("a record with another limit than it was submitted with, or it does not say whose");
    station->core = answer.core;
    printf("ok %u ", answer.place);
    say_service(answer.service);
    printf(" %u ", answer.destination);
    say_points(answer.to, answer.from);
    say_status(answer.status);
    printf(" %u ", answer.count);
    say_octets(queue->area + (size_t)CIHLOMET_DATA * answer.place, answer.length);
    if (answer.reference != 0)
        printf(" ref %u", answer.reference);
    putchar('\n');
    return true;
}

static bool reset(char **word)
{
    (void)word;
    keep();
    struct cihlomet_renewed answer = cihlomet_reset(CIHLOMET_STATION(station), ROWS(&high), ROWS(&low));
    if (say_refused(answer.refused, &answer.core))
        return true;
    same_lists();
    same(station->memory, before.station.memory, CIHLOMET_LONGEST, "reset touched the memory's octets");
    station->core = answer.core;
    puts("ok");
    return true;
}

static bool frame(char **word)
{
    uint32_t clock;
    uint8_t room, *update_high, *update_low, *octets;
    size_t update_high_count, update_low_count, count;
    if (!number_in(word[1], UINT32_MAX, &clock) || strlen(word[2]) != 1 || !octet_in(word[2], 1, &room) ||
        !octets_in(word[3], update_high_end, &update_high, &update_high_count) ||
        !octets_in(word[4], update_low_end, &update_low, &update_low_count) ||
        !octets_in(word[5], input_end, &octets, &count))
        return false;
    keep();
    struct cihlomet_answer answer =
        cihlomet_hear(CIHLOMET_STATION(station), clock, room, update_high, update_high_count, update_low,
                      update_low_count, octets, count, ROWS(&high), ROWS(&low), OUT);
    say_answer(&answer, octets, count);
    return true;
}

static bool sent(char **word)
{
    uint32_t clock;
    if (!number_in(word[1], UINT32_MAX, &clock))
        return false;
    keep();
    struct cihlomet_answer answer = cihlomet_sent(CIHLOMET_STATION(station), clock, ROWS(&high), ROWS(&low), OUT);
    same(station->masters, before.station.masters, CIHLOMET_ADDRESSES, "sent touched the set of masters");
    same(station->memory, before.station.memory, CIHLOMET_LONGEST, "sent touched the memory");
    say_answer(&answer, NULL, 0);
    return true;
}

static bool slot(char **word)
{
    uint32_t clock;
    if (!number_in(word[1], UINT32_MAX, &clock))
        return false;
    keep();
    struct cihlomet_answer answer = cihlomet_slot(CIHLOMET_STATION(station), clock, ROWS(&high), ROWS(&low), OUT);
    same(station->memory, before.station.memory, CIHLOMET_LONGEST, "slot touched the memory");
    say_answer(&answer, NULL, 0);
    return true;
}

/* Numbers that stand for no case are refused 29, whatever else the station holds. */
static void try_malformed(void)
{
    struct cihlomet_core core = station->core;
    const struct {
        uint8_t *number;
        uint8_t least;
    } cases[] = {
        {&station->core.phase, 5}, {&station->core.served, 2}, {&station->core.sdn, 2}, {&station->core.bit, 2}};
    for (size_t i = 0; i < sizeof cases / sizeof cases[0]; i++) {
        *cases[i].number = (uint8_t)(cases[i].least + (core.acceptance & 127));
        keep();
        struct cihlomet_answer answer = cihlomet_sent(CIHLOMET_STATION(station), 0, ROWS(&high), ROWS(&low), OUT);
        if (answer.refused != 29)
            stop("a number that means nothing is not refused 29");
        same_all(&answer.core);
        station->core = core;
    }
}

static uint8_t next_master(void)
{
    uint8_t address = station->core.ts;
    do
        address = address == 126 ? 0 : (uint8_t)(address + 1);
    while (station->masters[address] != 1);
    return address;
}

static bool show(char **word)
{
    static const char *const phases[] = {"idle", "awaited", "sdn", "check", "self"};
    const struct cihlomet_core *core = &station->core;
    const char *comma = "";
    (void)word;
    try_malformed();
    if (core->phase > CIHLOMET_PASS_TO_SELF || core->ts > 126 || station->masters[core->ts] != 1)
        stop("no phase, or no TS in the set");
    printf("ok %s %u %u %u ", phases[core->phase], core->ts, core->ps, next_master());
    for (unsigned address = 0; address < CIHLOMET_ADDRESSES; address++) {
        if (station->masters[address] == 1) {
            printf("%s%u", comma, address);
            comma = ",";
        }
    }
    printf(" %u %u %u %u\n", core->high_confirmed, core->high_unconfirmed, core->low_confirmed, core->low_unconfirmed);
    return true;
}

/* ---- The script. */
static const struct {
    const char *word;
    size_t words, pairs;
    bool (*ask)(char **word);
} calls[] = {{"start", 13, 1, start}, {"submit", 7, 2, submit},   {"frame", 6, 0, frame}, {"sent", 2, 0, sent},
             {"slot", 2, 0, slot},    {"collect", 2, 0, collect}, {"reset", 1, 0, reset}, {"show", 1, 0, show}};

/* Splits a line at its spaces and asks it; false if it is no call, or there is no station to ask. */
static bool ask(char *text)
{
    char *word[MOST_WORDS + 2];
    size_t words = 0;
    for (char *w = strtok(text, " "); w != NULL && words <= MOST_WORDS; w = strtok(NULL, " "))
        word[words++] = w;
    word[words] = NULL;
    for (size_t i = 0; words != 0 && i < sizeof calls / sizeof calls[0]; i++)
        if (words >= calls[i].words && words <= calls[i].words + 2 * calls[i].pairs &&
            strcmp(word[0], calls[i].word) == 0)
            return (started || calls[i].ask == start) && calls[i].ask(word);
    return false;
}

/* Reads a line without its end, of which LONGEST_LINE + 1 characters are kept; false at the end of the script. */
static bool read_line(char *text, size_t *length)
{
    int c = getchar();
    *length = 0;
    if (c == EOF)
        return false;
    for (; c != EOF && c != '\n'; c = getchar())
        if (*length <= LONGEST_LINE)
            text[(*length)++] = (char)c;
    text[*length] = '\0';
    return true;
}

static void make_rows(struct rows *r)
{
    r->row_end = fenced();
    r->area_end = fenced();
    lay_rows(r, 0);
}

int main(void)
{
    static char text[LONGEST_LINE + 2], given[LONGEST_LINE + 2];
    size_t length;
    watch();
    station = (struct cihlomet_station *)(void *)(fenced() - sizeof *station);
    offered = (struct cihlomet_station *)(void *)(fenced() - sizeof *offered);
    out = memset(fenced() - CIHLOMET_LONGEST, BEFORE, CIHLOMET_LONGEST);
    update_high_end = fenced();
    update_low_end = fenced();
    input_end = fenced();
    make_rows(&high);
    make_rows(&low);
    for (size_t lines = 1; read_line(text, &length); lines++) {
        if (length == 0 || text[0] == '#')
            continue;
        memcpy(given, text, length + 1);
        name_call(lines, given);
        if (length > LONGEST_LINE || strlen(text) != length || !ask(text))
            puts("?");
    }
    if (fflush(stdout) != 0)
        stop("output");
    return 0;
}
