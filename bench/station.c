/* station right|any: makes each call of the library once, but cihlomet_standard, which hands out seven numbers: between
 * two marks for the plugin (bench/count.c) and on a painted stack, and prints a line for each: operation, octets or
 * places, and the octets of stack that were touched. A capture comes on standard input. By `right` the first call that
 * answers wrong ends the program. By `any` it is linked with bench/empty.c in place of the library, and the figures are
 * those of the caller alone. */
#include "../include/cihlomet.h"
#include <stdio.h>
#include <stdlib.h>
#include <string.h>
#include <ucontext.h>

enum { MARK = 5000 }; /* no system call: bench/count.c knows it */
enum { MOST_PLACES = 64, STACK = 65536, PAINT = 0xA7, MOST_CAPTURE = 2 + 4096 * (5 + 255) };
enum { TS = 2, NS = 7, PS = 20, POINT = 60, OTHER_POINT = 62 };
enum { SRD_HIGH_FIRST = 0x6D, SRD_HIGH_AGAIN = 0x7D, FDL_STATUS = 0x49, REPLY_DL = 0x08 };
enum { SD1_COUNT = 6, SD2_WITHOUT_DATA = 11, ASKED = 4, UPDATE = 8 };

struct rows {
    uint8_t row[MOST_PLACES * CIHLOMET_RECORD], area[MOST_PLACES * CIHLOMET_DATA];
};

#define ROWS(r) (r).row, CIHLOMET_RECORD * (size_t)places, (r).area, CIHLOMET_DATA * (size_t)places
#define OUT out, sizeof out

/* The standard settings but for one retry, so that a repeat can be measured. */
static const struct cihlomet_settings settings = {20, 0, 20, 400, 1, 10000, 1, 0};
static size_t places, data_count;
static uint8_t to, from;
static struct cihlomet_station station;
static struct rows high, low;
static uint8_t out[CIHLOMET_LONGEST], data[CIHLOMET_DATA], octets[CIHLOMET_LONGEST], listing[CIHLOMET_LISTING_ROOM];
static uint8_t capture[MOST_CAPTURE];
static size_t octet_count, capture_count, listed;
static uint32_t clock_now;

/* What the call in measurement answered. */
static struct cihlomet_answer answer;
static struct cihlomet_accepted accepted;
static struct cihlomet_collected collected;
static struct cihlomet_renewed renewed;
static struct cihlomet_frame frame;
static struct cihlomet_written written;

static void mark(void)
{
    __asm__ volatile("mov %0, %%eax\n\tsyscall" : : "i"(MARK) : "rax", "rcx", "r11", "memory", "cc");
}

/* ---- The calls in measurement, each alone between two marks. */
#define MEASURED(name, call)                                                                                           \
    static void name(void)                                                                                             \
    {                                                                                                                  \
        mark();                                                                                                        \
        call;                                                                                                          \
        mark();                                                                                                        \
    }

MEASURED(hear, answer = cihlomet_hear(CIHLOMET_STATION(&station), clock_now, 1, data, UPDATE, data, 0, octets,
                                      octet_count, ROWS(high), ROWS(low), OUT))
MEASURED(sent, answer = cihlomet_sent(CIHLOMET_STATION(&station), clock_now, ROWS(high), ROWS(low), OUT))
MEASURED(slot, answer = cihlomet_slot(CIHLOMET_STATION(&station), clock_now, ROWS(high), ROWS(low), OUT))
MEASURED(submit, accepted = cihlomet_submit_high(CIHLOMET_STATION(&station), CIHLOMET_SRD, NS, POINT, OTHER_POINT,
                                                 0, 0, 1, data, UPDATE, ROWS(high)))
MEASURED(submit_low, accepted = cihlomet_submit_low(CIHLOMET_STATION(&station), CIHLOMET_SRD, NS, POINT, OTHER_POINT,
                                                    0, 0, 1, data, UPDATE, ROWS(low)))
MEASURED(collect, collected = cihlomet_collect_high(CIHLOMET_STATION(&station), ROWS(high)))
MEASURED(collect_low, collected = cihlomet_collect_low(CIHLOMET_STATION(&station), ROWS(low)))
MEASURED(start, renewed = cihlomet_start(settings, TS, station.masters, station.started, station.marks,
                                         station.points, station.memory, places, places))
MEASURED(reset, renewed = cihlomet_reset(CIHLOMET_STATION(&station), ROWS(high), ROWS(low)))
MEASURED(read_frame, frame = cihlomet_read(octets, octet_count))
MEASURED(write_frame, written = cihlomet_write(NS, to, TS, from, SRD_HIGH_FIRST, data, data_count, OUT))
MEASURED(write_token, written = cihlomet_token(NS, TS, OUT))
MEASURED(write_short, written = cihlomet_short(OUT))
MEASURED(list, listed = cihlomet_list(capture, capture_count, listing, sizeof listing))

/* ---- What is heard. */
static void hear_points(uint8_t point, uint8_t other, uint8_t control, size_t count)
{
    octet_count = cihlomet_write(TS, point, NS, other, control, data, count, octets, sizeof octets).count;
}

static void hear_token(uint8_t destination, uint8_t source)
{
    octet_count = cihlomet_token(destination, source, octets, sizeof octets).count;
}

/* ---- What the station is brought to, all by calls. */
static void step(void)
{
    answer = cihlomet_hear(CIHLOMET_STATION(&station), clock_now, 1, data, UPDATE, data, 0, octets, octet_count,
                           ROWS(high), ROWS(low), OUT);
    station.core = answer.core;
}

static void submit_to(int upper, uint8_t service, size_t requests)
{
    while (requests-- > 0) {
        accepted = (upper ? cihlomet_submit_high : cihlomet_submit_low)(
            CIHLOMET_STATION(&station), service, NS, POINT, OTHER_POINT, 0, 0, 1, data, UPDATE,
            upper ? high.row : low.row, CIHLOMET_RECORD * places, upper ? high.area : low.area, CIHLOMET_DATA * places);
        station.core = accepted.core;
    }
}

/* A station in Idle with empty rows, in a ring of three. */
static void idle(void)
{
    memset(&station, 0, sizeof station);
    memset(station.points, 1, sizeof station.points);
    station.masters[TS] = station.masters[NS] = station.masters[PS] = 1;
    renewed = cihlomet_start(settings, TS, station.masters, station.started, station.marks, station.points,
                             station.memory, places, places);
    station.core = renewed.core;
    clock_now = 1000;
}

/* In Idle, one hold over, so that in the next there is time. */
static void held_once(void)
{
    idle();
    hear_token(TS, PS);
    step();
    hear_token(PS, NS);
    step();
    clock_now += 500;
}

/* The next hold, in which the first request of the rows is being sent. */
static void take_token(void)
{
    hear_token(TS, PS);
    step();
    clock_now += 500;
}

static void expire(int times)
{
    while (times-- > 0) {
        answer = cihlomet_slot(CIHLOMET_STATION(&station), clock_now, ROWS(high), ROWS(low), OUT);
        station.core = answer.core;
    }
}

static void confirm_all(void)
{
    renewed = cihlomet_reset(CIHLOMET_STATION(&station), ROWS(high), ROWS(low));
    station.core = renewed.core;
}

static void asked_first(void)
{
    idle();
    hear_points(POINT, OTHER_POINT, SRD_HIGH_FIRST, ASKED);
}

static void asked_first_full(void)
{
    idle();
    submit_to(1, CIHLOMET_SRD, places);
    submit_to(0, CIHLOMET_SRD, places);
    hear_points(POINT, OTHER_POINT, SRD_HIGH_FIRST, ASKED);
}

static void asked_again(void)
{
    asked_first();
    step();
    hear_points(POINT, OTHER_POINT, SRD_HIGH_AGAIN, ASKED);
}

static void asked_status(void)
{
    idle();
    hear_points(CIHLOMET_NO_POINT, CIHLOMET_NO_POINT, FDL_STATUS, 0);
}

static void replied(void)
{
    held_once();
    submit_to(1, CIHLOMET_SRD, 2);
    take_token();
    hear_points(OTHER_POINT, POINT, REPLY_DL, UPDATE);
}

static void replied_full(void)
{
    held_once();
    submit_to(1, CIHLOMET_SRD, places);
    submit_to(0, CIHLOMET_SRD, places);
    take_token();
    hear_points(OTHER_POINT, POINT, REPLY_DL, UPDATE);
}

static void acknowledged(void)
{
    held_once();
    submit_to(1, CIHLOMET_SDA, 1);
    take_token();
    octet_count = cihlomet_short(octets, sizeof octets).count;
}

static void token_comes(void)
{
    held_once();
    submit_to(1, CIHLOMET_SRD, 1);
    hear_token(TS, PS);
}

static void replied_badly(void)
{
    replied();
    octets[SD2_WITHOUT_DATA] ^= 1;
}

static void sdn_gone(void)
{
    held_once();
    submit_to(1, CIHLOMET_SDN, 1);
    submit_to(1, CIHLOMET_SRD, 1);
    take_token();
}

static void lost(void)
{
    replied();
    expire(1);
}

/* A pass that NS was sent three times. */
static void pass_lost(void)
{
    idle();
    hear_token(TS, PS);
    step();
    expire(2);
}

/* Both others were removed, and the station passes to itself. */
static void pass_to_self(void)
{
    pass_lost();
    expire(4);
}

static void pass_to_self_four(void)
{
    pass_to_self();
    submit_to(1, CIHLOMET_SRD, 4);
}

static void acknowledged_alone(void)
{
    pass_to_self();
    submit_to(1, CIHLOMET_SDA, 1);
    answer = cihlomet_sent(CIHLOMET_STATION(&station), clock_now, ROWS(high), ROWS(low), OUT);
    station.core = answer.core;
    octet_count = cihlomet_short(octets, sizeof octets).count;
}

static void four_waiting(void)
{
    idle();
    submit_to(1, CIHLOMET_SRD, 4);
}

static void four_waiting_low(void)
{
    idle();
    submit_to(0, CIHLOMET_SRD, 4);
}

static void four_confirmed(void)
{
    four_waiting();
    confirm_all();
}

static void four_confirmed_low(void)
{
    four_waiting_low();
    confirm_all();
}

/* A frame of so many octets as it is written, and as it is read. */
static void frame_of(size_t count)
{
    to = count == SD1_COUNT ? CIHLOMET_NO_POINT : POINT;
    from = count == SD1_COUNT ? CIHLOMET_NO_POINT : OTHER_POINT;
    data_count = count == SD1_COUNT ? 0 : count - SD2_WITHOUT_DATA;
    octet_count = cihlomet_write(NS, to, TS, from, SRD_HIGH_FIRST, data, data_count, octets, sizeof octets).count;
}

/* ---- Whether a call answered as it is to. */
static int sends(size_t count) { return answer.refused == 0 && answer.length == count; }
static int replies(void) { return sends(SD2_WITHOUT_DATA + UPDATE) && answer.indication.indicated == 1; }
static int repeats(void) { return sends(SD2_WITHOUT_DATA + UPDATE) && answer.indication.indicated == 0; }
static int tells(void) { return sends(SD1_COUNT); }
static int asks(void) { return sends(SD2_WITHOUT_DATA + UPDATE) && answer.core.phase == CIHLOMET_REPLY_AWAITED; }
static int asks_next(void) { return asks() && answer.core.high_confirmed == 1 && answer.core.sendings == 1; }
static int asks_again(void) { return asks() && answer.core.sendings == 2; }
static int passes(void) { return sends(3) && answer.core.phase == CIHLOMET_PASS_CHECKED; }
static int ends(void) { return passes() && answer.core.high_confirmed == 1; }
static int removes(void) { return passes() && station.masters[NS] == 0; }
static int keeps(void) { return sends(3) && answer.core.phase == CIHLOMET_PASS_TO_SELF; }
static int is_quiet(void) { return sends(0); }
static int accepts(void) { return accepted.refused == 0; }
static int is_full(void) { return accepted.refused == 27; }
static int hands_back(void) { return collected.refused == 0 && collected.status == CIHLOMET_DS; }
static int has_none(void) { return collected.refused == 28; }
static int renews(void) { return renewed.refused == 0; }
static int reads(void) { return frame.form == CIHLOMET_FRAME; }
static int writes(void) { return written.refused == 0 && written.count != 0; }
static int lists(void) { return listed != 0; }

/* ---- The measurements. */
static const struct station_call {
    const char *name;
    void (*prepare)(void), (*call)(void);
    int (*right)(void);
    size_t only; /* the places of each row that it is for, 0 for any */
} station_calls[] = {
    {"hear SRD: reply", asked_first, hear, replies, 0},
    {"hear SRD, rows full", asked_first_full, hear, replies, 0},
    {"hear SRD again: same reply", asked_again, hear, repeats, 0},
    {"hear FDL status: reply", asked_status, hear, tells, 0},
    {"hear DL: next request", replied, hear, asks_next, 0},
    {"hear DL, rows full", replied_full, hear, asks_next, 0},
    {"hear SC: pass the token", acknowledged, hear, ends, 0},
    {"hear SC: pass to self", acknowledged_alone, hear, keeps, 0},
    {"hear token: high request", token_comes, hear, asks, 0},
    {"hear bad frame: repeat", replied_badly, hear, asks_again, 0},
    {"slot: repeat", replied, slot, asks_again, 0},
    {"slot: NA, next request", lost, slot, asks_next, 0},
    {"slot: remove NS, pass", pass_lost, slot, removes, 0},
    {"slot in Idle", idle, slot, is_quiet, 0},
    {"sent SDN: next request", sdn_gone, sent, asks_next, 0},
    {"sent to self: pass to self", pass_to_self, sent, keeps, 0},
    {"sent in Idle", idle, sent, is_quiet, 0},
    {"submit high, none queued", idle, submit, accepts, 0},
    {"submit low, none queued", idle, submit_low, accepts, 0},
    {"submit high, 4 queued", four_waiting, submit, accepts, MOST_PLACES},
    {"submit high, full: refused", four_waiting, submit, is_full, 4},
    {"submit high, pass to self", pass_to_self, submit, accepts, 0},
    {"collect high, none: refused", idle, collect, has_none, 0},
    {"collect high, 4 queued", four_confirmed, collect, hands_back, 0},
    {"collect low, 4 queued", four_confirmed_low, collect_low, hands_back, 0},
    {"collect, pass to self", pass_to_self, collect, has_none, 0},
    {"start", idle, start, renews, 0},
    {"reset, none queued", idle, reset, renews, 0},
    {"reset, 4 queued", four_waiting, reset, renews, 0},
    {"reset, 4, pass to self", pass_to_self_four, reset, renews, 0},
};

static int look;

static uint8_t stack[STACK];

/* Makes a call on a painted stack. */
static __attribute__((noinline)) void run(void (*call)(void))
{
    static ucontext_t here, there;
    memset(stack, PAINT, sizeof stack);
    getcontext(&there);
    there.uc_stack.ss_sp = stack;
    there.uc_stack.ss_size = sizeof stack;
    there.uc_link = &here;
    makecontext(&there, call, 0);
    swapcontext(&here, &there);
}

static size_t touched(void)
{
    size_t untouched = 0;
    while (untouched < sizeof stack && stack[untouched] == PAINT)
        untouched++;
    return sizeof stack - untouched;
}

static void measure(const char *name, size_t size, void (*call)(void), int (*right)(void))
{
    run(call);
    printf("%s\t%zu\t%zu\n", name, size, touched());
    if (look && !right()) {
        fprintf(stderr, "station: %s, %zu: not the answer expected\n", name, size);
        exit(1);
    }
}

static void measure_frames(void)
{
    static const size_t counts[] = {6, 20, 255};
    for (size_t i = 0; i < sizeof counts / sizeof counts[0]; i++) {
        frame_of(counts[i]);
        measure("read a frame", counts[i], read_frame, reads);
    }
    for (size_t i = 0; i < sizeof counts / sizeof counts[0]; i++) {
        frame_of(counts[i]);
        measure("write a frame", counts[i], write_frame, writes);
    }
    measure("write a token", 3, write_token, writes);
    measure("write SC", 1, write_short, writes);
    measure("list 4096 bodies", capture_count, list, lists);
}

/* Each call with rows of few places, and then with rows of many. */
static void measure_station(void)
{
    static const size_t counts[] = {4, MOST_PLACES};
    for (size_t i = 0; i < sizeof station_calls / sizeof station_calls[0]; i++) {
        const struct station_call *c = &station_calls[i];
        for (size_t k = 0; k < sizeof counts / sizeof counts[0]; k++) {
            places = counts[k];
            if (c->only != 0 && c->only != places)
                continue;
            c->prepare();
            measure(c->name, places, c->call, c->right);
        }
    }
}

int main(int argc, char **argv)
{
    if (argc != 2) {
        fprintf(stderr, "usage: station right|any\n");
        return 2;
    }
    look = strcmp(argv[1], "right") == 0;
    capture_count = fread(capture, 1, sizeof capture, stdin);
    measure_frames();
    measure_station();
    return 0;
}
