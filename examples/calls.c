/* Each call of the library, in the order of docs/USING.md, which quotes this file. The station's answers are printed
 * as the program replay prints them; then come an altered state, the frame reader, the writers and the lister. */
#include "../include/cihlomet.h"
#include <stdbool.h>
#include <stdio.h>

enum { PLACES = 4, NO_POINT = CIHLOMET_NO_POINT };

/* What the caller keeps between calls: the station, and each queue's row and data area. */
static struct cihlomet_station station;
static uint8_t high[PLACES * CIHLOMET_RECORD], high_data[PLACES * CIHLOMET_DATA];
static uint8_t low[PLACES * CIHLOMET_RECORD], low_data[PLACES * CIHLOMET_DATA];

/* What it lends for one call only: the output. */
static uint8_t out[CIHLOMET_LONGEST];

#define HIGH high, sizeof high, high_data, sizeof high_data
#define LOW low, sizeof low, low_data, sizeof low_data
#define OUT out, sizeof out

/* Looks at a refusal number. If it is 0, the core that was answered is the station's from now on. */
static bool accepted(uint8_t refused, const struct cihlomet_core *core)
{
    if (refused != 0) {
        printf("refused %u\n", refused);
        return false;
    }
    station.core = *core;
    printf("ok");
    return true;
}

/* ---- What is printed. */
static void say_octets(const uint8_t *octets, size_t count)
{
    if (count == 0)
        putchar('-');
    for (size_t i = 0; i < count; i++)
        printf("%02X", octets[i]);
}

static void say_points(uint8_t to, uint8_t from)
{
    const uint8_t points[] = {to, from};
    for (size_t i = 0; i < 2; i++) {
        if (points[i] == NO_POINT)
            printf(" -");
        else
            printf(" %u", points[i]);
    }
}

/* A request that another station made, by its FC's low four bits; its data are a part of the octets heard. */
static void say_indication(const struct cihlomet_indication *shown, const uint8_t *heard)
{
    static const char *const asked[16] = {[3] = "sda low",  [4] = "sdn low",  [5] = "sda high",
                                          [6] = "sdn high", [12] = "srd low", [13] = "srd high"};
    printf(" indicate %s %u %u", asked[shown->control & 15], shown->destination, shown->source);
    say_points(shown->to, shown->from);
    putchar(' ');
    say_octets(heard + shown->start, shown->count);
}

/* ---- The station. */

/* Starts station `ts` in a ring of 2 and 5, its access points 60, 62 and "none" active, with the standard settings but
 * for one retry: they have none. */
static void start(uint8_t ts)
{
    struct cihlomet_settings settings = cihlomet_standard();
    settings.retries = 1;
    station.masters[2] = station.masters[5] = 1;
    station.points[60] = station.points[62] = station.points[63] = 1; /* at 63 "none" */
    struct cihlomet_renewed answer = cihlomet_start(settings, ts, station.masters, station.started, station.marks,
                                                    station.points, station.memory, PLACES, PLACES);
    if (accepted(answer.refused, &answer.core))
        putchar('\n');
}

/* Submits a request to the high queue; answer.place is the place that it takes. The data are copied there. Its
 * reference comes back with its confirmation; it asks for the station's retry limit. */
static void submit_high(uint8_t service, uint8_t destination, uint8_t to, uint8_t from, uint32_t reference,
                        const uint8_t *data, size_t count)
{
    struct cihlomet_accepted answer = cihlomet_submit_high(CIHLOMET_STATION(&station), service, destination, to, from,
                                                           reference, 0, 1, data, count, HIGH);
    if (accepted(answer.refused, &answer.core))
        putchar('\n');
}

/* The same for the low queue: its own function, its own row. This one has a retry limit of its own, and no reference. */
static void submit_low(uint8_t service, uint8_t destination, uint8_t to, uint8_t from, uint8_t limit,
                       const uint8_t *data, size_t count)
{
    struct cihlomet_accepted answer = cihlomet_submit_low(CIHLOMET_STATION(&station), service, destination, to, from,
                                                          0, limit, 0, data, count, LOW);
    if (accepted(answer.refused, &answer.core))
        putchar('\n');
}

/* Takes what frame, sent or slot answered: out[0 .. length) is to be sent after `wait` bit times. */
static void take(const struct cihlomet_answer *answer, const uint8_t *heard)
{
    if (!accepted(answer->refused, &answer->core))
        return;
    if (answer->length != 0) {
        printf(" send %u ", answer->wait);
        say_octets(out, answer->length);
    }
    if (answer->indication.indicated != 0)
        say_indication(&answer->indication, heard);
    putchar('\n');
}

/* A string of octets was heard. `update` is the high update; here the low one is always none. */
static void frame(uint32_t clock, uint8_t room, const uint8_t *update, size_t update_count, const uint8_t *octets,
                  size_t count)
{
    struct cihlomet_answer answer = cihlomet_hear(CIHLOMET_STATION(&station), clock, room, update, update_count, NULL,
                                                  0, octets, count, HIGH, LOW, OUT);
    take(&answer, octets);
}

/* What was to be sent has gone out. */
static void sent(uint32_t clock)
{
    struct cihlomet_answer answer = cihlomet_sent(CIHLOMET_STATION(&station), clock, HIGH, LOW, OUT);
    take(&answer, NULL);
}

/* The slot time expired. */
static void slot(uint32_t clock)
{
    struct cihlomet_answer answer = cihlomet_slot(CIHLOMET_STATION(&station), clock, HIGH, LOW, OUT);
    take(&answer, NULL);
}

/* Prints the record that collect handed back, with the data that stand in its place. */
static void say_collected(const struct cihlomet_collected *c, const uint8_t *area)
{
    static const char *const services[16] = {[CIHLOMET_SDA] = "sda", [CIHLOMET_SDN] = "sdn", [CIHLOMET_SRD] = "srd"};
    static const char *const statuses[18] = {"OK", "UE", "RR", "RS", [8] = "DL", "NR", "DH", [12] = "RDL",
                                             "RDH", [16] = "NA", "DS"};
    printf(" %u %s %u", c->place, services[c->service], c->destination);
    say_points(c->to, c->from);
    printf(" %s %u ", statuses[c->status], c->count);
    say_octets(area + (size_t)CIHLOMET_DATA * c->place, c->length);
    if (c->reference != 0)
        printf(" ref %u", c->reference);
    putchar('\n');
}

/* Hands back the oldest confirmed request. Its data stand in its place till the place is used again. */
static void collect_high(void)
{
    struct cihlomet_collected answer = cihlomet_collect_high(CIHLOMET_STATION(&station), HIGH);
    if (accepted(answer.refused, &answer.core))
        say_collected(&answer, high_data);
}

static void collect_low(void)
{
    struct cihlomet_collected answer = cihlomet_collect_low(CIHLOMET_STATION(&station), LOW);
    if (accepted(answer.refused, &answer.core))
        say_collected(&answer, low_data);
}

/* Confirms all unconfirmed requests DS and goes Idle, with the set of masters as started. */
static void reset(void)
{
    struct cihlomet_renewed answer = cihlomet_reset(CIHLOMET_STATION(&station), HIGH, LOW);
    if (accepted(answer.refused, &answer.core))
        putchar('\n');
}

/* NS is not kept: it is the next address in the set, from TS upward, past 126 to 0. */
static unsigned next_master(void)
{
    unsigned address = station.core.ts;
    do
        address = (address + 1) % CIHLOMET_ADDRESSES;
    while (station.masters[address] != 1);
    return address;
}

/* No call: the core and the set of masters may be looked at between calls. */
static void show(void)
{
    static const char *const phases[] = {"idle", "awaited", "sdn", "check", "self"};
    const struct cihlomet_core *core = &station.core;
    const char *before = " ";
    printf("ok %s %u %u %u", phases[core->phase], core->ts, core->ps, next_master());
    for (unsigned address = 0; address < CIHLOMET_ADDRESSES; address++) {
        if (station.masters[address] == 1) {
            printf("%s%u", before, address);
            before = ",";
        }
    }
    printf(" %u %u %u %u\n", core->high_confirmed, core->high_unconfirmed, core->low_confirmed, core->low_unconfirmed);
}

/* The calls of docs/USING.md's script. */
static void station_calls(void)
{
    static const uint8_t token[] = {0xDC, 0x02, 0x05}, update[] = {0xAA, 0xBB}, nine = 9, one = 1;
    static const uint8_t question[] = {0x68, 6, 6, 0x68, 0x82, 0x85, 0x5D, 60, 62, 7, 0xE5, 0x16};
    static const uint8_t reply[] = {0x68, 7, 7, 0x68, 0x82, 0x87, 0x08, 62, 60, 0x60, 1, 0xEC, 0x16};
    start(3);
    start(2);
    submit_high(CIHLOMET_SDN, 127, NO_POINT, NO_POINT, 0, &nine, 1);
    submit_high(CIHLOMET_SRD, 7, 60, 62, 4711, &one, 1);
    submit_high(CIHLOMET_SRD, 2, NO_POINT, NO_POINT, 0, NULL, 0);
    frame(500, 1, update, sizeof update, question, sizeof question);
    frame(1000, 0, NULL, 0, token, sizeof token);
    sent(1185);
    sent(1618);
    frame(3000, 0, NULL, 0, token, sizeof token);
    sent(3196);
    slot(3651);
    sent(3847);
    frame(4010, 0, NULL, 0, reply, sizeof reply);
    collect_high();
    collect_high();
    collect_high();
    submit_low(CIHLOMET_SRD, 7, 61, 62, 0, NULL, 0);
    show();
    reset();
    collect_low();
    show();
}

/* An altered state, its phase at odds with what is being sent: every call refuses it 29. Put right, it is taken. */
static void altered(void)
{
    station.core.phase = CIHLOMET_REPLY_AWAITED; /* but no request is unconfirmed */
    slot(5000);
    station.core.phase = CIHLOMET_IDLE;
    slot(5000);
}

/* ---- Frames. */

/* Reads a string of octets as one frame: first the refusal number, then the form, then the fields that it has. */
static void read_frame(const uint8_t *octets, size_t count)
{
    struct cihlomet_frame f = cihlomet_read(octets, count);
    if (f.refused != 0) {
        printf("refused %u\n", f.refused);
    } else if (f.form == CIHLOMET_SHORT) {
        puts("short");
    } else if (f.form == CIHLOMET_TOKEN) {
        printf("token to %u from %u\n", f.destination, f.source);
    } else {
        printf("frame to %u from %u, FC %02X, access points", f.destination, f.source, f.control);
        say_points(f.to, f.from);
        printf(", data ");
        say_octets(octets + f.start, f.count);
        putchar('\n');
    }
}

/* FDL status, an SRD with access points, a token, a short acknowledgement, and a frame whose FCS differs. */
static void read_frames(void)
{
    static const uint8_t status[] = {0x10, 5, 2, 0x49, 0x50, 0x16}, damaged[] = {0x10, 5, 2, 0x49, 0x51, 0x16};
    static const uint8_t order[] = {0x68, 6, 6, 0x68, 0x87, 0x82, 0x6D, 60, 62, 1, 0xF1, 0x16};
    static const uint8_t token[] = {0xDC, 3, 2}, acknowledgement[] = {0xE5};
    read_frame(status, sizeof status);
    read_frame(order, sizeof order);
    read_frame(token, sizeof token);
    read_frame(acknowledgement, sizeof acknowledgement);
    read_frame(damaged, sizeof damaged);
}

/* Prints the octets that a writer wrote at the start of the output. */
static void say_written(struct cihlomet_written written)
{
    if (written.refused != 0)
        printf("refused %u", written.refused);
    else
        say_octets(out, written.count);
    putchar('\n');
}

/* A first SRD high from 2 to 7, a token, a short acknowledgement; and an output that is too short. */
static void write_frames(void)
{
    static const uint8_t data[] = {1};
    say_written(cihlomet_write(7, 60, 2, 62, 0x6D, data, sizeof data, OUT));
    say_written(cihlomet_token(5, 2, OUT));
    say_written(cihlomet_short(OUT));
    say_written(cihlomet_token(5, 2, out, 2));
}

/* Lists a capture. An output of CIHLOMET_LISTING_ROOM octets is long enough for any; a shorter one gives 0. */
static void list(const uint8_t *capture, size_t count)
{
    static uint8_t listing[CIHLOMET_LISTING_ROOM];
    size_t length = cihlomet_list(capture, count, listing, sizeof listing);
    fwrite(listing, 1, length, stdout);
}

int main(void)
{
    static const uint8_t capture[] = {0x00, 0x02, 0x00, 0x00, 0x00, 0x00, 0x03, 0x00, 0x00, 0x01, 0xF4,
                                      0x06, 0xDC, 0x03, 0x02, 0x10, 0x05, 0x02, 0x49, 0x50, 0x17};
    station_calls();
    altered();
    read_frames();
    write_frames();
    list(capture, sizeof capture);
    return 0;
}
