/* The library's C functions: frames, the lister and a station. Every call answers for every input, by a number
 * where it refuses, and a refused call leaves all lent memory as it was. A buffer is lent for the call, as its
 * address and its octet count; a count of 0 may come with any address. What is lent to be written may not overlap
 * anything else that is lent. Nothing is kept between calls: the caller holds the station. */
#ifndef CIHLOMET_H
#define CIHLOMET_H
#include <stddef.h>
#include <stdint.h>

#ifdef __cplusplus
extern "C" {
#endif

/* ---- Frames
 *
 * refused is 0, or the first of these that holds:
 *   1  no octets
 *   2  first octet is no start
 *   3  SD2: fewer than four octets
 *   4  SD2: LE outside 4..249, repeats differ, or fourth octet not 68
 *   5  octet count is not the form's
 *   6  last octet not 16 (SD1..SD3)
 *   7  FCS differs
 *   8  SA address 127; token DA 127; 0x80 set in a token's or SD1's address
 *      (written: SA or a token's DA over 126, or DA over 127)
 *   9  FC not listed
 *  10  announced extension octet missing or out of range (written: access point out of range)
 *  11  DA address 127 on anything but SDN
 *  12  unit over 246
 *  13  output shorter than the frame
 * Reading gives 1 to 11, writing a frame 8 to 13, a token 8 and 13, a short acknowledgement 13. */

enum cihlomet_form { CIHLOMET_TOKEN = 1, CIHLOMET_SHORT = 2, CIHLOMET_FRAME = 3 };

enum {
    CIHLOMET_NO_POINT = 255,       /* in place of an access point: there is none */
    CIHLOMET_LISTING_ROOM = 139274 /* the least output that cihlomet_list takes */
};

/* What was read. Of a token destination and source hold, of a frame all fields; to and from are the access points of
 * destination and source; control is FC. The data are `count` octets of the string from `start` on. A field that
 * does not hold is 0, an access point that does not is CIHLOMET_NO_POINT; when refused, form is 0 too. */
struct cihlomet_frame {
    uint8_t refused, form, destination, to, source, from, control;
    size_t start, count;
};

/* What was written: `count` octets at the start of the output, behind which it is as it was; 0 when refused. */
struct cihlomet_written {
    uint8_t refused;
    size_t count;
};

/* Reads a string of octets as one frame. */
struct cihlomet_frame cihlomet_read(const uint8_t *octets, size_t octet_count);

/* Writes a frame with the FC `control`: SD1 if it has neither access point nor data, else SD2. */
struct cihlomet_written cihlomet_write(uint8_t destination, uint8_t to, uint8_t source, uint8_t from, uint8_t control,
                                       const uint8_t *data, size_t data_count, uint8_t *out, size_t out_count);

/* Writes a token. */
struct cihlomet_written cihlomet_token(uint8_t destination, uint8_t source, uint8_t *out, size_t out_count);

/* Writes a short acknowledgement. */
struct cihlomet_written cihlomet_short(uint8_t *out, size_t out_count);

/* Lists a capture as text. Gives the listing's octet count; behind it the output is as it was. An output under
 * CIHLOMET_LISTING_ROOM octets is refused by 0. */
size_t cihlomet_list(const uint8_t *capture, size_t capture_count, uint8_t *out, size_t out_count);

/* ---- A station
 *
 * The caller holds it as a struct cihlomet_station and two queues, each a row of 1 to 64 places with its data area.
 * Every call takes CIHLOMET_STATION(s) and answers the core to hold from then on, `s->core = answer.core`; the arrays
 * that it changes it changes in place. A refused call answers the core that it was given. Any numbers are taken as a
 * station; a state out of rule is refused.
 *
 * refused is 0, or the first of these that holds:
 *  20  start: setting, TS over 126 or set out of rule
 *  21  row length 0, over 64 or not as started; data not 246 a place
 *  22  output under 255 octets, or an update over 244
 *  29  a state with settings, TS or a set start would refuse, an address over 126, counts above its rows, a remembered
 *      reply over 255 octets, a phase at odds with what is being sent, or a number that means nothing
 *  29  hear, sent, slot: an unconfirmed record, in either row, that submit would refuse for itself
 *  23  submit: DA over 127, own, or 127 not for SDN
 *  24  submit: access point out of range, or destination 63 but for SDN
 *  25  submit: service other than SDA, SDN, SRD
 *  26  submit: data plus access points over 246
 *  30  submit: a retry limit over 15
 *  27  submit: every place in use
 *  28  collect: none confirmed
 *  29  collect: a status not named below
 * Start gives 20 and 21; submit 21, 29, 23 to 26, 30, 27; collect 21, 29, 28, 29; reset 21 and 29; hear, sent and slot
 * 21, 22 and 29. Times are bit times; the bit clock has 32 bits and may wrap. */

enum cihlomet_service { CIHLOMET_SDA = 3, CIHLOMET_SDN = 4, CIHLOMET_SRD = 12 };

enum cihlomet_status {
    CIHLOMET_OK = 0,
    CIHLOMET_UE = 1,
    CIHLOMET_RR = 2,
    CIHLOMET_RS = 3,
    CIHLOMET_DL = 8,
    CIHLOMET_NR = 9,
    CIHLOMET_DH = 10,
    CIHLOMET_RDL = 12,
    CIHLOMET_RDH = 13,
    CIHLOMET_NA = 16,
    CIHLOMET_DS = 17,
    CIHLOMET_WAITING = 255 /* not confirmed */
};

enum cihlomet_phase {
    CIHLOMET_IDLE = 0,
    CIHLOMET_REPLY_AWAITED = 1,
    CIHLOMET_SDN_GOING_OUT = 2,
    CIHLOMET_PASS_CHECKED = 3,
    CIHLOMET_PASS_TO_SELF = 4
};

enum {
    CIHLOMET_ADDRESSES = 127, /* 0..126; as an address, nobody */
    CIHLOMET_POINTS = 64,
    CIHLOMET_RECORD = 13,     /* octets of a row for each place */
    CIHLOMET_DATA = 246,      /* octets of a data area for each place: those of place n start at 246 n */
    CIHLOMET_LONGEST = 255,   /* the longest frame, and the least output of hear, sent and slot */
    CIHLOMET_MARK_UNKNOWN = 2 /* a frame count mark that is no bit */
};

/* A station's settings; `retries` is the retry limit of requests that ask for the station's. With TSM = 2 + 2 tset + tqui
 * a request or token waits Tid1, the longest of 33 + TSM, min_tsdr and tsdi; one that follows an SDN of the same hold
 * waits Tid2, the longer of 33 + TSM and max_tsdr. The slot time, which the caller keeps, is TSL = 2 ttd + 11 + TSM + the
 * longer of max_tsdr and Tid1. */
struct cihlomet_settings {
    uint32_t tset, tqui, min_tsdr, max_tsdr, ttd, ttr, retries, tsdi;
};

/* What a station's decisions go by. acceptance and before are the clocks at which this hold and the one before
 * began, begun how many began since the start or reset, counted to two. stranger is the sender of a first token,
 * 127 for none. served is the queue being served, 0 high and 1 low; sendings how often what is being sent went
 * out; sdn 1 if the last sending of the hold was an SDN, else 0. Of each queue: its places, the first in use, and
 * how many requests are confirmed and how many are not. source is whose request was answered, 127 for none, with
 * which bit, and length how many octets the remembered reply has. */
struct cihlomet_core {
    struct cihlomet_settings settings;
    uint32_t acceptance, before;
    uint8_t ts, ps, stranger, phase, served, sendings, sdn, begun;
    uint8_t high_places, high_first, high_confirmed, high_unconfirmed;
    uint8_t low_places, low_first, low_confirmed, low_unconfirmed;
    uint8_t source, bit;
    uint16_t length;
};

/* A station: beside the core the set of masters and the set it was started with, 1 for each address in it; the
 * frame count marks, the next bit for each address or CIHLOMET_MARK_UNKNOWN; the active access points, 1 for each
 * of 0..62, and at 63 for "none"; and the octets of the remembered reply. */
struct cihlomet_station {
    struct cihlomet_core core;
    uint8_t masters[CIHLOMET_ADDRESSES];
    uint8_t started[CIHLOMET_ADDRESSES];
    uint8_t marks[CIHLOMET_ADDRESSES];
    uint8_t points[CIHLOMET_POINTS];
    uint8_t memory[CIHLOMET_LONGEST];
};

/* A station as the first arguments of a call. */
#define CIHLOMET_STATION(s) (s)->core, (s)->masters, (s)->started, (s)->marks, (s)->points, (s)->memory

/* What start and reset answer. */
struct cihlomet_renewed {
    uint8_t refused;
    struct cihlomet_core core;
};

/* What submit answers: the place that the request took, 0 when refused. */
struct cihlomet_accepted {
    uint8_t refused, place;
    struct cihlomet_core core;
};

/* What collect answers: a request as it was submitted, its place's number, the length of the data that stand
 * there, the status, and the count of its sendings. The reference is the one that submit was given; the limit is the
 * one that the request went by, and asks is 1 if it asked for the station's, else 0. When refused these are 0, an
 * access point CIHLOMET_NO_POINT, and the status CIHLOMET_WAITING. */
struct cihlomet_collected {
    uint8_t refused, place, service, destination, to, from, length, status, count, limit, asks;
    uint32_t reference;
    struct cihlomet_core core;
};

/* A request that the station shows its caller: indicated is 1 and the fields are as those of struct
 * cihlomet_frame, with the data in the octets that were heard. Else all are 0, and an access point is
 * CIHLOMET_NO_POINT. */
struct cihlomet_indication {
    uint8_t indicated, control, destination, to, source, from;
    size_t start, count;
};

/* What hear, sent and slot answer: `length` octets at the start of the output are to be sent after `wait`, behind
 * which it is as it was; 0 and 0 if there is nothing to send. Sent and slot indicate nothing. */
struct cihlomet_answer {
    uint8_t refused;
    uint32_t wait;
    size_t length;
    struct cihlomet_indication indication;
    struct cihlomet_core core;
};

/* The standard settings: Tset 20, Tqui 0, min TSDR 20, max TSDR 400, TTD 1, TTR 10000, TSDI 0, and no retries: a
 * request that asks for the station's limit and is lost is confirmed NA after one sending. A caller who wants retries
 * sets them before it starts a station, or gives the request a limit of its own. */
struct cihlomet_settings cihlomet_standard(void);

/* Starts a station with a set of masters, active access points and rows of `high` and `low` places: fills started,
 * marks and memory. The core of a refused start is refused by every call. */
struct cihlomet_renewed cihlomet_start(struct cihlomet_settings settings, uint8_t ts, const uint8_t *masters,
                                       uint8_t *started, uint8_t *marks, const uint8_t *points, uint8_t *memory,
                                       size_t high, size_t low);

/* Submits a request to the high queue, or to the low one, whose row and data area are lent; to and from are the
 * access points of destination and source. The reference is the caller's own, of any value, and is handed back with
 * the confirmation. The request is sent at most `limit` times more, 0 to 15, or, where asks is not 0, as often as the
 * station's setting `retries` says; then the limit given is not looked at. */
struct cihlomet_accepted cihlomet_submit_high(struct cihlomet_core core, const uint8_t *masters,
                                              const uint8_t *started, const uint8_t *marks, const uint8_t *points,
                                              const uint8_t *memory, uint8_t service, uint8_t destination, uint8_t to,
                                              uint8_t from, uint32_t reference, uint8_t limit, uint8_t asks,
                                              const uint8_t *data, size_t data_count, uint8_t *row,
                                              size_t row_count, uint8_t *area, size_t area_count);
struct cihlomet_accepted cihlomet_submit_low(struct cihlomet_core core, const uint8_t *masters,
                                             const uint8_t *started, const uint8_t *marks, const uint8_t *points,
                                             const uint8_t *memory, uint8_t service, uint8_t destination, uint8_t to,
                                             uint8_t from, uint32_t reference, uint8_t limit, uint8_t asks,
                                             const uint8_t *data, size_t data_count, uint8_t *row,
                                             size_t row_count, uint8_t *area, size_t area_count);

/* Hands back the oldest confirmed request of a queue and frees its place. */
struct cihlomet_collected cihlomet_collect_high(struct cihlomet_core core, const uint8_t *masters,
                                                const uint8_t *started, const uint8_t *marks, const uint8_t *points,
                                                const uint8_t *memory, const uint8_t *row, size_t row_count,
                                                const uint8_t *area, size_t area_count);
struct cihlomet_collected cihlomet_collect_low(struct cihlomet_core core, const uint8_t *masters,
                                               const uint8_t *started, const uint8_t *marks, const uint8_t *points,
                                               const uint8_t *memory, const uint8_t *row, size_t row_count,
                                               const uint8_t *area, size_t area_count);

/* Confirms all unconfirmed requests DS and begins afresh with the set that was started with. */
struct cihlomet_renewed cihlomet_reset(struct cihlomet_core core, uint8_t *masters, const uint8_t *started,
                                       uint8_t *marks, const uint8_t *points, const uint8_t *memory, uint8_t *high,
                                       size_t high_count, uint8_t *high_data, size_t high_data_count, uint8_t *low,
                                       size_t low_count, uint8_t *low_data, size_t low_data_count);

/* A string of octets was heard. `room` says whether the caller has room for an indication, 0 for none. The updates
 * are the data that an SRD is answered with, high first; those of 0 octets are none. */
struct cihlomet_answer cihlomet_hear(struct cihlomet_core core, uint8_t *masters, const uint8_t *started,
                                     uint8_t *marks, const uint8_t *points, uint8_t *memory, uint32_t clock,
                                     uint8_t room, const uint8_t *update_high, size_t update_high_count,
                                     const uint8_t *update_low, size_t update_low_count, const uint8_t *octets,
                                     size_t octet_count, uint8_t *high, size_t high_count, uint8_t *high_data,
                                     size_t high_data_count, uint8_t *low, size_t low_count, uint8_t *low_data,
                                     size_t low_data_count, uint8_t *out, size_t out_count);

/* What the station gave to be sent has gone out. */
struct cihlomet_answer cihlomet_sent(struct cihlomet_core core, const uint8_t *masters, const uint8_t *started,
                                     uint8_t *marks, const uint8_t *points, const uint8_t *memory, uint32_t clock,
                                     uint8_t *high, size_t high_count, uint8_t *high_data, size_t high_data_count,
                                     uint8_t *low, size_t low_count, uint8_t *low_data, size_t low_data_count,
                                     uint8_t *out, size_t out_count);

/* The slot time expired. */
struct cihlomet_answer cihlomet_slot(struct cihlomet_core core, uint8_t *masters, const uint8_t *started,
                                     uint8_t *marks, const uint8_t *points, const uint8_t *memory, uint32_t clock,
                                     uint8_t *high, size_t high_count, uint8_t *high_data, size_t high_data_count,
                                     uint8_t *low, size_t low_count, uint8_t *low_data, size_t low_data_count,
                                     uint8_t *out, size_t out_count);

#ifdef __cplusplus
}
#endif

#endif
