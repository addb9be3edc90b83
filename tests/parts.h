/* The C functions of the crate `test_parts`: times, the ring, and the calls on a row. Every call
 * answers for every input, by a number of document 01 where it refuses, and a refused call leaves lent memory as it was.
 *
 * A row has 13 octets a place: service (3 SDA, 4 SDN, 12 SRD), destination, its access point, the source's access point
 * (255 for none), data length, status (255 waiting, else the reply's code, 16 NA or 17 DS), count of sendings, the four
 * octets of the reference, the lowest first, the retry limit, and whether the request asked for the station's (0 no, any
 * other yes; written as 0 or 1). Its data area has 246 octets a place. A queue goes by numbers: its places, the first in
 * use, how many requests are confirmed and how many are not. */
#ifndef PARTS_H
#define PARTS_H
#include <stddef.h>
#include <stdint.h>

/* The times that follow from settings, and the waits before a reply, after an SDN and before others; 0 when refused. */
struct parts_times {
    uint8_t refused;
    uint32_t tsm, tid1, tid2, tsl, tto, reply, after_sdn, other;
};

/* What a call on a row answers: the place that submit took, else 0, and the queue. */
struct parts_queue {
    uint8_t refused, place, first, confirmed, unconfirmed;
};

/* What collect answers: a record and its place's number, all 0 when refused, and the queue. */
struct parts_collected {
    uint8_t refused, place, service, destination, to, from, length, status, count, limit, asks, first, confirmed,
        unconfirmed;
    uint32_t reference;
};

/* Refusal 20. */
struct parts_times parts_reckon(uint32_t tset, uint32_t tqui, uint32_t min_tsdr, uint32_t max_tsdr, uint32_t ttd,
                                uint32_t ttr, uint32_t retries, uint32_t tsdi, uint8_t ts);

/* 1 if time is left, else 0. */
uint8_t parts_left(uint32_t clock, uint32_t acceptance, uint32_t ttr);

/* NS and PS of a station in a set of masters, 127 octets with 1 for each address in it; 255 for TS over 126. */
uint8_t parts_next(const uint8_t *masters, uint8_t ts);
uint8_t parts_previous(const uint8_t *masters, uint8_t ts);

/* A station enters the set, or leaves it: its place holds 1, or 0. An address over 126 changes nothing. */
void parts_enter(uint8_t *masters, uint8_t address);
void parts_remove(uint8_t *masters, uint8_t address);

/* Refusals 21, 29, 23 to 26, 30 and 27. The limit is looked at and stored as it is given, whether the request asks or
 * not: the station fills it before. */
struct parts_queue parts_submit(uint8_t ts, uint8_t places, uint8_t first, uint8_t confirmed, uint8_t unconfirmed,
                                uint8_t service, uint8_t destination, uint8_t to, uint8_t from, uint32_t reference,
                                uint8_t limit, uint8_t asks, const uint8_t *data, size_t data_count, uint8_t *row,
                                size_t row_count, uint8_t *area, size_t area_count);

/* Confirms the first unconfirmed request. Refusals 21, 29, 28 if there is none, 26 for data over 246. */
struct parts_queue parts_confirm(uint8_t places, uint8_t first, uint8_t confirmed, uint8_t unconfirmed, uint8_t status,
                                 uint8_t count, const uint8_t *data, size_t data_count, uint8_t *row, size_t row_count,
                                 uint8_t *area, size_t area_count);

/* Confirms all unconfirmed requests DS, the first with this count of sendings. Refusals 21, 29. */
struct parts_queue parts_drain(uint8_t places, uint8_t first, uint8_t confirmed, uint8_t unconfirmed, uint8_t count,
                               uint8_t *row, size_t row_count, uint8_t *area, size_t area_count);

/* Refusals 21, 29, 28, 29. */
struct parts_collected parts_collect(uint8_t places, uint8_t first, uint8_t confirmed, uint8_t unconfirmed,
                                     const uint8_t *row, size_t row_count, const uint8_t *area, size_t area_count);

/* The refusal of the queue and its unconfirmed records as frame, sent and slot give it: 21, 29 or 0. */
uint8_t parts_sound(uint8_t ts, uint8_t places, uint8_t first, uint8_t confirmed, uint8_t unconfirmed, const uint8_t *row,
                    size_t row_count, const uint8_t *area, size_t area_count);

#endif
