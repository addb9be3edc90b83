/* bench IMPLEMENTATION OPERATION SIZE TIMES: runs one operation TIMES times, for its instructions to be
 * counted from outside. IMPLEMENTATION is ours or plain. OPERATION is read or write, with SIZE the octet
 * count of the frame (6 is SD1, from 11 on SD2 with two access points), or list of the capture on standard
 * input, with SIZE its octet count. */
#include "plain.h"
#include <stdio.h>
#include <stdlib.h>
#include <string.h>

enum { MOST_CAPTURE = 2 + 4096 * (5 + 255), MOST_FRAME = 255, SD1_COUNT = 6, SD2_WITHOUT_DATA = 11 };

struct implementation {
    const char *name;
    struct cihlomet_frame (*read)(const uint8_t *, size_t);
    struct cihlomet_written (*write)(uint8_t, uint8_t, uint8_t, uint8_t, uint8_t, const uint8_t *, size_t, uint8_t *,
                                     size_t);
    size_t (*list)(const uint8_t *, size_t, uint8_t *, size_t);
};

static const struct implementation implementations[] = {
    {"ours", cihlomet_read, cihlomet_write, cihlomet_list},
    {"plain", plain_read, plain_write, plain_list},
};

static uint8_t data[MOST_FRAME], frame[MOST_FRAME], capture[MOST_CAPTURE], listing[CIHLOMET_LISTING_ROOM];

/* Writes an SRD high from 2 to 7: SD1, or SD2 with access points 60 and 62. Gives whether all went well. */
static int write_times(const struct implementation *with, size_t size, long times)
{
    uint8_t to = size == SD1_COUNT ? CIHLOMET_NO_POINT : 60, from = size == SD1_COUNT ? CIHLOMET_NO_POINT : 62;
    size_t data_count = size == SD1_COUNT ? 0 : size - SD2_WITHOUT_DATA;
    int well = 1;
    while (times-- > 0)
        well &= with->write(7, to, 2, from, 0x6D, data, data_count, frame, sizeof frame).count == size;
    return well;
}

static int read_times(const struct implementation *with, size_t size, long times)
{
    int well = write_times(with, size, 1);
    while (times-- > 0)
        well &= with->read(frame, size).form == CIHLOMET_FRAME;
    return well;
}

static int list_times(const struct implementation *with, size_t size, long times)
{
    int well = size <= MOST_CAPTURE && fread(capture, 1, size, stdin) == size;
    while (times-- > 0)
        well &= with->list(capture, size, listing, sizeof listing) != 0;
    return well;
}

static const struct {
    const char *name;
    int (*run)(const struct implementation *, size_t, long);
} operations[] = {{"read", read_times}, {"write", write_times}, {"list", list_times}};

int main(int argc, char **argv)
{
    for (size_t i = 0; argc == 5 && i < sizeof implementations / sizeof implementations[0]; i++)
        for (size_t o = 0; o < sizeof operations / sizeof operations[0]; o++)
            if (strcmp(argv[1], implementations[i].name) == 0 && strcmp(argv[2], operations[o].name) == 0)
                return operations[o].run(&implementations[i], strtoul(argv[3], NULL, 10), atol(argv[4])) ? 0 : 1;
    fprintf(stderr, "usage: bench ours|plain read|write|list SIZE TIMES\n");
    return 2;
}
