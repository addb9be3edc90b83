/* The plain C implementation: the library's calls by another prefix, and its answers. */
#ifndef PLAIN_H
#define PLAIN_H
#include "../include/cihlomet.h"

struct cihlomet_frame plain_read(const uint8_t *octets, size_t count);
struct cihlomet_written plain_write(uint8_t destination, uint8_t to, uint8_t source, uint8_t from, uint8_t control,
                                    const uint8_t *data, size_t data_count, uint8_t *out, size_t out_count);
struct cihlomet_written plain_token(uint8_t destination, uint8_t source, uint8_t *out, size_t out_count);
struct cihlomet_written plain_short(uint8_t *out, size_t out_count);
size_t plain_list(const uint8_t *capture, size_t count, uint8_t *out, size_t out_count);

#endif
