/* The check of one record of a day file, for C hosts. Link target/staticlib/librecord.a, which tools/c_library makes. */
#ifndef JASWIRKU_RECORD_H
#define JASWIRKU_RECORD_H

#include <stddef.h>
#include <stdint.h>

#ifdef __cplusplus
extern "C" {
#endif

/*
 * 0 where the `length` bytes at `bytes` are one well-formed record of 32 bytes, and else 10, the number of the
 * refusal "record malformed or short". The bytes are only read. `bytes` is not null, also where `length` is 0.
 */
uint32_t jaswirku_check_record(const uint8_t *bytes, size_t length);

#ifdef __cplusplus
}
#endif

#endif
