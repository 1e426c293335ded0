/* Run files of caption stations, checked by programs in C. Link crates/tinzurpa/out/libtinzurpa.a, and the kit's
   liblibc_c.a for its memory; the script `host` beside the README does both for examples/host.c. */
#ifndef TINZURPA_H
#define TINZURPA_H

#include <stddef.h>
#include <stdint.h>

#ifdef __cplusplus
extern "C" {
#endif

/* 0 where the bytes are a run file, else the number of their first fault: docs/RUN-FILES.md lists them. Of a run file the
   answer is 0, or 51, which stands for want of memory. At most `length` bytes are read, from `file` on, and none is
   changed. `file` must not be null, also where `length` is 0. */
uint32_t tinzurpa_check(const uint8_t *file, size_t length);

#ifdef __cplusplus
}
#endif

#endif
