/* What the cabinet's host program links: libcabinet.a, written by host/build. */
#ifndef CENDRAVIU_H
#define CENDRAVIU_H

#include <stddef.h>
#include <stdint.h>

/* The refusal number of a frame (document 01, 1 to 8), 0 if it is sound. Every length is taken, and nothing is read beyond
   it. `frame` points at `length` octets that nobody changes during the call; it is not NULL, not even for no octets. */
uint8_t cendraviu_frame_check(const uint8_t *frame, size_t length);

#endif
