/* A pairing: one dealing of field 1 and what its two ends make of it, by the library's calls. */
#ifndef PAIRING_H
#define PAIRING_H

#include <stddef.h>
#include <stdint.h>

enum { PAIRING_MOST = 4096 };

struct pairing {
    size_t outputs;                         /* n, at most PAIRING_MOST */
    uint8_t choices[PAIRING_MOST];          /* the noise end: u, as bytes */
    uint8_t noise_pads[16 * PAIRING_MOST];  /* the noise end: its pad at each index */
    uint8_t scalar_pads[32 * PAIRING_MOST]; /* the scalar end: the pads of messages 0 and 1 */
};

/* Deal so many outputs at random, and take all of them and their pads, in windows of any length. */
void make_pairing(struct pairing *p, size_t outputs);

#endif
