/* The calls of a source in C, so that it compiles and runs on a host.
 *
 * Ports are constants from 0 to 15. A host program defines cgra_in, which returns the next word of a port's input stream, or 0 past
 * its end, and cgra_out, which appends a word to a port's output stream.
 */
#ifndef CGRA_H
#define CGRA_H

#include <stdint.h>

int32_t cgra_in(int32_t port);
void cgra_out(int32_t port, int32_t word);

/* Takes the next word of the input stream of a port. */
static inline int32_t in(int32_t port)
{
    return cgra_in(port);
}

/* Appends a word to the output stream of a port. */
static inline void out(int32_t port, int32_t word)
{
    cgra_out(port, word);
}

/* The lesser of two words, as signed integers. */
static inline int32_t min(int32_t first, int32_t second)
{
    return second < first ? second : first;
}

/* The greater of two words, as signed integers. */
static inline int32_t max(int32_t first, int32_t second)
{
    return first < second ? second : first;
}

#endif
