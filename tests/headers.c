/* The headers and what their macros give, for compilers with many warnings; nothing here is run. A warning has to find
 * FAULT, `value` a conversion or in C++ `(int)value` an old cast, and Clang's the comma that COMMA brings. */
#include "tigbulode_laboratory.h"

#include "tigbulode.h"

TIGBULODE_ASSERT(image_length, TIGBULODE_IMAGE_LENGTH(16, 16) == TIGBULODE_IMAGE_BYTES);
TIGBULODE_ASSERT(trace_length, TIGBULODE_TRACE_LENGTH(TIGBULODE_MOST_SYMBOLS) == TIGBULODE_MOST_TRACE);

#ifndef FAULT
#define FAULT 0
#endif

int with_fault(long value);

int with_fault(long value) {
#ifdef COMMA
    value--, value--;
#endif
    return value < 0 ? 0 : FAULT;
}
