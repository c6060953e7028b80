/* The inline calls of the headers as functions of the shared library, for callers that cannot compile the headers. */
#define VBTF_INLINE __attribute__((used, visibility("default")))
#include "vbtf_open.h"
