/* The version of the library, which is that of the header beside it. */
#include "ndf.h"

uint32_t ndf_version(void) { return NDF_VERSION; }
