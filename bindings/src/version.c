#include "mintlintel.h"

/* Makefile and quick say what the library is; one that is not proved says so here. */
#ifndef MINTLINTEL_SUFFIX
#define MINTLINTEL_SUFFIX ""
#endif

const char *mintlintel_version(void)
{
    return MINTLINTEL_VERSION MINTLINTEL_SUFFIX;
}
