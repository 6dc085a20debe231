#ifndef INTTYPES_H
#define INTTYPES_H
#include <stdint.h>
#define PRIu32 __UINT32_FMTu__
#define PRIX32 __UINT32_FMTX__
#define PRIu64 __UINT64_FMTu__
#define PRIX64 __UINT64_FMTX__
#endif
