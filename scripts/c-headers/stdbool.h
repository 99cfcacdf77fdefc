/* stdbool.h belongs to a compiler, not to the C library. The toolchain's clang comes without it, so it is here. */
#ifndef C_HEADERS_STDBOOL_H
#define C_HEADERS_STDBOOL_H

#ifndef __cplusplus
#define bool _Bool
#define true 1
#define false 0
#endif

#endif
