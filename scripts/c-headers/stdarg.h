/* stdarg.h belongs to a compiler, not to the C library. The toolchain's clang comes without it, so it is here. */
#ifndef C_HEADERS_STDARG_H
#define C_HEADERS_STDARG_H

typedef __builtin_va_list __gnuc_va_list;
typedef __builtin_va_list va_list;
#define va_start(list, last) __builtin_va_start(list, last)
#define va_arg(list, type) __builtin_va_arg(list, type)
#define va_copy(to, from) __builtin_va_copy(to, from)
#define va_end(list) __builtin_va_end(list)

#endif
