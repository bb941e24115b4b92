/* What serve.c needs of stddef.h: the toolchain's clang comes without headers. */
typedef __SIZE_TYPE__ size_t;
