/* What serve.c needs of stdint.h: the toolchain's clang comes without headers. */
typedef __UINT8_TYPE__ uint8_t;
typedef __UINT64_TYPE__ uint64_t;
