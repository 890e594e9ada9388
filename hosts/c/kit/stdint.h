/* What example.c needs of stdint.h, for a machine that has the kit's compiler and no C headers for x86-64. */
typedef __UINT8_TYPE__ uint8_t;
typedef __UINT32_TYPE__ uint32_t;
