/* What example.c needs of stddef.h, for a machine that has the kit's compiler and no C headers for x86-64. */
#define NULL ((void *)0)
typedef __SIZE_TYPE__ size_t;
