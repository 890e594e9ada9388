/* What example.c needs of stdio.h, for a machine that has the kit's compiler and no C headers for x86-64. */
typedef struct file FILE;
FILE *fopen(const char *, const char *);
__SIZE_TYPE__ fread(void *, __SIZE_TYPE__, __SIZE_TYPE__, FILE *);
int fclose(FILE *);
int printf(const char *, ...);
