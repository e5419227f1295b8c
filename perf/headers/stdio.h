#ifndef STDIO_H
#define STDIO_H
#include <stddef.h>
typedef struct file FILE;
extern FILE *stdin, *stdout, *stderr;
#define EOF (-1)
int printf(const char *format, ...);
int fflush(FILE *f);
int putchar(int c);
int getchar(void);
size_t fread(void *to, size_t size, size_t n, FILE *f);
#endif
