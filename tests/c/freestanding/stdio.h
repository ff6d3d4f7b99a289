/* The calls of the C library's stdio.h that the sample programs make, for a compiler that comes without its headers. */
typedef struct file FILE;
extern FILE *stdin, *stdout, *stderr;
#ifdef __cplusplus
extern "C" {
#endif
int printf(const char *format, ...);
int fprintf(FILE *to, const char *format, ...);
FILE *fopen(const char *path, const char *mode);
__SIZE_TYPE__ fread(void *to, __SIZE_TYPE__ size, __SIZE_TYPE__ count, FILE *from);
__SIZE_TYPE__ fwrite(const void *from, __SIZE_TYPE__ size, __SIZE_TYPE__ count, FILE *to);
int fflush(FILE *of);
int ferror(FILE *of);
int fclose(FILE *of);
#ifdef __cplusplus
}
#endif
