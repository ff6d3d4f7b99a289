/* The calls of the C library's string.h that the sample programs and the tests make, for a compiler that comes without
 * its headers. */
#ifdef __cplusplus
extern "C" {
#endif
int strcmp(const char *a, const char *b);
int memcmp(const void *a, const void *b, __SIZE_TYPE__ n);
void *memset(void *to, int byte, __SIZE_TYPE__ n);
void *memcpy(void *to, const void *from, __SIZE_TYPE__ n);
void *memmove(void *to, const void *from, __SIZE_TYPE__ n);
#ifdef __cplusplus
}
#endif
