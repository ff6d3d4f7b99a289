/* The size type that ebml.h names, for a compiler that comes without its headers. */
typedef __SIZE_TYPE__ size_t;
#define offsetof(type, field) __builtin_offsetof(type, field)
