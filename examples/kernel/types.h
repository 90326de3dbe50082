/* types.h: the types of this kernel, which has no headers but its own. eevdf.h takes them by EEVDF_TYPES. */
#ifndef TYPES_H
#define TYPES_H

typedef __SIZE_TYPE__ size_t;
typedef __UINTPTR_TYPE__ uintptr_t;
typedef __UINT8_TYPE__ uint8_t;
typedef __UINT16_TYPE__ uint16_t;
typedef __UINT64_TYPE__ uint64_t;
typedef __INT64_TYPE__ int64_t;

#endif
