/* What include/mshelovat.h takes of this header; the kit has none. */
#ifndef HOST_STDDEF_H
#define HOST_STDDEF_H

typedef __SIZE_TYPE__ size_t;

#endif
