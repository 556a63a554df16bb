/* The one type that marrowkite.h takes from stddef.h, for a compiler that comes without C headers, as the kit's does. */
#ifndef MARROWKITE_STDDEF_H
#define MARROWKITE_STDDEF_H
typedef __SIZE_TYPE__ size_t;
#endif
