/* The types of stdint.h that marrowkite.h and the yardstick of bench/ take, for a compiler that comes without C headers, as the kit's does. */
#ifndef MARROWKITE_STDINT_H
#define MARROWKITE_STDINT_H
typedef __UINT8_TYPE__ uint8_t;
typedef __UINT16_TYPE__ uint16_t;
typedef __UINT32_TYPE__ uint32_t;
typedef __UINT64_TYPE__ uint64_t;
#endif
