/* SPDX-License-Identifier: Apache-2.0 OR MIT */
/* The calls that the library as portable C has besides those of pulleynavy.h. Written by tools/portable_c. */
#ifndef PULLEYNAVY_PORTABLE_H
#define PULLEYNAVY_PORTABLE_H
#include <pulleynavy.h>
#ifdef __cplusplus
extern "C" {
#endif

/* Copies an input once. Until `pulleynavy_release` no call copies bytes that are within it, so nobody may change them. Returns false if
   there is no memory. Holding another input releases this one. */
bool pulleynavy_hold(const uint8_t *bytes, size_t bytes_size);

/* Forgets the input that is held. */
void pulleynavy_release(void);

#ifdef __cplusplus
}
#endif
#endif
