/* Reading a policy text from C. Link target/staticlib/libtext.a, which examples/c/run writes. */
#ifndef POLICY_H
#define POLICY_H

#include <stddef.h>
#include <stdint.h>

/* 0 if the `length` bytes at `text` are a policy, else the number of their refusal, 1 to 9.
 * The bytes are only read, and nothing is kept of them. `text` is not null, also where `length` is 0. */
uint8_t policy_refusal(const uint8_t *text, size_t length);

#endif
