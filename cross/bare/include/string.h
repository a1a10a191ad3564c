/* For host/c/stack.c and the replay. */
#pragma once
#include <stddef.h>
void *memset(void *to, int value, size_t count);
int memcmp(const void *left, const void *right, size_t count);
