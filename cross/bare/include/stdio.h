/* For host/c/stack.c: text, %s, %u and %zu. */
#pragma once
int printf(const char *format, ...);
