/* What a bare program here has of its surroundings: three calls of Linux, which qemu's user mode answers. */
#pragma once
#include <stddef.h>

long system_read(void *to, size_t size);
void system_write(const char *from, size_t size);
