/* The kit's clang comes without headers: what is used here of this one. */
#pragma once
typedef __SIZE_TYPE__ size_t;
#define NULL ((void *)0)
