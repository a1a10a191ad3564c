/* The kit's clang comes without headers: what is used here of this one. */
#pragma once
#define bool _Bool
#define true 1
#define false 0
