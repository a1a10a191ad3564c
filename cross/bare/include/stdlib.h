/* For host/c/stack.c. */
#pragma once
_Noreturn void exit(int status);
