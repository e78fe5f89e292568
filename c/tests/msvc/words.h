/* Words that MSVC does not have: one that is not left out for it is an error. */
#pragma GCC poison __attribute__ __extension__ __typeof__ __asm__ __thread __int128 __builtin_expect
