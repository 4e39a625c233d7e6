/* A condition that does not hold is written to the console, which the root alone may do; then the space stops as breakpoint. */
#undef assert
#ifdef NDEBUG
#define assert(condition) ((void)0)
#else
#define assert(condition) ((condition) ? (void)0 : __assert_failed(#condition, __FILE__, __LINE__))
#endif

void __assert_failed(const char *condition, const char *file, int line) __attribute__((noreturn));
#ifndef static_assert
#define static_assert _Static_assert
#endif
