/* An assertion that fails ends in a panic with code 16. Each has a place of its own in the image, so that its line can be told. */
#undef assert
#ifdef NDEBUG
#define assert(condition) ((void)0)
#else
#define assert(condition)                                                                                                                 \
	((condition) ? (void)0 : __extension__({                                                                                          \
		__asm__ volatile("ebreak # %0" : : "i"(__LINE__));                                                                        \
		__builtin_unreachable();                                                                                                  \
	}))
#endif
#ifndef ASSERT_H
#define ASSERT_H
#define static_assert _Static_assert
#endif
