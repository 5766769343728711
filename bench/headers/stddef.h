/* The kit's compiler comes without headers: this much of the standard one is enough here. */
#ifndef BENCH_STDDEF_H
#define BENCH_STDDEF_H
typedef __SIZE_TYPE__ size_t;
#define NULL ((void *)0)
#endif
