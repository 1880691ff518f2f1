/* Comes before each file of the house when that is compiled for course.c: each read or write without the lock is a point at which
 * another thread may go on. */
#ifndef POINTS_H
#define POINTS_H
#ifndef _GNU_SOURCE
#define _GNU_SOURCE
#endif
#include <voldazpe_house.h>

void course_point(const volatile void *at);

#undef VOLDAZPE_LOAD
#undef VOLDAZPE_STORE
#undef atomic_fetch_add
#undef atomic_fetch_sub
#undef atomic_fetch_or
#undef atomic_exchange
#define VOLDAZPE_LOAD(at) (course_point(at), atomic_load_explicit((at), memory_order_seq_cst))
#define VOLDAZPE_STORE(at, value) (course_point(at), atomic_store_explicit((at), (value), memory_order_seq_cst))
#define atomic_fetch_add(at, value) (course_point(at), atomic_fetch_add_explicit((at), (value), memory_order_seq_cst))
#define atomic_fetch_sub(at, value) (course_point(at), atomic_fetch_sub_explicit((at), (value), memory_order_seq_cst))
#define atomic_fetch_or(at, value) (course_point(at), atomic_fetch_or_explicit((at), (value), memory_order_seq_cst))
#define atomic_exchange(at, value) (course_point(at), atomic_exchange_explicit((at), (value), memory_order_seq_cst))

#endif
