// Stands before all else in the test of waits and in its stock: the test is asked before each atomic step, lock and wait, so that it can let another
// thread go on there.
#ifndef TESTS_STEPS_H
#define TESTS_STEPS_H

#ifndef _GNU_SOURCE
#define _GNU_SOURCE
#endif
#include <pthread.h>
#include <stdatomic.h>
#include <time.h>

void before_step(void);
void before_wait(void);
void before_timed_wait(const struct timespec *end);
int lock_in_steps(pthread_mutex_t *mutex);

#undef atomic_load
#undef atomic_store
#undef atomic_fetch_add
#undef atomic_fetch_sub
#undef atomic_fetch_or
#undef atomic_fetch_and
#define atomic_load(at) (before_step(), atomic_load_explicit(at, memory_order_seq_cst))
#define atomic_store(at, value) (before_step(), atomic_store_explicit(at, value, memory_order_seq_cst))
#define atomic_fetch_add(at, value) (before_step(), atomic_fetch_add_explicit(at, value, memory_order_seq_cst))
#define atomic_fetch_sub(at, value) (before_step(), atomic_fetch_sub_explicit(at, value, memory_order_seq_cst))
#define atomic_fetch_or(at, value) (before_step(), atomic_fetch_or_explicit(at, value, memory_order_seq_cst))
#define atomic_fetch_and(at, value) (before_step(), atomic_fetch_and_explicit(at, value, memory_order_seq_cst))
#define pthread_mutex_lock(mutex) lock_in_steps(mutex)
#define pthread_cond_wait(signal, mutex) (before_wait(), (pthread_cond_wait)(signal, mutex))
#define pthread_cond_timedwait(signal, mutex, end) (before_timed_wait(end), (pthread_cond_timedwait)(signal, mutex, end))

#endif
