/* Memory that a caller gives a device, which lends blocks of it to the device and to its core. Plain C, and not proved. */
#ifndef GIVEN_H
#define GIVEN_H

#include <stddef.h>
#include <stdint.h>

struct mtl_given;

/* Lends from this memory, if so many bytes of it are left once its beginning is aligned; otherwise null. */
struct mtl_given *mtl_given_from(void *memory, size_t bytes, uint64_t needed);

/* A block of so many bytes, or null; one with what another had, which comes back then; and a block comes back. */
void *mtl_lend(struct mtl_given *given, size_t bytes);
void *mtl_lend_again(struct mtl_given *given, void *old, size_t bytes);
void mtl_take_back(void *block);

/* What the account takes, and what a block of so many bytes takes, with what stands before it. */
uint64_t mtl_given_head(void);
uint64_t mtl_lent(uint64_t bytes);

/* What the core's calls take memory from while it isn't null, in this thread: the allocator has no other way to know. */
#if __STDC_HOSTED__
extern __thread struct mtl_given *mtl_core_given __attribute__((tls_model("initial-exec")));
#else
extern struct mtl_given *mtl_core_given;
#endif

#endif
