/* tclocks.h - what a guest in C needs.
 *
 * Three rules differ from those of POSIX threads:
 *  1. A writable global outside every guard is private: each thread has a copy
 *     of its own, which starts as the file says.
 *  2. A global in the guard of lock L may be touched only while L is held, to
 *     read it too. Any other access ends the thread with fault 7.
 *  3. Locks are taken in ascending order, at most four at once (faults 11 and
 *     10). They may be released in any order.
 */
#ifndef TCLOCKS_H
#define TCLOCKS_H

#include <stddef.h>
#include <stdint.h>

#if !defined(__riscv) || __riscv_xlen != 32
#error "build for rv32im or rv32i, and ilp32"
#endif
#if defined(__riscv_compressed) || defined(__riscv_atomic) || defined(__riscv_flen)
#error "build for rv32im or rv32i: no other extension is there"
#endif

/* ---- guest calls ---- */

enum { TC_LOCK = 1, TC_UNLOCK = 2, TC_SLEEP = 3, TC_EXIT = 93 };

#define TC_INLINE static inline __attribute__((always_inline))

/* One ecall: its number in a7 (x17), its value and its answer in a0 (x10).
 * "memory" keeps the compiler from carrying a guarded value over a call, so
 * that guarded globals need no volatile. */
TC_INLINE uint32_t tc_call(uint32_t number, uint32_t value)
{
	register uint32_t a0 __asm__("a0") = value;
	register uint32_t a7 __asm__("a7") = number;
	__asm__ volatile("ecall" : "+r"(a0) : "r"(a7) : "memory");
	return a0;
}

/* Takes the lock. Answers 1 where it is broken: a thread ended while it held
 * the lock, so the guarded bytes may be half changed. Else 0. */
TC_INLINE uint32_t tc_lock(uint32_t lock)
{
	return tc_call(TC_LOCK, lock);
}

TC_INLINE void tc_unlock(uint32_t lock)
{
	(void)tc_call(TC_UNLOCK, lock);
}

/* Ends the block. blocks is 0 to 255. Held locks stay held. */
TC_INLINE void tc_sleep(uint32_t blocks)
{
	(void)tc_call(TC_SLEEP, blocks);
}

/* To the compiler a faulting instruction is undefined behaviour, so it may
 * drop or move plain stores before it. What stands before this call in the
 * source is stored before what stands after it. */
TC_INLINE void tc_barrier(void)
{
	__asm__ volatile("" : : : "memory");
}

/* ---- threads ---- */

/* TC_THREAD(name, argument, self) { ...; return code; }
 * defines a thread's body, and its entry name_entry, which calls the body and
 * exits with its result. The body alone would be no entry: a thread starts
 * with x1 = 0, so that its return would go to address 0 (fault 2). */
#define TC_THREAD(name, argument, self)                                       \
	uint32_t name(uint32_t, uint32_t);                                    \
	void name##_entry(void);                                              \
	__asm__(".pushsection .text." #name "_entry, \"ax\", @progbits\n"     \
	        ".balign 4\n"                                                 \
	        ".globl " #name "_entry\n"                                    \
	        #name "_entry:\n"                                             \
	        "\tcall " #name "\n"                                          \
	        "\tli a7, 93\n"                                               \
	        "\tecall\n"                                                   \
	        ".popsection\n");                                             \
	uint32_t name(uint32_t argument, uint32_t self)

/* ---- the note: threads and guards ---- */

/* Once in each guest, after all else:
 *
 *   TC_GUEST(TC_LIST(TC_RUN(worker, 5), TC_RUN(worker, 6)),
 *            TC_LIST(TC_GUARD(counter), TC_GUARD(table)))
 *
 * Thread 0 runs worker with the argument 5, thread 1 with 6. Lock 0 guards
 * counter, lock 1 guards table. TC_LIST() is the empty list. */
#define TC_LIST(...) __VA_ARGS__
#define TC_RUN(name, argument) { (uint32_t)name##_entry, (uint32_t)(argument) }
#define TC_GUARD(object) { (uint32_t)&(object), TC_GUARD_SIZE(object) }

/* An array of bytes or halves is given whole aligned words by TC_ALIGNED. */
#define TC_ALIGNED __attribute__((aligned(4)))

#define TC_GUARD_SIZE(object)                                                 \
	(sizeof(object) + 0 * sizeof(struct {                                 \
		_Static_assert(sizeof(object) >= 4 && sizeof(object) <= 65536 \
		               && sizeof(object) % 4 == 0,                    \
		               "a guard has 4 to 65536 bytes, in words");     \
		_Static_assert(__alignof__(object) % 4 == 0,                  \
		               "a guard begins at a multiple of 4");          \
		int unused; }))

#define TC_COUNT(...) (sizeof((const uint32_t[][2]){ __VA_ARGS__ }) / 8)

#define TC_GUEST(threads, guards)                                             \
	enum { tc_threads = TC_COUNT(threads), tc_guards = TC_COUNT(guards) };\
	_Static_assert(tc_threads >= 1 && tc_threads <= 32, "1 to 32 threads");\
	_Static_assert(tc_guards <= 32, "at most 32 guards");                 \
	__attribute__((section(".note.tclocks"), used, aligned(4)))           \
	static const struct {                                                 \
		uint32_t name_size, content_size, type;                       \
		char name[8];                                                 \
		uint32_t version, thread_count, guard_count;                  \
		uint32_t thread[tc_threads][2], guard[tc_guards][2];          \
	} tc_note = {                                                         \
		8, 12 + 8 * (tc_threads + tc_guards), 1, "TCLOCKS",           \
		tc_threads <= 16 && tc_guards <= 16 ? 1 : 2,                  \
		tc_threads, tc_guards, { threads }, { guards } };

#endif
