/* Aldwomp, a task monitor: runs one command list and writes its answers.
 *
 * The function is compiled from the proved crate `embed` (crates/embed): its code, *written and every byte of the answer
 * buffer are those of the model in crates/model, for every list and every buffer, a refused list too. Link with
 * crates/embed/out/libembed.a, which `rt lib` makes in crates/embed. It is for x86-64 Linux, on a processor of level x86-64-v2 or
 * above (it does not test that), and needs memcpy, memmove and memset alone.
 *
 * It allocates nothing, keeps nothing between calls and has no global data: each call runs its list from fresh, empty tables.
 * Any number of threads may call it at once, each with a buffer and a count of its own. It takes no lock, makes no system call
 * and always returns. It needs less than 64 KiB of stack (measured, not proved: docs/SPEED.md).
 */
#ifndef ALDWOMP_H
#define ALDWOMP_H

#include <stddef.h>
#include <stdint.h>

#ifdef __cplusplus
extern "C" {
#endif

/* What is returned. */
enum {
  ALDWOMP_RAN = 0,           /* the list ran, and each of its records has an answer */
  ALDWOMP_LIST_REFUSED = 35, /* the list does not frame */
  ALDWOMP_NO_ROOM = 36       /* the answer buffer has fewer than 74 bytes a record */
};

/* The shortest and the longest list, and the most records that a list can have, in bytes and in number. */
enum { ALDWOMP_LIST_LEAST = 9, ALDWOMP_LIST_MOST = 4096, ALDWOMP_RECORDS_MOST = 371 };

/* The bytes of the buffer that every record must have, and a buffer that is long enough for every list (371 * 74). */
enum { ALDWOMP_ANSWER_MOST = 74, ALDWOMP_OUT_ENOUGH = 27454 };

/* Runs the list of `list_length` bytes at `list`.
 *
 * List, numbers big-endian: 4-byte length of what follows it, version byte 1, 4-byte start value of the tick register, then the
 * records, each a 2-byte length of what follows it, a command byte, an 8-byte issuer and the operands.
 *
 * Answers, one for each record, one behind the other from the start of `out`: 2-byte length of what follows it, condition, action
 * (0 go on, 1 go to label, 2 abend), 2-byte label, 4-byte number, 0 to 64 bytes.
 *
 * Returns 0, 35 or 36. With 0, *written is the length of all answers, and the bytes of `out` behind them keep their values. With 35
 * or 36 nothing ran, *written is 0, and every byte of `out` keeps its value. 35 is tried first. A list of no records has no answers.
 *
 * The caller sees to this, and nothing checks it: no pointer is null, not even one of length 0; each is valid for its length, and
 * `written` is aligned; `out` overlaps neither `list` nor `written`, and `list` does not overlap `written`. */
uint32_t aldwomp_run(const uint8_t *list, size_t list_length, uint8_t *out, size_t out_length, size_t *written);

#ifdef __cplusplus
}
#endif

#endif
