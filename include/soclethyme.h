/* The library's C interface. Link libexport.a (rt lib in crates/export).
 *
 * Every call takes bytes and buffers of any length. A result is 0 for proper,
 * tables, written, read, yes, annotated and fresh, and 256 for none, no and
 * loop; otherwise it is the number of the refusal (README.md lists them), and
 * every lent buffer then holds what it held before. A part, a label or the
 * length of a joined sheet is a number from 65536 on. */
#ifndef SOCLETHYME_H
#define SOCLETHYME_H

#include <stddef.h>
#include <stdint.h>

#ifdef __cplusplus
extern "C" {
#endif

/* 0 for a proper sheet, which has at most 433 bytes, otherwise the refusal of
 * its first fault, 1 to 7, 15 or 21; 21 is a wrong prompt input of a PM. */
uint32_t soclethyme_check(const uint8_t *sheet, size_t sheet_len);

/* Finds the first tables that keep the sheet: writes their book at the front of
 * `book` and its exact annotation at the front of `annotation`, and leaves the
 * rests; or 256, where no tables that keep its ties keep the sheet, and writes
 * nothing. A buffer that is too short is refused, even if the result would be
 * none. */
uint32_t soclethyme_find(const uint8_t *sheet, size_t sheet_len,
                         uint8_t *book, size_t book_len,
                         uint16_t *annotation, size_t annotation_len);

/* Writes the book of the tables at the front of `book` and leaves the rest.
 * `tables` are exactly 272 bytes, a choice's entries in order at the front. */
uint32_t soclethyme_write(const uint8_t *sheet, size_t sheet_len,
                          const uint8_t *tables /* 272 */,
                          uint8_t *book, size_t book_len);

/* Reads a book: its entries to the front of `tables`, 0 in the rest. */
uint32_t soclethyme_read(const uint8_t *sheet, size_t sheet_len,
                         const uint8_t *book, size_t book_len,
                         uint8_t *tables /* 272 */);

/* Where the records of a process are in the book: end * 65536 + start, or the
 * refusal (a number below 65536). */
uint32_t soclethyme_part(const uint8_t *sheet, size_t sheet_len,
                         const uint8_t *book, size_t book_len, size_t process);

/* 0 where the annotation of the book is valid, 256 where it is not. In an
 * annotation 65535 is blank; a longer one is used at the front only. */
uint32_t soclethyme_judge(const uint8_t *sheet, size_t sheet_len,
                          const uint8_t *book, size_t book_len,
                          const uint16_t *annotation, size_t annotation_len);

/* Writes the exact annotation of the book at the front of `annotation` and
 * leaves the rest and `path`. A number is the most rejecting states on a path to
 * its vertex, the first state included.
 * Or 256, where a rejecting loop is reachable: then a run that shows it goes to
 * the front of `path`, and the rest and `annotation` are left. Each step is two
 * bytes: the direction, and the number of the edge used, ED and EX counted
 * together from 0 in the order of the sheet. The first lengths[0] steps, perhaps
 * none, lead from the initial vertex to a rejecting one, and the next lengths[1],
 * one or more, back to it. `lengths` are exactly two numbers, written on 256
 * only.
 * `path` needs four bytes for each composed state and automaton state, whatever
 * the result would be; 16384 bytes are always enough. */
uint32_t soclethyme_annotate(const uint8_t *sheet, size_t sheet_len,
                             const uint8_t *book, size_t book_len,
                             uint16_t *annotation, size_t annotation_len,
                             uint8_t *path, size_t path_len,
                             uint32_t *lengths /* 2: stem, cycle */);

/* A desk to try tables on, exactly five bytes: the states of processes 0 to 3,
 * then the environment mask. Places of processes that the sheet lacks may hold
 * anything, and no call reads or changes them.
 * Makes the desk fresh: 0 for each process of the sheet, and the root mask. */
uint32_t soclethyme_fresh(const uint8_t *sheet, size_t sheet_len,
                          uint8_t *desk /* 5 */);

/* Moves the desk on by one direction with the tables in the book, and returns
 * 65536 + the label of the new composed state, or the refusal (a number below
 * 65536). 14 is a direction, or a mask on the desk, with a bit outside the
 * environment variables, or a state at or above its process's bound. */
uint32_t soclethyme_step(const uint8_t *sheet, size_t sheet_len,
                         const uint8_t *book, size_t book_len,
                         uint8_t *desk /* 5 */, uint8_t direction);

/* Joins two sheets whose bytes before AU are the same: writes one sheet, which
 * tables keep exactly where they keep both, at the front of `sheet`, leaves the
 * rest, and returns 65536 + its length, or the refusal (a number below 65536):
 * that of the first sheet, then that of the second, then 19 where the bytes
 * before AU differ, 20 where both together have more than 16 states or 64 edges,
 * 8 where the buffer is too short. 433 bytes are always enough. */
uint32_t soclethyme_join(const uint8_t *first, size_t first_len,
                         const uint8_t *second, size_t second_len,
                         uint8_t *sheet, size_t sheet_len);

#ifdef __cplusplus
}
#endif

#endif
