/*
 * The C entry points of the proved filter. Link target/staticlib/libcapi.a ('tools/build capi').
 *
 * docs/FORMAT.md says what packs, masks, routes, extracts and refusals are. A slice is a pointer and then its length, in elements.
 * Pointers are not null and aligned for their element, also where the length is 0. What is lent to be written (list, scratch,
 * output, answer) overlaps nothing else that is passed. Nothing is read or written past a length; nothing is allocated or kept.
 *
 * Every function takes any bytes and any numbers: a pack may be damaged in any way.
 */
#ifndef WURTZITELOOM_H
#define WURTZITELOOM_H

#include <stdbool.h>
#include <stddef.h>
#include <stdint.h>

#ifdef __cplusplus
extern "C" {
#endif

/* How the picked rows are gone through: by no row, by all, by runs of neighbours, or row by row. */
enum wurtziteloom_route {
    WURTZITELOOM_NONE = 0,
    WURTZITELOOM_ALL = 1,
    WURTZITELOOM_SLICES = 2,
    WURTZITELOOM_INDICES = 3
};

/* The pack that a refusal names. */
enum wurtziteloom_pack {
    WURTZITELOOM_MASK = 0,
    WURTZITELOOM_JOURNAL = 1
};

/*
 * Writes the extract of the journal's rows that the mask picks.
 *
 * mask      a pack with a kind 1 root; a slot that is true and not null picks the journal's row at that slot
 * journal   a pack of any kinds, with at least as many rows as the mask has slots
 * stated    true if the caller states how many slots are picked; the number is checked
 * count     the number stated; not looked at if stated is false
 * asked     true if the caller wants the list of picks stored
 * list      lent for the list: by route indices the picked slots, rising; by route slices start and end (one past the last) of each run
 *           of picked slots, rising; by the other routes no entry. Not looked at and not changed if asked is false
 * scratch   lent for working: for each runs node (kind 9) and each lists node (kinds 13 and 14) of the journal an eighth of its child's rows,
 *           rounded up, in bytes. What it holds does not matter
 * output    lent for the extract
 * answer    four numbers, written in every case
 *
 * Returns 0 on success. Then answer is: rows kept, slots of the mask, route, bytes of the extract. The extract stands at the start of
 * output; the scratch needed is zero; the rest of output, list and scratch is as it was.
 *
 * Otherwise returns the number of the refusal, 1 to 14 or 20. Then answer is: that number, the pack it names, 0, 0. Output, list and scratch
 * are as they were.
 */
uint64_t filter(const uint8_t *mask, size_t mask_len, const uint8_t *journal, size_t journal_len, bool stated, uint64_t count,
                bool asked, uint32_t *list, size_t list_len, uint8_t *scratch, size_t scratch_len, uint8_t *output,
                size_t output_len, uint64_t answer[4]);

/*
 * Counts a mask's picks and chooses the route, and stores the list if asked: what filter does before it looks at a journal.
 * The arguments are those of filter.
 *
 * Returns 0 on success. Then answer is: slots picked, slots of the mask, route, 0.
 * Otherwise returns the number of the refusal (1 to 9, 11, 12 or 20). Then answer is: that number, the pack it names (12 names the
 * journal, as in filter), 0, 0, and the list is as it was.
 */
uint64_t prepare(const uint8_t *mask, size_t mask_len, bool stated, uint64_t count, bool asked, uint32_t *list, size_t list_len,
                 uint64_t answer[4]);

/* The verdict on a journal: 0 if it is accepted, else the number of the refusal, 1 to 8 or 20. */
uint64_t check(const uint8_t *pack, size_t len);

/* The verdict on a mask: 0 if it is accepted, else the number of the refusal, 1 to 9 or 20. */
uint64_t check_mask(const uint8_t *mask, size_t len);

#ifdef __cplusplus
}
#endif

#endif
