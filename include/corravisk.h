/* Corravisk: the C interface. Every size_t and uint64_t has 64 bits.
 *
 * No function asks anything of its caller but that the pointers and lengths are true (no pointer is NULL, also where its length is 0)
 * and that what it writes overlaps nothing else that is handed to it. Each comes to an end on all inputs, and says what every number and byte lent to it holds afterwards
 * (docs/PROMISES.md). The numbers of refusals are document 01's. */
#ifndef CORRAVISK_H
#define CORRAVISK_H

#include <stddef.h>
#include <stdint.h>

#ifdef __cplusplus
extern "C" {
#endif

/* De-identifies one data set in Explicit VR Little Endian, of data_len bytes at data.
 * options: the option number; bit 0 Full Dates, 1 Modified Dates, 2 Patient Characteristics, 3 Device Identity, 4 Retain UIDs,
 * 5 Institution Identity. shift: days, -36500 to 36500, and 0 without Modified Dates. root: the UID root. study, site: the replacement
 * lists. ledger: slots of 64 bytes, the first `used` of them in use; hand the ledger and the new count on to the next data set of a batch.
 * out: the output buffer.
 * report: refusal number (0: done; 1 to 14: document 01's table), the offset of what is at fault (0 for 1 to 5, 13, 14 and where it is done),
 * the length written, the count of slots in use, and how many elements were kept, replaced, renamed and removed. After a refusal the
 * length and the four counts are 0 and the count in use is the one that was given.
 * Afterwards out is the data set and then zeros, or all zeros after a refusal; ledger is the slots in use and then zeros (after a
 * refusal those that were in use before), but a ledger with fewer slots than `used` is left as it was. */
void corravisk_deidentify(const uint8_t *data, size_t data_len, uint64_t options, int64_t shift,
    const uint8_t *root, size_t root_len, const uint8_t *study, size_t study_len, const uint8_t *site, size_t site_len,
    uint8_t *ledger, size_t ledger_len, uint64_t used, uint8_t *out, size_t out_len, uint64_t report[8]);

/* What happens to an element under an option number: `top` is 1 on the top level, anything else in an item; `tag` is group * 65536 + element;
 * `vr` is the VR's first letter + 256 * its second.
 * answer: 0 removed, 1 kept, 2 a sequence that is walked into, 3 emptied (a list's value, else nothing), 4 replaced (a list's value, else the
 * dummy), 5 renamed, 6 shifted, 7 refused with 11. Every number is taken: no refusal 1 is looked for. */
void corravisk_action(uint64_t options, uint64_t top, uint64_t tag, uint64_t vr, uint64_t answer[1]);

/* The attribute `tag` (group * 65536 + element) of the data set's top level.
 * answer: refusal number (0: none; 5: the data set is too long; 6 to 10: its first fault of shape), the fault's offset (0 for 5 and
 * where there is no fault), 1 if the attribute was found else 0, and where its part of the data set begins and how long it is
 * (0, 0 if not found). The part runs from after the element's length field to its end, an end mark included. Every number is taken
 * for a tag; one that no element can have is not found. */
void corravisk_view(const uint8_t *data, size_t data_len, uint64_t tag, uint64_t answer[5]);

#ifdef __cplusplus
}
#endif

#endif
