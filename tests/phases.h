/* phases.h: the parts of the outside test. Each ends the program with a report at the first difference. */
#ifndef PHASES_H
#define PHASES_H

#include <stdbool.h>
#include <stddef.h>
#include <stdint.h>

struct call;

/* Document 01's examples, with the numbers that it prints. */
void try_examples(void);

/* Its sentences that no example shows, and those of document 02's requests, by their numbers in docs/TRACE.md. */
void try_sentences(void);
void try_requests(void);

/* Every screen point and those just outside, the column table, every scan line; those of the first and the last page alone. */
void try_points(void);
void try_columns(void);
void try_scan_lines(uint32_t pages);
void try_last_lines(uint32_t pages);

/* Operands at and past their edges, wrong lengths, damaged blocks, fresh chips. */
void try_edges(uint32_t pages);
void try_lengths(uint32_t pages);
void try_damage(uint32_t pages, uint64_t seed);
void try_fresh(uint32_t pages);

/* Video transfers and clocks at each counter and select; lines of the first and the last page put out whole; counters and selects
 * of every value in a block. */
void try_scans(uint32_t pages);
void try_put_out(uint32_t pages);
void try_stored_scans(void);

/* Which bytes a data write changes, as its value says: against data reads before it and after it. */
void try_changed(void);

/* Write-backs of each set of a block's words; memory beside the words that have a tag bit is not visited. */
void try_backs(void);

/* Random calls, valid and invalid: library against model. */
void try_random(uint32_t pages, uint64_t seed, unsigned long calls);

/* Notes what such a call meets of the display, before it is made; false where something was never met. */
void note_scan(const uint8_t *state, size_t memory_len, const struct call *call);
bool scanned_all(void);

/* Random calls that keep demand 3's premises: library against the flat picture. */
void try_pictures(uint32_t pages, uint64_t seed, unsigned long calls);

/* Each premise of demand 3 broken by itself: the calls are done, and memory is not the flat picture. */
void try_duties(void);

/* What the pictures drew with; false where something was never used. */
bool drew_all(void);

#endif
