/*
 * Until when a server that renews its mastership may still pass on what its master tells, whether a commit stands whose answer got
 * lost, and which number a new client gets. Link out/libmastership.a of crates/mastership and the kit's c/liblibc_c.a.
 */
#ifndef MASTERSHIP_H
#define MASTERSHIP_H

#include <stdint.h>

#ifdef __cplusplus
extern "C" {
#endif

/*
 * The moment, in milliseconds by the server's clock, from which on it passes nothing on: `sent` is when it sent the last renewal that
 * was answered, `span` for how many milliseconds the other side keeps the mastership from that on. The other side's clock may gain
 * one part in sixteen, and a millisecond more since both count whole ones. So a span of 12,000 ms ends 11,294 ms after the sending.
 * 0 where either isn't below 2^53, or no moment is left.
 *
 * The clock is one that never goes back, and goes on while the machine sleeps (CLOCK_BOOTTIME on Linux).
 */
uint64_t mastership_end(uint64_t sent, uint64_t span);

/*
 * What became of a commit whose answer got lost, at a register that is changed by compare and swap alone. The keeper has the number
 * `keeper`, which no other keeper has. It gave the commit this turn, which none of its other transactions has, and sent it over the
 * revision `over` of the register. After that it read there which keeper wrote last, in which turn, and which revision that made.
 *
 * 1: the commit stands. 2: it wasn't done, and never will be. 3: it wasn't done, and may still be: the keeper ends it by a transaction
 * of the next turn, turn + 1, over the same revision, which changes nothing else; it sends that as often as it likes. 4: another keeper
 * has written, and the time of this one is over.
 */
uint32_t mastership_settled(uint64_t keeper, uint64_t turn, uint64_t over, uint64_t read_keeper, uint64_t read_turn, uint64_t read_revision);

/*
 * The number that a new client gets, of those that were taken: from `from` on, below `to`, of which `given` are given already. 0 where
 * none is left. Each is given once where numbers are taken by compare and swap, each time from where the last taking ended, and those
 * of a taking whose answer got lost aren't given.
 */
uint64_t mastership_number(uint64_t from, uint64_t to, uint64_t given);

#ifdef __cplusplus
}
#endif

#endif
