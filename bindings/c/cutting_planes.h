/* Checks a cutting-planes proof from C: a text of assumptions, steps and pol lines in, a report with a line for each and totals out. The constraints
 * can also come from an OPB text, with the proof text behind it.
 *
 * The library is target/staticlib/libchecker.a, which `tools/archive` writes (x86-64 Linux). It needs nothing but C's memcpy and
 * memset:
 *
 *     cc program.c -I bindings/c target/staticlib/libchecker.a
 */
#ifndef CUTTING_PLANES_H
#define CUTTING_PLANES_H

#include <stddef.h>
#include <stdint.h>

#ifdef __cplusplus
extern "C" {
#endif

/* The longest text in bytes, of either kind. A longer one is no misuse: its report is "refused=2 byte=32768\n". */
#define CUTTING_PLANES_TEXT_BYTES 32768

/* The fewest words of a node table, and the fewest bytes of a report, that a call works with. More are allowed and never used. */
#define CUTTING_PLANES_NODE_WORDS 16384
#define CUTTING_PLANES_REPORT_BYTES 65536

/* Writes the report of a text and returns its length in bytes, which is at most report_length.
 *
 * 0 means that a table is too small (fewer than CUTTING_PLANES_NODE_WORDS words or CUTTING_PLANES_REPORT_BYTES bytes): then nothing was written,
 * to neither table. Every other call writes a report of at least one line, also for an empty text; a text that is refused has the one
 * line "refused=N byte=P". The report is ASCII, each of its lines ends with a line feed, and no byte 0 stands behind it.
 *
 * text    text_length bytes of any values. It is not changed, and need not end with a byte 0.
 * nodes   room to work in. What stands in it before a call changes nothing, and what stands in it after a call means nothing, so a table can
 *         be used for one call after another without being cleared.
 * report  where the report is written. The bytes behind the returned length are left as they were.
 *
 * No pointer may be null, also where its length is 0; nodes is aligned as a uint32_t is. The three may not overlap. The library keeps no
 * pointer after it returns, has no state of its own, calls no function that has, and allocates nothing: calls from several threads
 * at once are fine as long as no two of them share a table. A call took up to 123,600 bytes of stack on the
 * deepest texts, and on one with pol lines, for which it makes a larger table, up to 901,448; have 2 MB free.
 */
size_t cutting_planes_check(
    const uint8_t *text, size_t text_length,
    uint32_t *nodes, size_t nodes_length,
    uint8_t *report, size_t report_length);

/* Writes the report of an OPB text and the proof text behind it, and returns its length in bytes, which is at most report_length.
 *
 * Each constraint of the OPB text becomes an assumption, an = becomes two. Their ids are c1, c2 and so on; they have lines of their own, and
 * the proof text may cite them. The limits hold for both texts together, but for the 32,768 bytes, which each may have. With an empty OPB text the
 * report is the one that cutting_planes_check writes; with an empty proof text it is the OPB text's alone.
 *
 * The return value means what it means for cutting_planes_check: 0 where a table is too small, and then nothing was written. A refusal is
 * the one line "refused=N byte=P", where the byte counts in the text that is refused. The OPB text is judged first, and 50 and 51 are
 * refusals of it alone; for 2 to 5 and 7 the line does not say which text it is about. A call with an empty proof text does: it
 * refuses as this one where the OPB text is the reason, and else not at all.
 *
 * opb     opb_length bytes of any values, not changed.
 * text    text_length bytes of any values, not changed.
 * nodes, report  as for cutting_planes_check.
 *
 * No pointer may be null, also where its length is 0; nodes is aligned as a uint32_t is. opb and text are only read and may overlap each
 * other; nodes and report may overlap nothing. All else is as above. A call took up to 203,488 bytes of stack on the longest
 * and deepest texts without pol lines, and up to 969,048 with them; have 2 MB free.
 */
size_t cutting_planes_check_opb(
    const uint8_t *opb, size_t opb_length,
    const uint8_t *text, size_t text_length,
    uint32_t *nodes, size_t nodes_length,
    uint8_t *report, size_t report_length);

#ifdef __cplusplus
}
#endif

#endif
