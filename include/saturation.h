/* The conclusions of a book, told facts and rules run to the smallest sets; whether an individual is shown to be of a
 * concept; the book itself, cleaned; what a run of it will need; and rows of derivations, listed and checked.
 *
 * Link with libzamoluvel.a (`tools/build zamoluvel`). The functions keep nothing between calls, allocate
 * nothing and may be called from several threads at once. A thread that calls them needs ZAMOLUVEL_STACK bytes of
 * stack, and for rows ZAMOLUVEL_ROWS_STACK; the default of many systems is enough for the first thread and not for others.
 * Both figures are measured, with the worst books that are known, and not proved. Each function is proved to meet its
 * contract (crates/zamoluvel) for whatever bytes, numbers and lists it is given.
 */
#ifndef ZAMOLUVEL_SATURATION_H
#define ZAMOLUVEL_SATURATION_H

#include <stddef.h>
#include <stdint.h>

#ifdef __cplusplus
extern "C" {
#endif

/* The bytes of stack that a call takes at most. */
#define ZAMOLUVEL_STACK 6815744u

/* The same for zamoluvel_saturate_rows, which takes more than the others. */
#define ZAMOLUVEL_ROWS_STACK 14680064u

/* How a run ends. */
#define ZAMOLUVEL_FINISHED 0u
#define ZAMOLUVEL_CLASH 1u
#define ZAMOLUVEL_SPENT 2u
#define ZAMOLUVEL_REFUSED 100u /* plus the number of the refusal, 1 to 11 or 13 to 17 */

/* Which list zamoluvel_named_part is asked for. */
#define ZAMOLUVEL_EDGES 0u
#define ZAMOLUVEL_PAIRS 1u

/* Runs a book.
 *
 *   book, book_len    the bytes of the book, any at all; they are read only. The sources and days of its statements
 *                     change nothing.
 *   budget            how many facts, types and edges together, may be kept: at most 1,000,000
 *   types, types_len  the type list, at least 2 * budget entries: (individual, class) for each type
 *   edges, edges_len  the edge list, at least 3 * budget entries: (role, first, second) for each edge
 *   pairs, pairs_len  the pair list: (lower, higher) for each two individuals of one class, told or found to be the same
 *   type_count, edge_count, pair_count
 *                     each receives a count; 0 where the end has none. They must not be null.
 *
 * Lengths are in entries. The three lists, the book and the three counts must not overlap; a list of no entries
 * may be any pointer that is not null.
 *
 * Returns
 *   ZAMOLUVEL_FINISHED     each list has its rows in ascending order from the first entry on, and 0 after them;
 *                          the three counts are the numbers of rows
 *   ZAMOLUVEL_CLASH        no world fits the book, as types clash or a statement denies what is concluded; type and edge
 *                          counts; every entry of every list is 0
 *   ZAMOLUVEL_SPENT        there are more facts than the budget; every entry of every list is 0
 *   ZAMOLUVEL_REFUSED + n  refused by number: 1 the budget, 2 the edge list, 3 the type list, 4 to 10 and 16 the book (5
 *                          also for a written source 0, first day 0 or last day 65,535, 9 also for a source above
 *                          1,023, 16 for a last day before the first), each of these with the lists as they were; 11
 *                          the pair list is too short, and every entry of every list is 0
 */
uint32_t zamoluvel_saturate(const uint8_t *book, size_t book_len, uint64_t budget, uint32_t *types,
                            size_t types_len, uint32_t *edges, size_t edges_len, uint32_t *pairs,
                            size_t pairs_len, uint32_t *type_count, uint32_t *edge_count, uint32_t *pair_count);

/* Runs a book for a reader: as zamoluvel_saturate would run the book without the statements that he may not read.
 * Two books that differ in such statements alone have equal ends and lists for him. (How long a run takes is no part
 * of that promise.)
 *
 *   reader            0 to 31
 *   table, table_len  1,024 words, read only: bit `reader` of word s says that he may read source s. Source 0, the
 *                     shared book, is open to all, whatever its word.
 *
 * All else as for zamoluvel_saturate; the table must not overlap with the lists or the counts. Further refusals, with
 * the lists as they were, behind 1 to 3 and before those of the book: 14 the reader is above 31, 15 the table has
 * another length. A fault in a statement that he may not read refuses the book for him too.
 */
uint32_t zamoluvel_saturate_for(const uint8_t *book, size_t book_len, uint64_t budget, uint32_t *types,
                                size_t types_len, uint32_t *edges, size_t edges_len, uint32_t *pairs,
                                size_t pairs_len, uint32_t reader, const uint32_t *table, size_t table_len,
                                uint32_t *type_count, uint32_t *edge_count, uint32_t *pair_count);

/* Runs a book as of a day: as zamoluvel_saturate would run the book without the statements that are not in force that day. A
 * statement is in force from its first day to its last, both among them; without a first day from day 0 on, without a last one
 * to day 65,535.
 *
 *   day     days from 1 January 2000 on. Every number of 16 bits is a day, and there is no number for none: a run without a day
 *           is zamoluvel_saturate. (A number above 65,535 is cut down by C without a word where it is passed; mind the
 *           conversion.)
 *   counts  receives the type, the edge and the pair count, in this order; 0 where the end has none. It must not be null.
 *
 * All else as for zamoluvel_saturate. A fault in a statement that is not in force refuses the book on every day.
 */
uint32_t zamoluvel_saturate_on(const uint8_t *book, size_t book_len, uint64_t budget, uint32_t *types,
                               size_t types_len, uint32_t *edges, size_t edges_len, uint32_t *pairs,
                               size_t pairs_len, uint16_t day, uint32_t counts[3]);

/* Runs a book for a reader as of a day: of the statements in force that day those count that he may read. Two books that differ
 * in statements alone that he may not read have equal ends and lists for him on every day.
 *
 * reader, table and refusals as for zamoluvel_saturate_for, day and counts as for zamoluvel_saturate_on.
 */
uint32_t zamoluvel_saturate_for_on(const uint8_t *book, size_t book_len, uint64_t budget, uint32_t *types,
                                   size_t types_len, uint32_t *edges, size_t edges_len, uint32_t *pairs,
                                   size_t pairs_len, uint32_t reader, const uint32_t *table, size_t table_len,
                                   uint16_t day, uint32_t counts[3]);

/* What zamoluvel_is and zamoluvel_is_for answer, beside the ends of a run that does not finish. */
#define ZAMOLUVEL_SHOWN 3u
#define ZAMOLUVEL_NOT_SHOWN 4u

/* Is this individual of that concept? Runs the book, as zamoluvel_saturate does, and judges the concept by what the run
 * concludes. Top is shown; Atomic where the type is concluded; Nominal where both are in one class, told or found,
 * each being with itself; SelfRestriction where the role leads the individual to itself; And where every part is shown, Or
 * where some part is; Some where the role leads to an individual for which the inner concept is shown. An inverse role leads
 * the other way. Every other kind is not shown, although it may hold.
 *
 *   book .. pairs_len    as for zamoluvel_saturate
 *   individual, concept  which ones, by number, any numbers at all; the concept by its place in the book
 *   counts, counts_len   the first three entries receive the type, edge and pair counts of the run, as far as there are
 *                        so many; others keep their values
 *
 * The book, the lists and the counts must not overlap.
 *
 * Returns
 *   ZAMOLUVEL_SHOWN        the individual is of the concept in every world that fits the book
 *   ZAMOLUVEL_NOT_SHOWN    it is not shown; where the book is plain and the concept is built of the kinds above alone, there is a
 *                          world that fits and in which the individual is not of the concept
 *                          After these two the lists and counts are those of the finished run.
 *   ZAMOLUVEL_CLASH, ZAMOLUVEL_SPENT, ZAMOLUVEL_REFUSED + n
 *                          as for zamoluvel_saturate, lists and counts included; further, with the lists as they were,
 *                          behind the book's own faults and before the run: 17 the book has no such individual or concept
 */
uint32_t zamoluvel_is(const uint8_t *book, size_t book_len, uint64_t budget, uint32_t *types, size_t types_len,
                      uint32_t *edges, size_t edges_len, uint32_t *pairs, size_t pairs_len, uint32_t individual,
                      uint32_t concept, uint32_t *counts, size_t counts_len);

/* The same for a reader, of the book without the statements that he may not read: reader and table as for
 * zamoluvel_saturate_for, with its refusals 14 and 15 before those of the book. */
uint32_t zamoluvel_is_for(const uint8_t *book, size_t book_len, uint64_t budget, uint32_t *types, size_t types_len,
                          uint32_t *edges, size_t edges_len, uint32_t *pairs, size_t pairs_len, uint32_t reader,
                          const uint32_t *table, size_t table_len, uint32_t individual, uint32_t concept,
                          uint32_t *counts, size_t counts_len);

/* The same as of a day, and for a reader as of a day: of the book with the statements in force that day alone, or with the
 * readable ones among them. day as for zamoluvel_saturate_on. */
uint32_t zamoluvel_is_on(const uint8_t *book, size_t book_len, uint64_t budget, uint32_t *types, size_t types_len,
                         uint32_t *edges, size_t edges_len, uint32_t *pairs, size_t pairs_len, uint16_t day,
                         uint32_t individual, uint32_t concept, uint32_t *counts, size_t counts_len);
uint32_t zamoluvel_is_for_on(const uint8_t *book, size_t book_len, uint64_t budget, uint32_t *types, size_t types_len,
                             uint32_t *edges, size_t edges_len, uint32_t *pairs, size_t pairs_len, uint32_t reader,
                             const uint32_t *table, size_t table_len, uint16_t day, uint32_t individual,
                             uint32_t concept, uint32_t *counts, size_t counts_len);

/* What zamoluvel_what_if writes as the end of the copy where none is run. */
#define ZAMOLUVEL_ALONE 5u

/* What would this statement do? Runs the book, as zamoluvel_saturate does; and where that finishes, what a run of a copy of the book
 * with the statement behind its others has and this run has not.
 *
 *   book, book_len            the bytes of the book, any at all; they are read only
 *   line, line_len            the bytes of one statement record, any at all; they are read only. A source and days change nothing.
 *   budget                    as for a run, one for both
 *   types .. pairs_len        the lists of the present run, as for zamoluvel_saturate
 *   more_types .. more_pairs_len
 *                             the lists for what is new: as long as for a run with this budget; the pair list for all pairs of the copy
 *   counts, counts_len        the first seven entries receive the type, edge and pair counts of the present run, the end of the copy,
 *                             and the type, edge and pair counts of what is new, as far as there are so many
 *
 * Nothing of these may overlap.
 *
 * Returns the present end, with its lists and counts, as zamoluvel_saturate does. Where that is not ZAMOLUVEL_FINISHED, the copy's
 * end is ZAMOLUVEL_ALONE and its lists keep their values. Else it is
 *   ZAMOLUVEL_FINISHED     the lists have what the copy's run has and the present one has not, in ascending order, and 0 after it
 *   ZAMOLUVEL_CLASH, ZAMOLUVEL_SPENT
 *                          the copy's run ends so; every entry of its lists is 0
 *   ZAMOLUVEL_REFUSED + n  2 and 3 its lists, 6 the book has 4,096 statements, 4, 5, 7, 8, 9 and 16 the record, 10 more bytes than
 *                          a record, each of these with its lists as they were; 11 its pair list, and every entry is 0
 */
uint32_t zamoluvel_what_if(const uint8_t *book, size_t book_len, const uint8_t *line, size_t line_len, uint32_t budget,
                           uint32_t *types, size_t types_len, uint32_t *edges, size_t edges_len, uint32_t *pairs,
                           size_t pairs_len, uint32_t *more_types, size_t more_types_len, uint32_t *more_edges,
                           size_t more_edges_len, uint32_t *more_pairs, size_t more_pairs_len, uint32_t *counts,
                           size_t counts_len);

/* The part of a list that the facts of a run fill: so many entries of it, from the first on.
 *
 *   end, edge_count, pair_count  what a run returned and wrote; after ZAMOLUVEL_SHOWN and ZAMOLUVEL_NOT_SHOWN
 *                                ask with ZAMOLUVEL_FINISHED
 *   named                        ZAMOLUVEL_EDGES or ZAMOLUVEL_PAIRS
 *
 * Returns 3 * edge_count or 2 * pair_count after ZAMOLUVEL_FINISHED, and 0 at any other end or for another list.
 */
size_t zamoluvel_named_part(uint32_t end, uint32_t edge_count, uint32_t pair_count, uint32_t named);

/* What zamoluvel_write answers, beside ZAMOLUVEL_REFUSED plus the number of the refusal, 4 to 10, 12 or 16. */
#define ZAMOLUVEL_WRITTEN 0u

/* Writes a book without the statements that repeat an earlier one in kind and fields, source and days among them; the first
 * of each stays, and the order. Header counts, concepts and all else stay as they are. A book without repeats comes out byte for byte, a
 * written book written again comes out the same, and every run of it ends as the original's does, lists included.
 *
 *   book, book_len  the bytes of the book, any at all; they are read only
 *   out, out_len    the bytes that the written book is laid into; no more are needed than the book has
 *   written         receives the length of the written book; 0 where it is refused. It must not be null.
 *
 * The book, the lent bytes and the length must not overlap; of no bytes the pointer may be any that is not null. A
 * call takes some 200 KB of stack.
 *
 * Returns
 *   ZAMOLUVEL_WRITTEN      the written book stands at the front of the lent bytes; those behind it keep their values
 *   ZAMOLUVEL_REFUSED + n  refused by number, with every lent byte as it was: 4 to 10 and 16 the book, as for a run; 12 the
 *                          book is accepted, and its written form has more bytes than are lent
 */
uint32_t zamoluvel_write(const uint8_t *book, size_t book_len, uint8_t *out, size_t out_len, size_t *written);

/* What zamoluvel_figure answers, beside ZAMOLUVEL_REFUSED plus the number of the refusal, 4 to 10 or 16. */
#define ZAMOLUVEL_FIGURE 0u

/* What a book will need: how many facts, types and edges together, its conclusions can have at most, without a run. Take
 * the book with all individuals made one; the figure is the individuals times the classes that its conclusions hold, plus
 * the square of the individuals times the roles. All statements count, whatever their sources and days. A run with a budget of at least the figure is never spent.
 *
 *   book, book_len  the bytes of the book, any at all; they are read only
 *   needed          receives the figure, at most 16,908,288; 0 where the book is refused. It must not be null, and not
 *                   point into the book.
 *
 * A figure above 1,000,000 is no budget: a run refuses it by 1. Such a book may be spent with the largest budget, and may
 * also use far less. The lists for a budget of the figure have 2 * figure and 3 * figure entries. A book without
 * individuals gives 0. A call takes some 200 KB of stack, and a time like that of the book's check.
 *
 * Returns
 *   ZAMOLUVEL_FIGURE       the figure is written
 *   ZAMOLUVEL_REFUSED + n  refused by number, 4 to 10 and 16 the book, as for a run; 0 is written
 */
uint32_t zamoluvel_figure(const uint8_t *book, size_t book_len, uint32_t *needed);

/* What zamoluvel_check_rows answers, beside ZAMOLUVEL_REFUSED plus the number of the refusal, 4 to 10 or 16. */
#define ZAMOLUVEL_JUDGED 0u

/* Where a row has no number. */
#define ZAMOLUVEL_NONE 4294967295u

/* Checks the rows of a derivation, from anyone: how many of them stand before the first that is not accepted.
 *
 *   book, book_len  the bytes of the book, any at all; they are read only
 *   rows, rows_len  the rows, nine entries each, any numbers at all; they are read only
 *   standing        receives how many rows stand; 0 where the book is refused. It must not be null.
 *
 * A row is: the rule, 1 to 8; the statement, counted from 0; three earlier rows, counted from 0; the kind of fact (0 type,
 * 1 edge, 2 clash, 3 joining); and the fact's three numbers (a type: individual, class; an edge: role, first, second; a
 * clash: none; a joining: two individuals, the lower number first). Each of them is ZAMOLUVEL_NONE where there is none. A row
 * is accepted exactly where it is laid out so and its fact follows by one use of the rule from the statement and the facts of
 * the rows that it names, in any order, individuals matched by number; the told-same classes, and for a clash all statements,
 * count as known. Rule 7 joins two fillers of one subject, from two edges. Rule 6 names no statement, and for each individual
 * that it changes to one outside its told-same class the joining row of the two. Rule 8 names a statement of the book or none;
 * a clash rests on types of one individual, or on what some statement denies: an edge by its row, two individuals by the
 * joining row of the two, and by no row where they are one number or told to be the same.
 * An incomplete last row is not accepted. Each row that stands has its fact in the smallest sets of the book, a joining row
 * that stands is a same pair, and a clash row that stands means that the book clashes.
 *
 * The book, the rows and the count must not overlap; of no entries the pointer may be any that is not null. A call takes
 * some 5 MB of stack.
 *
 * Returns
 *   ZAMOLUVEL_JUDGED       so many rows stand
 *   ZAMOLUVEL_REFUSED + n  the book is refused by number, 4 to 10 or 16, as for a run
 */
uint32_t zamoluvel_check_rows(const uint8_t *book, size_t book_len, const uint32_t *rows, size_t rows_len,
                              size_t *standing);

/* Runs a book as zamoluvel_saturate does, and lists a derivation of all that it concludes: it lends a row list in place of
 * the pair list.
 *
 *   book, book_len            the bytes of the book, any at all; they are read only
 *   budget                    as for a run
 *   types, types_len and so   the lent lists; 2 entries a type and 3 an edge are asked for as for a run, and 9 a row
 *   type_count and so         receive the counts, as for a run; they must not be null
 *
 * After ZAMOLUVEL_FINISHED and ZAMOLUVEL_CLASH the row list has one row for each fact of the smallest sets: type_count plus
 * edge_count of them, and a joining row for each same pair that is not in one told class; after a clash, where the type list
 * and the edge list are 0, the row of the clash stands behind them. 0s fill the rest; no row has rule 0. A row is laid out as zamoluvel_check_rows says, which accepts every one of them. Which derivation a fact has,
 * and the order of the rows, is free. At any other end the row list keeps its entries.
 *
 * Refused by 13, after spent, where the row list has less than 9 entries for each of these rows; and never by 11. At spent and
 * 13 the type list and the edge list are 0.
 *
 * A call takes ZAMOLUVEL_ROWS_STACK bytes of stack.
 */
uint32_t zamoluvel_saturate_rows(const uint8_t *book, size_t book_len, uint64_t budget, uint32_t *types, size_t types_len,
                                 uint32_t *edges, size_t edges_len, uint32_t *rows, size_t rows_len, uint32_t *type_count,
                                 uint32_t *edge_count, uint32_t *pair_count);

/* A book of the list of every small book: one class, one role, two individuals, the concept Atomic 0 and at most two
 * statements, none with a source or days. There are 1 + 73 + 5,329 of them, fewer statements first, then by their bytes.
 *
 *   position      which one, counted from 0; any number
 *   out, out_len  the lent bytes, any number of them; 37 are enough for every small book. Where there are none, out
 *                 may be any pointer that is not null.
 *
 * Returns the length of the book in bytes, 13 to 37; or 0 where there is none, as the position is past the last
 * (5,402). The book stands at the front of the lent bytes if all of it fits, that is, if the returned length is at
 * most out_len; lent bytes behind it keep their values. If it does not fit, or there is none, all keep theirs.
 */
size_t zamoluvel_small_book(uint64_t position, uint8_t *out, size_t out_len);

#ifdef __cplusplus
}
#endif

#endif
