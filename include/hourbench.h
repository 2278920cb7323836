/* Hourbench for C: the heaviest run in one routed net. Link libhourbench.a (docs/LINKING.md says how it is made),
   x86-64 Linux.

   Every function returns the refusal number, 0 where nothing is refused, and writes all 8 of `answer`:

       answer[0]     the refusal number, as returned
       answer[1]     the row that a refusal names, from 0; 0 where none is named
       answer[2]     for refusal 11, how many rows the ring has that this row closes, itself and rows before it: 2 for a
                     repeated row; otherwise 0
       answer[3..]   the operation's fields, in the order named at each function; zeros after them, and in a refusal

   A refusal changes no other memory. What each function promises is proved (docs/PROMISES.md, capi).

   What a caller owes, at every call:
   - No pointer is null, also where the length is 0: any address that suits the type does for nothing.
   - Each pointer is aligned for its type, and the elements that its length counts are there, initialised and readable;
     `answer` has 8. A parameter without `const` is writable.
   - Memory that is written (`heads`, `rows`, `row`, `marks` of claim, commit and abort, what the two hb_dimacs
     functions write, and `answer`) overlaps no other argument, and no other thread reads or writes it before the call
     returns. Memory that is read is not changed before the call returns.
   - There is stack for the operation's work arrays (docs/LINKING.md says how much); there is no heap, and nothing is
     kept between calls, so that calls from several threads do not meet.

   table     the branch table, version 1 or 2: 12 x n bytes, all numbers little-endian. The header, 12 bytes: the
             letters RTN; version, 16 bits; node count n, 16 bits, 1 to 4,096; one byte, 0; wire bound, 32 bits
             unsigned. Then n - 1 rows of 12 bytes, numbered from 0, one for each branch: node, node, 16 bits each,
             different and below n; length, 32 bits unsigned, at most 1,000,000; then
             - in version 1 the weight, 32 bits signed, -1,000,000 to 1,000,000;
             - in version 2 a cell kind, 0 to 63, and a count, 0 to 20,000, 16 bits unsigned each. The branch weighs
               count x score. Kinds 0 to 23 score, in order, 1, 2, 2, 3, 3, 4, 4, 5, 6, 6, 8, 8, 10, 10, 12, 12, 14, 14,
               16, 16, 18, 20, 22, 24; kinds 24 to 31 are filler and score 0; kinds 32 to 63 are blocked ground and
               score -50. Filler is no longer placed as spare: hb_write_row refuses these kinds; tables that have them
               are read as ever, and hb_accept gives how many such rows there are.
             The rows must join all nodes in a tree. A table of version 3 is no tree's but a clock mesh's, for hb_mesh
             alone: 12 + 12 x rows bytes. The header is the same, but that n is 1 to 256; then any number of rows, as
             version 1 has them. No two rows join the same two nodes, in either order; the rows join all nodes; and each
             branch lies on at most one ring. A ring is a closed walk along two or more different rows that meets no
             node twice before it closes
   marks     one number for each branch, in row order, n - 1 of them: the top bit says spent, the other fifteen bits
             keep the run. So 0 is free, 7 held by run 7, 32,775 spent by it (HB_RUN and HB_SPENT below). Run numbers
             are 1 to 32,766; 32,767 in a mark is the sign for "unknown". Any number is taken, and all but 0 count as
             marked. A marked branch weighs the lesser of 0 and its own weight; its length stays. Marks kept from a
             version before 1.5.0 are brought over once, by hb_convert
   texts     two texts of the shortest-path format of the 9th DIMACS Implementation Challenge, one with lengths and one
             with weights: lines, each ended by a line feed, whose fields are parted by one space. A line that begins
             with c is a comment; one line `p sp NODES ARCS` stands before all lines `a FROM TO NUMBER`. Nodes count
             from 1. Numbers have no leading zero, and a minus, in the weight text alone, only before a nonzero digit.
             Each branch is two opposite arcs with equal number, in any order
   changes   a change set over a table that is frozen: the letters RTN; version, 16 bits, 1 whichever the table has; one
             byte, 1, its sort; then entries of 14 bytes each: a row number, 16 bits, and the row's 12 bytes in the
             table's own version. Row numbers rise from entry to entry and are below n - 1. The changed table has each
             row that an entry names as the entry has it and all else as the table has it. Every answer of a function
             that takes a set equals that for the changed table: all of its rows are tested, so that a bad row that is
             replaced passes. A set of 6 bytes changes nothing; none of more than 6 + 14 x 4,095 = 57,336 bytes is
             good. Table and set are only read. Where its length is 0 a set may be the address of anything, and is 33
   window    two limits of a branch count, 32 bits unsigned, and two sums of a weight, 64 bits signed: any numbers, and
             nothing wraps. A pair is in the window if its path has count_low to count_high branches and weighs, under
             the marks, sum_low to sum_high, all four ends taken in. Its length and the bound play no part

   Refusal numbers, each given exactly when its condition holds and none before it in the operation's order does:
        1  under 12 bytes                         11  ring: the row whose ends earlier rows already join
        2  mark not RTN                           12  unused: no function gives it
        3  version neither 1 nor 2                13  marks are not n - 1 in number
        4  n is 0 or above 4,096                  14  run number 0 or above 32,766
        5  reserved byte not 0                    15  a node not below n, or both the same
        6  size not 12 x n                        16  no pair within the bound
        7  row names a node not below n           17  under 16 bytes for rows
        8  row joins a node to itself             18  path longer than the bound
        9  length out of range                    19  no free branch on the path
       10  weight out of range (versions 1, 3)    20  list of heads is not n long
                                                  21  no pair of exactly the bound's length
                                                  22  unknown cell kind: 64 or more (version 2)
                                                  23  count above 20,000 (version 2)
                                                  24  an old mark from 32,767 to 65,534
       25  a text: any other or misplaced line, no p line, a last line without its line feed, a number too big for its
           table field (node count 16 bits, length 32 bits, weight 32 bits signed), or a node outside 1 to the node
           count
       26  p line and arcs, or the two p lines, disagree
       27  an arc given twice, from a node to itself or without its equal opposite
       28  the two texts name different branches
       29  no room for the output
       30  the lower count limit is 0, or above the upper one, or the lower sum above the upper one
       31  no pair in the window
       32  the list's size is no multiple of 16
       33  the change set: letters not RTN, version or sort not 1, or a size other than 6 plus a multiple of 14
       34  the change set: a row number not above the one before it, or not below n - 1
       35  retired kind: 24 to 31, filler, which is not written
       36  the row joins two nodes that an earlier row joins, in either order (version 3)
       37  not all nodes are joined (version 3)
       38  a branch lies on two rings (version 3)
       39  lent bytes not 12 long
   Every function but hb_dimacs_read, hb_write_row and hb_mesh begins with 1 to 11; for rows of version 2, 22 and then
   23 stand where 10 does. With a change set 33 and then 34, which name no row, stand between 6 and 7, and 7 to 11 are
   the changed table's. hb_mesh begins with 1 to 10, of which three are others there: 3 is any other version than 3, 4
   is n 0 or above 256, and 6 is a size that is not 12 + 12 x rows. */
#ifndef HOURBENCH_H
#define HOURBENCH_H

#include <stddef.h>
#include <stdint.h>

/* The library's version; CHANGES.md says how it moves. */
#define HB_VERSION "1.11.0"
#define HB_VERSION_MAJOR 1
#define HB_VERSION_MINOR 11
#define HB_VERSION_PATCH 0

/* Of a mark: HB_RUN, the run by which its branch is held or spent, 0 where free; HB_SPENT, whether it is spent. */
#define HB_RUN(mark) ((mark) & 0x7fffu)
#define HB_SPENT(mark) (((mark) & 0x8000u) != 0)

#ifdef __cplusplus
extern "C" {
#endif

/* Is the table a tree? Fields: nodes, bound, filler: how many rows are of kinds 24 to 31, 0 in a version 1 table. */
uint8_t hb_accept(const uint8_t *table, size_t table_len, int64_t *answer);

/* The path between two nodes, in either order; one longer than the bound is shown. Fields: length, weight, hops.
   Then 13, 15. */
uint8_t hb_pair(const uint8_t *table, size_t table_len, const uint16_t *marks, size_t marks_len,
                uint16_t a, uint16_t b, int64_t *answer);

/* The heaviest run within the bound; of equal weight the shorter, then the earlier pair.
   Fields: low, high, length, weight. Then 13, 16. */
uint8_t hb_heaviest(const uint8_t *table, size_t table_len, const uint16_t *marks, size_t marks_len, int64_t *answer);

/* The heaviest run of exactly the bound's length; of equal weight the earlier pair. Fields: low, high, length, weight.
   Then 13, 21. */
uint8_t hb_heaviest_exact(const uint8_t *table, size_t table_len, const uint16_t *marks, size_t marks_len,
                          int64_t *answer);

/* Each node's head, into `heads`, which is n long. No fields. Then 20. */
uint8_t hb_heads(const uint8_t *table, size_t table_len, uint16_t *heads, size_t heads_len, int64_t *answer);

/* The pairs strictly after (from_low, from_high), within the bound and weighing at least `floor`, in pair order: as
   many as fit into `rows`, 16 bytes each, little-endian: node, node (16 bits each), length (32 bits), weight (64 bits
   signed). Bytes beyond the rows written stay unchanged. (0, 0) starts; go on from the last pair written until none is
   left. Fields: written, left. Then 13, 17. */
uint8_t hb_listing(const uint8_t *table, size_t table_len, const uint16_t *marks, size_t marks_len, int64_t floor,
                   uint16_t from_low, uint16_t from_high, uint8_t *rows, size_t rows_len, int64_t *answer);

/* The same for the pairs of exactly the bound's length. */
uint8_t hb_listing_exact(const uint8_t *table, size_t table_len, const uint16_t *marks, size_t marks_len, int64_t floor,
                         uint16_t from_low, uint16_t from_high, uint8_t *rows, size_t rows_len, int64_t *answer);

/* The pair in the window with the most branches; of equal count the earlier pair. Fields: low, high, count, weight.
   Then 13, 30, 31. */
uint8_t hb_window(const uint8_t *table, size_t table_len, const uint16_t *marks, size_t marks_len,
                  uint32_t count_low, uint32_t count_high, int64_t sum_low, int64_t sum_high, int64_t *answer);

/* The pairs in the window with as many branches as hb_window's, strictly after (from_low, from_high), in pair order and
   in the listing's rows and pages: a row's length is the wire length. The greatest count is that of all pairs in the
   window, whatever the start, so that every page of a list has the same. Where no pair is in the window the list is
   empty, which is no refusal. Fields: written, left. Then 13, 30, 17. */
uint8_t hb_window_list(const uint8_t *table, size_t table_len, const uint16_t *marks, size_t marks_len,
                       uint32_t count_low, uint32_t count_high, int64_t sum_low, int64_t sum_high,
                       uint16_t from_low, uint16_t from_high, uint8_t *rows, size_t rows_len, int64_t *answer);

/* Is `list`, rows of 16 bytes as the listing has them, in any order, our whole listing for this table, these marks and
   this floor? Yes exactly if it holds each pair of that listing once and nothing else; otherwise the first row at
   fault, one that is not, byte for byte, the listing's row of a pair, or that names the same pair as an earlier row;
   or, if no row is at fault, the first pair missing, in pair order. A row at fault and a pair missing are answers, no
   refusals. An empty list is a list too. Fields: verdict (1 yes, 2 a row at fault, 3 a pair missing); the row at fault,
   from 0; low, high of the pair missing; 0 where there is no such row or pair. Then 13, 32. */
uint8_t hb_vet(const uint8_t *table, size_t table_len, const uint16_t *marks, size_t marks_len, int64_t floor,
               const uint8_t *list, size_t list_len, int64_t *answer);

/* Each free branch of the path between a and b becomes held by the run. Fields: claimed. Then 13, 14, 15, 18, 19. */
uint8_t hb_claim(const uint8_t *table, size_t table_len, uint16_t *marks, size_t marks_len,
                 uint16_t run, uint16_t a, uint16_t b, int64_t *answer);

/* Each branch held, unspent, by the run becomes spent by it (commit: the mark's top bit is set) or free (abort); 0 is a
   proper result. What is spent never changes, also where its run's number is used again. Fields: changed.
   Then 13, 14. */
uint8_t hb_commit(const uint8_t *table, size_t table_len, uint16_t *marks, size_t marks_len,
                  uint16_t run, int64_t *answer);
uint8_t hb_abort(const uint8_t *table, size_t table_len, uint16_t *marks, size_t marks_len,
                 uint16_t run, int64_t *answer);

/* Brings over marks kept from a version before 1.5.0, where 1 to 65,534 was held by that run and 65,535 spent: once for
   each such set, before any other call takes it. It only reads the marks, which stay as they are: where it refuses
   nothing, they are from then on read as above. What was free or held by a run is so still, and 65,535 is spent by run
   32,767, "unknown". No fields. Then 13, 24, which names the first such row: let the version before commit or abort
   what its run holds, and call again. */
uint8_t hb_convert(const uint8_t *table, size_t table_len, const uint16_t *marks, size_t marks_len, int64_t *answer);

/* A table of version 1 with this wire bound, out of two texts: 12 bytes and 12 a branch, into `table`; the bytes beyond
   stay unchanged. A row takes the order of its nodes and its place from its branch's first arc in `lengths`. Field: the
   size. 25 to 29 in order, each over both texts before the next, and then 1 to 11 on the table made: 4 for a node count
   0 or above 4,096, 6 where the branches are not n - 1. 25 to 29 name no row. */
uint8_t hb_dimacs_read(const uint8_t *lengths, size_t lengths_len, const uint8_t *weights, size_t weights_len,
                       uint32_t bound, uint8_t *table, size_t table_len, int64_t *answer);

/* The two texts of a table of version 1: the p line, then each row's arc and its opposite. The bytes beyond a text stay
   unchanged. Read back, the two texts, each in its size, give the same table. Fields: the size of the text with
   lengths, that of the one with weights. In 1 to 11, 3 is any other version than 1; then 29, where there is no room for
   one of the texts: then nothing is written for the other either. */
uint8_t hb_dimacs_write(const uint8_t *table, size_t table_len, uint8_t *lengths, size_t lengths_len,
                        uint8_t *weights, size_t weights_len, int64_t *answer);

/* One row of a version 2 table, into `row`, which is 12 bytes long: the two nodes, length, kind and count, as a table
   has them. Any numbers are taken; what is written is a good row of every version 2 table that has both nodes. It is
   written with no table at hand, so that 7 is a node above 4,095 here. No fields. 7, 8, 9, 22, 35, 23, 39, in that
   order, all with row 0. */
uint8_t hb_write_row(uint16_t a, uint16_t b, uint32_t length, uint16_t kind, uint16_t count,
                     uint8_t *row, size_t row_len, int64_t *answer);

/* Of a clock mesh, a table of version 3: the greatest number of branches on any simple path, one that meets no node
   twice; and of the pairs of nodes that are the two ends of a path with so many, the first: low as small as can be,
   then high. One node alone gives 0 with ends 0 and 0. Lengths, weights and the bound play no part, but that lengths
   and weights are in range. Fields: branches, low, high. 1 to 10, with 3, 4 and 6 as this version has them, then 36,
   37, 38. 7 to 10 name a row, of a long table one above 65,535 too; 36 names the first that repeats a pair. It takes no
   change set. */
uint8_t hb_mesh(const uint8_t *table, size_t table_len, int64_t *answer);

/* With a change set: each as the function without _with, of the table with the set's rows written in. Its other memory
   and numbers, its fields and, but for 33 and 34, its refusals are as that function has them. */
uint8_t hb_accept_with(const uint8_t *table, size_t table_len, const uint8_t *changes, size_t changes_len,
                       int64_t *answer);
uint8_t hb_pair_with(const uint8_t *table, size_t table_len, const uint8_t *changes, size_t changes_len,
                     const uint16_t *marks, size_t marks_len, uint16_t a, uint16_t b, int64_t *answer);
uint8_t hb_heaviest_with(const uint8_t *table, size_t table_len, const uint8_t *changes, size_t changes_len,
                         const uint16_t *marks, size_t marks_len, int64_t *answer);
uint8_t hb_heaviest_exact_with(const uint8_t *table, size_t table_len, const uint8_t *changes, size_t changes_len,
                               const uint16_t *marks, size_t marks_len, int64_t *answer);
uint8_t hb_heads_with(const uint8_t *table, size_t table_len, const uint8_t *changes, size_t changes_len,
                      uint16_t *heads, size_t heads_len, int64_t *answer);
uint8_t hb_listing_with(const uint8_t *table, size_t table_len, const uint8_t *changes, size_t changes_len,
                        const uint16_t *marks, size_t marks_len, int64_t floor, uint16_t from_low, uint16_t from_high,
                        uint8_t *rows, size_t rows_len, int64_t *answer);
uint8_t hb_listing_exact_with(const uint8_t *table, size_t table_len, const uint8_t *changes, size_t changes_len,
                              const uint16_t *marks, size_t marks_len, int64_t floor,
                              uint16_t from_low, uint16_t from_high, uint8_t *rows, size_t rows_len, int64_t *answer);
uint8_t hb_window_with(const uint8_t *table, size_t table_len, const uint8_t *changes, size_t changes_len,
                       const uint16_t *marks, size_t marks_len, uint32_t count_low, uint32_t count_high,
                       int64_t sum_low, int64_t sum_high, int64_t *answer);
uint8_t hb_window_list_with(const uint8_t *table, size_t table_len, const uint8_t *changes, size_t changes_len,
                            const uint16_t *marks, size_t marks_len, uint32_t count_low, uint32_t count_high,
                            int64_t sum_low, int64_t sum_high, uint16_t from_low, uint16_t from_high,
                            uint8_t *rows, size_t rows_len, int64_t *answer);
uint8_t hb_vet_with(const uint8_t *table, size_t table_len, const uint8_t *changes, size_t changes_len,
                    const uint16_t *marks, size_t marks_len, int64_t floor, const uint8_t *list, size_t list_len,
                    int64_t *answer);
uint8_t hb_claim_with(const uint8_t *table, size_t table_len, const uint8_t *changes, size_t changes_len,
                      uint16_t *marks, size_t marks_len, uint16_t run, uint16_t a, uint16_t b, int64_t *answer);
uint8_t hb_commit_with(const uint8_t *table, size_t table_len, const uint8_t *changes, size_t changes_len,
                       uint16_t *marks, size_t marks_len, uint16_t run, int64_t *answer);
uint8_t hb_abort_with(const uint8_t *table, size_t table_len, const uint8_t *changes, size_t changes_len,
                      uint16_t *marks, size_t marks_len, uint16_t run, int64_t *answer);
uint8_t hb_convert_with(const uint8_t *table, size_t table_len, const uint8_t *changes, size_t changes_len,
                        const uint16_t *marks, size_t marks_len, int64_t *answer);

/* Of version 1 alone, as without a set: any other is 3, before 33. */
uint8_t hb_dimacs_write_with(const uint8_t *table, size_t table_len, const uint8_t *changes, size_t changes_len,
                             uint8_t *lengths, size_t lengths_len, uint8_t *weights, size_t weights_len,
                             int64_t *answer);

#ifdef __cplusplus
}
#endif

#endif
