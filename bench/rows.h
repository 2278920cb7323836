/* Rows written, measured. */
#ifndef ROWS_H
#define ROWS_H

/* hb_write_row beside the plain writer (writer.h): nanoseconds a row, of every row of a net of 4,096 nodes, and of the
   same with filler in place of its kinds, which is refused. Both are compared at and around the ends of every range,
   with lent bytes of 0, 11, 12 and 13, and a table made row by row with the one that it was made of. Writes the figures
   to standard output and how far it is to standard error. Gives 1 where two differ or such a table is not accepted, as
   one without filler, else 0. */
int measure_rows(void);

#endif
