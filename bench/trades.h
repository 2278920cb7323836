/* The trade with the road-graph tools, measured. */
#ifndef TRADES_H
#define TRADES_H

/* hb_dimacs_read and hb_dimacs_write beside the plain reader and writer (roads.h), on texts of 64 to 4,096 nodes:
   writes the figures to standard output and how far it is to standard error. Gives 1 where the two differ, else 0. */
int measure_trades(void);

#endif
