/* The router's lists, measured. */
#ifndef LISTS_H
#define LISTS_H

/* hb_vet beside one call of hb_listing that lists the same pairs, and beside the plain scan's vet (scan.h), on lists of
   the five nets: of every pair, 8,386,560 at 4,096 nodes, and of at most one pair in 84, which is some 100,000. Writes
   the figures to standard output and how far it is to standard error. Gives 1 where the library and the scan differ, or
   find another verdict than a list was made for, else 0. */
int measure_lists(void);

#endif
