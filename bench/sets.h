/* Change sets, measured. */
#ifndef SETS_H
#define SETS_H

/* Each operation with a change set beside the same one on the changed table, on the five nets of 4,096 nodes, with sets
   of no entry, of one and of 4,095; also compared, not measured, with a set of 100, over tables of version 2, and with
   a set that makes a ring. Writes the figures to standard output and how far it is to standard error. Gives 1 where the
   two differ in their answers or in the memory lent to them, or refuse what they should not, else 0. */
int measure_sets(void);

#endif
