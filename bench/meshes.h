/* Clock meshes, measured. */
#ifndef MESHES_H
#define MESHES_H

/* hb_mesh beside the plain program (mesh.h): milliseconds of a call, over each mesh of 64 and of 256 nodes (nets.h);
   over tables of 8 and of 16 MiB whose rows are good and repeat, refused by 36, or by 10 where the last row is bad; and
   over every pair of 256 nodes, refused by 38. Both answers are compared there, over every part of the tables of small
   meshes from their beginning, over these with each bit turned, and over random rows. Writes the figures to standard
   output and how far it is to standard error. Gives 1 where two differ, a mesh or a table has not the answer that it
   was made for, or one of 0 to 10 and 36 to 38 never came up, else 0. */
int measure_meshes(void);

#endif
