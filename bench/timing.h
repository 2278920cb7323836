/* How a call is timed. */
#ifndef TIMING_H
#define TIMING_H

/* The second least processor time of a call, in seconds, over calls for a fifth of a second or three calls, whichever
   is more: now and then a shared host's clock stands still for a call, so the least alone would not do. What is
   prepared before each call, where something is, is not timed. */
double second_least(void (*prepare)(void *), void (*call)(void *), void *with);

/* The same of two, each with its own `with`, in turn, so that what slows a shared host for a while slows both; and each
   the first in every other round. Over rounds for three tenths of a second or five rounds, whichever is more. */
void second_least_of_two(void (*prepare)(void *), void (*call)(void *), void *const with[2], double took[2]);

#endif
