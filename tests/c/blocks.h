/* The memory that the library asks for, counted, and refused where a test wants it. Counts are of this thread. */
#ifndef BLOCKS_H
#define BLOCKS_H

/* How many blocks are in use. */
extern _Thread_local long blocks_in_use;

/* How many blocks and growths are still granted before one is refused; below 0: all are granted. */
extern _Thread_local long blocks_granted;

/* How many were refused. */
extern _Thread_local long blocks_refused;

#endif
