/* Who may read and write a file. */
#ifndef ATTRIBUTES_H
#define ATTRIBUTES_H

/*
 * Gives the file, which only its owner may read and write, the owner, group, permissions and access list of another. An
 * owner that this user may not give is left; everything else is kept, or this returns 0 with errno. At no moment has
 * anybody a right to the file that he has not to the other; only this user keeps what he has open.
 */
int copy_attributes(int file, int model);

/*
 * Whether group, permissions and access list of two files are the same now; if not, returns 0 with errno, which is
 * ECANCELED if they differ.
 */
int same_attributes(int file, int model);

#endif
