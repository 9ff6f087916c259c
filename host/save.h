/* A table put into a file whole: written beside it under a name of its own, then renamed. */
#ifndef SAVE_H
#define SAVE_H

#include "place.h"
#include "scalebench.h"

#include <sys/types.h>

/*
 * Replaces the file at the place, which `old` is open on, by one with this table and with the attributes of the old one
 * (attributes.h). Returns the new file, open and locked; -1 with errno if that fails. ESTALE: the place holds another
 * file than `old`. ECANCELED: permissions or access list change meanwhile, or are not kept. Whenever the host or the
 * machine stops, the place has either file whole. Interrupts wait from the start of a save on, so that none leaves a
 * draft; the caller lets them through after the report.
 */
int save_over(const struct place *place, int old, const uint8_t *table);

/* Puts a file with this table and mode at a place that has none; EEXIST if it has one. Otherwise as save_over. */
int save_new(const struct place *place, mode_t mode, const uint8_t *table);

/*
 * Removes what killed saves have left in the folder: drafts of this user that no living host writes. No more than a
 * hundred drafts are looked at, so that this takes little time in any folder.
 */
void remove_strays(int folder);

/* Removes second names that hosts killed by the end of save_new have left of the file, which this host has locked. */
void remove_second_names(int folder, int locked);

#endif
