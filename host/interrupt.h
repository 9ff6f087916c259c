/* Signals that would end the host between a save and its report. */
#ifndef INTERRUPT_H
#define INTERRUPT_H

/* From here on signals wait; the one of a pipe that nobody reads does not, since it ends a report. */
void interrupts_wait(void);

/* Lets them through again, and what has waited ends the host. */
void interrupts_pass(void);

#endif
