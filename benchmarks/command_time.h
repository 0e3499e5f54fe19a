/* The wall time of a command. */
#ifndef COMMAND_TIME_H
#define COMMAND_TIME_H

double seconds_now(void);

/* Runs a command, with what it writes thrown away, and gives its wall time in
   seconds. Ends the process if the command cannot be run or fails. */
double command_seconds(char *const words[]);

#endif
