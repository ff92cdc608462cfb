/* The commands of flux_floor. Each gets the words after its name, and returns the exit status. */
#ifndef HOST_FLOOR_COMMANDS_H
#define HOST_FLOOR_COMMANDS_H

int command_check(int count, char **words);
int command_show(int count, char **words);
int command_walk(int count, char **words);
int command_home(int count, char **words);
int command_trip(int count, char **words);
int command_audit(int count, char **words);

#endif
