/* The program's two commands. Each gets the words after its name, and returns the exit status. */
#ifndef HOST_COMMANDS_H
#define HOST_COMMANDS_H

int command_write(int count, char **words);
int command_dump(int count, char **words);

#endif
