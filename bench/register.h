/* Prints the lines of the register's calls. */
void register_lines(void);
