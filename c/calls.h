/* How many expectations of calls.c are not met, and the line of the first that is not. */
int calls_wrong(void);
extern int calls_first_wrong_line;
