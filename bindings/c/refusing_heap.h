/* Which of the library's next calls for memory is refused: 1 is the next one, 0 none. */
extern long refused_call;
