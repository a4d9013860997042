/* A unit of three entries: itself, the function, its type. */
long answer(void) { return 42; }
