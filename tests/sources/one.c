/* One variable. */
int one = 1;
