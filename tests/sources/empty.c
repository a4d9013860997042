/* Nothing but a declaration that is used nowhere. */
typedef int nothing;
