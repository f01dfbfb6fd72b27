#define assert(condition) _Dynamic_check(condition)
