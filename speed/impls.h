/* The implementations that the harness compares and times: the first is the reference, the second the other yardstick. */
#define IMPLS X(rust) X(clang) X(gcc) X(rattle)
