/* The operations that are called, each on the design and the piece under test. */
#ifndef FUZZ_OPERATIONS_H
#define FUZZ_OPERATIONS_H

typedef void operation(void);

operation call_check, call_start, call_step, call_holds, call_replay, call_size, call_encode, call_parts, call_solve, call_decode,
    call_verdict, call_refute, call_owners;

/* The program stm in this process, and its readers of texts. */
operation call_stm, call_readers;

#endif
