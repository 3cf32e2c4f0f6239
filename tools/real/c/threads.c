/* Atomic operators, waiting and waking, and thread-local variables, on a shared memory. */

_Thread_local int own = 7;
int shared;
long long wide;
unsigned char small;
unsigned short middle;

int counted(int by) { return __atomic_fetch_add(&shared, by, __ATOMIC_SEQ_CST) + ++own; }
int exchanged(int with) { return __atomic_exchange_n(&shared, with, __ATOMIC_SEQ_CST); }

int swapped(int from, int to)
{
    return __atomic_compare_exchange_n(&shared, &from, to, 0, __ATOMIC_SEQ_CST, __ATOMIC_SEQ_CST);
}

long long wider(long long by)
{
    __atomic_fetch_and(&wide, by, __ATOMIC_SEQ_CST);
    __atomic_fetch_or(&wide, by, __ATOMIC_SEQ_CST);
    __atomic_fetch_xor(&wide, by, __ATOMIC_SEQ_CST);
    return __atomic_fetch_sub(&wide, by, __ATOMIC_SEQ_CST);
}

int smaller(void)
{
    __atomic_store_n(&small, 3, __ATOMIC_SEQ_CST);
    __atomic_fetch_add(&middle, 3, __ATOMIC_SEQ_CST);
    __atomic_thread_fence(__ATOMIC_SEQ_CST);
    return __atomic_load_n(&small, __ATOMIC_SEQ_CST) + __atomic_load_n(&middle, __ATOMIC_SEQ_CST);
}

void locked(int *lock)
{
    while (__atomic_exchange_n(lock, 1, __ATOMIC_ACQUIRE))
        __builtin_wasm_memory_atomic_wait32(lock, 1, -1);
    shared++;
    __atomic_store_n(lock, 0, __ATOMIC_RELEASE);
    __builtin_wasm_memory_atomic_notify(lock, 1);
}
