/* Tail calls, direct and through pointers. */

typedef int step(int n, int sum);

int odd(int n, int sum);
int even(int n, int sum)
{
    if (n == 0)
        return sum;
    __attribute__((musttail)) return odd(n - 1, sum + n);
}

int odd(int n, int sum)
{
    if (n == 0)
        return -sum;
    __attribute__((musttail)) return even(n - 1, sum ^ n);
}

step *const steps[] = {even, odd};

int begun(int n, int sum)
{
    __attribute__((musttail)) return steps[n & 1](n, sum);
}
