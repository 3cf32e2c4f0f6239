/* Arithmetic of all widths, memory, loops, switches, pointers to functions, strings, floats: the common parts of C. */

typedef unsigned int u32;
typedef unsigned long long u64;

static const char text[] = "caf\303\251 \"quoted\" \\ \t tab\n";
static int table[64];
double level = 0.1;
float ratio = 1e-3f;

__attribute__((import_module("host"), import_name("print"))) void host_print(const char *text, int length);

u32 collatz(u32 n)
{
    u32 steps = 0;
    while (n != 1 && steps < 1000) {
        n = n & 1 ? 3 * n + 1 : n / 2;
        steps++;
    }
    return steps;
}

u64 mixed(u64 a, u64 b)
{
    a ^= a >> 33;
    a *= 0xff51afd7ed558ccdULL;
    return (a % (b | 1)) + ((a << 7) | (b >> 57)) + __builtin_popcountll(a) + __builtin_clzll(b | 1) + __builtin_ctzll(a | 1);
}

int signs(signed char a, short b, long long c)
{
    return a + b + (int)(c >> 3) - (signed char)c;
}

double floats(double x, float y)
{
    double sum = level;
    for (int i = 0; i < 10; i++)
        sum += x * y / (i + 1) - __builtin_sqrt(sum) + __builtin_floor(x) + __builtin_copysign(y, -sum) + __builtin_fabs(x);
    return sum > 1e300 ? __builtin_inf() : sum < -1e300 ? __builtin_nan("") : sum + ratio;
}

long long cut(double x, float y)
{
    return (long long)x + (u32)y + (u64)x + (int)y;
}

int chosen(int which)
{
    switch (which) {
    case 0: return 17;
    case 1: return 4;
    case 2: host_print(text, sizeof text); return 1;
    case 3: return collatz(27);
    case 5: return -1;
    case 8: return 0x7fffffff;
    default: return which * 3;
    }
}

static int plus(int a, int b) { return a + b; }
static int minus(int a, int b) { return a - b; }
static int (*const operations[])(int, int) = {plus, minus};

int applied(int which, int a, int b) { return operations[which & 1](a, b); }

void sorted(int *items, int count)
{
    for (int i = 1; i < count; i++) {
        int item = items[i], j = i;
        for (; j > 0 && items[j - 1] > item; j--)
            items[j] = items[j - 1];
        items[j] = item;
    }
    for (int i = 0; i < 64 && i < count; i++)
        table[i] = items[i];
}

int total(int count, ...)
{
    __builtin_va_list list;
    int sum = 0;
    __builtin_va_start(list, count);
    while (count-- > 0)
        sum += __builtin_va_arg(list, int);
    __builtin_va_end(list);
    return sum;
}

int three(void) { return total(3, 1, 2, table[3]); }
