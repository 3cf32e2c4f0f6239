/* Bulk copying and filling of memory, saturating conversions, sign extension, reference types, multiple results. */

typedef __externref_t object;
struct pair { int first; double second; };

void *copied(void *to, const void *from, unsigned long size) { return __builtin_memcpy(to, from, size); }
void *moved(void *to, const void *from, unsigned long size) { return __builtin_memmove(to, from, size); }
void *filled(void *to, int with, unsigned long size) { return __builtin_memset(to, with, size); }
int cut(double x) { return (int)x; }
unsigned long long cut_wide(float x) { return (unsigned long long)x; }
int extended(int x) { return (signed char)x + (short)(x >> 8); }
object handed(object x) { return x; }
static object objects[0];
object kept(int at) { return __builtin_wasm_table_get(objects, at); }
void put(int at, object x) { __builtin_wasm_table_set(objects, at, x); }
struct pair paired(int a, double b) { return (struct pair){a + 1, b * 2}; }
double unpaired(int a) { struct pair p = paired(a, 3); return p.first + p.second; }
__int128 product(long long a, long long b) { return (__int128)a * b + a; }
