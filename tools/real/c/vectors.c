/* Vectors of 128 bits, with the compiler's own vector types. */

typedef signed char i8 __attribute__((vector_size(16)));
typedef unsigned char u8 __attribute__((vector_size(16)));
typedef short i16 __attribute__((vector_size(16)));
typedef int i32 __attribute__((vector_size(16)));
typedef long long i64 __attribute__((vector_size(16)));
typedef float f32 __attribute__((vector_size(16)));
typedef double f64 __attribute__((vector_size(16)));

i8 bytes(i8 a, i8 b) { return (a + b) ^ (a - b) ^ (a << 3); }
i16 halves(i16 a, i16 b) { return a * b + (a >> 2); }
i32 words(i32 a, i32 b) { return (a * b & ~a) | (a > b); }
i64 longs(i64 a, i64 b) { return a * b - (a == b); }
f32 floats(f32 a, f32 b) { return a * b / (a + b) - a; }
f64 doubles(f64 a, f64 b) { return a * b / (a + b) - a; }
i8 shuffled(i8 a, i8 b) { return __builtin_shufflevector(a, b, 0, 16, 1, 17, 2, 18, 3, 19, 4, 20, 5, 21, 6, 22, 7, 23); }
i32 constant(i32 a) { return a + (i32){1, -2, 0x7fffffff, -0x7fffffff}; }
f32 converted(i32 a) { return __builtin_convertvector(a, f32); }
u8 fewest(u8 a, u8 b) { return __builtin_elementwise_min(a, b); }
int lane(i16 a) { return a[5] + (signed char)a[2]; }

float summed(const float *items, int count)
{
    f32 sum = {0, 0, 0, 0};
    for (int i = 0; i + 4 <= count; i += 4)
        sum += *(const f32 *)(items + i) * *(const f32 *)(items + i);
    return sum[0] + sum[1] + sum[2] + sum[3];
}
