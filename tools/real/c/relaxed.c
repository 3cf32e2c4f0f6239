/* Relaxed operators on vectors. */

typedef signed char i8 __attribute__((vector_size(16)));
typedef short i16 __attribute__((vector_size(16)));
typedef int i32 __attribute__((vector_size(16)));
typedef float f32 __attribute__((vector_size(16)));
typedef double f64 __attribute__((vector_size(16)));

i8 swizzled(i8 a, i8 b) { return __builtin_wasm_relaxed_swizzle_i8x16(a, b); }
f32 added(f32 a, f32 b, f32 c) { return __builtin_wasm_relaxed_madd_f32x4(a, b, c); }
f64 taken(f64 a, f64 b, f64 c) { return __builtin_wasm_relaxed_nmadd_f64x2(a, b, c); }
f32 least(f32 a, f32 b) { return __builtin_wasm_relaxed_min_f32x4(a, b); }
i8 picked(i8 a, i8 b, i8 c) { return __builtin_wasm_relaxed_laneselect_i8x16(a, b, c); }
i32 cut(f32 a) { return __builtin_wasm_relaxed_trunc_s_i32x4_f32x4(a); }
i16 product(i16 a, i16 b) { return __builtin_wasm_relaxed_q15mulr_s_i16x8(a, b); }
i16 dot(i8 a, i8 b) { return __builtin_wasm_relaxed_dot_i8x16_i7x16_s_i16x8(a, b); }
