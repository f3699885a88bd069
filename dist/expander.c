/*
 * Censerlotus 2.2.0 as one C99 file: all calls of expander.h, which lies beside it.
 *
 *     cc -O2 program.c expander.c
 *
 * A second back end from the same proved text. tools/c-file printed this from the lowered code of the crates, the form that their
 * proofs speak of, as the kit rattle-kit-13f keeps it. Neither that script nor your C compiler is proved; tests hold what comes out to a
 * plain implementation, and to the archive, which the kit makes of the same lowered code. Not to be edited.
 *
 * Any little-endian machine. gcc and clang make it fast with -O2; by -O3 clang 14 gains 3 % in dealings, gcc 12 nothing. Another compiler
 * has to inline the functions that are marked with INLINE by itself; -DINLINE=static leaves that to any, for sanitizers.
 *
 * Reading it: a function stands under its crate, file and line, and below those that it calls. usize has 64 bits on every machine. A
 * reference is an address in bytes, a slice is one with a number of elements, an enum is a union whose variants begin with the tag. No
 * operation on unsigned numbers wraps. Signed numbers are kept as unsigned ones of the same bits.
 *
 * A function that is written for several types stands here once for each, under the crate, file and line of its text; one of the kit's own
 * library stands under its name there. An enum of which no variant holds anything is its tag. A value of no content has no place in C, and
 * neither has a branch that the proofs exclude.
 */
#include "expander.h"
#include <stdbool.h>

#if !(defined __BYTE_ORDER__ && __BYTE_ORDER__ == __ORDER_LITTLE_ENDIAN__) && !defined _WIN32
#error "expander.c is for machines that keep words least byte first"
#endif

/* gcc packs the two words of a block into one register through memory: not with this. The cipher gains by what else is said here. */
#if defined __GNUC__ && !defined __clang__
#pragma GCC optimize("no-tree-slp-vectorize", "rename-registers", "no-schedule-insns2")
#endif
#ifdef INLINE
#elif defined __GNUC__
#define INLINE static inline __attribute__((always_inline))
#else
#define INLINE static inline
#endif

typedef struct {
    char *at;
    uint64_t count;
} slice;

#define SAME(name, one, other) typedef char same_##name[(one) == (other) ? 1 : -1]

/* The number that the 64 bits stand for, without a conversion that C leaves open. */
INLINE int64_t as_signed(uint64_t bits)
{
    return bits <= INT64_MAX ? (int64_t)bits : -1 - (int64_t)(UINT64_MAX - bits);
}

/* Of the C library, as <string.h> declares it, which a bare machine need not have: every compiler asks for it in any case. */
void *memcpy(void *to, const void *from, size_t count);

/* Layout: sizes and offsets of the header's structs, as the crates have them where addresses have 64 bits. */
#if SIZE_MAX > 0xffffffff
SAME(expander_two_lengths, sizeof(struct expander_two_lengths), 24);
SAME(expander_two_lengths_number, offsetof(struct expander_two_lengths, number), 0);
SAME(expander_two_lengths_first_written, offsetof(struct expander_two_lengths, first_written), 8);
SAME(expander_two_lengths_second_written, offsetof(struct expander_two_lengths, second_written), 16);
SAME(expander_one_length, sizeof(struct expander_one_length), 16);
SAME(expander_one_length_number, offsetof(struct expander_one_length, number), 0);
SAME(expander_one_length_written, offsetof(struct expander_one_length, written), 8);
SAME(expander_described, sizeof(struct expander_described), 96);
SAME(expander_described_number, offsetof(struct expander_described, number), 0);
SAME(expander_described_end, offsetof(struct expander_described, end), 4);
SAME(expander_described_field, offsetof(struct expander_described, field), 5);
SAME(expander_described_depth, offsetof(struct expander_described, depth), 8);
SAME(expander_described_branch_bits, offsetof(struct expander_described, branch_bits), 16);
SAME(expander_described_trees, offsetof(struct expander_described, trees), 24);
SAME(expander_described_terms, offsetof(struct expander_described, terms), 32);
SAME(expander_described_outputs, offsetof(struct expander_described, outputs), 40);
SAME(expander_described_leaves, offsetof(struct expander_described, leaves), 48);
SAME(expander_described_element_words, offsetof(struct expander_described, element_words), 56);
SAME(expander_described_label, offsetof(struct expander_described, label), 64);
SAME(expander_described_code_key, offsetof(struct expander_described, code_key), 80);
SAME(expander_amount, sizeof(struct expander_amount), 16);
SAME(expander_amount_number, offsetof(struct expander_amount, number), 0);
SAME(expander_amount_amount, offsetof(struct expander_amount, amount), 8);
SAME(expander_written_amount, sizeof(struct expander_written_amount), 16);
SAME(expander_written_amount_number, offsetof(struct expander_written_amount, number), 0);
SAME(expander_written_amount_element, offsetof(struct expander_written_amount, element), 8);
SAME(expander_label, sizeof(struct expander_label), 16);
SAME(expander_label_bytes, offsetof(struct expander_label, bytes), 0);
SAME(expander_stock, sizeof(struct expander_stock), 84);
SAME(expander_stock_callers, offsetof(struct expander_stock, callers), 0);
SAME(expander_stock_label, offsetof(struct expander_stock, label), 4);
SAME(expander_stock_next, offsetof(struct expander_stock, next), 20);
SAME(expander_stock_end, offsetof(struct expander_stock, end), 52);
SAME(expander_opened_stock, sizeof(struct expander_opened_stock), 88);
SAME(expander_opened_stock_number, offsetof(struct expander_opened_stock, number), 0);
SAME(expander_opened_stock_stock, offsetof(struct expander_opened_stock, stock), 4);
SAME(expander_drawn, sizeof(struct expander_drawn), 112);
SAME(expander_drawn_number, offsetof(struct expander_drawn, number), 0);
SAME(expander_drawn_first, offsetof(struct expander_drawn, first), 8);
SAME(expander_drawn_count, offsetof(struct expander_drawn, count), 16);
SAME(expander_drawn_stock, offsetof(struct expander_drawn, stock), 24);
SAME(expander_previewed, sizeof(struct expander_previewed), 112);
SAME(expander_previewed_number, offsetof(struct expander_previewed, number), 0);
SAME(expander_previewed_first, offsetof(struct expander_previewed, first), 8);
SAME(expander_previewed_count, offsetof(struct expander_previewed, count), 16);
SAME(expander_previewed_after, offsetof(struct expander_previewed, after), 24);
SAME(expander_run, sizeof(struct expander_run), 4104);
SAME(expander_run_phase, offsetof(struct expander_run, phase), 0);
SAME(expander_run_gate, offsetof(struct expander_run, gate), 4);
SAME(expander_run_wires, offsetof(struct expander_run, wires), 8);
SAME(expander_stepped, sizeof(struct expander_stepped), 4128);
SAME(expander_stepped_number, offsetof(struct expander_stepped, number), 0);
SAME(expander_stepped_written, offsetof(struct expander_stepped, written), 8);
SAME(expander_stepped_first_bit, offsetof(struct expander_stepped, first_bit), 16);
SAME(expander_stepped_second_bit, offsetof(struct expander_stepped, second_bit), 17);
SAME(expander_stepped_state, offsetof(struct expander_stepped, state), 20);
SAME(expander_round_state, sizeof(struct expander_round_state), 4096);
SAME(expander_round_state_wires, offsetof(struct expander_round_state, wires), 0);
SAME(expander_rounded, sizeof(struct expander_rounded), 4120);
SAME(expander_rounded_number, offsetof(struct expander_rounded, number), 0);
SAME(expander_rounded_written, offsetof(struct expander_rounded, written), 8);
SAME(expander_rounded_bits_written, offsetof(struct expander_rounded, bits_written), 16);
SAME(expander_rounded_state, offsetof(struct expander_rounded, state), 24);
SAME(expander_described_circuit, sizeof(struct expander_described_circuit), 48);
SAME(expander_described_circuit_number, offsetof(struct expander_described_circuit, number), 0);
SAME(expander_described_circuit_inputs, offsetof(struct expander_described_circuit, inputs), 8);
SAME(expander_described_circuit_gates, offsetof(struct expander_described_circuit, gates), 16);
SAME(expander_described_circuit_outputs, offsetof(struct expander_described_circuit, outputs), 24);
SAME(expander_described_circuit_ands, offsetof(struct expander_described_circuit, ands), 32);
SAME(expander_described_circuit_rounds, offsetof(struct expander_described_circuit, rounds), 40);
#endif

typedef struct {
    uint64_t field;
    uint64_t depth;
    uint64_t branch_bits;
    uint64_t trees;
    uint64_t terms;
    uint64_t outputs;
    uint64_t body;
} record_Layout;

typedef struct {
    record_Layout layout;
    slice roots;
    slice positions;
    slice values;
    slice delta;
    slice code_key;
    slice label;
} dealing_tests_input_Input;

typedef struct {
    uint64_t noise;
    uint64_t scalar;
} dealing_tests_input_Rooms;

enum { answer_Refusal_bad_field, answer_Refusal_bad_size, answer_Refusal_bad_length, answer_Refusal_bad_position, answer_Refusal_bad_noise, answer_Refusal_bad_delta, answer_Refusal_window_past_end, answer_Refusal_not_element, answer_Refusal_wrong_end, answer_Refusal_record_ends, answer_Refusal_bad_number, answer_Refusal_bytes_after, answer_Refusal_buffer_short, answer_Refusal_no_caller, answer_Refusal_share_spent, answer_Refusal_shares_above, answer_Refusal_bad_circuit, answer_Refusal_too_few_triples, answer_Refusal_amount_out_of_range, answer_Refusal_label_not_above, answer_Refusal_label_not_in_use };

typedef struct {
    uint8_t tag;
} answer_Refusal;

typedef struct {
    uint32_t number;
    uint64_t first_written;
    uint64_t second_written;
} answer_TwoLengths;

typedef struct {
    answer_Refusal m0;
} ErrResidual_answer_Refusal;

typedef union {
    struct { uint8_t tag; } ok;
    struct { uint8_t tag; answer_Refusal m1; } err;
} Result_unit_answer_Refusal;

typedef union {
    struct { uint8_t tag; } continue_;
    struct { uint8_t tag; ErrResidual_answer_Refusal m1; } break_;
} ControlFlow_ErrResidual_answer_Refusal_unit;

typedef struct {
    slice rest;
} Iter_uint64;

typedef struct {
    char *m0;
} dealing_tests_tests_fn_every_noise_all_Self_ref_uint64;

typedef union {
    struct { uint8_t tag; } none;
    struct { uint8_t tag; char *m1; } some;
} Option_ref_uint64;

typedef struct {
    uint64_t word;
} prime_prime_Prime;

typedef struct {
    uint64_t low;
    uint64_t high;
} field_element_Element;

typedef struct {
    uint64_t low;
    uint64_t high;
} field_block_Block;

typedef struct {
    uint8_t a[8];
} uint8_8;

SAME(uint8_8, sizeof(uint8_8), 8);

enum { record_End_noise, record_End_scalar };

typedef struct {
    uint8_t tag;
} record_End;

typedef struct {
    uint64_t a[40];
} uint64_40;

SAME(uint64_40, sizeof(uint64_40), 320);

typedef struct {
    uint64_40 a[8];
} uint64_40_8;

SAME(uint64_40_8, sizeof(uint64_40_8), 2560);

typedef struct {
    char *words;
} aes_sbox_Tables;

typedef struct {
    aes_sbox_Tables tables;
    char *keys;
} tree_walk_node_TreeCipher;

typedef struct {
    uint8_t a[256];
} uint8_256;

SAME(uint8_256, sizeof(uint8_256), 256);

typedef struct {
    uint8_t a[10];
} uint8_10;

SAME(uint8_10, sizeof(uint8_10), 10);

typedef struct {
    uint8_t a[4];
} uint8_4;

SAME(uint8_4, sizeof(uint8_4), 4);

typedef struct {
    uint8_4 a[4];
} uint8_4_4;

SAME(uint8_4_4, sizeof(uint8_4_4), 16);

typedef struct {
    uint8_4_4 a[11];
} uint8_4_4_11;

SAME(uint8_4_4_11, sizeof(uint8_4_4_11), 176);

typedef struct {
    uint64_t a[4];
} uint64_4;

SAME(uint64_4, sizeof(uint64_4), 32);

typedef struct {
    record_Layout layout;
    uint64_t position;
    uint64_t value;
    uint64_t base;
    uint64_t at;
} dealing_call_noise_Planned;

typedef struct {
    uint64_t branch_bits;
    uint64_t levels;
    uint64_t position;
    uint64_t at;
} tree_punctured_Punctured;

typedef struct {
    field_block_Block one;
    field_block_Block other;
} aes_blocks_Two_field_block_Block;

typedef struct {
    char *ptr;
    uint64_t len;
} Slots_uint8;

typedef struct {
    Slots_uint8 m0;
} tuple_Slots_uint8_unit_unit;

typedef struct {
    uint8_t a[16];
} uint8_16;

SAME(uint8_16, sizeof(uint8_16), 16);

typedef struct {
    uint32_t number;
    uint8_t end;
    uint8_t field;
    uint64_t depth;
    uint64_t branch_bits;
    uint64_t trees;
    uint64_t terms;
    uint64_t outputs;
    uint64_t leaves;
    uint64_t element_words;
    uint8_16 label;
    uint8_16 code_key;
} record_describe_Described;

typedef union {
    struct { uint8_t tag; } none;
    struct { uint8_t tag; char *m1; } some;
} Option_ref_uint8;

typedef union {
    struct { uint8_t tag; record_End m1; } ok;
    struct { uint8_t tag; answer_Refusal m1; } err;
} Result_record_End_answer_Refusal;

typedef struct {
    uint64_t position;
    uint64_t value;
    field_element_Element correction;
    uint64_t siblings;
} record_Tree;

typedef struct {
    record_Tree m0;
    uint64_t m1;
} tuple_record_Tree_uint64;

typedef union {
    struct { uint8_t tag; record_Layout m1; } ok;
    struct { uint8_t tag; answer_Refusal m1; } err;
} Result_record_Layout_answer_Refusal;

typedef struct {
    uint64_t m0;
    uint64_t m1;
} tuple_uint64_uint64;

typedef struct {
    char *m0;
} record_head_head_fn_read_field_tested_Self_ref_uint8;

typedef union {
    struct { uint8_t tag; tuple_uint64_uint64 m1; } ok;
    struct { uint8_t tag; answer_Refusal m1; } err;
} Result_tuple_uint64_uint64_answer_Refusal;

typedef union {
    struct { uint8_t tag; tuple_uint64_uint64 m1; } continue_;
    struct { uint8_t tag; ErrResidual_answer_Refusal m1; } break_;
} ControlFlow_ErrResidual_answer_Refusal_tuple_uint64_uint64;

typedef struct {
    char *m0;
} record_head_head_fn_read_size_tested_Self_ref_uint64;

typedef struct {
    char *m0;
} record_head_head_fn_read_branch_tested_Self_ref_uint64;

typedef union {
    struct { uint8_t tag; uint64_t m1; } ok;
    struct { uint8_t tag; answer_Refusal m1; } err;
} Result_uint64_answer_Refusal;

typedef union {
    struct { uint8_t tag; uint64_t m1; } continue_;
    struct { uint8_t tag; ErrResidual_answer_Refusal m1; } break_;
} ControlFlow_ErrResidual_answer_Refusal_uint64;

typedef union {
    struct { uint8_t tag; record_Layout m1; } continue_;
    struct { uint8_t tag; ErrResidual_answer_Refusal m1; } break_;
} ControlFlow_ErrResidual_answer_Refusal_record_Layout;

typedef struct {
    field_element_Element m0;
    uint64_t m1;
} tuple_field_element_Element_uint64;

typedef union {
    struct { uint8_t tag; tuple_record_Tree_uint64 m1; } ok;
    struct { uint8_t tag; answer_Refusal m1; } err;
} Result_tuple_record_Tree_uint64_answer_Refusal;

typedef struct {
    char *m0;
} record_reading_noise_fn_read_position_tested_Self_ref_uint64;

typedef struct {
    char *m0;
} record_reading_element_fn_read_value_tested_Self_ref_uint64;

typedef struct {
    char *m0;
} record_reading_element_fn_read_correction_tested_Self_ref;

typedef union {
    struct { uint8_t tag; tuple_field_element_Element_uint64 m1; } ok;
    struct { uint8_t tag; answer_Refusal m1; } err;
} Result_tuple_field_element_Element_uint64_answer_Refusal;

typedef union {
    struct { uint8_t tag; tuple_field_element_Element_uint64 m1; } continue_;
    struct { uint8_t tag; ErrResidual_answer_Refusal m1; } break_;
} ControlFlow_ErrResidual_answer_Refusal_tuple_field_element;

typedef union {
    struct { uint8_t tag; tuple_record_Tree_uint64 m1; } continue_;
    struct { uint8_t tag; ErrResidual_answer_Refusal m1; } break_;
} ControlFlow_ErrResidual_answer_Refusal_tuple_record_Tree;

typedef struct {
    char *m0;
} record_reading_element_fn_read_delta_tested_Self_ref_uint64;

typedef struct {
    slice source;
    record_Layout layout;
} ends_calls_accepted_NoiseRecord;

typedef union {
    struct { uint8_t tag; ends_calls_accepted_NoiseRecord m1; } ok;
    struct { uint8_t tag; answer_Refusal m1; } err;
} Result_ends_calls_accepted_NoiseRecord_answer_Refusal;

typedef struct {
    ends_calls_accepted_NoiseRecord record;
    uint64_t siblings;
    uint64_t at;
    uint64_t base;
    uint64_t left;
} ends_calls_trees_Trees;

typedef union {
    struct { uint8_t tag; uint64_t m1; } ok;
    struct { uint8_t tag; } err;
} Result_uint64_AllocError;

typedef union {
    struct { uint8_t tag; } none;
    struct { uint8_t tag; record_Tree m1; } some;
} Option_record_Tree;

typedef struct {
    uint64_t branch_bits;
    uint64_t levels;
    uint64_t bits;
    uint64_t from;
} tree_sums_range_Range;

typedef struct {
    tree_sums_range_Range range;
    uint64_t position;
    uint64_t at;
} tree_fill_range_Path;

typedef struct {
    tree_fill_range_Path below;
    tree_sums_range_Range beside;
    bool lower;
} tree_fill_range_Halves;

typedef struct {
    slice m0;
    slice m1;
} tuple_slice_uint64_slice_uint64;

typedef struct {
    slice source;
    record_Layout layout;
} ends_calls_accepted_ScalarRecord;

typedef union {
    struct { uint8_t tag; ends_calls_accepted_ScalarRecord m1; } ok;
    struct { uint8_t tag; answer_Refusal m1; } err;
} Result_ends_calls_accepted_ScalarRecord_answer_Refusal;

typedef struct {
    uint32_t number;
    uint64_t written;
} answer_OneLength;

typedef struct {
    uint64_t first;
    uint64_t count;
} code_Window;

typedef union {
    struct { uint8_t tag; slice m1; slice m2; } noise;
    struct { uint8_t tag; slice m1; } scalar;
} window_Accumulated;

typedef struct {
    uint64_t field;
    code_Window window;
} window_WindowRows;

typedef struct {
    uint64_t places;
    uint64_t terms;
    uint64_t strip;
} code_Shape;

typedef struct {
    aes_sbox_Tables tables;
    char *keys;
    code_Shape shape;
} code_places_row_Code;

typedef struct {
    uint64_t u;
    field_block_Block v;
    bool admitted;
} rows_row_Pair_uint64_field_block_Block;

typedef struct {
    slice noise;
    slice v;
} rows_noise_vectors_NoiseVectors;

typedef struct {
    uint8_4_4 a[2];
} uint8_4_4_2;

SAME(uint8_4_4_2, sizeof(uint8_4_4_2), 32);

typedef struct {
    slice w;
} rows_scalar_vector_ScalarVector;

typedef struct {
    uint64_t u;
    uint64_t v;
    bool admitted;
} rows_row_Pair_uint64_uint64;

typedef struct {
    prime_prime_Prime u;
    prime_prime_Prime v;
    bool admitted;
} rows_row_Pair_prime_prime_Prime_prime_prime_Prime;

typedef struct {
    uint64_t w;
    bool admitted;
} rows_row_Single_uint64;

typedef struct {
    prime_prime_Prime w;
    bool admitted;
} rows_row_Single_prime_prime_Prime;

typedef struct {
    char *ptr;
    uint64_t len;
} Slots_uint64;

typedef struct {
    Slots_uint64 m0;
} tuple_Slots_uint64_unit_unit;

typedef struct {
    uint64_t place;
    uint64_t word;
} code_places_row_Term;

typedef struct {
    record_Tree a[64];
} record_Tree_64;

SAME(record_Tree_64, sizeof(record_Tree_64), 2560);

typedef struct {
    uint64_t number;
    slice source;
    record_Layout layout;
    char *table;
    tree_walk_node_TreeCipher cipher;
} ends_bench_leaves_vector_Vector;

typedef struct {
    ends_calls_trees_Trees iter;
    uint64_t count;
} Enumerate_ends_calls_trees_Trees;

typedef struct {
    uint64_t m0;
    record_Tree m1;
} tuple_uint64_record_Tree;

SAME(record_Tree, sizeof(record_Tree), 40);

typedef union {
    struct { uint8_t tag; } none;
    struct { uint8_t tag; tuple_uint64_record_Tree m1; } some;
} Option_tuple_uint64_record_Tree;

typedef union {
    struct { uint8_t tag; record_Tree m1; } continue_;
    struct { uint8_t tag; } break_;
} ControlFlow_NoValue_record_Tree;

typedef struct {
    uint64_t place;
    uint64_t coefficient;
    uint64_t sum;
} ends_bench_entries_Pending;

SAME(ends_bench_entries_Pending, sizeof(ends_bench_entries_Pending), 24);

typedef struct {
    uint64_t at;
    uint64_t left;
} tree_walk_down_Start;

typedef struct {
    uint64_t branch_bits;
    uint64_t one;
    uint64_t other;
} ends_bench_leaves_walk_Levels;

typedef struct {
    aes_sbox_Tables tables;
    char *keys;
} pads_rule_rule_PadCipher;

typedef struct {
    uint8_t a[4096];
} uint8_4096;

SAME(uint8_4096, sizeof(uint8_4096), 4096);

typedef struct {
    uint32_t phase;
    uint32_t gate;
    uint8_4096 wires;
} circuit_run_StepState;

typedef struct {
    uint64_t inputs;
    uint64_t gates;
    uint64_t outputs;
    uint64_t ands;
    uint64_t body;
    uint64_t tail;
} circuit_Layout;

typedef struct {
    slice source;
    circuit_Layout layout;
} circuit_accepted_Circuit;

typedef struct {
    uint8_t role;
    bool waits;
    uint8_t far_first;
    uint8_t far_second;
} circuit_run_places_Asked;

typedef struct {
    circuit_accepted_Circuit circuit;
    circuit_run_places_Asked asked;
    slice shares;
    slice triples;
} circuit_step_tests_Step;

typedef struct {
    uint64_t gate;
    uint64_t first_wire;
    uint64_t second_wire;
    uint64_t ands;
    uint64_t next;
} circuit_run_places_Spot;

typedef union {
    struct { uint8_t tag; } none;
    struct { uint8_t tag; circuit_run_places_Spot m1; } some;
} Option_circuit_run_places_Spot;

typedef union {
    struct { uint8_t tag; Option_circuit_run_places_Spot m1; } going;
    struct { uint8_t tag; } finished;
} circuit_run_places_Run;

typedef struct {
    uint32_t number;
    uint64_t written;
    uint8_t first_bit;
    uint8_t second_bit;
    circuit_run_StepState state;
} circuit_run_Stepped;

typedef union {
    struct { uint8_t tag; circuit_accepted_Circuit m1; } ok;
    struct { uint8_t tag; answer_Refusal m1; } err;
} Result_circuit_accepted_Circuit_answer_Refusal;

typedef union {
    struct { uint8_t tag; circuit_Layout m1; } ok;
    struct { uint8_t tag; answer_Refusal m1; } err;
} Result_circuit_Layout_answer_Refusal;

typedef struct {
    char *m0;
    char *m1;
} circuit_gates_fn_read_within_tested_Self_ref_uint64_ref;

typedef union {
    struct { uint8_t tag; uint64_t m1; uint64_t m2; } xor;
    struct { uint8_t tag; uint64_t m1; uint64_t m2; } and;
    struct { uint8_t tag; uint64_t m1; } not;
} circuit_Gate;

typedef struct {
    circuit_Gate m0;
    uint64_t m1;
} tuple_circuit_Gate_uint64;

typedef union {
    struct { uint8_t tag; tuple_circuit_Gate_uint64 m1; } ok;
    struct { uint8_t tag; answer_Refusal m1; } err;
} Result_tuple_circuit_Gate_uint64_answer_Refusal;

typedef struct {
    char *m0;
} circuit_gates_fn_read_wire_tested_Self_ref_uint64;

typedef union {
    struct { uint8_t tag; tuple_circuit_Gate_uint64 m1; } continue_;
    struct { uint8_t tag; ErrResidual_answer_Refusal m1; } break_;
} ControlFlow_ErrResidual_answer_Refusal_tuple_circuit_Gate;

typedef union {
    struct { uint8_t tag; circuit_Layout m1; } continue_;
    struct { uint8_t tag; ErrResidual_answer_Refusal m1; } break_;
} ControlFlow_ErrResidual_answer_Refusal_circuit_Layout;

typedef union {
    struct { uint8_t tag; circuit_run_places_Run m1; } ok;
    struct { uint8_t tag; answer_Refusal m1; } err;
} Result_circuit_run_places_Run_answer_Refusal;

typedef union {
    struct { uint8_t tag; } none;
    struct { uint8_t tag; circuit_run_places_Run m1; } some;
} Option_circuit_run_places_Run;

typedef struct {
    uint64_t gate;
    uint64_t at;
    uint64_t ands;
} circuit_run_places_Place;

typedef union {
    struct { uint8_t tag; circuit_run_places_Spot m1; } continue_;
    struct { uint8_t tag; } break_;
} ControlFlow_NoValue_circuit_run_places_Spot;

typedef struct {
    slice source;
    uint64_t at;
    uint64_t limit;
    uint64_t left;
} circuit_accepted_OutputWires;

typedef struct {
    circuit_accepted_OutputWires iter;
    uint64_t count;
} Enumerate_circuit_accepted_OutputWires;

typedef union {
    struct { uint8_t tag; } none;
    struct { uint8_t tag; tuple_uint64_uint64 m1; } some;
} Option_tuple_uint64_uint64;

typedef union {
    struct { uint8_t tag; } none;
    struct { uint8_t tag; uint64_t m1; } some;
} Option_uint64;

typedef union {
    struct { uint8_t tag; uint64_t m1; } continue_;
    struct { uint8_t tag; } break_;
} ControlFlow_NoValue_uint64;

typedef struct {
    uint8_4096 wires;
} circuit_run_RoundState;

typedef struct {
    circuit_accepted_Circuit circuit;
    uint8_t role;
    slice shares;
    slice triples;
    slice far_bits;
} circuit_round_tests_Round;

typedef struct {
    uint32_t number;
    uint64_t written;
    uint64_t bits_written;
    circuit_run_RoundState state;
} circuit_run_Rounded;

typedef struct {
    uint64_t written;
    uint64_t bits_written;
} circuit_round_accepted_Lengths;

typedef struct {
    slice source;
    uint64_t at;
    uint64_t wire;
    uint64_t left;
} circuit_accepted_Gates;

typedef struct {
    uint64_t m0;
    circuit_Gate m1;
} tuple_uint64_circuit_Gate;

typedef struct {
    uint8_t role;
    slice triples;
    uint64_t ands;
    slice far_bits;
    uint64_t passed;
} circuit_gates_bytes_Opening;

typedef union {
    struct { uint8_t tag; } none;
    struct { uint8_t tag; tuple_uint64_circuit_Gate m1; } some;
} Option_tuple_uint64_circuit_Gate;

typedef struct {
    uint32_t number;
    uint64_t inputs;
    uint64_t gates;
    uint64_t outputs;
    uint64_t ands;
    uint64_t rounds;
} circuit_describe_DescribedCircuit;

typedef struct {
    uint32_t a[8];
} uint32_8;

SAME(uint32_8, sizeof(uint32_8), 32);

typedef struct {
    uint8_16 bytes;
} stock_Label;

typedef struct {
    uint32_t callers;
    stock_Label label;
    uint32_8 next;
    uint32_8 end;
} stock_Stock;

typedef struct {
    uint32_t number;
    stock_Stock stock;
} stock_OpenedStock;

typedef union {
    struct { uint8_t tag; uint32_8 m1; } ok;
    struct { uint8_t tag; answer_Refusal m1; } err;
} Result_uint32_8_answer_Refusal;

typedef struct {
    char *ptr;
    uint64_t len;
} Slots_uint32;

typedef struct {
    Slots_uint32 m0;
} tuple_Slots_uint32_unit_unit;

typedef struct {
    slice a;
    slice b;
} ElementMismatch_uint8;

typedef struct {
    uint32_t number;
    uint64_t first;
    uint64_t count;
    stock_Stock stock;
} stock_Drawn;

typedef struct {
    uint32_t number;
    uint64_t first;
    uint64_t count;
    stock_Stock after;
} stock_Previewed;

typedef struct {
    uint32_t number;
    uint64_t amount;
} amounts_Amount;

typedef struct {
    uint32_t number;
    uint64_t element;
} amounts_WrittenAmount;

typedef union {
    struct { uint8_t tag; } none;
    struct { uint8_t tag; prime_prime_Prime m1; } some;
} Option_prime_prime_Prime;

typedef struct {
    uint16_t a[4096];
} uint16_4096;

SAME(uint16_4096, sizeof(uint16_4096), 8192);

typedef struct {
    uint64_t a[1536];
} uint64_1536;

SAME(uint64_1536, sizeof(uint64_1536), 12288);

typedef struct {
    uint64_t a[32];
} uint64_32;

SAME(uint64_32, sizeof(uint64_32), 256);

typedef struct {
    uint64_t a[64];
} uint64_64;

SAME(uint64_64, sizeof(uint64_64), 512);

typedef struct {
    ends_bench_entries_Pending a[32];
} ends_bench_entries_Pending_32;

SAME(ends_bench_entries_Pending_32, sizeof(ends_bench_entries_Pending_32), 768);

static tree_walk_down_Start tree_walk_down_from_sibling(uint64_t branch_bits, uint64_t levels, uint64_t position, uint64_t j, uint64_t at);

static void tree_fill_fill_add_range(tree_walk_node_TreeCipher cipher, uint64_t field, tree_sums_range_Range range, field_block_Block s,
    slice acc);

static void tree_fill_fill_add_run(tree_walk_node_TreeCipher cipher, uint64_t field, tree_sums_range_Range run, uint64_t at, slice bytes,
    slice acc);

static void tree_fill_fill_add_path(tree_walk_node_TreeCipher cipher, uint64_t field, tree_fill_range_Path path, slice bytes,
    field_element_Element correction, slice acc);

/* core::int::usize::min of the kit */
INLINE uint64_t core_usize_min(uint64_t self, uint64_t other)
{
    uint64_t result, t4;
    bool t3;
    t3 = other < self;
    if (t3) {
        t4 = other;
    } else {
        t4 = self;
    }
    result = t4;
    return result;
}

/* core::result::ResultTry::branch of the kit, at () and Refusal */
INLINE ControlFlow_ErrResidual_answer_Refusal_unit core_ResultTry_branch_unit_answer_Refusal(Result_unit_answer_Refusal self)
{
    ControlFlow_ErrResidual_answer_Refusal_unit result, t4;
    answer_Refusal e, t6;
    ErrResidual_answer_Refusal t7;
    switch (self.ok.tag) {
    case 0:
        t4 = (ControlFlow_ErrResidual_answer_Refusal_unit){.continue_ = {0u}};
        break;
    default:
        e = self.err.m1;
        t6 = e;
        t7 = (ErrResidual_answer_Refusal){t6};
        t4 = (ControlFlow_ErrResidual_answer_Refusal_unit){.break_ = {1u, t7}};
        break;
    }
    result = t4;
    return result;
}

/* core::convert::AnyFrom::from of the kit, at Refusal */
INLINE answer_Refusal core_AnyFrom_from_answer_Refusal(answer_Refusal value)
{
    answer_Refusal result;
    result = value;
    return result;
}

/* core::result::ResultFromResidualErrResidual::from_residual of the kit, at () and Refusal and Refusal */
INLINE Result_unit_answer_Refusal core_ResultFromResidualErrResidual_from_residual_unit(ErrResidual_answer_Refusal residual)
{
    Result_unit_answer_Refusal result;
    answer_Refusal t2, t3;
    t3 = residual.m0;
    t2 = core_AnyFrom_from_answer_Refusal(t3);
    result = (Result_unit_answer_Refusal){.err = {1u, t2}};
    return result;
}

/* core::iter::slices::slice+T::iter of the kit, at u64 */
INLINE Iter_uint64 core_slice_iter_uint64(slice self)
{
    Iter_uint64 result;
    result = (Iter_uint64){self};
    return result;
}

/* core::slice::slice+T::is_empty of the kit, at u64 */
INLINE bool core_slice_is_empty_uint64(slice self)
{
    bool result;
    uint64_t t2;
    t2 = self.count;
    result = t2 == 0ull;
    return result;
}

/* core::iter::slices::IterIterator::next of the kit, at u64 */
INLINE Option_ref_uint64 core_IterIterator_next_uint64(char *self)
{
    Option_ref_uint64 result;
    slice rest, t8;
    bool t3;
    uint64_t t4, t6;
    char *t5, *t7, *t9, *t10;
    rest = ((Iter_uint64 *)self)->rest;
    t3 = core_slice_is_empty_uint64(rest);
    if (t3) {
        result = (Option_ref_uint64){.none = {0u}};
        return result;
    }
    t4 = 1ull * 8ull;
    t5 = rest.at + t4;
    t6 = rest.count - 1ull;
    t7 = t5;
    t8 = (slice){t7, t6};
    ((Iter_uint64 *)self)->rest = t8;
    t4 = 0ull * 8ull;
    t9 = rest.at + t4;
    t10 = t9;
    result = (Option_ref_uint64){.some = {1u, t10}};
    return result;
}

/* core::int::u64::from_le_bytes of the kit */
INLINE uint64_t core_u64_from_le_bytes(uint8_8 bytes)
{
    uint64_t result, t6, t10, t11, t12, t16, t17, t18, t22, t23, t24, t28, t29, t30, t34, t35, t36, t40, t41, t42, t46, t47;
    uint8_8 bytes_slot;
    char *t3, *t4, *t7, *t8, *t13, *t14, *t19, *t20, *t25, *t26, *t31, *t32, *t37, *t38, *t43, *t44;
    uint8_t t5, t9, t15, t21, t27, t33, t39, t45;
    bytes_slot = bytes;
    t3 = (char *)&bytes_slot;
    t4 = t3 + 0ull;
    t5 = *(uint8_t *)t4;
    t6 = (uint64_t)t5;
    t7 = (char *)&bytes_slot;
    t8 = t7 + 1ull;
    t9 = *(uint8_t *)t8;
    t10 = (uint64_t)t9;
    t11 = t10 * 256ull;
    t12 = t6 + t11;
    t13 = (char *)&bytes_slot;
    t14 = t13 + 2ull;
    t15 = *(uint8_t *)t14;
    t16 = (uint64_t)t15;
    t17 = t16 * 65536ull;
    t18 = t12 + t17;
    t19 = (char *)&bytes_slot;
    t20 = t19 + 3ull;
    t21 = *(uint8_t *)t20;
    t22 = (uint64_t)t21;
    t23 = t22 * 16777216ull;
    t24 = t18 + t23;
    t25 = (char *)&bytes_slot;
    t26 = t25 + 4ull;
    t27 = *(uint8_t *)t26;
    t28 = (uint64_t)t27;
    t29 = t28 * 4294967296ull;
    t30 = t24 + t29;
    t31 = (char *)&bytes_slot;
    t32 = t31 + 5ull;
    t33 = *(uint8_t *)t32;
    t34 = (uint64_t)t33;
    t35 = t34 * 1099511627776ull;
    t36 = t30 + t35;
    t37 = (char *)&bytes_slot;
    t38 = t37 + 6ull;
    t39 = *(uint8_t *)t38;
    t40 = (uint64_t)t39;
    t41 = t40 * 281474976710656ull;
    t42 = t36 + t41;
    t43 = (char *)&bytes_slot;
    t44 = t43 + 7ull;
    t45 = *(uint8_t *)t44;
    t46 = (uint64_t)t45;
    t47 = t46 * 72057594037927936ull;
    result = t42 + t47;
    return result;
}

/* core::convert::U64FromU8::from of the kit */
INLINE uint64_t core_U64FromU8_from(uint8_t value)
{
    uint64_t result;
    result = (uint64_t)value;
    return result;
}

/* core::int::u64::to_le_bytes of the kit */
INLINE uint8_8 core_u64_to_le_bytes(uint64_t self)
{
    uint8_8 result;
    uint64_t t2, t4, t5, t7, t8, t10, t11, t13, t14, t16, t17, t19, t20, t22, t23;
    uint8_t t3, t6, t9, t12, t15, t18, t21, t24;
    t2 = self % 256ull;
    t3 = (uint8_t)t2;
    t4 = self / 256ull;
    t5 = t4 % 256ull;
    t6 = (uint8_t)t5;
    t7 = self / 65536ull;
    t8 = t7 % 256ull;
    t9 = (uint8_t)t8;
    t10 = self / 16777216ull;
    t11 = t10 % 256ull;
    t12 = (uint8_t)t11;
    t13 = self / 4294967296ull;
    t14 = t13 % 256ull;
    t15 = (uint8_t)t14;
    t16 = self / 1099511627776ull;
    t17 = t16 % 256ull;
    t18 = (uint8_t)t17;
    t19 = self / 281474976710656ull;
    t20 = t19 % 256ull;
    t21 = (uint8_t)t20;
    t22 = self / 72057594037927936ull;
    t23 = t22 % 256ull;
    t24 = (uint8_t)t23;
    result = (uint8_8){{t3, t6, t9, t12, t15, t18, t21, t24}};
    return result;
}

/* core::ptr::copy_drop::copy_bits of the kit, at u8 */
INLINE void core_copy_drop_copy_bits_uint8(char *t1, char *t2, uint64_t t3)
{
    if (t3 != 0ull)
        memcpy(t2, t1, (size_t)t3 * sizeof(uint8_t));
}

/* core::slots::Slots::copy_in of the kit, at u8 */
INLINE void core_Slots_copy_in_uint8(char *t1, uint64_t t2, slice t3)
{
    char *t5, *t6, *t8;
    uint64_t t7, t9;
    t5 = t3.at;
    t6 = ((Slots_uint8 *)t1)->ptr;
    t7 = t2 * 1ull;
    t8 = t6 + t7;
    t9 = t3.count;
    core_copy_drop_copy_bits_uint8(t5, t8, t9);
}

/* core::slice::edits::copy_over of the kit, at u8 */
INLINE tuple_Slots_uint8_unit_unit core_edits_copy_over_uint8(Slots_uint8 row, slice src)
{
    tuple_Slots_uint8_unit_unit result;
    Slots_uint8 row_slot, t7;
    char *t6;
    row_slot = row;
    t6 = (char *)&row_slot;
    core_Slots_copy_in_uint8(t6, 0ull, src);
    t7 = row_slot;
    result = (tuple_Slots_uint8_unit_unit){t7};
    return result;
}

/* core::core++slice++edits++copy_over+FnOnce::call_once of the kit, at u8 */
INLINE tuple_Slots_uint8_unit_unit core_core_slice_edits_copy_over_FnOnce_call_once_uint8(Slots_uint8 arg2, slice arg4)
{
    tuple_Slots_uint8_unit_unit result;
    result = core_edits_copy_over_uint8(arg2, arg4);
    return result;
}

/* core::slots::lends::with_slots of the kit, at u8 and () and &[u8] and () and () */
INLINE void core_lends_with_slots_uint8_unit_slice_uint8_unit_unit(slice t1, char *t2, slice t3)
{
    uint64_t t5;
    char *t6;
    Slots_uint8 t14;
    slice t16;
    (void)t2;
    t5 = t1.count;
    t6 = t1.at;
    t14 = (Slots_uint8){t6, t5};
    t16 = t3;
    (void)core_core_slice_edits_copy_over_FnOnce_call_once_uint8(t14, t16);
}

/* core::slice::edits::slice+T::copy_from_slice of the kit, at u8 */
INLINE void core_slice_copy_from_slice_uint8(slice self, slice src)
{
    char *t5, *t7;
    slice t6;
    t5 = self.at;
    t6 = (slice){t5, self.count};
    t7 = NULL;
    core_lends_with_slots_uint8_unit_slice_uint8_unit_unit(t6, t7, src);
}

/* core::slice::index::UsizeSliceIndexRefSlice::pick of the kit, at u8 */
INLINE Option_ref_uint8 core_UsizeSliceIndexRefSlice_pick_uint8(uint64_t self, slice s)
{
    Option_ref_uint8 result, t5;
    uint64_t t3;
    bool t4;
    char *t7, *t8;
    t3 = s.count;
    t4 = self < t3;
    if (t4) {
        t7 = s.at + self;
        t8 = t7;
        t5 = (Option_ref_uint8){.some = {1u, t8}};
    } else {
        t5 = (Option_ref_uint8){.none = {0u}};
    }
    result = t5;
    return result;
}

/* core::slice::slice+T::get of the kit, at u8 and u64 and &u8 */
INLINE Option_ref_uint8 core_slice_get_uint8_uint64_ref_uint8(slice self, uint64_t index)
{
    Option_ref_uint8 result;
    uint64_t t3;
    t3 = index;
    result = core_UsizeSliceIndexRefSlice_pick_uint8(t3, self);
    return result;
}

/* core::slice::slice+T::first of the kit, at u8 */
INLINE Option_ref_uint8 core_slice_first_uint8(slice self)
{
    Option_ref_uint8 result;
    result = core_slice_get_uint8_uint64_ref_uint8(self, 0ull);
    return result;
}

/* core::result::ResultTry::branch of the kit, at (u64, u64) and Refusal */
INLINE ControlFlow_ErrResidual_answer_Refusal_tuple_uint64_uint64
    core_ResultTry_branch_tuple_uint64_uint64_answer_Refusal(Result_tuple_uint64_uint64_answer_Refusal self)
{
    ControlFlow_ErrResidual_answer_Refusal_tuple_uint64_uint64 result, t4;
    tuple_uint64_uint64 x, t5;
    answer_Refusal e, t6;
    ErrResidual_answer_Refusal t7;
    switch (self.ok.tag) {
    case 0:
        x = self.ok.m1;
        t5 = x;
        t4 = (ControlFlow_ErrResidual_answer_Refusal_tuple_uint64_uint64){.continue_ = {0u, t5}};
        break;
    default:
        e = self.err.m1;
        t6 = e;
        t7 = (ErrResidual_answer_Refusal){t6};
        t4 = (ControlFlow_ErrResidual_answer_Refusal_tuple_uint64_uint64){.break_ = {1u, t7}};
        break;
    }
    result = t4;
    return result;
}

/* core::result::ResultFromResidualErrResidual::from_residual of the kit, at (u64, u64) and Refusal and Refusal */
INLINE Result_tuple_uint64_uint64_answer_Refusal core_ResultFromResidualErrResidual_from_residual_tuple(ErrResidual_answer_Refusal residual)
{
    Result_tuple_uint64_uint64_answer_Refusal result;
    answer_Refusal t2, t3;
    t3 = residual.m0;
    t2 = core_AnyFrom_from_answer_Refusal(t3);
    result = (Result_tuple_uint64_uint64_answer_Refusal){.err = {1u, t2}};
    return result;
}

/* core::result::ResultFromResidualErrResidual::from_residual of the kit, at Layout and Refusal and Refusal */
INLINE Result_record_Layout_answer_Refusal core_ResultFromResidualErrResidual_from_residual_record(ErrResidual_answer_Refusal residual)
{
    Result_record_Layout_answer_Refusal result;
    answer_Refusal t2, t3;
    t3 = residual.m0;
    t2 = core_AnyFrom_from_answer_Refusal(t3);
    result = (Result_record_Layout_answer_Refusal){.err = {1u, t2}};
    return result;
}

/* core::result::ResultTry::branch of the kit, at u64 and Refusal */
INLINE ControlFlow_ErrResidual_answer_Refusal_uint64 core_ResultTry_branch_uint64_answer_Refusal(Result_uint64_answer_Refusal self)
{
    ControlFlow_ErrResidual_answer_Refusal_uint64 result, t4;
    uint64_t x, t5;
    answer_Refusal e, t6;
    ErrResidual_answer_Refusal t7;
    switch (self.ok.tag) {
    case 0:
        x = self.ok.m1;
        t5 = x;
        t4 = (ControlFlow_ErrResidual_answer_Refusal_uint64){.continue_ = {0u, t5}};
        break;
    default:
        e = self.err.m1;
        t6 = e;
        t7 = (ErrResidual_answer_Refusal){t6};
        t4 = (ControlFlow_ErrResidual_answer_Refusal_uint64){.break_ = {1u, t7}};
        break;
    }
    result = t4;
    return result;
}

/* core::result::ResultTry::branch of the kit, at Layout and Refusal */
INLINE ControlFlow_ErrResidual_answer_Refusal_record_Layout
    core_ResultTry_branch_record_Layout_answer_Refusal(Result_record_Layout_answer_Refusal self)
{
    ControlFlow_ErrResidual_answer_Refusal_record_Layout result, t4;
    record_Layout x, t5;
    answer_Refusal e, t6;
    ErrResidual_answer_Refusal t7;
    switch (self.ok.tag) {
    case 0:
        x = self.ok.m1;
        t5 = x;
        t4 = (ControlFlow_ErrResidual_answer_Refusal_record_Layout){.continue_ = {0u, t5}};
        break;
    default:
        e = self.err.m1;
        t6 = e;
        t7 = (ErrResidual_answer_Refusal){t6};
        t4 = (ControlFlow_ErrResidual_answer_Refusal_record_Layout){.break_ = {1u, t7}};
        break;
    }
    result = t4;
    return result;
}

/* core::result::ResultFromResidualErrResidual::from_residual of the kit, at (Tree, u64) and Refusal and Refusal */
INLINE Result_tuple_record_Tree_uint64_answer_Refusal core_ResultFromResidualErrResidual_from_residual_tuple_2(ErrResidual_answer_Refusal
    residual)
{
    Result_tuple_record_Tree_uint64_answer_Refusal result;
    answer_Refusal t2, t3;
    t3 = residual.m0;
    t2 = core_AnyFrom_from_answer_Refusal(t3);
    result = (Result_tuple_record_Tree_uint64_answer_Refusal){.err = {1u, t2}};
    return result;
}

/* core::result::ResultFromResidualErrResidual::from_residual of the kit, at (Element, u64) and Refusal and Refusal */
INLINE Result_tuple_field_element_Element_uint64_answer_Refusal
    core_ResultFromResidualErrResidual_from_residual_tuple_3(ErrResidual_answer_Refusal residual)
{
    Result_tuple_field_element_Element_uint64_answer_Refusal result;
    answer_Refusal t2, t3;
    t3 = residual.m0;
    t2 = core_AnyFrom_from_answer_Refusal(t3);
    result = (Result_tuple_field_element_Element_uint64_answer_Refusal){.err = {1u, t2}};
    return result;
}

/* core::result::ResultTry::branch of the kit, at (Element, u64) and Refusal */
INLINE ControlFlow_ErrResidual_answer_Refusal_tuple_field_element
    core_ResultTry_branch_tuple_field_element_Element_uint64(Result_tuple_field_element_Element_uint64_answer_Refusal self)
{
    ControlFlow_ErrResidual_answer_Refusal_tuple_field_element result, t4;
    tuple_field_element_Element_uint64 x, t5;
    answer_Refusal e, t6;
    ErrResidual_answer_Refusal t7;
    switch (self.ok.tag) {
    case 0:
        x = self.ok.m1;
        t5 = x;
        t4 = (ControlFlow_ErrResidual_answer_Refusal_tuple_field_element){.continue_ = {0u, t5}};
        break;
    default:
        e = self.err.m1;
        t6 = e;
        t7 = (ErrResidual_answer_Refusal){t6};
        t4 = (ControlFlow_ErrResidual_answer_Refusal_tuple_field_element){.break_ = {1u, t7}};
        break;
    }
    result = t4;
    return result;
}

/* core::result::ResultTry::branch of the kit, at (Tree, u64) and Refusal */
INLINE ControlFlow_ErrResidual_answer_Refusal_tuple_record_Tree
    core_ResultTry_branch_tuple_record_Tree_uint64_answer(Result_tuple_record_Tree_uint64_answer_Refusal self)
{
    ControlFlow_ErrResidual_answer_Refusal_tuple_record_Tree result, t4;
    tuple_record_Tree_uint64 x, t5;
    answer_Refusal e, t6;
    ErrResidual_answer_Refusal t7;
    switch (self.ok.tag) {
    case 0:
        x = self.ok.m1;
        t5 = x;
        t4 = (ControlFlow_ErrResidual_answer_Refusal_tuple_record_Tree){.continue_ = {0u, t5}};
        break;
    default:
        e = self.err.m1;
        t6 = e;
        t7 = (ErrResidual_answer_Refusal){t6};
        t4 = (ControlFlow_ErrResidual_answer_Refusal_tuple_record_Tree){.break_ = {1u, t7}};
        break;
    }
    result = t4;
    return result;
}

/* core::result::ResultFromResidualErrResidual::from_residual of the kit, at NoiseRecord and Refusal and Refusal */
INLINE Result_ends_calls_accepted_NoiseRecord_answer_Refusal
    core_ResultFromResidualErrResidual_from_residual_ends_calls(ErrResidual_answer_Refusal residual)
{
    Result_ends_calls_accepted_NoiseRecord_answer_Refusal result;
    answer_Refusal t2, t3;
    t3 = residual.m0;
    t2 = core_AnyFrom_from_answer_Refusal(t3);
    result = (Result_ends_calls_accepted_NoiseRecord_answer_Refusal){.err = {1u, t2}};
    return result;
}

/* core::clone::U64Clone::clone of the kit */
INLINE Result_uint64_AllocError core_U64Clone_clone(char *self)
{
    Result_uint64_AllocError result;
    uint64_t t2;
    t2 = *(uint64_t *)self;
    result = (Result_uint64_AllocError){.ok = {0u, t2}};
    return result;
}

/* core::clone::surely of the kit, at u64 */
INLINE uint64_t core_clone_surely_uint64(char *x)
{
    uint64_t result, it, t4;
    Result_uint64_AllocError t3;
    t3 = core_U64Clone_clone(x);
    it = t3.ok.m1;
    t4 = it;
    result = t4;
    return result;
}

/* core::slice::edits::slice+T::fill of the kit, at u64 */
static void core_slice_fill_uint64(slice self, uint64_t value)
{
    uint64_t value_slot, n, i, t7, t9, t12, t13;
    bool t6, t8;
    char *t10, *t11, *t15;
    value_slot = value;
    n = self.count;
    t6 = n == 0ull;
    if (t6) {
        return;
    }
    i = 0ull;
    for (;;) {
        t7 = n - 1ull;
        t8 = i < t7;
        if (!t8) {
            break;
        }
        t10 = (char *)&value_slot;
        t9 = core_clone_surely_uint64(t10);
        t7 = i * 8ull;
        t11 = (char *)((uint64_t *)self.at + i);
        *(uint64_t *)t11 = t9;
        i = i + 1ull;
    }
    t12 = value_slot;
    t13 = n - 1ull;
    t15 = (char *)((uint64_t *)self.at + t13);
    *(uint64_t *)t15 = t12;
}

/* core::iter::traits::AnyIntoIterator::into_iter of the kit, at Trees and Tree */
INLINE ends_calls_trees_Trees core_AnyIntoIterator_into_iter_ends_calls_trees_Trees(ends_calls_trees_Trees self)
{
    ends_calls_trees_Trees result;
    result = self;
    return result;
}

/* core::slice::split_at_mut_inner of the kit, at u64 */
INLINE tuple_slice_uint64_slice_uint64 core_slice_split_at_mut_inner_uint64(slice t1, uint64_t t2)
{
    tuple_slice_uint64_slice_uint64 result, t5;
    uint64_t t3, t7, t9;
    char *t4, *t8;
    slice t6, t10;
    t3 = t1.count;
    t4 = t1.at;
    t6 = (slice){t4, t2};
    t7 = t2 * 8ull;
    t8 = t4 + t7;
    t9 = t3 - t2;
    t10 = (slice){t8, t9};
    t5 = (tuple_slice_uint64_slice_uint64){t6, t10};
    result = t5;
    return result;
}

/* core::slice::slice+T::split_at_mut of the kit, at u64 */
INLINE tuple_slice_uint64_slice_uint64 core_slice_split_at_mut_uint64(slice self, uint64_t mid)
{
    tuple_slice_uint64_slice_uint64 result;
    char *t3;
    slice t4;
    t3 = self.at;
    t4 = (slice){t3, self.count};
    result = core_slice_split_at_mut_inner_uint64(t4, mid);
    return result;
}

/* core::result::ResultFromResidualErrResidual::from_residual of the kit, at ScalarRecord and Refusal and Refusal */
INLINE Result_ends_calls_accepted_ScalarRecord_answer_Refusal
    core_ResultFromResidualErrResidual_from_residual_ends_calls_2(ErrResidual_answer_Refusal residual)
{
    Result_ends_calls_accepted_ScalarRecord_answer_Refusal result;
    answer_Refusal t2, t3;
    t3 = residual.m0;
    t2 = core_AnyFrom_from_answer_Refusal(t3);
    result = (Result_ends_calls_accepted_ScalarRecord_answer_Refusal){.err = {1u, t2}};
    return result;
}

/* core::ptr::copy_drop::copy_bits of the kit, at u64 */
INLINE void core_copy_drop_copy_bits_uint64(char *t1, char *t2, uint64_t t3)
{
    if (t3 != 0ull)
        memcpy(t2, t1, (size_t)t3 * sizeof(uint64_t));
}

/* core::slots::Slots::copy_in of the kit, at u64 */
INLINE void core_Slots_copy_in_uint64(char *t1, uint64_t t2, slice t3)
{
    char *t5, *t6, *t8;
    uint64_t t7, t9;
    t5 = t3.at;
    t6 = ((Slots_uint64 *)t1)->ptr;
    t7 = t2 * 8ull;
    t8 = t6 + t7;
    t9 = t3.count;
    core_copy_drop_copy_bits_uint64(t5, t8, t9);
}

/* core::slice::edits::copy_over of the kit, at u64 */
INLINE tuple_Slots_uint64_unit_unit core_edits_copy_over_uint64(Slots_uint64 row, slice src)
{
    tuple_Slots_uint64_unit_unit result;
    Slots_uint64 row_slot, t7;
    char *t6;
    row_slot = row;
    t6 = (char *)&row_slot;
    core_Slots_copy_in_uint64(t6, 0ull, src);
    t7 = row_slot;
    result = (tuple_Slots_uint64_unit_unit){t7};
    return result;
}

/* core::core++slice++edits++copy_over+FnOnce::call_once of the kit, at u64 */
INLINE tuple_Slots_uint64_unit_unit core_core_slice_edits_copy_over_FnOnce_call_once_uint64(Slots_uint64 arg2, slice arg4)
{
    tuple_Slots_uint64_unit_unit result;
    result = core_edits_copy_over_uint64(arg2, arg4);
    return result;
}

/* core::slots::lends::with_slots of the kit, at u64 and () and &[u64] and () and () */
INLINE void core_lends_with_slots_uint64_unit_slice_uint64_unit_unit(slice t1, char *t2, slice t3)
{
    uint64_t t5;
    char *t6;
    Slots_uint64 t14;
    slice t16;
    (void)t2;
    t5 = t1.count;
    t6 = t1.at;
    t14 = (Slots_uint64){t6, t5};
    t16 = t3;
    (void)core_core_slice_edits_copy_over_FnOnce_call_once_uint64(t14, t16);
}

/* core::slice::edits::slice+T::copy_from_slice of the kit, at u64 */
INLINE void core_slice_copy_from_slice_uint64(slice self, slice src)
{
    char *t5, *t7;
    slice t6;
    t5 = self.at;
    t6 = (slice){t5, self.count};
    t7 = NULL;
    core_lends_with_slots_uint64_unit_slice_uint64_unit_unit(t6, t7, src);
}

/* core::iter::base::Iterator::enumerate of the kit, at Trees and Tree */
INLINE Enumerate_ends_calls_trees_Trees core_Iterator_enumerate_ends_calls_trees_Trees_record_Tree(ends_calls_trees_Trees self)
{
    Enumerate_ends_calls_trees_Trees result;
    ends_calls_trees_Trees t2;
    t2 = self;
    result = (Enumerate_ends_calls_trees_Trees){t2, 0ull};
    return result;
}

/* core::iter::traits::AnyIntoIterator::into_iter of the kit, at Enumerate<Trees> and (u64, Tree) */
INLINE Enumerate_ends_calls_trees_Trees core_AnyIntoIterator_into_iter_Enumerate_ends_calls_trees(Enumerate_ends_calls_trees_Trees self)
{
    Enumerate_ends_calls_trees_Trees result;
    result = self;
    return result;
}

/* core::option::OptionTry::branch of the kit, at Tree */
INLINE ControlFlow_NoValue_record_Tree core_OptionTry_branch_record_Tree(Option_record_Tree self)
{
    ControlFlow_NoValue_record_Tree result, t3;
    record_Tree x, t4;
    switch (self.none.tag) {
    case 1:
        x = self.some.m1;
        t4 = x;
        t3 = (ControlFlow_NoValue_record_Tree){.continue_ = {0u, t4}};
        break;
    default:
        t3 = (ControlFlow_NoValue_record_Tree){.break_ = {1u}};
        break;
    }
    result = t3;
    return result;
}

/* core::option::OptionFromResidualNoValue::from_residual of the kit, at (u64, Tree) */
INLINE Option_tuple_uint64_record_Tree core_OptionFromResidualNoValue_from_residual_tuple_uint64(void)
{
    Option_tuple_uint64_record_Tree result;
    result = (Option_tuple_uint64_record_Tree){.none = {0u}};
    return result;
}

/* core::int::u8::max of the kit */
INLINE uint8_t core_u8_max(uint8_t self, uint8_t other)
{
    uint8_t result, t4;
    bool t3;
    t3 = other < self;
    if (t3) {
        t4 = self;
    } else {
        t4 = other;
    }
    result = t4;
    return result;
}

/* core::result::ResultFromResidualErrResidual::from_residual of the kit, at Layout and Refusal and Refusal */
INLINE Result_circuit_Layout_answer_Refusal core_ResultFromResidualErrResidual_from_residual_circuit(ErrResidual_answer_Refusal residual)
{
    Result_circuit_Layout_answer_Refusal result;
    answer_Refusal t2, t3;
    t3 = residual.m0;
    t2 = core_AnyFrom_from_answer_Refusal(t3);
    result = (Result_circuit_Layout_answer_Refusal){.err = {1u, t2}};
    return result;
}

/* core::result::ResultFromResidualErrResidual::from_residual of the kit, at (Gate, u64) and Refusal and Refusal */
INLINE Result_tuple_circuit_Gate_uint64_answer_Refusal core_ResultFromResidualErrResidual_from_residual_tuple_4(ErrResidual_answer_Refusal
    residual)
{
    Result_tuple_circuit_Gate_uint64_answer_Refusal result;
    answer_Refusal t2, t3;
    t3 = residual.m0;
    t2 = core_AnyFrom_from_answer_Refusal(t3);
    result = (Result_tuple_circuit_Gate_uint64_answer_Refusal){.err = {1u, t2}};
    return result;
}

/* core::result::ResultTry::branch of the kit, at (Gate, u64) and Refusal */
INLINE ControlFlow_ErrResidual_answer_Refusal_tuple_circuit_Gate
    core_ResultTry_branch_tuple_circuit_Gate_uint64_answer(Result_tuple_circuit_Gate_uint64_answer_Refusal self)
{
    ControlFlow_ErrResidual_answer_Refusal_tuple_circuit_Gate result, t4;
    tuple_circuit_Gate_uint64 x, t5;
    answer_Refusal e, t6;
    ErrResidual_answer_Refusal t7;
    switch (self.ok.tag) {
    case 0:
        x = self.ok.m1;
        t5 = x;
        t4 = (ControlFlow_ErrResidual_answer_Refusal_tuple_circuit_Gate){.continue_ = {0u, t5}};
        break;
    default:
        e = self.err.m1;
        t6 = e;
        t7 = (ErrResidual_answer_Refusal){t6};
        t4 = (ControlFlow_ErrResidual_answer_Refusal_tuple_circuit_Gate){.break_ = {1u, t7}};
        break;
    }
    result = t4;
    return result;
}

/* core::convert::others::UsizeFromBool::from of the kit */
INLINE uint64_t core_UsizeFromBool_from(bool value)
{
    uint64_t result;
    result = (uint64_t)value;
    return result;
}

/* core::result::ResultFromResidualErrResidual::from_residual of the kit, at u64 and Refusal and Refusal */
INLINE Result_uint64_answer_Refusal core_ResultFromResidualErrResidual_from_residual_uint64(ErrResidual_answer_Refusal residual)
{
    Result_uint64_answer_Refusal result;
    answer_Refusal t2, t3;
    t3 = residual.m0;
    t2 = core_AnyFrom_from_answer_Refusal(t3);
    result = (Result_uint64_answer_Refusal){.err = {1u, t2}};
    return result;
}

/* core::result::ResultTry::branch of the kit, at Layout and Refusal */
INLINE ControlFlow_ErrResidual_answer_Refusal_circuit_Layout
    core_ResultTry_branch_circuit_Layout_answer_Refusal(Result_circuit_Layout_answer_Refusal self)
{
    ControlFlow_ErrResidual_answer_Refusal_circuit_Layout result, t4;
    circuit_Layout x, t5;
    answer_Refusal e, t6;
    ErrResidual_answer_Refusal t7;
    switch (self.ok.tag) {
    case 0:
        x = self.ok.m1;
        t5 = x;
        t4 = (ControlFlow_ErrResidual_answer_Refusal_circuit_Layout){.continue_ = {0u, t5}};
        break;
    default:
        e = self.err.m1;
        t6 = e;
        t7 = (ErrResidual_answer_Refusal){t6};
        t4 = (ControlFlow_ErrResidual_answer_Refusal_circuit_Layout){.break_ = {1u, t7}};
        break;
    }
    result = t4;
    return result;
}

/* core::result::ResultFromResidualErrResidual::from_residual of the kit, at Circuit and Refusal and Refusal */
INLINE Result_circuit_accepted_Circuit_answer_Refusal core_ResultFromResidualErrResidual_from_residual_circuit_2(ErrResidual_answer_Refusal
    residual)
{
    Result_circuit_accepted_Circuit_answer_Refusal result;
    answer_Refusal t2, t3;
    t3 = residual.m0;
    t2 = core_AnyFrom_from_answer_Refusal(t3);
    result = (Result_circuit_accepted_Circuit_answer_Refusal){.err = {1u, t2}};
    return result;
}

/* core::option::OptionTry::branch of the kit, at Spot */
INLINE ControlFlow_NoValue_circuit_run_places_Spot core_OptionTry_branch_circuit_run_places_Spot(Option_circuit_run_places_Spot self)
{
    ControlFlow_NoValue_circuit_run_places_Spot result, t3;
    circuit_run_places_Spot x, t4;
    switch (self.none.tag) {
    case 1:
        x = self.some.m1;
        t4 = x;
        t3 = (ControlFlow_NoValue_circuit_run_places_Spot){.continue_ = {0u, t4}};
        break;
    default:
        t3 = (ControlFlow_NoValue_circuit_run_places_Spot){.break_ = {1u}};
        break;
    }
    result = t3;
    return result;
}

/* core::option::OptionFromResidualNoValue::from_residual of the kit, at Run */
INLINE Option_circuit_run_places_Run core_OptionFromResidualNoValue_from_residual_circuit_run(void)
{
    Option_circuit_run_places_Run result;
    result = (Option_circuit_run_places_Run){.none = {0u}};
    return result;
}

/* core::iter::base::Iterator::enumerate of the kit, at OutputWires and u64 */
INLINE Enumerate_circuit_accepted_OutputWires core_Iterator_enumerate_circuit_accepted_OutputWires_uint64(circuit_accepted_OutputWires self)
{
    Enumerate_circuit_accepted_OutputWires result;
    circuit_accepted_OutputWires t2;
    t2 = self;
    result = (Enumerate_circuit_accepted_OutputWires){t2, 0ull};
    return result;
}

/* core::iter::traits::AnyIntoIterator::into_iter of the kit, at Enumerate<OutputWires> and (u64, u64) */
INLINE Enumerate_circuit_accepted_OutputWires
    core_AnyIntoIterator_into_iter_Enumerate_circuit_accepted(Enumerate_circuit_accepted_OutputWires self)
{
    Enumerate_circuit_accepted_OutputWires result;
    result = self;
    return result;
}

/* core::option::OptionTry::branch of the kit, at u64 */
INLINE ControlFlow_NoValue_uint64 core_OptionTry_branch_uint64(Option_uint64 self)
{
    ControlFlow_NoValue_uint64 result, t3;
    uint64_t x, t4;
    switch (self.none.tag) {
    case 1:
        x = self.some.m1;
        t4 = x;
        t3 = (ControlFlow_NoValue_uint64){.continue_ = {0u, t4}};
        break;
    default:
        t3 = (ControlFlow_NoValue_uint64){.break_ = {1u}};
        break;
    }
    result = t3;
    return result;
}

/* core::option::OptionFromResidualNoValue::from_residual of the kit, at (u64, u64) */
INLINE Option_tuple_uint64_uint64 core_OptionFromResidualNoValue_from_residual_tuple_uint64_2(void)
{
    Option_tuple_uint64_uint64 result;
    result = (Option_tuple_uint64_uint64){.none = {0u}};
    return result;
}

/* core::iter::traits::AnyIntoIterator::into_iter of the kit, at Gates and (u64, Gate) */
INLINE circuit_accepted_Gates core_AnyIntoIterator_into_iter_circuit_accepted_Gates_tuple(circuit_accepted_Gates self)
{
    circuit_accepted_Gates result;
    result = self;
    return result;
}

/* core::int::u16::max of the kit */
INLINE uint16_t core_u16_max(uint16_t self, uint16_t other)
{
    uint16_t result, t4;
    bool t3;
    t3 = other < self;
    if (t3) {
        t4 = self;
    } else {
        t4 = other;
    }
    result = t4;
    return result;
}

/* core::convert::UsizeFromU16::from of the kit */
INLINE uint64_t core_UsizeFromU16_from(uint16_t value)
{
    uint64_t result;
    result = (uint64_t)value;
    return result;
}

/* core::ptr::copy_drop::copy_bits of the kit, at u32 */
INLINE void core_copy_drop_copy_bits_uint32(char *t1, char *t2, uint64_t t3)
{
    if (t3 != 0ull)
        memcpy(t2, t1, (size_t)t3 * sizeof(uint32_t));
}

/* core::slots::Slots::copy_in of the kit, at u32 */
INLINE void core_Slots_copy_in_uint32(char *t1, uint64_t t2, slice t3)
{
    char *t5, *t6, *t8;
    uint64_t t7, t9;
    t5 = t3.at;
    t6 = ((Slots_uint32 *)t1)->ptr;
    t7 = t2 * 4ull;
    t8 = t6 + t7;
    t9 = t3.count;
    core_copy_drop_copy_bits_uint32(t5, t8, t9);
}

/* core::slice::edits::copy_over of the kit, at u32 */
INLINE tuple_Slots_uint32_unit_unit core_edits_copy_over_uint32(Slots_uint32 row, slice src)
{
    tuple_Slots_uint32_unit_unit result;
    Slots_uint32 row_slot, t7;
    char *t6;
    row_slot = row;
    t6 = (char *)&row_slot;
    core_Slots_copy_in_uint32(t6, 0ull, src);
    t7 = row_slot;
    result = (tuple_Slots_uint32_unit_unit){t7};
    return result;
}

/* core::core++slice++edits++copy_over+FnOnce::call_once of the kit, at u32 */
INLINE tuple_Slots_uint32_unit_unit core_core_slice_edits_copy_over_FnOnce_call_once_uint32(Slots_uint32 arg2, slice arg4)
{
    tuple_Slots_uint32_unit_unit result;
    result = core_edits_copy_over_uint32(arg2, arg4);
    return result;
}

/* core::slots::lends::with_slots of the kit, at u32 and () and &[u32] and () and () */
INLINE void core_lends_with_slots_uint32_unit_slice_uint32_unit_unit(slice t1, char *t2, slice t3)
{
    uint64_t t5;
    char *t6;
    Slots_uint32 t14;
    slice t16;
    (void)t2;
    t5 = t1.count;
    t6 = t1.at;
    t14 = (Slots_uint32){t6, t5};
    t16 = t3;
    (void)core_core_slice_edits_copy_over_FnOnce_call_once_uint32(t14, t16);
}

/* core::slice::edits::slice+T::copy_from_slice of the kit, at u32 */
INLINE void core_slice_copy_from_slice_uint32(slice self, slice src)
{
    char *t5, *t7;
    slice t6;
    t5 = self.at;
    t6 = (slice){t5, self.count};
    t7 = NULL;
    core_lends_with_slots_uint32_unit_slice_uint32_unit_unit(t6, t7, src);
}

/* core::int::u32::min of the kit */
INLINE uint32_t core_u32_min(uint32_t self, uint32_t other)
{
    uint32_t result, t4;
    bool t3;
    t3 = other < self;
    if (t3) {
        t4 = other;
    } else {
        t4 = self;
    }
    result = t4;
    return result;
}

/* core::mem::size_of_param of the kit, at u8 */
INLINE uint64_t core_mem_size_of_param_uint8(void)
{
    uint64_t result;
    result = 1ull;
    return result;
}

/* core::slice::scan::group of the kit, at u8 */
INLINE uint64_t core_scan_group_uint8(void)
{
    uint64_t result, size, t3, t4, t6, t7, t8, t10, t11;
    bool t2, t5, t9;
    size = core_mem_size_of_param_uint8();
    t2 = size == 1ull;
    t3 = (uint64_t)t2;
    t4 = 32ull * t3;
    t5 = size == 2ull;
    t6 = (uint64_t)t5;
    t7 = 16ull * t6;
    t8 = t4 + t7;
    t9 = size == 4ull;
    t10 = (uint64_t)t9;
    t11 = 8ull * t10;
    result = t8 + t11;
    return result;
}

/* core::cmp::numbers::U8PartialEq::eq of the kit */
INLINE bool core_U8PartialEq_eq(char *self, char *other)
{
    bool result;
    uint8_t t3, t4;
    t3 = *(uint8_t *)self;
    t4 = *(uint8_t *)other;
    result = t3 == t4;
    return result;
}

/* core::cmp::slices::ElementMismatchPlaceTest::at of the kit, at u8 */
INLINE bool core_ElementMismatchPlaceTest_at_uint8(char *self, uint64_t i)
{
    bool result, t7;
    slice a, b, t5, t6;
    char *t9, *t10, *t12, *t13;
    t5 = ((ElementMismatch_uint8 *)self)->a;
    t6 = ((ElementMismatch_uint8 *)self)->b;
    a = t5;
    b = t6;
    t9 = a.at + i;
    t10 = t9;
    t12 = b.at + i;
    t13 = t12;
    t7 = core_U8PartialEq_eq(t10, t13);
    result = !t7;
    return result;
}

/* core::slice::scan::first_by_one of the kit, at ElementMismatch<u8> */
static uint64_t core_scan_first_by_one_ElementMismatch_uint8(char *s, uint64_t from, uint64_t to)
{
    uint64_t result, i;
    bool t5, t6;
    i = from;
    for (;;) {
        t5 = i < to;
        if (!t5) {
            break;
        }
        t6 = core_ElementMismatchPlaceTest_at_uint8(s, i);
        if (t6) {
            result = i;
            return result;
        }
        i = i + 1ull;
    }
    result = to;
    return result;
}

/* core::slice::scan::any_in_turn of the kit, at ElementMismatch<u8> */
static bool core_scan_any_in_turn_ElementMismatch_uint8(char *s, uint64_t n)
{
    bool result, t5;
    uint64_t i, t4, t6, t7, t8;
    i = 0ull;
    for (;;) {
        t4 = n - i;
        t5 = 4ull <= t4;
        if (!t5) {
            break;
        }
        t6 = i + 4ull;
        t4 = core_scan_first_by_one_ElementMismatch_uint8(s, i, t6);
        t7 = i + 4ull;
        t5 = t4 < t7;
        if (t5) {
            result = true;
            return result;
        }
        i = i + 4ull;
    }
    t8 = core_scan_first_by_one_ElementMismatch_uint8(s, i, n);
    result = t8 < n;
    return result;
}

/* core::slice::scan::any_in_run of the kit, at ElementMismatch<u8> */
static bool core_scan_any_in_run_ElementMismatch_uint8(char *s, uint64_t from, uint64_t count)
{
    bool result, found, t6;
    uint64_t k, t7;
    found = false;
    k = 0ull;
    for (;;) {
        t6 = k < count;
        if (!t6) {
            break;
        }
        t7 = from + k;
        t6 = core_ElementMismatchPlaceTest_at_uint8(s, t7);
        found = found | t6;
        k = k + 1ull;
    }
    result = found;
    return result;
}

/* core::slice::scan::any_in_three of the kit, at ElementMismatch<u8> */
INLINE bool core_scan_any_in_three_ElementMismatch_uint8(char *s, uint64_t n)
{
    bool result, t3, t4, t6, t7;
    uint64_t t5, t8;
    t3 = core_scan_any_in_run_ElementMismatch_uint8(s, 0ull, 1ull);
    t5 = n / 2ull;
    t4 = core_scan_any_in_run_ElementMismatch_uint8(s, t5, 1ull);
    t6 = t3 | t4;
    t8 = n - 1ull;
    t7 = core_scan_any_in_run_ElementMismatch_uint8(s, t8, 1ull);
    result = t6 | t7;
    return result;
}

/* core::slice::scan::any_in_ends of the kit, at ElementMismatch<u8> */
INLINE bool core_scan_any_in_ends_ElementMismatch_uint8(char *s, uint64_t n, uint64_t count)
{
    bool result, t4, t5;
    uint64_t t6;
    t4 = core_scan_any_in_run_ElementMismatch_uint8(s, 0ull, count);
    t6 = n - count;
    t5 = core_scan_any_in_run_ElementMismatch_uint8(s, t6, count);
    result = t4 | t5;
    return result;
}

/* core::slice::scan::any_in_quarters of the kit, at ElementMismatch<u8> */
INLINE bool core_scan_any_in_quarters_ElementMismatch_uint8(char *s, uint64_t n, uint64_t count)
{
    bool result, t5, t6, t8, t9, t12, t13;
    uint64_t last, t7, t10, t11;
    last = n - count;
    t5 = core_scan_any_in_run_ElementMismatch_uint8(s, 0ull, count);
    t7 = core_usize_min(count, last);
    t6 = core_scan_any_in_run_ElementMismatch_uint8(s, t7, count);
    t8 = t5 | t6;
    t11 = 2ull * count;
    t10 = core_usize_min(t11, last);
    t9 = core_scan_any_in_run_ElementMismatch_uint8(s, t10, count);
    t12 = t8 | t9;
    t13 = core_scan_any_in_run_ElementMismatch_uint8(s, last, count);
    result = t12 | t13;
    return result;
}

/* core::slice::scan::skip_groups of the kit, at ElementMismatch<u8> */
static uint64_t core_scan_skip_groups_ElementMismatch_uint8(char *s, uint64_t seen, uint64_t n, uint64_t group)
{
    uint64_t result, i, t8;
    bool t6, t7, t9, t10;
    i = seen;
    for (;;) {
        t7 = 0ull < group;
        if (t7) {
            t8 = n - i;
            t7 = group <= t8;
            t6 = t7;
            if (t6) {
                t9 = core_scan_any_in_run_ElementMismatch_uint8(s, i, group);
                t6 = !t9;
                t10 = t6;
                if (!t10) {
                    break;
                }
            } else {
                break;
            }
        } else {
            break;
        }
        i = i + group;
    }
    result = i;
    return result;
}

/* core::slice::scan::any_by_groups of the kit, at ElementMismatch<u8> */
INLINE bool core_scan_any_by_groups_ElementMismatch_uint8(char *s, uint64_t n, uint64_t group)
{
    bool result, t6, t8;
    uint64_t far, near, t7, t9, t10;
    t6 = group < 8ull;
    if (t6) {
        result = core_scan_any_in_turn_ElementMismatch_uint8(s, n);
        return result;
    }
    t7 = group / 8ull;
    t6 = n < t7;
    if (t6) {
        t8 = 0ull < n;
        if (t8) {
            t8 = core_scan_any_in_three_ElementMismatch_uint8(s, n);
        }
        result = t8;
        return result;
    }
    t7 = group / 4ull;
    t6 = n <= t7;
    if (t6) {
        t9 = group / 8ull;
        result = core_scan_any_in_ends_ElementMismatch_uint8(s, n, t9);
        return result;
    }
    t6 = n <= group;
    if (t6) {
        t10 = group / 4ull;
        result = core_scan_any_in_quarters_ElementMismatch_uint8(s, n, t10);
        return result;
    }
    t7 = 2ull * group;
    t6 = n <= t7;
    if (t6) {
        result = core_scan_any_in_ends_ElementMismatch_uint8(s, n, group);
        return result;
    }
    t7 = 2ull * group;
    far = core_scan_skip_groups_ElementMismatch_uint8(s, 0ull, n, t7);
    near = core_scan_skip_groups_ElementMismatch_uint8(s, far, n, group);
    t7 = n - near;
    t6 = group <= t7;
    if (t6) {
        result = true;
        return result;
    }
    t7 = n - group;
    result = core_scan_any_in_run_ElementMismatch_uint8(s, t7, group);
    return result;
}

/* core::cmp::slices::all_equal of the kit, at u8 */
INLINE bool core_slices_all_equal_uint8(slice a, slice b)
{
    bool result, t5;
    uint64_t t3, t4;
    ElementMismatch_uint8 t6, t7;
    char *t8;
    t3 = a.count;
    t4 = b.count;
    t5 = t3 != t4;
    if (t5) {
        result = false;
        return result;
    }
    t6 = (ElementMismatch_uint8){a, b};
    t7 = t6;
    t8 = (char *)&t7;
    t3 = a.count;
    t4 = core_scan_group_uint8();
    t5 = core_scan_any_by_groups_ElementMismatch_uint8(t8, t3, t4);
    result = !t5;
    return result;
}

/* core::cmp::arrays::ArrayPartialEq::eq of the kit, at u8 and 16 */
INLINE bool core_ArrayPartialEq_eq_uint8_16(char *self, char *other)
{
    bool result;
    char *t3, *t5;
    slice t4, t6;
    t3 = self;
    t4 = (slice){t3, 16ull};
    t5 = other;
    t6 = (slice){t5, 16ull};
    result = core_slices_all_equal_uint8(t4, t6);
    return result;
}

/* core::int::u32::saturating_sub of the kit */
INLINE uint32_t core_u32_saturating_sub(uint32_t self, uint32_t rhs)
{
    uint32_t result, t4;
    bool t3;
    t3 = rhs <= self;
    if (t3) {
        t4 = (uint32_t)(self - rhs);
    } else {
        t4 = 0u;
    }
    result = t4;
    return result;
}

/* core::int::i64::unsigned_abs of the kit */
INLINE uint64_t core_i64_unsigned_abs(uint64_t self)
{
    uint64_t result, t3, t4, t5;
    bool t2;
    t2 = as_signed(self) < as_signed(0ull);
    if (t2) {
        t4 = (uint64_t)~self;
        t5 = t4;
        t3 = t5 + 1ull;
    } else {
        t3 = self;
    }
    result = t3;
    return result;
}

/* answer, src/lengths.rt:6: Whether a length is `width` bytes an output. */
INLINE bool answer_lengths_is_times(uint64_t len, uint64_t width, uint64_t count)
{
    bool result, t4;
    uint64_t t5, t6;
    t5 = len % width;
    t4 = t5 == 0ull;
    if (t4) {
        t6 = len / width;
        t4 = t6 == count;
    }
    result = t4;
    return result;
}

/* answer, src/lib.rt:45: The number that the call returns. By name and not by `From`: docs/PROMISES.md (13.10) names it. */
INLINE uint32_t answer_Refusal_number(answer_Refusal self)
{
    uint32_t result, t2;
    t2 = (uint32_t)self.tag;
    result = (uint32_t)(t2 + 1u);
    return result;
}

/* answer, src/lib.rt:64: The answer of a refused call. By name and not by `From`, here and in the other answers: each says that its call
 * was refused, and has zeros of its own. */
INLINE answer_TwoLengths answer_TwoLengths_refused(answer_Refusal refusal)
{
    answer_TwoLengths result;
    uint32_t t2;
    t2 = answer_Refusal_number(refusal);
    result = (answer_TwoLengths){t2, 0ull, 0ull};
    return result;
}

/* answer, src/lib.rt:85: The answer of a refused call. */
INLINE answer_OneLength answer_OneLength_refused(answer_Refusal refusal)
{
    answer_OneLength result;
    uint32_t t2;
    t2 = answer_Refusal_number(refusal);
    result = (answer_OneLength){t2, 0ull};
    return result;
}

/* answer, src/lengths.rt:22: Whether a window passes its end. */
INLINE bool answer_lengths_is_past(uint64_t first, uint64_t count, uint64_t end)
{
    bool result, t4;
    uint64_t t5;
    t4 = end < first;
    if (!t4) {
        t5 = end - first;
        t4 = t5 < count;
    }
    result = t4;
    return result;
}

/* answer, src/lengths.rt:14: Whether a buffer is shorter than `width` bytes an output. */
INLINE bool answer_lengths_is_short(uint64_t room, uint64_t width, uint64_t count)
{
    bool result;
    uint64_t t4;
    t4 = room / width;
    result = t4 < count;
    return result;
}

/* answer, src/bytes.rt:6: Whether some byte is above a limit, by the largest of them. */
static bool answer_bytes_any_above(uint8_t limit, slice bytes)
{
    bool result, t7;
    uint8_t most, t9;
    uint64_t byte_index, byte_index_end;
    char *byte, *t8;
    most = 0u;
    byte_index = 0ull;
    byte_index_end = bytes.count;
    for (;;) {
        t7 = byte_index < byte_index_end;
        if (!t7) {
            break;
        }
        t8 = bytes.at + byte_index;
        byte = t8;
        t9 = *(uint8_t *)byte;
        most = core_u8_max(most, t9);
        byte_index = byte_index + 1ull;
    }
    result = limit < most;
    return result;
}

/* prime, src/prime.rt:88: A word with its bits from 61 on added to those below: the same modulo p, and at most p + 7. */
INLINE uint64_t prime_prime_fold(uint64_t word)
{
    uint64_t result, t2, t3;
    t2 = word / 2305843009213693952ull;
    t3 = word % 2305843009213693952ull;
    result = t2 + t3;
    return result;
}

/* prime, src/prime.rt:44: Any word reduced modulo p. */
INLINE prime_prime_Prime prime_prime_Prime_reduce(uint64_t word)
{
    prime_prime_Prime result, t4;
    uint64_t folded, t5;
    bool t3;
    folded = prime_prime_fold(word);
    t3 = folded < 2305843009213693951ull;
    if (t3) {
        t4 = (prime_prime_Prime){folded};
    } else {
        t5 = folded - 2305843009213693951ull;
        t4 = (prime_prime_Prime){t5};
    }
    result = t4;
    return result;
}

/* prime, src/prime.rt:95: A word below 2^63 that equals a × b modulo p, for folded a and b, from halves of 31 bits: 2^62 is 2 and 2^61
 * is 1 modulo p. */
INLINE uint64_t prime_prime_product(uint64_t a, uint64_t b)
{
    uint64_t result, a1, a0, b1, b0, m, t8, t9, t10, t11, t12, t13, t14, t15;
    a1 = a / 2147483648ull;
    a0 = a % 2147483648ull;
    b1 = b / 2147483648ull;
    b0 = b % 2147483648ull;
    t8 = a1 * b0;
    t9 = a0 * b1;
    m = t8 + t9;
    t8 = a1 * b1;
    t9 = 2ull * t8;
    t10 = m / 1073741824ull;
    t11 = t9 + t10;
    t12 = m % 1073741824ull;
    t13 = t12 * 2147483648ull;
    t14 = t11 + t13;
    t15 = a0 * b0;
    result = t14 + t15;
    return result;
}

/* prime, src/prime.rt:73: The product modulo p. */
INLINE prime_prime_Prime prime_prime_Prime_mul(prime_prime_Prime self, prime_prime_Prime other)
{
    prime_prime_Prime result;
    uint64_t t3, t4, t5;
    t4 = prime_prime_fold(self.word);
    t5 = prime_prime_fold(other.word);
    t3 = prime_prime_product(t4, t5);
    result = prime_prime_Prime_reduce(t3);
    return result;
}

/* prime, src/prime.rt:65: The difference modulo p. */
INLINE prime_prime_Prime prime_prime_Prime_sub(prime_prime_Prime self, prime_prime_Prime other)
{
    prime_prime_Prime result, taken;
    uint64_t t4, t5, t6;
    taken = prime_prime_Prime_reduce(other.word);
    t4 = prime_prime_fold(self.word);
    t5 = 2305843009213693951ull - taken.word;
    t6 = t4 + t5;
    result = prime_prime_Prime_reduce(t6);
    return result;
}

/* prime, src/prime.rt:58: The sum modulo p. */
INLINE prime_prime_Prime prime_prime_Prime_add(prime_prime_Prime self, prime_prime_Prime other)
{
    prime_prime_Prime result;
    uint64_t t3, t4, t5;
    t3 = prime_prime_fold(self.word);
    t4 = prime_prime_fold(other.word);
    t5 = t3 + t4;
    result = prime_prime_Prime_reduce(t5);
    return result;
}

/* prime, src/prime.rt:20: The constants as constructors too, whose contracts tie them to the definitions of laws (docs/PROMISES.md,
 * 13.2). The modulus p. */
INLINE uint64_t prime_prime_Prime_modulus(void)
{
    uint64_t result;
    result = 2305843009213693951ull;
    return result;
}

/* prime, src/prime.rt:80: A word that reduces to total + a × b. Which one is left to the program, so that a sum of products is reduced
 * once, at its end. */
INLINE uint64_t prime_prime_Prime_add_product(uint64_t total, uint64_t a, uint64_t b)
{
    uint64_t result, t4, t5, t6, t7;
    t4 = prime_prime_fold(total);
    t6 = prime_prime_fold(a);
    t7 = prime_prime_fold(b);
    t5 = prime_prime_product(t6, t7);
    result = t4 + t5;
    return result;
}

/* prime, src/signed.rt:15: The element as a signed number: above the middle of the field, the element less p. */
INLINE uint64_t prime_prime_Prime_to_signed(prime_prime_Prime self)
{
    uint64_t result, number, t5, t6;
    prime_prime_Prime element;
    bool t4;
    element = prime_prime_Prime_reduce(self.word);
    number = element.word;
    t4 = as_signed(number) <= as_signed(1152921504606846975ull);
    if (t4) {
        t5 = number;
    } else {
        t6 = 2305843009213693951ull;
        t5 = (uint64_t)(as_signed(number) - as_signed(t6));
    }
    result = t5;
    return result;
}

/* prime, src/signed.rt:28: The negation modulo p. */
INLINE prime_prime_Prime prime_prime_Prime_negate(prime_prime_Prime self)
{
    prime_prime_Prime result, t2;
    t2 = (prime_prime_Prime){0ull};
    result = prime_prime_Prime_sub(t2, self);
    return result;
}

/* prime, src/signed.rt:35: The element that is read as a signed number, none for a number out of range. */
INLINE Option_prime_prime_Prime prime_prime_Prime_from_signed(uint64_t amount)
{
    Option_prime_prime_Prime result;
    prime_prime_Prime size, t9, t12, t13;
    bool t3, t6, t11;
    uint64_t t4, t5, t7, t8, t10;
    t4 = amount;
    t3 = as_signed(t4) < as_signed(17293822569102704641ull);
    if (!t3) {
        t5 = amount;
        t3 = as_signed(1152921504606846975ull) < as_signed(t5);
        t6 = t3;
        if (!t6) {
            goto after2;
        }
    }
    result = (Option_prime_prime_Prime){.none = {0u}};
    return result;
    goto after1;
after2:;
after1:;
    t8 = amount;
    t7 = core_i64_unsigned_abs(t8);
    size = (prime_prime_Prime){t7};
    t10 = amount;
    t11 = as_signed(t10) < as_signed(0ull);
    if (t11) {
        t13 = size;
        t12 = prime_prime_Prime_negate(t13);
    } else {
        t12 = size;
    }
    t9 = t12;
    result = (Option_prime_prime_Prime){.some = {1u, t9}};
    return result;
}

/* amounts, src/lib.rt:28: The amount that an element is read as. */
INLINE amounts_Amount amounts_read_amount(uint64_t element)
{
    amounts_Amount result, t4;
    uint64_t amount;
    bool t3;
    prime_prime_Prime t5;
    uint32_t t6;
    answer_Refusal t7;
    t3 = element < 2305843009213693951ull;
    if (t3) {
        t5 = (prime_prime_Prime){element};
        amount = prime_prime_Prime_to_signed(t5);
        t4 = (amounts_Amount){0u, amount};
    } else {
        t7 = (answer_Refusal){answer_Refusal_not_element};
        t6 = answer_Refusal_number(t7);
        t4 = (amounts_Amount){t6, 0ull};
    }
    result = t4;
    return result;
}

/* amounts, src/lib.rt:46: The element that is read as an amount. */
INLINE amounts_WrittenAmount amounts_write_amount(uint64_t amount)
{
    amounts_WrittenAmount result, t4;
    prime_prime_Prime element;
    Option_prime_prime_Prime t3;
    uint32_t t5;
    answer_Refusal t6;
    t3 = prime_prime_Prime_from_signed(amount);
    switch (t3.none.tag) {
    case 1:
        element = t3.some.m1;
        t4 = (amounts_WrittenAmount){0u, element.word};
        break;
    default:
        t6 = (answer_Refusal){answer_Refusal_amount_out_of_range};
        t5 = answer_Refusal_number(t6);
        t4 = (amounts_WrittenAmount){t5, 0ull};
        break;
    }
    result = t4;
    return result;
}

/* number, src/lib.rt:87: How many bytes the number takes. */
INLINE uint64_t number_number_length(uint64_t n)
{
    uint64_t result;
    bool t2;
    t2 = n < 128ull;
    if (t2) {
        result = 1ull;
        return result;
    }
    t2 = n < 16384ull;
    if (t2) {
        result = 2ull;
        return result;
    }
    result = 3ull;
    return result;
}

/* number, src/lib.rt:100: Writes the number from a place on; the place after it. */
INLINE uint64_t number_write_number(slice buffer, uint64_t at, uint64_t n)
{
    uint64_t result, t7, t8, t11, t13, t15, t16;
    bool t4;
    uint8_t t5, t9, t12;
    char *t6, *t10, *t14, *t17, *t18;
    t4 = n < 128ull;
    if (t4) {
        t5 = (uint8_t)n;
        t6 = buffer.at + at;
        *(uint8_t *)t6 = t5;
        result = at + 1ull;
        return result;
    }
    t7 = n % 128ull;
    t8 = 128ull + t7;
    t9 = (uint8_t)t8;
    t10 = buffer.at + at;
    *(uint8_t *)t10 = t9;
    t4 = n < 16384ull;
    if (t4) {
        t11 = n / 128ull;
        t12 = (uint8_t)t11;
        t13 = at + 1ull;
        t14 = buffer.at + t13;
        *(uint8_t *)t14 = t12;
        result = at + 2ull;
        return result;
    }
    t7 = n / 128ull;
    t8 = t7 % 128ull;
    t15 = 128ull + t8;
    t9 = (uint8_t)t15;
    t16 = at + 1ull;
    t17 = buffer.at + t16;
    *(uint8_t *)t17 = t9;
    t7 = n / 16384ull;
    t9 = (uint8_t)t7;
    t16 = at + 2ull;
    t18 = buffer.at + t16;
    *(uint8_t *)t18 = t9;
    result = at + 3ull;
    return result;
}

/* number, src/lib.rt:33: The byte at a place, and the place after it. */
INLINE Result_tuple_uint64_uint64_answer_Refusal number_read_byte(slice source, uint64_t at)
{
    Result_tuple_uint64_uint64_answer_Refusal result;
    uint64_t t3, t8;
    bool t4;
    answer_Refusal t5;
    char *t6;
    uint8_t t7;
    tuple_uint64_uint64 t9;
    t3 = source.count;
    t4 = t3 <= at;
    if (t4) {
        t5 = (answer_Refusal){answer_Refusal_record_ends};
        result = (Result_tuple_uint64_uint64_answer_Refusal){.err = {1u, t5}};
        return result;
    }
    t6 = source.at + at;
    t7 = *(uint8_t *)t6;
    t3 = (uint64_t)t7;
    t8 = at + 1ull;
    t9 = (tuple_uint64_uint64){t3, t8};
    result = (Result_tuple_uint64_uint64_answer_Refusal){.ok = {0u, t9}};
    return result;
}

/* number, src/lib.rt:45: The number at a place, and the place after it. It reads its bytes itself: a longer number needs no place after
 * its first byte then, and a loop over numbers takes one branch a turn (docs/DESIGN-PASS.md). */
INLINE Result_tuple_uint64_uint64_answer_Refusal number_read_number(slice source, uint64_t at)
{
    Result_tuple_uint64_uint64_answer_Refusal result;
    uint64_t a, b, c, t6, t11, t13, t18, t19, t20, t21, t28, t29, t30, t31, t32;
    bool t7, t16, t25, t26;
    answer_Refusal t8, t14, t17, t23, t27;
    char *t9, *t15, *t24;
    uint8_t t10;
    tuple_uint64_uint64 t12, t22, t33;
    t6 = source.count;
    t7 = t6 <= at;
    if (t7) {
        t8 = (answer_Refusal){answer_Refusal_record_ends};
        result = (Result_tuple_uint64_uint64_answer_Refusal){.err = {1u, t8}};
        return result;
    }
    t9 = source.at + at;
    t10 = *(uint8_t *)t9;
    a = (uint64_t)t10;
    t7 = a < 128ull;
    if (t7) {
        t11 = at + 1ull;
        t12 = (tuple_uint64_uint64){a, t11};
        result = (Result_tuple_uint64_uint64_answer_Refusal){.ok = {0u, t12}};
        return result;
    }
    t6 = source.count;
    t13 = at + 2ull;
    t7 = t6 < t13;
    if (t7) {
        t14 = (answer_Refusal){answer_Refusal_record_ends};
        result = (Result_tuple_uint64_uint64_answer_Refusal){.err = {1u, t14}};
        return result;
    }
    t6 = at + 1ull;
    t15 = source.at + t6;
    t10 = *(uint8_t *)t15;
    b = (uint64_t)t10;
    t7 = b < 128ull;
    if (t7) {
        t16 = b == 0ull;
        if (t16) {
            t17 = (answer_Refusal){answer_Refusal_bad_number};
            result = (Result_tuple_uint64_uint64_answer_Refusal){.err = {1u, t17}};
            return result;
        }
        t18 = a - 128ull;
        t19 = b * 128ull;
        t20 = t18 + t19;
        t21 = at + 2ull;
        t22 = (tuple_uint64_uint64){t20, t21};
        result = (Result_tuple_uint64_uint64_answer_Refusal){.ok = {0u, t22}};
        return result;
    }
    t13 = source.count;
    t6 = at + 3ull;
    t7 = t13 < t6;
    if (t7) {
        t23 = (answer_Refusal){answer_Refusal_record_ends};
        result = (Result_tuple_uint64_uint64_answer_Refusal){.err = {1u, t23}};
        return result;
    }
    t13 = at + 2ull;
    t24 = source.at + t13;
    t10 = *(uint8_t *)t24;
    c = (uint64_t)t10;
    t25 = c == 0ull;
    if (!t25) {
        t25 = 128ull <= c;
        t26 = t25;
        if (!t26) {
            goto after2;
        }
    }
    t27 = (answer_Refusal){answer_Refusal_bad_number};
    result = (Result_tuple_uint64_uint64_answer_Refusal){.err = {1u, t27}};
    return result;
    goto after1;
after2:;
after1:;
    t6 = a - 128ull;
    t13 = b - 128ull;
    t28 = t13 * 128ull;
    t29 = t6 + t28;
    t30 = c * 16384ull;
    t31 = t29 + t30;
    t32 = at + 3ull;
    t33 = (tuple_uint64_uint64){t31, t32};
    result = (Result_tuple_uint64_uint64_answer_Refusal){.ok = {0u, t33}};
    return result;
}

/* number, src/lib.rt:76: The number at a place where a number is known to stand, and the place after it. */
INLINE tuple_uint64_uint64 number_known_number(slice source, uint64_t at)
{
    tuple_uint64_uint64 result, known;
    Result_tuple_uint64_uint64_answer_Refusal t4;
    t4 = number_read_number(source, at);
    known = t4.ok.m1;
    result = known;
    return result;
}

/* field, src/noise.rt:13: Whether a number is a field's. */
INLINE bool field_noise_is_field(uint64_t field)
{
    bool result, t2;
    t2 = field == 1ull;
    if (!t2) {
        t2 = field == 2ull;
    }
    result = t2;
    return result;
}

/* field, src/noise.rt:27: Whether a noise value is admitted. */
INLINE bool field_noise_is_noise(uint64_t field, uint64_t value)
{
    bool result, t3, t4, t5;
    uint64_t t6;
    t3 = field == 1ull;
    if (t3) {
        t4 = value == 1ull;
    } else {
        t5 = 1ull <= value;
        if (t5) {
            t6 = 2305843009213693951ull - 1ull;
            t5 = value <= t6;
        }
        t4 = t5;
    }
    result = t4;
    return result;
}

/* field, src/bytes.rt:7: The word whose eight bytes begin at a place. */
INLINE uint64_t field_bytes_word_at(slice bytes, uint64_t at)
{
    uint64_t result, t5, t8, t11, t14, t17, t20, t23;
    char *t3, *t6, *t9, *t12, *t15, *t18, *t21, *t24;
    uint8_t t4, t7, t10, t13, t16, t19, t22, t25;
    uint8_8 t26;
    t3 = bytes.at + at;
    t4 = *(uint8_t *)t3;
    t5 = at + 1ull;
    t6 = bytes.at + t5;
    t7 = *(uint8_t *)t6;
    t8 = at + 2ull;
    t9 = bytes.at + t8;
    t10 = *(uint8_t *)t9;
    t11 = at + 3ull;
    t12 = bytes.at + t11;
    t13 = *(uint8_t *)t12;
    t14 = at + 4ull;
    t15 = bytes.at + t14;
    t16 = *(uint8_t *)t15;
    t17 = at + 5ull;
    t18 = bytes.at + t17;
    t19 = *(uint8_t *)t18;
    t20 = at + 6ull;
    t21 = bytes.at + t20;
    t22 = *(uint8_t *)t21;
    t23 = at + 7ull;
    t24 = bytes.at + t23;
    t25 = *(uint8_t *)t24;
    t26 = (uint8_8){{t4, t7, t10, t13, t16, t19, t22, t25}};
    result = core_u64_from_le_bytes(t26);
    return result;
}

/* field, src/block.rt:63: The block whose 16 bytes begin at a place. */
INLINE field_block_Block field_block_Block_read(slice bytes, uint64_t at)
{
    field_block_Block result;
    uint64_t t3, t4, t5;
    t3 = field_bytes_word_at(bytes, at);
    t5 = at + 8ull;
    t4 = field_bytes_word_at(bytes, t5);
    result = (field_block_Block){t3, t4};
    return result;
}

/* field, src/element.rt:50 */
INLINE field_element_Element field_element_ElementFromBlock_from(field_block_Block block)
{
    field_element_Element result;
    result = (field_element_Element){block.low, block.high};
    return result;
}

/* field, src/element.rt:61 */
INLINE field_element_Element field_element_ElementFromPrime_from(prime_prime_Prime prime)
{
    field_element_Element result;
    result = (field_element_Element){prime.word, 0ull};
    return result;
}

/* field, src/element.rt:89: The element whose bytes begin at a place; its second word is 0 where it has one. */
INLINE field_element_Element field_element_element_at(uint64_t field, slice bytes, uint64_t at)
{
    field_element_Element result, t5;
    bool t4;
    field_block_Block t6;
    uint64_t t7;
    prime_prime_Prime t8;
    t4 = field == 1ull;
    if (t4) {
        t6 = field_block_Block_read(bytes, at);
        t5 = field_element_ElementFromBlock_from(t6);
    } else {
        t7 = field_bytes_word_at(bytes, at);
        t8 = (prime_prime_Prime){t7};
        t5 = field_element_ElementFromPrime_from(t8);
    }
    result = t5;
    return result;
}

/* field, src/element.rt:155: Whether the words are an element. */
INLINE bool field_element_is_element(uint64_t field, field_element_Element a)
{
    bool result, t3;
    t3 = field == 1ull;
    if (!t3) {
        t3 = a.low < 2305843009213693951ull;
    }
    result = t3;
    return result;
}

/* field, src/element.rt:162: Whether the words are those of zero. */
INLINE bool field_element_is_zero(uint64_t field, field_element_Element a)
{
    bool result, t3, t4;
    t3 = a.low == 0ull;
    if (t3) {
        t4 = field != 1ull;
        if (!t4) {
            t4 = a.high == 0ull;
        }
        t3 = t4;
    }
    result = t3;
    return result;
}

/* field, src/element.rt:169: Whether the words are an element other than zero. */
INLINE bool field_element_is_scalar(uint64_t field, field_element_Element a)
{
    bool result, t3, t4;
    t3 = field_element_is_element(field, a);
    if (t3) {
        t4 = field_element_is_zero(field, a);
        t3 = !t4;
    }
    result = t3;
    return result;
}

/* field, src/element.rt:176: Whether a second word that no element of the field has is 0. */
INLINE bool field_element_rest_zero(uint64_t field, uint64_t high)
{
    bool result, t3;
    t3 = field == 1ull;
    if (!t3) {
        t3 = high == 0ull;
    }
    result = t3;
    return result;
}

/* field, src/width.rt:8: How many words an element of a field takes. */
INLINE uint64_t field_width_element_width(uint64_t field)
{
    uint64_t result, t3;
    bool t2;
    t2 = field == 1ull;
    if (t2) {
        t3 = 2ull;
    } else {
        t3 = 1ull;
    }
    result = t3;
    return result;
}

/* field, src/element.rt:70: How many bytes an element takes. */
INLINE uint64_t field_element_element_length(uint64_t field)
{
    uint64_t result, t2;
    t2 = field_width_element_width(field);
    result = 8ull * t2;
    return result;
}

/* field, src/block.rt:52: The element of a leaf: its 16 bytes. It and `columns` have names, which say what the four arrays are; `From`
 * would not. */
INLINE field_block_Block field_block_Block_of_columns(uint8_4_4 columns)
{
    field_block_Block result;
    uint8_4_4 columns_slot;
    uint8_t a, b, c, d, e, f, g, h, i, j, k, l, m, n, o, p;
    char *t19, *t20, *t21, *t22, *t23, *t24, *t25, *t26, *t27, *t28, *t29, *t30, *t31, *t32, *t33, *t34, *t35, *t36, *t37, *t38, *t39, *t40,
        *t41, *t42, *t43, *t44, *t45, *t46, *t47, *t48, *t49, *t50, *t51, *t52, *t53, *t54, *t55, *t56, *t57, *t58, *t59, *t60, *t61, *t62,
        *t63, *t64, *t65, *t66, *t67, *t68, *t69, *t70, *t71, *t72, *t73, *t74, *t75, *t76, *t77, *t78, *t79, *t80, *t81, *t82;
    uint64_t t83, t85;
    uint8_8 t84, t86;
    columns_slot = columns;
    t19 = (char *)&columns_slot;
    t20 = t19 + 0ull;
    t21 = t20;
    t22 = t21 + 0ull;
    t23 = (char *)&columns_slot;
    t24 = t23 + 0ull;
    t25 = t24;
    t26 = t25 + 1ull;
    t27 = (char *)&columns_slot;
    t28 = t27 + 0ull;
    t29 = t28;
    t30 = t29 + 2ull;
    t31 = (char *)&columns_slot;
    t32 = t31 + 0ull;
    t33 = t32;
    t34 = t33 + 3ull;
    t35 = (char *)&columns_slot;
    t36 = t35 + 4ull;
    t37 = t36;
    t38 = t37 + 0ull;
    t39 = (char *)&columns_slot;
    t40 = t39 + 4ull;
    t41 = t40;
    t42 = t41 + 1ull;
    t43 = (char *)&columns_slot;
    t44 = t43 + 4ull;
    t45 = t44;
    t46 = t45 + 2ull;
    t47 = (char *)&columns_slot;
    t48 = t47 + 4ull;
    t49 = t48;
    t50 = t49 + 3ull;
    t51 = (char *)&columns_slot;
    t52 = t51 + 8ull;
    t53 = t52;
    t54 = t53 + 0ull;
    t55 = (char *)&columns_slot;
    t56 = t55 + 8ull;
    t57 = t56;
    t58 = t57 + 1ull;
    t59 = (char *)&columns_slot;
    t60 = t59 + 8ull;
    t61 = t60;
    t62 = t61 + 2ull;
    t63 = (char *)&columns_slot;
    t64 = t63 + 8ull;
    t65 = t64;
    t66 = t65 + 3ull;
    t67 = (char *)&columns_slot;
    t68 = t67 + 12ull;
    t69 = t68;
    t70 = t69 + 0ull;
    t71 = (char *)&columns_slot;
    t72 = t71 + 12ull;
    t73 = t72;
    t74 = t73 + 1ull;
    t75 = (char *)&columns_slot;
    t76 = t75 + 12ull;
    t77 = t76;
    t78 = t77 + 2ull;
    t79 = (char *)&columns_slot;
    t80 = t79 + 12ull;
    t81 = t80;
    t82 = t81 + 3ull;
    a = *(uint8_t *)t22;
    b = *(uint8_t *)t26;
    c = *(uint8_t *)t30;
    d = *(uint8_t *)t34;
    e = *(uint8_t *)t38;
    f = *(uint8_t *)t42;
    g = *(uint8_t *)t46;
    h = *(uint8_t *)t50;
    i = *(uint8_t *)t54;
    j = *(uint8_t *)t58;
    k = *(uint8_t *)t62;
    l = *(uint8_t *)t66;
    m = *(uint8_t *)t70;
    n = *(uint8_t *)t74;
    o = *(uint8_t *)t78;
    p = *(uint8_t *)t82;
    t84 = (uint8_8){{a, b, c, d, e, f, g, h}};
    t83 = core_u64_from_le_bytes(t84);
    t86 = (uint8_8){{i, j, k, l, m, n, o, p}};
    t85 = core_u64_from_le_bytes(t86);
    result = (field_block_Block){t83, t85};
    return result;
}

/* field, src/block.rt:83: The 16 bytes of the two words as four columns. */
INLINE uint8_4_4 field_block_Block_columns(field_block_Block self)
{
    uint8_4_4 result;
    uint8_t a, b, c, d, e, f, g, h, i, j, k, l, m, n, o, p;
    uint8_8 t18, t19, t36, t37;
    char *t20, *t21, *t22, *t23, *t24, *t25, *t26, *t27, *t28, *t29, *t30, *t31, *t32, *t33, *t34, *t35, *t38, *t39, *t40, *t41, *t42, *t43,
        *t44, *t45, *t46, *t47, *t48, *t49, *t50, *t51, *t52, *t53;
    uint8_4 t54, t55, t56, t57;
    t18 = core_u64_to_le_bytes(self.low);
    t19 = t18;
    t20 = (char *)&t19;
    t21 = t20 + 0ull;
    t22 = (char *)&t19;
    t23 = t22 + 1ull;
    t24 = (char *)&t19;
    t25 = t24 + 2ull;
    t26 = (char *)&t19;
    t27 = t26 + 3ull;
    t28 = (char *)&t19;
    t29 = t28 + 4ull;
    t30 = (char *)&t19;
    t31 = t30 + 5ull;
    t32 = (char *)&t19;
    t33 = t32 + 6ull;
    t34 = (char *)&t19;
    t35 = t34 + 7ull;
    a = *(uint8_t *)t21;
    b = *(uint8_t *)t23;
    c = *(uint8_t *)t25;
    d = *(uint8_t *)t27;
    e = *(uint8_t *)t29;
    f = *(uint8_t *)t31;
    g = *(uint8_t *)t33;
    h = *(uint8_t *)t35;
    t36 = core_u64_to_le_bytes(self.high);
    t37 = t36;
    t38 = (char *)&t37;
    t39 = t38 + 0ull;
    t40 = (char *)&t37;
    t41 = t40 + 1ull;
    t42 = (char *)&t37;
    t43 = t42 + 2ull;
    t44 = (char *)&t37;
    t45 = t44 + 3ull;
    t46 = (char *)&t37;
    t47 = t46 + 4ull;
    t48 = (char *)&t37;
    t49 = t48 + 5ull;
    t50 = (char *)&t37;
    t51 = t50 + 6ull;
    t52 = (char *)&t37;
    t53 = t52 + 7ull;
    i = *(uint8_t *)t39;
    j = *(uint8_t *)t41;
    k = *(uint8_t *)t43;
    l = *(uint8_t *)t45;
    m = *(uint8_t *)t47;
    n = *(uint8_t *)t49;
    o = *(uint8_t *)t51;
    p = *(uint8_t *)t53;
    t54 = (uint8_4){{a, b, c, d}};
    t55 = (uint8_4){{e, f, g, h}};
    t56 = (uint8_4){{i, j, k, l}};
    t57 = (uint8_4){{m, n, o, p}};
    result = (uint8_4_4){{t54, t55, t56, t57}};
    return result;
}

/* field, src/block.rt:28: The sum, which is exclusive or. */
INLINE field_block_Block field_block_Block_add(field_block_Block self, field_block_Block other)
{
    field_block_Block result;
    uint64_t t3, t4;
    t3 = self.low ^ other.low;
    t4 = self.high ^ other.high;
    result = (field_block_Block){t3, t4};
    return result;
}

/* field, src/bytes.rt:25: Writes the eight bytes of a word from a place on. */
INLINE void field_bytes_put_word(slice bytes, uint64_t at, uint64_t word)
{
    uint64_t t5, t7;
    char *t6, *t8, *t12;
    slice t9, t13;
    uint8_8 t10, t11;
    t5 = at + 8ull;
    t6 = bytes.at + at;
    t7 = t5 - at;
    t8 = t6;
    t9 = (slice){t8, t7};
    t10 = core_u64_to_le_bytes(word);
    t11 = t10;
    t12 = (char *)&t11;
    t13 = (slice){t12, 8ull};
    core_slice_copy_from_slice_uint8(t9, t13);
}

/* field, src/block.rt:74: Writes the block's 16 bytes from a place on. */
INLINE void field_block_Block_write(field_block_Block self, slice bytes, uint64_t at)
{
    char *t5, *t7;
    slice t6, t8;
    uint64_t t9;
    t5 = bytes.at;
    t6 = (slice){t5, bytes.count};
    field_bytes_put_word(t6, at, self.low);
    t7 = bytes.at;
    t8 = (slice){t7, bytes.count};
    t9 = at + 8ull;
    field_bytes_put_word(t8, t9, self.high);
}

/* field, src/element.rt:77: The element of a leaf. */
INLINE field_element_Element field_element_leaf_element(uint64_t field, uint8_4_4 leaf)
{
    field_element_Element result, t5;
    field_block_Block block;
    bool t4;
    prime_prime_Prime t6;
    block = field_block_Block_of_columns(leaf);
    t4 = field == 1ull;
    if (t4) {
        t5 = field_element_ElementFromBlock_from(block);
    } else {
        t6 = prime_prime_Prime_reduce(block.low);
        t5 = field_element_ElementFromPrime_from(t6);
    }
    result = t5;
    return result;
}

/* field, src/element.rt:30: As an element of field 1. */
INLINE field_block_Block field_element_Element_block(field_element_Element self)
{
    field_block_Block result;
    result = (field_block_Block){self.low, self.high};
    return result;
}

/* field, src/block.rt:45: The block if the noise value is 1, else zero. */
INLINE field_block_Block field_block_Block_scale(field_block_Block self, uint64_t bit)
{
    field_block_Block result, t4;
    bool t3;
    t3 = bit == 1ull;
    if (t3) {
        t4 = self;
    } else {
        t4 = (field_block_Block){0ull, 0ull};
    }
    result = t4;
    return result;
}

/* field, src/element.rt:40: As an element of field 2, which its first word is. */
INLINE prime_prime_Prime field_element_Element_prime(field_element_Element self)
{
    prime_prime_Prime result;
    result = (prime_prime_Prime){self.low};
    return result;
}

/* field, src/element.rt:137: A noise value times an element. */
INLINE field_element_Element field_element_element_scaled(uint64_t field, uint64_t value, field_element_Element a)
{
    field_element_Element result, t5;
    bool t4;
    field_block_Block t6, t7;
    prime_prime_Prime t8, t9, t10;
    t4 = field == 1ull;
    if (t4) {
        t7 = field_element_Element_block(a);
        t6 = field_block_Block_scale(t7, value);
        t5 = field_element_ElementFromBlock_from(t6);
    } else {
        t9 = (prime_prime_Prime){value};
        t10 = field_element_Element_prime(a);
        t8 = prime_prime_Prime_mul(t9, t10);
        t5 = field_element_ElementFromPrime_from(t8);
    }
    result = t5;
    return result;
}

/* field, src/block.rt:38: The difference, which is the sum. */
INLINE field_block_Block field_block_Block_sub(field_block_Block self, field_block_Block other)
{
    field_block_Block result;
    result = field_block_Block_add(self, other);
    return result;
}

/* field, src/element.rt:126: The difference of two elements. */
INLINE field_element_Element field_element_element_difference(uint64_t field, field_element_Element a, field_element_Element b)
{
    field_element_Element result, t5;
    bool t4;
    field_block_Block t6, t7, t8;
    prime_prime_Prime t9, t10, t11;
    t4 = field == 1ull;
    if (t4) {
        t7 = field_element_Element_block(a);
        t8 = field_element_Element_block(b);
        t6 = field_block_Block_sub(t7, t8);
        t5 = field_element_ElementFromBlock_from(t6);
    } else {
        t10 = field_element_Element_prime(a);
        t11 = field_element_Element_prime(b);
        t9 = prime_prime_Prime_sub(t10, t11);
        t5 = field_element_ElementFromPrime_from(t9);
    }
    result = t5;
    return result;
}

/* field, src/noise.rt:20: Whether 1 is the only noise value that is admitted, so that records do not write it. */
INLINE bool field_noise_one_noise(uint64_t field)
{
    bool result;
    result = field == 1ull;
    return result;
}

/* field, src/element.rt:183: Writes the bytes of an element from a place on. */
INLINE void field_element_put_element(uint64_t field, slice bytes, uint64_t at, field_element_Element element)
{
    char *t6, *t10;
    slice t7, t11;
    bool t8;
    uint64_t t12;
    t6 = bytes.at;
    t7 = (slice){t6, bytes.count};
    field_bytes_put_word(t7, at, element.low);
    t8 = field == 1ull;
    if (t8) {
        t10 = bytes.at;
        t11 = (slice){t10, bytes.count};
        t12 = at + 8ull;
        field_bytes_put_word(t11, t12, element.high);
    }
}

/* field, src/parts.rt:57 */
INLINE field_block_Block field_parts_BlockFieldElement_at(slice words, uint64_t i)
{
    field_block_Block result;
    uint64_t t3, t6, t7, t8, t11;
    char *t5, *t10;
    t3 = i * 2ull;
    t5 = (char *)((uint64_t *)words.at + t3);
    t6 = *(uint64_t *)t5;
    t7 = i * 2ull;
    t8 = t7 + 1ull;
    t10 = (char *)((uint64_t *)words.at + t8);
    t11 = *(uint64_t *)t10;
    result = (field_block_Block){t6, t11};
    return result;
}

/* field, src/parts.rt:45 */
INLINE field_block_Block field_parts_BlockFieldElement_add(field_block_Block self, field_block_Block other)
{
    field_block_Block result;
    result = field_block_Block_add(self, other);
    return result;
}

/* field, src/parts.rt:64 */
INLINE void field_parts_BlockFieldElement_put(field_block_Block self, slice words, uint64_t i)
{
    uint64_t t4, t5, t6, t8;
    char *t7, *t10;
    t4 = self.low;
    t5 = i * 2ull;
    t6 = t5 * 8ull;
    t7 = (char *)((uint64_t *)words.at + t5);
    *(uint64_t *)t7 = t4;
    t8 = self.high;
    t5 = i * 2ull;
    t6 = t5 + 1ull;
    t10 = (char *)((uint64_t *)words.at + t6);
    *(uint64_t *)t10 = t8;
}

/* field, src/parts.rt:89 */
INLINE prime_prime_Prime field_parts_PrimeFieldElement_at(slice words, uint64_t i)
{
    prime_prime_Prime result;
    char *t4;
    uint64_t t5;
    t4 = (char *)((uint64_t *)words.at + i);
    t5 = *(uint64_t *)t4;
    result = (prime_prime_Prime){t5};
    return result;
}

/* field, src/parts.rt:77 */
INLINE prime_prime_Prime field_parts_PrimeFieldElement_add(prime_prime_Prime self, prime_prime_Prime other)
{
    prime_prime_Prime result;
    result = prime_prime_Prime_add(self, other);
    return result;
}

/* field, src/parts.rt:93 */
INLINE void field_parts_PrimeFieldElement_put(prime_prime_Prime self, slice words, uint64_t i)
{
    uint64_t t4;
    char *t6;
    t4 = self.word;
    t6 = (char *)((uint64_t *)words.at + i);
    *(uint64_t *)t6 = t4;
}

/* field, src/parts.rt:41 */
INLINE field_block_Block field_parts_BlockFieldElement_zero(void)
{
    field_block_Block result;
    result = (field_block_Block){0ull, 0ull};
    return result;
}

/* field, src/parts.rt:53 */
INLINE uint64_t field_parts_BlockFieldElement_count(slice words)
{
    uint64_t result, t2;
    t2 = words.count;
    result = t2 / 2ull;
    return result;
}

/* field, src/parts.rt:73 */
INLINE prime_prime_Prime field_parts_PrimeFieldElement_zero(void)
{
    prime_prime_Prime result;
    result = (prime_prime_Prime){0ull};
    return result;
}

/* field, src/parts.rt:85 */
INLINE uint64_t field_parts_PrimeFieldElement_count(slice words)
{
    uint64_t result;
    result = words.count;
    return result;
}

/* field, src/parts.rt:102 */
INLINE uint64_t field_parts_U64FieldElement_zero(void)
{
    uint64_t result;
    result = 0ull;
    return result;
}

/* field, src/parts.rt:114 */
INLINE uint64_t field_parts_U64FieldElement_count(slice words)
{
    uint64_t result;
    result = words.count;
    return result;
}

/* field, src/parts.rt:118 */
INLINE uint64_t field_parts_U64FieldElement_at(slice words, uint64_t i)
{
    uint64_t result, t5;
    char *t4;
    t4 = (char *)((uint64_t *)words.at + i);
    t5 = *(uint64_t *)t4;
    result = t5;
    return result;
}

/* field, src/block.rt:93: The sum of two noise values of field 1. */
INLINE uint64_t field_block_add_bits(uint64_t a, uint64_t b)
{
    uint64_t result, t3, t4, t5;
    t3 = a % 2ull;
    t4 = b % 2ull;
    t5 = t3 + t4;
    result = t5 % 2ull;
    return result;
}

/* field, src/parts.rt:106 */
INLINE uint64_t field_parts_U64FieldElement_add(uint64_t self, uint64_t other)
{
    uint64_t result;
    result = field_block_add_bits(self, other);
    return result;
}

/* field, src/parts.rt:122 */
INLINE void field_parts_U64FieldElement_put(uint64_t self, slice words, uint64_t i)
{
    char *t5;
    t5 = (char *)((uint64_t *)words.at + i);
    *(uint64_t *)t5 = self;
}

/* field, src/block.rt:20: The zero of the element kind: the constant as a constructor too, as `Prime` has it (docs/PROMISES.md, 13.2). */
INLINE field_block_Block field_block_Block_zero(void)
{
    field_block_Block result;
    result = (field_block_Block){0ull, 0ull};
    return result;
}

/* field, src/noise.rt:38: The coefficient of a term's word. */
INLINE uint64_t field_noise_coefficient(uint64_t field, uint64_t word)
{
    uint64_t result, t4;
    bool t3;
    prime_prime_Prime t5;
    t3 = field == 1ull;
    if (t3) {
        t4 = 1ull;
    } else {
        t5 = prime_prime_Prime_reduce(word);
        t4 = t5.word;
    }
    result = t4;
    return result;
}

/* field, src/element.rt:115: The sum of two elements. It and the difference are a line a field: one function of both would take the
 * operations as two closures. */
INLINE field_element_Element field_element_element_sum(uint64_t field, field_element_Element a, field_element_Element b)
{
    field_element_Element result, t5;
    bool t4;
    field_block_Block t6, t7, t8;
    prime_prime_Prime t9, t10, t11;
    t4 = field == 1ull;
    if (t4) {
        t7 = field_element_Element_block(a);
        t8 = field_element_Element_block(b);
        t6 = field_block_Block_add(t7, t8);
        t5 = field_element_ElementFromBlock_from(t6);
    } else {
        t10 = field_element_Element_prime(a);
        t11 = field_element_Element_prime(b);
        t9 = prime_prime_Prime_add(t10, t11);
        t5 = field_element_ElementFromPrime_from(t9);
    }
    result = t5;
    return result;
}

/* field, src/noise.rt:49: The sum of two noise values. */
INLINE uint64_t field_noise_noise_sum(uint64_t field, uint64_t a, uint64_t b)
{
    uint64_t result, t5;
    bool t4;
    prime_prime_Prime t6, t7, t8;
    t4 = field == 1ull;
    if (t4) {
        t5 = field_block_add_bits(a, b);
    } else {
        t7 = (prime_prime_Prime){a};
        t8 = (prime_prime_Prime){b};
        t6 = prime_prime_Prime_add(t7, t8);
        t5 = t6.word;
    }
    result = t5;
    return result;
}

/* record, src/writing.rt:130: How many bytes a head takes. Five sizes and no `Layout`, since a layout holds the place after its head,
 * which is this length. */
INLINE uint64_t record_writing_head_length(uint64_t depth, uint64_t branch_bits, uint64_t trees, uint64_t terms, uint64_t outputs)
{
    uint64_t result, up_to_trees, from_terms, t8, t9, t10, t11;
    t8 = number_number_length(depth);
    t9 = number_number_length(branch_bits);
    t10 = t8 + t9;
    t11 = number_number_length(trees);
    up_to_trees = t10 + t11;
    t8 = number_number_length(terms);
    t11 = number_number_length(outputs);
    from_terms = t8 + t11;
    t10 = up_to_trees + from_terms;
    t11 = 2ull + t10;
    result = t11 + 32ull;
    return result;
}

/* record, src/sizes.rt:6: The number of leaves of a tree. `power` of `tree_walk`, which rests on no record, says the same of any count
 * of bits below 64. */
INLINE uint64_t record_sizes_leaves(uint64_t depth)
{
    uint64_t result;
    result = 1ull << depth;
    return result;
}

/* record, src/writing.rt:145: How many bytes a tree takes up to its siblings. */
INLINE uint64_t record_writing_tree_start_length(uint64_t base, uint64_t position)
{
    uint64_t result, t3, t4;
    t4 = position - base;
    t3 = number_number_length(t4);
    result = t3 + 16ull;
    return result;
}

/* record, src/sizes.rt:14: The siblings of a tree of a depth with 2^g children a node. */
INLINE uint64_t record_sizes_sibling_count(uint64_t depth, uint64_t branch_bits)
{
    uint64_t result, t3, t4, t5;
    t3 = depth / branch_bits;
    t4 = record_sizes_leaves(branch_bits);
    t5 = t4 - 1ull;
    result = t3 * t5;
    return result;
}

/* record, src/writing.rt:153: How many bytes a tree takes, after positions below `base`. */
INLINE uint64_t record_writing_tree_length(record_Layout layout, uint64_t base, uint64_t position)
{
    uint64_t result, t4, t5, t6;
    t4 = record_writing_tree_start_length(base, position);
    t5 = record_sizes_sibling_count(layout.depth, layout.branch_bits);
    t6 = 16ull * t5;
    result = t4 + t6;
    return result;
}

/* record, src/writing.rt:169: How many bytes the noise record takes. The loop carries what the next position is written from. */
static uint64_t record_writing_noise_length(record_Layout layout, slice positions)
{
    uint64_t result, total, base, position_index, position_2, position_index_end, t13;
    char *position, *t11;
    bool t9;
    uint32_t t12;
    total = layout.body;
    base = 0ull;
    position_index = 0ull;
    position_index_end = positions.count;
    for (;;) {
        t9 = position_index < position_index_end;
        if (!t9) {
            break;
        }
        t11 = (char *)((uint32_t *)positions.at + position_index);
        position = t11;
        t12 = *(uint32_t *)position;
        position_2 = (uint64_t)t12;
        t13 = record_writing_tree_length(layout, base, position_2);
        total = total + t13;
        base = position_2 + 1ull;
        position_index = position_index + 1ull;
    }
    result = total;
    return result;
}

/* record, src/writing.rt:161: How many bytes the scalar record takes. It goes by the sizes alone, and the noise record's length by the
 * positions too: so they are two. */
INLINE uint64_t record_writing_scalar_length(record_Layout layout)
{
    uint64_t result, t2, t3, t4;
    t2 = field_element_element_length(layout.field);
    t3 = 16ull * layout.trees;
    t4 = t2 + t3;
    result = layout.body + t4;
    return result;
}

/* record, src/lib.rt:28: The end byte. By name: a `From` would say of a `u8` neither that it is a byte of a record nor which. */
INLINE uint8_t record_End_byte(record_End self)
{
    uint8_t result, t2;
    t2 = self.tag;
    result = (uint8_t)((uint32_t)t2 + 1u);
    return result;
}

/* record, src/writing.rt:51: Writes g, t, ℓ and n from a place on; the place after them. */
INLINE uint64_t record_writing_write_after_depth(slice buffer, uint64_t at, record_Layout layout)
{
    uint64_t result, at4, at5, at6;
    char *t7, *t9, *t11, *t13;
    slice t8, t10, t12, t14;
    t7 = buffer.at;
    t8 = (slice){t7, buffer.count};
    at4 = number_write_number(t8, at, layout.branch_bits);
    t9 = buffer.at;
    t10 = (slice){t9, buffer.count};
    at5 = number_write_number(t10, at4, layout.trees);
    t11 = buffer.at;
    t12 = (slice){t11, buffer.count};
    at6 = number_write_number(t12, at5, layout.terms);
    t13 = buffer.at;
    t14 = (slice){t13, buffer.count};
    result = number_write_number(t14, at6, layout.outputs);
    return result;
}

/* record, src/writing.rt:62: Writes d, g, t, ℓ and n after the field byte; the place after them. */
INLINE uint64_t record_writing_write_sizes(slice buffer, record_Layout layout)
{
    uint64_t result, at;
    char *t4, *t6;
    slice t5, t7;
    t4 = buffer.at;
    t5 = (slice){t4, buffer.count};
    at = number_write_number(t5, 2ull, layout.depth);
    t6 = buffer.at;
    t7 = (slice){t6, buffer.count};
    result = record_writing_write_after_depth(t7, at, layout);
    return result;
}

/* record, src/writing.rt:19: Writes bytes from a place on; the place after them. Byte by byte: `copy_from_slice` here makes the archive
 * ask for `memmove`. */
static uint64_t record_writing_write_bytes(slice buffer, uint64_t at, slice bytes)
{
    uint64_t result, i, i_end, t9, t11;
    bool t6;
    char *t7, *t10;
    uint8_t t8;
    i = 0ull;
    i_end = bytes.count;
    for (;;) {
        t6 = i < i_end;
        if (!t6) {
            break;
        }
        t7 = bytes.at + i;
        t8 = *(uint8_t *)t7;
        t9 = at + i;
        t10 = buffer.at + t9;
        *(uint8_t *)t10 = t8;
        i = i + 1ull;
    }
    t11 = bytes.count;
    result = at + t11;
    return result;
}

/* record, src/writing.rt:71: Writes the head of a record at the buffer's front; the place after it. */
INLINE uint64_t record_writing_write_head(slice buffer, record_End end, record_Layout layout, slice code_key, slice label)
{
    uint64_t result, at, next;
    uint8_t t8;
    char *t9, *t10, *t11, *t13, *t15;
    slice t12, t14, t16;
    t8 = record_End_byte(end);
    t9 = buffer.at + 0ull;
    *(uint8_t *)t9 = t8;
    t8 = (uint8_t)layout.field;
    t10 = buffer.at + 1ull;
    *(uint8_t *)t10 = t8;
    t11 = buffer.at;
    t12 = (slice){t11, buffer.count};
    at = record_writing_write_sizes(t12, layout);
    t13 = buffer.at;
    t14 = (slice){t13, buffer.count};
    next = record_writing_write_bytes(t14, at, code_key);
    t15 = buffer.at;
    t16 = (slice){t15, buffer.count};
    result = record_writing_write_bytes(t16, next, label);
    return result;
}

/* record, src/writing.rt:30: Writes a noise value from a place on, none where it is always 1; the place after it. */
INLINE uint64_t record_writing_write_value(slice buffer, uint64_t at, uint64_t field, uint64_t value)
{
    uint64_t result;
    bool t5;
    char *t7;
    slice t8;
    t5 = field_noise_one_noise(field);
    if (t5) {
        result = at;
        return result;
    }
    t7 = buffer.at;
    t8 = (slice){t7, buffer.count};
    field_bytes_put_word(t8, at, value);
    result = at + 8ull;
    return result;
}

/* record, src/writing.rt:42: Writes an element from a place on; the place after it. */
INLINE uint64_t record_writing_write_element(slice buffer, uint64_t at, uint64_t field, field_element_Element element)
{
    uint64_t result, t8;
    char *t6;
    slice t7;
    t6 = buffer.at;
    t7 = (slice){t6, buffer.count};
    field_element_put_element(field, t7, at, element);
    t8 = field_element_element_length(field);
    result = at + t8;
    return result;
}

/* record, src/writing.rt:91: Writes a tree up to its siblings from a place on, its position as the number `back`; the place of the
 * siblings. No `Tree`, since one holds the place that is the answer here. */
INLINE uint64_t record_writing_write_tree_start(slice buffer, uint64_t at, uint64_t field, uint64_t back, uint64_t value,
    field_element_Element correction)
{
    uint64_t result, next, middle;
    char *t9, *t11, *t13;
    slice t10, t12, t14;
    t9 = buffer.at;
    t10 = (slice){t9, buffer.count};
    next = number_write_number(t10, at, back);
    t11 = buffer.at;
    t12 = (slice){t11, buffer.count};
    middle = record_writing_write_value(t12, next, field, value);
    t13 = buffer.at;
    t14 = (slice){t13, buffer.count};
    result = record_writing_write_element(t14, middle, field, correction);
    return result;
}

/* record, src/writing.rt:109: Writes the scalar record at the buffer's front; its length. */
INLINE uint64_t record_writing_write_scalar(slice buffer, record_Layout layout, slice code_key, slice label, field_element_Element delta,
    slice roots)
{
    uint64_t result, at, next;
    char *t9, *t12, *t14;
    slice t10, t13, t15;
    record_End t11;
    t9 = buffer.at;
    t10 = (slice){t9, buffer.count};
    t11 = (record_End){record_End_scalar};
    at = record_writing_write_head(t10, t11, layout, code_key, label);
    t12 = buffer.at;
    t13 = (slice){t12, buffer.count};
    next = record_writing_write_element(t13, at, layout.field, delta);
    t14 = buffer.at;
    t15 = (slice){t14, buffer.count};
    result = record_writing_write_bytes(t15, next, roots);
    return result;
}

/* record, src/lib.rt:40 */
INLINE Result_record_End_answer_Refusal record_EndTryFromU8_try_from(uint8_t byte)
{
    Result_record_End_answer_Refusal result, t2;
    record_End t3, t4;
    answer_Refusal t5;
    switch (byte) {
    case 1:
        t3 = (record_End){record_End_noise};
        t2 = (Result_record_End_answer_Refusal){.ok = {0u, t3}};
        break;
    case 2:
        t4 = (record_End){record_End_scalar};
        t2 = (Result_record_End_answer_Refusal){.ok = {0u, t4}};
        break;
    default:
        t5 = (answer_Refusal){answer_Refusal_wrong_end};
        t2 = (Result_record_End_answer_Refusal){.err = {1u, t5}};
        break;
    }
    result = t2;
    return result;
}

/* circuit::gates::fn::read_within::tested, a closure */
INLINE bool circuit_gates_fn_read_within_tested(circuit_gates_fn_read_within_tested_Self_ref_uint64_ref self, uint64_t n)
{
    bool result, t5, t6;
    char *most, *least;
    uint64_t t7, t8;
    least = self.m0;
    most = self.m1;
    t7 = *(uint64_t *)least;
    t6 = t7 <= n;
    if (t6) {
        t8 = *(uint64_t *)most;
        t6 = n <= t8;
    }
    t5 = t6;
    result = t5;
    return result;
}

/* circuit::gates::fn::read_within::tested+FnOnce::call_once, a closure */
INLINE bool circuit_gates_fn_read_within_tested_FnOnce_call_once(circuit_gates_fn_read_within_tested_Self_ref_uint64_ref arg1, uint64_t
    arg2)
{
    bool result;
    result = circuit_gates_fn_read_within_tested(arg1, arg2);
    return result;
}

/* number, src/lib.rt:17, at u64 and a closure: What was read, where it passes a test; else refused. */
INLINE Result_tuple_uint64_uint64_answer_Refusal
    number_tested_uint64_circuit_gates_fn_read_within_tested(Result_tuple_uint64_uint64_answer_Refusal read, answer_Refusal refusal,
    circuit_gates_fn_read_within_tested_Self_ref_uint64_ref test)
{
    Result_tuple_uint64_uint64_answer_Refusal result, t10;
    uint64_t value, at;
    tuple_uint64_uint64 t6, t8, t11, t15;
    ErrResidual_answer_Refusal t7;
    ControlFlow_ErrResidual_answer_Refusal_tuple_uint64_uint64 t9;
    bool t12, t14;
    circuit_gates_fn_read_within_tested_Self_ref_uint64_ref t13;
    t10 = read;
    t9 = core_ResultTry_branch_tuple_uint64_uint64_answer_Refusal(t10);
    switch (t9.continue_.tag) {
    case 0:
        t6 = t9.continue_.m1;
        t11 = t6;
        break;
    default:
        t7 = t9.break_.m1;
        result = core_ResultFromResidualErrResidual_from_residual_tuple(t7);
        return result;
    }
    t8 = t11;
    value = t8.m0;
    at = t8.m1;
    t13 = test;
    t12 = circuit_gates_fn_read_within_tested_FnOnce_call_once(t13, value);
    t14 = !t12;
    if (t14) {
        result = (Result_tuple_uint64_uint64_answer_Refusal){.err = {1u, refusal}};
        return result;
    }
    t15 = (tuple_uint64_uint64){value, at};
    result = (Result_tuple_uint64_uint64_answer_Refusal){.ok = {0u, t15}};
    return result;
}

/* circuit, src/gates.rt:19: A number from the least to the most, and the place after it. */
INLINE Result_tuple_uint64_uint64_answer_Refusal circuit_gates_read_within(slice source, uint64_t at, uint64_t least, uint64_t most)
{
    Result_tuple_uint64_uint64_answer_Refusal result, t7;
    uint64_t least_slot, most_slot;
    answer_Refusal t8;
    char *t9, *t10;
    circuit_gates_fn_read_within_tested_Self_ref_uint64_ref t11;
    least_slot = least;
    most_slot = most;
    t7 = number_read_number(source, at);
    t8 = (answer_Refusal){answer_Refusal_bad_circuit};
    t9 = (char *)&least_slot;
    t10 = (char *)&most_slot;
    t11 = (circuit_gates_fn_read_within_tested_Self_ref_uint64_ref){t9, t10};
    result = number_tested_uint64_circuit_gates_fn_read_within_tested(t7, t8, t11);
    return result;
}

/* circuit::gates::fn::read_wire::tested, a closure */
INLINE bool circuit_gates_fn_read_wire_tested(circuit_gates_fn_read_wire_tested_Self_ref_uint64 self, uint64_t wire)
{
    bool result, t4;
    char *limit;
    uint64_t t5;
    limit = self.m0;
    t5 = *(uint64_t *)limit;
    t4 = wire < t5;
    result = t4;
    return result;
}

/* circuit::gates::fn::read_wire::tested+FnOnce::call_once, a closure */
INLINE bool circuit_gates_fn_read_wire_tested_FnOnce_call_once(circuit_gates_fn_read_wire_tested_Self_ref_uint64 arg1, uint64_t arg2)
{
    bool result;
    result = circuit_gates_fn_read_wire_tested(arg1, arg2);
    return result;
}

/* number, src/lib.rt:17, at u64 and a closure: What was read, where it passes a test; else refused. */
INLINE Result_tuple_uint64_uint64_answer_Refusal
    number_tested_uint64_circuit_gates_fn_read_wire_tested_Self(Result_tuple_uint64_uint64_answer_Refusal read, answer_Refusal refusal,
    circuit_gates_fn_read_wire_tested_Self_ref_uint64 test)
{
    Result_tuple_uint64_uint64_answer_Refusal result, t10;
    uint64_t value, at;
    tuple_uint64_uint64 t6, t8, t11, t15;
    ErrResidual_answer_Refusal t7;
    ControlFlow_ErrResidual_answer_Refusal_tuple_uint64_uint64 t9;
    bool t12, t14;
    circuit_gates_fn_read_wire_tested_Self_ref_uint64 t13;
    t10 = read;
    t9 = core_ResultTry_branch_tuple_uint64_uint64_answer_Refusal(t10);
    switch (t9.continue_.tag) {
    case 0:
        t6 = t9.continue_.m1;
        t11 = t6;
        break;
    default:
        t7 = t9.break_.m1;
        result = core_ResultFromResidualErrResidual_from_residual_tuple(t7);
        return result;
    }
    t8 = t11;
    value = t8.m0;
    at = t8.m1;
    t13 = test;
    t12 = circuit_gates_fn_read_wire_tested_FnOnce_call_once(t13, value);
    t14 = !t12;
    if (t14) {
        result = (Result_tuple_uint64_uint64_answer_Refusal){.err = {1u, refusal}};
        return result;
    }
    t15 = (tuple_uint64_uint64){value, at};
    result = (Result_tuple_uint64_uint64_answer_Refusal){.ok = {0u, t15}};
    return result;
}

/* circuit, src/gates.rt:34: A wire below a limit, and the place after it. */
INLINE Result_tuple_uint64_uint64_answer_Refusal circuit_gates_read_wire(slice source, uint64_t at, uint64_t limit)
{
    Result_tuple_uint64_uint64_answer_Refusal result, t5;
    uint64_t limit_slot;
    answer_Refusal t6;
    char *t7;
    circuit_gates_fn_read_wire_tested_Self_ref_uint64 t8;
    limit_slot = limit;
    t5 = number_read_number(source, at);
    t6 = (answer_Refusal){answer_Refusal_bad_circuit};
    t7 = (char *)&limit_slot;
    t8 = (circuit_gates_fn_read_wire_tested_Self_ref_uint64){t7};
    result = number_tested_uint64_circuit_gates_fn_read_wire_tested_Self(t5, t6, t8);
    return result;
}

/* circuit, src/gates.rt:44: The gate at a wire, and the place after it. */
INLINE Result_tuple_circuit_Gate_uint64_answer_Refusal circuit_gates_read_gate(slice source, uint64_t at, uint64_t wire)
{
    Result_tuple_circuit_Gate_uint64_answer_Refusal result;
    uint64_t kind, at_2, first, at_3, second, at_4;
    tuple_uint64_uint64 t6, t10, t14, t16, t19, t20, t22, t26, t28;
    ErrResidual_answer_Refusal t7, t11, t15;
    ControlFlow_ErrResidual_answer_Refusal_tuple_uint64_uint64 t17, t21, t27;
    Result_tuple_uint64_uint64_answer_Refusal t18;
    bool t23;
    circuit_Gate t24, t29, t31;
    tuple_circuit_Gate_uint64 t25, t30, t32;
    t18 = circuit_gates_read_within(source, at, 1ull, 3ull);
    t17 = core_ResultTry_branch_tuple_uint64_uint64_answer_Refusal(t18);
    switch (t17.continue_.tag) {
    case 0:
        t6 = t17.continue_.m1;
        t19 = t6;
        break;
    default:
        t7 = t17.break_.m1;
        result = core_ResultFromResidualErrResidual_from_residual_tuple_4(t7);
        return result;
    }
    t16 = t19;
    kind = t16.m0;
    at_2 = t16.m1;
    t18 = circuit_gates_read_wire(source, at_2, wire);
    t21 = core_ResultTry_branch_tuple_uint64_uint64_answer_Refusal(t18);
    switch (t21.continue_.tag) {
    case 0:
        t10 = t21.continue_.m1;
        t22 = t10;
        break;
    default:
        t11 = t21.break_.m1;
        result = core_ResultFromResidualErrResidual_from_residual_tuple_4(t11);
        return result;
    }
    t20 = t22;
    first = t20.m0;
    at_3 = t20.m1;
    t23 = kind == 3ull;
    if (t23) {
        t24 = (circuit_Gate){.not = {2u, first}};
        t25 = (tuple_circuit_Gate_uint64){t24, at_3};
        result = (Result_tuple_circuit_Gate_uint64_answer_Refusal){.ok = {0u, t25}};
        return result;
    }
    t18 = circuit_gates_read_wire(source, at_3, wire);
    t27 = core_ResultTry_branch_tuple_uint64_uint64_answer_Refusal(t18);
    switch (t27.continue_.tag) {
    case 0:
        t14 = t27.continue_.m1;
        t28 = t14;
        break;
    default:
        t15 = t27.break_.m1;
        result = core_ResultFromResidualErrResidual_from_residual_tuple_4(t15);
        return result;
    }
    t26 = t28;
    second = t26.m0;
    at_4 = t26.m1;
    t23 = kind == 1ull;
    if (t23) {
        t29 = (circuit_Gate){.xor = {0u, first, second}};
        t30 = (tuple_circuit_Gate_uint64){t29, at_4};
        result = (Result_tuple_circuit_Gate_uint64_answer_Refusal){.ok = {0u, t30}};
        return result;
    }
    t31 = (circuit_Gate){.and = {1u, first, second}};
    t32 = (tuple_circuit_Gate_uint64){t31, at_4};
    result = (Result_tuple_circuit_Gate_uint64_answer_Refusal){.ok = {0u, t32}};
    return result;
}

/* circuit, src/lib.rt:39: Whether the gate is an AND. */
INLINE bool circuit_Gate_is_and(circuit_Gate self)
{
    bool result, t2;
    switch (self.xor.tag) {
    case 1:
        t2 = true;
        break;
    default:
        t2 = false;
        break;
    }
    result = t2;
    return result;
}

/* circuit, src/gates.rt:61: Gates, the first at wire `inputs`: how many ANDs they are, and the place after them. The place goes by hand
 * here and in `read_wires`: a turn may refuse, and the last place is the answer. */
static Result_tuple_uint64_uint64_answer_Refusal circuit_gates_read_gates(slice source, uint64_t body, uint64_t gates, uint64_t inputs)
{
    Result_tuple_uint64_uint64_answer_Refusal result;
    uint64_t at, ands, i, next, t16;
    circuit_Gate gate;
    tuple_circuit_Gate_uint64 t10, t13, t17;
    ErrResidual_answer_Refusal t11;
    bool t12;
    ControlFlow_ErrResidual_answer_Refusal_tuple_circuit_Gate t14;
    Result_tuple_circuit_Gate_uint64_answer_Refusal t15;
    tuple_uint64_uint64 t18;
    at = body;
    ands = 0ull;
    i = 0ull;
    for (;;) {
        t12 = i < gates;
        if (!t12) {
            break;
        }
        t16 = inputs + i;
        t15 = circuit_gates_read_gate(source, at, t16);
        t14 = core_ResultTry_branch_tuple_circuit_Gate_uint64_answer(t15);
        switch (t14.continue_.tag) {
        case 0:
            t10 = t14.continue_.m1;
            t17 = t10;
            break;
        default:
            t11 = t14.break_.m1;
            result = core_ResultFromResidualErrResidual_from_residual_tuple(t11);
            return result;
        }
        t13 = t17;
        gate = t13.m0;
        next = t13.m1;
        t12 = circuit_Gate_is_and(gate);
        t16 = core_UsizeFromBool_from(t12);
        ands = ands + t16;
        at = next;
        i = i + 1ull;
    }
    t18 = (tuple_uint64_uint64){ands, at};
    result = (Result_tuple_uint64_uint64_answer_Refusal){.ok = {0u, t18}};
    return result;
}

/* circuit, src/gates.rt:81: Wires below a limit: the place after them. */
static Result_uint64_answer_Refusal circuit_gates_read_wires(slice source, uint64_t tail, uint64_t count, uint64_t limit)
{
    Result_uint64_answer_Refusal result;
    uint64_t at, next, counter;
    tuple_uint64_uint64 t7, t11, t14;
    ErrResidual_answer_Refusal t8;
    bool t10;
    ControlFlow_ErrResidual_answer_Refusal_tuple_uint64_uint64 t12;
    Result_tuple_uint64_uint64_answer_Refusal t13;
    at = tail;
    counter = 0ull;
    for (;;) {
        t10 = counter < count;
        if (!t10) {
            break;
        }
        t13 = circuit_gates_read_wire(source, at, limit);
        t12 = core_ResultTry_branch_tuple_uint64_uint64_answer_Refusal(t13);
        switch (t12.continue_.tag) {
        case 0:
            t7 = t12.continue_.m1;
            t14 = t7;
            break;
        default:
            t8 = t12.break_.m1;
            result = core_ResultFromResidualErrResidual_from_residual_uint64(t8);
            return result;
        }
        t11 = t14;
        next = t11.m1;
        at = next;
        counter = counter + 1ull;
    }
    result = (Result_uint64_answer_Refusal){.ok = {0u, at}};
    return result;
}

/* circuit, src/reading.rt:12: The circuit, whole and tested. */
INLINE Result_circuit_Layout_answer_Refusal circuit_reading_read_circuit(slice source)
{
    Result_circuit_Layout_answer_Refusal result;
    uint64_t inputs, at, gates, at_2, outputs, body, ands, tail, end, t19, t27, t37;
    tuple_uint64_uint64 t4, t8, t12, t16, t21, t24, t25, t28, t29, t31, t32, t34;
    ErrResidual_answer_Refusal t5, t9, t13, t17, t20;
    ControlFlow_ErrResidual_answer_Refusal_tuple_uint64_uint64 t22, t26, t30, t33;
    Result_tuple_uint64_uint64_answer_Refusal t23;
    ControlFlow_ErrResidual_answer_Refusal_uint64 t35;
    Result_uint64_answer_Refusal t36;
    bool t38;
    answer_Refusal t39;
    circuit_Layout t40;
    t23 = circuit_gates_read_within(source, 0ull, 1ull, 4096ull);
    t22 = core_ResultTry_branch_tuple_uint64_uint64_answer_Refusal(t23);
    switch (t22.continue_.tag) {
    case 0:
        t4 = t22.continue_.m1;
        t24 = t4;
        break;
    default:
        t5 = t22.break_.m1;
        result = core_ResultFromResidualErrResidual_from_residual_circuit(t5);
        return result;
    }
    t21 = t24;
    inputs = t21.m0;
    at = t21.m1;
    t27 = 4096ull - inputs;
    t23 = circuit_gates_read_within(source, at, 0ull, t27);
    t26 = core_ResultTry_branch_tuple_uint64_uint64_answer_Refusal(t23);
    switch (t26.continue_.tag) {
    case 0:
        t8 = t26.continue_.m1;
        t28 = t8;
        break;
    default:
        t9 = t26.break_.m1;
        result = core_ResultFromResidualErrResidual_from_residual_circuit(t9);
        return result;
    }
    t25 = t28;
    gates = t25.m0;
    at_2 = t25.m1;
    t23 = circuit_gates_read_within(source, at_2, 1ull, 4096ull);
    t30 = core_ResultTry_branch_tuple_uint64_uint64_answer_Refusal(t23);
    switch (t30.continue_.tag) {
    case 0:
        t12 = t30.continue_.m1;
        t31 = t12;
        break;
    default:
        t13 = t30.break_.m1;
        result = core_ResultFromResidualErrResidual_from_residual_circuit(t13);
        return result;
    }
    t29 = t31;
    outputs = t29.m0;
    body = t29.m1;
    t23 = circuit_gates_read_gates(source, body, gates, inputs);
    t33 = core_ResultTry_branch_tuple_uint64_uint64_answer_Refusal(t23);
    switch (t33.continue_.tag) {
    case 0:
        t16 = t33.continue_.m1;
        t34 = t16;
        break;
    default:
        t17 = t33.break_.m1;
        result = core_ResultFromResidualErrResidual_from_residual_circuit(t17);
        return result;
    }
    t32 = t34;
    ands = t32.m0;
    tail = t32.m1;
    t27 = inputs + gates;
    t36 = circuit_gates_read_wires(source, tail, outputs, t27);
    t35 = core_ResultTry_branch_uint64_answer_Refusal(t36);
    switch (t35.continue_.tag) {
    case 0:
        t19 = t35.continue_.m1;
        t37 = t19;
        break;
    default:
        t20 = t35.break_.m1;
        result = core_ResultFromResidualErrResidual_from_residual_circuit(t20);
        return result;
    }
    end = t37;
    t27 = source.count;
    t38 = end < t27;
    if (t38) {
        t39 = (answer_Refusal){answer_Refusal_bytes_after};
        result = (Result_circuit_Layout_answer_Refusal){.err = {1u, t39}};
        return result;
    }
    t40 = (circuit_Layout){inputs, gates, outputs, ands, body, tail};
    result = (Result_circuit_Layout_answer_Refusal){.ok = {0u, t40}};
    return result;
}

/* circuit, src/passing.rt:14: The circuit of these bytes, whole and tested. */
INLINE Result_circuit_accepted_Circuit_answer_Refusal circuit_accepted_Circuit_read(slice source)
{
    Result_circuit_accepted_Circuit_answer_Refusal result;
    circuit_Layout layout, t3, t7;
    ErrResidual_answer_Refusal t4;
    ControlFlow_ErrResidual_answer_Refusal_circuit_Layout t5;
    Result_circuit_Layout_answer_Refusal t6;
    circuit_accepted_Circuit t8;
    t6 = circuit_reading_read_circuit(source);
    t5 = core_ResultTry_branch_circuit_Layout_answer_Refusal(t6);
    switch (t5.continue_.tag) {
    case 0:
        t3 = t5.continue_.m1;
        t7 = t3;
        break;
    default:
        t4 = t5.break_.m1;
        result = core_ResultFromResidualErrResidual_from_residual_circuit_2(t4);
        return result;
    }
    layout = t7;
    t8 = (circuit_accepted_Circuit){source, layout};
    result = (Result_circuit_accepted_Circuit_answer_Refusal){.ok = {0u, t8}};
    return result;
}

/* circuit, src/again.rt:14: The gate at a place of an accepted circuit, at a wire, and the place after it. It stays beside `read_gate`,
 * since it tests no kind and no wire again: by `read_gate` a round takes 7 % more instructions. */
INLINE tuple_circuit_Gate_uint64 circuit_again_known_gate(slice source, uint64_t at, uint64_t wire)
{
    tuple_circuit_Gate_uint64 result;
    uint64_t kind, at_2, first, at_3, second, at_4;
    tuple_uint64_uint64 t10, t11, t14;
    bool t12;
    circuit_Gate t13, t15, t16;
    (void)wire;
    t10 = number_known_number(source, at);
    kind = t10.m0;
    at_2 = t10.m1;
    t11 = number_known_number(source, at_2);
    first = t11.m0;
    at_3 = t11.m1;
    t12 = kind == 3ull;
    if (t12) {
        t13 = (circuit_Gate){.not = {2u, first}};
        result = (tuple_circuit_Gate_uint64){t13, at_3};
        return result;
    }
    t14 = number_known_number(source, at_3);
    second = t14.m0;
    at_4 = t14.m1;
    t12 = kind == 1ull;
    if (t12) {
        t15 = (circuit_Gate){.xor = {0u, first, second}};
        result = (tuple_circuit_Gate_uint64){t15, at_4};
        return result;
    }
    t16 = (circuit_Gate){.and = {1u, first, second}};
    result = (tuple_circuit_Gate_uint64){t16, at_4};
    return result;
}

/* circuit, src/passing.rt:34: Its output wires in their order. */
INLINE circuit_accepted_OutputWires circuit_accepted_Circuit_output_wires(circuit_accepted_Circuit self)
{
    circuit_accepted_OutputWires result;
    slice t2;
    uint64_t t3, t4, t5, t6, t7;
    t2 = self.source;
    t3 = self.layout.tail;
    t4 = self.layout.inputs;
    t5 = self.layout.gates;
    t6 = t4 + t5;
    t7 = self.layout.outputs;
    result = (circuit_accepted_OutputWires){t2, t3, t6, t7};
    return result;
}

/* circuit, src/again.rt:32: The wire at a place of an accepted circuit, below a limit, and the place after it; beside `read_wire`, since
 * it tests no wire again. */
INLINE tuple_uint64_uint64 circuit_again_known_wire(slice source, uint64_t at, uint64_t limit)
{
    tuple_uint64_uint64 result;
    (void)limit;
    result = number_known_number(source, at);
    return result;
}

/* circuit, src/passing.rt:84 */
INLINE Option_uint64 circuit_passing_OutputWiresIterator_next(char *self)
{
    Option_uint64 result;
    slice source;
    uint64_t at, limit, left, wire, at_2, t10;
    bool t8;
    tuple_uint64_uint64 t9;
    circuit_accepted_OutputWires t11;
    source = ((circuit_accepted_OutputWires *)self)->source;
    at = ((circuit_accepted_OutputWires *)self)->at;
    limit = ((circuit_accepted_OutputWires *)self)->limit;
    left = ((circuit_accepted_OutputWires *)self)->left;
    t8 = left == 0ull;
    if (t8) {
        result = (Option_uint64){.none = {0u}};
        return result;
    }
    t9 = circuit_again_known_wire(source, at, limit);
    wire = t9.m0;
    at_2 = t9.m1;
    t10 = left - 1ull;
    t11 = (circuit_accepted_OutputWires){source, at_2, limit, t10};
    *(circuit_accepted_OutputWires *)self = t11;
    result = (Option_uint64){.some = {1u, wire}};
    return result;
}

/* core::iter::adapters::EnumerateIterator::next of the kit, at OutputWires and u64 */
INLINE Option_tuple_uint64_uint64 core_EnumerateIterator_next_circuit_accepted_OutputWires(char *self)
{
    Option_tuple_uint64_uint64 result;
    uint64_t x, t3, i, t9, t10, t11, t12;
    ControlFlow_NoValue_uint64 t6;
    Option_uint64 t7;
    char *t8;
    tuple_uint64_uint64 t13;
    t8 = (char *)&((Enumerate_circuit_accepted_OutputWires *)self)->iter;
    t7 = circuit_passing_OutputWiresIterator_next(t8);
    t6 = core_OptionTry_branch_uint64(t7);
    switch (t6.continue_.tag) {
    case 0:
        t3 = t6.continue_.m1;
        t9 = t3;
        break;
    default:
        result = core_OptionFromResidualNoValue_from_residual_tuple_uint64_2();
        return result;
    }
    x = t9;
    i = ((Enumerate_circuit_accepted_OutputWires *)self)->count;
    t10 = ((Enumerate_circuit_accepted_OutputWires *)self)->count;
    t11 = t10 + 1ull;
    ((Enumerate_circuit_accepted_OutputWires *)self)->count = t11;
    t12 = x;
    t13 = (tuple_uint64_uint64){i, t12};
    result = (Option_tuple_uint64_uint64){.some = {1u, t13}};
    return result;
}

/* circuit, src/passing.rt:22: Its gates in their order, each with its wire. */
INLINE circuit_accepted_Gates circuit_accepted_Circuit_gates(circuit_accepted_Circuit self)
{
    circuit_accepted_Gates result;
    slice t2;
    uint64_t t3, t4, t5;
    t2 = self.source;
    t3 = self.layout.body;
    t4 = self.layout.inputs;
    t5 = self.layout.gates;
    result = (circuit_accepted_Gates){t2, t3, t4, t5};
    return result;
}

/* circuit, src/passing.rt:54 */
INLINE Option_tuple_uint64_circuit_Gate circuit_passing_GatesIterator_next(char *self)
{
    Option_tuple_uint64_circuit_Gate result;
    slice source;
    uint64_t at, wire, left, at_2, t10, t11;
    circuit_Gate gate;
    bool t8;
    tuple_circuit_Gate_uint64 t9;
    circuit_accepted_Gates t12;
    tuple_uint64_circuit_Gate t13;
    source = ((circuit_accepted_Gates *)self)->source;
    at = ((circuit_accepted_Gates *)self)->at;
    wire = ((circuit_accepted_Gates *)self)->wire;
    left = ((circuit_accepted_Gates *)self)->left;
    t8 = left == 0ull;
    if (t8) {
        result = (Option_tuple_uint64_circuit_Gate){.none = {0u}};
        return result;
    }
    t9 = circuit_again_known_gate(source, at, wire);
    gate = t9.m0;
    at_2 = t9.m1;
    t10 = wire + 1ull;
    t11 = left - 1ull;
    t12 = (circuit_accepted_Gates){source, at_2, t10, t11};
    *(circuit_accepted_Gates *)self = t12;
    t13 = (tuple_uint64_circuit_Gate){wire, gate};
    result = (Option_tuple_uint64_circuit_Gate){.some = {1u, t13}};
    return result;
}

/* aes_sbox, src/lib.rt:31: The S-box. */
INLINE char *aes_sbox_table(void)
{
    char *result;
    static const uint8_256 table = {{
        99, 124, 119, 123, 242, 107, 111, 197, 48, 1, 103, 43, 254, 215, 171, 118, 202, 130, 201, 125, 250, 89, 71, 240, 173, 212, 162, 175,
            156, 164, 114, 192, 183, 253, 147, 38, 54, 63, 247, 204, 52, 165, 229, 241, 113, 216, 49, 21, 4, 199, 35, 195, 24, 150, 5, 154,
            7, 18, 128, 226, 235, 39, 178, 117, 9, 131, 44, 26, 27, 110, 90, 160, 82, 59, 214, 179, 41, 227, 47, 132, 83, 209, 0, 237, 32,
            252, 177, 91, 106, 203, 190, 57, 74, 76, 88, 207, 208, 239, 170, 251, 67, 77, 51, 133, 69, 249, 2, 127, 80, 60, 159, 168, 81,
            163, 64, 143, 146, 157, 56, 245, 188, 182, 218, 33, 16, 255, 243, 210, 205, 12, 19, 236, 95, 151, 68, 23, 196, 167, 126, 61,
            100, 93, 25, 115, 96, 129, 79, 220, 34, 42, 144, 136, 70, 238, 184, 20, 222, 94, 11, 219, 224, 50, 58, 10, 73, 6, 36, 92, 194,
            211, 172, 98, 145, 149, 228, 121, 231, 200, 55, 109, 141, 213, 78, 169, 108, 86, 244, 234, 101, 122, 174, 8, 186, 120, 37, 46,
            28, 166, 180, 198, 232, 221, 116, 31, 75, 189, 139, 138, 112, 62, 181, 102, 72, 3, 246, 14, 97, 53, 87, 185, 134, 193, 29, 158,
            225, 248, 152, 17, 105, 217, 142, 148, 155, 30, 135, 233, 206, 85, 40, 223, 140, 161, 137, 13, 191, 230, 66, 104, 65, 153, 45,
            15, 176, 84, 187, 22
    }};
    result = (char *)&table;
    return result;
}

/* aes_sbox, src/lib.rt:38: The S-box at a byte. */
INLINE uint8_t aes_sbox_sub(uint8_t x)
{
    uint8_t result, t6;
    char *t2, *t4, *t5;
    uint64_t t3;
    t2 = aes_sbox_table();
    t3 = (uint64_t)x;
    t4 = t2;
    t5 = t4 + t3;
    t6 = *(uint8_t *)t5;
    result = t6;
    return result;
}

/* aes_sbox, src/lib.rt:46: Twice a byte in the field of FIPS 197. A word, as are all bytes of the filling: by bytes it took 1,700
 * instructions more a call, and `column_of` stays beside `wide_column` for it. */
INLINE uint64_t aes_sbox_twice(uint64_t s)
{
    uint64_t result, t2, t3, t4, t5;
    t2 = s / 128ull;
    t3 = t2 * 27ull;
    t4 = s * 2ull;
    t5 = t4 % 256ull;
    result = t3 ^ t5;
    return result;
}

/* aes_sbox, src/lib.rt:54: Three times a byte in the field of FIPS 197. */
INLINE uint64_t aes_sbox_thrice(uint64_t s)
{
    uint64_t result, t2;
    t2 = aes_sbox_twice(s);
    result = t2 ^ s;
    return result;
}

/* aes_sbox, src/lib.rt:62: The wide column of four bytes in words. */
INLINE uint64_t aes_sbox_column_of(uint64_t a, uint64_t b, uint64_t c, uint64_t d)
{
    uint64_t result, t5, t6, t7, t8, t9;
    t5 = d * 72057594037927936ull;
    t6 = c * 4294967296ull;
    t7 = t5 + t6;
    t8 = b * 16777216ull;
    t9 = t7 + t8;
    result = t9 + a;
    return result;
}

/* aes_sbox, src/lib.rt:82: A wide column whose rows moved down by two, as a sum, which the laws of wide columns go by
 * (`half_turned_column`): `rotate_left` promises a bitwise or, and tools/c-file does not know it. */
INLINE uint64_t aes_sbox_half_turned(uint64_t w)
{
    uint64_t result, t2, t3, t4;
    t2 = w % 4294967296ull;
    t3 = t2 * 4294967296ull;
    t4 = w / 4294967296ull;
    result = t3 + t4;
    return result;
}

/* aes_sbox, src/lib.rt:89: Fills the tables' words: those of bytes in rows 0 to 3 as `mixed`, then those of the last round. */
static void aes_sbox_fill_tables(char *words)
{
    uint64_t x, s, d, e, m0, m1, t11, t14, t17, t22, t25;
    bool t8;
    uint8_t t9, t10;
    char *t12, *t13, *t15, *t16, *t18, *t19, *t20, *t21, *t23, *t24, *t26, *t27;
    x = 0ull;
    for (;;) {
        t8 = x < 256ull;
        if (!t8) {
            break;
        }
        t10 = (uint8_t)x;
        t9 = aes_sbox_sub(t10);
        s = core_U64FromU8_from(t9);
        d = aes_sbox_twice(s);
        e = aes_sbox_thrice(s);
        m0 = aes_sbox_column_of(d, s, s, e);
        m1 = aes_sbox_column_of(e, d, s, s);
        t11 = x * 8ull;
        t12 = words;
        t13 = (char *)((uint64_t *)t12 + x);
        *(uint64_t *)t13 = m0;
        t11 = 256ull + x;
        t14 = t11 * 8ull;
        t15 = words;
        t16 = (char *)((uint64_t *)t15 + t11);
        *(uint64_t *)t16 = m1;
        t17 = aes_sbox_half_turned(m0);
        t11 = 512ull + x;
        t14 = t11 * 8ull;
        t18 = words;
        t19 = (char *)((uint64_t *)t18 + t11);
        *(uint64_t *)t19 = t17;
        t17 = aes_sbox_half_turned(m1);
        t14 = 768ull + x;
        t11 = t14 * 8ull;
        t20 = words;
        t21 = (char *)((uint64_t *)t20 + t14);
        *(uint64_t *)t21 = t17;
        t17 = s * 1099511627776ull;
        t22 = s + t17;
        t11 = 1024ull + x;
        t14 = t11 * 8ull;
        t23 = words;
        t24 = (char *)((uint64_t *)t23 + t11);
        *(uint64_t *)t24 = t22;
        t17 = s * 65536ull;
        t22 = s * 72057594037927936ull;
        t25 = t17 + t22;
        t14 = 1280ull + x;
        t11 = t14 * 8ull;
        t26 = words;
        t27 = (char *)((uint64_t *)t26 + t14);
        *(uint64_t *)t27 = t25;
        x = x + 1ull;
    }
}

/* aes_sbox, src/lib.rt:117: Fills words with the tables, and lends them. */
INLINE aes_sbox_Tables aes_sbox_Tables_fill(char *words)
{
    aes_sbox_Tables result;
    char *t3, *t4;
    t3 = words;
    aes_sbox_fill_tables(t3);
    t4 = words;
    result = (aes_sbox_Tables){t4};
    return result;
}

/* aes_sbox, src/lib.rt:70: The wide column of four bytes. */
INLINE uint64_t aes_sbox_wide_column(uint8_4 rows)
{
    uint64_t result, t15, t16, t17, t18, t19, t20, t21, t22, t23;
    uint8_4 rows_slot;
    uint8_t a, b, c, d;
    char *t7, *t8, *t9, *t10, *t11, *t12, *t13, *t14;
    rows_slot = rows;
    t7 = (char *)&rows_slot;
    t8 = t7 + 0ull;
    t9 = (char *)&rows_slot;
    t10 = t9 + 1ull;
    t11 = (char *)&rows_slot;
    t12 = t11 + 2ull;
    t13 = (char *)&rows_slot;
    t14 = t13 + 3ull;
    a = *(uint8_t *)t8;
    b = *(uint8_t *)t10;
    c = *(uint8_t *)t12;
    d = *(uint8_t *)t14;
    t15 = core_U64FromU8_from(a);
    t16 = core_U64FromU8_from(b);
    t17 = core_U64FromU8_from(c);
    t18 = t17 * 256ull;
    t19 = t16 + t18;
    t20 = t19 * 16777216ull;
    t21 = t15 + t20;
    t22 = core_U64FromU8_from(d);
    t23 = t22 * 72057594037927936ull;
    result = t21 + t23;
    return result;
}

/* aes_sbox, src/lib.rt:131: What a byte in a row adds to its column under SubBytes and MixColumns, as a wide column. Here and in the
 * rounds that a row or a column is below 4 is asked by clause: they are reckoned modulo 4, as FIPS 197 has it, which an enum of four is
 * not. */
INLINE uint64_t aes_sbox_Tables_mixed(aes_sbox_Tables self, uint64_t row, uint8_t x)
{
    uint64_t result, t4, t5, t6, t10;
    char *t8, *t9;
    t4 = 256ull * row;
    t5 = (uint64_t)x;
    t6 = t4 + t5;
    t8 = self.words;
    t9 = (char *)((uint64_t *)t8 + t6);
    t10 = *(uint64_t *)t9;
    result = t10;
    return result;
}

/* aes_sbox, src/lib.rt:140: The S-box's value at a byte at the places of rows 0 and 1, each in a half of the word. It and `high_rows`
 * are a look-up each, with an equation each: to one function of both the caller would pass a number that says which. */
INLINE uint64_t aes_sbox_Tables_low_rows(aes_sbox_Tables self, uint8_t x)
{
    uint64_t result, t3, t4, t8;
    char *t6, *t7;
    t3 = (uint64_t)x;
    t4 = 1024ull + t3;
    t6 = self.words;
    t7 = (char *)((uint64_t *)t6 + t4);
    t8 = *(uint64_t *)t7;
    result = t8;
    return result;
}

/* aes_sbox, src/lib.rt:147: The S-box's value at a byte at the places of rows 2 and 3, each in a half of the word. */
INLINE uint64_t aes_sbox_Tables_high_rows(aes_sbox_Tables self, uint8_t x)
{
    uint64_t result, t3, t4, t8;
    char *t6, *t7;
    t3 = (uint64_t)x;
    t4 = 1280ull + t3;
    t6 = self.words;
    t7 = (char *)((uint64_t *)t6 + t4);
    t8 = *(uint64_t *)t7;
    result = t8;
    return result;
}

/* aes128, src/key.rt:13: The exclusive or of two words. Written out, which is as short: by `array::from_fn` the check does not find the
 * proof. */
INLINE uint8_4 aes128_key_xor_word(uint8_4 a, uint8_4 b)
{
    uint8_4 result, a_slot, b_slot;
    char *t5, *t6, *t8, *t9, *t12, *t13, *t15, *t16, *t19, *t20, *t22, *t23, *t26, *t27, *t29, *t30;
    uint8_t t7, t10, t11, t14, t17, t18, t21, t24, t25, t28, t31, t32;
    a_slot = a;
    b_slot = b;
    t5 = (char *)&a_slot;
    t6 = t5 + 0ull;
    t7 = *(uint8_t *)t6;
    t8 = (char *)&b_slot;
    t9 = t8 + 0ull;
    t10 = *(uint8_t *)t9;
    t11 = (uint8_t)(t7 ^ t10);
    t12 = (char *)&a_slot;
    t13 = t12 + 1ull;
    t14 = *(uint8_t *)t13;
    t15 = (char *)&b_slot;
    t16 = t15 + 1ull;
    t17 = *(uint8_t *)t16;
    t18 = (uint8_t)(t14 ^ t17);
    t19 = (char *)&a_slot;
    t20 = t19 + 2ull;
    t21 = *(uint8_t *)t20;
    t22 = (char *)&b_slot;
    t23 = t22 + 2ull;
    t24 = *(uint8_t *)t23;
    t25 = (uint8_t)(t21 ^ t24);
    t26 = (char *)&a_slot;
    t27 = t26 + 3ull;
    t28 = *(uint8_t *)t27;
    t29 = (char *)&b_slot;
    t30 = t29 + 3ull;
    t31 = *(uint8_t *)t30;
    t32 = (uint8_t)(t28 ^ t31);
    result = (uint8_4){{t11, t18, t25, t32}};
    return result;
}

/* aes128, src/key.rt:20: The round key after k, whose round constant has the first byte x. */
INLINE uint8_4_4 aes128_key_next_key(uint8_4_4 k, uint8_t x)
{
    uint8_4_4 result, k_slot;
    uint8_4 t, temp, w0, w1, w2, w3, t12, t29;
    char *t10, *t11, *t14, *t15, *t18, *t19, *t22, *t23, *t26, *t27, *t30, *t31, *t32, *t33, *t34, *t35, *t36, *t37;
    uint8_t t13, t16, t17, t20, t21, t24, t25, t28;
    k_slot = k;
    t10 = (char *)&k_slot;
    t11 = t10 + 12ull;
    t12 = *(uint8_4 *)t11;
    t = t12;
    t14 = (char *)&t;
    t15 = t14 + 1ull;
    t16 = *(uint8_t *)t15;
    t13 = aes_sbox_sub(t16);
    t18 = (char *)&t;
    t19 = t18 + 2ull;
    t20 = *(uint8_t *)t19;
    t17 = aes_sbox_sub(t20);
    t22 = (char *)&t;
    t23 = t22 + 3ull;
    t24 = *(uint8_t *)t23;
    t21 = aes_sbox_sub(t24);
    t26 = (char *)&t;
    t27 = t26 + 0ull;
    t28 = *(uint8_t *)t27;
    t25 = aes_sbox_sub(t28);
    t12 = (uint8_4){{t13, t17, t21, t25}};
    t29 = (uint8_4){{x, 0u, 0u, 0u}};
    temp = aes128_key_xor_word(t12, t29);
    t30 = (char *)&k_slot;
    t31 = t30 + 0ull;
    t12 = *(uint8_4 *)t31;
    w0 = aes128_key_xor_word(t12, temp);
    t32 = (char *)&k_slot;
    t33 = t32 + 4ull;
    t29 = *(uint8_4 *)t33;
    w1 = aes128_key_xor_word(t29, w0);
    t34 = (char *)&k_slot;
    t35 = t34 + 8ull;
    t12 = *(uint8_4 *)t35;
    w2 = aes128_key_xor_word(t12, w1);
    t36 = (char *)&k_slot;
    t37 = t36 + 12ull;
    t29 = *(uint8_4 *)t37;
    w3 = aes128_key_xor_word(t29, w2);
    result = (uint8_4_4){{w0, w1, w2, w3}};
    return result;
}

/* aes128, src/key.rt:36: KeyExpansion: the eleven round keys. */
static uint8_4_4_11 aes128_key_expand_key(uint8_4_4 key)
{
    uint8_4_4_11 result, keys;
    char *x_items, *x, *t6, *t8, *t9, *t12, *t13, *t18, *t19;
    uint64_t i, t11, t16, t17;
    bool t7;
    uint8_4_4 t10, t14;
    uint8_t t15;
    for (int each = 0; each < 11; each++)
        keys.a[each] = key;
    static const uint8_10 table = {{
        1, 2, 4, 8, 16, 32, 64, 128, 27, 54
    }};
    t6 = (char *)&table;
    x_items = t6;
    i = 0ull;
    for (;;) {
        t7 = i < 10ull;
        if (!t7) {
            break;
        }
        t8 = x_items;
        t9 = t8 + i;
        x = t9;
        t11 = i * 16ull;
        t12 = (char *)&keys;
        t13 = t12 + t11;
        t14 = *(uint8_4_4 *)t13;
        t15 = *(uint8_t *)x;
        t10 = aes128_key_next_key(t14, t15);
        t16 = i + 1ull;
        t17 = t16 * 16ull;
        t18 = (char *)&keys;
        t19 = t18 + t17;
        *(uint8_4_4 *)t19 = t10;
        i = i + 1ull;
    }
    result = keys;
    return result;
}

/* aes128, src/key.rt:59: The block of a round key. */
INLINE field_block_Block aes128_key_block_key(uint8_4_4 k)
{
    field_block_Block result;
    result = field_block_Block_of_columns(k);
    return result;
}

/* aes128, src/key.rt:47: The wide columns of a round key. */
INLINE uint64_4 aes128_key_wide_key(uint8_4_4 k)
{
    uint64_4 result;
    uint8_4_4 k_slot;
    uint64_t t3, t7, t11, t15;
    char *t4, *t5, *t8, *t9, *t12, *t13, *t16, *t17;
    uint8_4 t6, t10, t14, t18;
    k_slot = k;
    t4 = (char *)&k_slot;
    t5 = t4 + 0ull;
    t6 = *(uint8_4 *)t5;
    t3 = aes_sbox_wide_column(t6);
    t8 = (char *)&k_slot;
    t9 = t8 + 4ull;
    t10 = *(uint8_4 *)t9;
    t7 = aes_sbox_wide_column(t10);
    t12 = (char *)&k_slot;
    t13 = t12 + 8ull;
    t14 = *(uint8_4 *)t13;
    t11 = aes_sbox_wide_column(t14);
    t16 = (char *)&k_slot;
    t17 = t16 + 12ull;
    t18 = *(uint8_4 *)t17;
    t15 = aes_sbox_wide_column(t18);
    result = (uint64_4){{t3, t7, t11, t15}};
    return result;
}

/* aes128, src/key.rt:66: The words of eleven round keys. Four are written by index: for `copy_from_slice` see `record::write_bytes`. */
static uint64_40 aes128_key_words_of(uint8_4_4_11 k)
{
    uint64_40 result, words;
    uint8_4_4_11 k_slot;
    field_block_Block key0, last;
    uint64_t i, at, t14, t17, t22, t23, t29, t44, t47;
    uint64_4 w, t21;
    char *t9, *t10, *t12, *t13, *t15, *t16, *t18, *t19, *t24, *t25, *t27, *t28, *t30, *t31, *t32, *t33, *t34, *t35, *t36, *t37, *t38, *t39,
        *t40, *t41, *t42, *t43, *t45, *t46, *t48, *t49;
    uint8_4_4 t11, t26;
    bool t20;
    k_slot = k;
    t9 = (char *)&k_slot;
    t10 = t9 + 0ull;
    t11 = *(uint8_4_4 *)t10;
    key0 = aes128_key_block_key(t11);
    t12 = (char *)&k_slot;
    t13 = t12 + 160ull;
    t11 = *(uint8_4_4 *)t13;
    last = aes128_key_block_key(t11);
    for (int each = 0; each < 40; each++)
        words.a[each] = 0ull;
    t14 = key0.low;
    t15 = (char *)&words;
    t16 = t15 + 0ull;
    *(uint64_t *)t16 = t14;
    t17 = key0.high;
    t18 = (char *)&words;
    t19 = t18 + 8ull;
    *(uint64_t *)t19 = t17;
    i = 0ull;
    for (;;) {
        t20 = i < 9ull;
        if (!t20) {
            break;
        }
        t22 = i + 1ull;
        t23 = t22 * 16ull;
        t24 = (char *)&k_slot;
        t25 = t24 + t23;
        t26 = *(uint8_4_4 *)t25;
        t21 = aes128_key_wide_key(t26);
        w = t21;
        t22 = 4ull * i;
        at = t22 + 2ull;
        t27 = (char *)&w;
        t28 = t27 + 0ull;
        t29 = *(uint64_t *)t28;
        t23 = at * 8ull;
        t30 = (char *)&words;
        t31 = (char *)((uint64_t *)t30 + at);
        *(uint64_t *)t31 = t29;
        t32 = (char *)&w;
        t33 = t32 + 8ull;
        t29 = *(uint64_t *)t33;
        t22 = at + 1ull;
        t23 = t22 * 8ull;
        t34 = (char *)&words;
        t35 = (char *)((uint64_t *)t34 + t22);
        *(uint64_t *)t35 = t29;
        t36 = (char *)&w;
        t37 = t36 + 16ull;
        t29 = *(uint64_t *)t37;
        t23 = at + 2ull;
        t22 = t23 * 8ull;
        t38 = (char *)&words;
        t39 = (char *)((uint64_t *)t38 + t23);
        *(uint64_t *)t39 = t29;
        t40 = (char *)&w;
        t41 = t40 + 24ull;
        t29 = *(uint64_t *)t41;
        t22 = at + 3ull;
        t23 = t22 * 8ull;
        t42 = (char *)&words;
        t43 = (char *)((uint64_t *)t42 + t22);
        *(uint64_t *)t43 = t29;
        i = i + 1ull;
    }
    t44 = last.low;
    t45 = (char *)&words;
    t46 = t45 + 304ull;
    *(uint64_t *)t46 = t44;
    t47 = last.high;
    t48 = (char *)&words;
    t49 = t48 + 312ull;
    *(uint64_t *)t49 = t47;
    result = words;
    return result;
}

/* aes128, src/key.rt:89: The round keys of a key, as words: forty and no struct, since `full_round`, `last_round` and `share`, which
 * docs/PROMISES.md names (13.3), promise their answer for any forty words. */
INLINE uint64_40 aes128_key_schedule(uint8_4_4 key)
{
    uint64_40 result;
    uint8_4_4_11 t2;
    t2 = aes128_key_expand_key(key);
    result = aes128_key_words_of(t2);
    return result;
}

/* pads, src/bytes.rt:9: The block whose 16 bytes begin at a place, as the definitions of pads say it. */
INLINE field_block_Block pads_bytes_block_at(slice bytes, uint64_t at)
{
    field_block_Block result;
    result = field_block_Block_read(bytes, at);
    return result;
}

/* pads, src/bytes.rt:17: Writes the 16 bytes of a block from a place on. */
INLINE void pads_bytes_put_block(slice bytes, uint64_t at, field_block_Block b)
{
    char *t5;
    slice t6;
    t5 = bytes.at;
    t6 = (slice){t5, bytes.count};
    field_block_Block_write(b, t6, at);
}

/* circuit_run, src/lib.rt:51: A refused step: zeros, and the state as it was. Each answer of C has fields of its own, and so a `refused`
 * of its own. */
INLINE circuit_run_Stepped circuit_run_Stepped_refused(answer_Refusal refusal, circuit_run_StepState state)
{
    circuit_run_Stepped result;
    uint32_t t3;
    t3 = answer_Refusal_number(refusal);
    result = (circuit_run_Stepped){t3, 0ull, 0u, 0u, state};
    return result;
}

/* circuit_run, src/lib.rt:84: A refused round: zeros, and the state as it was. */
INLINE circuit_run_Rounded circuit_run_Rounded_refused(answer_Refusal refusal, circuit_run_RoundState state)
{
    circuit_run_Rounded result;
    uint32_t t3;
    t3 = answer_Refusal_number(refusal);
    result = (circuit_run_Rounded){t3, 0ull, 0ull, state};
    return result;
}

/* circuit_describe, src/lib.rt:44: The level of a gate, from those of its wires. */
INLINE uint16_t circuit_describe_level_of(circuit_Gate gate, char *levels)
{
    uint16_t result, t8, t12, t16, t17, t21, t25, t29;
    uint64_t a, b, a_2, b_2, a_3;
    char *t10, *t11, *t14, *t15, *t19, *t20, *t23, *t24, *t27, *t28;
    switch (gate.xor.tag) {
    case 0:
        a = gate.xor.m1;
        b = gate.xor.m2;
        t10 = levels;
        t11 = (char *)((uint16_t *)t10 + a);
        t12 = *(uint16_t *)t11;
        t14 = levels;
        t15 = (char *)((uint16_t *)t14 + b);
        t16 = *(uint16_t *)t15;
        t8 = core_u16_max(t12, t16);
        break;
    case 1:
        a_2 = gate.and.m1;
        b_2 = gate.and.m2;
        t19 = levels;
        t20 = (char *)((uint16_t *)t19 + a_2);
        t21 = *(uint16_t *)t20;
        t23 = levels;
        t24 = (char *)((uint16_t *)t23 + b_2);
        t25 = *(uint16_t *)t24;
        t17 = core_u16_max(t21, t25);
        t8 = (uint16_t)((uint32_t)1u + t17);
        break;
    default:
        a_3 = gate.not.m1;
        t27 = levels;
        t28 = (char *)((uint16_t *)t27 + a_3);
        t29 = *(uint16_t *)t28;
        t8 = t29;
        break;
    }
    result = t8;
    return result;
}

/* circuit_describe, src/lib.rt:56: The greatest level of any wire. */
static uint64_t circuit_describe_depth_of(circuit_accepted_Circuit circuit)
{
    uint64_t result, wire;
    uint16_4096 levels;
    uint16_t most, level;
    circuit_accepted_Gates items, iterator, t10, t12, t13;
    tuple_uint64_circuit_Gate t6, t14, t17;
    circuit_Gate gate;
    circuit_accepted_Circuit t11;
    Option_tuple_uint64_circuit_Gate t15;
    char *t16, *t18, *t20, *t21;
    for (int each = 0; each < 4096; each++)
        levels.a[each] = 0u;
    most = 0u;
    t11 = circuit;
    t10 = circuit_accepted_Circuit_gates(t11);
    items = t10;
    t13 = items;
    t12 = core_AnyIntoIterator_into_iter_circuit_accepted_Gates_tuple(t13);
    iterator = t12;
    for (;;) {
        t16 = (char *)&iterator;
        t15 = circuit_passing_GatesIterator_next(t16);
        switch (t15.none.tag) {
        case 1:
            t6 = t15.some.m1;
            t17 = t6;
            break;
        default:
            goto after1;
        }
        t14 = t17;
        wire = t14.m0;
        gate = t14.m1;
        t18 = (char *)&levels;
        level = circuit_describe_level_of(gate, t18);
        t20 = (char *)&levels;
        t21 = (char *)((uint16_t *)t20 + wire);
        *(uint16_t *)t21 = level;
        most = core_u16_max(most, level);
    }
after1:;
    result = core_UsizeFromU16_from(most);
    return result;
}

/* circuit_describe, src/lib.rt:29: The answer for a refused circuit. */
INLINE circuit_describe_DescribedCircuit circuit_describe_DescribedCircuit_refused(answer_Refusal refusal)
{
    circuit_describe_DescribedCircuit result;
    uint32_t t2;
    t2 = answer_Refusal_number(refusal);
    result = (circuit_describe_DescribedCircuit){t2, 0ull, 0ull, 0ull, 0ull, 0ull};
    return result;
}

/* circuit_describe, src/lib.rt:71: What a circuit is, or the number that it is refused with. */
INLINE circuit_describe_DescribedCircuit circuit_describe_describe_circuit(slice source)
{
    circuit_describe_DescribedCircuit result, t5;
    circuit_accepted_Circuit circuit, t11;
    answer_Refusal refusal;
    Result_circuit_accepted_Circuit_answer_Refusal t4;
    uint64_t t6, t7, t8, t9, t10, t12;
    t4 = circuit_accepted_Circuit_read(source);
    switch (t4.ok.tag) {
    case 0:
        circuit = t4.ok.m1;
        t6 = circuit.layout.inputs;
        t7 = circuit.layout.gates;
        t8 = circuit.layout.outputs;
        t9 = circuit.layout.ands;
        t11 = circuit;
        t10 = circuit_describe_depth_of(t11);
        t12 = t10 + 1ull;
        t5 = (circuit_describe_DescribedCircuit){0u, t6, t7, t8, t9, t12};
        break;
    default:
        refusal = t4.err.m1;
        t5 = circuit_describe_DescribedCircuit_refused(refusal);
        break;
    }
    result = t5;
    return result;
}

/* circuit_gates, src/shares.rt:9: Whether the role is 1 or 2. */
INLINE bool circuit_gates_shares_is_role(uint8_t role)
{
    bool result, t2;
    t2 = role == 1u;
    if (!t2) {
        t2 = role == 2u;
    }
    result = t2;
    return result;
}

/* circuit_gates, src/shares.rt:23: The share of an AND that waits, its wires' shares given: it takes the triple of its number and its
 * two far bits. */
INLINE uint8_t circuit_gates_shares_opened_share(uint8_t role, uint8_t x, uint8_t y, slice triples, uint64_t ands, uint8_t far_first,
    uint8_t far_second)
{
    uint8_t result, a, b, c, d, e, sum, both, t17, t21, t22, t24;
    uint64_t at, t18;
    char *t16, *t19, *t20;
    bool t23;
    at = ands * 3ull;
    t16 = triples.at + at;
    t17 = *(uint8_t *)t16;
    a = t17;
    t18 = at + 1ull;
    t19 = triples.at + t18;
    t17 = *(uint8_t *)t19;
    b = t17;
    t18 = at + 2ull;
    t20 = triples.at + t18;
    t17 = *(uint8_t *)t20;
    c = t17;
    t17 = (uint8_t)(x ^ a);
    d = (uint8_t)(t17 ^ far_first);
    t17 = (uint8_t)(y ^ b);
    e = (uint8_t)(t17 ^ far_second);
    t17 = (uint8_t)(d & b);
    t21 = (uint8_t)(c ^ t17);
    t22 = (uint8_t)(e & a);
    sum = (uint8_t)(t21 ^ t22);
    both = (uint8_t)(d & e);
    t23 = role == 1u;
    if (t23) {
        t24 = (uint8_t)(sum ^ both);
    } else {
        t24 = sum;
    }
    result = t24;
    return result;
}

/* circuit_gates, src/shares.rt:49: Gives the AND that a run waits at its share. */
INLINE void circuit_gates_shares_give_and(circuit_run_places_Asked asked, circuit_run_places_Spot spot, uint64_t wire, slice triples, char
    *wires)
{
    uint64_t x, y;
    uint8_t t8, t11, t14;
    char *t9, *t10, *t12, *t13, *t15, *t16;
    x = spot.first_wire;
    y = spot.second_wire;
    t9 = wires;
    t10 = t9 + x;
    t11 = *(uint8_t *)t10;
    t12 = wires;
    t13 = t12 + y;
    t14 = *(uint8_t *)t13;
    t8 = circuit_gates_shares_opened_share(asked.role, t11, t14, triples, spot.ands, asked.far_first, asked.far_second);
    t15 = wires;
    t16 = t15 + wire;
    *(uint8_t *)t16 = t8;
}

/* circuit_gates, src/shares.rt:16: NOT at one end. */
INLINE uint8_t circuit_gates_shares_flip(uint8_t role, uint8_t x)
{
    uint8_t result, t4;
    bool t3;
    t3 = role == 1u;
    if (t3) {
        t4 = (uint8_t)(x ^ 1u);
    } else {
        t4 = x;
    }
    result = t4;
    return result;
}

/* circuit_gates, src/bytes.rt:20: Whether the share of a byte is known. */
INLINE bool circuit_gates_bytes_is_known(uint8_t byte)
{
    bool result;
    result = 2u <= byte;
    return result;
}

/* circuit_gates, src/bytes.rt:36: The byte of a known share. */
INLINE uint8_t circuit_gates_bytes_known_as(uint8_t share)
{
    uint8_t result;
    result = (uint8_t)((uint32_t)2u + share);
    return result;
}

/* circuit_gates, src/bytes.rt:44: The byte of an input: a known one stays, another takes its share. */
INLINE uint8_t circuit_gates_bytes_input_byte(uint8_t byte, uint8_t share)
{
    uint8_t result, t4;
    bool t3;
    t3 = circuit_gates_bytes_is_known(byte);
    if (t3) {
        t4 = byte;
    } else {
        t4 = circuit_gates_bytes_known_as(share);
    }
    result = t4;
    return result;
}

/* circuit_gates, src/bytes.rt:28: The share of a byte. */
INLINE uint8_t circuit_gates_bytes_share_of(uint8_t byte)
{
    uint8_t result;
    result = (uint8_t)(byte % 2u);
    return result;
}

/* circuit_gates, src/bytes.rt:101: The byte of an exclusive or that is not known. */
INLINE uint8_t circuit_gates_bytes_xor_byte(uint8_t x, uint8_t y)
{
    uint8_t result, t5, t6, t7;
    bool t3, t4;
    t3 = circuit_gates_bytes_is_known(x);
    if (t3) {
        t3 = circuit_gates_bytes_is_known(y);
        t4 = t3;
        if (t4) {
            t5 = circuit_gates_bytes_share_of(x);
            t6 = circuit_gates_bytes_share_of(y);
            t7 = (uint8_t)(t5 ^ t6);
            result = circuit_gates_bytes_known_as(t7);
            return result;
            goto after1;
        }
    }
after1:;
    result = 0u;
    return result;
}

/* circuit_gates, src/bytes.rt:68: The byte of an AND that waited, its wires' bytes given. */
INLINE uint8_t circuit_gates_bytes_opened_byte(circuit_gates_bytes_Opening opening, uint8_t x, uint8_t y)
{
    uint8_t result, role, first, second, share, t14, t17;
    slice triples, far_bits;
    uint64_t ands, passed, place, t15;
    char *t13, *t16;
    role = opening.role;
    triples = opening.triples;
    ands = opening.ands;
    far_bits = opening.far_bits;
    passed = opening.passed;
    place = 2ull * passed;
    t13 = far_bits.at + place;
    t14 = *(uint8_t *)t13;
    first = t14;
    t15 = place + 1ull;
    t16 = far_bits.at + t15;
    t14 = *(uint8_t *)t16;
    second = t14;
    t14 = circuit_gates_bytes_share_of(x);
    t17 = circuit_gates_bytes_share_of(y);
    share = circuit_gates_shares_opened_share(role, t14, t17, triples, ands, first, second);
    result = circuit_gates_bytes_known_as(share);
    return result;
}

/* circuit_gates, src/bytes.rt:87: The byte of an AND that is not known, from its own and those of its wires. */
INLINE uint8_t circuit_gates_bytes_and_byte(circuit_gates_bytes_Opening opening, uint8_t own, uint8_t x, uint8_t y)
{
    uint8_t result;
    bool t5, t7, t8;
    circuit_gates_bytes_Opening t6;
    t5 = own == 1u;
    if (t5) {
        t6 = opening;
        result = circuit_gates_bytes_opened_byte(t6, x, y);
        return result;
    }
    t7 = circuit_gates_bytes_is_known(x);
    if (t7) {
        t7 = circuit_gates_bytes_is_known(y);
        t8 = t7;
        if (t8) {
            result = 1u;
            return result;
            goto after1;
        }
    }
after1:;
    result = 0u;
    return result;
}

/* circuit_gates, src/bytes.rt:111: The byte of a NOT that is not known. */
INLINE uint8_t circuit_gates_bytes_not_byte(uint8_t role, uint8_t x)
{
    uint8_t result, t4, t5;
    bool t3;
    t3 = circuit_gates_bytes_is_known(x);
    if (t3) {
        t5 = circuit_gates_bytes_share_of(x);
        t4 = circuit_gates_shares_flip(role, t5);
        result = circuit_gates_bytes_known_as(t4);
        return result;
    }
    result = 0u;
    return result;
}

/* circuit_gates, src/bytes.rt:121: The byte of a gate, from its own and those of the wires before it: a known one stays. */
INLINE uint8_t circuit_gates_bytes_byte_after(circuit_Gate gate, uint8_t own, char *wires, circuit_gates_bytes_Opening opening)
{
    uint8_t result, t11, t14, t17, t21, t24, t25, t28;
    uint64_t a, b, a_2, b_2, a_3;
    bool t10;
    char *t12, *t13, *t15, *t16, *t19, *t20, *t22, *t23, *t26, *t27;
    circuit_gates_bytes_Opening t18;
    t10 = circuit_gates_bytes_is_known(own);
    if (t10) {
        result = own;
        return result;
    }
    switch (gate.xor.tag) {
    case 0:
        a = gate.xor.m1;
        b = gate.xor.m2;
        t12 = wires;
        t13 = t12 + a;
        t14 = *(uint8_t *)t13;
        t15 = wires;
        t16 = t15 + b;
        t17 = *(uint8_t *)t16;
        t11 = circuit_gates_bytes_xor_byte(t14, t17);
        break;
    case 1:
        a_2 = gate.and.m1;
        b_2 = gate.and.m2;
        t18 = opening;
        t19 = wires;
        t20 = t19 + a_2;
        t21 = *(uint8_t *)t20;
        t22 = wires;
        t23 = t22 + b_2;
        t24 = *(uint8_t *)t23;
        t11 = circuit_gates_bytes_and_byte(t18, own, t21, t24);
        break;
    default:
        a_3 = gate.not.m1;
        t25 = opening.role;
        t26 = wires;
        t27 = t26 + a_3;
        t28 = *(uint8_t *)t27;
        t11 = circuit_gates_bytes_not_byte(t25, t28);
        break;
    }
    result = t11;
    return result;
}

/* circuit_round, src/tests.rt:24: How many gates wait, counted by a `for`: no index is. */
static uint64_t circuit_round_tests_waiting_gates(char *wires, circuit_Layout layout)
{
    uint64_t result, count, byte_index, t8, t11, byte_index_end, t16;
    slice byte_items, t7;
    char *byte, *t9, *t10, *t12, *t15;
    bool t14, t18;
    uint8_t t17;
    count = 0ull;
    t8 = layout.inputs + layout.gates;
    t9 = wires;
    t10 = t9 + layout.inputs;
    t11 = t8 - layout.inputs;
    t12 = t10;
    t7 = (slice){t12, t11};
    byte_items = t7;
    byte_index = 0ull;
    byte_index_end = byte_items.count;
    for (;;) {
        t14 = byte_index < byte_index_end;
        if (!t14) {
            break;
        }
        t15 = byte_items.at + byte_index;
        byte = t15;
        t17 = *(uint8_t *)byte;
        t18 = t17 == 1u;
        t16 = core_UsizeFromBool_from(t18);
        count = count + t16;
        byte_index = byte_index + 1ull;
    }
    result = count;
    return result;
}

/* circuit_round, src/tests.rt:37: Tests the bytes and the role of a round. Here, in `check` and in a step's a line is a test of the
 * page, in its order. */
INLINE Result_unit_answer_Refusal circuit_round_tests_check_bytes(circuit_round_tests_Round round)
{
    Result_unit_answer_Refusal result;
    bool t2, t5, t8, t11, t15, t17;
    slice t3, t6, t9;
    answer_Refusal t4, t7, t10, t14, t18;
    uint64_t t12, t13;
    uint8_t t16;
    t3 = round.shares;
    t2 = answer_bytes_any_above(1u, t3);
    if (t2) {
        t4 = (answer_Refusal){answer_Refusal_not_element};
        result = (Result_unit_answer_Refusal){.err = {1u, t4}};
        return result;
    }
    t6 = round.triples;
    t5 = answer_bytes_any_above(1u, t6);
    if (t5) {
        t7 = (answer_Refusal){answer_Refusal_not_element};
        result = (Result_unit_answer_Refusal){.err = {1u, t7}};
        return result;
    }
    t9 = round.far_bits;
    t8 = answer_bytes_any_above(1u, t9);
    if (t8) {
        t10 = (answer_Refusal){answer_Refusal_not_element};
        result = (Result_unit_answer_Refusal){.err = {1u, t10}};
        return result;
    }
    t12 = round.triples.count;
    t13 = round.circuit.layout.ands;
    t11 = answer_lengths_is_short(t12, 3ull, t13);
    if (t11) {
        t14 = (answer_Refusal){answer_Refusal_too_few_triples};
        result = (Result_unit_answer_Refusal){.err = {1u, t14}};
        return result;
    }
    t16 = round.role;
    t15 = circuit_gates_shares_is_role(t16);
    t17 = !t15;
    if (t17) {
        t18 = (answer_Refusal){answer_Refusal_wrong_end};
        result = (Result_unit_answer_Refusal){.err = {1u, t18}};
        return result;
    }
    result = (Result_unit_answer_Refusal){.ok = {0u}};
    return result;
}

/* circuit_round, src/tests.rt:61: Tests a round on a state of these wires, with room for an output and for bits of so many bytes. */
INLINE Result_unit_answer_Refusal circuit_round_tests_check(circuit_round_tests_Round round, char *wires, uint64_t room, uint64_t bits_room)
{
    Result_unit_answer_Refusal result;
    circuit_Layout layout;
    uint64_t waits, t7, t10;
    bool t8, t12, t15;
    answer_Refusal t9, t11, t13, t14, t16;
    circuit_round_tests_Round t17;
    layout = round.circuit.layout;
    waits = circuit_round_tests_waiting_gates(wires, layout);
    t7 = round.shares.count;
    t8 = t7 != layout.inputs;
    if (t8) {
        t9 = (answer_Refusal){answer_Refusal_bad_length};
        result = (Result_unit_answer_Refusal){.err = {1u, t9}};
        return result;
    }
    t7 = round.triples.count;
    t10 = t7 % 3ull;
    t8 = t10 != 0ull;
    if (t8) {
        t11 = (answer_Refusal){answer_Refusal_bad_length};
        result = (Result_unit_answer_Refusal){.err = {1u, t11}};
        return result;
    }
    t7 = round.far_bits.count;
    t8 = answer_lengths_is_times(t7, 2ull, waits);
    t12 = !t8;
    if (t12) {
        t13 = (answer_Refusal){answer_Refusal_bad_length};
        result = (Result_unit_answer_Refusal){.err = {1u, t13}};
        return result;
    }
    t8 = room < layout.outputs;
    if (t8) {
        t14 = (answer_Refusal){answer_Refusal_buffer_short};
        result = (Result_unit_answer_Refusal){.err = {1u, t14}};
        return result;
    }
    t15 = answer_lengths_is_short(bits_room, 2ull, layout.ands);
    if (t15) {
        t16 = (answer_Refusal){answer_Refusal_buffer_short};
        result = (Result_unit_answer_Refusal){.err = {1u, t16}};
        return result;
    }
    t17 = round;
    result = circuit_round_tests_check_bytes(t17);
    return result;
}

/* circuit_round, src/passing.rt:12: Gives each input that is not known its share. */
static void circuit_round_passing_take_inputs(slice shares, char *wires)
{
    uint64_t i, i_end;
    char *share, *t7, *t9, *t10, *t13, *t14;
    bool t6;
    uint8_t t8, t11, t12;
    i = 0ull;
    i_end = shares.count;
    for (;;) {
        t6 = i < i_end;
        if (!t6) {
            break;
        }
        t7 = shares.at + i;
        share = t7;
        t9 = wires;
        t10 = t9 + i;
        t11 = *(uint8_t *)t10;
        t12 = *(uint8_t *)share;
        t8 = circuit_gates_bytes_input_byte(t11, t12);
        t13 = wires;
        t14 = t13 + i;
        *(uint8_t *)t14 = t8;
        i = i + 1ull;
    }
}

/* circuit_round, src/writing.rt:13: Puts the two bits of a gate that waits, its wires' bytes given; the place after them, which is how
 * many bits there are so far. Whole slices with counts, as `Opening` has them. */
INLINE uint64_t circuit_round_writing_put_bits(uint8_t byte, uint8_t x, uint8_t y, slice triples, uint64_t ands, slice bits_out, uint64_t
    place)
{
    uint64_t result, at, t15, t17;
    bool t9;
    uint8_t t10, t12, t13;
    char *t11, *t14, *t16, *t18;
    t9 = byte != 1u;
    if (t9) {
        result = place;
        return result;
    }
    at = ands * 3ull;
    t10 = circuit_gates_bytes_share_of(x);
    t11 = triples.at + at;
    t12 = *(uint8_t *)t11;
    t13 = (uint8_t)(t10 ^ t12);
    t14 = bits_out.at + place;
    *(uint8_t *)t14 = t13;
    t10 = circuit_gates_bytes_share_of(y);
    t15 = at + 1ull;
    t16 = triples.at + t15;
    t13 = *(uint8_t *)t16;
    t12 = (uint8_t)(t10 ^ t13);
    t17 = place + 1ull;
    t18 = bits_out.at + t17;
    *(uint8_t *)t18 = t12;
    result = place + 2ull;
    return result;
}

/* circuit_round, src/passing.rt:23: Passes over the gates and puts the bits of those that wait afterwards; how many bits they are.
 * `ands`, `passed` and `place` go on at some gates only, so that no `enumerate` counts them. */
static uint64_t circuit_round_passing_pass_gates(circuit_round_tests_Round round, slice bits_out, char *wires)
{
    uint64_t result, ands, passed, place, wire, a, b, t44;
    circuit_accepted_Circuit circuit, t22;
    uint8_t role, before, after, t31, t36, t39;
    slice triples, far_bits, t41;
    circuit_accepted_Gates items, iterator, t21, t23, t24;
    tuple_uint64_circuit_Gate t13, t25, t28;
    circuit_Gate gate;
    circuit_gates_bytes_Opening opening, t33;
    Option_tuple_uint64_circuit_Gate t26;
    char *t27, *t29, *t30, *t32, *t34, *t35, *t37, *t38, *t40, *t42, *t43;
    bool t45;
    circuit = round.circuit;
    role = round.role;
    triples = round.triples;
    far_bits = round.far_bits;
    ands = 0ull;
    passed = 0ull;
    place = 0ull;
    t22 = circuit;
    t21 = circuit_accepted_Circuit_gates(t22);
    items = t21;
    t24 = items;
    t23 = core_AnyIntoIterator_into_iter_circuit_accepted_Gates_tuple(t24);
    iterator = t23;
    for (;;) {
        t27 = (char *)&iterator;
        t26 = circuit_passing_GatesIterator_next(t27);
        switch (t26.none.tag) {
        case 1:
            t13 = t26.some.m1;
            t28 = t13;
            break;
        default:
            goto after1;
        }
        t25 = t28;
        wire = t25.m0;
        gate = t25.m1;
        opening = (circuit_gates_bytes_Opening){role, triples, ands, far_bits, passed};
        t29 = wires;
        t30 = t29 + wire;
        t31 = *(uint8_t *)t30;
        before = t31;
        t32 = wires;
        t33 = opening;
        after = circuit_gates_bytes_byte_after(gate, before, t32, t33);
        switch (gate.xor.tag) {
        case 1:
            a = gate.and.m1;
            b = gate.and.m2;
            t34 = wires;
            t35 = t34 + a;
            t36 = *(uint8_t *)t35;
            t37 = wires;
            t38 = t37 + b;
            t39 = *(uint8_t *)t38;
            t40 = bits_out.at;
            t41 = (slice){t40, bits_out.count};
            place = circuit_round_writing_put_bits(after, t36, t39, triples, ands, t41, place);
            ands = ands + 1ull;
            break;
        default:
            break;
        }
        t42 = wires;
        t43 = t42 + wire;
        *(uint8_t *)t43 = after;
        t45 = before == 1u;
        t44 = core_UsizeFromBool_from(t45);
        passed = passed + t44;
    }
after1:;
    result = place;
    return result;
}

/* circuit_round, src/writing.rt:36: Writes the shares of the output wires, of each byte its share; a step's state has the shares
 * themselves (`write_outputs`). As one, the two would take a closure for this one word. The room for the outputs is asked by clause, as
 * there. */
static void circuit_round_writing_write_shares(circuit_accepted_Circuit circuit, char *wires, slice output)
{
    Enumerate_circuit_accepted_OutputWires items, iterator, t9, t12, t13;
    tuple_uint64_uint64 t6, t14, t17;
    uint64_t i, wire;
    circuit_accepted_OutputWires t10;
    circuit_accepted_Circuit t11;
    Option_tuple_uint64_uint64 t15;
    char *t16, *t19, *t20, *t22;
    uint8_t t18, t21;
    t11 = circuit;
    t10 = circuit_accepted_Circuit_output_wires(t11);
    t9 = core_Iterator_enumerate_circuit_accepted_OutputWires_uint64(t10);
    items = t9;
    t13 = items;
    t12 = core_AnyIntoIterator_into_iter_Enumerate_circuit_accepted(t13);
    iterator = t12;
    for (;;) {
        t16 = (char *)&iterator;
        t15 = core_EnumerateIterator_next_circuit_accepted_OutputWires(t16);
        switch (t15.none.tag) {
        case 1:
            t6 = t15.some.m1;
            t17 = t6;
            break;
        default:
            goto after1;
        }
        t14 = t17;
        i = t14.m0;
        wire = t14.m1;
        t19 = wires;
        t20 = t19 + wire;
        t21 = *(uint8_t *)t20;
        t18 = circuit_gates_bytes_share_of(t21);
        t22 = output.at + i;
        *(uint8_t *)t22 = t18;
    }
after1:;
}

/* circuit_round, src/accepted.rt:19: Takes the wires on by a round, and gives the bits to send, or writes the outputs of a run where
 * none waits. */
INLINE circuit_round_accepted_Lengths circuit_round_accepted_accepted_round(circuit_round_tests_Round round, slice output, slice bits_out,
    char *wires)
{
    circuit_round_accepted_Lengths result;
    uint64_t bits, t19;
    slice t7, t11, t18;
    char *t8, *t10, *t12, *t16, *t17;
    circuit_round_tests_Round t9;
    bool t13;
    circuit_accepted_Circuit t15;
    t7 = round.shares;
    t8 = wires;
    circuit_round_passing_take_inputs(t7, t8);
    t9 = round;
    t10 = bits_out.at;
    t11 = (slice){t10, bits_out.count};
    t12 = wires;
    bits = circuit_round_passing_pass_gates(t9, t11, t12);
    t13 = bits == 0ull;
    if (t13) {
        t15 = round.circuit;
        t16 = wires;
        t17 = output.at;
        t18 = (slice){t17, output.count};
        circuit_round_writing_write_shares(t15, t16, t18);
        t19 = round.circuit.layout.outputs;
        result = (circuit_round_accepted_Lengths){t19, 0ull};
        return result;
    }
    result = (circuit_round_accepted_Lengths){0ull, bits};
    return result;
}

/* circuit_round, src/lib.rt:21: One round of an end's run: opens every AND whose wires are known and gives its two bits to send, or
 * writes the outputs of a run where none waits. */
INLINE circuit_run_Rounded circuit_round_round_run(uint8_t role, slice circuit, slice shares, slice triples, slice output, slice far_bits,
    slice bits_out, circuit_run_RoundState state)
{
    circuit_run_Rounded result;
    circuit_run_RoundState state_slot, t19, t26, t34;
    circuit_accepted_Circuit circuit_2, circuit_3, t18, t20;
    answer_Refusal refusal, refusal_2;
    circuit_round_tests_Round round, t22, t28;
    uint8_4096 wires, t27;
    circuit_round_accepted_Lengths lengths;
    Result_circuit_accepted_Circuit_answer_Refusal t17;
    Result_unit_answer_Refusal t21;
    char *t23, *t29, *t31, *t33;
    uint64_t t24, t25;
    slice t30, t32;
    state_slot = state;
    t17 = circuit_accepted_Circuit_read(circuit);
    switch (t17.ok.tag) {
    case 0:
        circuit_3 = t17.ok.m1;
        t18 = circuit_3;
        break;
    default:
        refusal = t17.err.m1;
        t19 = state_slot;
        result = circuit_run_Rounded_refused(refusal, t19);
        return result;
    }
    circuit_2 = t18;
    t20 = circuit_2;
    round = (circuit_round_tests_Round){t20, role, shares, triples, far_bits};
    t22 = round;
    t23 = (char *)&state_slot.wires;
    t24 = output.count;
    t25 = bits_out.count;
    t21 = circuit_round_tests_check(t22, t23, t24, t25);
    switch (t21.ok.tag) {
    case 1:
        refusal_2 = t21.err.m1;
        t26 = state_slot;
        result = circuit_run_Rounded_refused(refusal_2, t26);
        return result;
    default:
        break;
    }
    t27 = state_slot.wires;
    wires = t27;
    t28 = round;
    t29 = output.at;
    t30 = (slice){t29, output.count};
    t31 = bits_out.at;
    t32 = (slice){t31, bits_out.count};
    t33 = (char *)&wires;
    lengths = circuit_round_accepted_accepted_round(t28, t30, t32, t33);
    t27 = wires;
    t34 = (circuit_run_RoundState){t27};
    result = (circuit_run_Rounded){0u, lengths.written, lengths.bits_written, t34};
    return result;
}

/* circuit_step, src/tests.rt:26: Whether the far bits of a run that waits are bits. */
INLINE bool circuit_step_tests_are_far_bits(bool waits, uint8_t far_first, uint8_t far_second)
{
    bool result, t4, t5;
    t4 = !waits;
    if (!t4) {
        t5 = far_first <= 1u;
        if (t5) {
            t5 = far_second <= 1u;
        }
        t4 = t5;
    }
    result = t4;
    return result;
}

/* circuit_step, src/waiting.rt:12: The place of a gate, or after the last. It keeps the place of each gate by hand, since it gives the
 * last: the iterator `Gates` keeps its own. */
static circuit_run_places_Place circuit_step_waiting_place_of(circuit_accepted_Circuit circuit, uint64_t gate)
{
    circuit_run_places_Place result;
    slice source;
    circuit_Layout layout;
    uint64_t at, ands, i, next, t12;
    circuit_Gate passed;
    bool t10;
    tuple_circuit_Gate_uint64 t11;
    source = circuit.source;
    layout = circuit.layout;
    at = layout.body;
    ands = 0ull;
    i = 0ull;
    for (;;) {
        t10 = i < gate;
        if (!t10) {
            break;
        }
        t12 = layout.inputs + i;
        t11 = circuit_again_known_gate(source, at, t12);
        passed = t11.m0;
        next = t11.m1;
        t10 = circuit_Gate_is_and(passed);
        t12 = core_UsizeFromBool_from(t10);
        ands = ands + t12;
        at = next;
        i = i + 1ull;
    }
    result = (circuit_run_places_Place){gate, at, ands};
    return result;
}

/* circuit_step, src/waiting.rt:29: The AND at a gate, where there is one. */
INLINE Option_circuit_run_places_Spot circuit_step_waiting_and_at(circuit_accepted_Circuit circuit, uint64_t gate)
{
    Option_circuit_run_places_Spot result;
    slice source;
    circuit_Layout layout;
    uint64_t at, ands, next, first_wire, second_wire, t15;
    circuit_Gate found;
    bool t11;
    circuit_run_places_Place t12;
    circuit_accepted_Circuit t13;
    tuple_circuit_Gate_uint64 t14;
    circuit_run_places_Spot t16;
    source = circuit.source;
    layout = circuit.layout;
    t11 = layout.gates <= gate;
    if (t11) {
        result = (Option_circuit_run_places_Spot){.none = {0u}};
        return result;
    }
    t13 = circuit;
    t12 = circuit_step_waiting_place_of(t13, gate);
    at = t12.at;
    ands = t12.ands;
    t15 = layout.inputs + gate;
    t14 = circuit_again_known_gate(source, at, t15);
    found = t14.m0;
    next = t14.m1;
    switch (found.xor.tag) {
    case 1:
        first_wire = found.and.m1;
        second_wire = found.and.m2;
        break;
    default:
        result = (Option_circuit_run_places_Spot){.none = {0u}};
        return result;
    }
    t16 = (circuit_run_places_Spot){gate, first_wire, second_wire, ands, next};
    result = (Option_circuit_run_places_Spot){.some = {1u, t16}};
    return result;
}

/* circuit_step, src/waiting.rt:51: The run of a state of a phase and a gate, where the state is admitted. */
INLINE Option_circuit_run_places_Run circuit_step_waiting_run_of(circuit_accepted_Circuit circuit, uint32_t phase, uint64_t gate)
{
    Option_circuit_run_places_Run result, t7;
    circuit_run_places_Spot spot, t5, t13;
    Option_circuit_run_places_Spot t8, t11;
    circuit_run_places_Run t9, t14, t15;
    ControlFlow_NoValue_circuit_run_places_Spot t10;
    circuit_accepted_Circuit t12;
    switch (phase) {
    case 0:
        t8 = (Option_circuit_run_places_Spot){.none = {0u}};
        t9 = (circuit_run_places_Run){.going = {0u, t8}};
        t7 = (Option_circuit_run_places_Run){.some = {1u, t9}};
        break;
    case 1:
        t12 = circuit;
        t11 = circuit_step_waiting_and_at(t12, gate);
        t10 = core_OptionTry_branch_circuit_run_places_Spot(t11);
        switch (t10.continue_.tag) {
        case 0:
            t5 = t10.continue_.m1;
            t13 = t5;
            break;
        default:
            result = core_OptionFromResidualNoValue_from_residual_circuit_run();
            return result;
        }
        spot = t13;
        t11 = (Option_circuit_run_places_Spot){.some = {1u, spot}};
        t14 = (circuit_run_places_Run){.going = {0u, t11}};
        t7 = (Option_circuit_run_places_Run){.some = {1u, t14}};
        break;
    case 2:
        t15 = (circuit_run_places_Run){.finished = {1u}};
        t7 = (Option_circuit_run_places_Run){.some = {1u, t15}};
        break;
    default:
        t7 = (Option_circuit_run_places_Run){.none = {0u}};
        break;
    }
    result = t7;
    return result;
}

/* circuit_step, src/tests.rt:34: The run of a step on a state, with room for an output of `room` bytes. */
INLINE Result_circuit_run_places_Run_answer_Refusal circuit_step_tests_check(circuit_step_tests_Step step, char *state, uint64_t room)
{
    Result_circuit_run_places_Run_answer_Refusal result;
    circuit_accepted_Circuit circuit, t25;
    circuit_run_places_Asked asked;
    slice shares, triples;
    circuit_Layout layout;
    circuit_run_places_Run run;
    uint64_t t10, t13;
    bool t11, t16, t18, t20, t22;
    answer_Refusal t12, t14, t15, t17, t19, t21, t23, t28, t29;
    Option_circuit_run_places_Run t24;
    uint32_t t26, t27;
    circuit = step.circuit;
    asked = step.asked;
    shares = step.shares;
    triples = step.triples;
    layout = circuit.layout;
    t10 = shares.count;
    t11 = t10 != layout.inputs;
    if (t11) {
        t12 = (answer_Refusal){answer_Refusal_bad_length};
        result = (Result_circuit_run_places_Run_answer_Refusal){.err = {1u, t12}};
        return result;
    }
    t10 = triples.count;
    t13 = t10 % 3ull;
    t11 = t13 != 0ull;
    if (t11) {
        t14 = (answer_Refusal){answer_Refusal_bad_length};
        result = (Result_circuit_run_places_Run_answer_Refusal){.err = {1u, t14}};
        return result;
    }
    t11 = room < layout.outputs;
    if (t11) {
        t15 = (answer_Refusal){answer_Refusal_buffer_short};
        result = (Result_circuit_run_places_Run_answer_Refusal){.err = {1u, t15}};
        return result;
    }
    t16 = answer_bytes_any_above(1u, shares);
    if (t16) {
        t17 = (answer_Refusal){answer_Refusal_not_element};
        result = (Result_circuit_run_places_Run_answer_Refusal){.err = {1u, t17}};
        return result;
    }
    t18 = answer_bytes_any_above(1u, triples);
    if (t18) {
        t19 = (answer_Refusal){answer_Refusal_not_element};
        result = (Result_circuit_run_places_Run_answer_Refusal){.err = {1u, t19}};
        return result;
    }
    t11 = circuit_step_tests_are_far_bits(asked.waits, asked.far_first, asked.far_second);
    t20 = !t11;
    if (t20) {
        t21 = (answer_Refusal){answer_Refusal_not_element};
        result = (Result_circuit_run_places_Run_answer_Refusal){.err = {1u, t21}};
        return result;
    }
    t10 = triples.count;
    t22 = answer_lengths_is_short(t10, 3ull, layout.ands);
    if (t22) {
        t23 = (answer_Refusal){answer_Refusal_too_few_triples};
        result = (Result_circuit_run_places_Run_answer_Refusal){.err = {1u, t23}};
        return result;
    }
    t25 = circuit;
    t26 = ((circuit_run_StepState *)state)->phase;
    t27 = ((circuit_run_StepState *)state)->gate;
    t13 = (uint64_t)t27;
    t24 = circuit_step_waiting_run_of(t25, t26, t13);
    switch (t24.none.tag) {
    case 1:
        run = t24.some.m1;
        break;
    default:
        t28 = (answer_Refusal){answer_Refusal_bad_circuit};
        result = (Result_circuit_run_places_Run_answer_Refusal){.err = {1u, t28}};
        return result;
    }
    t11 = circuit_gates_shares_is_role(asked.role);
    t20 = !t11;
    if (t20) {
        t29 = (answer_Refusal){answer_Refusal_wrong_end};
        result = (Result_circuit_run_places_Run_answer_Refusal){.err = {1u, t29}};
        return result;
    }
    result = (Result_circuit_run_places_Run_answer_Refusal){.ok = {0u, run}};
    return result;
}

/* circuit_step, src/running.rt:93: Writes the shares of the output wires, which a step's state holds as they are; a round's has them in
 * bytes (`write_shares`). That the outputs have room is asked by clause: the buffer is C's, and `check` tests it. */
static void circuit_step_running_write_outputs(circuit_accepted_Circuit circuit, char *wires, slice output)
{
    Enumerate_circuit_accepted_OutputWires items, iterator, t9, t12, t13;
    tuple_uint64_uint64 t6, t14, t17;
    uint64_t i, wire;
    circuit_accepted_OutputWires t10;
    circuit_accepted_Circuit t11;
    Option_tuple_uint64_uint64 t15;
    char *t16, *t18, *t19, *t21;
    uint8_t t20;
    t11 = circuit;
    t10 = circuit_accepted_Circuit_output_wires(t11);
    t9 = core_Iterator_enumerate_circuit_accepted_OutputWires_uint64(t10);
    items = t9;
    t13 = items;
    t12 = core_AnyIntoIterator_into_iter_Enumerate_circuit_accepted(t13);
    iterator = t12;
    for (;;) {
        t16 = (char *)&iterator;
        t15 = core_EnumerateIterator_next_circuit_accepted_OutputWires(t16);
        switch (t15.none.tag) {
        case 1:
            t6 = t15.some.m1;
            t17 = t6;
            break;
        default:
            goto after1;
        }
        t14 = t17;
        i = t14.m0;
        wire = t14.m1;
        t18 = wires;
        t19 = t18 + wire;
        t20 = *(uint8_t *)t19;
        t21 = output.at + i;
        *(uint8_t *)t21 = t20;
    }
after1:;
}

/* circuit_step, src/accepted.rt:15: A finished run: writes the outputs. */
INLINE circuit_run_Stepped circuit_step_accepted_finish(circuit_accepted_Circuit circuit, slice output, circuit_run_StepState state)
{
    circuit_run_Stepped result;
    circuit_run_StepState state_slot, t11;
    circuit_accepted_Circuit t6;
    char *t7, *t8;
    slice t9;
    uint64_t t10;
    state_slot = state;
    t6 = circuit;
    t7 = (char *)&state_slot.wires;
    t8 = output.at;
    t9 = (slice){t8, output.count};
    circuit_step_running_write_outputs(t6, t7, t9);
    t10 = circuit.layout.outputs;
    t11 = state_slot;
    result = (circuit_run_Stepped){0u, t10, 0u, 0u, t11};
    return result;
}

/* circuit_step, src/running.rt:45: The wires of a fresh run: the shares, and zero past them. */
INLINE uint8_4096 circuit_step_running_fresh_wires(slice shares)
{
    uint8_4096 result, wires;
    uint64_t t4;
    char *t5;
    slice t6;
    for (int each = 0; each < 4096; each++)
        wires.a[each] = 0u;
    t4 = shares.count;
    t5 = (char *)&wires;
    t6 = (slice){t5, t4};
    core_slice_copy_from_slice_uint8(t6, shares);
    result = wires;
    return result;
}

/* circuit_step, src/running.rt:15: Runs from a place to the next AND, which it gives, or to the end. It keeps the place of each gate by
 * hand, since it gives that after the AND: the iterator `Gates` keeps its own. */
static Option_circuit_run_places_Spot circuit_step_running_run_on(circuit_accepted_Circuit circuit, uint8_t role, circuit_run_places_Place
    from, char *wires)
{
    Option_circuit_run_places_Spot result;
    slice source, t22;
    circuit_Layout layout;
    uint64_t at, gate, wire, next, a, b, a_2, first_wire, second_wire, gate_end, t19, t20, t23, t24, t27, t31, t36, t40, t41, t42, t43, t44,
        t46;
    circuit_Gate found;
    bool t18;
    tuple_circuit_Gate_uint64 t21;
    uint8_t t25, t26, t30, t34, t35, t39;
    char *t28, *t29, *t32, *t33, *t37, *t38, *t47, *t48;
    circuit_run_places_Spot t45;
    source = circuit.source;
    layout = circuit.layout;
    at = from.at;
    gate = from.gate;
    gate_end = layout.gates;
    for (;;) {
        t18 = gate < gate_end;
        if (!t18) {
            break;
        }
        t19 = layout.inputs;
        t20 = gate;
        wire = t19 + t20;
        t22 = source;
        t23 = at;
        t24 = wire;
        t21 = circuit_again_known_gate(t22, t23, t24);
        found = t21.m0;
        next = t21.m1;
        switch (found.xor.tag) {
        case 0:
            a = found.xor.m1;
            b = found.xor.m2;
            t27 = a;
            t28 = wires;
            t29 = t28 + t27;
            t30 = *(uint8_t *)t29;
            t31 = b;
            t32 = wires;
            t33 = t32 + t31;
            t34 = *(uint8_t *)t33;
            t26 = (uint8_t)(t30 ^ t34);
            break;
        case 2:
            a_2 = found.not.m1;
            t35 = role;
            t36 = a_2;
            t37 = wires;
            t38 = t37 + t36;
            t39 = *(uint8_t *)t38;
            t26 = circuit_gates_shares_flip(t35, t39);
            break;
        default:
            first_wire = found.and.m1;
            second_wire = found.and.m2;
            t40 = gate;
            t41 = first_wire;
            t42 = second_wire;
            t43 = from.ands;
            t44 = next;
            t45 = (circuit_run_places_Spot){t40, t41, t42, t43, t44};
            result = (Option_circuit_run_places_Spot){.some = {1u, t45}};
            return result;
        }
        t25 = t26;
        t46 = wire;
        t47 = wires;
        t48 = t47 + t46;
        *(uint8_t *)t48 = t25;
        at = next;
        gate = gate + 1ull;
    }
    result = (Option_circuit_run_places_Spot){.none = {0u}};
    return result;
}

/* circuit_step, src/running.rt:55: Takes a fresh run, or one that waits at an AND, to the next AND or to the end. */
INLINE Option_circuit_run_places_Spot circuit_step_running_proceed(circuit_step_tests_Step step, Option_circuit_run_places_Spot waiting,
    char *wires)
{
    Option_circuit_run_places_Spot result;
    circuit_accepted_Circuit circuit, t17;
    circuit_run_places_Asked asked;
    slice shares, triples;
    circuit_Layout layout;
    circuit_run_places_Place from, t11;
    circuit_run_places_Spot spot;
    uint64_t t13, t15;
    char *t14, *t18;
    uint8_4096 t16;
    circuit = step.circuit;
    asked = step.asked;
    shares = step.shares;
    triples = step.triples;
    layout = circuit.layout;
    switch (waiting.none.tag) {
    case 1:
        spot = waiting.some.m1;
        t13 = layout.inputs + spot.gate;
        t14 = wires;
        circuit_gates_shares_give_and(asked, spot, t13, triples, t14);
        t13 = spot.gate + 1ull;
        t15 = spot.ands + 1ull;
        t11 = (circuit_run_places_Place){t13, spot.next, t15};
        break;
    default:
        t16 = circuit_step_running_fresh_wires(shares);
        *(uint8_4096 *)wires = t16;
        t11 = (circuit_run_places_Place){0ull, layout.body, 0ull};
        break;
    }
    from = t11;
    t17 = circuit;
    t18 = wires;
    result = circuit_step_running_run_on(t17, asked.role, from, t18);
    return result;
}

/* circuit_step, src/accepted.rt:32: Runs to the next AND and gives its two bits, or to the end and writes the outputs. */
INLINE circuit_run_Stepped circuit_step_accepted_accepted_step(circuit_step_tests_Step step, circuit_run_places_Run run, slice output,
    circuit_run_StepState state)
{
    circuit_run_Stepped result;
    circuit_accepted_Circuit circuit, t13, t21;
    slice triples, t15, t23;
    Option_circuit_run_places_Spot waiting, reached;
    uint8_4096 wires, t20, t40;
    circuit_run_places_Spot spot;
    circuit_run_StepState last, t41;
    uint64_t at, t18, t24, t31, t35;
    char *t14, *t17, *t22, *t25, *t26, *t28, *t32, *t33, *t36;
    circuit_step_tests_Step t16;
    uint32_t t19, t39;
    uint8_t t27, t29, t30, t34, t37, t38;
    circuit = step.circuit;
    triples = step.triples;
    switch (run.going.tag) {
    case 0:
        waiting = run.going.m1;
        break;
    default:
        t13 = circuit;
        t14 = output.at;
        t15 = (slice){t14, output.count};
        result = circuit_step_accepted_finish(t13, t15, state);
        return result;
    }
    wires = state.wires;
    t16 = step;
    t17 = (char *)&wires;
    reached = circuit_step_running_proceed(t16, waiting, t17);
    switch (reached.none.tag) {
    case 1:
        spot = reached.some.m1;
        break;
    default:
        t18 = circuit.layout.gates;
        t19 = (uint32_t)t18;
        t20 = wires;
        last = (circuit_run_StepState){2u, t19, t20};
        t21 = circuit;
        t22 = output.at;
        t23 = (slice){t22, output.count};
        result = circuit_step_accepted_finish(t21, t23, last);
        return result;
    }
    at = spot.ands * 3ull;
    t24 = spot.first_wire;
    t25 = (char *)&wires;
    t26 = t25 + t24;
    t27 = *(uint8_t *)t26;
    t28 = triples.at + at;
    t29 = *(uint8_t *)t28;
    t30 = (uint8_t)(t27 ^ t29);
    t31 = spot.second_wire;
    t32 = (char *)&wires;
    t33 = t32 + t31;
    t34 = *(uint8_t *)t33;
    t35 = at + 1ull;
    t36 = triples.at + t35;
    t37 = *(uint8_t *)t36;
    t38 = (uint8_t)(t34 ^ t37);
    t39 = (uint32_t)spot.gate;
    t40 = wires;
    t41 = (circuit_run_StepState){1u, t39, t40};
    result = (circuit_run_Stepped){0u, 0ull, t30, t38, t41};
    return result;
}

/* circuit_step, src/lib.rt:19: One step of an end's run: up to the next AND, whose two bits to send it gives, or to the end, where it
 * writes the outputs. */
static circuit_run_Stepped circuit_step_step_run(uint8_t role, slice circuit, slice shares, slice triples, slice output, uint8_t far_first,
    uint8_t far_second, circuit_run_StepState state)
{
    circuit_run_Stepped result, t27;
    circuit_run_StepState state_slot, t19, t31, t32;
    circuit_accepted_Circuit circuit_2, circuit_3, t18, t22;
    answer_Refusal refusal, refusal_2;
    circuit_run_places_Asked asked;
    circuit_step_tests_Step step, t24, t28;
    circuit_run_places_Run run;
    Result_circuit_accepted_Circuit_answer_Refusal t17;
    uint32_t t20;
    bool t21;
    Result_circuit_run_places_Run_answer_Refusal t23;
    char *t25, *t29;
    uint64_t t26;
    slice t30;
    state_slot = state;
    t17 = circuit_accepted_Circuit_read(circuit);
    switch (t17.ok.tag) {
    case 0:
        circuit_3 = t17.ok.m1;
        t18 = circuit_3;
        break;
    default:
        refusal = t17.err.m1;
        t19 = state_slot;
        result = circuit_run_Stepped_refused(refusal, t19);
        return result;
    }
    circuit_2 = t18;
    t20 = state_slot.phase;
    t21 = t20 == 1u;
    asked = (circuit_run_places_Asked){role, t21, far_first, far_second};
    t22 = circuit_2;
    step = (circuit_step_tests_Step){t22, asked, shares, triples};
    t24 = step;
    t25 = (char *)&state_slot;
    t26 = output.count;
    t23 = circuit_step_tests_check(t24, t25, t26);
    switch (t23.ok.tag) {
    case 0:
        run = t23.ok.m1;
        t28 = step;
        t29 = output.at;
        t30 = (slice){t29, output.count};
        t31 = state_slot;
        t27 = circuit_step_accepted_accepted_step(t28, run, t30, t31);
        break;
    default:
        refusal_2 = t23.err.m1;
        t32 = state_slot;
        t27 = circuit_run_Stepped_refused(refusal_2, t32);
        break;
    }
    result = t27;
    return result;
}

/* dealing_tests, src/tests.rt:17: Whether a size is 1 to `top`. This and `is_branch` are tested in `record_head` too, of what is read,
 * in a closure each: the definitions that both promise are those of `record` (`Admitted`). */
INLINE bool dealing_tests_tests_is_size(uint64_t top, uint64_t size)
{
    bool result, t3;
    t3 = 1ull <= size;
    if (t3) {
        t3 = size <= top;
    }
    result = t3;
    return result;
}

/* dealing_tests, src/tests.rt:24: Whether g is 1, 2 or 3 and d a multiple of it (document 02, 10). */
INLINE bool dealing_tests_tests_is_branch(uint64_t depth, uint64_t branch_bits)
{
    bool result, t3;
    uint64_t t4;
    t3 = dealing_tests_tests_is_size(3ull, branch_bits);
    if (t3) {
        t4 = depth % branch_bits;
        t3 = t4 == 0ull;
    }
    result = t3;
    return result;
}

/* dealing_tests, src/tests.rt:32: Whether a count is 1 to the smaller of a limit and N. It and `is_outputs` stay beside `is_size`: by
 * their names `check_sizes` reads as the document's list, a line a test. */
INLINE bool dealing_tests_tests_is_count(uint64_t limit, uint64_t depth, uint64_t count)
{
    bool result;
    uint64_t t4, t5;
    t5 = record_sizes_leaves(depth);
    t4 = core_usize_min(limit, t5);
    result = dealing_tests_tests_is_size(t4, count);
    return result;
}

/* dealing_tests, src/tests.rt:40: Whether n is 1 to N / 2. */
INLINE bool dealing_tests_tests_is_outputs(uint64_t depth, uint64_t outputs)
{
    bool result;
    uint64_t t3, t4;
    t3 = record_sizes_leaves(depth);
    t4 = t3 / 2ull;
    result = dealing_tests_tests_is_size(t4, outputs);
    return result;
}

/* dealing_tests, src/tests.rt:49: Tests field, d, g, t, ℓ and n. */
INLINE Result_unit_answer_Refusal dealing_tests_tests_check_sizes(record_Layout layout)
{
    Result_unit_answer_Refusal result;
    bool t2, t3;
    answer_Refusal t4, t5, t6, t7, t8, t9;
    t2 = field_noise_is_field(layout.field);
    t3 = !t2;
    if (t3) {
        t4 = (answer_Refusal){answer_Refusal_bad_field};
        result = (Result_unit_answer_Refusal){.err = {1u, t4}};
        return result;
    }
    t2 = dealing_tests_tests_is_size(16ull, layout.depth);
    t3 = !t2;
    if (t3) {
        t5 = (answer_Refusal){answer_Refusal_bad_size};
        result = (Result_unit_answer_Refusal){.err = {1u, t5}};
        return result;
    }
    t2 = dealing_tests_tests_is_branch(layout.depth, layout.branch_bits);
    t3 = !t2;
    if (t3) {
        t6 = (answer_Refusal){answer_Refusal_bad_size};
        result = (Result_unit_answer_Refusal){.err = {1u, t6}};
        return result;
    }
    t2 = dealing_tests_tests_is_count(64ull, layout.depth, layout.trees);
    t3 = !t2;
    if (t3) {
        t7 = (answer_Refusal){answer_Refusal_bad_size};
        result = (Result_unit_answer_Refusal){.err = {1u, t7}};
        return result;
    }
    t2 = dealing_tests_tests_is_count(32ull, layout.depth, layout.terms);
    t3 = !t2;
    if (t3) {
        t8 = (answer_Refusal){answer_Refusal_bad_size};
        result = (Result_unit_answer_Refusal){.err = {1u, t8}};
        return result;
    }
    t2 = dealing_tests_tests_is_outputs(layout.depth, layout.outputs);
    t3 = !t2;
    if (t3) {
        t9 = (answer_Refusal){answer_Refusal_bad_size};
        result = (Result_unit_answer_Refusal){.err = {1u, t9}};
        return result;
    }
    result = (Result_unit_answer_Refusal){.ok = {0u}};
    return result;
}

/* dealing_tests, src/tests.rt:75: Tests that each slice has the length that the sizes call for. */
INLINE Result_unit_answer_Refusal dealing_tests_tests_check_lengths(char *input)
{
    Result_unit_answer_Refusal result;
    record_Layout layout;
    slice roots, positions, values, delta, code_key, label;
    bool t9, t11;
    uint64_t t10;
    answer_Refusal t12, t13, t14, t15, t16, t17;
    layout = ((dealing_tests_input_Input *)input)->layout;
    roots = ((dealing_tests_input_Input *)input)->roots;
    positions = ((dealing_tests_input_Input *)input)->positions;
    values = ((dealing_tests_input_Input *)input)->values;
    delta = ((dealing_tests_input_Input *)input)->delta;
    code_key = ((dealing_tests_input_Input *)input)->code_key;
    label = ((dealing_tests_input_Input *)input)->label;
    t10 = roots.count;
    t9 = answer_lengths_is_times(t10, 16ull, layout.trees);
    t11 = !t9;
    if (t11) {
        t12 = (answer_Refusal){answer_Refusal_bad_length};
        result = (Result_unit_answer_Refusal){.err = {1u, t12}};
        return result;
    }
    t10 = positions.count;
    t9 = t10 != layout.trees;
    if (t9) {
        t13 = (answer_Refusal){answer_Refusal_bad_length};
        result = (Result_unit_answer_Refusal){.err = {1u, t13}};
        return result;
    }
    t10 = values.count;
    t11 = t10 != layout.trees;
    if (t11) {
        t14 = (answer_Refusal){answer_Refusal_bad_length};
        result = (Result_unit_answer_Refusal){.err = {1u, t14}};
        return result;
    }
    t10 = delta.count;
    t9 = t10 != 16ull;
    if (t9) {
        t15 = (answer_Refusal){answer_Refusal_bad_length};
        result = (Result_unit_answer_Refusal){.err = {1u, t15}};
        return result;
    }
    t10 = code_key.count;
    t11 = t10 != 16ull;
    if (t11) {
        t16 = (answer_Refusal){answer_Refusal_bad_length};
        result = (Result_unit_answer_Refusal){.err = {1u, t16}};
        return result;
    }
    t10 = label.count;
    t9 = t10 != 16ull;
    if (t9) {
        t17 = (answer_Refusal){answer_Refusal_bad_length};
        result = (Result_unit_answer_Refusal){.err = {1u, t17}};
        return result;
    }
    result = (Result_unit_answer_Refusal){.ok = {0u}};
    return result;
}

/* dealing_tests, src/tests.rt:110: Whether the positions are strictly rising and below N. The loop carries the least that the next may
 * be: pairs by `windows` would leave the first position to a test of its own. */
static bool dealing_tests_tests_rising(uint64_t depth, slice positions)
{
    bool result, t9, t13, t14;
    uint64_t all, base, position_index, position_2, position_index_end;
    char *position, *t11;
    uint32_t t12;
    all = record_sizes_leaves(depth);
    base = 0ull;
    position_index = 0ull;
    position_index_end = positions.count;
    for (;;) {
        t9 = position_index < position_index_end;
        if (!t9) {
            break;
        }
        t11 = (char *)((uint32_t *)positions.at + position_index);
        position = t11;
        t12 = *(uint32_t *)position;
        position_2 = (uint64_t)t12;
        t13 = position_2 < base;
        if (!t13) {
            t13 = all <= position_2;
            t14 = t13;
            if (!t14) {
                goto after5;
            }
        }
        result = false;
        return result;
        goto after4;
    after5:;
    after4:;
        base = position_2 + 1ull;
        position_index = position_index + 1ull;
    }
    result = true;
    return result;
}

/* dealing_tests::tests::fn::every_noise::all, a closure */
INLINE bool dealing_tests_tests_fn_every_noise_all(char *self, char *value)
{
    bool result;
    char *field;
    uint64_t t4, t5;
    field = ((dealing_tests_tests_fn_every_noise_all_Self_ref_uint64 *)self)->m0;
    t4 = *(uint64_t *)field;
    t5 = *(uint64_t *)value;
    result = field_noise_is_noise(t4, t5);
    return result;
}

/* dealing_tests::tests::fn::every_noise::all+FnMut::call_mut, a closure */
INLINE bool dealing_tests_tests_fn_every_noise_all_FnMut_call_mut(char *arg1, char *arg2)
{
    bool result;
    char *t3;
    t3 = arg1;
    result = dealing_tests_tests_fn_every_noise_all(t3, arg2);
    return result;
}

/* core::iter::base::Iterator::all of the kit, at Iter<u64> and &u64 and a closure */
static bool core_Iterator_all_Iter_uint64_ref_uint64_dealing_tests(char *self, dealing_tests_tests_fn_every_noise_all_Self_ref_uint64 f)
{
    bool result, t7, t10;
    dealing_tests_tests_fn_every_noise_all_Self_ref_uint64 f_slot;
    char *x, *t6, *t8, *t9;
    Option_ref_uint64 t5;
    f_slot = f;
    for (;;) {
        t6 = self;
        t5 = core_IterIterator_next_uint64(t6);
        switch (t5.none.tag) {
        case 1:
            x = t5.some.m1;
            t8 = (char *)&f_slot;
            t9 = x;
            t7 = dealing_tests_tests_fn_every_noise_all_FnMut_call_mut(t8, t9);
            t10 = !t7;
            if (t10) {
                result = false;
                return result;
            }
            break;
        default:
            goto after1;
        }
    }
after1:;
    result = true;
    return result;
}

/* dealing_tests, src/tests.rt:127: Whether every noise value is admitted. */
INLINE bool dealing_tests_tests_every_noise(uint64_t field, slice values)
{
    bool result;
    uint64_t field_slot;
    Iter_uint64 t4, t5;
    char *t6, *t7;
    dealing_tests_tests_fn_every_noise_all_Self_ref_uint64 t8;
    field_slot = field;
    t4 = core_slice_iter_uint64(values);
    t5 = t4;
    t6 = (char *)&t5;
    t7 = (char *)&field_slot;
    t8 = (dealing_tests_tests_fn_every_noise_all_Self_ref_uint64){t7};
    result = core_Iterator_all_Iter_uint64_ref_uint64_dealing_tests(t6, t8);
    return result;
}

/* dealing_tests, src/tests.rt:134: Whether Δ is admitted. */
INLINE bool dealing_tests_tests_delta_admitted(uint64_t field, slice delta)
{
    bool result, t3;
    field_element_Element t4;
    uint64_t t5;
    t4 = field_element_element_at(field, delta, 0ull);
    t3 = field_element_is_scalar(field, t4);
    if (t3) {
        t5 = field_bytes_word_at(delta, 8ull);
        t3 = field_element_rest_zero(field, t5);
    }
    result = t3;
    return result;
}

/* dealing_tests, src/tests.rt:143: Tests positions, noise values and Δ. */
INLINE Result_unit_answer_Refusal dealing_tests_tests_check_content(char *input)
{
    Result_unit_answer_Refusal result;
    record_Layout layout;
    bool t3, t5;
    slice t4, t7, t9;
    answer_Refusal t6, t8, t10;
    layout = ((dealing_tests_input_Input *)input)->layout;
    t4 = ((dealing_tests_input_Input *)input)->positions;
    t3 = dealing_tests_tests_rising(layout.depth, t4);
    t5 = !t3;
    if (t5) {
        t6 = (answer_Refusal){answer_Refusal_bad_position};
        result = (Result_unit_answer_Refusal){.err = {1u, t6}};
        return result;
    }
    t7 = ((dealing_tests_input_Input *)input)->values;
    t3 = dealing_tests_tests_every_noise(layout.field, t7);
    t5 = !t3;
    if (t5) {
        t8 = (answer_Refusal){answer_Refusal_bad_noise};
        result = (Result_unit_answer_Refusal){.err = {1u, t8}};
        return result;
    }
    t9 = ((dealing_tests_input_Input *)input)->delta;
    t3 = dealing_tests_tests_delta_admitted(layout.field, t9);
    t5 = !t3;
    if (t5) {
        t10 = (answer_Refusal){answer_Refusal_bad_delta};
        result = (Result_unit_answer_Refusal){.err = {1u, t10}};
        return result;
    }
    result = (Result_unit_answer_Refusal){.ok = {0u}};
    return result;
}

/* dealing_tests, src/input.rt:35: Tests both buffers for room for their records. */
INLINE Result_unit_answer_Refusal dealing_tests_input_check_rooms(record_Layout layout, dealing_tests_input_Rooms rooms, slice positions)
{
    Result_unit_answer_Refusal result;
    uint64_t t4;
    bool t5;
    answer_Refusal t6, t7;
    t4 = record_writing_noise_length(layout, positions);
    t5 = rooms.noise < t4;
    if (t5) {
        t6 = (answer_Refusal){answer_Refusal_buffer_short};
        result = (Result_unit_answer_Refusal){.err = {1u, t6}};
        return result;
    }
    t4 = record_writing_scalar_length(layout);
    t5 = rooms.scalar < t4;
    if (t5) {
        t7 = (answer_Refusal){answer_Refusal_buffer_short};
        result = (Result_unit_answer_Refusal){.err = {1u, t7}};
        return result;
    }
    result = (Result_unit_answer_Refusal){.ok = {0u}};
    return result;
}

/* dealing_tests, src/input.rt:49: Tests an input and buffers of these lengths. */
INLINE Result_unit_answer_Refusal dealing_tests_input_check(char *input, dealing_tests_input_Rooms rooms)
{
    Result_unit_answer_Refusal result, t10;
    ErrResidual_answer_Refusal t4, t6, t8;
    ControlFlow_ErrResidual_answer_Refusal_unit t9, t12, t13;
    record_Layout t11;
    slice t14;
    t11 = ((dealing_tests_input_Input *)input)->layout;
    t10 = dealing_tests_tests_check_sizes(t11);
    t9 = core_ResultTry_branch_unit_answer_Refusal(t10);
    switch (t9.continue_.tag) {
    case 0:
        break;
    default:
        t4 = t9.break_.m1;
        result = core_ResultFromResidualErrResidual_from_residual_unit(t4);
        return result;
    }
    t10 = dealing_tests_tests_check_lengths(input);
    t12 = core_ResultTry_branch_unit_answer_Refusal(t10);
    switch (t12.continue_.tag) {
    case 0:
        break;
    default:
        t6 = t12.break_.m1;
        result = core_ResultFromResidualErrResidual_from_residual_unit(t6);
        return result;
    }
    t10 = dealing_tests_tests_check_content(input);
    t13 = core_ResultTry_branch_unit_answer_Refusal(t10);
    switch (t13.continue_.tag) {
    case 0:
        break;
    default:
        t8 = t13.break_.m1;
        result = core_ResultFromResidualErrResidual_from_residual_unit(t8);
        return result;
    }
    t11 = ((dealing_tests_input_Input *)input)->layout;
    t14 = ((dealing_tests_input_Input *)input)->positions;
    result = dealing_tests_input_check_rooms(t11, rooms, t14);
    return result;
}

/* aes_blocks, src/round.rt:86: The first AddRoundKey, of a block. */
INLINE uint8_4_4 aes_blocks_round_first_key(field_block_Block s, char *keys)
{
    uint8_4_4 result;
    field_block_Block key, t10;
    char *t4, *t5, *t7, *t8;
    uint64_t t6, t9;
    t4 = keys;
    t5 = t4 + 0ull;
    t6 = *(uint64_t *)t5;
    t7 = keys;
    t8 = t7 + 8ull;
    t9 = *(uint64_t *)t8;
    key = (field_block_Block){t6, t9};
    t10 = field_block_Block_add(s, key);
    result = field_block_Block_columns(t10);
    return result;
}

/* aes_blocks, src/round.rt:15: The rows of a wide column. */
INLINE uint8_4 aes_blocks_round_rows(uint64_t w)
{
    uint8_4 result;
    uint64_t t2, t4, t5, t7, t8, t10, t11;
    uint8_t t3, t6, t9, t12;
    t2 = w % 256ull;
    t3 = (uint8_t)t2;
    t4 = w / 16777216ull;
    t5 = t4 % 256ull;
    t6 = (uint8_t)t5;
    t7 = w / 4294967296ull;
    t8 = t7 % 256ull;
    t9 = (uint8_t)t8;
    t10 = w / 72057594037927936ull;
    t11 = t10 % 256ull;
    t12 = (uint8_t)t11;
    result = (uint8_4){{t3, t6, t9, t12}};
    return result;
}

/* aes_blocks, src/round.rt:27: Column c of a round: SubBytes, ShiftRows and MixColumns of a state, and the round key's column. */
INLINE uint8_4 aes_blocks_round_mix_column(aes_sbox_Tables tables, char *s, uint64_t c, uint64_t k)
{
    uint8_4 result;
    uint64_t t5, t7, t13, t14, t16, t17, t18, t24, t25, t27, t28, t29, t35, t36, t38, t39, t40, t46;
    aes_sbox_Tables t6, t15, t26, t37;
    char *t8, *t9, *t10, *t11, *t19, *t20, *t21, *t22, *t30, *t31, *t32, *t33, *t41, *t42, *t43, *t44;
    uint8_t t12, t23, t34, t45;
    t6 = tables;
    t7 = c * 4ull;
    t8 = s;
    t9 = t8 + t7;
    t10 = t9;
    t11 = t10 + 0ull;
    t12 = *(uint8_t *)t11;
    t5 = aes_sbox_Tables_mixed(t6, 0ull, t12);
    t13 = k ^ t5;
    t15 = tables;
    t16 = c + 3ull;
    t17 = t16 % 4ull;
    t18 = t17 * 4ull;
    t19 = s;
    t20 = t19 + t18;
    t21 = t20;
    t22 = t21 + 3ull;
    t23 = *(uint8_t *)t22;
    t14 = aes_sbox_Tables_mixed(t15, 3ull, t23);
    t24 = t13 ^ t14;
    t26 = tables;
    t27 = c + 1ull;
    t28 = t27 % 4ull;
    t29 = t28 * 4ull;
    t30 = s;
    t31 = t30 + t29;
    t32 = t31;
    t33 = t32 + 1ull;
    t34 = *(uint8_t *)t33;
    t25 = aes_sbox_Tables_mixed(t26, 1ull, t34);
    t35 = t24 ^ t25;
    t37 = tables;
    t38 = c + 2ull;
    t39 = t38 % 4ull;
    t40 = t39 * 4ull;
    t41 = s;
    t42 = t41 + t40;
    t43 = t42;
    t44 = t43 + 2ull;
    t45 = *(uint8_t *)t44;
    t36 = aes_sbox_Tables_mixed(t37, 2ull, t45);
    t46 = t35 ^ t36;
    result = aes_blocks_round_rows(t46);
    return result;
}

/* aes_blocks, src/round.rt:40: A round with all four steps, whose round key's columns begin at a place: any of forty words, as
 * `aes128::schedule` says. */
INLINE uint8_4_4 aes_blocks_round_full_round(aes_sbox_Tables tables, uint8_4_4 s, char *keys, uint64_t at)
{
    uint8_4_4 result, s_slot;
    uint8_4 c0, c1, c2, c3;
    aes_sbox_Tables t10, t16, t21, t25;
    char *t11, *t13, *t14, *t17, *t19, *t20, *t22, *t23, *t24, *t26, *t27, *t28;
    uint64_t t12, t15;
    s_slot = s;
    t10 = tables;
    t11 = (char *)&s_slot;
    t12 = at * 8ull;
    t13 = keys;
    t14 = (char *)((uint64_t *)t13 + at);
    t15 = *(uint64_t *)t14;
    c0 = aes_blocks_round_mix_column(t10, t11, 0ull, t15);
    t16 = tables;
    t17 = (char *)&s_slot;
    t12 = at + 1ull;
    t19 = keys;
    t20 = (char *)((uint64_t *)t19 + t12);
    t15 = *(uint64_t *)t20;
    c1 = aes_blocks_round_mix_column(t16, t17, 1ull, t15);
    t21 = tables;
    t22 = (char *)&s_slot;
    t12 = at + 2ull;
    t23 = keys;
    t24 = (char *)((uint64_t *)t23 + t12);
    t15 = *(uint64_t *)t24;
    c2 = aes_blocks_round_mix_column(t21, t22, 2ull, t15);
    t25 = tables;
    t26 = (char *)&s_slot;
    t12 = at + 3ull;
    t27 = keys;
    t28 = (char *)((uint64_t *)t27 + t12);
    t15 = *(uint64_t *)t28;
    c3 = aes_blocks_round_mix_column(t25, t26, 3ull, t15);
    result = (uint8_4_4){{c0, c1, c2, c3}};
    return result;
}

/* aes_blocks, src/round.rt:52: Column c of the last round without its round key, as the four low bytes of a word. */
INLINE uint64_t aes_blocks_round_last_column(aes_sbox_Tables tables, char *s, uint64_t c)
{
    uint64_t result, t4, t6, t12, t13, t15, t16, t17, t23, t24, t25, t27, t28, t29, t35, t36, t37, t39, t40, t41, t47;
    aes_sbox_Tables t5, t14, t26, t38;
    char *t7, *t8, *t9, *t10, *t18, *t19, *t20, *t21, *t30, *t31, *t32, *t33, *t42, *t43, *t44, *t45;
    uint8_t t11, t22, t34, t46;
    t5 = tables;
    t6 = c * 4ull;
    t7 = s;
    t8 = t7 + t6;
    t9 = t8;
    t10 = t9 + 0ull;
    t11 = *(uint8_t *)t10;
    t4 = aes_sbox_Tables_low_rows(t5, t11);
    t12 = t4 % 4294967296ull;
    t14 = tables;
    t15 = c + 3ull;
    t16 = t15 % 4ull;
    t17 = t16 * 4ull;
    t18 = s;
    t19 = t18 + t17;
    t20 = t19;
    t21 = t20 + 3ull;
    t22 = *(uint8_t *)t21;
    t13 = aes_sbox_Tables_high_rows(t14, t22);
    t23 = t13 / 4294967296ull;
    t24 = t12 ^ t23;
    t26 = tables;
    t27 = c + 1ull;
    t28 = t27 % 4ull;
    t29 = t28 * 4ull;
    t30 = s;
    t31 = t30 + t29;
    t32 = t31;
    t33 = t32 + 1ull;
    t34 = *(uint8_t *)t33;
    t25 = aes_sbox_Tables_low_rows(t26, t34);
    t35 = t25 / 4294967296ull;
    t36 = t24 ^ t35;
    t38 = tables;
    t39 = c + 2ull;
    t40 = t39 % 4ull;
    t41 = t40 * 4ull;
    t42 = s;
    t43 = t42 + t41;
    t44 = t43;
    t45 = t44 + 2ull;
    t46 = *(uint8_t *)t45;
    t37 = aes_sbox_Tables_high_rows(t38, t46);
    t47 = t37 % 4294967296ull;
    result = t36 ^ t47;
    return result;
}

/* aes_blocks, src/round.rt:63: The exclusive or of a word and of the word whose halves are two columns. */
INLINE uint64_t aes_blocks_round_last_word(uint64_t k, uint64_t c0, uint64_t c1)
{
    uint64_t result, t4, t5;
    t4 = k ^ c0;
    t5 = c1 << 32ull;
    result = t4 ^ t5;
    return result;
}

/* aes_blocks, src/round.rt:71: The last round, which has no MixColumns. */
INLINE uint8_4_4 aes_blocks_round_last_round(aes_sbox_Tables tables, uint8_4_4 s, char *keys)
{
    uint8_4_4 result, s_slot;
    uint64_t c0, c1, c2, c3, t18, t21, t22, t25;
    field_block_Block t;
    aes_sbox_Tables t10, t12, t14, t16;
    char *t11, *t13, *t15, *t17, *t19, *t20, *t23, *t24;
    s_slot = s;
    t10 = tables;
    t11 = (char *)&s_slot;
    c0 = aes_blocks_round_last_column(t10, t11, 0ull);
    t12 = tables;
    t13 = (char *)&s_slot;
    c1 = aes_blocks_round_last_column(t12, t13, 1ull);
    t14 = tables;
    t15 = (char *)&s_slot;
    c2 = aes_blocks_round_last_column(t14, t15, 2ull);
    t16 = tables;
    t17 = (char *)&s_slot;
    c3 = aes_blocks_round_last_column(t16, t17, 3ull);
    t19 = keys;
    t20 = t19 + 304ull;
    t21 = *(uint64_t *)t20;
    t18 = aes_blocks_round_last_word(t21, c0, c1);
    t23 = keys;
    t24 = t23 + 312ull;
    t25 = *(uint64_t *)t24;
    t22 = aes_blocks_round_last_word(t25, c2, c3);
    t = (field_block_Block){t18, t22};
    result = field_block_Block_columns(t);
    return result;
}

/* aes_blocks, src/lib.rt:44: The ciphers of two blocks, each under round keys of its own, in alternation. */
static aes_blocks_Two_field_block_Block aes_blocks_encrypt_two(aes_sbox_Tables tables, char *one_keys, char *other_keys, uint64_t one_low,
    uint64_t one_high, uint64_t other_low, uint64_t other_high)
{
    aes_blocks_Two_field_block_Block result;
    field_block_Block one, other, t48, t49;
    uint8_4_4 a0, a1, b0, b1, a2, b2, a3, b3, a4, b4, a5, b5, a6, b6, a7, b7, a8, b8, a9, b9, a10, b10;
    aes_sbox_Tables t28, t29, t30, t31, t32, t33, t34, t35, t36, t37, t38, t39, t40, t41, t42, t43, t44, t45, t46, t47;
    one = (field_block_Block){one_low, one_high};
    other = (field_block_Block){other_low, other_high};
    a0 = aes_blocks_round_first_key(one, one_keys);
    t28 = tables;
    a1 = aes_blocks_round_full_round(t28, a0, one_keys, 2ull);
    b0 = aes_blocks_round_first_key(other, other_keys);
    t29 = tables;
    b1 = aes_blocks_round_full_round(t29, b0, other_keys, 2ull);
    t30 = tables;
    a2 = aes_blocks_round_full_round(t30, a1, one_keys, 6ull);
    t31 = tables;
    b2 = aes_blocks_round_full_round(t31, b1, other_keys, 6ull);
    t32 = tables;
    a3 = aes_blocks_round_full_round(t32, a2, one_keys, 10ull);
    t33 = tables;
    b3 = aes_blocks_round_full_round(t33, b2, other_keys, 10ull);
    t34 = tables;
    a4 = aes_blocks_round_full_round(t34, a3, one_keys, 14ull);
    t35 = tables;
    b4 = aes_blocks_round_full_round(t35, b3, other_keys, 14ull);
    t36 = tables;
    a5 = aes_blocks_round_full_round(t36, a4, one_keys, 18ull);
    t37 = tables;
    b5 = aes_blocks_round_full_round(t37, b4, other_keys, 18ull);
    t38 = tables;
    a6 = aes_blocks_round_full_round(t38, a5, one_keys, 22ull);
    t39 = tables;
    b6 = aes_blocks_round_full_round(t39, b5, other_keys, 22ull);
    t40 = tables;
    a7 = aes_blocks_round_full_round(t40, a6, one_keys, 26ull);
    t41 = tables;
    b7 = aes_blocks_round_full_round(t41, b6, other_keys, 26ull);
    t42 = tables;
    a8 = aes_blocks_round_full_round(t42, a7, one_keys, 30ull);
    t43 = tables;
    b8 = aes_blocks_round_full_round(t43, b7, other_keys, 30ull);
    t44 = tables;
    a9 = aes_blocks_round_full_round(t44, a8, one_keys, 34ull);
    t45 = tables;
    b9 = aes_blocks_round_full_round(t45, b8, other_keys, 34ull);
    t46 = tables;
    a10 = aes_blocks_round_last_round(t46, a9, one_keys);
    t47 = tables;
    b10 = aes_blocks_round_last_round(t47, b9, other_keys);
    t48 = field_block_Block_of_columns(a10);
    t49 = field_block_Block_of_columns(b10);
    result = (aes_blocks_Two_field_block_Block){t48, t49};
    return result;
}

/* aes_blocks, src/lib.rt:26: The cipher of a block. */
static field_block_Block aes_blocks_encrypt(aes_sbox_Tables tables, char *keys, uint64_t s_low, uint64_t s_high)
{
    field_block_Block result, s;
    uint8_4_4 a0, a1, a2, a3, a4, a5, a6, a7, a8, a9, a10;
    aes_sbox_Tables t15, t16, t17, t18, t19, t20, t21, t22, t23, t24;
    s = (field_block_Block){s_low, s_high};
    a0 = aes_blocks_round_first_key(s, keys);
    t15 = tables;
    a1 = aes_blocks_round_full_round(t15, a0, keys, 2ull);
    t16 = tables;
    a2 = aes_blocks_round_full_round(t16, a1, keys, 6ull);
    t17 = tables;
    a3 = aes_blocks_round_full_round(t17, a2, keys, 10ull);
    t18 = tables;
    a4 = aes_blocks_round_full_round(t18, a3, keys, 14ull);
    t19 = tables;
    a5 = aes_blocks_round_full_round(t19, a4, keys, 18ull);
    t20 = tables;
    a6 = aes_blocks_round_full_round(t20, a5, keys, 22ull);
    t21 = tables;
    a7 = aes_blocks_round_full_round(t21, a6, keys, 26ull);
    t22 = tables;
    a8 = aes_blocks_round_full_round(t22, a7, keys, 30ull);
    t23 = tables;
    a9 = aes_blocks_round_full_round(t23, a8, keys, 34ull);
    t24 = tables;
    a10 = aes_blocks_round_last_round(t24, a9, keys);
    result = field_block_Block_of_columns(a10);
    return result;
}

/* tree_walk, src/powers.rt:6: A power of two. `record::leaves`, which ARCHITECTURE.md names, says the same of a depth, and neither crate
 * stands on the other: each body is one shift. */
INLINE uint64_t tree_walk_powers_power(uint64_t bits)
{
    uint64_t result;
    result = 1ull << bits;
    return result;
}

/* tree_walk, src/node.rt:15: The round keys of the child keys of a node's 2^branch_bits children, those of child c at place c. Eight
 * places for any branch_bits: there is no heap, and no const argument can be computed. */
static uint64_40_8 tree_walk_node_child_keys(uint64_t branch_bits)
{
    uint64_40_8 result, keys;
    uint64_t count, c, t11;
    uint64_40 t5, t7;
    bool t6;
    uint8_t t8;
    uint8_4 t9;
    uint8_4_4 t10;
    char *t12, *t13;
    count = tree_walk_powers_power(branch_bits);
    for (int each = 0; each < 40; each++)
        t5.a[each] = 0ull;
    for (int each = 0; each < 8; each++)
        keys.a[each] = t5;
    c = 0ull;
    for (;;) {
        t6 = c < count;
        if (!t6) {
            break;
        }
        t8 = (uint8_t)c;
        for (int each = 0; each < 4; each++)
            t9.a[each] = t8;
        for (int each = 0; each < 4; each++)
            t10.a[each] = t9;
        t7 = aes128_key_schedule(t10);
        t11 = c * 320ull;
        t12 = (char *)&keys;
        t13 = t12 + t11;
        *(uint64_40 *)t13 = t7;
        c = c + 1ull;
    }
    result = keys;
    return result;
}

/* tree_walk, src/columns.rt:10: The node whose 16 bytes begin at a place: a block, as the definitions of trees say it. */
INLINE field_block_Block tree_walk_columns_node_at(slice bytes, uint64_t at)
{
    field_block_Block result;
    result = field_block_Block_read(bytes, at);
    return result;
}

/* tree_walk, src/columns.rt:18: The block whose 16 bytes begin at a place, in columns. */
INLINE uint8_4_4 tree_walk_columns_columns_at(slice bytes, uint64_t at)
{
    uint8_4_4 result;
    field_block_Block t3;
    t3 = tree_walk_columns_node_at(bytes, at);
    result = field_block_Block_columns(t3);
    return result;
}

/* tree_walk, src/down.rt:24: The child that leaf j lies below, of a node whose children have so many levels below them. */
INLINE uint64_t tree_walk_down_digit(uint64_t branch_bits, uint64_t left, uint64_t j)
{
    uint64_t result, count, t5, t6;
    count = tree_walk_powers_power(branch_bits);
    t5 = left * branch_bits;
    t6 = j >> t5;
    result = t6 % count;
    return result;
}

/* tree_walk, src/node.rt:49: Children c and c + 1 of a node. Inlined, so that sums of leaves make no call more. */
INLINE aes_blocks_Two_field_block_Block tree_walk_node_TreeCipher_children(tree_walk_node_TreeCipher self, uint64_t c, field_block_Block s)
{
    aes_blocks_Two_field_block_Block result, both;
    aes_sbox_Tables t5;
    uint64_t t6, t10, t11;
    char *t7, *t8, *t9, *t12, *t13, *t14;
    field_block_Block t15, t16, t17, t18;
    t5 = self.tables;
    t6 = c * 320ull;
    t7 = self.keys;
    t8 = t7 + t6;
    t9 = t8;
    t10 = c + 1ull;
    t11 = t10 * 320ull;
    t12 = self.keys;
    t13 = t12 + t11;
    t14 = t13;
    both = aes_blocks_encrypt_two(t5, t9, t14, s.low, s.high, s.low, s.high);
    t16 = both.one;
    t15 = field_block_Block_add(t16, s);
    t18 = both.other;
    t17 = field_block_Block_add(t18, s);
    result = (aes_blocks_Two_field_block_Block){t15, t17};
    return result;
}

/* tree_walk, src/columns.rt:26: Writes the 16 bytes of a node from a place on. */
INLINE void tree_walk_columns_put_node(slice bytes, uint64_t at, field_block_Block s)
{
    char *t5;
    slice t6;
    t5 = bytes.at;
    t6 = (slice){t5, bytes.count};
    field_block_Block_write(s, t6, at);
}

/* tree_walk, src/leaf.rt:18: Writes so many pairs of children of s, from child `from` on, from a place on. */
static void tree_walk_leaf_put_children(tree_walk_node_TreeCipher cipher, field_block_Block s, uint64_t from, uint64_t pairs, uint64_t at,
    slice out)
{
    uint64_t pair, t11, t12, t19;
    aes_blocks_Two_field_block_Block both;
    bool t9;
    tree_walk_node_TreeCipher t10;
    char *t14, *t17;
    slice t15, t18;
    field_block_Block t16, t20;
    pair = 0ull;
    for (;;) {
        t9 = pair < pairs;
        if (!t9) {
            break;
        }
        t10 = cipher;
        t11 = 2ull * pair;
        t12 = from + t11;
        both = tree_walk_node_TreeCipher_children(t10, t12, s);
        t14 = out.at;
        t15 = (slice){t14, out.count};
        t11 = 32ull * pair;
        t12 = at + t11;
        t16 = both.one;
        tree_walk_columns_put_node(t15, t12, t16);
        t17 = out.at;
        t18 = (slice){t17, out.count};
        t12 = 32ull * pair;
        t11 = at + t12;
        t19 = t11 + 16ull;
        t20 = both.other;
        tree_walk_columns_put_node(t18, t19, t20);
        pair = pair + 1ull;
    }
}

/* tree_walk, src/leaf.rt:30: The child of s that a digit names; writes the other of its pair from a place on. */
INLINE field_block_Block tree_walk_leaf_put_twin(tree_walk_node_TreeCipher cipher, field_block_Block s, uint64_t digit, uint64_t at, slice
    out)
{
    field_block_Block result, t11, t15, t19;
    aes_blocks_Two_field_block_Block both;
    tree_walk_node_TreeCipher t7;
    uint64_t t8, t9;
    bool t10;
    char *t13, *t17;
    slice t14, t18;
    t7 = cipher;
    t8 = digit / 2ull;
    t9 = 2ull * t8;
    both = tree_walk_node_TreeCipher_children(t7, t9, s);
    t8 = digit % 2ull;
    t10 = t8 == 0ull;
    if (t10) {
        t13 = out.at;
        t14 = (slice){t13, out.count};
        t15 = both.other;
        tree_walk_columns_put_node(t14, at, t15);
        t11 = both.one;
    } else {
        t17 = out.at;
        t18 = (slice){t17, out.count};
        t19 = both.one;
        tree_walk_columns_put_node(t18, at, t19);
        t11 = both.other;
    }
    result = t11;
    return result;
}

/* tree_walk, src/leaf.rt:45: The child of s that a digit names; writes the children before its pair and the other of its pair from a
 * place on. */
INLINE field_block_Block tree_walk_leaf_put_before(tree_walk_node_TreeCipher cipher, field_block_Block s, uint64_t digit, uint64_t at, slice
    out)
{
    field_block_Block result;
    tree_walk_node_TreeCipher t7, t11;
    uint64_t t8, t12, t13;
    char *t9, *t14;
    slice t10, t15;
    t7 = cipher;
    t8 = digit / 2ull;
    t9 = out.at;
    t10 = (slice){t9, out.count};
    tree_walk_leaf_put_children(t7, s, 0ull, t8, at, t10);
    t11 = cipher;
    t8 = digit / 2ull;
    t12 = 32ull * t8;
    t13 = at + t12;
    t14 = out.at;
    t15 = (slice){t14, out.count};
    result = tree_walk_leaf_put_twin(t11, s, digit, t13, t15);
    return result;
}

/* tree_walk, src/leaf.rt:54: How many pairs of children stand after the pair of the one that a digit names. */
INLINE uint64_t tree_walk_leaf_pairs_after(uint64_t branch_bits, uint64_t digit)
{
    uint64_t result, pairs, t4, t5;
    t4 = branch_bits - 1ull;
    pairs = tree_walk_powers_power(t4);
    t4 = digit / 2ull;
    t5 = pairs - t4;
    result = t5 - 1ull;
    return result;
}

/* tree_walk, src/leaf.rt:63: The child of s that a digit names; writes the others, in rising order, from a place on. */
INLINE field_block_Block tree_walk_leaf_pass_level(tree_walk_node_TreeCipher cipher, uint64_t branch_bits, field_block_Block s, uint64_t
    digit, uint64_t at, slice out)
{
    field_block_Block result, next;
    uint64_t pair, after, t15, t16, t17, t18, t19;
    tree_walk_node_TreeCipher t10, t14;
    char *t11, *t20;
    slice t12, t21;
    pair = digit / 2ull;
    t10 = cipher;
    t11 = out.at;
    t12 = (slice){t11, out.count};
    next = tree_walk_leaf_put_before(t10, s, digit, at, t12);
    after = tree_walk_leaf_pairs_after(branch_bits, digit);
    t14 = cipher;
    t15 = 2ull * pair;
    t16 = t15 + 2ull;
    t17 = 32ull * pair;
    t18 = at + t17;
    t19 = t18 + 16ull;
    t20 = out.at;
    t21 = (slice){t20, out.count};
    tree_walk_leaf_put_children(t14, s, t16, after, t19, t21);
    result = next;
    return result;
}

/* tree_walk, src/leaf.rt:84: The leaf below a node at the position; writes the siblings beside the path to it, top first, from their
 * place on. The place is carried: by the level it is `tree.at + 16 * (count - 1) * (tree.levels - 1 - level)`. */
static field_block_Block tree_walk_leaf_walk_from(tree_walk_node_TreeCipher cipher, field_block_Block root, tree_punctured_Punctured tree,
    slice out)
{
    field_block_Block result, node;
    uint64_t branch_bits, position, count, at, level, child, t16, t17;
    bool t12;
    tree_walk_node_TreeCipher t13;
    char *t14;
    slice t15;
    branch_bits = tree.branch_bits;
    position = tree.position;
    count = tree_walk_powers_power(branch_bits);
    node = root;
    at = tree.at;
    level = tree.levels;
    for (;;) {
        t12 = 0ull < level;
        if (!t12) {
            break;
        }
        level = level - 1ull;
        child = tree_walk_down_digit(branch_bits, level, position);
        t13 = cipher;
        t14 = out.at;
        t15 = (slice){t14, out.count};
        node = tree_walk_leaf_pass_level(t13, branch_bits, node, child, at, t15);
        t16 = count - 1ull;
        t17 = 16ull * t16;
        at = at + t17;
    }
    result = node;
    return result;
}

/* tree_walk, src/leaf.rt:103: The leaf at the position; writes the siblings beside the path to it, top first, from their place on. */
INLINE uint8_4_4 tree_walk_leaf_walk(tree_walk_node_TreeCipher cipher, uint8_4_4 root, tree_punctured_Punctured tree, slice out)
{
    uint8_4_4 result;
    field_block_Block leaf, t7;
    tree_walk_node_TreeCipher t6;
    char *t8;
    slice t9;
    t6 = cipher;
    t7 = field_block_Block_of_columns(root);
    t8 = out.at;
    t9 = (slice){t8, out.count};
    leaf = tree_walk_leaf_walk_from(t6, t7, tree, t9);
    result = field_block_Block_columns(leaf);
    return result;
}

/* tree_walk, src/down.rt:77: The sibling that leaf j follows from, of a tree punctured elsewhere whose siblings begin at a place.
 * Recursive: that the paths part is a premise, and a loop over the levels would need an answer for after the last, which is never
 * reached. Four of its numbers are a `Punctured`'s: the one caller (`start_at` of the bench) has none, and would build one in six lines
 * for a call of one. */
static tree_walk_down_Start tree_walk_down_from_sibling(uint64_t branch_bits, uint64_t levels, uint64_t position, uint64_t j, uint64_t at)
{
    tree_walk_down_Start result;
    uint64_t left, own, child, count, t11, t12, t13, t14, t15, t16, t17, t18;
    bool t10;
    left = levels - 1ull;
    own = tree_walk_down_digit(branch_bits, left, position);
    child = tree_walk_down_digit(branch_bits, left, j);
    t10 = child < own;
    if (t10) {
        t11 = 16ull * child;
        t12 = at + t11;
        result = (tree_walk_down_Start){t12, left};
        return result;
    }
    t10 = own < child;
    if (t10) {
        t13 = child - 1ull;
        t14 = 16ull * t13;
        t15 = at + t14;
        result = (tree_walk_down_Start){t15, left};
        return result;
    }
    count = tree_walk_powers_power(branch_bits);
    t16 = count - 1ull;
    t17 = 16ull * t16;
    t18 = at + t17;
    result = tree_walk_down_from_sibling(branch_bits, left, position, j, t18);
    return result;
}

/* tree_walk, src/node.rt:39: Child c of a node. */
INLINE field_block_Block tree_walk_node_TreeCipher_child(tree_walk_node_TreeCipher self, uint64_t c, field_block_Block s)
{
    field_block_Block result, e;
    aes_sbox_Tables t5;
    uint64_t t6;
    char *t7, *t8, *t9;
    t5 = self.tables;
    t6 = c * 320ull;
    t7 = self.keys;
    t8 = t7 + t6;
    t9 = t8;
    e = aes_blocks_encrypt(t5, t9, s.low, s.high);
    result = field_block_Block_add(e, s);
    return result;
}

/* tree_walk, src/down.rt:33: The node above leaf j with `stop` levels below it, from the one with `left` levels below it. */
static field_block_Block tree_walk_down_walk_to(tree_walk_node_TreeCipher cipher, uint64_t branch_bits, uint64_t left, uint64_t stop,
    field_block_Block s, uint64_t j)
{
    field_block_Block result, node;
    uint64_t level, t11;
    bool t9;
    tree_walk_node_TreeCipher t10;
    node = s;
    level = left;
    for (;;) {
        t9 = stop < level;
        if (!t9) {
            break;
        }
        level = level - 1ull;
        t10 = cipher;
        t11 = tree_walk_down_digit(branch_bits, level, j);
        node = tree_walk_node_TreeCipher_child(t10, t11, node);
    }
    result = node;
    return result;
}

/* tree_walk, src/node.rt:62: Child c of each of two nodes. One function of this and `children` would take two children and two nodes:
 * `encrypt_two` again. */
INLINE aes_blocks_Two_field_block_Block tree_walk_node_TreeCipher_child_of_both(tree_walk_node_TreeCipher self, uint64_t c,
    field_block_Block a, field_block_Block b)
{
    aes_blocks_Two_field_block_Block result, both;
    aes_sbox_Tables t6;
    uint64_t t7, t11;
    char *t8, *t9, *t10, *t12, *t13, *t14;
    field_block_Block t15, t16, t17, t18;
    t6 = self.tables;
    t7 = c * 320ull;
    t8 = self.keys;
    t9 = t8 + t7;
    t10 = t9;
    t11 = c * 320ull;
    t12 = self.keys;
    t13 = t12 + t11;
    t14 = t13;
    both = aes_blocks_encrypt_two(t6, t10, t14, a.low, a.high, b.low, b.high);
    t16 = both.one;
    t15 = field_block_Block_add(t16, a);
    t18 = both.other;
    t17 = field_block_Block_add(t18, b);
    result = (aes_blocks_Two_field_block_Block){t15, t17};
    return result;
}

/* tree_walk, src/down.rt:54: Leaf j below each of two nodes with `left` levels below them: two walks in alternation, as the bench has
 * them (docs/DECISIONS.md), where two calls of `walk_to` would encrypt one block after the other. */
static aes_blocks_Two_field_block_Block tree_walk_down_walk_both(tree_walk_node_TreeCipher cipher, uint64_t branch_bits, uint64_t left,
    field_block_Block a, field_block_Block b, uint64_t j)
{
    aes_blocks_Two_field_block_Block result, nodes;
    uint64_t level, c;
    bool t10;
    tree_walk_node_TreeCipher t11;
    field_block_Block t12, t13;
    nodes = (aes_blocks_Two_field_block_Block){a, b};
    level = left;
    for (;;) {
        t10 = 0ull < level;
        if (!t10) {
            break;
        }
        level = level - 1ull;
        c = tree_walk_down_digit(branch_bits, level, j);
        t11 = cipher;
        t12 = nodes.one;
        t13 = nodes.other;
        nodes = tree_walk_node_TreeCipher_child_of_both(t11, c, t12, t13);
    }
    result = nodes;
    return result;
}

/* dealing_call, src/noise.rt:42: Tree i, after positions below `base`, at a place. Positions and values lie in a buffer each, as C lends
 * them. */
INLINE dealing_call_noise_Planned dealing_call_noise_plan(char *input, uint64_t i, uint64_t base, uint64_t at)
{
    dealing_call_noise_Planned result;
    record_Layout t5;
    char *t7, *t11;
    uint32_t t8;
    uint64_t t9, t12;
    t5 = ((dealing_tests_input_Input *)input)->layout;
    t7 = (char *)((uint32_t *)((dealing_tests_input_Input *)input)->positions.at + i);
    t8 = *(uint32_t *)t7;
    t9 = (uint64_t)t8;
    t11 = (char *)((uint64_t *)((dealing_tests_input_Input *)input)->values.at + i);
    t12 = *(uint64_t *)t11;
    result = (dealing_call_noise_Planned){t5, t9, t12, base, at};
    return result;
}

/* dealing_call, src/noise.rt:21: The correction of a tree: the element of the leaf at its position minus Δ × its noise value. */
INLINE field_element_Element dealing_call_noise_correction(uint64_t field, uint8_4_4 leaf, uint64_t value, slice delta)
{
    field_element_Element result, scalar, element, multiple;
    scalar = field_element_element_at(field, delta, 0ull);
    element = field_element_leaf_element(field, leaf);
    multiple = field_element_element_scaled(field, value, scalar);
    result = field_element_element_difference(field, element, multiple);
    return result;
}

/* dealing_call, src/noise.rt:56: Writes a tree up to its siblings at its place, the correction from the leaf at its position. */
INLINE uint64_t dealing_call_noise_write_planned(uint8_4_4 leaf, dealing_call_noise_Planned tree, slice delta, slice out)
{
    uint64_t result, back;
    field_element_Element words;
    char *t7;
    slice t8;
    words = dealing_call_noise_correction(tree.layout.field, leaf, tree.value, delta);
    back = tree.position - tree.base;
    t7 = out.at;
    t8 = (slice){t7, out.count};
    result = record_writing_write_tree_start(t8, tree.at, tree.layout.field, back, tree.value, words);
    return result;
}

/* dealing_call, src/noise.rt:67: Writes a tree at its place; the place after it. The walk to the leaf writes the siblings. */
static uint64_t dealing_call_noise_write_tree(tree_walk_node_TreeCipher cipher, uint8_4_4 root, dealing_call_noise_Planned tree, slice
    delta, slice out)
{
    uint64_t result, siblings, next, t10, t11;
    tree_punctured_Punctured place;
    uint8_4_4 leaf;
    tree_walk_node_TreeCipher t12;
    char *t13, *t15;
    slice t14, t16;
    t10 = record_writing_tree_start_length(tree.base, tree.position);
    siblings = tree.at + t10;
    t10 = record_sizes_sibling_count(tree.layout.depth, tree.layout.branch_bits);
    t11 = 16ull * t10;
    next = siblings + t11;
    t10 = tree.layout.depth / tree.layout.branch_bits;
    place = (tree_punctured_Punctured){tree.layout.branch_bits, t10, tree.position, siblings};
    t12 = cipher;
    t13 = out.at;
    t14 = (slice){t13, out.count};
    leaf = tree_walk_leaf_walk(t12, root, place, t14);
    t15 = out.at;
    t16 = (slice){t15, out.count};
    t11 = dealing_call_noise_write_planned(leaf, tree, delta, t16);
    result = next;
    return result;
}

/* dealing_call, src/noise.rt:93: Writes the trees after the head; the place after them. Place and base are carried: each tree's follow
 * from the one before. */
static uint64_t dealing_call_noise_write_trees(slice out, char *input)
{
    uint64_t result, at, base, i, t14, i_end, t20;
    uint64_1536 words;
    aes_sbox_Tables tables, t15;
    uint64_40_8 keys, t13;
    tree_walk_node_TreeCipher cipher, t21;
    dealing_call_noise_Planned tree;
    uint8_4_4 root;
    char *t12, *t16, *t22;
    bool t18;
    slice t19, t23;
    for (int each = 0; each < 1536; each++)
        words.a[each] = 0ull;
    t12 = (char *)&words;
    tables = aes_sbox_Tables_fill(t12);
    t14 = ((dealing_tests_input_Input *)input)->layout.branch_bits;
    t13 = tree_walk_node_child_keys(t14);
    keys = t13;
    t15 = tables;
    t16 = (char *)&keys;
    cipher = (tree_walk_node_TreeCipher){t15, t16};
    at = ((dealing_tests_input_Input *)input)->layout.body;
    base = 0ull;
    i = 0ull;
    i_end = ((dealing_tests_input_Input *)input)->layout.trees;
    for (;;) {
        t18 = i < i_end;
        if (!t18) {
            break;
        }
        tree = dealing_call_noise_plan(input, i, base, at);
        t19 = ((dealing_tests_input_Input *)input)->roots;
        t20 = 16ull * i;
        root = tree_walk_columns_columns_at(t19, t20);
        t21 = cipher;
        t19 = ((dealing_tests_input_Input *)input)->delta;
        t22 = out.at;
        t23 = (slice){t22, out.count};
        at = dealing_call_noise_write_tree(t21, root, tree, t19, t23);
        base = tree.position + 1ull;
        i = i + 1ull;
    }
    result = at;
    return result;
}

/* dealing_call, src/noise.rt:119: Writes the noise record at the buffer's front; its length. */
INLINE uint64_t dealing_call_noise_write_noise(slice out, char *input)
{
    uint64_t result;
    char *t4, *t10;
    slice t5, t8, t9, t11;
    record_End t6;
    record_Layout t7;
    t4 = out.at;
    t5 = (slice){t4, out.count};
    t6 = (record_End){record_End_noise};
    t7 = ((dealing_tests_input_Input *)input)->layout;
    t8 = ((dealing_tests_input_Input *)input)->code_key;
    t9 = ((dealing_tests_input_Input *)input)->label;
    (void)record_writing_write_head(t5, t6, t7, t8, t9);
    t10 = out.at;
    t11 = (slice){t10, out.count};
    result = dealing_call_noise_write_trees(t11, input);
    return result;
}

/* dealing_call, src/scalar.rt:14: Writes the scalar record at the buffer's front; its length. */
INLINE uint64_t dealing_call_scalar_write_scalar_part(slice out, char *input)
{
    uint64_t result, t4;
    field_element_Element scalar;
    slice t5, t7, t9, t10;
    char *t6;
    record_Layout t8;
    t4 = ((dealing_tests_input_Input *)input)->layout.field;
    t5 = ((dealing_tests_input_Input *)input)->delta;
    scalar = field_element_element_at(t4, t5, 0ull);
    t6 = out.at;
    t7 = (slice){t6, out.count};
    t8 = ((dealing_tests_input_Input *)input)->layout;
    t5 = ((dealing_tests_input_Input *)input)->code_key;
    t9 = ((dealing_tests_input_Input *)input)->label;
    t10 = ((dealing_tests_input_Input *)input)->roots;
    result = record_writing_write_scalar(t7, t8, t5, t9, scalar, t10);
    return result;
}

/* dealing_call, src/lib.rt:19: Writes the noise record and the scalar record of a dealing, each to its own buffer. The parameters are
 * those of the C interface. */
static answer_TwoLengths dealing_call_deal(uint8_t field, uint64_t depth, uint64_t branch_bits, uint64_t trees, uint64_t terms, uint64_t
    outputs, slice roots, slice positions, slice values, slice delta, slice code_key, slice label, slice noise_record, slice scalar_record)
{
    answer_TwoLengths result;
    dealing_tests_input_Input input;
    dealing_tests_input_Rooms rooms;
    answer_Refusal refusal;
    uint64_t noise_bytes, scalar_bytes, t20, t21;
    record_Layout t22;
    Result_unit_answer_Refusal t23;
    char *t24, *t25, *t27, *t28, *t30;
    slice t26, t29;
    t20 = (uint64_t)field;
    t21 = record_writing_head_length(depth, branch_bits, trees, terms, outputs);
    t22 = (record_Layout){t20, depth, branch_bits, trees, terms, outputs, t21};
    input = (dealing_tests_input_Input){t22, roots, positions, values, delta, code_key, label};
    t20 = noise_record.count;
    t21 = scalar_record.count;
    rooms = (dealing_tests_input_Rooms){t20, t21};
    t24 = (char *)&input;
    t23 = dealing_tests_input_check(t24, rooms);
    switch (t23.ok.tag) {
    case 1:
        refusal = t23.err.m1;
        result = answer_TwoLengths_refused(refusal);
        return result;
    default:
        break;
    }
    t25 = noise_record.at;
    t26 = (slice){t25, noise_record.count};
    t27 = (char *)&input;
    noise_bytes = dealing_call_noise_write_noise(t26, t27);
    t28 = scalar_record.at;
    t29 = (slice){t28, scalar_record.count};
    t30 = (char *)&input;
    scalar_bytes = dealing_call_scalar_write_scalar_part(t29, t30);
    result = (answer_TwoLengths){0u, noise_bytes, scalar_bytes};
    return result;
}

/* code_places, src/row.rt:40: The code of a whole shape. */
INLINE code_places_row_Code code_places_row_Code_new(aes_sbox_Tables tables, char *keys, code_Shape shape)
{
    code_places_row_Code result;
    aes_sbox_Tables t4;
    t4 = tables;
    result = (code_places_row_Code){t4, keys, shape};
    return result;
}

/* code_places::row::place_of */
INLINE uint64_t code_places_row_place_of(code_Shape shape, uint64_t i, uint64_t word)
{
    uint64_t result, strip, t5, t6, t7, t8;
    strip = shape.strip;
    t5 = i * strip;
    t6 = strip;
    t7 = word % t6;
    t8 = t7;
    result = t5 + t8;
    return result;
}

/* code_places, src/row.rt:52: The place that a word names for term i. */
INLINE uint64_t code_places_row_Code_place_of(code_places_row_Code self, uint64_t i, uint64_t word)
{
    uint64_t result;
    code_Shape t4;
    t4 = self.shape;
    result = code_places_row_place_of(t4, i, word);
    return result;
}

/* code_places, src/used.rt:10: Whether every word is below the bound, where that is known of all but one. */
INLINE bool code_places_used_still_below(bool others, uint64_t word, uint64_t bound)
{
    bool result, t4;
    t4 = others;
    if (t4) {
        t4 = word < bound;
    }
    result = t4;
    return result;
}

/* code_places, src/used.rt:17: Whether every word is below the bound, word by word. */
static bool code_places_used_each_below(slice words, uint64_t bound)
{
    bool result, t6, t10;
    uint64_t word_index, word_index_end, t9;
    char *word, *t8;
    word_index = 0ull;
    word_index_end = words.count;
    for (;;) {
        t6 = word_index < word_index_end;
        if (!t6) {
            break;
        }
        t8 = (char *)((uint64_t *)words.at + word_index);
        word = t8;
        t9 = *(uint64_t *)word;
        t10 = bound <= t9;
        if (t10) {
            result = false;
            return result;
        }
        word_index = word_index + 1ull;
    }
    result = true;
    return result;
}

/* code_places, src/used.rt:30: Whether every word is below the bound, four words a turn: one a turn took 1.2 to 1.6 times as long in
 * windows where this pass counts, as gcc and clang compile dist/expander.c; what `iter().all` takes, `are_elements` of `layer_add` says. */
static bool code_places_used_all_below(slice words, uint64_t bound)
{
    bool result, t9;
    slice rest, after;
    char *first, *second, *third, *fourth, *t10, *t11, *t12, *t13, *t14, *t16;
    uint64_t t15, t17;
    rest = words;
    for (;;) {
        t9 = rest.count < 4ull;
        if (t9) {
            goto after1;
        }
        t10 = rest.at + 0ull;
        t11 = rest.at + 8ull;
        t12 = rest.at + 16ull;
        t13 = rest.at + 24ull;
        t14 = rest.at + 32ull;
        t15 = rest.count - 4ull;
        first = t10;
        second = t11;
        third = t12;
        fourth = t13;
        t16 = t14;
        after = (slice){t16, t15};
        t17 = *(uint64_t *)first;
        t9 = bound <= t17;
        if (t9) {
            result = false;
            return result;
        }
        t17 = *(uint64_t *)second;
        t9 = bound <= t17;
        if (t9) {
            result = false;
            return result;
        }
        t17 = *(uint64_t *)third;
        t9 = bound <= t17;
        if (t9) {
            result = false;
            return result;
        }
        t17 = *(uint64_t *)fourth;
        t9 = bound <= t17;
        if (t9) {
            result = false;
            return result;
        }
        rest = after;
    }
after1:;
    result = code_places_used_each_below(rest, bound);
    return result;
}

/* code_places, src/row.rt:60: Term i of row x. */
INLINE code_places_row_Term code_places_row_Code_row_term(code_places_row_Code self, uint64_t x, uint64_t i)
{
    code_places_row_Term result;
    field_block_Block block, t9;
    aes_sbox_Tables t5;
    char *t6;
    uint64_t t7, t8, t10;
    code_places_row_Code t11;
    t5 = self.tables;
    t6 = self.keys;
    t7 = x;
    t8 = i;
    t9 = (field_block_Block){t7, t8};
    block = aes_blocks_encrypt(t5, t6, t9.low, t9.high);
    t11 = self;
    t10 = code_places_row_Code_place_of(t11, i, block.low);
    result = (code_places_row_Term){t10, block.high};
    return result;
}

/* code_places::row::Code::row_place */
INLINE uint64_t code_places_row_Code_row_place(code_places_row_Code self, uint64_t x, uint64_t i)
{
    uint64_t result;
    code_places_row_Term t4;
    code_places_row_Code t5;
    t5 = self;
    t4 = code_places_row_Code_row_term(t5, x, i);
    result = t4.place;
    return result;
}

/* code_places, src/used.rt:56: Whether every word at the places of row x is below the bound. */
static bool code_places_row_Code_row_below(code_places_row_Code self, uint64_t x, slice words, uint64_t bound)
{
    bool result, t8;
    uint64_t i, j, i_end, t12;
    code_places_row_Code t9;
    char *t11;
    i = 0ull;
    i_end = self.shape.terms;
    for (;;) {
        t8 = i < i_end;
        if (!t8) {
            break;
        }
        t9 = self;
        j = code_places_row_Code_row_place(t9, x, i);
        t11 = (char *)((uint64_t *)words.at + j);
        t12 = *(uint64_t *)t11;
        t8 = bound <= t12;
        if (t8) {
            result = false;
            return result;
        }
        i = i + 1ull;
    }
    result = true;
    return result;
}

/* code_places, src/used.rt:70: The test, row by row. */
static bool code_places_row_Code_rows_below(code_places_row_Code self, code_Window window, slice words, uint64_t bound)
{
    bool result, t7, t10;
    uint64_t k, k_end, t9;
    code_places_row_Code t8;
    k = 0ull;
    k_end = window.count;
    for (;;) {
        t7 = k < k_end;
        if (!t7) {
            break;
        }
        t8 = self;
        t9 = window.first + k;
        t7 = code_places_row_Code_row_below(t8, t9, words, bound);
        t10 = !t7;
        if (t10) {
            result = false;
            return result;
        }
        k = k + 1ull;
    }
    result = true;
    return result;
}

/* code_places, src/used.rt:84: The test, by a pass over all words where that is less work than the rows' ciphers; the rows are walked
 * only if that pass finds a word at the bound or above, or is not made. A term takes about as long as 100 words of the pass. */
INLINE bool code_places_row_Code_used_below(code_places_row_Code self, code_Window window, slice words, uint64_t bound)
{
    bool result, t5, t10;
    uint64_t t6, t7, t8, t9;
    code_places_row_Code t11;
    t6 = self.shape.places;
    t7 = t6 / 100ull;
    t8 = self.shape.terms;
    t9 = window.count * t8;
    t5 = t7 <= t9;
    if (t5) {
        t5 = code_places_used_all_below(words, bound);
        t10 = t5;
        if (t10) {
            result = true;
            return result;
            goto after1;
        }
    }
after1:;
    t11 = self;
    result = code_places_row_Code_rows_below(t11, window, words, bound);
    return result;
}

/* code_sums, src/accumulation.rt:12, at Block: Accumulates the values of a vector, of however many it is. */
static void code_sums_accumulation_accumulate_field_block_Block(slice words)
{
    field_block_Block total, t8;
    uint64_t i, i_end;
    char *t5, *t9, *t12;
    slice t6, t10, t13;
    bool t7;
    total = field_parts_BlockFieldElement_zero();
    i = 0ull;
    t5 = words.at;
    t6 = (slice){t5, words.count};
    i_end = field_parts_BlockFieldElement_count(t6);
    for (;;) {
        t7 = i < i_end;
        if (!t7) {
            break;
        }
        t9 = words.at;
        t10 = (slice){t9, words.count};
        t8 = field_parts_BlockFieldElement_at(t10, i);
        total = field_parts_BlockFieldElement_add(total, t8);
        t12 = words.at;
        t13 = (slice){t12, words.count};
        field_parts_BlockFieldElement_put(total, t13, i);
        i = i + 1ull;
    }
}

/* code_sums, src/accumulation.rt:12, at Prime: Accumulates the values of a vector, of however many it is. */
static void code_sums_accumulation_accumulate_prime_prime_Prime(slice words)
{
    prime_prime_Prime total, t8;
    uint64_t i, i_end;
    char *t5, *t9, *t12;
    slice t6, t10, t13;
    bool t7;
    total = field_parts_PrimeFieldElement_zero();
    i = 0ull;
    t5 = words.at;
    t6 = (slice){t5, words.count};
    i_end = field_parts_PrimeFieldElement_count(t6);
    for (;;) {
        t7 = i < i_end;
        if (!t7) {
            break;
        }
        t9 = words.at;
        t10 = (slice){t9, words.count};
        t8 = field_parts_PrimeFieldElement_at(t10, i);
        total = field_parts_PrimeFieldElement_add(total, t8);
        t12 = words.at;
        t13 = (slice){t12, words.count};
        field_parts_PrimeFieldElement_put(total, t13, i);
        i = i + 1ull;
    }
}

/* code_sums, src/accumulation.rt:39: Accumulates elements of a field, of however many the words are. */
INLINE void code_sums_accumulation_accumulate_elements(uint64_t field, slice words)
{
    bool t3;
    char *t5, *t8;
    slice t6, t9;
    t3 = field == 1ull;
    if (t3) {
        t5 = words.at;
        t6 = (slice){t5, words.count};
        code_sums_accumulation_accumulate_field_block_Block(t6);
    } else {
        t8 = words.at;
        t9 = (slice){t8, words.count};
        code_sums_accumulation_accumulate_prime_prime_Prime(t9);
    }
}

/* code_sums, src/accumulation.rt:12, at u64: Accumulates the values of a vector, of however many it is. */
static void code_sums_accumulation_accumulate_uint64(slice words)
{
    uint64_t total, i, i_end, t8;
    char *t5, *t9, *t12;
    slice t6, t10, t13;
    bool t7;
    total = field_parts_U64FieldElement_zero();
    i = 0ull;
    t5 = words.at;
    t6 = (slice){t5, words.count};
    i_end = field_parts_U64FieldElement_count(t6);
    for (;;) {
        t7 = i < i_end;
        if (!t7) {
            break;
        }
        t9 = words.at;
        t10 = (slice){t9, words.count};
        t8 = field_parts_U64FieldElement_at(t10, i);
        total = field_parts_U64FieldElement_add(total, t8);
        t12 = words.at;
        t13 = (slice){t12, words.count};
        field_parts_U64FieldElement_put(total, t13, i);
        i = i + 1ull;
    }
}

/* code_sums, src/accumulation.rt:27: Accumulates noise words of a field. It and the next stay two: in field 1 a noise word is a u64 and
 * an element a `Block`, and noise words are as many as the words, which of elements only the caller knows. */
INLINE void code_sums_accumulation_accumulate_noise(uint64_t field, slice words)
{
    bool t3;
    char *t5, *t8;
    slice t6, t9;
    t3 = field == 1ull;
    if (t3) {
        t5 = words.at;
        t6 = (slice){t5, words.count};
        code_sums_accumulation_accumulate_uint64(t6);
    } else {
        t8 = words.at;
        t9 = (slice){t8, words.count};
        code_sums_accumulation_accumulate_prime_prime_Prime(t9);
    }
}

/* record_head::head::fn::read_field::tested, a closure */
INLINE bool record_head_head_fn_read_field_tested(record_head_head_fn_read_field_tested_Self_ref_uint8 self, uint64_t byte)
{
    bool result, t4;
    char *end;
    uint8_t t5;
    uint64_t t6;
    end = self.m0;
    t5 = *(uint8_t *)end;
    t6 = (uint64_t)t5;
    t4 = byte == t6;
    result = t4;
    return result;
}

/* record_head::head::fn::read_field::tested+FnOnce::call_once, a closure */
INLINE bool record_head_head_fn_read_field_tested_FnOnce_call_once(record_head_head_fn_read_field_tested_Self_ref_uint8 arg1, uint64_t arg2)
{
    bool result;
    result = record_head_head_fn_read_field_tested(arg1, arg2);
    return result;
}

/* number, src/lib.rt:17, at u64 and a closure: What was read, where it passes a test; else refused. */
INLINE Result_tuple_uint64_uint64_answer_Refusal
    number_tested_uint64_record_head_head_fn_read_field_tested(Result_tuple_uint64_uint64_answer_Refusal read, answer_Refusal refusal,
    record_head_head_fn_read_field_tested_Self_ref_uint8 test)
{
    Result_tuple_uint64_uint64_answer_Refusal result, t10;
    uint64_t value, at;
    tuple_uint64_uint64 t6, t8, t11, t15;
    ErrResidual_answer_Refusal t7;
    ControlFlow_ErrResidual_answer_Refusal_tuple_uint64_uint64 t9;
    bool t12, t14;
    record_head_head_fn_read_field_tested_Self_ref_uint8 t13;
    t10 = read;
    t9 = core_ResultTry_branch_tuple_uint64_uint64_answer_Refusal(t10);
    switch (t9.continue_.tag) {
    case 0:
        t6 = t9.continue_.m1;
        t11 = t6;
        break;
    default:
        t7 = t9.break_.m1;
        result = core_ResultFromResidualErrResidual_from_residual_tuple(t7);
        return result;
    }
    t8 = t11;
    value = t8.m0;
    at = t8.m1;
    t13 = test;
    t12 = record_head_head_fn_read_field_tested_FnOnce_call_once(t13, value);
    t14 = !t12;
    if (t14) {
        result = (Result_tuple_uint64_uint64_answer_Refusal){.err = {1u, refusal}};
        return result;
    }
    t15 = (tuple_uint64_uint64){value, at};
    result = (Result_tuple_uint64_uint64_answer_Refusal){.ok = {0u, t15}};
    return result;
}

/* record_head::head::fn::read_field::tested+2, a closure */
INLINE bool record_head_head_fn_read_field_tested_2(uint64_t field)
{
    bool result;
    result = field_noise_is_field(field);
    return result;
}

/* record_head::head::fn::read_field::tested+2+FnOnce::call_once, a closure */
INLINE bool record_head_head_fn_read_field_tested_2_FnOnce_call_once(uint64_t arg2)
{
    bool result;
    result = record_head_head_fn_read_field_tested_2(arg2);
    return result;
}

/* number, src/lib.rt:17, at u64 and a closure: What was read, where it passes a test; else refused. */
INLINE Result_tuple_uint64_uint64_answer_Refusal
    number_tested_uint64_record_head_head_fn_read_field_tested_2(Result_tuple_uint64_uint64_answer_Refusal read, answer_Refusal refusal)
{
    Result_tuple_uint64_uint64_answer_Refusal result, t10;
    uint64_t value, at;
    tuple_uint64_uint64 t6, t8, t11, t15;
    ErrResidual_answer_Refusal t7;
    ControlFlow_ErrResidual_answer_Refusal_tuple_uint64_uint64 t9;
    bool t12, t14;
    t10 = read;
    t9 = core_ResultTry_branch_tuple_uint64_uint64_answer_Refusal(t10);
    switch (t9.continue_.tag) {
    case 0:
        t6 = t9.continue_.m1;
        t11 = t6;
        break;
    default:
        t7 = t9.break_.m1;
        result = core_ResultFromResidualErrResidual_from_residual_tuple(t7);
        return result;
    }
    t8 = t11;
    value = t8.m0;
    at = t8.m1;
    t12 = record_head_head_fn_read_field_tested_2_FnOnce_call_once(value);
    t14 = !t12;
    if (t14) {
        result = (Result_tuple_uint64_uint64_answer_Refusal){.err = {1u, refusal}};
        return result;
    }
    t15 = (tuple_uint64_uint64){value, at};
    result = (Result_tuple_uint64_uint64_answer_Refusal){.ok = {0u, t15}};
    return result;
}

/* record_head, src/head.rt:50: The field, from the end byte and the field byte, and the place after them. */
INLINE Result_tuple_uint64_uint64_answer_Refusal record_head_head_read_field(slice source, uint8_t end)
{
    Result_tuple_uint64_uint64_answer_Refusal result, t9, t10;
    uint8_t end_slot;
    uint64_t at;
    tuple_uint64_uint64 t5, t7, t14;
    ErrResidual_answer_Refusal t6;
    ControlFlow_ErrResidual_answer_Refusal_tuple_uint64_uint64 t8;
    answer_Refusal t11;
    char *t12;
    record_head_head_fn_read_field_tested_Self_ref_uint8 t13;
    end_slot = end;
    t10 = number_read_byte(source, 0ull);
    t11 = (answer_Refusal){answer_Refusal_wrong_end};
    t12 = (char *)&end_slot;
    t13 = (record_head_head_fn_read_field_tested_Self_ref_uint8){t12};
    t9 = number_tested_uint64_record_head_head_fn_read_field_tested(t10, t11, t13);
    t8 = core_ResultTry_branch_tuple_uint64_uint64_answer_Refusal(t9);
    switch (t8.continue_.tag) {
    case 0:
        t5 = t8.continue_.m1;
        t14 = t5;
        break;
    default:
        t6 = t8.break_.m1;
        result = core_ResultFromResidualErrResidual_from_residual_tuple(t6);
        return result;
    }
    t7 = t14;
    at = t7.m1;
    t9 = number_read_byte(source, at);
    t11 = (answer_Refusal){answer_Refusal_bad_field};
    result = number_tested_uint64_record_head_head_fn_read_field_tested_2(t9, t11);
    return result;
}

/* record_head::head::fn::read_size::tested, a closure */
INLINE bool record_head_head_fn_read_size_tested(record_head_head_fn_read_size_tested_Self_ref_uint64 self, uint64_t size)
{
    bool result, t4, t5;
    char *top;
    uint64_t t6;
    top = self.m0;
    t5 = 1ull <= size;
    if (t5) {
        t6 = *(uint64_t *)top;
        t5 = size <= t6;
    }
    t4 = t5;
    result = t4;
    return result;
}

/* record_head::head::fn::read_size::tested+FnOnce::call_once, a closure */
INLINE bool record_head_head_fn_read_size_tested_FnOnce_call_once(record_head_head_fn_read_size_tested_Self_ref_uint64 arg1, uint64_t arg2)
{
    bool result;
    result = record_head_head_fn_read_size_tested(arg1, arg2);
    return result;
}

/* number, src/lib.rt:17, at u64 and a closure: What was read, where it passes a test; else refused. */
INLINE Result_tuple_uint64_uint64_answer_Refusal
    number_tested_uint64_record_head_head_fn_read_size_tested(Result_tuple_uint64_uint64_answer_Refusal read, answer_Refusal refusal,
    record_head_head_fn_read_size_tested_Self_ref_uint64 test)
{
    Result_tuple_uint64_uint64_answer_Refusal result, t10;
    uint64_t value, at;
    tuple_uint64_uint64 t6, t8, t11, t15;
    ErrResidual_answer_Refusal t7;
    ControlFlow_ErrResidual_answer_Refusal_tuple_uint64_uint64 t9;
    bool t12, t14;
    record_head_head_fn_read_size_tested_Self_ref_uint64 t13;
    t10 = read;
    t9 = core_ResultTry_branch_tuple_uint64_uint64_answer_Refusal(t10);
    switch (t9.continue_.tag) {
    case 0:
        t6 = t9.continue_.m1;
        t11 = t6;
        break;
    default:
        t7 = t9.break_.m1;
        result = core_ResultFromResidualErrResidual_from_residual_tuple(t7);
        return result;
    }
    t8 = t11;
    value = t8.m0;
    at = t8.m1;
    t13 = test;
    t12 = record_head_head_fn_read_size_tested_FnOnce_call_once(t13, value);
    t14 = !t12;
    if (t14) {
        result = (Result_tuple_uint64_uint64_answer_Refusal){.err = {1u, refusal}};
        return result;
    }
    t15 = (tuple_uint64_uint64){value, at};
    result = (Result_tuple_uint64_uint64_answer_Refusal){.ok = {0u, t15}};
    return result;
}

/* record_head, src/head.rt:32: A size of 1 to `top`, and the place after it. */
INLINE Result_tuple_uint64_uint64_answer_Refusal record_head_head_read_size(slice source, uint64_t at, uint64_t top)
{
    Result_tuple_uint64_uint64_answer_Refusal result, t5;
    uint64_t top_slot;
    answer_Refusal t6;
    char *t7;
    record_head_head_fn_read_size_tested_Self_ref_uint64 t8;
    top_slot = top;
    t5 = number_read_number(source, at);
    t6 = (answer_Refusal){answer_Refusal_bad_size};
    t7 = (char *)&top_slot;
    t8 = (record_head_head_fn_read_size_tested_Self_ref_uint64){t7};
    result = number_tested_uint64_record_head_head_fn_read_size_tested(t5, t6, t8);
    return result;
}

/* record_head::head::fn::read_branch::tested, a closure */
INLINE bool record_head_head_fn_read_branch_tested(record_head_head_fn_read_branch_tested_Self_ref_uint64 self, uint64_t branch_bits)
{
    bool result, t4;
    char *depth;
    uint64_t t5, t6;
    depth = self.m0;
    t5 = *(uint64_t *)depth;
    t6 = t5 % branch_bits;
    t4 = t6 == 0ull;
    result = t4;
    return result;
}

/* record_head::head::fn::read_branch::tested+FnOnce::call_once, a closure */
INLINE bool record_head_head_fn_read_branch_tested_FnOnce_call_once(record_head_head_fn_read_branch_tested_Self_ref_uint64 arg1, uint64_t
    arg2)
{
    bool result;
    result = record_head_head_fn_read_branch_tested(arg1, arg2);
    return result;
}

/* number, src/lib.rt:17, at u64 and a closure: What was read, where it passes a test; else refused. */
INLINE Result_tuple_uint64_uint64_answer_Refusal
    number_tested_uint64_record_head_head_fn_read_branch_tested(Result_tuple_uint64_uint64_answer_Refusal read, answer_Refusal refusal,
    record_head_head_fn_read_branch_tested_Self_ref_uint64 test)
{
    Result_tuple_uint64_uint64_answer_Refusal result, t10;
    uint64_t value, at;
    tuple_uint64_uint64 t6, t8, t11, t15;
    ErrResidual_answer_Refusal t7;
    ControlFlow_ErrResidual_answer_Refusal_tuple_uint64_uint64 t9;
    bool t12, t14;
    record_head_head_fn_read_branch_tested_Self_ref_uint64 t13;
    t10 = read;
    t9 = core_ResultTry_branch_tuple_uint64_uint64_answer_Refusal(t10);
    switch (t9.continue_.tag) {
    case 0:
        t6 = t9.continue_.m1;
        t11 = t6;
        break;
    default:
        t7 = t9.break_.m1;
        result = core_ResultFromResidualErrResidual_from_residual_tuple(t7);
        return result;
    }
    t8 = t11;
    value = t8.m0;
    at = t8.m1;
    t13 = test;
    t12 = record_head_head_fn_read_branch_tested_FnOnce_call_once(t13, value);
    t14 = !t12;
    if (t14) {
        result = (Result_tuple_uint64_uint64_answer_Refusal){.err = {1u, refusal}};
        return result;
    }
    t15 = (tuple_uint64_uint64){value, at};
    result = (Result_tuple_uint64_uint64_answer_Refusal){.ok = {0u, t15}};
    return result;
}

/* record_head, src/head.rt:41: g: 1, 2 or 3, and a divisor of d; and the place after it. */
INLINE Result_tuple_uint64_uint64_answer_Refusal record_head_head_read_branch(slice source, uint64_t at, uint64_t depth)
{
    Result_tuple_uint64_uint64_answer_Refusal result, t5;
    uint64_t depth_slot;
    answer_Refusal t6;
    char *t7;
    record_head_head_fn_read_branch_tested_Self_ref_uint64 t8;
    depth_slot = depth;
    t5 = record_head_head_read_size(source, at, 3ull);
    t6 = (answer_Refusal){answer_Refusal_bad_size};
    t7 = (char *)&depth_slot;
    t8 = (record_head_head_fn_read_branch_tested_Self_ref_uint64){t7};
    result = number_tested_uint64_record_head_head_fn_read_branch_tested(t5, t6, t8);
    return result;
}

/* record_head, src/head.rt:15: Whether a record has a count of bytes from a place on. `answer::is_past` says the opposite of a window;
 * readers and their laws speak of what is there. */
INLINE bool record_head_head_has_bytes(slice source, uint64_t at, uint64_t count)
{
    bool result, t4;
    uint64_t t5, t6, t7;
    t5 = source.count;
    t4 = count <= t5;
    if (t4) {
        t6 = source.count;
        t7 = t6 - count;
        t4 = at <= t7;
    }
    result = t4;
    return result;
}

/* record_head, src/head.rt:22: The place after a field of a count of bytes. */
INLINE Result_uint64_answer_Refusal record_head_head_skip(slice source, uint64_t at, uint64_t count)
{
    Result_uint64_answer_Refusal result;
    bool t4, t5;
    answer_Refusal t6;
    uint64_t t7;
    t4 = record_head_head_has_bytes(source, at, count);
    t5 = !t4;
    if (t5) {
        t6 = (answer_Refusal){answer_Refusal_record_ends};
        result = (Result_uint64_answer_Refusal){.err = {1u, t6}};
        return result;
    }
    t7 = at + count;
    result = (Result_uint64_answer_Refusal){.ok = {0u, t7}};
    return result;
}

/* record_head, src/head.rt:64: g, t, ℓ, n, the code key and the label, after d. */
INLINE Result_record_Layout_answer_Refusal record_head_head_read_after_depth(slice source, uint64_t at, uint64_t field, uint64_t depth)
{
    Result_record_Layout_answer_Refusal result;
    uint64_t all, branch_bits, at_2, trees, at_3, terms, at_4, outputs, at_5, body, t23, t31, t41;
    tuple_uint64_uint64 t8, t12, t16, t20, t25, t28, t29, t32, t33, t35, t36, t38;
    ErrResidual_answer_Refusal t9, t13, t17, t21, t24;
    ControlFlow_ErrResidual_answer_Refusal_tuple_uint64_uint64 t26, t30, t34, t37;
    Result_tuple_uint64_uint64_answer_Refusal t27;
    ControlFlow_ErrResidual_answer_Refusal_uint64 t39;
    Result_uint64_answer_Refusal t40;
    record_Layout t42;
    all = record_sizes_leaves(depth);
    t27 = record_head_head_read_branch(source, at, depth);
    t26 = core_ResultTry_branch_tuple_uint64_uint64_answer_Refusal(t27);
    switch (t26.continue_.tag) {
    case 0:
        t8 = t26.continue_.m1;
        t28 = t8;
        break;
    default:
        t9 = t26.break_.m1;
        result = core_ResultFromResidualErrResidual_from_residual_record(t9);
        return result;
    }
    t25 = t28;
    branch_bits = t25.m0;
    at_2 = t25.m1;
    t31 = core_usize_min(all, 64ull);
    t27 = record_head_head_read_size(source, at_2, t31);
    t30 = core_ResultTry_branch_tuple_uint64_uint64_answer_Refusal(t27);
    switch (t30.continue_.tag) {
    case 0:
        t12 = t30.continue_.m1;
        t32 = t12;
        break;
    default:
        t13 = t30.break_.m1;
        result = core_ResultFromResidualErrResidual_from_residual_record(t13);
        return result;
    }
    t29 = t32;
    trees = t29.m0;
    at_3 = t29.m1;
    t31 = core_usize_min(all, 32ull);
    t27 = record_head_head_read_size(source, at_3, t31);
    t34 = core_ResultTry_branch_tuple_uint64_uint64_answer_Refusal(t27);
    switch (t34.continue_.tag) {
    case 0:
        t16 = t34.continue_.m1;
        t35 = t16;
        break;
    default:
        t17 = t34.break_.m1;
        result = core_ResultFromResidualErrResidual_from_residual_record(t17);
        return result;
    }
    t33 = t35;
    terms = t33.m0;
    at_4 = t33.m1;
    t31 = all / 2ull;
    t27 = record_head_head_read_size(source, at_4, t31);
    t37 = core_ResultTry_branch_tuple_uint64_uint64_answer_Refusal(t27);
    switch (t37.continue_.tag) {
    case 0:
        t20 = t37.continue_.m1;
        t38 = t20;
        break;
    default:
        t21 = t37.break_.m1;
        result = core_ResultFromResidualErrResidual_from_residual_record(t21);
        return result;
    }
    t36 = t38;
    outputs = t36.m0;
    at_5 = t36.m1;
    t40 = record_head_head_skip(source, at_5, 32ull);
    t39 = core_ResultTry_branch_uint64_answer_Refusal(t40);
    switch (t39.continue_.tag) {
    case 0:
        t23 = t39.continue_.m1;
        t41 = t23;
        break;
    default:
        t24 = t39.break_.m1;
        result = core_ResultFromResidualErrResidual_from_residual_record(t24);
        return result;
    }
    body = t41;
    t42 = (record_Layout){field, depth, branch_bits, trees, terms, outputs, body};
    result = (Result_record_Layout_answer_Refusal){.ok = {0u, t42}};
    return result;
}

/* record_head, src/head.rt:86: d, then the rest of the head. */
INLINE Result_record_Layout_answer_Refusal record_head_head_read_sizes(slice source, uint64_t at, uint64_t field)
{
    Result_record_Layout_answer_Refusal result;
    uint64_t depth, at_2;
    tuple_uint64_uint64 t6, t8, t11;
    ErrResidual_answer_Refusal t7;
    ControlFlow_ErrResidual_answer_Refusal_tuple_uint64_uint64 t9;
    Result_tuple_uint64_uint64_answer_Refusal t10;
    t10 = record_head_head_read_size(source, at, 16ull);
    t9 = core_ResultTry_branch_tuple_uint64_uint64_answer_Refusal(t10);
    switch (t9.continue_.tag) {
    case 0:
        t6 = t9.continue_.m1;
        t11 = t6;
        break;
    default:
        t7 = t9.break_.m1;
        result = core_ResultFromResidualErrResidual_from_residual_record(t7);
        return result;
    }
    t8 = t11;
    depth = t8.m0;
    at_2 = t8.m1;
    result = record_head_head_read_after_depth(source, at_2, field, depth);
    return result;
}

/* record_head, src/head.rt:94: The head of a record of the end with this byte. A byte and no `End`, as ARCHITECTURE.md names it: the
 * answer is promised for every byte. */
static Result_record_Layout_answer_Refusal record_head_head_read_head(slice source, uint8_t end)
{
    Result_record_Layout_answer_Refusal result;
    uint64_t field, at;
    tuple_uint64_uint64 t5, t7, t10;
    ErrResidual_answer_Refusal t6;
    ControlFlow_ErrResidual_answer_Refusal_tuple_uint64_uint64 t8;
    Result_tuple_uint64_uint64_answer_Refusal t9;
    t9 = record_head_head_read_field(source, end);
    t8 = core_ResultTry_branch_tuple_uint64_uint64_answer_Refusal(t9);
    switch (t8.continue_.tag) {
    case 0:
        t5 = t8.continue_.m1;
        t10 = t5;
        break;
    default:
        t6 = t8.break_.m1;
        result = core_ResultFromResidualErrResidual_from_residual_record(t6);
        return result;
    }
    t7 = t10;
    field = t7.m0;
    at = t7.m1;
    result = record_head_head_read_sizes(source, at, field);
    return result;
}

/* record_reading::noise::fn::read_position::tested, a closure */
INLINE bool record_reading_noise_fn_read_position_tested(record_reading_noise_fn_read_position_tested_Self_ref_uint64 self, uint64_t back)
{
    bool result, t4;
    char *left;
    uint64_t t5;
    left = self.m0;
    t5 = *(uint64_t *)left;
    t4 = back < t5;
    result = t4;
    return result;
}

/* record_reading::noise::fn::read_position::tested+FnOnce::call_once, a closure */
INLINE bool record_reading_noise_fn_read_position_tested_FnOnce_call(record_reading_noise_fn_read_position_tested_Self_ref_uint64 arg1,
    uint64_t arg2)
{
    bool result;
    result = record_reading_noise_fn_read_position_tested(arg1, arg2);
    return result;
}

/* number, src/lib.rt:17, at u64 and a closure: What was read, where it passes a test; else refused. */
INLINE Result_tuple_uint64_uint64_answer_Refusal
    number_tested_uint64_record_reading_noise_fn_read_position(Result_tuple_uint64_uint64_answer_Refusal read, answer_Refusal refusal,
    record_reading_noise_fn_read_position_tested_Self_ref_uint64 test)
{
    Result_tuple_uint64_uint64_answer_Refusal result, t10;
    uint64_t value, at;
    tuple_uint64_uint64 t6, t8, t11, t15;
    ErrResidual_answer_Refusal t7;
    ControlFlow_ErrResidual_answer_Refusal_tuple_uint64_uint64 t9;
    bool t12, t14;
    record_reading_noise_fn_read_position_tested_Self_ref_uint64 t13;
    t10 = read;
    t9 = core_ResultTry_branch_tuple_uint64_uint64_answer_Refusal(t10);
    switch (t9.continue_.tag) {
    case 0:
        t6 = t9.continue_.m1;
        t11 = t6;
        break;
    default:
        t7 = t9.break_.m1;
        result = core_ResultFromResidualErrResidual_from_residual_tuple(t7);
        return result;
    }
    t8 = t11;
    value = t8.m0;
    at = t8.m1;
    t13 = test;
    t12 = record_reading_noise_fn_read_position_tested_FnOnce_call(t13, value);
    t14 = !t12;
    if (t14) {
        result = (Result_tuple_uint64_uint64_answer_Refusal){.err = {1u, refusal}};
        return result;
    }
    t15 = (tuple_uint64_uint64){value, at};
    result = (Result_tuple_uint64_uint64_answer_Refusal){.ok = {0u, t15}};
    return result;
}

/* record_reading, src/noise.rt:18: A position below `all`, after positions below `base`, and the place after it. */
INLINE Result_tuple_uint64_uint64_answer_Refusal record_reading_noise_read_position(slice source, uint64_t at, uint64_t base, uint64_t all)
{
    Result_tuple_uint64_uint64_answer_Refusal result, t13, t14;
    uint64_t left, back, at_2, t10;
    tuple_uint64_uint64 t8, t11, t18, t19;
    ErrResidual_answer_Refusal t9;
    ControlFlow_ErrResidual_answer_Refusal_tuple_uint64_uint64 t12;
    answer_Refusal t15;
    char *t16;
    record_reading_noise_fn_read_position_tested_Self_ref_uint64 t17;
    t10 = all - base;
    left = t10;
    t14 = number_read_number(source, at);
    t15 = (answer_Refusal){answer_Refusal_bad_position};
    t16 = (char *)&left;
    t17 = (record_reading_noise_fn_read_position_tested_Self_ref_uint64){t16};
    t13 = number_tested_uint64_record_reading_noise_fn_read_position(t14, t15, t17);
    t12 = core_ResultTry_branch_tuple_uint64_uint64_answer_Refusal(t13);
    switch (t12.continue_.tag) {
    case 0:
        t8 = t12.continue_.m1;
        t18 = t8;
        break;
    default:
        t9 = t12.break_.m1;
        result = core_ResultFromResidualErrResidual_from_residual_tuple(t9);
        return result;
    }
    t11 = t18;
    back = t11.m0;
    at_2 = t11.m1;
    t10 = base + back;
    t19 = (tuple_uint64_uint64){t10, at_2};
    result = (Result_tuple_uint64_uint64_answer_Refusal){.ok = {0u, t19}};
    return result;
}

/* record_reading, src/element.rt:16: A word. */
INLINE Result_tuple_uint64_uint64_answer_Refusal record_reading_element_read_word(slice source, uint64_t at)
{
    Result_tuple_uint64_uint64_answer_Refusal result;
    uint64_t next, t4, t8, t9;
    ErrResidual_answer_Refusal t5;
    ControlFlow_ErrResidual_answer_Refusal_uint64 t6;
    Result_uint64_answer_Refusal t7;
    tuple_uint64_uint64 t10;
    t7 = record_head_head_skip(source, at, 8ull);
    t6 = core_ResultTry_branch_uint64_answer_Refusal(t7);
    switch (t6.continue_.tag) {
    case 0:
        t4 = t6.continue_.m1;
        t8 = t4;
        break;
    default:
        t5 = t6.break_.m1;
        result = core_ResultFromResidualErrResidual_from_residual_tuple(t5);
        return result;
    }
    next = t8;
    t9 = field_bytes_word_at(source, at);
    t10 = (tuple_uint64_uint64){t9, next};
    result = (Result_tuple_uint64_uint64_answer_Refusal){.ok = {0u, t10}};
    return result;
}

/* record_reading::element::fn::read_value::tested, a closure */
INLINE bool record_reading_element_fn_read_value_tested(record_reading_element_fn_read_value_tested_Self_ref_uint64 self, uint64_t value)
{
    bool result, t4;
    char *field;
    uint64_t t5;
    field = self.m0;
    t5 = *(uint64_t *)field;
    t4 = field_noise_is_noise(t5, value);
    result = t4;
    return result;
}

/* record_reading::element::fn::read_value::tested+FnOnce::call_once, a closure */
INLINE bool record_reading_element_fn_read_value_tested_FnOnce_call_once(record_reading_element_fn_read_value_tested_Self_ref_uint64 arg1,
    uint64_t arg2)
{
    bool result;
    result = record_reading_element_fn_read_value_tested(arg1, arg2);
    return result;
}

/* number, src/lib.rt:17, at u64 and a closure: What was read, where it passes a test; else refused. */
INLINE Result_tuple_uint64_uint64_answer_Refusal
    number_tested_uint64_record_reading_element_fn_read_value(Result_tuple_uint64_uint64_answer_Refusal read, answer_Refusal refusal,
    record_reading_element_fn_read_value_tested_Self_ref_uint64 test)
{
    Result_tuple_uint64_uint64_answer_Refusal result, t10;
    uint64_t value, at;
    tuple_uint64_uint64 t6, t8, t11, t15;
    ErrResidual_answer_Refusal t7;
    ControlFlow_ErrResidual_answer_Refusal_tuple_uint64_uint64 t9;
    bool t12, t14;
    record_reading_element_fn_read_value_tested_Self_ref_uint64 t13;
    t10 = read;
    t9 = core_ResultTry_branch_tuple_uint64_uint64_answer_Refusal(t10);
    switch (t9.continue_.tag) {
    case 0:
        t6 = t9.continue_.m1;
        t11 = t6;
        break;
    default:
        t7 = t9.break_.m1;
        result = core_ResultFromResidualErrResidual_from_residual_tuple(t7);
        return result;
    }
    t8 = t11;
    value = t8.m0;
    at = t8.m1;
    t13 = test;
    t12 = record_reading_element_fn_read_value_tested_FnOnce_call_once(t13, value);
    t14 = !t12;
    if (t14) {
        result = (Result_tuple_uint64_uint64_answer_Refusal){.err = {1u, refusal}};
        return result;
    }
    t15 = (tuple_uint64_uint64){value, at};
    result = (Result_tuple_uint64_uint64_answer_Refusal){.ok = {0u, t15}};
    return result;
}

/* record_reading, src/element.rt:33: The noise value of a tree; where it is always 1 it takes no bytes. */
INLINE Result_tuple_uint64_uint64_answer_Refusal record_reading_element_read_value(slice source, uint64_t at, uint64_t field)
{
    Result_tuple_uint64_uint64_answer_Refusal result, t8;
    uint64_t field_slot, t6;
    bool t5;
    tuple_uint64_uint64 t7;
    answer_Refusal t9;
    char *t10;
    record_reading_element_fn_read_value_tested_Self_ref_uint64 t11;
    field_slot = field;
    t6 = field_slot;
    t5 = field_noise_one_noise(t6);
    if (t5) {
        t7 = (tuple_uint64_uint64){1ull, at};
        result = (Result_tuple_uint64_uint64_answer_Refusal){.ok = {0u, t7}};
        return result;
    }
    t8 = record_reading_element_read_word(source, at);
    t9 = (answer_Refusal){answer_Refusal_bad_noise};
    t10 = (char *)&field_slot;
    t11 = (record_reading_element_fn_read_value_tested_Self_ref_uint64){t10};
    result = number_tested_uint64_record_reading_element_fn_read_value(t8, t9, t11);
    return result;
}

/* record_reading, src/element.rt:24: The words of an element, tested by nothing; its second word is 0 where it has one. */
INLINE Result_tuple_field_element_Element_uint64_answer_Refusal record_reading_element_read_words(slice source, uint64_t at, uint64_t field)
{
    Result_tuple_field_element_Element_uint64_answer_Refusal result;
    uint64_t next, t5, t9, t10;
    ErrResidual_answer_Refusal t6;
    ControlFlow_ErrResidual_answer_Refusal_uint64 t7;
    Result_uint64_answer_Refusal t8;
    field_element_Element t11;
    tuple_field_element_Element_uint64 t12;
    t9 = field_element_element_length(field);
    t8 = record_head_head_skip(source, at, t9);
    t7 = core_ResultTry_branch_uint64_answer_Refusal(t8);
    switch (t7.continue_.tag) {
    case 0:
        t5 = t7.continue_.m1;
        t10 = t5;
        break;
    default:
        t6 = t7.break_.m1;
        result = core_ResultFromResidualErrResidual_from_residual_tuple_3(t6);
        return result;
    }
    next = t10;
    t11 = field_element_element_at(field, source, at);
    t12 = (tuple_field_element_Element_uint64){t11, next};
    result = (Result_tuple_field_element_Element_uint64_answer_Refusal){.ok = {0u, t12}};
    return result;
}

/* record_reading::element::fn::read_correction::tested, a closure */
INLINE bool record_reading_element_fn_read_correction_tested(record_reading_element_fn_read_correction_tested_Self_ref self,
    field_element_Element correction)
{
    bool result;
    char *field;
    uint64_t t4;
    field = self.m0;
    t4 = *(uint64_t *)field;
    result = field_element_is_element(t4, correction);
    return result;
}

/* record_reading::element::fn::read_correction::tested+FnOnce::call_once, a closure */
INLINE bool record_reading_element_fn_read_correction_tested_FnOnce(record_reading_element_fn_read_correction_tested_Self_ref arg1,
    field_element_Element arg2)
{
    bool result;
    result = record_reading_element_fn_read_correction_tested(arg1, arg2);
    return result;
}

/* number, src/lib.rt:17, at Element and a closure: What was read, where it passes a test; else refused. */
INLINE Result_tuple_field_element_Element_uint64_answer_Refusal
    number_tested_field_element_Element_record_reading_element(Result_tuple_field_element_Element_uint64_answer_Refusal read, answer_Refusal
    refusal, record_reading_element_fn_read_correction_tested_Self_ref test)
{
    Result_tuple_field_element_Element_uint64_answer_Refusal result, t10;
    field_element_Element value;
    uint64_t at;
    tuple_field_element_Element_uint64 t6, t8, t11, t15;
    ErrResidual_answer_Refusal t7;
    ControlFlow_ErrResidual_answer_Refusal_tuple_field_element t9;
    bool t12, t14;
    record_reading_element_fn_read_correction_tested_Self_ref t13;
    t10 = read;
    t9 = core_ResultTry_branch_tuple_field_element_Element_uint64(t10);
    switch (t9.continue_.tag) {
    case 0:
        t6 = t9.continue_.m1;
        t11 = t6;
        break;
    default:
        t7 = t9.break_.m1;
        result = core_ResultFromResidualErrResidual_from_residual_tuple_3(t7);
        return result;
    }
    t8 = t11;
    value = t8.m0;
    at = t8.m1;
    t13 = test;
    t12 = record_reading_element_fn_read_correction_tested_FnOnce(t13, value);
    t14 = !t12;
    if (t14) {
        result = (Result_tuple_field_element_Element_uint64_answer_Refusal){.err = {1u, refusal}};
        return result;
    }
    t15 = (tuple_field_element_Element_uint64){value, at};
    result = (Result_tuple_field_element_Element_uint64_answer_Refusal){.ok = {0u, t15}};
    return result;
}

/* record_reading, src/element.rt:45: The correction of a tree. */
INLINE Result_tuple_field_element_Element_uint64_answer_Refusal record_reading_element_read_correction(slice source, uint64_t at, uint64_t
    field)
{
    Result_tuple_field_element_Element_uint64_answer_Refusal result, t5;
    uint64_t field_slot, t6;
    answer_Refusal t7;
    char *t8;
    record_reading_element_fn_read_correction_tested_Self_ref t9;
    field_slot = field;
    t6 = field_slot;
    t5 = record_reading_element_read_words(source, at, t6);
    t7 = (answer_Refusal){answer_Refusal_not_element};
    t8 = (char *)&field_slot;
    t9 = (record_reading_element_fn_read_correction_tested_Self_ref){t8};
    result = number_tested_field_element_Element_record_reading_element(t5, t7, t9);
    return result;
}

/* record_reading, src/noise.rt:37: A tree with so many siblings, after positions below `base`, and the place after it. Field, depth and
 * siblings stay three parameters: `known_tree`, which ARCHITECTURE.md names, promises its tree for any three by which one is read whole. */
INLINE Result_tuple_record_Tree_uint64_answer_Refusal record_reading_noise_read_tree(slice source, uint64_t at, uint64_t base, uint64_t
    field, uint64_t depth, uint64_t siblings)
{
    Result_tuple_record_Tree_uint64_answer_Refusal result;
    uint64_t position, at_2, value, at_3, at_4, end, t20, t26, t38;
    tuple_uint64_uint64 t9, t13, t23, t27, t28, t31;
    ErrResidual_answer_Refusal t10, t14, t18, t21;
    field_element_Element correction;
    tuple_field_element_Element_uint64 t17, t32, t35;
    record_Tree tree;
    ControlFlow_ErrResidual_answer_Refusal_tuple_uint64_uint64 t24, t29;
    Result_tuple_uint64_uint64_answer_Refusal t25, t30;
    ControlFlow_ErrResidual_answer_Refusal_tuple_field_element t33;
    Result_tuple_field_element_Element_uint64_answer_Refusal t34;
    ControlFlow_ErrResidual_answer_Refusal_uint64 t36;
    Result_uint64_answer_Refusal t37;
    tuple_record_Tree_uint64 t39;
    t26 = record_sizes_leaves(depth);
    t25 = record_reading_noise_read_position(source, at, base, t26);
    t24 = core_ResultTry_branch_tuple_uint64_uint64_answer_Refusal(t25);
    switch (t24.continue_.tag) {
    case 0:
        t9 = t24.continue_.m1;
        t27 = t9;
        break;
    default:
        t10 = t24.break_.m1;
        result = core_ResultFromResidualErrResidual_from_residual_tuple_2(t10);
        return result;
    }
    t23 = t27;
    position = t23.m0;
    at_2 = t23.m1;
    t30 = record_reading_element_read_value(source, at_2, field);
    t29 = core_ResultTry_branch_tuple_uint64_uint64_answer_Refusal(t30);
    switch (t29.continue_.tag) {
    case 0:
        t13 = t29.continue_.m1;
        t31 = t13;
        break;
    default:
        t14 = t29.break_.m1;
        result = core_ResultFromResidualErrResidual_from_residual_tuple_2(t14);
        return result;
    }
    t28 = t31;
    value = t28.m0;
    at_3 = t28.m1;
    t34 = record_reading_element_read_correction(source, at_3, field);
    t33 = core_ResultTry_branch_tuple_field_element_Element_uint64(t34);
    switch (t33.continue_.tag) {
    case 0:
        t17 = t33.continue_.m1;
        t35 = t17;
        break;
    default:
        t18 = t33.break_.m1;
        result = core_ResultFromResidualErrResidual_from_residual_tuple_2(t18);
        return result;
    }
    t32 = t35;
    correction = t32.m0;
    at_4 = t32.m1;
    t26 = 16ull * siblings;
    t37 = record_head_head_skip(source, at_4, t26);
    t36 = core_ResultTry_branch_uint64_answer_Refusal(t37);
    switch (t36.continue_.tag) {
    case 0:
        t20 = t36.continue_.m1;
        t38 = t20;
        break;
    default:
        t21 = t36.break_.m1;
        result = core_ResultFromResidualErrResidual_from_residual_tuple_2(t21);
        return result;
    }
    end = t38;
    tree = (record_Tree){position, value, correction, at_4};
    t39 = (tuple_record_Tree_uint64){tree, end};
    result = (Result_tuple_record_Tree_uint64_answer_Refusal){.ok = {0u, t39}};
    return result;
}

/* record_reading, src/noise.rt:65: The noise record, whole and tested. The loop carries the next place: an iterator of trees would be a
 * struct of both places, and be lent to the loop, since the place after the last tree is tested. */
static Result_record_Layout_answer_Refusal record_reading_noise_read_noise(slice source)
{
    Result_record_Layout_answer_Refusal result, t13;
    record_Layout layout, t3, t15;
    ErrResidual_answer_Refusal t4, t11;
    uint64_t siblings, at, base, next, counter, end, t23;
    record_Tree tree;
    tuple_record_Tree_uint64 t10, t19, t22;
    ControlFlow_ErrResidual_answer_Refusal_record_Layout t12;
    uint8_t t14;
    bool t18, t24;
    ControlFlow_ErrResidual_answer_Refusal_tuple_record_Tree t20;
    Result_tuple_record_Tree_uint64_answer_Refusal t21;
    answer_Refusal t25;
    t14 = 1u;
    t13 = record_head_head_read_head(source, t14);
    t12 = core_ResultTry_branch_record_Layout_answer_Refusal(t13);
    switch (t12.continue_.tag) {
    case 0:
        t3 = t12.continue_.m1;
        t15 = t3;
        break;
    default:
        t4 = t12.break_.m1;
        result = core_ResultFromResidualErrResidual_from_residual_record(t4);
        return result;
    }
    layout = t15;
    siblings = record_sizes_sibling_count(layout.depth, layout.branch_bits);
    at = layout.body;
    base = 0ull;
    counter = 0ull;
    end = layout.trees;
    for (;;) {
        t18 = counter < end;
        if (!t18) {
            break;
        }
        t21 = record_reading_noise_read_tree(source, at, base, layout.field, layout.depth, siblings);
        t20 = core_ResultTry_branch_tuple_record_Tree_uint64_answer(t21);
        switch (t20.continue_.tag) {
        case 0:
            t10 = t20.continue_.m1;
            t22 = t10;
            break;
        default:
            t11 = t20.break_.m1;
            result = core_ResultFromResidualErrResidual_from_residual_record(t11);
            return result;
        }
        t19 = t22;
        tree = t19.m0;
        next = t19.m1;
        base = tree.position + 1ull;
        at = next;
        counter = counter + 1ull;
    }
    t23 = source.count;
    t24 = at < t23;
    if (t24) {
        t25 = (answer_Refusal){answer_Refusal_bytes_after};
        result = (Result_record_Layout_answer_Refusal){.err = {1u, t25}};
        return result;
    }
    result = (Result_record_Layout_answer_Refusal){.ok = {0u, layout}};
    return result;
}

/* record_reading::element::fn::read_delta::tested, a closure */
INLINE bool record_reading_element_fn_read_delta_tested(record_reading_element_fn_read_delta_tested_Self_ref_uint64 self,
    field_element_Element delta)
{
    bool result, t4;
    char *field;
    uint64_t t5;
    field = self.m0;
    t5 = *(uint64_t *)field;
    t4 = field_element_is_scalar(t5, delta);
    result = t4;
    return result;
}

/* record_reading::element::fn::read_delta::tested+FnOnce::call_once, a closure */
INLINE bool record_reading_element_fn_read_delta_tested_FnOnce_call_once(record_reading_element_fn_read_delta_tested_Self_ref_uint64 arg1,
    field_element_Element arg2)
{
    bool result;
    result = record_reading_element_fn_read_delta_tested(arg1, arg2);
    return result;
}

/* number, src/lib.rt:17, at Element and a closure: What was read, where it passes a test; else refused. */
INLINE Result_tuple_field_element_Element_uint64_answer_Refusal
    number_tested_field_element_Element_record_reading_element_2(Result_tuple_field_element_Element_uint64_answer_Refusal read,
    answer_Refusal refusal, record_reading_element_fn_read_delta_tested_Self_ref_uint64 test)
{
    Result_tuple_field_element_Element_uint64_answer_Refusal result, t10;
    field_element_Element value;
    uint64_t at;
    tuple_field_element_Element_uint64 t6, t8, t11, t15;
    ErrResidual_answer_Refusal t7;
    ControlFlow_ErrResidual_answer_Refusal_tuple_field_element t9;
    bool t12, t14;
    record_reading_element_fn_read_delta_tested_Self_ref_uint64 t13;
    t10 = read;
    t9 = core_ResultTry_branch_tuple_field_element_Element_uint64(t10);
    switch (t9.continue_.tag) {
    case 0:
        t6 = t9.continue_.m1;
        t11 = t6;
        break;
    default:
        t7 = t9.break_.m1;
        result = core_ResultFromResidualErrResidual_from_residual_tuple_3(t7);
        return result;
    }
    t8 = t11;
    value = t8.m0;
    at = t8.m1;
    t13 = test;
    t12 = record_reading_element_fn_read_delta_tested_FnOnce_call_once(t13, value);
    t14 = !t12;
    if (t14) {
        result = (Result_tuple_field_element_Element_uint64_answer_Refusal){.err = {1u, refusal}};
        return result;
    }
    t15 = (tuple_field_element_Element_uint64){value, at};
    result = (Result_tuple_field_element_Element_uint64_answer_Refusal){.ok = {0u, t15}};
    return result;
}

/* record_reading, src/element.rt:57: Δ. */
INLINE Result_tuple_field_element_Element_uint64_answer_Refusal record_reading_element_read_delta(slice source, uint64_t at, uint64_t field)
{
    Result_tuple_field_element_Element_uint64_answer_Refusal result, t5;
    uint64_t field_slot, t6;
    answer_Refusal t7;
    char *t8;
    record_reading_element_fn_read_delta_tested_Self_ref_uint64 t9;
    field_slot = field;
    t6 = field_slot;
    t5 = record_reading_element_read_words(source, at, t6);
    t7 = (answer_Refusal){answer_Refusal_bad_delta};
    t8 = (char *)&field_slot;
    t9 = (record_reading_element_fn_read_delta_tested_Self_ref_uint64){t8};
    result = number_tested_field_element_Element_record_reading_element_2(t5, t7, t9);
    return result;
}

/* record_reading, src/scalar.rt:12: The scalar record, whole and tested. Δ begins the body, and the roots follow it. */
INLINE Result_record_Layout_answer_Refusal record_reading_scalar_read_scalar(slice source)
{
    Result_record_Layout_answer_Refusal result, t12;
    record_Layout layout, t3, t14;
    ErrResidual_answer_Refusal t4, t7, t10;
    uint64_t at, end, t9, t21, t22;
    tuple_field_element_Element_uint64 t6, t15, t18;
    ControlFlow_ErrResidual_answer_Refusal_record_Layout t11;
    uint8_t t13;
    ControlFlow_ErrResidual_answer_Refusal_tuple_field_element t16;
    Result_tuple_field_element_Element_uint64_answer_Refusal t17;
    ControlFlow_ErrResidual_answer_Refusal_uint64 t19;
    Result_uint64_answer_Refusal t20;
    bool t23;
    answer_Refusal t24;
    t13 = 2u;
    t12 = record_head_head_read_head(source, t13);
    t11 = core_ResultTry_branch_record_Layout_answer_Refusal(t12);
    switch (t11.continue_.tag) {
    case 0:
        t3 = t11.continue_.m1;
        t14 = t3;
        break;
    default:
        t4 = t11.break_.m1;
        result = core_ResultFromResidualErrResidual_from_residual_record(t4);
        return result;
    }
    layout = t14;
    t17 = record_reading_element_read_delta(source, layout.body, layout.field);
    t16 = core_ResultTry_branch_tuple_field_element_Element_uint64(t17);
    switch (t16.continue_.tag) {
    case 0:
        t6 = t16.continue_.m1;
        t18 = t6;
        break;
    default:
        t7 = t16.break_.m1;
        result = core_ResultFromResidualErrResidual_from_residual_record(t7);
        return result;
    }
    t15 = t18;
    at = t15.m1;
    t21 = 16ull * layout.trees;
    t20 = record_head_head_skip(source, at, t21);
    t19 = core_ResultTry_branch_uint64_answer_Refusal(t20);
    switch (t19.continue_.tag) {
    case 0:
        t9 = t19.continue_.m1;
        t22 = t9;
        break;
    default:
        t10 = t19.break_.m1;
        result = core_ResultFromResidualErrResidual_from_residual_record(t10);
        return result;
    }
    end = t22;
    t21 = source.count;
    t23 = end < t21;
    if (t23) {
        t24 = (answer_Refusal){answer_Refusal_bytes_after};
        result = (Result_record_Layout_answer_Refusal){.err = {1u, t24}};
        return result;
    }
    result = (Result_record_Layout_answer_Refusal){.ok = {0u, layout}};
    return result;
}

/* record_reading, src/noise.rt:84: The tree at a place of an accepted noise record, after positions below `base`. The next tree follows
 * its siblings. */
INLINE record_Tree record_reading_noise_known_tree(slice source, uint64_t at, uint64_t base, uint64_t field, uint64_t depth, uint64_t
    siblings)
{
    record_Tree result, tree;
    Result_tuple_record_Tree_uint64_answer_Refusal t8;
    t8 = record_reading_noise_read_tree(source, at, base, field, depth, siblings);
    tree = t8.ok.m1.m0;
    result = tree;
    return result;
}

/* tree_sums, src/zero.rt:5: Zeroes words: `fill`, with the promise that both ends' laws of trees begin with, and an edit
 * (`words_not_zeroed`). */
INLINE void tree_sums_zero_zero_words(slice words)
{
    char *t3;
    slice t4;
    t3 = words.at;
    t4 = (slice){t3, words.count};
    core_slice_fill_uint64(t4, 0ull);
}

/* tree_sums, src/sums.rt:20, at Block: Adds an element to element i of those that the words hold. Inlined, so that sums of leaves make
 * no call more. */
INLINE void tree_sums_sums_add_at_field_block_Block(field_block_Block element, uint64_t i, slice acc)
{
    field_block_Block t5, t6;
    char *t7, *t9;
    slice t8, t10;
    t7 = acc.at;
    t8 = (slice){t7, acc.count};
    t6 = field_parts_BlockFieldElement_at(t8, i);
    t5 = field_parts_BlockFieldElement_add(t6, element);
    t9 = acc.at;
    t10 = (slice){t9, acc.count};
    field_parts_BlockFieldElement_put(t5, t10, i);
}

/* tree_sums, src/sums.rt:20, at Prime: Adds an element to element i of those that the words hold. Inlined, so that sums of leaves make
 * no call more. */
INLINE void tree_sums_sums_add_at_prime_prime_Prime(prime_prime_Prime element, uint64_t i, slice acc)
{
    prime_prime_Prime t5, t6;
    char *t7, *t9;
    slice t8, t10;
    t7 = acc.at;
    t8 = (slice){t7, acc.count};
    t6 = field_parts_PrimeFieldElement_at(t8, i);
    t5 = field_parts_PrimeFieldElement_add(t6, element);
    t9 = acc.at;
    t10 = (slice){t9, acc.count};
    field_parts_PrimeFieldElement_put(t5, t10, i);
}

/* tree_sums, src/sums.rt:41: Adds an element to the one that the words hold. Beside `add_leaf`, which reduces: a line a field.
 * `Element::block` and `prime` are private to `field`: public, they would make an element of a field that no number names. */
INLINE void tree_sums_sums_add_element(uint64_t field, field_element_Element element, slice acc)
{
    field_block_Block block;
    bool t5;
    char *t7, *t11;
    slice t8, t12;
    prime_prime_Prime t10;
    t5 = field == 1ull;
    if (t5) {
        block = (field_block_Block){element.low, element.high};
        t7 = acc.at;
        t8 = (slice){t7, acc.count};
        tree_sums_sums_add_at_field_block_Block(block, 0ull, t8);
    } else {
        t10 = (prime_prime_Prime){element.low};
        t11 = acc.at;
        t12 = (slice){t11, acc.count};
        tree_sums_sums_add_at_prime_prime_Prime(t10, 0ull, t12);
    }
}

/* tree_sums, src/sums.rt:28: Adds the element of a leaf to the one that the words hold. */
INLINE void tree_sums_sums_add_leaf(uint64_t field, field_block_Block s, slice acc)
{
    bool t4;
    char *t6, *t10;
    slice t7, t11;
    prime_prime_Prime t9;
    t4 = field == 1ull;
    if (t4) {
        t6 = acc.at;
        t7 = (slice){t6, acc.count};
        tree_sums_sums_add_at_field_block_Block(s, 0ull, t7);
    } else {
        t9 = prime_prime_Prime_reduce(s.low);
        t10 = acc.at;
        t11 = (slice){t10, acc.count};
        tree_sums_sums_add_at_prime_prime_Prime(t9, 0ull, t11);
    }
}

/* tree_sums, src/sums.rt:57: Adds children c and c + 1 of s, which are leaves, to the elements of acc. */
INLINE void tree_sums_sums_add_pair(tree_walk_node_TreeCipher cipher, uint64_t field, uint64_t c, field_block_Block s, slice acc)
{
    aes_blocks_Two_field_block_Block both;
    tree_walk_node_TreeCipher t7;
    bool t8;
    field_block_Block t10, t13;
    char *t11, *t14, *t18, *t20;
    slice t12, t15, t19, t21;
    prime_prime_Prime t17;
    t7 = cipher;
    both = tree_walk_node_TreeCipher_children(t7, c, s);
    t8 = field == 1ull;
    if (t8) {
        t10 = both.one;
        t11 = acc.at;
        t12 = (slice){t11, acc.count};
        tree_sums_sums_add_at_field_block_Block(t10, 0ull, t12);
        t13 = both.other;
        t14 = acc.at;
        t15 = (slice){t14, acc.count};
        tree_sums_sums_add_at_field_block_Block(t13, 1ull, t15);
    } else {
        t17 = prime_prime_Prime_reduce(both.one.low);
        t18 = acc.at;
        t19 = (slice){t18, acc.count};
        tree_sums_sums_add_at_prime_prime_Prime(t17, 0ull, t19);
        t17 = prime_prime_Prime_reduce(both.other.low);
        t20 = acc.at;
        t21 = (slice){t20, acc.count};
        tree_sums_sums_add_at_prime_prime_Prime(t17, 1ull, t21);
    }
}

/* tree_sums, src/sums.rt:72: Adds four children of s from c on, which are leaves, to the elements of acc. */
INLINE void tree_sums_sums_add_four(tree_walk_node_TreeCipher cipher, uint64_t field, uint64_t c, field_block_Block s, slice acc)
{
    slice first, second, t10, t16, t19;
    tuple_slice_uint64_slice_uint64 t8;
    char *t9, *t15, *t18;
    uint64_t t11, t12;
    tree_walk_node_TreeCipher t14, t17;
    t9 = acc.at;
    t10 = (slice){t9, acc.count};
    t11 = acc.count;
    t12 = t11 / 2ull;
    t8 = core_slice_split_at_mut_uint64(t10, t12);
    first = t8.m0;
    second = t8.m1;
    t14 = cipher;
    t15 = first.at;
    t16 = (slice){t15, first.count};
    tree_sums_sums_add_pair(t14, field, c, s, t16);
    t17 = cipher;
    t11 = c + 2ull;
    t18 = second.at;
    t19 = (slice){t18, second.count};
    tree_sums_sums_add_pair(t17, field, t11, s, t19);
}

/* tree_sums, src/sums.rt:82: Adds all two, four or eight children of s, which are leaves, to the elements of acc. */
static void tree_sums_sums_add_bottom(tree_walk_node_TreeCipher cipher, uint64_t field, uint64_t bits, uint64_t c, uint64_t s_low, uint64_t
    s_high, slice acc)
{
    field_block_Block s;
    slice first, second, t12, t16, t19, t25, t28;
    tree_walk_node_TreeCipher t10, t14, t23, t26;
    char *t11, *t15, *t18, *t24, *t27;
    tuple_slice_uint64_slice_uint64 t17;
    uint64_t t20, t21;
    s = (field_block_Block){s_low, s_high};
    switch (bits) {
    case 1:
        t10 = cipher;
        t11 = acc.at;
        t12 = (slice){t11, acc.count};
        tree_sums_sums_add_pair(t10, field, c, s, t12);
        break;
    case 2:
        t14 = cipher;
        t15 = acc.at;
        t16 = (slice){t15, acc.count};
        tree_sums_sums_add_four(t14, field, c, s, t16);
        break;
    default:
        t18 = acc.at;
        t19 = (slice){t18, acc.count};
        t20 = acc.count;
        t21 = t20 / 2ull;
        t17 = core_slice_split_at_mut_uint64(t19, t21);
        first = t17.m0;
        second = t17.m1;
        t23 = cipher;
        t24 = first.at;
        t25 = (slice){t24, first.count};
        tree_sums_sums_add_four(t23, field, c, s, t25);
        t26 = cipher;
        t20 = c + 4ull;
        t27 = second.at;
        t28 = (slice){t27, second.count};
        tree_sums_sums_add_four(t26, field, t20, s, t28);
        break;
    }
}

/* tree_sums, src/sums.rt:108: Adds the two children of each of two nodes, which are leaves, to the elements of acc. Two nodes here, two
 * pairs of one node's in `add_four`: with both as parameters one function has more of them than lines. */
INLINE void tree_sums_sums_add_couple(tree_walk_node_TreeCipher cipher, uint64_t field, aes_blocks_Two_field_block_Block both, slice acc)
{
    slice first, second, t9, t16, t20;
    tuple_slice_uint64_slice_uint64 t7;
    char *t8, *t15, *t19;
    uint64_t t10, t11;
    tree_walk_node_TreeCipher t13, t17;
    field_block_Block t14, t18;
    t8 = acc.at;
    t9 = (slice){t8, acc.count};
    t10 = acc.count;
    t11 = t10 / 2ull;
    t7 = core_slice_split_at_mut_uint64(t9, t11);
    first = t7.m0;
    second = t7.m1;
    t13 = cipher;
    t14 = both.one;
    t15 = first.at;
    t16 = (slice){t15, first.count};
    tree_sums_sums_add_pair(t13, field, 0ull, t14, t16);
    t17 = cipher;
    t18 = both.other;
    t19 = second.at;
    t20 = (slice){t19, second.count};
    tree_sums_sums_add_pair(t17, field, 0ull, t18, t20);
}

/* tree_sums, src/sums.rt:120: Adds the leaves two levels below each of two nodes with two children a node: the children of both nodes
 * are made before any leaf, so that no leaf waits for the cipher right before it. */
INLINE void tree_sums_sums_add_both(tree_walk_node_TreeCipher cipher, uint64_t field, aes_blocks_Two_field_block_Block both, slice acc)
{
    aes_blocks_Two_field_block_Block low, high;
    slice first, second, t15, t21, t24;
    tree_walk_node_TreeCipher t9, t11, t19, t22;
    field_block_Block t10, t12;
    tuple_slice_uint64_slice_uint64 t13;
    char *t14, *t20, *t23;
    uint64_t t16, t17;
    t9 = cipher;
    t10 = both.one;
    low = tree_walk_node_TreeCipher_children(t9, 0ull, t10);
    t11 = cipher;
    t12 = both.other;
    high = tree_walk_node_TreeCipher_children(t11, 0ull, t12);
    t14 = acc.at;
    t15 = (slice){t14, acc.count};
    t16 = acc.count;
    t17 = t16 / 2ull;
    t13 = core_slice_split_at_mut_uint64(t15, t17);
    first = t13.m0;
    second = t13.m1;
    t19 = cipher;
    t20 = first.at;
    t21 = (slice){t20, first.count};
    tree_sums_sums_add_couple(t19, field, low, t21);
    t22 = cipher;
    t23 = second.at;
    t24 = (slice){t23, second.count};
    tree_sums_sums_add_couple(t22, field, high, t24);
}

/* tree_fill, src/range.rt:46: All children of a node with so many levels below it. */
INLINE tree_sums_range_Range tree_fill_range_all_children(uint64_t branch_bits, uint64_t levels)
{
    tree_sums_range_Range result;
    result = (tree_sums_range_Range){branch_bits, levels, branch_bits, 0ull};
    return result;
}

/* tree_fill, src/range.rt:29: How many leaves are below half of a range. */
INLINE uint64_t tree_fill_range_half_size(tree_sums_range_Range range)
{
    uint64_t result, t2, t3, t4, t5;
    t2 = range.levels - 1ull;
    t3 = t2 * range.branch_bits;
    t4 = range.bits - 1ull;
    t5 = t3 + t4;
    result = tree_walk_powers_power(t5);
    return result;
}

/* tree_fill, src/range.rt:37: Where the siblings of the next level begin. */
INLINE uint64_t tree_fill_range_next_level(uint64_t branch_bits, uint64_t at)
{
    uint64_t result, count, t4, t5;
    count = tree_walk_powers_power(branch_bits);
    t4 = count - 1ull;
    t5 = 16ull * t4;
    result = at + t5;
    return result;
}

/* tree_fill, src/range.rt:58: Half as many children, from child c on. */
INLINE tree_sums_range_Range tree_fill_range_half_from(tree_sums_range_Range range, uint64_t c)
{
    tree_sums_range_Range result;
    uint64_t t3, t4, t5;
    t3 = range.bits - 1ull;
    t4 = range.branch_bits;
    t5 = range.levels;
    result = (tree_sums_range_Range){t4, t5, t3, c};
    return result;
}

/* tree_fill, src/range.rt:70: The half from child c on of a range that holds a path, at a position in it: of two children one, as all
 * its own children. */
INLINE tree_fill_range_Path tree_fill_range_path_in(tree_fill_range_Path path, uint64_t c, uint64_t position)
{
    tree_fill_range_Path result, t6;
    tree_sums_range_Range range, t7, t10;
    bool t5;
    uint64_t t8, t9;
    range = path.range;
    t5 = range.bits == 1ull;
    if (t5) {
        t8 = range.levels - 1ull;
        t7 = tree_fill_range_all_children(range.branch_bits, t8);
        t9 = tree_fill_range_next_level(range.branch_bits, path.at);
        t6 = (tree_fill_range_Path){t7, position, t9};
    } else {
        t10 = tree_fill_range_half_from(range, c);
        t6 = (tree_fill_range_Path){t10, position, path.at};
    }
    result = t6;
    return result;
}

/* tree_fill, src/range.rt:91: The halves of a range that holds a path. */
INLINE tree_fill_range_Halves tree_fill_range_parted(tree_fill_range_Path path)
{
    tree_fill_range_Halves result, t13;
    tree_sums_range_Range range, beside, beside_2;
    uint64_t position, from, half, count, t11, t14, t15, t16, t17;
    tree_fill_range_Path below, below_2;
    bool t12;
    range = path.range;
    position = path.position;
    from = range.from;
    half = tree_fill_range_half_size(range);
    t11 = range.bits - 1ull;
    count = tree_walk_powers_power(t11);
    t12 = position < half;
    if (t12) {
        below = tree_fill_range_path_in(path, from, position);
        t14 = count - 1ull;
        t15 = from + t14;
        beside = tree_fill_range_half_from(range, t15);
        t13 = (tree_fill_range_Halves){below, beside, true};
    } else {
        t16 = from + count;
        t17 = position - half;
        below_2 = tree_fill_range_path_in(path, t16, t17);
        beside_2 = tree_fill_range_half_from(range, from);
        t13 = (tree_fill_range_Halves){below_2, beside_2, false};
    }
    result = t13;
    return result;
}

/* tree_fill, src/fill.rt:20: Adds the leaves below a range of the children of s to the elements of acc. */
static void tree_fill_fill_add_range(tree_walk_node_TreeCipher cipher, uint64_t field, tree_sums_range_Range range, field_block_Block s,
    slice acc)
{
    uint64_t branch_bits, levels, bits, from, t35, t39, t49, t50, t51;
    aes_blocks_Two_field_block_Block both;
    tree_sums_range_Range all, low, high;
    slice first, second, first_2, second_2, t21, t26, t34, t38, t44, t48, t54, t58, t61;
    bool t18, t22, t27, t29, t30;
    char *t20, *t25, *t33, *t37, *t43, *t47, *t53, *t57, *t60;
    tree_walk_node_TreeCipher t24, t28, t32, t41, t45, t56, t59;
    tuple_slice_uint64_slice_uint64 t36, t52;
    field_block_Block t42, t46;
    branch_bits = range.branch_bits;
    levels = range.levels;
    bits = range.bits;
    from = range.from;
    t18 = levels == 0ull;
    if (t18) {
        t20 = acc.at;
        t21 = (slice){t20, acc.count};
        tree_sums_sums_add_leaf(field, s, t21);
    } else {
        t22 = levels == 1ull;
        if (t22) {
            t24 = cipher;
            t25 = acc.at;
            t26 = (slice){t25, acc.count};
            tree_sums_sums_add_bottom(t24, field, bits, from, s.low, s.high, t26);
        } else {
            t27 = bits == 1ull;
            if (t27) {
                t28 = cipher;
                both = tree_walk_node_TreeCipher_children(t28, from, s);
                t29 = levels == 3ull;
                if (t29) {
                    t29 = branch_bits == 1ull;
                    t30 = t29;
                    if (t30) {
                        t32 = cipher;
                        t33 = acc.at;
                        t34 = (slice){t33, acc.count};
                        tree_sums_sums_add_both(t32, field, both, t34);
                        return;
                        goto after1;
                    }
                }
            after1:;
                t35 = levels - 1ull;
                all = tree_fill_range_all_children(branch_bits, t35);
                t37 = acc.at;
                t38 = (slice){t37, acc.count};
                t35 = acc.count;
                t39 = t35 / 2ull;
                t36 = core_slice_split_at_mut_uint64(t38, t39);
                first = t36.m0;
                second = t36.m1;
                t41 = cipher;
                t42 = both.one;
                t43 = first.at;
                t44 = (slice){t43, first.count};
                tree_fill_fill_add_range(t41, field, all, t42, t44);
                t45 = cipher;
                t46 = both.other;
                t47 = second.at;
                t48 = (slice){t47, second.count};
                tree_fill_fill_add_range(t45, field, all, t46, t48);
            } else {
                low = tree_fill_range_half_from(range, from);
                t50 = bits - 1ull;
                t49 = tree_walk_powers_power(t50);
                t51 = from + t49;
                high = tree_fill_range_half_from(range, t51);
                t53 = acc.at;
                t54 = (slice){t53, acc.count};
                t49 = acc.count;
                t51 = t49 / 2ull;
                t52 = core_slice_split_at_mut_uint64(t54, t51);
                first_2 = t52.m0;
                second_2 = t52.m1;
                t56 = cipher;
                t57 = first_2.at;
                t58 = (slice){t57, first_2.count};
                tree_fill_fill_add_range(t56, field, low, s, t58);
                t59 = cipher;
                t60 = second_2.at;
                t61 = (slice){t60, second_2.count};
                tree_fill_fill_add_range(t59, field, high, s, t61);
            }
        }
    }
}

/* tree_fill, src/fill.rt:53: Adds the leaves below a run of siblings, of those whose bytes begin at a place, to the elements of acc. The
 * last arm is that of `add_range`: PROMISES.md (13.5, 13.6) names that function's body, and one halving for both would take the
 * recursion as a closure. */
static void tree_fill_fill_add_run(tree_walk_node_TreeCipher cipher, uint64_t field, tree_sums_range_Range run, uint64_t at, slice bytes,
    slice acc)
{
    uint64_t branch_bits, levels, bits, from, t18, t19, t24, t25, t26;
    field_block_Block sibling;
    tree_sums_range_Range all, low, high;
    slice first, second, t23, t29, t33, t36;
    bool t17;
    tree_walk_node_TreeCipher t21, t31, t34;
    char *t22, *t28, *t32, *t35;
    tuple_slice_uint64_slice_uint64 t27;
    branch_bits = run.branch_bits;
    levels = run.levels;
    bits = run.bits;
    from = run.from;
    t17 = bits == 0ull;
    if (t17) {
        t18 = 16ull * from;
        t19 = at + t18;
        sibling = tree_walk_columns_node_at(bytes, t19);
        t18 = levels - 1ull;
        all = tree_fill_range_all_children(branch_bits, t18);
        t21 = cipher;
        t22 = acc.at;
        t23 = (slice){t22, acc.count};
        tree_fill_fill_add_range(t21, field, all, sibling, t23);
    } else {
        low = tree_fill_range_half_from(run, from);
        t25 = bits - 1ull;
        t24 = tree_walk_powers_power(t25);
        t26 = from + t24;
        high = tree_fill_range_half_from(run, t26);
        t28 = acc.at;
        t29 = (slice){t28, acc.count};
        t24 = acc.count;
        t26 = t24 / 2ull;
        t27 = core_slice_split_at_mut_uint64(t29, t26);
        first = t27.m0;
        second = t27.m1;
        t31 = cipher;
        t32 = first.at;
        t33 = (slice){t32, first.count};
        tree_fill_fill_add_run(t31, field, low, at, bytes, t33);
        t34 = cipher;
        t35 = second.at;
        t36 = (slice){t35, second.count};
        tree_fill_fill_add_run(t34, field, high, at, bytes, t36);
    }
}

/* tree_fill, src/fill.rt:76: Adds the leaves below a range that holds the position of a punctured tree to the elements of acc: the
 * correction at the position, the others from the siblings among the bytes. */
static void tree_fill_fill_add_path(tree_walk_node_TreeCipher cipher, uint64_t field, tree_fill_range_Path path, slice bytes,
    field_element_Element correction, slice acc)
{
    tree_fill_range_Halves parts;
    slice first, second, t13, t16, t23, t27, t32, t36;
    bool t10;
    char *t12, *t15, *t22, *t26, *t31, *t35;
    tuple_slice_uint64_slice_uint64 t14;
    uint64_t t17, t18;
    tree_walk_node_TreeCipher t20, t24, t29, t33;
    tree_fill_range_Path t21, t34;
    tree_sums_range_Range t25, t30;
    t10 = path.range.levels == 0ull;
    if (t10) {
        t12 = acc.at;
        t13 = (slice){t12, acc.count};
        tree_sums_sums_add_element(field, correction, t13);
        return;
    }
    parts = tree_fill_range_parted(path);
    t15 = acc.at;
    t16 = (slice){t15, acc.count};
    t17 = acc.count;
    t18 = t17 / 2ull;
    t14 = core_slice_split_at_mut_uint64(t16, t18);
    first = t14.m0;
    second = t14.m1;
    t10 = parts.lower;
    if (t10) {
        t20 = cipher;
        t21 = parts.below;
        t22 = first.at;
        t23 = (slice){t22, first.count};
        tree_fill_fill_add_path(t20, field, t21, bytes, correction, t23);
        t24 = cipher;
        t25 = parts.beside;
        t26 = second.at;
        t27 = (slice){t26, second.count};
        tree_fill_fill_add_run(t24, field, t25, path.at, bytes, t27);
    } else {
        t29 = cipher;
        t30 = parts.beside;
        t31 = first.at;
        t32 = (slice){t31, first.count};
        tree_fill_fill_add_run(t29, field, t30, path.at, bytes, t32);
        t33 = cipher;
        t34 = parts.below;
        t35 = second.at;
        t36 = (slice){t35, second.count};
        tree_fill_fill_add_path(t33, field, t34, bytes, correction, t36);
    }
}

/* tree_fill, src/fill.rt:120: Adds the leaves of a punctured tree to the elements of acc: at its position the correction, the others
 * from the siblings among the bytes. */
INLINE void tree_fill_fill_add_punctured(tree_walk_node_TreeCipher cipher, uint64_t field, tree_punctured_Punctured tree, slice bytes,
    field_element_Element correction, slice acc)
{
    tree_fill_range_Path path;
    tree_sums_range_Range t8;
    tree_walk_node_TreeCipher t10;
    char *t11;
    slice t12;
    t8 = tree_fill_range_all_children(tree.branch_bits, tree.levels);
    path = (tree_fill_range_Path){t8, tree.position, tree.at};
    t10 = cipher;
    t11 = acc.at;
    t12 = (slice){t11, acc.count};
    tree_fill_fill_add_path(t10, field, path, bytes, correction, t12);
}

/* tree_fill, src/fill.rt:103: Adds the leaves of the tree below s to the elements of acc. */
INLINE void tree_fill_fill_add_leaves(tree_walk_node_TreeCipher cipher, uint64_t field, uint64_t branch_bits, uint64_t levels, uint8_4_4 s,
    slice acc)
{
    tree_sums_range_Range all;
    tree_walk_node_TreeCipher t9;
    field_block_Block t10;
    char *t11;
    slice t12;
    all = tree_fill_range_all_children(branch_bits, levels);
    t9 = cipher;
    t10 = field_block_Block_of_columns(s);
    t11 = acc.at;
    t12 = (slice){t11, acc.count};
    tree_fill_fill_add_range(t9, field, all, t10, t12);
}

/* window_tests, src/head.rt:30: How many words N elements take. */
INLINE uint64_t window_tests_head_vector_words(record_Layout layout)
{
    uint64_t result, t2, t3;
    t2 = record_sizes_leaves(layout.depth);
    t3 = field_width_element_width(layout.field);
    result = t2 * t3;
    return result;
}

/* window_tests, src/lengths.rt:17: The tests 3, 7 and 13, from the lengths of the noise and of a vector of elements, and of the buffers
 * for a window of them. The scalar end, which has neither noise nor u, gives N and the window's count, which meet both tests (`elements-
 * alone`): with an `Option` of both lengths the tests would no longer be one list, a line a test. */
INLINE Result_unit_answer_Refusal window_tests_lengths_check_window(record_Layout layout, uint64_t noise, uint64_t vector, code_Window
    window, uint64_t u_room, uint64_t room)
{
    Result_unit_answer_Refusal result;
    uint64_t t7;
    bool t8, t11, t14;
    answer_Refusal t9, t10, t12, t13, t15;
    t7 = record_sizes_leaves(layout.depth);
    t8 = noise != t7;
    if (t8) {
        t9 = (answer_Refusal){answer_Refusal_bad_length};
        result = (Result_unit_answer_Refusal){.err = {1u, t9}};
        return result;
    }
    t7 = window_tests_head_vector_words(layout);
    t8 = vector != t7;
    if (t8) {
        t10 = (answer_Refusal){answer_Refusal_bad_length};
        result = (Result_unit_answer_Refusal){.err = {1u, t10}};
        return result;
    }
    t11 = answer_lengths_is_past(window.first, window.count, layout.outputs);
    if (t11) {
        t12 = (answer_Refusal){answer_Refusal_window_past_end};
        result = (Result_unit_answer_Refusal){.err = {1u, t12}};
        return result;
    }
    t8 = u_room < window.count;
    if (t8) {
        t13 = (answer_Refusal){answer_Refusal_buffer_short};
        result = (Result_unit_answer_Refusal){.err = {1u, t13}};
        return result;
    }
    t7 = field_width_element_width(layout.field);
    t14 = answer_lengths_is_short(room, t7, window.count);
    if (t14) {
        t15 = (answer_Refusal){answer_Refusal_buffer_short};
        result = (Result_unit_answer_Refusal){.err = {1u, t15}};
        return result;
    }
    result = (Result_unit_answer_Refusal){.ok = {0u}};
    return result;
}

/* window_tests, src/head.rt:38: The place of the code key's 16 bytes, which the label's 16 follow (document 02, 8). */
INLINE uint64_t window_tests_head_code_key_at(record_Layout layout)
{
    uint64_t result;
    result = layout.body - 32ull;
    return result;
}

/* window_tests, src/head.rt:46: The round keys of the code key. */
INLINE uint64_40 window_tests_head_code_keys(slice source, record_Layout layout)
{
    uint64_40 result;
    uint8_4_4 t3;
    uint64_t t4;
    t4 = window_tests_head_code_key_at(layout);
    t3 = tree_walk_columns_columns_at(source, t4);
    result = aes128_key_schedule(t3);
    return result;
}

/* window_tests, src/head.rt:17: The code's shape. */
INLINE code_Shape window_tests_head_shape_of(record_Layout layout)
{
    code_Shape result;
    uint64_t places, t3;
    places = record_sizes_leaves(layout.depth);
    t3 = places / layout.terms;
    result = (code_Shape){places, layout.terms, t3};
    return result;
}

/* aes_rows, src/lib.rt:17: A column of a round of s, with its round key's column, without what the byte in row r adds, which comes of
 * column 2 of s. */
INLINE uint8_4 aes_rows_without_row(aes_sbox_Tables tables, char *s, uint64_t r, uint64_t k)
{
    uint8_4 result;
    uint64_t a, b, c, t8, t9, t10, t11, t12, t19, t20, t27, t28, t35;
    aes_sbox_Tables t13, t21, t29;
    char *t14, *t15, *t16, *t17, *t22, *t23, *t24, *t25, *t30, *t31, *t32, *t33;
    uint8_t t18, t26, t34;
    t9 = r + 1ull;
    t8 = t9 % 4ull;
    t9 = r + 2ull;
    t10 = t9 % 4ull;
    t9 = r + 3ull;
    t11 = t9 % 4ull;
    a = t8;
    b = t10;
    c = t11;
    t13 = tables;
    t14 = s;
    t15 = t14 + 12ull;
    t16 = t15;
    t17 = t16 + a;
    t18 = *(uint8_t *)t17;
    t12 = aes_sbox_Tables_mixed(t13, a, t18);
    t19 = k ^ t12;
    t21 = tables;
    t22 = s;
    t23 = t22 + 0ull;
    t24 = t23;
    t25 = t24 + b;
    t26 = *(uint8_t *)t25;
    t20 = aes_sbox_Tables_mixed(t21, b, t26);
    t27 = t19 ^ t20;
    t29 = tables;
    t30 = s;
    t31 = t30 + 4ull;
    t32 = t31;
    t33 = t32 + c;
    t34 = *(uint8_t *)t33;
    t28 = aes_sbox_Tables_mixed(t29, c, t34);
    t35 = t27 ^ t28;
    result = aes_blocks_round_rows(t35);
    return result;
}

/* aes_rows, src/lib.rt:27: The states after rounds 1 and 2 that the blocks of x and i share, for one x: each without what the bytes that
 * differ add. Two states in an array beside x, and no struct of all three: docs/PROMISES.md has this form (13.3). */
INLINE uint8_4_4_2 aes_rows_share(aes_sbox_Tables tables, char *keys, uint64_t x)
{
    uint8_4_4_2 result;
    uint8_4_4 s, t, t11, t14;
    uint8_4 column2, c0, c1, c2, c3, t38, t41, t44;
    field_block_Block t12;
    aes_sbox_Tables t13, t15, t20, t24, t28, t32;
    char *t16, *t17, *t18, *t21, *t22, *t23, *t25, *t26, *t27, *t29, *t30, *t31, *t33, *t34, *t35, *t36, *t37, *t39, *t40, *t42, *t43;
    uint64_t t19;
    t12 = (field_block_Block){x, 0ull};
    t11 = aes_blocks_round_first_key(t12, keys);
    s = t11;
    t13 = tables;
    t14 = s;
    t11 = aes_blocks_round_full_round(t13, t14, keys, 2ull);
    t = t11;
    t15 = tables;
    t16 = (char *)&s;
    t17 = keys;
    t18 = t17 + 32ull;
    t19 = *(uint64_t *)t18;
    column2 = aes_rows_without_row(t15, t16, 0ull, t19);
    t20 = tables;
    t21 = (char *)&t;
    t22 = keys;
    t23 = t22 + 48ull;
    t19 = *(uint64_t *)t23;
    c0 = aes_rows_without_row(t20, t21, 2ull, t19);
    t24 = tables;
    t25 = (char *)&t;
    t26 = keys;
    t27 = t26 + 56ull;
    t19 = *(uint64_t *)t27;
    c1 = aes_rows_without_row(t24, t25, 1ull, t19);
    t28 = tables;
    t29 = (char *)&t;
    t30 = keys;
    t31 = t30 + 64ull;
    t19 = *(uint64_t *)t31;
    c2 = aes_rows_without_row(t28, t29, 0ull, t19);
    t32 = tables;
    t33 = (char *)&t;
    t34 = keys;
    t35 = t34 + 72ull;
    t19 = *(uint64_t *)t35;
    c3 = aes_rows_without_row(t32, t33, 3ull, t19);
    t36 = (char *)&t;
    t37 = t36 + 0ull;
    t38 = *(uint8_4 *)t37;
    t39 = (char *)&t;
    t40 = t39 + 4ull;
    t41 = *(uint8_4 *)t40;
    t42 = (char *)&t;
    t43 = t42 + 12ull;
    t44 = *(uint8_4 *)t43;
    t11 = (uint8_4_4){{t38, t41, column2, t44}};
    t14 = (uint8_4_4){{c0, c1, c2, c3}};
    result = (uint8_4_4_2){{t11, t14}};
    return result;
}

/* aes_rows, src/lib.rt:41: Column c of a state with what a byte in a row adds. */
INLINE uint8_4 aes_rows_with_byte(aes_sbox_Tables tables, char *s, uint64_t c, uint64_t row, uint8_t x)
{
    uint8_4 result, t10;
    uint64_t t6, t7, t11, t13;
    char *t8, *t9;
    aes_sbox_Tables t12;
    t7 = c * 4ull;
    t8 = s;
    t9 = t8 + t7;
    t10 = *(uint8_4 *)t9;
    t6 = aes_sbox_wide_column(t10);
    t12 = tables;
    t11 = aes_sbox_Tables_mixed(t12, row, x);
    t13 = t6 ^ t11;
    result = aes_blocks_round_rows(t13);
    return result;
}

/* aes_rows, src/lib.rt:49: The state of the block of x and i after round 1, from the state that the blocks share: one lookup, for column
 * 2. */
INLINE uint8_4_4 aes_rows_first_round(aes_sbox_Tables tables, char *keys, uint8_4_4 s, uint64_t i)
{
    uint8_4_4 result, s_slot;
    uint8_t x;
    uint8_4 c, t17, t20, t23;
    char *t8, *t9, *t14, *t15, *t16, *t18, *t19, *t21, *t22;
    uint64_t t10, t11, t12;
    aes_sbox_Tables t13;
    s_slot = s;
    t8 = keys;
    t9 = t8 + 8ull;
    t10 = *(uint64_t *)t9;
    t11 = i ^ t10;
    t12 = t11 % 256ull;
    x = (uint8_t)t12;
    t13 = tables;
    t14 = (char *)&s_slot;
    c = aes_rows_with_byte(t13, t14, 2ull, 0ull, x);
    t15 = (char *)&s_slot;
    t16 = t15 + 0ull;
    t17 = *(uint8_4 *)t16;
    t18 = (char *)&s_slot;
    t19 = t18 + 4ull;
    t20 = *(uint8_4 *)t19;
    t21 = (char *)&s_slot;
    t22 = t21 + 12ull;
    t23 = *(uint8_4 *)t22;
    result = (uint8_4_4){{t17, t20, c, t23}};
    return result;
}

/* aes_rows, src/lib.rt:58: Its state after round 2, from the state that they share and from its state t after round 1: one lookup for
 * each column. */
INLINE uint8_4_4 aes_rows_second_round(aes_sbox_Tables tables, uint8_4_4 s, uint8_4_4 t)
{
    uint8_4_4 result, s_slot, t_slot;
    uint8_4 c0, c1, c2, c3;
    aes_sbox_Tables t10, t17, t23, t29;
    char *t11, *t12, *t13, *t14, *t15, *t18, *t19, *t20, *t21, *t22, *t24, *t25, *t26, *t27, *t28, *t30, *t31, *t32, *t33, *t34;
    uint8_t t16;
    s_slot = s;
    t_slot = t;
    t10 = tables;
    t11 = (char *)&s_slot;
    t12 = (char *)&t_slot;
    t13 = t12 + 8ull;
    t14 = t13;
    t15 = t14 + 2ull;
    t16 = *(uint8_t *)t15;
    c0 = aes_rows_with_byte(t10, t11, 0ull, 2ull, t16);
    t17 = tables;
    t18 = (char *)&s_slot;
    t19 = (char *)&t_slot;
    t20 = t19 + 8ull;
    t21 = t20;
    t22 = t21 + 1ull;
    t16 = *(uint8_t *)t22;
    c1 = aes_rows_with_byte(t17, t18, 1ull, 1ull, t16);
    t23 = tables;
    t24 = (char *)&s_slot;
    t25 = (char *)&t_slot;
    t26 = t25 + 8ull;
    t27 = t26;
    t28 = t27 + 0ull;
    t16 = *(uint8_t *)t28;
    c2 = aes_rows_with_byte(t23, t24, 2ull, 0ull, t16);
    t29 = tables;
    t30 = (char *)&s_slot;
    t31 = (char *)&t_slot;
    t32 = t31 + 8ull;
    t33 = t32;
    t34 = t33 + 3ull;
    t16 = *(uint8_t *)t34;
    c3 = aes_rows_with_byte(t29, t30, 3ull, 3ull, t16);
    result = (uint8_4_4){{c0, c1, c2, c3}};
    return result;
}

/* aes_rows, src/lib.rt:71: The ciphers of the blocks of x and i, and of x and i + 1, in alternation. Inlined, so that a caller that
 * reads the first words alone makes no others; the rounds are written out as in `encrypt_two`. */
static aes_blocks_Two_field_block_Block aes_rows_two_blocks(aes_sbox_Tables tables, char *keys, uint64_t x, uint8_4_4_2 shared, uint64_t i)
{
    aes_blocks_Two_field_block_Block result;
    uint8_4_4_2 shared_slot;
    uint8_4_4 a1, a2, b1, b2, a3, b3, a4, b4, a5, b5, a6, b6, a7, b7, a8, b8, a9, b9, a10, b10, t30;
    aes_sbox_Tables t27, t31, t34, t38, t41, t42, t43, t44, t45, t46, t47, t48, t49, t50, t51, t52, t53, t54, t55, t56;
    char *t28, *t29, *t32, *t33, *t35, *t36, *t39, *t40;
    uint64_t t37;
    field_block_Block t57, t58;
    (void)x;
    shared_slot = shared;
    t27 = tables;
    t28 = (char *)&shared_slot;
    t29 = t28 + 0ull;
    t30 = *(uint8_4_4 *)t29;
    a1 = aes_rows_first_round(t27, keys, t30, i);
    t31 = tables;
    t32 = (char *)&shared_slot;
    t33 = t32 + 16ull;
    t30 = *(uint8_4_4 *)t33;
    a2 = aes_rows_second_round(t31, t30, a1);
    t34 = tables;
    t35 = (char *)&shared_slot;
    t36 = t35 + 0ull;
    t30 = *(uint8_4_4 *)t36;
    t37 = i + 1ull;
    b1 = aes_rows_first_round(t34, keys, t30, t37);
    t38 = tables;
    t39 = (char *)&shared_slot;
    t40 = t39 + 16ull;
    t30 = *(uint8_4_4 *)t40;
    b2 = aes_rows_second_round(t38, t30, b1);
    t41 = tables;
    a3 = aes_blocks_round_full_round(t41, a2, keys, 10ull);
    t42 = tables;
    b3 = aes_blocks_round_full_round(t42, b2, keys, 10ull);
    t43 = tables;
    a4 = aes_blocks_round_full_round(t43, a3, keys, 14ull);
    t44 = tables;
    b4 = aes_blocks_round_full_round(t44, b3, keys, 14ull);
    t45 = tables;
    a5 = aes_blocks_round_full_round(t45, a4, keys, 18ull);
    t46 = tables;
    b5 = aes_blocks_round_full_round(t46, b4, keys, 18ull);
    t47 = tables;
    a6 = aes_blocks_round_full_round(t47, a5, keys, 22ull);
    t48 = tables;
    b6 = aes_blocks_round_full_round(t48, b5, keys, 22ull);
    t49 = tables;
    a7 = aes_blocks_round_full_round(t49, a6, keys, 26ull);
    t50 = tables;
    b7 = aes_blocks_round_full_round(t50, b6, keys, 26ull);
    t51 = tables;
    a8 = aes_blocks_round_full_round(t51, a7, keys, 30ull);
    t52 = tables;
    b8 = aes_blocks_round_full_round(t52, b7, keys, 30ull);
    t53 = tables;
    a9 = aes_blocks_round_full_round(t53, a8, keys, 34ull);
    t54 = tables;
    b9 = aes_blocks_round_full_round(t54, b8, keys, 34ull);
    t55 = tables;
    a10 = aes_blocks_round_last_round(t55, a9, keys);
    t56 = tables;
    b10 = aes_blocks_round_last_round(t56, b9, keys);
    t57 = field_block_Block_of_columns(a10);
    t58 = field_block_Block_of_columns(b10);
    result = (aes_blocks_Two_field_block_Block){t57, t58};
    return result;
}

/* rows_noise::noise_binary::NoiseVectorsVectorsPairU64Block::with_term */
INLINE rows_row_Pair_uint64_field_block_Block rows_noise_noise_binary_NoiseVectorsVectorsPairU64Block(rows_noise_vectors_NoiseVectors self,
    code_places_row_Code code, uint64_t i, field_block_Block block, rows_row_Pair_uint64_field_block_Block sums)
{
    rows_row_Pair_uint64_field_block_Block result;
    uint64_t j, bit, t11;
    code_places_row_Code t8;
    char *t10;
    field_block_Block t12, t13, t14;
    slice t15;
    bool t16;
    t8 = code;
    j = code_places_row_Code_place_of(t8, i, block.low);
    t10 = (char *)((uint64_t *)self.noise.at + j);
    t11 = *(uint64_t *)t10;
    bit = t11;
    t11 = field_block_add_bits(sums.u, bit);
    t13 = sums.v;
    t15 = self.v;
    t14 = field_parts_BlockFieldElement_at(t15, j);
    t12 = field_block_Block_add(t13, t14);
    t16 = code_places_used_still_below(sums.admitted, bit, 2ull);
    result = (rows_row_Pair_uint64_field_block_Block){t11, t12, t16};
    return result;
}

/* rows, src/walked.rt:26, at Pair<u64, Block> and NoiseVectors: The sums of row x, from `start` on. Two terms' blocks are made at a
 * time. */
static rows_row_Pair_uint64_field_block_Block rows_walked_walk_rows_row_Pair_uint64_field_block_Block(code_places_row_Code code, uint64_t x,
    rows_noise_vectors_NoiseVectors vectors, rows_row_Pair_uint64_field_block_Block start)
{
    rows_row_Pair_uint64_field_block_Block result, sums, next, t23;
    uint8_4_4_2 shared;
    uint64_t i, t12, i_end, t17, t18, t21, t22, t25, t27;
    aes_blocks_Two_field_block_Block pair;
    aes_sbox_Tables t10, t15;
    char *t11, *t16;
    bool t14, t28;
    code_places_row_Code t19, t24;
    field_block_Block t20, t26;
    t10 = code.tables;
    t11 = code.keys;
    t12 = x;
    shared = aes_rows_share(t10, t11, t12);
    sums = start;
    i = 0ull;
    i_end = code.shape.terms;
    for (;;) {
        t14 = i < i_end;
        if (!t14) {
            break;
        }
        t15 = code.tables;
        t16 = code.keys;
        t17 = x;
        t18 = i;
        pair = aes_rows_two_blocks(t15, t16, t17, shared, t18);
        t19 = code;
        t20 = pair.one;
        next = rows_noise_noise_binary_NoiseVectorsVectorsPairU64Block(vectors, t19, i, t20, sums);
        t21 = i + 1ull;
        t22 = code.shape.terms;
        t14 = t21 < t22;
        if (t14) {
            t24 = code;
            t25 = i + 1ull;
            t26 = pair.other;
            t23 = rows_noise_noise_binary_NoiseVectorsVectorsPairU64Block(vectors, t24, t25, t26, next);
        } else {
            t23 = next;
        }
        sums = t23;
        t27 = i_end - i;
        t28 = 2ull < t27;
        if (!t28) {
            break;
        }
        i = i + 2ull;
    }
    result = sums;
    return result;
}

/* rows_noise, src/noise_binary.rt:40: Row x of u and v in field 1. */
INLINE rows_row_Pair_uint64_field_block_Block rows_noise_noise_binary_noise_row_binary(code_places_row_Code code, uint64_t x, slice noise,
    slice v)
{
    rows_row_Pair_uint64_field_block_Block result, none;
    field_block_Block t6;
    code_places_row_Code t7;
    rows_noise_vectors_NoiseVectors t8;
    t6 = field_block_Block_zero();
    none = (rows_row_Pair_uint64_field_block_Block){0ull, t6, true};
    t7 = code;
    t8 = (rows_noise_vectors_NoiseVectors){noise, v};
    result = rows_walked_walk_rows_row_Pair_uint64_field_block_Block(t7, x, t8, none);
    return result;
}

/* rows_noise::noise_prime::NoiseVectorsVectorsPairU64U64::with_term */
INLINE rows_row_Pair_uint64_uint64 rows_noise_noise_prime_NoiseVectorsVectorsPairU64U64_with(rows_noise_vectors_NoiseVectors self,
    code_places_row_Code code, uint64_t i, field_block_Block block, rows_row_Pair_uint64_uint64 sums)
{
    rows_row_Pair_uint64_uint64 result;
    uint64_t j, a, b, t13, t15, t17;
    bool below, t16;
    code_places_row_Code t10;
    char *t12, *t14;
    t10 = code;
    j = code_places_row_Code_place_of(t10, i, block.low);
    t12 = (char *)((uint64_t *)self.noise.at + j);
    t13 = *(uint64_t *)t12;
    a = t13;
    t14 = (char *)((uint64_t *)self.v.at + j);
    t13 = *(uint64_t *)t14;
    b = t13;
    t13 = prime_prime_Prime_modulus();
    below = code_places_used_still_below(sums.admitted, a, t13);
    t13 = prime_prime_Prime_add_product(sums.u, block.high, a);
    t15 = prime_prime_Prime_add_product(sums.v, block.high, b);
    t17 = prime_prime_Prime_modulus();
    t16 = code_places_used_still_below(below, b, t17);
    result = (rows_row_Pair_uint64_uint64){t13, t15, t16};
    return result;
}

/* rows, src/walked.rt:26, at Pair<u64, u64> and NoiseVectors: The sums of row x, from `start` on. Two terms' blocks are made at a time. */
static rows_row_Pair_uint64_uint64 rows_walked_walk_rows_row_Pair_uint64_uint64_rows_noise(code_places_row_Code code, uint64_t x,
    rows_noise_vectors_NoiseVectors vectors, rows_row_Pair_uint64_uint64 start)
{
    rows_row_Pair_uint64_uint64 result, sums, next, t23;
    uint8_4_4_2 shared;
    uint64_t i, t12, i_end, t17, t18, t21, t22, t25, t27;
    aes_blocks_Two_field_block_Block pair;
    aes_sbox_Tables t10, t15;
    char *t11, *t16;
    bool t14, t28;
    code_places_row_Code t19, t24;
    field_block_Block t20, t26;
    t10 = code.tables;
    t11 = code.keys;
    t12 = x;
    shared = aes_rows_share(t10, t11, t12);
    sums = start;
    i = 0ull;
    i_end = code.shape.terms;
    for (;;) {
        t14 = i < i_end;
        if (!t14) {
            break;
        }
        t15 = code.tables;
        t16 = code.keys;
        t17 = x;
        t18 = i;
        pair = aes_rows_two_blocks(t15, t16, t17, shared, t18);
        t19 = code;
        t20 = pair.one;
        next = rows_noise_noise_prime_NoiseVectorsVectorsPairU64U64_with(vectors, t19, i, t20, sums);
        t21 = i + 1ull;
        t22 = code.shape.terms;
        t14 = t21 < t22;
        if (t14) {
            t24 = code;
            t25 = i + 1ull;
            t26 = pair.other;
            t23 = rows_noise_noise_prime_NoiseVectorsVectorsPairU64U64_with(vectors, t24, t25, t26, next);
        } else {
            t23 = next;
        }
        sums = t23;
        t27 = i_end - i;
        t28 = 2ull < t27;
        if (!t28) {
            break;
        }
        i = i + 2ull;
    }
    result = sums;
    return result;
}

/* rows_noise, src/noise_prime.rt:37: Row x of u and v in field 2. */
INLINE rows_row_Pair_prime_prime_Prime_prime_prime_Prime rows_noise_noise_prime_noise_row_prime(code_places_row_Code code, uint64_t x, slice
    noise, slice v)
{
    rows_row_Pair_prime_prime_Prime_prime_prime_Prime result;
    rows_row_Pair_uint64_uint64 none, sums;
    code_places_row_Code t7;
    rows_noise_vectors_NoiseVectors t8;
    prime_prime_Prime t9, t10;
    none = (rows_row_Pair_uint64_uint64){0ull, 0ull, true};
    t7 = code;
    t8 = (rows_noise_vectors_NoiseVectors){noise, v};
    sums = rows_walked_walk_rows_row_Pair_uint64_uint64_rows_noise(t7, x, t8, none);
    t9 = prime_prime_Prime_reduce(sums.u);
    t10 = prime_prime_Prime_reduce(sums.v);
    result = (rows_row_Pair_prime_prime_Prime_prime_prime_Prime){t9, t10, sums.admitted};
    return result;
}

/* rows_scalar, src/scalar_binary.rt:20 */
INLINE field_block_Block rows_scalar_scalar_binary_ScalarVectorVectorsBlock_with_term(rows_scalar_vector_ScalarVector self,
    code_places_row_Code code, uint64_t i, field_block_Block block, field_block_Block sums)
{
    field_block_Block result, t6;
    slice t7;
    uint64_t t8;
    code_places_row_Code t9;
    t7 = self.w;
    t9 = code;
    t8 = code_places_row_Code_place_of(t9, i, block.low);
    t6 = field_parts_BlockFieldElement_at(t7, t8);
    result = field_block_Block_add(sums, t6);
    return result;
}

/* rows, src/walked.rt:26, at Block and ScalarVector: The sums of row x, from `start` on. Two terms' blocks are made at a time. */
static field_block_Block rows_walked_walk_field_block_Block_rows_scalar_vector(code_places_row_Code code, uint64_t x,
    rows_scalar_vector_ScalarVector vectors, field_block_Block start)
{
    field_block_Block result, sums, next, t20, t23, t26;
    uint8_4_4_2 shared;
    uint64_t i, t12, i_end, t17, t18, t21, t22, t25, t27;
    aes_blocks_Two_field_block_Block pair;
    aes_sbox_Tables t10, t15;
    char *t11, *t16;
    bool t14, t28;
    code_places_row_Code t19, t24;
    t10 = code.tables;
    t11 = code.keys;
    t12 = x;
    shared = aes_rows_share(t10, t11, t12);
    sums = start;
    i = 0ull;
    i_end = code.shape.terms;
    for (;;) {
        t14 = i < i_end;
        if (!t14) {
            break;
        }
        t15 = code.tables;
        t16 = code.keys;
        t17 = x;
        t18 = i;
        pair = aes_rows_two_blocks(t15, t16, t17, shared, t18);
        t19 = code;
        t20 = pair.one;
        next = rows_scalar_scalar_binary_ScalarVectorVectorsBlock_with_term(vectors, t19, i, t20, sums);
        t21 = i + 1ull;
        t22 = code.shape.terms;
        t14 = t21 < t22;
        if (t14) {
            t24 = code;
            t25 = i + 1ull;
            t26 = pair.other;
            t23 = rows_scalar_scalar_binary_ScalarVectorVectorsBlock_with_term(vectors, t24, t25, t26, next);
        } else {
            t23 = next;
        }
        sums = t23;
        t27 = i_end - i;
        t28 = 2ull < t27;
        if (!t28) {
            break;
        }
        i = i + 2ull;
    }
    result = sums;
    return result;
}

/* rows_scalar, src/scalar_binary.rt:26: Row x of w in field 1. */
INLINE field_block_Block rows_scalar_scalar_binary_scalar_row_binary(code_places_row_Code code, uint64_t x, slice w)
{
    field_block_Block result, t6;
    code_places_row_Code t4;
    rows_scalar_vector_ScalarVector t5;
    t4 = code;
    t5 = (rows_scalar_vector_ScalarVector){w};
    t6 = field_block_Block_zero();
    result = rows_walked_walk_field_block_Block_rows_scalar_vector(t4, x, t5, t6);
    return result;
}

/* rows_scalar::scalar_prime::ScalarVectorVectorsSingleU64::with_term */
INLINE rows_row_Single_uint64 rows_scalar_scalar_prime_ScalarVectorVectorsSingleU64_with(rows_scalar_vector_ScalarVector self,
    code_places_row_Code code, uint64_t i, field_block_Block block, rows_row_Single_uint64 sums)
{
    rows_row_Single_uint64 result;
    uint64_t word, t7, t11, t13;
    code_places_row_Code t8;
    char *t10;
    bool t12;
    t8 = code;
    t7 = code_places_row_Code_place_of(t8, i, block.low);
    t10 = (char *)((uint64_t *)self.w.at + t7);
    t11 = *(uint64_t *)t10;
    word = t11;
    t11 = prime_prime_Prime_add_product(sums.w, block.high, word);
    t13 = prime_prime_Prime_modulus();
    t12 = code_places_used_still_below(sums.admitted, word, t13);
    result = (rows_row_Single_uint64){t11, t12};
    return result;
}

/* rows, src/walked.rt:26, at Single<u64> and ScalarVector: The sums of row x, from `start` on. Two terms' blocks are made at a time. */
static rows_row_Single_uint64 rows_walked_walk_rows_row_Single_uint64_rows_scalar_vector(code_places_row_Code code, uint64_t x,
    rows_scalar_vector_ScalarVector vectors, rows_row_Single_uint64 start)
{
    rows_row_Single_uint64 result, sums, next, t23;
    uint8_4_4_2 shared;
    uint64_t i, t12, i_end, t17, t18, t21, t22, t25, t27;
    aes_blocks_Two_field_block_Block pair;
    aes_sbox_Tables t10, t15;
    char *t11, *t16;
    bool t14, t28;
    code_places_row_Code t19, t24;
    field_block_Block t20, t26;
    t10 = code.tables;
    t11 = code.keys;
    t12 = x;
    shared = aes_rows_share(t10, t11, t12);
    sums = start;
    i = 0ull;
    i_end = code.shape.terms;
    for (;;) {
        t14 = i < i_end;
        if (!t14) {
            break;
        }
        t15 = code.tables;
        t16 = code.keys;
        t17 = x;
        t18 = i;
        pair = aes_rows_two_blocks(t15, t16, t17, shared, t18);
        t19 = code;
        t20 = pair.one;
        next = rows_scalar_scalar_prime_ScalarVectorVectorsSingleU64_with(vectors, t19, i, t20, sums);
        t21 = i + 1ull;
        t22 = code.shape.terms;
        t14 = t21 < t22;
        if (t14) {
            t24 = code;
            t25 = i + 1ull;
            t26 = pair.other;
            t23 = rows_scalar_scalar_prime_ScalarVectorVectorsSingleU64_with(vectors, t24, t25, t26, next);
        } else {
            t23 = next;
        }
        sums = t23;
        t27 = i_end - i;
        t28 = 2ull < t27;
        if (!t28) {
            break;
        }
        i = i + 2ull;
    }
    result = sums;
    return result;
}

/* rows_scalar, src/scalar_prime.rt:33: Row x of w in field 2. */
INLINE rows_row_Single_prime_prime_Prime rows_scalar_scalar_prime_scalar_row_prime(code_places_row_Code code, uint64_t x, slice w)
{
    rows_row_Single_prime_prime_Prime result;
    rows_row_Single_uint64 none, sum;
    code_places_row_Code t6;
    rows_scalar_vector_ScalarVector t7;
    prime_prime_Prime t8;
    none = (rows_row_Single_uint64){0ull, true};
    t6 = code;
    t7 = (rows_scalar_vector_ScalarVector){w};
    sum = rows_walked_walk_rows_row_Single_uint64_rows_scalar_vector(t6, x, t7, none);
    t8 = prime_prime_Prime_reduce(sum.w);
    result = (rows_row_Single_prime_prime_Prime){t8, sum.admitted};
    return result;
}

/* window_rows, src/walk.rt:24: Writes output k of the window in field 1, at the noise end with its word of u; whether every word of the
 * noise that the row uses is a bit. Field 2 has its own below: a trait over both fields' rows would be longer than the two. */
INLINE bool window_rows_walk_write_binary(code_places_row_Code code, window_WindowRows rows, uint64_t k, window_Accumulated vectors, slice
    u_out, slice out)
{
    bool result, t13;
    uint64_t x, t15;
    slice noise, v, w, t21, t25;
    rows_row_Pair_uint64_field_block_Block pair;
    field_block_Block element, t19;
    code_places_row_Code t14, t22;
    char *t17, *t20, *t24;
    x = rows.window.first + k;
    switch (vectors.noise.tag) {
    case 0:
        noise = vectors.noise.m1;
        v = vectors.noise.m2;
        t14 = code;
        pair = rows_noise_noise_binary_noise_row_binary(t14, x, noise, v);
        t15 = pair.u;
        t17 = (char *)((uint64_t *)u_out.at + k);
        *(uint64_t *)t17 = t15;
        t19 = pair.v;
        t20 = out.at;
        t21 = (slice){t20, out.count};
        field_parts_BlockFieldElement_put(t19, t21, k);
        t13 = pair.admitted;
        break;
    default:
        w = vectors.scalar.m1;
        t22 = code;
        element = rows_scalar_scalar_binary_scalar_row_binary(t22, x, w);
        t24 = out.at;
        t25 = (slice){t24, out.count};
        field_parts_BlockFieldElement_put(element, t25, k);
        t13 = true;
        break;
    }
    result = t13;
    return result;
}

/* window_rows, src/walk.rt:53: The same in field 2; whether every word that the row uses is an element. */
INLINE bool window_rows_walk_write_prime(code_places_row_Code code, window_WindowRows rows, uint64_t k, window_Accumulated vectors, slice
    u_out, slice out)
{
    bool result, t13;
    uint64_t x, t15, t18, t21;
    slice noise, v, w;
    rows_row_Pair_prime_prime_Prime_prime_prime_Prime pair;
    rows_row_Single_prime_prime_Prime row;
    code_places_row_Code t14, t20;
    char *t17, *t19, *t23;
    x = rows.window.first + k;
    switch (vectors.noise.tag) {
    case 0:
        noise = vectors.noise.m1;
        v = vectors.noise.m2;
        t14 = code;
        pair = rows_noise_noise_prime_noise_row_prime(t14, x, noise, v);
        t15 = pair.u.word;
        t17 = (char *)((uint64_t *)u_out.at + k);
        *(uint64_t *)t17 = t15;
        t18 = pair.v.word;
        t19 = (char *)((uint64_t *)out.at + k);
        *(uint64_t *)t19 = t18;
        t13 = pair.admitted;
        break;
    default:
        w = vectors.scalar.m1;
        t20 = code;
        row = rows_scalar_scalar_prime_scalar_row_prime(t20, x, w);
        t21 = row.w.word;
        t23 = (char *)((uint64_t *)out.at + k);
        *(uint64_t *)t23 = t21;
        t13 = row.admitted;
        break;
    }
    result = t13;
    return result;
}

/* window_rows, src/walk.rt:83: Writes row k of a window in the field of the rows; whether every word that the row uses is admitted. A
 * bool, since the walk goes on after a word that is not. */
INLINE bool window_rows_walk_write_row(code_places_row_Code code, window_WindowRows rows, uint64_t k, window_Accumulated vectors, slice
    u_out, slice out)
{
    bool result, t7;
    code_places_row_Code t8, t14;
    window_Accumulated t9, t15;
    char *t10, *t12, *t16, *t18;
    slice t11, t13, t17, t19;
    t7 = rows.field == 1ull;
    if (t7) {
        t8 = code;
        t9 = vectors;
        t10 = u_out.at;
        t11 = (slice){t10, u_out.count};
        t12 = out.at;
        t13 = (slice){t12, out.count};
        result = window_rows_walk_write_binary(t8, rows, k, t9, t11, t13);
        return result;
    }
    t14 = code;
    t15 = vectors;
    t16 = u_out.at;
    t17 = (slice){t16, u_out.count};
    t18 = out.at;
    t19 = (slice){t18, out.count};
    result = window_rows_walk_write_prime(t14, rows, k, t15, t17, t19);
    return result;
}

/* window_rows, src/walk.rt:103: Writes the window's elements, at the noise end with its words of u; refuses if a word that its rows use
 * is no noise value or no element. */
static Result_unit_answer_Refusal window_rows_walk_walk_rows(code_places_row_Code code, window_WindowRows rows, window_Accumulated vectors,
    slice u_out, slice out)
{
    Result_unit_answer_Refusal result, t18;
    bool passed, admitted, t10, t17;
    uint64_t k, k_end;
    code_places_row_Code t11;
    window_Accumulated t12;
    char *t13, *t15;
    slice t14, t16;
    answer_Refusal t19;
    passed = true;
    k = 0ull;
    k_end = rows.window.count;
    for (;;) {
        t10 = k < k_end;
        if (!t10) {
            break;
        }
        t11 = code;
        t12 = vectors;
        t13 = u_out.at;
        t14 = (slice){t13, u_out.count};
        t15 = out.at;
        t16 = (slice){t15, out.count};
        admitted = window_rows_walk_write_row(t11, rows, k, t12, t14, t16);
        passed = passed & admitted;
        k = k + 1ull;
    }
    t17 = passed;
    if (t17) {
        t18 = (Result_unit_answer_Refusal){.ok = {0u}};
    } else {
        t19 = (answer_Refusal){answer_Refusal_not_element};
        t18 = (Result_unit_answer_Refusal){.err = {1u, t19}};
    }
    result = t18;
    return result;
}

/* window_write, src/writing.rt:25: Writes a window of at most 32 outputs, if the words that its rows use are noise values and elements,
 * or refuses: one walk of the rows tests and sums them in memory of its own, from where the window is copied. The memory is fixed, as no
 * heap is used: the most words that 32 outputs take. */
INLINE Result_unit_answer_Refusal window_write_writing_write_small(code_places_row_Code code, window_WindowRows rows, window_Accumulated
    vectors, slice u_out, slice out)
{
    Result_unit_answer_Refusal result, t13;
    uint64_32 u_own;
    uint64_64 own;
    ErrResidual_answer_Refusal t9;
    uint64_t count, words, t20;
    ControlFlow_ErrResidual_answer_Refusal_unit t12;
    code_places_row_Code t14;
    window_Accumulated t15;
    char *t16, *t18, *t22, *t24, *t27, *t29;
    slice t17, t19, t23, t25, t28, t30;
    for (int each = 0; each < 32; each++)
        u_own.a[each] = 0ull;
    for (int each = 0; each < 64; each++)
        own.a[each] = 0ull;
    t14 = code;
    t15 = vectors;
    t16 = (char *)&u_own;
    t17 = (slice){t16, 32ull};
    t18 = (char *)&own;
    t19 = (slice){t18, 64ull};
    t13 = window_rows_walk_walk_rows(t14, rows, t15, t17, t19);
    t12 = core_ResultTry_branch_unit_answer_Refusal(t13);
    switch (t12.continue_.tag) {
    case 0:
        break;
    default:
        t9 = t12.break_.m1;
        result = core_ResultFromResidualErrResidual_from_residual_unit(t9);
        return result;
    }
    count = rows.window.count;
    t20 = field_width_element_width(rows.field);
    words = count * t20;
    t22 = out.at;
    t23 = (slice){t22, words};
    t24 = (char *)&own;
    t25 = (slice){t24, words};
    core_slice_copy_from_slice_uint64(t23, t25);
    switch (vectors.noise.tag) {
    case 0:
        t27 = u_out.at;
        t28 = (slice){t27, count};
        t29 = (char *)&u_own;
        t30 = (slice){t29, count};
        core_slice_copy_from_slice_uint64(t28, t30);
        break;
    default:
        break;
    }
    result = (Result_unit_answer_Refusal){.ok = {0u}};
    return result;
}

/* window_write, src/used.rt:15: Whether every word that the rows use is an element. In field 1 every word is. */
INLINE bool window_write_used_elements_used(code_places_row_Code code, window_WindowRows rows, slice words)
{
    bool result, t4;
    code_places_row_Code t5;
    code_Window t6;
    uint64_t t7;
    t4 = rows.field == 1ull;
    if (t4) {
        result = true;
        return result;
    }
    t5 = code;
    t6 = rows.window;
    t7 = prime_prime_Prime_modulus();
    result = code_places_row_Code_used_below(t5, t6, words, t7);
    return result;
}

/* window_write, src/used.rt:26: Whether every word of the noise that the rows use is a noise value. In field 2 noise values are
 * elements. */
INLINE bool window_write_used_noise_used(code_places_row_Code code, window_WindowRows rows, slice noise)
{
    bool result, t4;
    code_places_row_Code t5, t7;
    code_Window t6;
    t4 = rows.field == 1ull;
    if (t4) {
        t5 = code;
        t6 = rows.window;
        result = code_places_row_Code_used_below(t5, t6, noise, 2ull);
        return result;
    }
    t7 = code;
    result = window_write_used_elements_used(t7, rows, noise);
    return result;
}

/* window_write, src/used.rt:37: Whether every word that the rows use is a noise value or an element. */
INLINE bool window_write_used_all_used(code_places_row_Code code, window_WindowRows rows, window_Accumulated vectors)
{
    bool result, t7, t8;
    slice noise, v, w;
    code_places_row_Code t9, t10, t11;
    switch (vectors.noise.tag) {
    case 0:
        noise = vectors.noise.m1;
        v = vectors.noise.m2;
        t9 = code;
        t8 = window_write_used_noise_used(t9, rows, noise);
        if (t8) {
            t10 = code;
            t8 = window_write_used_elements_used(t10, rows, v);
        }
        t7 = t8;
        break;
    default:
        w = vectors.scalar.m1;
        t11 = code;
        t7 = window_write_used_elements_used(t11, rows, w);
        break;
    }
    result = t7;
    return result;
}

/* window_write, src/writing.rt:50: Writes any window, if the words that its rows use are noise values and elements, or refuses: one of
 * more than 32 outputs is tested before its rows are walked to write it. */
INLINE Result_unit_answer_Refusal window_write_writing_write_tested(code_places_row_Code code, window_WindowRows rows, window_Accumulated
    vectors, slice u_out, slice out)
{
    Result_unit_answer_Refusal result;
    bool t6, t15;
    code_places_row_Code t7, t13, t17;
    window_Accumulated t8, t14, t18;
    char *t9, *t11, *t19, *t21;
    slice t10, t12, t20, t22;
    answer_Refusal t16;
    t6 = rows.window.count <= 32ull;
    if (t6) {
        t7 = code;
        t8 = vectors;
        t9 = u_out.at;
        t10 = (slice){t9, u_out.count};
        t11 = out.at;
        t12 = (slice){t11, out.count};
        result = window_write_writing_write_small(t7, rows, t8, t10, t12);
        return result;
    }
    t13 = code;
    t14 = vectors;
    t6 = window_write_used_all_used(t13, rows, t14);
    t15 = !t6;
    if (t15) {
        t16 = (answer_Refusal){answer_Refusal_not_element};
        result = (Result_unit_answer_Refusal){.err = {1u, t16}};
        return result;
    }
    t17 = code;
    t18 = vectors;
    t19 = u_out.at;
    t20 = (slice){t19, u_out.count};
    t21 = out.at;
    t22 = (slice){t21, out.count};
    result = window_rows_walk_walk_rows(t17, rows, t18, t20, t22);
    return result;
}

/* window_write, src/writing.rt:70: Writes a window of any size under a record's code key, or refuses it. The scalar end's buffer for u
 * may be empty. */
INLINE Result_unit_answer_Refusal window_write_writing_write_rows(slice source, record_Layout layout, code_Window window, window_Accumulated
    vectors, slice u_out, slice out)
{
    Result_unit_answer_Refusal result;
    uint64_1536 words;
    aes_sbox_Tables tables, t14;
    uint64_40 keys, t13;
    code_places_row_Code code, t17;
    window_WindowRows rows;
    char *t12, *t15, *t19, *t21;
    code_Shape t16;
    window_Accumulated t18;
    slice t20, t22;
    for (int each = 0; each < 1536; each++)
        words.a[each] = 0ull;
    t12 = (char *)&words;
    tables = aes_sbox_Tables_fill(t12);
    t13 = window_tests_head_code_keys(source, layout);
    keys = t13;
    t14 = tables;
    t15 = (char *)&keys;
    t16 = window_tests_head_shape_of(layout);
    code = code_places_row_Code_new(t14, t15, t16);
    rows = (window_WindowRows){layout.field, window};
    t17 = code;
    t18 = vectors;
    t19 = u_out.at;
    t20 = (slice){t19, u_out.count};
    t21 = out.at;
    t22 = (slice){t21, out.count};
    result = window_write_writing_write_tested(t17, rows, t18, t20, t22);
    return result;
}

/* ends_calls, src/accepted.rt:25: The record, whole and tested. */
INLINE Result_ends_calls_accepted_NoiseRecord_answer_Refusal ends_calls_accepted_NoiseRecord_read(slice source)
{
    Result_ends_calls_accepted_NoiseRecord_answer_Refusal result;
    record_Layout layout, t3, t7;
    ErrResidual_answer_Refusal t4;
    ControlFlow_ErrResidual_answer_Refusal_record_Layout t5;
    Result_record_Layout_answer_Refusal t6;
    ends_calls_accepted_NoiseRecord t8;
    t6 = record_reading_noise_read_noise(source);
    t5 = core_ResultTry_branch_record_Layout_answer_Refusal(t6);
    switch (t5.continue_.tag) {
    case 0:
        t3 = t5.continue_.m1;
        t7 = t3;
        break;
    default:
        t4 = t5.break_.m1;
        result = core_ResultFromResidualErrResidual_from_residual_ends_calls(t4);
        return result;
    }
    layout = t7;
    t8 = (ends_calls_accepted_NoiseRecord){source, layout};
    result = (Result_ends_calls_accepted_NoiseRecord_answer_Refusal){.ok = {0u, t8}};
    return result;
}

/* ends_calls, src/trees.rt:24: All its trees. */
INLINE ends_calls_trees_Trees ends_calls_accepted_NoiseRecord_trees(char *self)
{
    ends_calls_trees_Trees result;
    record_Layout layout;
    ends_calls_accepted_NoiseRecord t3;
    uint64_t t4;
    layout = ((ends_calls_accepted_NoiseRecord *)self)->layout;
    t3 = *(ends_calls_accepted_NoiseRecord *)self;
    t4 = record_sizes_sibling_count(layout.depth, layout.branch_bits);
    result = (ends_calls_trees_Trees){t3, t4, layout.body, 0ull, layout.trees};
    return result;
}

/* ends_calls, src/noise_trees.rt:25: The tree at a place of an accepted record, whose trees have `tree_siblings` siblings, after
 * positions below `base`: its position is a leaf's, and its siblings lie in the record. It takes bytes and numbers and no `NoiseRecord`:
 * docs/landings names it, and it holds wherever a tree was read. */
INLINE record_Tree ends_calls_noise_trees_tree_at(slice source, record_Layout layout, uint64_t siblings, uint64_t at, uint64_t base)
{
    record_Tree result;
    result = record_reading_noise_known_tree(source, at, base, layout.field, layout.depth, siblings);
    return result;
}

/* ends_calls, src/trees.rt:49 */
INLINE Option_record_Tree ends_calls_trees_TreesIterator_next(char *self)
{
    Option_record_Tree result;
    ends_calls_accepted_NoiseRecord record;
    record_Tree tree;
    uint64_t t4, t8, t9;
    bool t5;
    slice t6;
    record_Layout t7;
    t4 = ((ends_calls_trees_Trees *)self)->left;
    t5 = t4 == 0ull;
    if (t5) {
        result = (Option_record_Tree){.none = {0u}};
        return result;
    }
    record = ((ends_calls_trees_Trees *)self)->record;
    t6 = record.source;
    t7 = record.layout;
    t4 = ((ends_calls_trees_Trees *)self)->siblings;
    t8 = ((ends_calls_trees_Trees *)self)->at;
    t9 = ((ends_calls_trees_Trees *)self)->base;
    tree = ends_calls_noise_trees_tree_at(t6, t7, t4, t8, t9);
    t4 = ((ends_calls_trees_Trees *)self)->left;
    t9 = t4 - 1ull;
    ((ends_calls_trees_Trees *)self)->left = t9;
    t8 = ((ends_calls_trees_Trees *)self)->siblings;
    t9 = 16ull * t8;
    t4 = tree.siblings + t9;
    ((ends_calls_trees_Trees *)self)->at = t4;
    t8 = tree.position + 1ull;
    ((ends_calls_trees_Trees *)self)->base = t8;
    result = (Option_record_Tree){.some = {1u, tree}};
    return result;
}

/* ends_calls, src/noise_trees.rt:36: Writes μ and v0: at each tree's position its noise value, and the leaves of all trees, of 2^g
 * children a node (document 02, 10), a tree's correction at its position. */
static void ends_calls_accepted_NoiseRecord_write_trees(char *self, slice noise, slice v)
{
    record_Layout layout;
    uint64_1536 words;
    uint64_40_8 keys, t13;
    tree_walk_node_TreeCipher cipher, t33;
    ends_calls_trees_Trees tree_items, tree_iterator, t22, t23, t24;
    record_Tree t10, tree, t27;
    tree_punctured_Punctured punctured;
    aes_sbox_Tables t14;
    char *t15, *t16, *t18, *t20, *t26, *t31, *t36;
    slice t19, t21, t34, t37;
    Option_record_Tree t25;
    uint64_t t28, t29, t30;
    field_element_Element t35;
    layout = ((ends_calls_accepted_NoiseRecord *)self)->layout;
    for (int each = 0; each < 1536; each++)
        words.a[each] = 0ull;
    t13 = tree_walk_node_child_keys(layout.branch_bits);
    keys = t13;
    t15 = (char *)&words;
    t14 = aes_sbox_Tables_fill(t15);
    t16 = (char *)&keys;
    cipher = (tree_walk_node_TreeCipher){t14, t16};
    t18 = noise.at;
    t19 = (slice){t18, noise.count};
    tree_sums_zero_zero_words(t19);
    t20 = v.at;
    t21 = (slice){t20, v.count};
    tree_sums_zero_zero_words(t21);
    t22 = ends_calls_accepted_NoiseRecord_trees(self);
    tree_items = t22;
    t24 = tree_items;
    t23 = core_AnyIntoIterator_into_iter_ends_calls_trees_Trees(t24);
    tree_iterator = t23;
    for (;;) {
        t26 = (char *)&tree_iterator;
        t25 = ends_calls_trees_TreesIterator_next(t26);
        switch (t25.none.tag) {
        case 1:
            t10 = t25.some.m1;
            t27 = t10;
            break;
        default:
            goto after1;
        }
        tree = t27;
        t28 = tree.value;
        t29 = tree.position;
        t30 = t29 * 8ull;
        t31 = (char *)((uint64_t *)noise.at + t29);
        *(uint64_t *)t31 = t28;
        t30 = layout.depth / layout.branch_bits;
        punctured = (tree_punctured_Punctured){layout.branch_bits, t30, tree.position, tree.siblings};
        t33 = cipher;
        t34 = ((ends_calls_accepted_NoiseRecord *)self)->source;
        t35 = tree.correction;
        t36 = v.at;
        t37 = (slice){t36, v.count};
        tree_fill_fill_add_punctured(t33, layout.field, punctured, t34, t35, t37);
    }
after1:;
}

/* ends_calls::accepted::NoiseRecord::write_accumulated */
INLINE void ends_calls_accepted_NoiseRecord_write_accumulated(char *self, slice noise, slice v)
{
    char *t5, *t7, *t10, *t12;
    slice t6, t8, t11, t13;
    uint64_t t9;
    t5 = noise.at;
    t6 = (slice){t5, noise.count};
    t7 = v.at;
    t8 = (slice){t7, v.count};
    ends_calls_accepted_NoiseRecord_write_trees(self, t6, t8);
    t9 = ((ends_calls_accepted_NoiseRecord *)self)->layout.field;
    t10 = v.at;
    t11 = (slice){t10, v.count};
    code_sums_accumulation_accumulate_elements(t9, t11);
    t9 = ((ends_calls_accepted_NoiseRecord *)self)->layout.field;
    t12 = noise.at;
    t13 = (slice){t12, noise.count};
    code_sums_accumulation_accumulate_noise(t9, t13);
}

/* ends_calls, src/noise.rt:18: Writes the accumulated μ to the front of noise, and the accumulated v0 to the front of v. */
INLINE answer_TwoLengths ends_calls_noise_offline(slice source, slice noise, slice v)
{
    answer_TwoLengths result;
    ends_calls_accepted_NoiseRecord record, record_2, t11;
    answer_Refusal refusal, t14, t15;
    record_Layout layout;
    uint64_t size, words, t12;
    Result_ends_calls_accepted_NoiseRecord_answer_Refusal t10;
    bool t13;
    char *t17, *t18, *t20;
    slice t19, t21;
    t10 = ends_calls_accepted_NoiseRecord_read(source);
    switch (t10.ok.tag) {
    case 0:
        record_2 = t10.ok.m1;
        t11 = record_2;
        break;
    default:
        refusal = t10.err.m1;
        result = answer_TwoLengths_refused(refusal);
        return result;
    }
    record = t11;
    layout = record.layout;
    size = record_sizes_leaves(layout.depth);
    t12 = noise.count;
    t13 = t12 < size;
    if (t13) {
        t14 = (answer_Refusal){answer_Refusal_buffer_short};
        result = answer_TwoLengths_refused(t14);
        return result;
    }
    words = window_tests_head_vector_words(layout);
    t12 = v.count;
    t13 = t12 < words;
    if (t13) {
        t15 = (answer_Refusal){answer_Refusal_buffer_short};
        result = answer_TwoLengths_refused(t15);
        return result;
    }
    t17 = (char *)&record;
    t18 = noise.at;
    t19 = (slice){t18, size};
    t20 = v.at;
    t21 = (slice){t20, words};
    ends_calls_accepted_NoiseRecord_write_accumulated(t17, t19, t21);
    result = (answer_TwoLengths){0u, size, words};
    return result;
}

/* ends_calls, src/accepted.rt:47: The record, whole and tested. */
INLINE Result_ends_calls_accepted_ScalarRecord_answer_Refusal ends_calls_accepted_ScalarRecord_read(slice source)
{
    Result_ends_calls_accepted_ScalarRecord_answer_Refusal result;
    record_Layout layout, t3, t7;
    ErrResidual_answer_Refusal t4;
    ControlFlow_ErrResidual_answer_Refusal_record_Layout t5;
    Result_record_Layout_answer_Refusal t6;
    ends_calls_accepted_ScalarRecord t8;
    t6 = record_reading_scalar_read_scalar(source);
    t5 = core_ResultTry_branch_record_Layout_answer_Refusal(t6);
    switch (t5.continue_.tag) {
    case 0:
        t3 = t5.continue_.m1;
        t7 = t3;
        break;
    default:
        t4 = t5.break_.m1;
        result = core_ResultFromResidualErrResidual_from_residual_ends_calls_2(t4);
        return result;
    }
    layout = t7;
    t8 = (ends_calls_accepted_ScalarRecord){source, layout};
    result = (Result_ends_calls_accepted_ScalarRecord_answer_Refusal){.ok = {0u, t8}};
    return result;
}

/* ends_calls, src/scalar_trees.rt:19: The place of root i, which stands after Δ. */
INLINE uint64_t ends_calls_scalar_trees_root_place(record_Layout layout, uint64_t i)
{
    uint64_t result, t3, t4, t5, t6;
    t3 = field_width_element_width(layout.field);
    t4 = 8ull * t3;
    t5 = layout.body + t4;
    t6 = 16ull * i;
    result = t5 + t6;
    return result;
}

/* ends_calls, src/scalar_trees.rt:28: Writes w0: the leaves of all trees, of 2^g children a node (document 02, 10). */
static void ends_calls_accepted_ScalarRecord_write_trees(char *self, slice w)
{
    record_Layout layout;
    uint64_1536 words;
    uint64_40_8 keys, t10;
    tree_walk_node_TreeCipher cipher, t22;
    uint64_t levels, i, i_end, t20;
    uint8_4_4 root;
    aes_sbox_Tables t11;
    char *t12, *t13, *t15, *t23;
    slice t16, t19, t24;
    bool t18;
    layout = ((ends_calls_accepted_ScalarRecord *)self)->layout;
    for (int each = 0; each < 1536; each++)
        words.a[each] = 0ull;
    t10 = tree_walk_node_child_keys(layout.branch_bits);
    keys = t10;
    t12 = (char *)&words;
    t11 = aes_sbox_Tables_fill(t12);
    t13 = (char *)&keys;
    cipher = (tree_walk_node_TreeCipher){t11, t13};
    t15 = w.at;
    t16 = (slice){t15, w.count};
    tree_sums_zero_zero_words(t16);
    levels = layout.depth / layout.branch_bits;
    i = 0ull;
    i_end = layout.trees;
    for (;;) {
        t18 = i < i_end;
        if (!t18) {
            break;
        }
        t19 = ((ends_calls_accepted_ScalarRecord *)self)->source;
        t20 = ends_calls_scalar_trees_root_place(layout, i);
        root = tree_walk_columns_columns_at(t19, t20);
        t22 = cipher;
        t23 = w.at;
        t24 = (slice){t23, w.count};
        tree_fill_fill_add_leaves(t22, layout.field, layout.branch_bits, levels, root, t24);
        i = i + 1ull;
    }
}

/* ends_calls::accepted::ScalarRecord::write_accumulated */
INLINE void ends_calls_accepted_ScalarRecord_write_accumulated(char *self, slice w)
{
    char *t4, *t7;
    slice t5, t8;
    uint64_t t6;
    t4 = w.at;
    t5 = (slice){t4, w.count};
    ends_calls_accepted_ScalarRecord_write_trees(self, t5);
    t6 = ((ends_calls_accepted_ScalarRecord *)self)->layout.field;
    t7 = w.at;
    t8 = (slice){t7, w.count};
    code_sums_accumulation_accumulate_elements(t6, t8);
}

/* ends_calls::accepted::ScalarRecord::write_delta */
INLINE void ends_calls_accepted_ScalarRecord_write_delta(char *self, slice delta)
{
    field_element_Element value;
    uint64_t t4, t6, t7, t9;
    slice t5;
    char *t8, *t10;
    t4 = ((ends_calls_accepted_ScalarRecord *)self)->layout.field;
    t5 = ((ends_calls_accepted_ScalarRecord *)self)->source;
    t6 = ((ends_calls_accepted_ScalarRecord *)self)->layout.body;
    value = field_element_element_at(t4, t5, t6);
    t7 = value.low;
    t8 = delta.at + 0ull;
    *(uint64_t *)t8 = t7;
    t9 = value.high;
    t10 = delta.at + 8ull;
    *(uint64_t *)t10 = t9;
}

/* ends_calls, src/scalar.rt:18: Writes the accumulated w0 to the front of w, and the two words of Δ. */
INLINE answer_TwoLengths ends_calls_scalar_offline(slice source, slice w, slice delta)
{
    answer_TwoLengths result;
    ends_calls_accepted_ScalarRecord record, record_2, t10;
    answer_Refusal refusal, t13, t14;
    record_Layout layout;
    uint64_t words, t11;
    Result_ends_calls_accepted_ScalarRecord_answer_Refusal t9;
    bool t12;
    char *t16, *t17, *t19, *t20;
    slice t18, t21;
    t9 = ends_calls_accepted_ScalarRecord_read(source);
    switch (t9.ok.tag) {
    case 0:
        record_2 = t9.ok.m1;
        t10 = record_2;
        break;
    default:
        refusal = t9.err.m1;
        result = answer_TwoLengths_refused(refusal);
        return result;
    }
    record = t10;
    layout = record.layout;
    words = window_tests_head_vector_words(layout);
    t11 = w.count;
    t12 = t11 < words;
    if (t12) {
        t13 = (answer_Refusal){answer_Refusal_buffer_short};
        result = answer_TwoLengths_refused(t13);
        return result;
    }
    t11 = delta.count;
    t12 = t11 < 2ull;
    if (t12) {
        t14 = (answer_Refusal){answer_Refusal_buffer_short};
        result = answer_TwoLengths_refused(t14);
        return result;
    }
    t16 = (char *)&record;
    t17 = w.at;
    t18 = (slice){t17, words};
    ends_calls_accepted_ScalarRecord_write_accumulated(t16, t18);
    t19 = (char *)&record;
    t20 = delta.at;
    t21 = (slice){t20, delta.count};
    ends_calls_accepted_ScalarRecord_write_delta(t19, t21);
    result = (answer_TwoLengths){0u, words, 2ull};
    return result;
}

/* ends_calls, src/noise.rt:44: Writes the window's outputs of the accumulated vectors: u to the front of u_out, v to the front of v_out. */
INLINE answer_TwoLengths ends_calls_noise_online(slice source, slice noise, slice v, uint64_t first, uint64_t count, slice u_out, slice
    v_out)
{
    answer_TwoLengths result;
    ends_calls_accepted_NoiseRecord record, record_2, t16;
    answer_Refusal refusal, refusal_2, refusal_3;
    record_Layout layout;
    code_Window window;
    Result_ends_calls_accepted_NoiseRecord_answer_Refusal t15;
    Result_unit_answer_Refusal t17, t22;
    uint64_t t18, t19, t20, t21;
    slice t23, t26, t28;
    window_Accumulated t24;
    char *t25, *t27;
    t15 = ends_calls_accepted_NoiseRecord_read(source);
    switch (t15.ok.tag) {
    case 0:
        record_2 = t15.ok.m1;
        t16 = record_2;
        break;
    default:
        refusal = t15.err.m1;
        result = answer_TwoLengths_refused(refusal);
        return result;
    }
    record = t16;
    layout = record.layout;
    window = (code_Window){first, count};
    t18 = noise.count;
    t19 = v.count;
    t20 = u_out.count;
    t21 = v_out.count;
    t17 = window_tests_lengths_check_window(layout, t18, t19, window, t20, t21);
    switch (t17.ok.tag) {
    case 1:
        refusal_2 = t17.err.m1;
        result = answer_TwoLengths_refused(refusal_2);
        return result;
    default:
        break;
    }
    t23 = record.source;
    t24 = (window_Accumulated){.noise = {0u, noise, v}};
    t25 = u_out.at;
    t26 = (slice){t25, u_out.count};
    t27 = v_out.at;
    t28 = (slice){t27, v_out.count};
    t22 = window_write_writing_write_rows(t23, layout, window, t24, t26, t28);
    switch (t22.ok.tag) {
    case 1:
        refusal_3 = t22.err.m1;
        result = answer_TwoLengths_refused(refusal_3);
        return result;
    default:
        break;
    }
    t18 = field_width_element_width(layout.field);
    t19 = count * t18;
    result = (answer_TwoLengths){0u, count, t19};
    return result;
}

/* ends_calls, src/scalar.rt:44: Writes the window's outputs of the accumulated vector w to the front of w_out. */
static answer_OneLength ends_calls_scalar_online(slice source, slice w, uint64_t first, uint64_t count, slice w_out)
{
    answer_OneLength result;
    ends_calls_accepted_ScalarRecord record, record_2, t15;
    answer_Refusal refusal, refusal_2, refusal_3;
    record_Layout layout;
    code_Window window;
    uint64_t words, t17, t18, t19;
    Result_ends_calls_accepted_ScalarRecord_answer_Refusal t14;
    Result_unit_answer_Refusal t16, t20;
    slice t21, t25, t27;
    window_Accumulated t22;
    char *t24, *t26;
    t14 = ends_calls_accepted_ScalarRecord_read(source);
    switch (t14.ok.tag) {
    case 0:
        record_2 = t14.ok.m1;
        t15 = record_2;
        break;
    default:
        refusal = t14.err.m1;
        result = answer_OneLength_refused(refusal);
        return result;
    }
    record = t15;
    layout = record.layout;
    window = (code_Window){first, count};
    t17 = record_sizes_leaves(layout.depth);
    t18 = w.count;
    t19 = w_out.count;
    t16 = window_tests_lengths_check_window(layout, t17, t18, window, count, t19);
    switch (t16.ok.tag) {
    case 1:
        refusal_2 = t16.err.m1;
        result = answer_OneLength_refused(refusal_2);
        return result;
    default:
        break;
    }
    t17 = field_width_element_width(layout.field);
    words = count * t17;
    t21 = record.source;
    t22 = (window_Accumulated){.scalar = {1u, w}};
    t24 = NULL;
    t25 = (slice){t24, 0ull};
    t26 = w_out.at;
    t27 = (slice){t26, w_out.count};
    t20 = window_write_writing_write_rows(t21, layout, window, t22, t25, t27);
    switch (t20.ok.tag) {
    case 1:
        refusal_3 = t20.err.m1;
        result = answer_OneLength_refused(refusal_3);
        return result;
    default:
        break;
    }
    result = (answer_OneLength){0u, words};
    return result;
}

/* core::iter::adapters::EnumerateIterator::next of the kit, at Trees and Tree */
INLINE Option_tuple_uint64_record_Tree core_EnumerateIterator_next_ends_calls_trees_Trees_record(char *self)
{
    Option_tuple_uint64_record_Tree result;
    record_Tree x, t3, t9, t12;
    uint64_t i, t10, t11;
    ControlFlow_NoValue_record_Tree t6;
    Option_record_Tree t7;
    char *t8;
    tuple_uint64_record_Tree t13;
    t8 = (char *)&((Enumerate_ends_calls_trees_Trees *)self)->iter;
    t7 = ends_calls_trees_TreesIterator_next(t8);
    t6 = core_OptionTry_branch_record_Tree(t7);
    switch (t6.continue_.tag) {
    case 0:
        t3 = t6.continue_.m1;
        t9 = t3;
        break;
    default:
        result = core_OptionFromResidualNoValue_from_residual_tuple_uint64();
        return result;
    }
    x = t9;
    i = ((Enumerate_ends_calls_trees_Trees *)self)->count;
    t10 = ((Enumerate_ends_calls_trees_Trees *)self)->count;
    t11 = t10 + 1ull;
    ((Enumerate_ends_calls_trees_Trees *)self)->count = t11;
    t12 = x;
    t13 = (tuple_uint64_record_Tree){i, t12};
    result = (Option_tuple_uint64_record_Tree){.some = {1u, t13}};
    return result;
}

/* ends_bench_leaves, src/table.rt:10: A table with no tree. */
INLINE record_Tree_64 ends_bench_leaves_table_no_trees(void)
{
    record_Tree_64 result;
    record_Tree none;
    field_element_Element t2;
    t2 = (field_element_Element){0ull, 0ull};
    none = (record_Tree){0ull, 0ull, t2, 0ull};
    for (int each = 0; each < 64; each++)
        result.a[each] = none;
    return result;
}

/* ends_bench_leaves, src/table.rt:23: The trees of an accepted record; those past them are zero. */
static record_Tree_64 ends_bench_leaves_table_tree_table(ends_calls_accepted_NoiseRecord accepted)
{
    record_Tree_64 result, table, t9;
    ends_calls_accepted_NoiseRecord accepted_slot;
    Enumerate_ends_calls_trees_Trees items, iterator, t10, t13, t14;
    tuple_uint64_record_Tree t6, t15, t18;
    uint64_t i, t19;
    record_Tree tree;
    ends_calls_trees_Trees t11;
    char *t12, *t17, *t20, *t21;
    Option_tuple_uint64_record_Tree t16;
    accepted_slot = accepted;
    t9 = ends_bench_leaves_table_no_trees();
    table = t9;
    t12 = (char *)&accepted_slot;
    t11 = ends_calls_accepted_NoiseRecord_trees(t12);
    t10 = core_Iterator_enumerate_ends_calls_trees_Trees_record_Tree(t11);
    items = t10;
    t14 = items;
    t13 = core_AnyIntoIterator_into_iter_Enumerate_ends_calls_trees(t14);
    iterator = t13;
    for (;;) {
        t17 = (char *)&iterator;
        t16 = core_EnumerateIterator_next_ends_calls_trees_Trees_record(t17);
        switch (t16.none.tag) {
        case 1:
            t6 = t16.some.m1;
            t18 = t6;
            break;
        default:
            goto after1;
        }
        t15 = t18;
        i = t15.m0;
        tree = t15.m1;
        t19 = i * 40ull;
        t20 = (char *)&table;
        t21 = t20 + t19;
        *(record_Tree *)t21 = tree;
    }
after1:;
    result = table;
    return result;
}

/* ends_bench_leaves, src/vector.rt:29: A vector of a noise record, with the table of its trees and the round keys of the child keys. */
INLINE ends_bench_leaves_vector_Vector ends_bench_leaves_vector_Vector_of_noise(uint64_t number, ends_calls_accepted_NoiseRecord accepted,
    char *table, tree_walk_node_TreeCipher cipher)
{
    ends_bench_leaves_vector_Vector result;
    slice t5;
    record_Layout t6;
    tree_walk_node_TreeCipher t7;
    t5 = accepted.source;
    t6 = accepted.layout;
    t7 = cipher;
    result = (ends_bench_leaves_vector_Vector){number, t5, t6, table, t7};
    return result;
}

/* ends_bench_leaves, src/values.rt:89: μ at place j: the last tree there counts, as in `noise_word`. */
static uint64_t ends_bench_leaves_vector_Vector_noise_at(char *self, uint64_t j)
{
    uint64_t result, noise, tree_index, t9, tree_index_end, t13, t15;
    char *table, *tree, *t10, *t14;
    slice tree_items, t8;
    bool t12, t16;
    noise = 0ull;
    table = ((ends_bench_leaves_vector_Vector *)self)->table;
    t9 = ((ends_bench_leaves_vector_Vector *)self)->layout.trees;
    t10 = table;
    t8 = (slice){t10, t9};
    tree_items = t8;
    tree_index = 0ull;
    tree_index_end = tree_items.count;
    for (;;) {
        t12 = tree_index < tree_index_end;
        if (!t12) {
            break;
        }
        t13 = tree_index * 40ull;
        t14 = tree_items.at + t13;
        tree = t14;
        t15 = ((record_Tree *)tree)->position;
        t16 = t15 == j;
        if (t16) {
            noise = ((record_Tree *)tree)->value;
        }
        tree_index = tree_index + 1ull;
    }
    result = noise;
    return result;
}

/* ends_bench_leaves::vector::Vector::punctured_at */
INLINE bool ends_bench_leaves_vector_Vector_punctured_at(char *self, uint64_t i, uint64_t j)
{
    bool result, t4;
    uint64_t t5, t6, t9;
    char *t7, *t8;
    t5 = ((ends_bench_leaves_vector_Vector *)self)->number;
    t4 = t5 != 3ull;
    if (t4) {
        t6 = i * 40ull;
        t7 = ((ends_bench_leaves_vector_Vector *)self)->table;
        t8 = t7 + t6;
        t9 = ((record_Tree *)t8)->position;
        t4 = t9 == j;
    }
    result = t4;
    return result;
}

/* ends_bench_leaves::vector::Vector::either_punctured */
INLINE bool ends_bench_leaves_vector_Vector_either_punctured(char *self, uint64_t i, uint64_t j)
{
    bool result, t4;
    uint64_t t5;
    t4 = ends_bench_leaves_vector_Vector_punctured_at(self, i, j);
    if (!t4) {
        t5 = i + 1ull;
        t4 = ends_bench_leaves_vector_Vector_punctured_at(self, t5, j);
    }
    result = t4;
    return result;
}

/* ends_bench_leaves::vector::Vector::start_at */
INLINE tree_walk_down_Start ends_bench_leaves_vector_Vector_start_at(char *self, uint64_t i, uint64_t j)
{
    tree_walk_down_Start result;
    record_Layout layout;
    uint64_t levels, t7, t9;
    record_Tree tree, t12;
    bool t8;
    char *t10, *t11;
    layout = ((ends_bench_leaves_vector_Vector *)self)->layout;
    levels = layout.depth / layout.branch_bits;
    t7 = ((ends_bench_leaves_vector_Vector *)self)->number;
    t8 = t7 == 3ull;
    if (t8) {
        t9 = ends_calls_scalar_trees_root_place(layout, i);
        result = (tree_walk_down_Start){t9, levels};
        return result;
    }
    t7 = i * 40ull;
    t10 = ((ends_bench_leaves_vector_Vector *)self)->table;
    t11 = t10 + t7;
    t12 = *(record_Tree *)t11;
    tree = t12;
    result = tree_walk_down_from_sibling(layout.branch_bits, levels, tree.position, j, tree.siblings);
    return result;
}

/* ends_bench_leaves, src/values.rt:15: The element of leaf j of tree i, walked alone; the correction stands in for a punctured leaf. */
INLINE field_element_Element ends_bench_leaves_vector_Vector_leaf_of(char *self, uint64_t i, uint64_t j)
{
    field_element_Element result;
    record_Layout layout;
    tree_walk_down_Start start;
    field_block_Block node, leaf;
    bool t8;
    uint64_t t9;
    char *t10, *t11;
    slice t12;
    tree_walk_node_TreeCipher t13;
    uint8_4_4 t14;
    t8 = ends_bench_leaves_vector_Vector_punctured_at(self, i, j);
    if (t8) {
        t9 = i * 40ull;
        t10 = ((ends_bench_leaves_vector_Vector *)self)->table;
        t11 = t10 + t9;
        result = ((record_Tree *)t11)->correction;
        return result;
    }
    layout = ((ends_bench_leaves_vector_Vector *)self)->layout;
    start = ends_bench_leaves_vector_Vector_start_at(self, i, j);
    t12 = ((ends_bench_leaves_vector_Vector *)self)->source;
    node = tree_walk_columns_node_at(t12, start.at);
    t13 = ((ends_bench_leaves_vector_Vector *)self)->cipher;
    leaf = tree_walk_down_walk_to(t13, layout.branch_bits, start.left, 0ull, node, j);
    t14 = field_block_Block_columns(leaf);
    result = field_element_leaf_element(layout.field, t14);
    return result;
}

/* ends_bench_leaves, src/walk.rt:22: Leaf j below each of two nodes, walked in alternation from where both have the same number of
 * levels left. */
INLINE aes_blocks_Two_field_block_Block ends_bench_leaves_walk_walk_two(tree_walk_node_TreeCipher cipher, ends_bench_leaves_walk_Levels
    levels, field_block_Block a, field_block_Block b, uint64_t j)
{
    aes_blocks_Two_field_block_Block result;
    uint64_t g, both;
    field_block_Block x, y;
    tree_walk_node_TreeCipher t10, t11, t12;
    g = levels.branch_bits;
    both = core_usize_min(levels.one, levels.other);
    t10 = cipher;
    x = tree_walk_down_walk_to(t10, g, levels.one, both, a, j);
    t11 = cipher;
    y = tree_walk_down_walk_to(t11, g, levels.other, both, b, j);
    t12 = cipher;
    result = tree_walk_down_walk_both(t12, g, both, x, y, j);
    return result;
}

/* ends_bench_leaves, src/values.rt:31: The sum of the elements of leaf j below two blocks. Two walks in alternation, as the bench has
 * one engine for both (docs/DECISIONS.md), and not two of `leaf_of`, whose ciphers would run one after the other. */
INLINE field_element_Element ends_bench_leaves_vector_Vector_two_walked(char *self, tree_walk_down_Start a, tree_walk_down_Start b, uint64_t
    j)
{
    field_element_Element result, t13, t16;
    uint64_t field, t10;
    ends_bench_leaves_walk_Levels levels;
    field_block_Block one, other, t15, t18;
    aes_blocks_Two_field_block_Block leaves;
    slice t11;
    tree_walk_node_TreeCipher t12;
    uint8_4_4 t14, t17;
    field = ((ends_bench_leaves_vector_Vector *)self)->layout.field;
    t10 = ((ends_bench_leaves_vector_Vector *)self)->layout.branch_bits;
    levels = (ends_bench_leaves_walk_Levels){t10, a.left, b.left};
    t11 = ((ends_bench_leaves_vector_Vector *)self)->source;
    one = tree_walk_columns_node_at(t11, a.at);
    t11 = ((ends_bench_leaves_vector_Vector *)self)->source;
    other = tree_walk_columns_node_at(t11, b.at);
    t12 = ((ends_bench_leaves_vector_Vector *)self)->cipher;
    leaves = ends_bench_leaves_walk_walk_two(t12, levels, one, other, j);
    t15 = leaves.one;
    t14 = field_block_Block_columns(t15);
    t13 = field_element_leaf_element(field, t14);
    t18 = leaves.other;
    t17 = field_block_Block_columns(t18);
    t16 = field_element_leaf_element(field, t17);
    result = field_element_element_sum(field, t13, t16);
    return result;
}

/* ends_bench_leaves, src/values.rt:52: The sum of the elements of leaf j of trees i and i + 1. */
static field_element_Element ends_bench_leaves_vector_Vector_two_leaves(char *self, uint64_t i, uint64_t j)
{
    field_element_Element result, t8, t9;
    tree_walk_down_Start a, b;
    bool t6;
    uint64_t t7, t10, t11;
    t6 = ends_bench_leaves_vector_Vector_either_punctured(self, i, j);
    if (t6) {
        t7 = ((ends_bench_leaves_vector_Vector *)self)->layout.field;
        t8 = ends_bench_leaves_vector_Vector_leaf_of(self, i, j);
        t10 = i + 1ull;
        t9 = ends_bench_leaves_vector_Vector_leaf_of(self, t10, j);
        result = field_element_element_sum(t7, t8, t9);
        return result;
    }
    a = ends_bench_leaves_vector_Vector_start_at(self, i, j);
    t11 = i + 1ull;
    b = ends_bench_leaves_vector_Vector_start_at(self, t11, j);
    result = ends_bench_leaves_vector_Vector_two_walked(self, a, b, j);
    return result;
}

/* ends_bench_leaves, src/values.rt:71: The sum of the elements of leaf j of all trees. */
static field_element_Element ends_bench_leaves_vector_Vector_leaves_sum(char *self, uint64_t j)
{
    field_element_Element result, total, t9, t13;
    uint64_t field, trees, pair, pair_end, t10, t11;
    bool t8, t12;
    field = ((ends_bench_leaves_vector_Vector *)self)->layout.field;
    trees = ((ends_bench_leaves_vector_Vector *)self)->layout.trees;
    total = (field_element_Element){0ull, 0ull};
    pair = 0ull;
    pair_end = trees / 2ull;
    for (;;) {
        t8 = pair < pair_end;
        if (!t8) {
            break;
        }
        t10 = 2ull * pair;
        t9 = ends_bench_leaves_vector_Vector_two_leaves(self, t10, j);
        total = field_element_element_sum(field, total, t9);
        pair = pair + 1ull;
    }
    t11 = trees % 2ull;
    t12 = t11 == 0ull;
    if (t12) {
        result = total;
        return result;
    }
    t11 = trees - 1ull;
    t13 = ends_bench_leaves_vector_Vector_leaf_of(self, t11, j);
    result = field_element_element_sum(field, total, t13);
    return result;
}

/* ends_bench_leaves, src/values.rt:103: The vector's value at place j. μ's word is made an `Element` here: a `From` of a word would say
 * of any word that it is a noise value. */
INLINE field_element_Element ends_bench_leaves_vector_Vector_value_at(char *self, uint64_t j)
{
    field_element_Element result;
    uint64_t t3, t5;
    bool t4;
    t3 = ((ends_bench_leaves_vector_Vector *)self)->number;
    t4 = t3 == 1ull;
    if (t4) {
        t5 = ends_bench_leaves_vector_Vector_noise_at(self, j);
        result = (field_element_Element){t5, 0ull};
        return result;
    }
    result = ends_bench_leaves_vector_Vector_leaves_sum(self, j);
    return result;
}

/* ends_bench_leaves, src/elements.rt:38: Adds entry × element to element k of the outputs in field 2. */
INLINE void ends_bench_leaves_elements_add_prime(uint64_t k, uint64_t entry, uint64_t word, slice out)
{
    prime_prime_Prime t5;
    uint64_t t6, t9, t10;
    char *t8, *t12;
    t8 = (char *)((uint64_t *)out.at + k);
    t9 = *(uint64_t *)t8;
    t6 = prime_prime_Prime_add_product(t9, entry, word);
    t5 = prime_prime_Prime_reduce(t6);
    t10 = t5.word;
    t12 = (char *)((uint64_t *)out.at + k);
    *(uint64_t *)t12 = t10;
}

/* ends_bench_leaves, src/elements.rt:15: Adds entry × bit to bit k of the outputs. */
INLINE void ends_bench_leaves_elements_add_bit(uint64_t k, uint64_t entry, uint64_t bit, slice out)
{
    uint64_t t5, t8, t9, t10, t11;
    char *t7, *t13;
    t7 = (char *)((uint64_t *)out.at + k);
    t8 = *(uint64_t *)t7;
    t9 = entry % 2ull;
    t10 = bit % 2ull;
    t11 = t9 * t10;
    t5 = field_block_add_bits(t8, t11);
    t13 = (char *)((uint64_t *)out.at + k);
    *(uint64_t *)t13 = t5;
}

/* ends_bench_leaves, src/elements.rt:24: Adds entry × block to block k of the outputs. */
INLINE void ends_bench_leaves_elements_add_block(uint64_t k, uint64_t entry, field_element_Element element, slice out)
{
    field_block_Block value, t7, t8, t11;
    char *t9, *t12;
    slice t10, t13;
    value = (field_block_Block){element.low, element.high};
    t9 = out.at;
    t10 = (slice){t9, out.count};
    t8 = field_parts_BlockFieldElement_at(t10, k);
    t11 = field_block_Block_scale(value, entry);
    t7 = field_block_Block_add(t8, t11);
    t12 = out.at;
    t13 = (slice){t12, out.count};
    field_parts_BlockFieldElement_put(t7, t13, k);
}

/* ends_bench_leaves, src/elements.rt:47: Adds entry × value to output k of a vector. Numbers, for which docs/ARCHITECTURE.md has this
 * function: its sum is promised for each. */
INLINE void ends_bench_leaves_elements_add_output(uint64_t vector, uint64_t field, uint64_t k, uint64_t entry, field_element_Element value,
    slice out)
{
    bool t7;
    char *t9, *t12, *t15;
    slice t10, t13, t16;
    t7 = field != 1ull;
    if (t7) {
        t9 = out.at;
        t10 = (slice){t9, out.count};
        ends_bench_leaves_elements_add_prime(k, entry, value.low, t10);
        return;
    }
    t7 = vector == 1ull;
    if (t7) {
        t12 = out.at;
        t13 = (slice){t12, out.count};
        ends_bench_leaves_elements_add_bit(k, entry, value.low, t13);
        return;
    }
    t15 = out.at;
    t16 = (slice){t15, out.count};
    ends_bench_leaves_elements_add_block(k, entry, value, t16);
}

/* ends_bench_leaves, src/vector.rt:50: w0 of a scalar record, with the round keys of the child keys. */
INLINE ends_bench_leaves_vector_Vector ends_bench_leaves_vector_Vector_of_scalar(ends_calls_accepted_ScalarRecord accepted, char *table,
    tree_walk_node_TreeCipher cipher)
{
    ends_bench_leaves_vector_Vector result;
    slice t4;
    record_Layout t5;
    tree_walk_node_TreeCipher t6;
    t4 = accepted.source;
    t5 = accepted.layout;
    t6 = cipher;
    result = (ends_bench_leaves_vector_Vector){3ull, t4, t5, table, t6};
    return result;
}

/* ends_bench, src/accepted.rt:27: The words of a window's elements. */
INLINE uint64_t ends_bench_accepted_words_for(record_Layout layout, code_Window window)
{
    uint64_t result, t3;
    t3 = field_width_element_width(layout.field);
    result = window.count * t3;
    return result;
}

/* ends_bench, src/accepted.rt:35: The tests after a noise record, for buffers of these lengths. */
INLINE Result_unit_answer_Refusal ends_bench_accepted_check_noise(record_Layout layout, code_Window window, uint64_t u_room, uint64_t
    v_room)
{
    Result_unit_answer_Refusal result;
    bool t5, t7;
    answer_Refusal t6, t8, t10;
    uint64_t t9;
    t5 = answer_lengths_is_past(window.first, window.count, layout.outputs);
    if (t5) {
        t6 = (answer_Refusal){answer_Refusal_window_past_end};
        result = (Result_unit_answer_Refusal){.err = {1u, t6}};
        return result;
    }
    t7 = u_room < window.count;
    if (t7) {
        t8 = (answer_Refusal){answer_Refusal_buffer_short};
        result = (Result_unit_answer_Refusal){.err = {1u, t8}};
        return result;
    }
    t9 = ends_bench_accepted_words_for(layout, window);
    t7 = v_room < t9;
    if (t7) {
        t10 = (answer_Refusal){answer_Refusal_buffer_short};
        result = (Result_unit_answer_Refusal){.err = {1u, t10}};
        return result;
    }
    result = (Result_unit_answer_Refusal){.ok = {0u}};
    return result;
}

/* ends_bench, src/batch.rt:61: The words of a vector's value, by numbers as `add_output` has them. */
INLINE uint64_t ends_bench_batch_value_width(uint64_t vector, uint64_t field)
{
    uint64_t result, t4;
    bool t3;
    t3 = vector == 1ull;
    if (t3) {
        t4 = 1ull;
    } else {
        t4 = field_width_element_width(field);
    }
    result = t4;
    return result;
}

/* ends_bench, src/entries.rt:36: Makes term i of each row, the first of which is row `first` of the code under these round keys. The
 * `Code` is made here: what it holds besides the keys stands in the vector. */
static void ends_bench_entries_make_terms(char *vector, char *keys, uint64_t first, uint64_t i, slice rows)
{
    record_Layout layout;
    code_places_row_Code code, t17;
    uint64_t k, k_end, t15, t18, t19, t20;
    char *row, *t16;
    code_places_row_Term term;
    aes_sbox_Tables t11;
    code_Shape t12;
    bool t14;
    layout = ((ends_bench_leaves_vector_Vector *)vector)->layout;
    t11 = ((ends_bench_leaves_vector_Vector *)vector)->cipher.tables;
    t12 = window_tests_head_shape_of(layout);
    code = code_places_row_Code_new(t11, keys, t12);
    k = 0ull;
    k_end = rows.count;
    for (;;) {
        t14 = k < k_end;
        if (!t14) {
            break;
        }
        t15 = k * 24ull;
        t16 = rows.at + t15;
        row = t16;
        t17 = code;
        t18 = first + k;
        term = code_places_row_Code_row_term(t17, t18, i);
        t19 = term.place;
        ((ends_bench_entries_Pending *)row)->place = t19;
        t20 = field_noise_coefficient(layout.field, term.word);
        ((ends_bench_entries_Pending *)row)->coefficient = t20;
        k = k + 1ull;
    }
}

/* ends_bench, src/batch.rt:14: How many places a strip has. */
INLINE uint64_t ends_bench_batch_strip_size(record_Layout layout)
{
    uint64_t result, t2;
    t2 = record_sizes_leaves(layout.depth);
    result = t2 / layout.terms;
    return result;
}

/* ends_bench, src/entries.rt:24: The row's entry at place j. */
INLINE uint64_t ends_bench_entries_Pending_entry_at(ends_bench_entries_Pending self, uint64_t field, uint64_t j)
{
    uint64_t result;
    bool t4;
    t4 = self.place < j;
    if (t4) {
        result = field_noise_noise_sum(field, self.sum, 0ull);
        return result;
    }
    result = field_noise_noise_sum(field, self.sum, self.coefficient);
    return result;
}

/* ends_bench, src/entries.rt:59: Adds to each output its row's entry at place j × the value there. */
static void ends_bench_entries_add_place(char *vector, slice rows, uint64_t j, field_element_Element value, slice out)
{
    uint64_t field, k, k_end, t11, t14, t15;
    char *row, *t12, *t17;
    bool t10;
    ends_bench_entries_Pending t16;
    slice t18;
    field = ((ends_bench_leaves_vector_Vector *)vector)->layout.field;
    k = 0ull;
    k_end = rows.count;
    for (;;) {
        t10 = k < k_end;
        if (!t10) {
            break;
        }
        t11 = k * 24ull;
        t12 = rows.at + t11;
        row = t12;
        t14 = ((ends_bench_leaves_vector_Vector *)vector)->number;
        t16 = *(ends_bench_entries_Pending *)row;
        t15 = ends_bench_entries_Pending_entry_at(t16, field, j);
        t17 = out.at;
        t18 = (slice){t17, out.count};
        ends_bench_leaves_elements_add_output(t14, field, k, t15, value, t18);
        k = k + 1ull;
    }
}

/* ends_bench, src/batch.rt:22: Adds the places of strip i to the outputs, from the highest down. */
static void ends_bench_batch_add_strip(char *vector, uint64_t i, slice rows, slice out)
{
    uint64_t size, start, left, j;
    field_element_Element value;
    record_Layout t10;
    bool t11;
    char *t13;
    slice t14;
    t10 = ((ends_bench_leaves_vector_Vector *)vector)->layout;
    size = ends_bench_batch_strip_size(t10);
    start = i * size;
    left = size;
    for (;;) {
        t11 = 0ull < left;
        if (!t11) {
            break;
        }
        left = left - 1ull;
        j = start + left;
        value = ends_bench_leaves_vector_Vector_value_at(vector, j);
        t13 = out.at;
        t14 = (slice){t13, out.count};
        ends_bench_entries_add_place(vector, rows, j, value, t14);
    }
}

/* ends_bench, src/entries.rt:50: Adds each row's coefficient to its sum, at the end of a strip. */
static void ends_bench_entries_pass_terms(uint64_t field, slice rows)
{
    uint64_t row_index, row_index_end, t7, t9, t10, t11;
    char *row, *t8;
    bool t6;
    row_index = 0ull;
    row_index_end = rows.count;
    for (;;) {
        t6 = row_index < row_index_end;
        if (!t6) {
            break;
        }
        t7 = row_index * 24ull;
        t8 = rows.at + t7;
        row = t8;
        t10 = ((ends_bench_entries_Pending *)row)->sum;
        t11 = ((ends_bench_entries_Pending *)row)->coefficient;
        t9 = field_noise_noise_sum(field, t10, t11);
        ((ends_bench_entries_Pending *)row)->sum = t9;
        row_index = row_index + 1ull;
    }
}

/* ends_bench, src/batch.rt:39: Writes the outputs of at most 32 rows of the code under these round keys. */
static void ends_bench_batch_write_batch(char *vector, char *keys, code_Window window, slice out)
{
    ends_bench_entries_Pending none;
    ends_bench_entries_Pending_32 all;
    slice rows, t11, t16, t18, t20, t23;
    uint64_t i, t21;
    char *t10, *t12, *t15, *t17, *t19, *t22;
    bool t13;
    t10 = out.at;
    t11 = (slice){t10, out.count};
    core_slice_fill_uint64(t11, 0ull);
    none = (ends_bench_entries_Pending){0ull, 0ull, 0ull};
    for (int each = 0; each < 32; each++)
        all.a[each] = none;
    t12 = (char *)&all;
    rows = (slice){t12, window.count};
    i = ((ends_bench_leaves_vector_Vector *)vector)->layout.terms;
    for (;;) {
        t13 = 0ull < i;
        if (!t13) {
            break;
        }
        i = i - 1ull;
        t15 = rows.at;
        t16 = (slice){t15, rows.count};
        ends_bench_entries_make_terms(vector, keys, window.first, i, t16);
        t17 = rows.at;
        t18 = (slice){t17, rows.count};
        t19 = out.at;
        t20 = (slice){t19, out.count};
        ends_bench_batch_add_strip(vector, i, t18, t20);
        t21 = ((ends_bench_leaves_vector_Vector *)vector)->layout.field;
        t22 = rows.at;
        t23 = (slice){t22, rows.count};
        ends_bench_entries_pass_terms(t21, t23);
    }
}

/* ends_bench, src/batch.rt:72: Writes the outputs of a window over the front of a buffer. */
static void ends_bench_batch_write_outputs(char *vector, char *keys, code_Window window, slice out)
{
    uint64_t width, done, from, to, t10, t11, done_end, t14, t15, t16, t21;
    code_Window batch;
    bool t13, t22;
    char *t18, *t19;
    slice t20;
    t10 = ((ends_bench_leaves_vector_Vector *)vector)->number;
    t11 = ((ends_bench_leaves_vector_Vector *)vector)->layout.field;
    width = ends_bench_batch_value_width(t10, t11);
    done = 0ull;
    done_end = window.count;
    for (;;) {
        t13 = done < done_end;
        if (!t13) {
            break;
        }
        t14 = window.first + done;
        t16 = window.count - done;
        t15 = core_usize_min(t16, 32ull);
        batch = (code_Window){t14, t15};
        from = done * width;
        t14 = batch.count * width;
        to = from + t14;
        t16 = from * 8ull;
        t18 = (char *)((uint64_t *)out.at + from);
        t14 = to - from;
        t19 = t18;
        t20 = (slice){t19, t14};
        ends_bench_batch_write_batch(vector, keys, batch, t20);
        t21 = done_end - done;
        t22 = 32ull < t21;
        if (!t22) {
            break;
        }
        done = done + 32ull;
    }
}

/* ends_bench, src/accepted.rt:66: Writes a noise record's window. */
INLINE void ends_bench_accepted_write_both(ends_calls_accepted_NoiseRecord accepted, code_Window window, slice u_out, slice v_out)
{
    uint64_1536 words;
    uint64_40_8 keys, t12;
    tree_walk_node_TreeCipher cipher, t25, t33;
    uint64_40 code, t17;
    record_Tree_64 table, t20;
    ends_bench_leaves_vector_Vector mu, v0, t22;
    uint64_t t13;
    aes_sbox_Tables t14;
    char *t15, *t16, *t24, *t27, *t28, *t29, *t32, *t34, *t35, *t36;
    slice t18, t30, t37;
    record_Layout t19;
    ends_calls_accepted_NoiseRecord t21, t23, t31;
    for (int each = 0; each < 1536; each++)
        words.a[each] = 0ull;
    t13 = accepted.layout.branch_bits;
    t12 = tree_walk_node_child_keys(t13);
    keys = t12;
    t15 = (char *)&words;
    t14 = aes_sbox_Tables_fill(t15);
    t16 = (char *)&keys;
    cipher = (tree_walk_node_TreeCipher){t14, t16};
    t18 = accepted.source;
    t19 = accepted.layout;
    t17 = window_tests_head_code_keys(t18, t19);
    code = t17;
    t21 = accepted;
    t20 = ends_bench_leaves_table_tree_table(t21);
    table = t20;
    t23 = accepted;
    t24 = (char *)&table;
    t25 = cipher;
    t22 = ends_bench_leaves_vector_Vector_of_noise(1ull, t23, t24, t25);
    mu = t22;
    t27 = (char *)&mu;
    t28 = (char *)&code;
    t29 = u_out.at;
    t30 = (slice){t29, u_out.count};
    ends_bench_batch_write_outputs(t27, t28, window, t30);
    t31 = accepted;
    t32 = (char *)&table;
    t33 = cipher;
    t22 = ends_bench_leaves_vector_Vector_of_noise(2ull, t31, t32, t33);
    v0 = t22;
    t34 = (char *)&v0;
    t35 = (char *)&code;
    t36 = v_out.at;
    t37 = (slice){t36, v_out.count};
    ends_bench_batch_write_outputs(t34, t35, window, t37);
}

/* ends_bench, src/accepted.rt:87: The noise end's call on a record that was accepted. */
INLINE answer_TwoLengths ends_bench_accepted_write_noise(ends_calls_accepted_NoiseRecord accepted, code_Window window, slice u_out, slice
    v_out)
{
    answer_TwoLengths result;
    answer_Refusal refusal;
    Result_unit_answer_Refusal t6;
    record_Layout t7, t16;
    uint64_t t8, t9;
    ends_calls_accepted_NoiseRecord t11;
    char *t12, *t14;
    slice t13, t15;
    t7 = accepted.layout;
    t8 = u_out.count;
    t9 = v_out.count;
    t6 = ends_bench_accepted_check_noise(t7, window, t8, t9);
    switch (t6.ok.tag) {
    case 1:
        refusal = t6.err.m1;
        result = answer_TwoLengths_refused(refusal);
        return result;
    default:
        break;
    }
    t11 = accepted;
    t12 = u_out.at;
    t13 = (slice){t12, u_out.count};
    t14 = v_out.at;
    t15 = (slice){t14, v_out.count};
    ends_bench_accepted_write_both(t11, window, t13, t15);
    t16 = accepted.layout;
    t8 = ends_bench_accepted_words_for(t16, window);
    result = (answer_TwoLengths){0u, window.count, t8};
    return result;
}

/* ends_bench, src/lib.rt:21: Writes the window's outputs: u to the front of u_out, v to the front of v_out. */
INLINE answer_TwoLengths ends_bench_noise_bench(slice source, uint64_t first, uint64_t count, slice u_out, slice v_out)
{
    answer_TwoLengths result, t9;
    ends_calls_accepted_NoiseRecord accepted, t10;
    answer_Refusal refusal;
    Result_ends_calls_accepted_NoiseRecord_answer_Refusal t8;
    code_Window t11;
    char *t12, *t14;
    slice t13, t15;
    t8 = ends_calls_accepted_NoiseRecord_read(source);
    switch (t8.ok.tag) {
    case 0:
        accepted = t8.ok.m1;
        t10 = accepted;
        t11 = (code_Window){first, count};
        t12 = u_out.at;
        t13 = (slice){t12, u_out.count};
        t14 = v_out.at;
        t15 = (slice){t14, v_out.count};
        t9 = ends_bench_accepted_write_noise(t10, t11, t13, t15);
        break;
    default:
        refusal = t8.err.m1;
        t9 = answer_TwoLengths_refused(refusal);
        break;
    }
    result = t9;
    return result;
}

/* ends_bench, src/accepted.rt:52: The tests after a scalar record, for a buffer of this length. */
INLINE Result_unit_answer_Refusal ends_bench_accepted_check_scalar(record_Layout layout, code_Window window, uint64_t room)
{
    Result_unit_answer_Refusal result;
    bool t4, t7;
    answer_Refusal t5, t8;
    uint64_t t6;
    t4 = answer_lengths_is_past(window.first, window.count, layout.outputs);
    if (t4) {
        t5 = (answer_Refusal){answer_Refusal_window_past_end};
        result = (Result_unit_answer_Refusal){.err = {1u, t5}};
        return result;
    }
    t6 = ends_bench_accepted_words_for(layout, window);
    t7 = room < t6;
    if (t7) {
        t8 = (answer_Refusal){answer_Refusal_buffer_short};
        result = (Result_unit_answer_Refusal){.err = {1u, t8}};
        return result;
    }
    result = (Result_unit_answer_Refusal){.ok = {0u}};
    return result;
}

/* ends_bench, src/accepted.rt:109: Writes a scalar record's window. */
INLINE void ends_bench_accepted_write_w(ends_calls_accepted_ScalarRecord accepted, code_Window window, slice w_out)
{
    uint64_1536 words;
    uint64_40_8 keys, t10;
    tree_walk_node_TreeCipher cipher, t22;
    uint64_40 code, t15;
    record_Tree_64 table, t18;
    ends_bench_leaves_vector_Vector w0, t19;
    uint64_t t11;
    aes_sbox_Tables t12;
    char *t13, *t14, *t21, *t24, *t25, *t26;
    slice t16, t27;
    record_Layout t17;
    ends_calls_accepted_ScalarRecord t20;
    for (int each = 0; each < 1536; each++)
        words.a[each] = 0ull;
    t11 = accepted.layout.branch_bits;
    t10 = tree_walk_node_child_keys(t11);
    keys = t10;
    t13 = (char *)&words;
    t12 = aes_sbox_Tables_fill(t13);
    t14 = (char *)&keys;
    cipher = (tree_walk_node_TreeCipher){t12, t14};
    t16 = accepted.source;
    t17 = accepted.layout;
    t15 = window_tests_head_code_keys(t16, t17);
    code = t15;
    t18 = ends_bench_leaves_table_no_trees();
    table = t18;
    t20 = accepted;
    t21 = (char *)&table;
    t22 = cipher;
    t19 = ends_bench_leaves_vector_Vector_of_scalar(t20, t21, t22);
    w0 = t19;
    t24 = (char *)&w0;
    t25 = (char *)&code;
    t26 = w_out.at;
    t27 = (slice){t26, w_out.count};
    ends_bench_batch_write_outputs(t24, t25, window, t27);
}

/* ends_bench, src/accepted.rt:128: The scalar end's call on a record that was accepted. */
INLINE answer_OneLength ends_bench_accepted_write_scalar(ends_calls_accepted_ScalarRecord accepted, code_Window window, slice w_out)
{
    answer_OneLength result;
    answer_Refusal refusal;
    Result_unit_answer_Refusal t5;
    record_Layout t6, t12;
    uint64_t t7;
    ends_calls_accepted_ScalarRecord t9;
    char *t10;
    slice t11;
    t6 = accepted.layout;
    t7 = w_out.count;
    t5 = ends_bench_accepted_check_scalar(t6, window, t7);
    switch (t5.ok.tag) {
    case 1:
        refusal = t5.err.m1;
        result = answer_OneLength_refused(refusal);
        return result;
    default:
        break;
    }
    t9 = accepted;
    t10 = w_out.at;
    t11 = (slice){t10, w_out.count};
    ends_bench_accepted_write_w(t9, window, t11);
    t12 = accepted.layout;
    t7 = ends_bench_accepted_words_for(t12, window);
    result = (answer_OneLength){0u, t7};
    return result;
}

/* ends_bench, src/lib.rt:38: Writes the window's outputs: w to the front of w_out. */
INLINE answer_OneLength ends_bench_scalar_bench(slice source, uint64_t first, uint64_t count, slice w_out)
{
    answer_OneLength result, t8;
    ends_calls_accepted_ScalarRecord accepted, t9;
    answer_Refusal refusal;
    Result_ends_calls_accepted_ScalarRecord_answer_Refusal t7;
    code_Window t10;
    char *t11;
    slice t12;
    t7 = ends_calls_accepted_ScalarRecord_read(source);
    switch (t7.ok.tag) {
    case 0:
        accepted = t7.ok.m1;
        t9 = accepted;
        t10 = (code_Window){first, count};
        t11 = w_out.at;
        t12 = (slice){t11, w_out.count};
        t8 = ends_bench_accepted_write_scalar(t9, t10, t12);
        break;
    default:
        refusal = t7.err.m1;
        t8 = answer_OneLength_refused(refusal);
        break;
    }
    result = t8;
    return result;
}

/* layer_add, src/number.rt:15: Whether every word is below p, two words a turn: `iter().all` took 0.43 to 0.65 ns a word, where a loop
 * over two took 0.33, on x86-64 as LLVM compiles it. */
static bool layer_add_number_are_elements(slice words)
{
    bool result, t7, t14, t15;
    slice rest, after;
    char *first, *second, *last, *t8, *t9, *t10, *t12, *t16;
    uint64_t t11, t13, t17;
    rest = words;
    for (;;) {
        t7 = rest.count < 2ull;
        if (t7) {
            goto after1;
        }
        t8 = rest.at + 0ull;
        t9 = rest.at + 8ull;
        t10 = rest.at + 16ull;
        t11 = rest.count - 2ull;
        first = t8;
        second = t9;
        t12 = t10;
        after = (slice){t12, t11};
        t13 = *(uint64_t *)first;
        t7 = 2305843009213693951ull <= t13;
        if (t7) {
            result = false;
            return result;
        }
        t13 = *(uint64_t *)second;
        t7 = 2305843009213693951ull <= t13;
        if (t7) {
            result = false;
            return result;
        }
        rest = after;
    }
after1:;
    t15 = rest.count < 1ull;
    if (t15) {
        t14 = true;
        goto after3;
    }
    t16 = rest.at + 0ull;
    last = t16;
    t17 = *(uint64_t *)last;
    t14 = t17 < 2305843009213693951ull;
after3:;
    result = t14;
    return result;
}

/* layer_add, src/number.rt:35: Whether every word may be added: each in field 1, those below p in field 2. */
INLINE bool layer_add_number_are_words(uint64_t field, slice words)
{
    bool result, t3;
    t3 = field == 1ull;
    if (!t3) {
        t3 = layer_add_number_are_elements(words);
    }
    result = t3;
    return result;
}

/* layer_add, src/number.rt:43: The first test that is not met. */
INLINE Result_unit_answer_Refusal layer_add_number_check(uint64_t field, slice from, slice into)
{
    Result_unit_answer_Refusal result;
    bool t4, t5;
    answer_Refusal t6, t9, t10, t11;
    uint64_t t7, t8;
    t4 = field_noise_is_field(field);
    t5 = !t4;
    if (t5) {
        t6 = (answer_Refusal){answer_Refusal_bad_field};
        result = (Result_unit_answer_Refusal){.err = {1u, t6}};
        return result;
    }
    t7 = from.count;
    t8 = into.count;
    t4 = t7 != t8;
    if (t4) {
        t9 = (answer_Refusal){answer_Refusal_bad_length};
        result = (Result_unit_answer_Refusal){.err = {1u, t9}};
        return result;
    }
    t5 = layer_add_number_are_words(field, from);
    t4 = !t5;
    if (t4) {
        t10 = (answer_Refusal){answer_Refusal_not_element};
        result = (Result_unit_answer_Refusal){.err = {1u, t10}};
        return result;
    }
    t5 = layer_add_number_are_words(field, into);
    t4 = !t5;
    if (t4) {
        t11 = (answer_Refusal){answer_Refusal_not_element};
        result = (Result_unit_answer_Refusal){.err = {1u, t11}};
        return result;
    }
    result = (Result_unit_answer_Refusal){.ok = {0u}};
    return result;
}

/* layer_add, src/words.rt:11: In field 1, by exclusive or. Two loops of one line each: one over a closure would have to ask of it what
 * `prime_sum` asks of each pair. */
static void layer_add_words_add_binary(slice from, slice into)
{
    uint64_t k, k_end, t8, t11, t12;
    bool t5;
    char *t7, *t10, *t14;
    k = 0ull;
    k_end = into.count;
    for (;;) {
        t5 = k < k_end;
        if (!t5) {
            break;
        }
        t7 = (char *)((uint64_t *)from.at + k);
        t8 = *(uint64_t *)t7;
        t10 = (char *)((uint64_t *)into.at + k);
        t11 = *(uint64_t *)t10;
        t12 = t8 ^ t11;
        t14 = (char *)((uint64_t *)into.at + k);
        *(uint64_t *)t14 = t12;
        k = k + 1ull;
    }
}

/* layer_add, src/words.rt:22: The sum of two words below p, modulo p, as the definition `prime_sum` has it, with no branch and no
 * `Prime` made of either word: a sum of p or more has bit 61 once 1 is added, and is p less with that 1 and without that bit. */
INLINE uint64_t layer_add_words_prime_sum(uint64_t a, uint64_t b)
{
    uint64_t result, sum, t4, t5, t6;
    sum = a + b;
    t4 = sum + 1ull;
    t5 = t4 / 2305843009213693952ull;
    t6 = sum + t5;
    result = t6 % 2305843009213693952ull;
    return result;
}

/* layer_add, src/words.rt:31: In field 2, modulo p. */
static void layer_add_words_add_prime(slice from, slice into)
{
    uint64_t k, k_end, t6, t9, t12;
    bool t5;
    char *t8, *t11, *t14;
    k = 0ull;
    k_end = into.count;
    for (;;) {
        t5 = k < k_end;
        if (!t5) {
            break;
        }
        t8 = (char *)((uint64_t *)from.at + k);
        t9 = *(uint64_t *)t8;
        t11 = (char *)((uint64_t *)into.at + k);
        t12 = *(uint64_t *)t11;
        t6 = layer_add_words_prime_sum(t9, t12);
        t14 = (char *)((uint64_t *)into.at + k);
        *(uint64_t *)t14 = t6;
        k = k + 1ull;
    }
}

/* layer_add, src/words.rt:41: In the field of a number. */
INLINE void layer_add_words_add_words(uint64_t field, slice from, slice into)
{
    bool t4;
    char *t6, *t9;
    slice t7, t10;
    t4 = field == 1ull;
    if (t4) {
        t6 = into.at;
        t7 = (slice){t6, into.count};
        layer_add_words_add_binary(from, t7);
    } else {
        t9 = into.at;
        t10 = (slice){t9, into.count};
        layer_add_words_add_prime(from, t10);
    }
}

/* layer_add, src/lib.rt:17: Adds words to others, word for word. */
INLINE answer_OneLength layer_add_add(uint64_t field, slice from, slice into)
{
    answer_OneLength result;
    answer_Refusal refusal;
    Result_unit_answer_Refusal t5;
    char *t6, *t9;
    slice t7, t10;
    uint64_t t11;
    t6 = into.at;
    t7 = (slice){t6, into.count};
    t5 = layer_add_number_check(field, from, t7);
    switch (t5.ok.tag) {
    case 1:
        refusal = t5.err.m1;
        result = answer_OneLength_refused(refusal);
        return result;
    default:
        break;
    }
    t9 = into.at;
    t10 = (slice){t9, into.count};
    layer_add_words_add_words(field, from, t10);
    t11 = into.count;
    result = (answer_OneLength){0u, t11};
    return result;
}

/* pads_rule, src/rule.rt:13: The round keys of the pads' key, 16 bytes FF. */
INLINE uint64_40 pads_rule_rule_pad_keys(void)
{
    uint64_40 result;
    uint8_4 t1;
    uint8_4_4 t2;
    for (int each = 0; each < 4; each++)
        t1.a[each] = 255u;
    for (int each = 0; each < 4; each++)
        t2.a[each] = t1;
    result = aes128_key_schedule(t2);
    return result;
}

/* pads_rule, src/rule.rt:39: The cipher, of tables and of the round keys that `pad_keys` makes. */
INLINE pads_rule_rule_PadCipher pads_rule_rule_PadCipher_new(aes_sbox_Tables tables, char *keys)
{
    pads_rule_rule_PadCipher result;
    aes_sbox_Tables t3;
    t3 = tables;
    result = (pads_rule_rule_PadCipher){t3, keys};
    return result;
}

/* pads_rule, src/steps.rt:16: Writes the first steps of blocks a and b from a place on. */
INLINE void pads_rule_rule_PadCipher_start_two(pads_rule_rule_PadCipher self, field_block_Block a, field_block_Block b, slice pads, uint64_t
    at)
{
    aes_blocks_Two_field_block_Block s;
    aes_sbox_Tables t7;
    char *t8, *t9, *t11, *t14;
    slice t12, t15;
    field_block_Block t13, t17;
    uint64_t t16;
    t7 = self.tables;
    t8 = self.keys;
    t9 = self.keys;
    s = aes_blocks_encrypt_two(t7, t8, t9, a.low, a.high, b.low, b.high);
    t11 = pads.at;
    t12 = (slice){t11, pads.count};
    t13 = s.one;
    pads_bytes_put_block(t12, at, t13);
    t14 = pads.at;
    t15 = (slice){t14, pads.count};
    t16 = at + 16ull;
    t17 = s.other;
    pads_bytes_put_block(t15, t16, t17);
}

/* pads_rule, src/rule.rt:20: The index as a block: what a pad's second step adds to the first. */
INLINE field_block_Block pads_rule_rule_index_block(uint64_t x)
{
    field_block_Block result;
    uint64_t t2;
    t2 = x;
    result = (field_block_Block){t2, 0ull};
    return result;
}

/* pads_rule, src/rule.rt:46: The pad of index x whose first step is s, and that of index y whose first step is t, in alternation. */
INLINE aes_blocks_Two_field_block_Block pads_rule_rule_PadCipher_second_steps(pads_rule_rule_PadCipher self, uint64_t x, uint64_t y,
    field_block_Block s, field_block_Block t)
{
    aes_blocks_Two_field_block_Block result, e;
    field_block_Block p, q, t9, t13, t14, t15;
    aes_sbox_Tables t10;
    char *t11, *t12;
    t9 = pads_rule_rule_index_block(x);
    p = field_block_Block_add(s, t9);
    t9 = pads_rule_rule_index_block(y);
    q = field_block_Block_add(t, t9);
    t10 = self.tables;
    t11 = self.keys;
    t12 = self.keys;
    e = aes_blocks_encrypt_two(t10, t11, t12, p.low, p.high, q.low, q.high);
    t13 = e.one;
    t9 = field_block_Block_add(t13, s);
    t15 = e.other;
    t14 = field_block_Block_add(t15, t);
    result = (aes_blocks_Two_field_block_Block){t9, t14};
    return result;
}

/* pads_rule, src/steps.rt:27: Finishes the pads of indices x and y, whose first steps stand from a place on. */
INLINE void pads_rule_rule_PadCipher_finish_two(pads_rule_rule_PadCipher self, uint64_t x, uint64_t y, slice pads, uint64_t at)
{
    field_block_Block s, t, t18, t21;
    aes_blocks_Two_field_block_Block p;
    char *t9, *t11, *t16, *t19;
    slice t10, t12, t17, t20;
    uint64_t t13;
    pads_rule_rule_PadCipher t14;
    t9 = pads.at;
    t10 = (slice){t9, pads.count};
    s = pads_bytes_block_at(t10, at);
    t11 = pads.at;
    t12 = (slice){t11, pads.count};
    t13 = at + 16ull;
    t = pads_bytes_block_at(t12, t13);
    t14 = self;
    p = pads_rule_rule_PadCipher_second_steps(t14, x, y, s, t);
    t16 = pads.at;
    t17 = (slice){t16, pads.count};
    t18 = p.one;
    pads_bytes_put_block(t17, at, t18);
    t19 = pads.at;
    t20 = (slice){t19, pads.count};
    t13 = at + 16ull;
    t21 = p.other;
    pads_bytes_put_block(t20, t13, t21);
}

/* pads_rule, src/rule.rt:59: The pad of index x and block a. */
INLINE field_block_Block pads_rule_rule_PadCipher_one_pad(pads_rule_rule_PadCipher self, uint64_t x, field_block_Block a)
{
    field_block_Block result, s;
    aes_sbox_Tables t5;
    char *t6;
    aes_blocks_Two_field_block_Block t7;
    pads_rule_rule_PadCipher t8;
    t5 = self.tables;
    t6 = self.keys;
    s = aes_blocks_encrypt(t5, t6, a.low, a.high);
    t8 = self;
    t7 = pads_rule_rule_PadCipher_second_steps(t8, x, x, s, s);
    result = t7.one;
    return result;
}

/* pads_write, src/write.rt:17: Writes the first steps of pairs of blocks of v. */
static void pads_write_write_start_pairs(pads_rule_rule_PadCipher cipher, uint64_t pairs, slice v, slice pads)
{
    uint64_t k, at, t10;
    field_block_Block a, b;
    bool t9;
    pads_rule_rule_PadCipher t12;
    char *t13;
    slice t14;
    k = 0ull;
    for (;;) {
        t9 = k < pairs;
        if (!t9) {
            break;
        }
        at = 32ull * k;
        a = pads_bytes_block_at(v, at);
        t10 = at + 16ull;
        b = pads_bytes_block_at(v, t10);
        t12 = cipher;
        t13 = pads.at;
        t14 = (slice){t13, pads.count};
        pads_rule_rule_PadCipher_start_two(t12, a, b, t14, at);
        k = k + 1ull;
    }
}

/* pads_write, src/write.rt:30: Finishes the pads of pairs of blocks, whose first steps stand in the buffer. */
static void pads_write_write_finish_pairs(pads_rule_rule_PadCipher cipher, uint64_t first, uint64_t pairs, slice pads)
{
    uint64_t k, x, t8, t13;
    bool t7;
    pads_rule_rule_PadCipher t10;
    char *t11;
    slice t12;
    k = 0ull;
    for (;;) {
        t7 = k < pairs;
        if (!t7) {
            break;
        }
        t8 = 2ull * k;
        x = first + t8;
        t10 = cipher;
        t8 = x + 1ull;
        t11 = pads.at;
        t12 = (slice){t11, pads.count};
        t13 = 32ull * k;
        pads_rule_rule_PadCipher_finish_two(t10, x, t8, t12, t13);
        k = k + 1ull;
    }
}

/* pads_write, src/write.rt:41: Writes the pads of pairs of blocks of v. */
INLINE void pads_write_write_write_pairs(pads_rule_rule_PadCipher cipher, uint64_t first, uint64_t pairs, slice v, slice pads)
{
    pads_rule_rule_PadCipher t7, t10;
    char *t8, *t11;
    slice t9, t12;
    t7 = cipher;
    t8 = pads.at;
    t9 = (slice){t8, pads.count};
    pads_write_write_start_pairs(t7, pairs, v, t9);
    t10 = cipher;
    t11 = pads.at;
    t12 = (slice){t11, pads.count};
    pads_write_write_finish_pairs(t10, first, pairs, t12);
}

/* pads_write, src/write.rt:50: Writes the pad of each block of v, two at a time; the last of an odd count alone. */
INLINE void pads_write_write_write_pads(pads_rule_rule_PadCipher cipher, uint64_t first, uint64_t count, slice v, slice pads)
{
    uint64_t pairs, k, at, t17;
    field_block_Block a, p;
    pads_rule_rule_PadCipher t12, t16;
    char *t13, *t19;
    slice t14, t20;
    bool t15;
    pairs = count / 2ull;
    t12 = cipher;
    t13 = pads.at;
    t14 = (slice){t13, pads.count};
    pads_write_write_write_pairs(t12, first, pairs, v, t14);
    k = 2ull * pairs;
    t15 = k < count;
    if (t15) {
        at = 16ull * k;
        a = pads_bytes_block_at(v, at);
        t16 = cipher;
        t17 = first + k;
        p = pads_rule_rule_PadCipher_one_pad(t16, t17, a);
        t19 = pads.at;
        t20 = (slice){t19, pads.count};
        pads_bytes_put_block(t20, at, p);
    }
}

/* pads_write, src/write.rt:66: Writes the first steps of pads 0 and 1 of each block of w. */
static void pads_write_write_start_both_pads(pads_rule_rule_PadCipher cipher, uint64_t count, slice w, field_block_Block delta, slice pads)
{
    uint64_t k, t9;
    field_block_Block b, t12;
    bool t8;
    pads_rule_rule_PadCipher t11;
    char *t13;
    slice t14;
    k = 0ull;
    for (;;) {
        t8 = k < count;
        if (!t8) {
            break;
        }
        t9 = 16ull * k;
        b = pads_bytes_block_at(w, t9);
        t11 = cipher;
        t12 = field_block_Block_add(b, delta);
        t13 = pads.at;
        t14 = (slice){t13, pads.count};
        t9 = 32ull * k;
        pads_rule_rule_PadCipher_start_two(t11, b, t12, t14, t9);
        k = k + 1ull;
    }
}

/* pads_write, src/write.rt:77: Finishes pads 0 and 1 of each output, whose first steps stand in the buffer. */
static void pads_write_write_finish_both_pads(pads_rule_rule_PadCipher cipher, uint64_t first, uint64_t count, slice pads)
{
    uint64_t k, x, t12;
    bool t7;
    pads_rule_rule_PadCipher t9;
    char *t10;
    slice t11;
    k = 0ull;
    for (;;) {
        t7 = k < count;
        if (!t7) {
            break;
        }
        x = first + k;
        t9 = cipher;
        t10 = pads.at;
        t11 = (slice){t10, pads.count};
        t12 = 32ull * k;
        pads_rule_rule_PadCipher_finish_two(t9, x, x, t11, t12);
        k = k + 1ull;
    }
}

/* pads_write, src/write.rt:89: Writes pads 0 and 1 of each block of w. */
INLINE void pads_write_write_write_both_pads(pads_rule_rule_PadCipher cipher, uint64_t first, uint64_t count, slice w, field_block_Block
    delta, slice pads)
{
    pads_rule_rule_PadCipher t8, t11;
    char *t9, *t12;
    slice t10, t13;
    t8 = cipher;
    t9 = pads.at;
    t10 = (slice){t9, pads.count};
    pads_write_write_start_both_pads(t8, count, w, delta, t10);
    t11 = cipher;
    t12 = pads.at;
    t13 = (slice){t12, pads.count};
    pads_write_write_finish_both_pads(t11, first, count, t13);
}

/* pads_calls, src/tests.rt:16: What both ends test first: the lengths of the blocks and of the end's other slice, and the window. */
INLINE Result_unit_answer_Refusal pads_calls_tests_check_window(uint64_t first, uint64_t count, slice blocks, slice other, uint64_t size)
{
    Result_unit_answer_Refusal result;
    bool t6, t8, t11;
    uint64_t t7;
    answer_Refusal t9, t10, t12;
    t7 = blocks.count;
    t6 = answer_lengths_is_times(t7, 16ull, count);
    t8 = !t6;
    if (t8) {
        t9 = (answer_Refusal){answer_Refusal_bad_length};
        result = (Result_unit_answer_Refusal){.err = {1u, t9}};
        return result;
    }
    t7 = other.count;
    t6 = t7 != size;
    if (t6) {
        t10 = (answer_Refusal){answer_Refusal_bad_length};
        result = (Result_unit_answer_Refusal){.err = {1u, t10}};
        return result;
    }
    t11 = answer_lengths_is_past(first, count, 32768ull);
    if (t11) {
        t12 = (answer_Refusal){answer_Refusal_window_past_end};
        result = (Result_unit_answer_Refusal){.err = {1u, t12}};
        return result;
    }
    result = (Result_unit_answer_Refusal){.ok = {0u}};
    return result;
}

/* pads_calls, src/tests.rt:38: Tests the noise end's call with a buffer of `room` bytes. */
INLINE Result_unit_answer_Refusal pads_calls_tests_check_noise(uint64_t first, uint64_t count, slice v, slice choices, uint64_t room)
{
    Result_unit_answer_Refusal result, t9;
    ErrResidual_answer_Refusal t7;
    ControlFlow_ErrResidual_answer_Refusal_unit t8;
    bool t10, t12;
    answer_Refusal t11, t13;
    t9 = pads_calls_tests_check_window(first, count, v, choices, count);
    t8 = core_ResultTry_branch_unit_answer_Refusal(t9);
    switch (t8.continue_.tag) {
    case 0:
        break;
    default:
        t7 = t8.break_.m1;
        result = core_ResultFromResidualErrResidual_from_residual_unit(t7);
        return result;
    }
    t10 = answer_lengths_is_short(room, 16ull, count);
    if (t10) {
        t11 = (answer_Refusal){answer_Refusal_buffer_short};
        result = (Result_unit_answer_Refusal){.err = {1u, t11}};
        return result;
    }
    t12 = answer_bytes_any_above(1u, choices);
    if (t12) {
        t13 = (answer_Refusal){answer_Refusal_not_element};
        result = (Result_unit_answer_Refusal){.err = {1u, t13}};
        return result;
    }
    result = (Result_unit_answer_Refusal){.ok = {0u}};
    return result;
}

/* pads_calls, src/lib.rt:19: The noise end's pads: of each block of v, 16 bytes an output. The first output's index is `first`. */
INLINE uint32_t pads_calls_noise_pads(uint64_t first, uint64_t count, slice v, slice choices, slice pads)
{
    uint32_t result;
    answer_Refusal refusal;
    uint64_1536 words;
    uint64_40 keys, t12;
    pads_rule_rule_PadCipher cipher, t17;
    Result_unit_answer_Refusal t10;
    uint64_t t11;
    aes_sbox_Tables t13;
    char *t14, *t15, *t18;
    slice t19;
    t11 = pads.count;
    t10 = pads_calls_tests_check_noise(first, count, v, choices, t11);
    switch (t10.ok.tag) {
    case 1:
        refusal = t10.err.m1;
        result = answer_Refusal_number(refusal);
        return result;
    default:
        break;
    }
    for (int each = 0; each < 1536; each++)
        words.a[each] = 0ull;
    t12 = pads_rule_rule_pad_keys();
    keys = t12;
    t14 = (char *)&words;
    t13 = aes_sbox_Tables_fill(t14);
    t15 = (char *)&keys;
    cipher = pads_rule_rule_PadCipher_new(t13, t15);
    t17 = cipher;
    t18 = pads.at;
    t19 = (slice){t18, pads.count};
    pads_write_write_write_pads(t17, first, count, v, t19);
    result = 0u;
    return result;
}

/* pads_calls, src/tests.rt:58: Tests the scalar end's call with a buffer of `room` bytes. */
INLINE Result_unit_answer_Refusal pads_calls_tests_check_scalar(uint64_t first, uint64_t count, slice w, slice delta, uint64_t room)
{
    Result_unit_answer_Refusal result, t9;
    ErrResidual_answer_Refusal t7;
    ControlFlow_ErrResidual_answer_Refusal_unit t8;
    bool t10, t11, t13;
    answer_Refusal t12, t14;
    t9 = pads_calls_tests_check_window(first, count, w, delta, 16ull);
    t8 = core_ResultTry_branch_unit_answer_Refusal(t9);
    switch (t8.continue_.tag) {
    case 0:
        break;
    default:
        t7 = t8.break_.m1;
        result = core_ResultFromResidualErrResidual_from_residual_unit(t7);
        return result;
    }
    t10 = answer_bytes_any_above(0u, delta);
    t11 = !t10;
    if (t11) {
        t12 = (answer_Refusal){answer_Refusal_bad_delta};
        result = (Result_unit_answer_Refusal){.err = {1u, t12}};
        return result;
    }
    t13 = answer_lengths_is_short(room, 32ull, count);
    if (t13) {
        t14 = (answer_Refusal){answer_Refusal_buffer_short};
        result = (Result_unit_answer_Refusal){.err = {1u, t14}};
        return result;
    }
    result = (Result_unit_answer_Refusal){.ok = {0u}};
    return result;
}

/* pads_calls, src/lib.rt:34: The scalar end's pads: of each block of w, then of its sum with Δ, 32 bytes an output. The first output's
 * index is `first`. */
INLINE uint32_t pads_calls_scalar_pads(uint64_t first, uint64_t count, slice w, slice delta, slice pads)
{
    uint32_t result;
    answer_Refusal refusal;
    uint64_1536 words;
    uint64_40 keys, t13;
    pads_rule_rule_PadCipher cipher, t18;
    field_block_Block d;
    Result_unit_answer_Refusal t11;
    uint64_t t12;
    aes_sbox_Tables t14;
    char *t15, *t16, *t19;
    slice t20;
    t12 = pads.count;
    t11 = pads_calls_tests_check_scalar(first, count, w, delta, t12);
    switch (t11.ok.tag) {
    case 1:
        refusal = t11.err.m1;
        result = answer_Refusal_number(refusal);
        return result;
    default:
        break;
    }
    for (int each = 0; each < 1536; each++)
        words.a[each] = 0ull;
    t13 = pads_rule_rule_pad_keys();
    keys = t13;
    t15 = (char *)&words;
    t14 = aes_sbox_Tables_fill(t15);
    t16 = (char *)&keys;
    cipher = pads_rule_rule_PadCipher_new(t14, t16);
    d = pads_bytes_block_at(delta, 0ull);
    t18 = cipher;
    t19 = pads.at;
    t20 = (slice){t19, pads.count};
    pads_write_write_write_both_pads(t18, first, count, w, d, t20);
    result = 0u;
    return result;
}

/* pads_messages, src/tests.rt:15: Tests the correction bits with a buffer of `room` bytes. */
INLINE Result_unit_answer_Refusal pads_messages_tests_check_correction(uint64_t count, slice choices, slice wanted, uint64_t room)
{
    Result_unit_answer_Refusal result;
    bool t5, t10, t12;
    answer_Refusal t6, t8, t9, t11, t13, t14;
    uint64_t t7;
    t5 = 4096ull < count;
    if (t5) {
        t6 = (answer_Refusal){answer_Refusal_bad_length};
        result = (Result_unit_answer_Refusal){.err = {1u, t6}};
        return result;
    }
    t7 = choices.count;
    t5 = t7 != count;
    if (t5) {
        t8 = (answer_Refusal){answer_Refusal_bad_length};
        result = (Result_unit_answer_Refusal){.err = {1u, t8}};
        return result;
    }
    t7 = wanted.count;
    t5 = t7 != count;
    if (t5) {
        t9 = (answer_Refusal){answer_Refusal_bad_length};
        result = (Result_unit_answer_Refusal){.err = {1u, t9}};
        return result;
    }
    t10 = answer_bytes_any_above(1u, choices);
    if (t10) {
        t11 = (answer_Refusal){answer_Refusal_not_element};
        result = (Result_unit_answer_Refusal){.err = {1u, t11}};
        return result;
    }
    t12 = answer_bytes_any_above(1u, wanted);
    if (t12) {
        t13 = (answer_Refusal){answer_Refusal_not_element};
        result = (Result_unit_answer_Refusal){.err = {1u, t13}};
        return result;
    }
    t5 = room < count;
    if (t5) {
        t14 = (answer_Refusal){answer_Refusal_buffer_short};
        result = (Result_unit_answer_Refusal){.err = {1u, t14}};
        return result;
    }
    result = (Result_unit_answer_Refusal){.ok = {0u}};
    return result;
}

/* pads_messages, src/mask.rt:13: Writes choice exclusive-or wanted bit of each output. By an index, since three slices go side by side;
 * here and below they are C's. */
static void pads_messages_mask_write_bits(slice choices, slice wanted, slice bits_out)
{
    uint64_t k, k_end;
    bool t6;
    char *t7, *t9, *t12;
    uint8_t t8, t10, t11;
    k = 0ull;
    k_end = choices.count;
    for (;;) {
        t6 = k < k_end;
        if (!t6) {
            break;
        }
        t7 = choices.at + k;
        t8 = *(uint8_t *)t7;
        t9 = wanted.at + k;
        t10 = *(uint8_t *)t9;
        t11 = (uint8_t)(t8 ^ t10);
        t12 = bits_out.at + k;
        *(uint8_t *)t12 = t11;
        k = k + 1ull;
    }
}

/* pads_messages, src/lib.rt:18: The noise end's bits to send: choice exclusive-or wanted bit, a byte an output. */
INLINE answer_OneLength pads_messages_correction_bits(uint64_t count, slice choices, slice wanted, slice bits_out)
{
    answer_OneLength result;
    answer_Refusal refusal;
    Result_unit_answer_Refusal t6;
    uint64_t t7;
    char *t9;
    slice t10;
    t7 = bits_out.count;
    t6 = pads_messages_tests_check_correction(count, choices, wanted, t7);
    switch (t6.ok.tag) {
    case 1:
        refusal = t6.err.m1;
        result = answer_OneLength_refused(refusal);
        return result;
    default:
        break;
    }
    t9 = bits_out.at;
    t10 = (slice){t9, bits_out.count};
    pads_messages_mask_write_bits(choices, wanted, t10);
    result = (answer_OneLength){0u, count};
    return result;
}

/* pads_messages, src/tests.rt:46: Tests the answers, of 32 bytes of pads an output, or their opening, of 16, with a buffer of `room`
 * bytes. */
INLINE Result_unit_answer_Refusal pads_messages_tests_check_blocks(uint64_t width, uint64_t count, slice bits, slice pads, slice blocks,
    uint64_t room)
{
    Result_unit_answer_Refusal result;
    bool t7, t11, t14, t16;
    answer_Refusal t8, t10, t12, t13, t15, t17;
    uint64_t t9;
    t7 = 4096ull < count;
    if (t7) {
        t8 = (answer_Refusal){answer_Refusal_bad_length};
        result = (Result_unit_answer_Refusal){.err = {1u, t8}};
        return result;
    }
    t9 = bits.count;
    t7 = t9 != count;
    if (t7) {
        t10 = (answer_Refusal){answer_Refusal_bad_length};
        result = (Result_unit_answer_Refusal){.err = {1u, t10}};
        return result;
    }
    t9 = pads.count;
    t7 = answer_lengths_is_times(t9, width, count);
    t11 = !t7;
    if (t11) {
        t12 = (answer_Refusal){answer_Refusal_bad_length};
        result = (Result_unit_answer_Refusal){.err = {1u, t12}};
        return result;
    }
    t9 = blocks.count;
    t7 = answer_lengths_is_times(t9, 32ull, count);
    t11 = !t7;
    if (t11) {
        t13 = (answer_Refusal){answer_Refusal_bad_length};
        result = (Result_unit_answer_Refusal){.err = {1u, t13}};
        return result;
    }
    t14 = answer_bytes_any_above(1u, bits);
    if (t14) {
        t15 = (answer_Refusal){answer_Refusal_not_element};
        result = (Result_unit_answer_Refusal){.err = {1u, t15}};
        return result;
    }
    t16 = answer_lengths_is_short(room, width, count);
    if (t16) {
        t17 = (answer_Refusal){answer_Refusal_buffer_short};
        result = (Result_unit_answer_Refusal){.err = {1u, t17}};
        return result;
    }
    result = (Result_unit_answer_Refusal){.ok = {0u}};
    return result;
}

/* pads_messages, src/mask.rt:25: Writes from a place on the exclusive or of 16 bytes from a place of each of two slices, as blocks of
 * two words. Places are no longer than parts of slices, which a caller would have to cut three times. */
INLINE void pads_messages_mask_mask_block(slice from, uint64_t at, slice by, uint64_t start, slice out, uint64_t to)
{
    field_block_Block a, b, t12;
    char *t10;
    slice t11;
    a = pads_bytes_block_at(from, at);
    b = pads_bytes_block_at(by, start);
    t10 = out.at;
    t11 = (slice){t10, out.count};
    t12 = field_block_Block_add(a, b);
    pads_bytes_put_block(t11, to, t12);
}

/* pads_messages, src/mask.rt:36: Writes both masked messages of output k. */
INLINE void pads_messages_mask_put_answer(uint64_t k, slice bits, slice pads, slice messages, slice answers)
{
    uint64_t block0, block1, bit, named, other, t13, t14;
    char *t11, *t16, *t18;
    uint8_t t12;
    slice t17, t19;
    block0 = 32ull * k;
    block1 = block0 + 16ull;
    t11 = bits.at + k;
    t12 = *(uint8_t *)t11;
    bit = (uint64_t)t12;
    t13 = 16ull * bit;
    named = block0 + t13;
    t13 = 1ull - bit;
    t14 = 16ull * t13;
    other = block0 + t14;
    t16 = answers.at;
    t17 = (slice){t16, answers.count};
    pads_messages_mask_mask_block(messages, block0, pads, named, t17, block0);
    t18 = answers.at;
    t19 = (slice){t18, answers.count};
    pads_messages_mask_mask_block(messages, block1, pads, other, t19, block1);
}

/* pads_messages, src/mask.rt:52: Writes both masked messages of each output. */
static void pads_messages_mask_write_answers(slice bits, slice pads, slice messages, slice answers_out)
{
    uint64_t k, k_end;
    bool t7;
    char *t9;
    slice t10;
    k = 0ull;
    k_end = bits.count;
    for (;;) {
        t7 = k < k_end;
        if (!t7) {
            break;
        }
        t9 = answers_out.at;
        t10 = (slice){t9, answers_out.count};
        pads_messages_mask_put_answer(k, bits, pads, messages, t10);
        k = k + 1ull;
    }
}

/* pads_messages, src/lib.rt:38: The scalar end's answers: message 0 masked by the pad that the bit names, message 1 by the other, 32
 * bytes an output. */
INLINE answer_OneLength pads_messages_mask_messages(uint64_t count, slice bits, slice pads, slice messages, slice answers_out)
{
    answer_OneLength result;
    answer_Refusal refusal;
    Result_unit_answer_Refusal t7;
    uint64_t t8;
    char *t10;
    slice t11;
    t8 = answers_out.count;
    t7 = pads_messages_tests_check_blocks(32ull, count, bits, pads, messages, t8);
    switch (t7.ok.tag) {
    case 1:
        refusal = t7.err.m1;
        result = answer_OneLength_refused(refusal);
        return result;
    default:
        break;
    }
    t10 = answers_out.at;
    t11 = (slice){t10, answers_out.count};
    pads_messages_mask_write_answers(bits, pads, messages, t11);
    t8 = 32ull * count;
    result = (answer_OneLength){0u, t8};
    return result;
}

/* pads_messages, src/mask.rt:63: Writes the wanted message of output k. */
INLINE void pads_messages_mask_put_opened(uint64_t k, slice wanted, slice pads, slice answers, slice messages)
{
    uint64_t bit, place, t11, t12, t13;
    char *t8, *t14;
    uint8_t t9;
    slice t15;
    t8 = wanted.at + k;
    t9 = *(uint8_t *)t8;
    bit = (uint64_t)t9;
    place = 16ull * k;
    t11 = 32ull * k;
    t12 = 16ull * bit;
    t13 = t11 + t12;
    t14 = messages.at;
    t15 = (slice){t14, messages.count};
    pads_messages_mask_mask_block(answers, t13, pads, place, t15, place);
}

/* pads_messages, src/mask.rt:75: Writes the wanted message of each output. */
static void pads_messages_mask_write_opened(slice wanted, slice pads, slice answers, slice messages_out)
{
    uint64_t k, k_end;
    bool t7;
    char *t9;
    slice t10;
    k = 0ull;
    k_end = wanted.count;
    for (;;) {
        t7 = k < k_end;
        if (!t7) {
            break;
        }
        t9 = messages_out.at;
        t10 = (slice){t9, messages_out.count};
        pads_messages_mask_put_opened(k, wanted, pads, answers, t10);
        k = k + 1ull;
    }
}

/* pads_messages, src/lib.rt:59: The noise end's messages: the wanted block of each answer, masked again by its pad, 16 bytes an output. */
INLINE answer_OneLength pads_messages_unmask_messages(uint64_t count, slice wanted, slice pads, slice answers, slice messages_out)
{
    answer_OneLength result;
    answer_Refusal refusal;
    Result_unit_answer_Refusal t7;
    uint64_t t8;
    char *t10;
    slice t11;
    t8 = messages_out.count;
    t7 = pads_messages_tests_check_blocks(16ull, count, wanted, pads, answers, t8);
    switch (t7.ok.tag) {
    case 1:
        refusal = t7.err.m1;
        result = answer_OneLength_refused(refusal);
        return result;
    default:
        break;
    }
    t10 = messages_out.at;
    t11 = (slice){t10, messages_out.count};
    pads_messages_mask_write_opened(wanted, pads, answers, t11);
    t8 = 16ull * count;
    result = (answer_OneLength){0u, t8};
    return result;
}

/* pads_triples, src/tests.rt:11: Tests a call with a buffer of `room` bytes. */
INLINE Result_unit_answer_Refusal pads_triples_tests_check(slice choices, slice pads, slice pad_pairs, uint64_t room)
{
    Result_unit_answer_Refusal result;
    bool t5, t8, t11, t13;
    uint64_t t6, t7;
    answer_Refusal t9, t10, t12, t14;
    t6 = pads.count;
    t7 = choices.count;
    t5 = answer_lengths_is_times(t6, 16ull, t7);
    t8 = !t5;
    if (t8) {
        t9 = (answer_Refusal){answer_Refusal_bad_length};
        result = (Result_unit_answer_Refusal){.err = {1u, t9}};
        return result;
    }
    t6 = pad_pairs.count;
    t7 = choices.count;
    t5 = answer_lengths_is_times(t6, 32ull, t7);
    t8 = !t5;
    if (t8) {
        t10 = (answer_Refusal){answer_Refusal_bad_length};
        result = (Result_unit_answer_Refusal){.err = {1u, t10}};
        return result;
    }
    t6 = choices.count;
    t11 = answer_lengths_is_short(room, 3ull, t6);
    if (t11) {
        t12 = (answer_Refusal){answer_Refusal_buffer_short};
        result = (Result_unit_answer_Refusal){.err = {1u, t12}};
        return result;
    }
    t13 = answer_bytes_any_above(1u, choices);
    if (t13) {
        t14 = (answer_Refusal){answer_Refusal_not_element};
        result = (Result_unit_answer_Refusal){.err = {1u, t14}};
        return result;
    }
    result = (Result_unit_answer_Refusal){.ok = {0u}};
    return result;
}

/* pads_triples, src/form.rt:10: Writes the triple of output k. */
INLINE void pads_triples_form_put_triple(uint64_t k, slice choices, slice pads, slice pad_pairs, slice triples)
{
    uint8_t a, h, r, q, t12, t20, t21, t22;
    uint64_t place, t13, t16;
    char *t11, *t14, *t15, *t17, *t18, *t19, *t23;
    t11 = choices.at + k;
    t12 = *(uint8_t *)t11;
    a = t12;
    t13 = 16ull * k;
    t14 = pads.at + t13;
    t12 = *(uint8_t *)t14;
    h = (uint8_t)(t12 % 2u);
    t13 = 32ull * k;
    t15 = pad_pairs.at + t13;
    t12 = *(uint8_t *)t15;
    r = (uint8_t)(t12 % 2u);
    t13 = 32ull * k;
    t16 = t13 + 16ull;
    t17 = pad_pairs.at + t16;
    t12 = *(uint8_t *)t17;
    q = (uint8_t)(t12 % 2u);
    place = 3ull * k;
    t18 = triples.at + place;
    *(uint8_t *)t18 = a;
    t12 = (uint8_t)(r ^ q);
    t13 = place + 1ull;
    t19 = triples.at + t13;
    *(uint8_t *)t19 = t12;
    t12 = (uint8_t)(r ^ q);
    t20 = (uint8_t)(a & t12);
    t21 = (uint8_t)(t20 ^ h);
    t22 = (uint8_t)(t21 ^ r);
    t16 = place + 2ull;
    t23 = triples.at + t16;
    *(uint8_t *)t23 = t22;
}

/* pads_triples, src/form.rt:27: Writes the triple of each output. One loop with those of `pads_messages` would take a closure for its
 * one line; the three slices are C's. */
static void pads_triples_form_write_triples(slice choices, slice pads, slice pad_pairs, slice triples_out)
{
    uint64_t k, k_end;
    bool t7;
    char *t9;
    slice t10;
    k = 0ull;
    k_end = choices.count;
    for (;;) {
        t7 = k < k_end;
        if (!t7) {
            break;
        }
        t9 = triples_out.at;
        t10 = (slice){t9, triples_out.count};
        pads_triples_form_put_triple(k, choices, pads, pad_pairs, t10);
        k = k + 1ull;
    }
}

/* pads_triples, src/lib.rt:17: Forms the triple of each output, three bytes. */
INLINE answer_OneLength pads_triples_triples(slice choices, slice pads, slice pad_pairs, slice triples_out)
{
    answer_OneLength result;
    answer_Refusal refusal;
    Result_unit_answer_Refusal t6;
    uint64_t t7, t11;
    char *t9;
    slice t10;
    t7 = triples_out.count;
    t6 = pads_triples_tests_check(choices, pads, pad_pairs, t7);
    switch (t6.ok.tag) {
    case 1:
        refusal = t6.err.m1;
        result = answer_OneLength_refused(refusal);
        return result;
    default:
        break;
    }
    t9 = triples_out.at;
    t10 = (slice){t9, triples_out.count};
    pads_triples_form_write_triples(choices, pads, pad_pairs, t10);
    t7 = choices.count;
    t11 = 3ull * t7;
    result = (answer_OneLength){0u, t11};
    return result;
}

/* record_describe, src/lib.rt:37: The answer for a refused record. */
INLINE record_describe_Described record_describe_Described_refused(answer_Refusal refusal)
{
    record_describe_Described result;
    uint32_t t2;
    uint8_16 t3, t4;
    t2 = answer_Refusal_number(refusal);
    for (int each = 0; each < 16; each++)
        t3.a[each] = 0u;
    for (int each = 0; each < 16; each++)
        t4.a[each] = 0u;
    result = (record_describe_Described){t2, 0u, 0u, 0ull, 0ull, 0ull, 0ull, 0ull, 0ull, 0ull, t3, t4};
    return result;
}

/* record_describe, src/lib.rt:58: The 16 bytes at a place. By `try_from` of a slice they would come in a `Result` whose error never
 * comes. */
INLINE uint8_16 record_describe_sixteen_at(slice source, uint64_t at)
{
    uint8_16 result, block;
    char *t5, *t8, *t10;
    slice t6, t11;
    uint64_t t7, t9;
    for (int each = 0; each < 16; each++)
        block.a[each] = 0u;
    t5 = (char *)&block;
    t6 = (slice){t5, 16ull};
    t7 = at + 16ull;
    t8 = source.at + at;
    t9 = t7 - at;
    t10 = t8;
    t11 = (slice){t10, t9};
    core_slice_copy_from_slice_uint8(t6, t11);
    result = block;
    return result;
}

/* record_describe, src/lib.rt:68: The answer for an accepted record of an end. */
INLINE record_describe_Described record_describe_accepted(record_End end, slice source, record_Layout layout)
{
    record_describe_Described result;
    uint8_t t4, t5;
    uint64_t t6, t7, t9, t11;
    uint8_16 t8, t10;
    t4 = record_End_byte(end);
    t5 = (uint8_t)layout.field;
    t6 = record_sizes_leaves(layout.depth);
    t7 = field_width_element_width(layout.field);
    t9 = layout.body - 16ull;
    t8 = record_describe_sixteen_at(source, t9);
    t11 = layout.body - 32ull;
    t10 = record_describe_sixteen_at(source, t11);
    result = (record_describe_Described){0u, t4, t5, layout.depth, layout.branch_bits, layout.trees, layout.terms, layout.outputs, t6, t7,
        t8, t10};
    return result;
}

/* record_describe, src/lib.rt:89: The answer for a noise record. Each end has its reader and its definition, so one function would take
 * both as parameters. */
INLINE record_describe_Described record_describe_noise_head(slice source)
{
    record_describe_Described result, t5;
    record_Layout layout;
    answer_Refusal refusal;
    Result_record_Layout_answer_Refusal t4;
    record_End t6;
    t4 = record_reading_noise_read_noise(source);
    switch (t4.ok.tag) {
    case 0:
        layout = t4.ok.m1;
        t6 = (record_End){record_End_noise};
        t5 = record_describe_accepted(t6, source, layout);
        break;
    default:
        refusal = t4.err.m1;
        t5 = record_describe_Described_refused(refusal);
        break;
    }
    result = t5;
    return result;
}

/* record_describe, src/lib.rt:99: The answer for a scalar record. */
INLINE record_describe_Described record_describe_scalar_head(slice source)
{
    record_describe_Described result, t5;
    record_Layout layout;
    answer_Refusal refusal;
    Result_record_Layout_answer_Refusal t4;
    record_End t6;
    t4 = record_reading_scalar_read_scalar(source);
    switch (t4.ok.tag) {
    case 0:
        layout = t4.ok.m1;
        t6 = (record_End){record_End_scalar};
        t5 = record_describe_accepted(t6, source, layout);
        break;
    default:
        refusal = t4.err.m1;
        t5 = record_describe_Described_refused(refusal);
        break;
    }
    result = t5;
    return result;
}

/* record_describe, src/lib.rt:109: The head of a record that its end would accept, or that record's number. The end byte says whose
 * tests apply. */
INLINE record_describe_Described record_describe_describe(slice source)
{
    record_describe_Described result, t8;
    char *byte;
    answer_Refusal wrong_end, t5;
    Option_ref_uint8 t4;
    Result_record_End_answer_Refusal t6;
    uint8_t t7;
    t4 = core_slice_first_uint8(source);
    switch (t4.none.tag) {
    case 1:
        byte = t4.some.m1;
        break;
    default:
        t5 = (answer_Refusal){answer_Refusal_record_ends};
        result = record_describe_Described_refused(t5);
        return result;
    }
    t7 = *(uint8_t *)byte;
    t6 = record_EndTryFromU8_try_from(t7);
    switch (t6.ok.tag) {
    case 0:
        switch (t6.ok.m1.tag) {
        case record_End_noise:
            t8 = record_describe_noise_head(source);
            break;
        default:
            t8 = record_describe_scalar_head(source);
            break;
        }
        break;
    default:
        wrong_end = t6.err.m1;
        t8 = record_describe_Described_refused(wrong_end);
        break;
    }
    result = t8;
    return result;
}

/* stock::LabelPartialEq::eq, made by the kit */
INLINE bool stock_LabelPartialEq_eq(char *self, char *other)
{
    bool result, t5, t6;
    char *t3, *t4;
    t3 = (char *)&((stock_Label *)self)->bytes;
    t4 = (char *)&((stock_Label *)other)->bytes;
    t6 = core_ArrayPartialEq_eq_uint8_16(t3, t4);
    t5 = t6;
    result = t5;
    return result;
}

/* stock_calls, src/shares.rt:11: Whether a number is 1 to a largest one. The test of a dealing's sizes is as short (`is_size` of
 * `dealing_tests`); each says the definition of its own call. */
INLINE bool stock_calls_shares_is_count(uint64_t most, uint64_t n)
{
    bool result, t3;
    t3 = 1ull <= n;
    if (t3) {
        t3 = n <= most;
    }
    result = t3;
    return result;
}

/* stock_calls, src/shares.rt:18: The shares of a slice, with zeros past them. `fresh_wires` of `circuit_step` is as short: each says its
 * own call's definition. */
INLINE uint32_8 stock_calls_shares_padded(slice shares)
{
    uint32_8 result, each_2;
    uint64_t t4;
    char *t5;
    slice t6;
    for (int each = 0; each < 8; each++)
        each_2.a[each] = 0u;
    t4 = shares.count;
    t5 = (char *)&each_2;
    t6 = (slice){t5, t4};
    core_slice_copy_from_slice_uint32(t6, shares);
    result = each_2;
    return result;
}

/* stock_calls, src/shares.rt:28: The sum of eight shares. */
static uint64_t stock_calls_shares_total(uint32_8 shares)
{
    uint64_t result, sum, share_index, t13;
    uint32_8 shares_slot;
    char *share_items, *share, *t7, *t10, *t11;
    bool t8;
    uint32_t t12;
    shares_slot = shares;
    sum = 0ull;
    t7 = (char *)&shares_slot;
    share_items = t7;
    share_index = 0ull;
    for (;;) {
        t8 = share_index < 8ull;
        if (!t8) {
            break;
        }
        t10 = share_items;
        t11 = (char *)((uint32_t *)t10 + share_index);
        share = t11;
        t12 = *(uint32_t *)share;
        t13 = (uint64_t)t12;
        sum = sum + t13;
        share_index = share_index + 1ull;
    }
    result = sum;
    return result;
}

/* stock_calls, src/lib.rt:27: The shares of an opening, padded to eight, once its tests are met. */
INLINE Result_uint32_8_answer_Refusal stock_calls_opening_shares(uint64_t outputs, slice shares)
{
    Result_uint32_8_answer_Refusal result;
    uint32_8 each_2;
    bool t4, t6;
    uint64_t t5;
    answer_Refusal t7, t8, t9;
    t5 = shares.count;
    t4 = stock_calls_shares_is_count(8ull, t5);
    t6 = !t4;
    if (t6) {
        t7 = (answer_Refusal){answer_Refusal_bad_size};
        result = (Result_uint32_8_answer_Refusal){.err = {1u, t7}};
        return result;
    }
    t4 = stock_calls_shares_is_count(32768ull, outputs);
    t6 = !t4;
    if (t6) {
        t8 = (answer_Refusal){answer_Refusal_bad_size};
        result = (Result_uint32_8_answer_Refusal){.err = {1u, t8}};
        return result;
    }
    each_2 = stock_calls_shares_padded(shares);
    t5 = stock_calls_shares_total(each_2);
    t4 = outputs < t5;
    if (t4) {
        t9 = (answer_Refusal){answer_Refusal_shares_above};
        result = (Result_uint32_8_answer_Refusal){.err = {1u, t9}};
        return result;
    }
    result = (Result_uint32_8_answer_Refusal){.ok = {0u, each_2}};
    return result;
}

/* stock_calls, src/shares.rt:40: Consecutive blocks of the outputs, from index 0 in caller order. `at` is the sum of the shares so far,
 * and goes into two arrays: `scan` would take a closure for it, and two loops. */
static stock_Stock stock_calls_shares_blocks_of(stock_Label label, uint32_t callers, uint32_8 shares)
{
    stock_Stock result;
    uint32_8 shares_slot, next, end, t20, t21;
    uint64_t n, k;
    uint32_t at, t10, t17;
    bool t11;
    char *t13, *t14, *t15, *t16, *t18, *t19;
    shares_slot = shares;
    t10 = core_u32_min(callers, 8u);
    n = (uint64_t)t10;
    for (int each = 0; each < 8; each++)
        next.a[each] = 0u;
    for (int each = 0; each < 8; each++)
        end.a[each] = 0u;
    at = 0u;
    k = 0ull;
    for (;;) {
        t11 = k < n;
        if (!t11) {
            break;
        }
        t13 = (char *)&next;
        t14 = (char *)((uint32_t *)t13 + k);
        *(uint32_t *)t14 = at;
        t15 = (char *)&shares_slot;
        t16 = (char *)((uint32_t *)t15 + k);
        t17 = *(uint32_t *)t16;
        at = (uint32_t)(at + t17);
        t18 = (char *)&end;
        t19 = (char *)((uint32_t *)t18 + k);
        *(uint32_t *)t19 = at;
        k = k + 1ull;
    }
    t20 = next;
    t21 = end;
    result = (stock_Stock){callers, label, t20, t21};
    return result;
}

/* stock_calls, src/lib.rt:58: A refused opening: a stock without callers, under label 0. */
INLINE stock_OpenedStock stock_calls_refused_opening(answer_Refusal refusal)
{
    stock_OpenedStock result;
    uint32_t t2;
    uint8_16 t3;
    stock_Label t4;
    uint32_8 t5, t6;
    stock_Stock t7;
    t2 = answer_Refusal_number(refusal);
    for (int each = 0; each < 16; each++)
        t3.a[each] = 0u;
    t4 = (stock_Label){t3};
    for (int each = 0; each < 8; each++)
        t5.a[each] = 0u;
    for (int each = 0; each < 8; each++)
        t6.a[each] = 0u;
    t7 = (stock_Stock){0u, t4, t5, t6};
    result = (stock_OpenedStock){t2, t7};
    return result;
}

/* stock_calls, src/lib.rt:45: Opens a stock under a label with a share for each caller, as consecutive blocks of the outputs. */
INLINE stock_OpenedStock stock_calls_open(stock_Label label, uint64_t outputs, slice shares)
{
    stock_OpenedStock result, t7;
    uint32_8 each_2;
    answer_Refusal refusal;
    Result_uint32_8_answer_Refusal t6;
    stock_Stock t8;
    uint64_t t9;
    uint32_t t10;
    t6 = stock_calls_opening_shares(outputs, shares);
    switch (t6.ok.tag) {
    case 0:
        each_2 = t6.ok.m1;
        t9 = shares.count;
        t10 = (uint32_t)t9;
        t8 = stock_calls_shares_blocks_of(label, t10, each_2);
        t7 = (stock_OpenedStock){0u, t8};
        break;
    default:
        refusal = t6.err.m1;
        t7 = stock_calls_refused_opening(refusal);
        break;
    }
    result = t7;
    return result;
}

/* stock_calls, src/labels.rt:23: Whether two labels are the same. */
INLINE bool stock_calls_labels_is_same(stock_Label label, stock_Label other)
{
    bool result;
    stock_Label label_slot, other_slot;
    char *t5, *t6;
    label_slot = label;
    other_slot = other;
    t5 = (char *)&label_slot;
    t6 = (char *)&other_slot;
    result = stock_LabelPartialEq_eq(t5, t6);
    return result;
}

/* stock_calls, src/shares.rt:62: Whether a stock has a caller. */
INLINE bool stock_calls_shares_is_caller(stock_Stock stock, uint64_t caller)
{
    bool result, t3;
    uint64_t t4;
    t3 = caller < 8ull;
    if (t3) {
        t4 = (uint64_t)stock.callers;
        t3 = caller < t4;
    }
    result = t3;
    return result;
}

/* stock_calls, src/shares.rt:69: A caller's remaining share. */
INLINE uint32_t stock_calls_shares_holding(stock_Stock stock, uint64_t caller)
{
    uint32_t result, t10, t14;
    stock_Stock stock_slot, t5;
    bool t4, t6;
    char *t8, *t9, *t12, *t13;
    stock_slot = stock;
    t5 = stock_slot;
    t4 = stock_calls_shares_is_caller(t5, caller);
    t6 = !t4;
    if (t6) {
        result = 0u;
        return result;
    }
    t8 = (char *)&stock_slot.end;
    t9 = (char *)((uint32_t *)t8 + caller);
    t10 = *(uint32_t *)t9;
    t12 = (char *)&stock_slot.next;
    t13 = (char *)((uint32_t *)t12 + caller);
    t14 = *(uint32_t *)t13;
    result = core_u32_saturating_sub(t10, t14);
    return result;
}

/* stock_calls, src/lib.rt:74: Tests a draw. */
INLINE Result_unit_answer_Refusal stock_calls_check_draw(stock_Stock stock, stock_Label label, uint64_t caller, uint64_t count)
{
    Result_unit_answer_Refusal result;
    bool t5, t7;
    stock_Label t6;
    answer_Refusal t8, t9, t12;
    uint32_t t10;
    uint64_t t11;
    t6 = stock.label;
    t5 = stock_calls_labels_is_same(label, t6);
    t7 = !t5;
    if (t7) {
        t8 = (answer_Refusal){answer_Refusal_label_not_in_use};
        result = (Result_unit_answer_Refusal){.err = {1u, t8}};
        return result;
    }
    t5 = stock_calls_shares_is_caller(stock, caller);
    t7 = !t5;
    if (t7) {
        t9 = (answer_Refusal){answer_Refusal_no_caller};
        result = (Result_unit_answer_Refusal){.err = {1u, t9}};
        return result;
    }
    t10 = stock_calls_shares_holding(stock, caller);
    t11 = (uint64_t)t10;
    t5 = t11 < count;
    if (t5) {
        t12 = (answer_Refusal){answer_Refusal_share_spent};
        result = (Result_unit_answer_Refusal){.err = {1u, t12}};
        return result;
    }
    result = (Result_unit_answer_Refusal){.ok = {0u}};
    return result;
}

/* stock_calls, src/lib.rt:116: A refused draw: no index, and the stock as it was. */
INLINE stock_Drawn stock_calls_refused_draw(stock_Stock stock, answer_Refusal refusal)
{
    stock_Drawn result;
    uint32_t t3;
    t3 = answer_Refusal_number(refusal);
    result = (stock_Drawn){t3, 0ull, 0ull, stock};
    return result;
}

/* stock_calls, src/lib.rt:100: An accepted draw: a window from the caller's next index on, which is raised by the count. */
INLINE stock_Drawn stock_calls_accepted_draw(stock_Stock stock, uint64_t caller, uint64_t count)
{
    stock_Drawn result;
    stock_Stock stock_slot, after, t11;
    uint32_t first, t10, t12;
    uint64_t t7;
    char *t8, *t9, *t13, *t14;
    stock_slot = stock;
    t7 = caller * 4ull;
    t8 = (char *)&stock_slot.next;
    t9 = (char *)((uint32_t *)t8 + caller);
    t10 = *(uint32_t *)t9;
    first = t10;
    t11 = stock_slot;
    after = t11;
    t10 = (uint32_t)count;
    t12 = (uint32_t)(first + t10);
    t7 = caller * 4ull;
    t13 = (char *)&after.next;
    t14 = (char *)((uint32_t *)t13 + caller);
    *(uint32_t *)t14 = t12;
    t7 = (uint64_t)first;
    t11 = after;
    result = (stock_Drawn){0u, t7, count, t11};
    return result;
}

/* stock_calls, src/lib.rt:90: The caller's next `count` indices, as a window. */
INLINE stock_Drawn stock_calls_draw(stock_Stock stock, stock_Label label, uint64_t caller, uint64_t count)
{
    stock_Drawn result;
    answer_Refusal refusal;
    Result_unit_answer_Refusal t6;
    t6 = stock_calls_check_draw(stock, label, caller, count);
    switch (t6.ok.tag) {
    case 1:
        refusal = t6.err.m1;
        result = stock_calls_refused_draw(stock, refusal);
        return result;
    default:
        break;
    }
    result = stock_calls_accepted_draw(stock, caller, count);
    return result;
}

/* stock_calls, src/lib.rt:129: What a draw would return, and the stock that it would leave. The one place that makes the second struct
 * of the C interface of the first: a `From` would be of two answers of C, one call's for another's. */
INLINE stock_Previewed stock_calls_preview(stock_Stock stock, stock_Label label, uint64_t caller, uint64_t count)
{
    stock_Previewed result;
    stock_Drawn drawn;
    stock_Stock t6;
    drawn = stock_calls_draw(stock, label, caller, count);
    t6 = drawn.stock;
    result = (stock_Previewed){drawn.number, drawn.first, drawn.count, t6};
    return result;
}

/* stock_calls, src/labels.rt:9: Whether a label is above another one: the highest byte in which they differ decides. */
static bool stock_calls_labels_is_above(stock_Label label, stock_Label other)
{
    bool result, t8;
    stock_Label label_slot, other_slot;
    uint64_t at;
    uint8_t a, b, t11;
    char *t9, *t10, *t12, *t13;
    label_slot = label;
    other_slot = other;
    at = 16ull;
    for (;;) {
        t8 = 0ull < at;
        if (!t8) {
            break;
        }
        at = at - 1ull;
        t9 = (char *)&label_slot.bytes;
        t10 = t9 + at;
        t11 = *(uint8_t *)t10;
        a = t11;
        t12 = (char *)&other_slot.bytes;
        t13 = t12 + at;
        t11 = *(uint8_t *)t13;
        b = t11;
        t8 = a != b;
        if (t8) {
            result = b < a;
            return result;
        }
    }
    result = false;
    return result;
}

/* stock_calls, src/shares.rt:79: What each of the eight callers has not drawn. By a loop: by `array::from_fn` the check does not find
 * the proof. */
static uint32_8 stock_calls_shares_rest(stock_Stock stock)
{
    uint32_8 result, each_2;
    uint64_t caller;
    bool t4;
    uint32_t t5;
    char *t7, *t8;
    for (int each = 0; each < 8; each++)
        each_2.a[each] = 0u;
    caller = 0ull;
    for (;;) {
        t4 = caller < 8ull;
        if (!t4) {
            break;
        }
        t5 = stock_calls_shares_holding(stock, caller);
        t7 = (char *)&each_2;
        t8 = (char *)((uint32_t *)t7 + caller);
        *(uint32_t *)t8 = t5;
        caller = caller + 1ull;
    }
    result = each_2;
    return result;
}

/* stock_calls, src/lib.rt:143: The unspent shares that pass to a dealing, once a passage's tests are met. */
INLINE Result_uint32_8_answer_Refusal stock_calls_passing_shares(stock_Stock stock, stock_Label label, uint64_t outputs)
{
    Result_uint32_8_answer_Refusal result;
    uint32_8 each_2;
    bool t5, t6;
    answer_Refusal t7, t9, t11;
    stock_Label t8;
    uint64_t t10;
    t5 = stock_calls_shares_is_count(32768ull, outputs);
    t6 = !t5;
    if (t6) {
        t7 = (answer_Refusal){answer_Refusal_bad_size};
        result = (Result_uint32_8_answer_Refusal){.err = {1u, t7}};
        return result;
    }
    t8 = stock.label;
    t5 = stock_calls_labels_is_above(label, t8);
    t6 = !t5;
    if (t6) {
        t9 = (answer_Refusal){answer_Refusal_label_not_above};
        result = (Result_uint32_8_answer_Refusal){.err = {1u, t9}};
        return result;
    }
    each_2 = stock_calls_shares_rest(stock);
    t10 = stock_calls_shares_total(each_2);
    t5 = outputs < t10;
    if (t5) {
        t11 = (answer_Refusal){answer_Refusal_shares_above};
        result = (Result_uint32_8_answer_Refusal){.err = {1u, t11}};
        return result;
    }
    result = (Result_uint32_8_answer_Refusal){.ok = {0u, each_2}};
    return result;
}

/* stock_calls, src/lib.rt:162: Passes a stock to a dealing with another label: each caller keeps its unspent share, as a block of the
 * fresh outputs. A refused passage leaves the stock as it was. */
INLINE stock_OpenedStock stock_calls_pass(stock_Stock stock, stock_Label label, uint64_t outputs)
{
    stock_OpenedStock result, t7;
    uint32_8 each_2;
    answer_Refusal refusal;
    Result_uint32_8_answer_Refusal t6;
    stock_Stock t8;
    uint32_t t9;
    t6 = stock_calls_passing_shares(stock, label, outputs);
    switch (t6.ok.tag) {
    case 0:
        each_2 = t6.ok.m1;
        t8 = stock_calls_shares_blocks_of(label, stock.callers, each_2);
        t7 = (stock_OpenedStock){0u, t8};
        break;
    default:
        refusal = t6.err.m1;
        t9 = answer_Refusal_number(refusal);
        t7 = (stock_OpenedStock){t9, stock};
        break;
    }
    result = t7;
    return result;
}

/* expander, src/lib.rt:23: Deals both records from field, sizes, roots, positions, noise values, Δ, code key and label. */
INLINE answer_TwoLengths expander_expander_deal(uint8_t field, uint64_t depth, uint64_t branch_bits, uint64_t trees, uint64_t terms,
    uint64_t outputs, slice roots, slice positions, slice values, slice delta, slice code_key, slice label, slice noise_record, slice
    scalar_record)
{
    answer_TwoLengths result;
    char *t15, *t17;
    slice t16, t18;
    t15 = noise_record.at;
    t16 = (slice){t15, noise_record.count};
    t17 = scalar_record.at;
    t18 = (slice){t17, scalar_record.count};
    result = dealing_call_deal(field, depth, branch_bits, trees, terms, outputs, roots, positions, values, delta, code_key, label, t16,
        t18);
    return result;
}

/* expander, src/record_heads.rt:9: The head of a record that its end would accept, or that record's number. */
INLINE record_describe_Described expander_record_heads_expander_describe(slice source)
{
    record_describe_Described result;
    result = record_describe_describe(source);
    return result;
}

/* expander, src/lib.rt:81: The noise end's offline call: the accumulated noise and v. */
INLINE answer_TwoLengths expander_expander_noise_offline(slice source, slice noise, slice v)
{
    answer_TwoLengths result;
    char *t4, *t6;
    slice t5, t7;
    t4 = noise.at;
    t5 = (slice){t4, noise.count};
    t6 = v.at;
    t7 = (slice){t6, v.count};
    result = ends_calls_noise_offline(source, t5, t7);
    return result;
}

/* expander, src/lib.rt:95: The scalar end's offline call: the accumulated w, and Δ. */
INLINE answer_TwoLengths expander_expander_scalar_offline(slice source, slice w, slice delta)
{
    answer_TwoLengths result;
    char *t4, *t6;
    slice t5, t7;
    t4 = w.at;
    t5 = (slice){t4, w.count};
    t6 = delta.at;
    t7 = (slice){t6, delta.count};
    result = ends_calls_scalar_offline(source, t5, t7);
    return result;
}

/* expander, src/layer_sums.rt:10: Adds `from` to `into`, word for word: exclusive or in field 1, modulo p in field 2. */
INLINE answer_OneLength expander_layer_sums_expander_add(uint8_t field, slice from, slice into)
{
    answer_OneLength result;
    uint64_t t4;
    char *t5;
    slice t6;
    t4 = (uint64_t)field;
    t5 = into.at;
    t6 = (slice){t5, into.count};
    result = layer_add_add(t4, from, t6);
    return result;
}

/* expander, src/lib.rt:109: The noise end's online call: a window of u and v. */
INLINE answer_TwoLengths expander_expander_noise_online(slice source, slice noise, slice v, uint64_t first, uint64_t count, slice u_out,
    slice v_out)
{
    answer_TwoLengths result;
    char *t8, *t10;
    slice t9, t11;
    t8 = u_out.at;
    t9 = (slice){t8, u_out.count};
    t10 = v_out.at;
    t11 = (slice){t10, v_out.count};
    result = ends_calls_noise_online(source, noise, v, first, count, t9, t11);
    return result;
}

/* expander, src/lib.rt:127: The scalar end's online call: a window of w. */
INLINE answer_OneLength expander_expander_scalar_online(slice source, slice w, uint64_t first, uint64_t count, slice w_out)
{
    answer_OneLength result;
    char *t6;
    slice t7;
    t6 = w_out.at;
    t7 = (slice){t6, w_out.count};
    result = ends_calls_scalar_online(source, w, first, count, t7);
    return result;
}

/* expander, src/bench_windows.rt:10: Writes a window of u and v from a noise record alone. */
INLINE answer_TwoLengths expander_bench_windows_expander_noise_direct(slice source, uint64_t first, uint64_t count, slice u_out, slice
    v_out)
{
    answer_TwoLengths result;
    char *t6, *t8;
    slice t7, t9;
    t6 = u_out.at;
    t7 = (slice){t6, u_out.count};
    t8 = v_out.at;
    t9 = (slice){t8, v_out.count};
    result = ends_bench_noise_bench(source, first, count, t7, t9);
    return result;
}

/* expander, src/bench_windows.rt:26: Writes a window of w from a scalar record alone. */
INLINE answer_OneLength expander_bench_windows_expander_scalar_direct(slice source, uint64_t first, uint64_t count, slice w_out)
{
    answer_OneLength result;
    char *t5;
    slice t6;
    t5 = w_out.at;
    t6 = (slice){t5, w_out.count};
    result = ends_bench_scalar_bench(source, first, count, t6);
    return result;
}

/* expander, src/lib.rt:142: The noise end's pads of a window. */
INLINE uint32_t expander_expander_noise_pads(uint64_t first, uint64_t count, slice v, slice choices, slice pads)
{
    uint32_t result;
    char *t6;
    slice t7;
    t6 = pads.at;
    t7 = (slice){t6, pads.count};
    result = pads_calls_noise_pads(first, count, v, choices, t7);
    return result;
}

/* expander, src/lib.rt:157: The scalar end's pads of a window, both messages of each output. */
INLINE uint32_t expander_expander_scalar_pads(uint64_t first, uint64_t count, slice w, slice delta, slice pads)
{
    uint32_t result;
    char *t6;
    slice t7;
    t6 = pads.at;
    t7 = (slice){t6, pads.count};
    result = pads_calls_scalar_pads(first, count, w, delta, t7);
    return result;
}

/* expander, src/chosen_messages.rt:10: The noise end's bits to send: choice exclusive-or wanted bit of each output. */
INLINE answer_OneLength expander_chosen_messages_expander_correction_bits(uint64_t count, slice choices, slice wanted, slice bits_out)
{
    answer_OneLength result;
    char *t5;
    slice t6;
    t5 = bits_out.at;
    t6 = (slice){t5, bits_out.count};
    result = pads_messages_correction_bits(count, choices, wanted, t6);
    return result;
}

/* expander, src/chosen_messages.rt:25: The scalar end's answers: both messages of each output, masked. */
INLINE answer_OneLength expander_chosen_messages_expander_mask_messages(uint64_t count, slice bits, slice pads, slice messages, slice
    answers_out)
{
    answer_OneLength result;
    char *t6;
    slice t7;
    t6 = answers_out.at;
    t7 = (slice){t6, answers_out.count};
    result = pads_messages_mask_messages(count, bits, pads, messages, t7);
    return result;
}

/* expander, src/chosen_messages.rt:41: The noise end's messages: the wanted one of each output, unmasked. */
INLINE answer_OneLength expander_chosen_messages_expander_unmask_messages(uint64_t count, slice wanted, slice pads, slice answers, slice
    messages_out)
{
    answer_OneLength result;
    char *t6;
    slice t7;
    t6 = messages_out.at;
    t7 = (slice){t6, messages_out.count};
    result = pads_messages_unmask_messages(count, wanted, pads, answers, t7);
    return result;
}

/* expander, src/and_triples.rt:10: An end's triples, from its choices and pads in one pairing and its pairs of pads in another. */
INLINE answer_OneLength expander_and_triples_expander_triples(slice choices, slice pads, slice pad_pairs, slice triples_out)
{
    answer_OneLength result;
    char *t5;
    slice t6;
    t5 = triples_out.at;
    t6 = (slice){t5, triples_out.count};
    result = pads_triples_triples(choices, pads, pad_pairs, t6);
    return result;
}

/* expander, src/circuits.rt:11: One step of an end's run of a circuit, on the state that the step before left. */
INLINE circuit_run_Stepped expander_circuits_expander_circuit_step(uint8_t role, slice circuit, slice shares, slice triples, slice output,
    uint8_t far_first, uint8_t far_second, circuit_run_StepState state)
{
    circuit_run_Stepped result;
    char *t9;
    slice t10;
    t9 = output.at;
    t10 = (slice){t9, output.count};
    result = circuit_step_step_run(role, circuit, shares, triples, t10, far_first, far_second, state);
    return result;
}

/* expander, src/circuits.rt:46: One round of an end's run of a circuit, on the state that the round before left. */
INLINE circuit_run_Rounded expander_circuits_expander_circuit_round(uint8_t role, slice circuit, slice shares, slice triples, slice output,
    slice far_bits, slice bits_out, circuit_run_RoundState state)
{
    circuit_run_Rounded result;
    char *t9, *t11;
    slice t10, t12;
    t9 = output.at;
    t10 = (slice){t9, output.count};
    t11 = bits_out.at;
    t12 = (slice){t11, bits_out.count};
    result = circuit_round_round_run(role, circuit, shares, triples, t10, far_bits, t12, state);
    return result;
}

/* expander, src/circuits.rt:81: What a circuit is: its inputs, gates, outputs, ANDs and rounds, or the number that it is refused with. */
INLINE circuit_describe_DescribedCircuit expander_circuits_expander_describe_circuit(slice circuit)
{
    circuit_describe_DescribedCircuit result;
    result = circuit_describe_describe_circuit(circuit);
    return result;
}

/* expander, src/stocks.rt:9: Opens a stock under a label with a share for each caller, as consecutive blocks of the outputs. */
INLINE stock_OpenedStock expander_stocks_expander_open_stock(stock_Label label, uint64_t outputs, slice shares)
{
    stock_OpenedStock result;
    result = stock_calls_open(label, outputs, shares);
    return result;
}

/* expander, src/stocks.rt:19: The caller's next `count` indices, as a window. */
INLINE stock_Drawn expander_stocks_expander_draw(stock_Stock stock, stock_Label label, uint64_t caller, uint64_t count)
{
    stock_Drawn result;
    result = stock_calls_draw(stock, label, caller, count);
    return result;
}

/* expander, src/stocks.rt:30: What a draw would return, and the stock that it would leave. */
INLINE stock_Previewed expander_stocks_expander_preview(stock_Stock stock, stock_Label label, uint64_t caller, uint64_t count)
{
    stock_Previewed result;
    result = stock_calls_preview(stock, label, caller, count);
    return result;
}

/* expander, src/stocks.rt:46: Passes a stock to a dealing with another label: each caller keeps its unspent share, as a block of the
 * fresh outputs. */
INLINE stock_OpenedStock expander_stocks_expander_pass_stock(stock_Stock stock, stock_Label label, uint64_t outputs)
{
    stock_OpenedStock result;
    result = stock_calls_pass(stock, label, outputs);
    return result;
}

/* expander, src/signed_amounts.rt:9: The amount that an element of field 2 is read as. */
INLINE amounts_Amount expander_signed_amounts_expander_read_amount(uint64_t element)
{
    amounts_Amount result;
    result = amounts_read_amount(element);
    return result;
}

/* expander, src/signed_amounts.rt:17: The element of field 2 that is read as an amount. */
INLINE amounts_WrittenAmount expander_signed_amounts_expander_write_amount(uint64_t amount)
{
    amounts_WrittenAmount result;
    result = amounts_write_amount(amount);
    return result;
}

/* expander, src/versions.rt:7: The version as a number, as the header has it. */
INLINE uint32_t expander_versions_expander_version(void)
{
    uint32_t result;
    result = 20200u;
    return result;
}

INLINE circuit_run_StepState from_expander_run(struct expander_run given)
{
    circuit_run_StepState result;
    result.phase = given.phase;
    result.gate = given.gate;
    for (int k = 0; k < 4096; k++)
        result.wires.a[k] = given.wires[k];
    return result;
}

INLINE circuit_run_RoundState from_expander_round_state(struct expander_round_state given)
{
    circuit_run_RoundState result;
    for (int k = 0; k < 4096; k++)
        result.wires.a[k] = given.wires[k];
    return result;
}

INLINE stock_Label from_expander_label(struct expander_label given)
{
    stock_Label result;
    for (int k = 0; k < 16; k++)
        result.bytes.a[k] = given.bytes[k];
    return result;
}

INLINE stock_Stock from_expander_stock(struct expander_stock given)
{
    stock_Stock result;
    result.callers = given.callers;
    result.label = from_expander_label(given.label);
    for (int k = 0; k < 8; k++)
        result.next.a[k] = given.next[k];
    for (int k = 0; k < 8; k++)
        result.end.a[k] = given.end[k];
    return result;
}

INLINE struct expander_two_lengths to_expander_two_lengths(answer_TwoLengths given)
{
    struct expander_two_lengths result;
    result.number = given.number;
    result.first_written = (size_t)given.first_written;
    result.second_written = (size_t)given.second_written;
    return result;
}

INLINE struct expander_described to_expander_described(record_describe_Described given)
{
    struct expander_described result;
    result.number = given.number;
    result.end = given.end;
    result.field = given.field;
    result.depth = (size_t)given.depth;
    result.branch_bits = (size_t)given.branch_bits;
    result.trees = (size_t)given.trees;
    result.terms = (size_t)given.terms;
    result.outputs = (size_t)given.outputs;
    result.leaves = (size_t)given.leaves;
    result.element_words = (size_t)given.element_words;
    for (int k = 0; k < 16; k++)
        result.label[k] = given.label.a[k];
    for (int k = 0; k < 16; k++)
        result.code_key[k] = given.code_key.a[k];
    return result;
}

INLINE struct expander_one_length to_expander_one_length(answer_OneLength given)
{
    struct expander_one_length result;
    result.number = given.number;
    result.written = (size_t)given.written;
    return result;
}

INLINE struct expander_run to_expander_run(circuit_run_StepState given)
{
    struct expander_run result;
    result.phase = given.phase;
    result.gate = given.gate;
    for (int k = 0; k < 4096; k++)
        result.wires[k] = given.wires.a[k];
    return result;
}

INLINE struct expander_stepped to_expander_stepped(circuit_run_Stepped given)
{
    struct expander_stepped result;
    result.number = given.number;
    result.written = (size_t)given.written;
    result.first_bit = given.first_bit;
    result.second_bit = given.second_bit;
    result.state = to_expander_run(given.state);
    return result;
}

INLINE struct expander_round_state to_expander_round_state(circuit_run_RoundState given)
{
    struct expander_round_state result;
    for (int k = 0; k < 4096; k++)
        result.wires[k] = given.wires.a[k];
    return result;
}

INLINE struct expander_rounded to_expander_rounded(circuit_run_Rounded given)
{
    struct expander_rounded result;
    result.number = given.number;
    result.written = (size_t)given.written;
    result.bits_written = (size_t)given.bits_written;
    result.state = to_expander_round_state(given.state);
    return result;
}

INLINE struct expander_described_circuit to_expander_described_circuit(circuit_describe_DescribedCircuit given)
{
    struct expander_described_circuit result;
    result.number = given.number;
    result.inputs = (size_t)given.inputs;
    result.gates = (size_t)given.gates;
    result.outputs = (size_t)given.outputs;
    result.ands = (size_t)given.ands;
    result.rounds = (size_t)given.rounds;
    return result;
}

INLINE struct expander_label to_expander_label(stock_Label given)
{
    struct expander_label result;
    for (int k = 0; k < 16; k++)
        result.bytes[k] = given.bytes.a[k];
    return result;
}

INLINE struct expander_stock to_expander_stock(stock_Stock given)
{
    struct expander_stock result;
    result.callers = given.callers;
    result.label = to_expander_label(given.label);
    for (int k = 0; k < 8; k++)
        result.next[k] = given.next.a[k];
    for (int k = 0; k < 8; k++)
        result.end[k] = given.end.a[k];
    return result;
}

INLINE struct expander_opened_stock to_expander_opened_stock(stock_OpenedStock given)
{
    struct expander_opened_stock result;
    result.number = given.number;
    result.stock = to_expander_stock(given.stock);
    return result;
}

INLINE struct expander_drawn to_expander_drawn(stock_Drawn given)
{
    struct expander_drawn result;
    result.number = given.number;
    result.first = (size_t)given.first;
    result.count = (size_t)given.count;
    result.stock = to_expander_stock(given.stock);
    return result;
}

INLINE struct expander_previewed to_expander_previewed(stock_Previewed given)
{
    struct expander_previewed result;
    result.number = given.number;
    result.first = (size_t)given.first;
    result.count = (size_t)given.count;
    result.after = to_expander_stock(given.after);
    return result;
}

INLINE struct expander_amount to_expander_amount(amounts_Amount given)
{
    struct expander_amount result;
    result.number = given.number;
    result.amount = as_signed(given.amount);
    return result;
}

INLINE struct expander_written_amount to_expander_written_amount(amounts_WrittenAmount given)
{
    struct expander_written_amount result;
    result.number = given.number;
    result.element = given.element;
    return result;
}

struct expander_two_lengths expander_deal(
    uint8_t field, size_t depth, size_t branch_bits, size_t trees, size_t terms, size_t outputs,
    const uint8_t *roots, size_t roots_len,
    const uint32_t *positions, size_t positions_len,
    const uint64_t *values, size_t values_len,
    const uint8_t *delta, size_t delta_len,
    const uint8_t *code_key, size_t code_key_len,
    const uint8_t *label, size_t label_len,
    uint8_t *noise_record, size_t noise_record_len,
    uint8_t *scalar_record, size_t scalar_record_len)
{
    return to_expander_two_lengths(expander_expander_deal(field, depth, branch_bits, trees, terms, outputs, (slice){(char *)roots,
        roots_len}, (slice){(char *)positions, positions_len}, (slice){(char *)values, values_len}, (slice){(char *)delta, delta_len},
        (slice){(char *)code_key, code_key_len}, (slice){(char *)label, label_len}, (slice){(char *)noise_record, noise_record_len},
        (slice){(char *)scalar_record, scalar_record_len}));
}

struct expander_described expander_describe(const uint8_t *source, size_t source_len)
{
    return to_expander_described(expander_record_heads_expander_describe((slice){(char *)source, source_len}));
}

struct expander_two_lengths expander_noise_offline(
    const uint8_t *source, size_t source_len,
    uint64_t *noise, size_t noise_len,
    uint64_t *v, size_t v_len)
{
    return to_expander_two_lengths(expander_expander_noise_offline((slice){(char *)source, source_len}, (slice){(char *)noise, noise_len},
        (slice){(char *)v, v_len}));
}

struct expander_two_lengths expander_scalar_offline(
    const uint8_t *source, size_t source_len,
    uint64_t *w, size_t w_len,
    uint64_t *delta, size_t delta_len)
{
    return to_expander_two_lengths(expander_expander_scalar_offline((slice){(char *)source, source_len}, (slice){(char *)w, w_len},
        (slice){(char *)delta, delta_len}));
}

struct expander_one_length expander_add(
    uint8_t field, const uint64_t *from, size_t from_len, uint64_t *into, size_t into_len)
{
    return to_expander_one_length(expander_layer_sums_expander_add(field, (slice){(char *)from, from_len}, (slice){(char *)into,
        into_len}));
}

struct expander_two_lengths expander_noise_online(
    const uint8_t *source, size_t source_len,
    const uint64_t *noise, size_t noise_len,
    const uint64_t *v, size_t v_len,
    size_t first, size_t count,
    uint64_t *u_out, size_t u_out_len,
    uint64_t *v_out, size_t v_out_len)
{
    return to_expander_two_lengths(expander_expander_noise_online((slice){(char *)source, source_len}, (slice){(char *)noise, noise_len},
        (slice){(char *)v, v_len}, first, count, (slice){(char *)u_out, u_out_len}, (slice){(char *)v_out, v_out_len}));
}

struct expander_one_length expander_scalar_online(
    const uint8_t *source, size_t source_len,
    const uint64_t *w, size_t w_len,
    size_t first, size_t count,
    uint64_t *w_out, size_t w_out_len)
{
    return to_expander_one_length(expander_expander_scalar_online((slice){(char *)source, source_len}, (slice){(char *)w, w_len}, first,
        count, (slice){(char *)w_out, w_out_len}));
}

struct expander_two_lengths expander_noise_direct(
    const uint8_t *source, size_t source_len,
    size_t first, size_t count,
    uint64_t *u_out, size_t u_out_len,
    uint64_t *v_out, size_t v_out_len)
{
    return to_expander_two_lengths(expander_bench_windows_expander_noise_direct((slice){(char *)source, source_len}, first, count,
        (slice){(char *)u_out, u_out_len}, (slice){(char *)v_out, v_out_len}));
}

struct expander_one_length expander_scalar_direct(
    const uint8_t *source, size_t source_len,
    size_t first, size_t count,
    uint64_t *w_out, size_t w_out_len)
{
    return to_expander_one_length(expander_bench_windows_expander_scalar_direct((slice){(char *)source, source_len}, first, count,
        (slice){(char *)w_out, w_out_len}));
}

uint32_t expander_noise_pads(
    size_t first, size_t count,
    const uint8_t *v, size_t v_len,
    const uint8_t *choices, size_t choices_len,
    uint8_t *pads, size_t pads_len)
{
    return expander_expander_noise_pads(first, count, (slice){(char *)v, v_len}, (slice){(char *)choices, choices_len}, (slice){(char
        *)pads, pads_len});
}

uint32_t expander_scalar_pads(
    size_t first, size_t count,
    const uint8_t *w, size_t w_len,
    const uint8_t *delta, size_t delta_len,
    uint8_t *pads, size_t pads_len)
{
    return expander_expander_scalar_pads(first, count, (slice){(char *)w, w_len}, (slice){(char *)delta, delta_len}, (slice){(char *)pads,
        pads_len});
}

struct expander_one_length expander_correction_bits(
    size_t count,
    const uint8_t *choices, size_t choices_len,
    const uint8_t *wanted, size_t wanted_len,
    uint8_t *bits_out, size_t bits_out_len)
{
    return to_expander_one_length(expander_chosen_messages_expander_correction_bits(count, (slice){(char *)choices, choices_len},
        (slice){(char *)wanted, wanted_len}, (slice){(char *)bits_out, bits_out_len}));
}

struct expander_one_length expander_mask_messages(
    size_t count,
    const uint8_t *bits, size_t bits_len,
    const uint8_t *pads, size_t pads_len,
    const uint8_t *messages, size_t messages_len,
    uint8_t *answers_out, size_t answers_out_len)
{
    return to_expander_one_length(expander_chosen_messages_expander_mask_messages(count, (slice){(char *)bits, bits_len}, (slice){(char
        *)pads, pads_len}, (slice){(char *)messages, messages_len}, (slice){(char *)answers_out, answers_out_len}));
}

struct expander_one_length expander_unmask_messages(
    size_t count,
    const uint8_t *wanted, size_t wanted_len,
    const uint8_t *pads, size_t pads_len,
    const uint8_t *answers, size_t answers_len,
    uint8_t *messages_out, size_t messages_out_len)
{
    return to_expander_one_length(expander_chosen_messages_expander_unmask_messages(count, (slice){(char *)wanted, wanted_len},
        (slice){(char *)pads, pads_len}, (slice){(char *)answers, answers_len}, (slice){(char *)messages_out, messages_out_len}));
}

struct expander_one_length expander_triples(
    const uint8_t *choices, size_t choices_len,
    const uint8_t *pads, size_t pads_len,
    const uint8_t *pad_pairs, size_t pad_pairs_len,
    uint8_t *triples_out, size_t triples_out_len)
{
    return to_expander_one_length(expander_and_triples_expander_triples((slice){(char *)choices, choices_len}, (slice){(char *)pads,
        pads_len}, (slice){(char *)pad_pairs, pad_pairs_len}, (slice){(char *)triples_out, triples_out_len}));
}

struct expander_stepped expander_circuit_step(
    uint8_t role,
    const uint8_t *circuit, size_t circuit_len,
    const uint8_t *shares, size_t shares_len,
    const uint8_t *triples, size_t triples_len,
    uint8_t *output, size_t output_len,
    uint8_t far_first, uint8_t far_second,
    struct expander_run state)
{
    return to_expander_stepped(expander_circuits_expander_circuit_step(role, (slice){(char *)circuit, circuit_len}, (slice){(char *)shares,
        shares_len}, (slice){(char *)triples, triples_len}, (slice){(char *)output, output_len}, far_first, far_second,
        from_expander_run(state)));
}

struct expander_rounded expander_circuit_round(
    uint8_t role,
    const uint8_t *circuit, size_t circuit_len,
    const uint8_t *shares, size_t shares_len,
    const uint8_t *triples, size_t triples_len,
    uint8_t *output, size_t output_len,
    const uint8_t *far_bits, size_t far_bits_len,
    uint8_t *bits_out, size_t bits_out_len,
    struct expander_round_state state)
{
    return to_expander_rounded(expander_circuits_expander_circuit_round(role, (slice){(char *)circuit, circuit_len}, (slice){(char *)shares,
        shares_len}, (slice){(char *)triples, triples_len}, (slice){(char *)output, output_len}, (slice){(char *)far_bits, far_bits_len},
        (slice){(char *)bits_out, bits_out_len}, from_expander_round_state(state)));
}

struct expander_described_circuit expander_describe_circuit(const uint8_t *circuit, size_t circuit_len)
{
    return to_expander_described_circuit(expander_circuits_expander_describe_circuit((slice){(char *)circuit, circuit_len}));
}

struct expander_opened_stock expander_open_stock(
    struct expander_label label, size_t outputs,
    const uint32_t *shares, size_t shares_len)
{
    return to_expander_opened_stock(expander_stocks_expander_open_stock(from_expander_label(label), outputs, (slice){(char *)shares,
        shares_len}));
}

struct expander_drawn expander_draw(
    struct expander_stock stock, struct expander_label label, size_t caller, size_t count)
{
    return to_expander_drawn(expander_stocks_expander_draw(from_expander_stock(stock), from_expander_label(label), caller, count));
}

struct expander_previewed expander_preview(
    struct expander_stock stock, struct expander_label label, size_t caller, size_t count)
{
    return to_expander_previewed(expander_stocks_expander_preview(from_expander_stock(stock), from_expander_label(label), caller, count));
}

struct expander_opened_stock expander_pass_stock(
    struct expander_stock stock, struct expander_label label, size_t outputs)
{
    return to_expander_opened_stock(expander_stocks_expander_pass_stock(from_expander_stock(stock), from_expander_label(label), outputs));
}

struct expander_amount expander_read_amount(uint64_t element)
{
    return to_expander_amount(expander_signed_amounts_expander_read_amount(element));
}

struct expander_written_amount expander_write_amount(int64_t amount)
{
    return to_expander_written_amount(expander_signed_amounts_expander_write_amount((uint64_t)amount));
}

uint32_t expander_version(void)
{
    return expander_versions_expander_version();
}
