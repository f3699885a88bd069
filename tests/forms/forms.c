/* Holds the C that tools/c-file prints of forms.rt and more.rt to the same in plain C, on inputs of all kinds. */
#include "printed.c"
#include <stdio.h>
#include <string.h>

static unsigned long count;
#define CHECK(x) do { count++; if (!(x)) { printf("line %d: %s\n", __LINE__, #x); return 1; } } while (0)
static uint64_t state = 88172645463325252ull;
static uint64_t next(void) { state ^= state << 13; state ^= state >> 7; state ^= state << 17; return state; }
static slice bytes(uint8_t *at, uint64_t n) { slice s = {(char *)at, n}; return s; }
static slice words(uint64_t *at, uint64_t n) { slice s = {(char *)at, n}; return s; }
static uint64_t min(uint64_t a, uint64_t b) { return a < b ? a : b; }

static int forms(void)
{
    for (int turn = 0; turn < 3000; turn++) {
        uint8_t b[70]; uint64_t w[40], v[40], u[40];
        uint64_t n = next() % 40, m = next() % 70;
        for (int k = 0; k < 70; k++) b[k] = (uint8_t)next();
        for (int k = 0; k < 40; k++) { w[k] = next() % (turn % 3 ? 8 : UINT64_MAX); v[k] = next(); u[k] = v[k]; }
        if (turn % 5 == 0) n = 0;
        if (turn % 7 == 0) m = turn % 3;
        forms_zero(words(u, n));
        for (uint64_t k = 0; k < 40; k++) CHECK(u[k] == (k < n ? 0 : v[k]));
        memcpy(u, v, sizeof u);
        Result_tuple_uint64_uint64_forms_Refusal r = forms_two(bytes(b, m));
        CHECK(r.ok.tag == (m < 2));
        if (m >= 2) CHECK(r.ok.m1.m0 == b[0] && r.ok.m1.m1 == b[1]);
        else CHECK(r.err.m1.tag == 1);
        CHECK(forms_code(r) == (m < 2 ? 10 : 0));
        CHECK(forms_sum_of(bytes(b, m)) == (m < 2 ? 2000u : (uint64_t)(b[0] ^ b[1])));
        uint8_t top = 0; bool any = false, all = true; uint64_t chunks = 0;
        for (uint64_t k = 0; k < m; k++) { if (b[k] > top) top = b[k]; any |= b[k] > 250; all &= b[k] > 2; }
        for (uint64_t k = 0; k + 8 <= m; k += 8) chunks ^= b[k];
        CHECK(forms_most(bytes(b, m)) == top);
        CHECK(forms_any(250, bytes(b, m)) == any);
        CHECK(forms_all(2, bytes(b, m)) == all);
        CHECK(forms_chunks(bytes(b, m)) == chunks);
        forms_add(words(w, n), words(u, n));
        for (uint64_t k = 0; k < 40; k++) CHECK(u[k] == (k < n ? v[k] ^ w[k] : v[k]));
        memcpy(u, v, sizeof u);
        forms_ranged(words(u, n));
        uint64_t total = 0;
        for (uint64_t k = 0; k < 40; k++) { total ^= v[k]; CHECK(u[k] == (k < n ? total : v[k])); }
        memcpy(u, v, sizeof u);
        forms_acc(words(u, n)); total = 0;
        for (uint64_t k = 0; k < 40; k++) { total ^= v[k]; CHECK(u[k] == (k < n ? total : v[k])); }
        uint64_t at = next() % 62, word;
        memcpy(&word, b + at, 8);
        CHECK(forms_word_at(bytes(b, 70), at) == word);
        uint8_t c[70]; memcpy(c, b, 70); word = next(); memcpy(c + at, &word, 8);
        forms_put_word(bytes(b, 70), at, word);
        CHECK(!memcmp(b, c, 70));
        memcpy(u, v, sizeof u);
        forms_front(words(w, 40), n, words(u, 40));
        for (uint64_t k = 0; k < 40; k++) CHECK(u[k] == (k < n ? w[k] : v[k]));
        Option_uint8 f = forms_first_of(bytes(b, m));
        CHECK(f.none.tag == (m > 0) && (m == 0 || f.some.m1 == b[0]));
        CHECK(forms_first_or(bytes(b, m), 77) == (m ? b[0] : 77));
        Option_tuple_uint8_uint8 ft = forms_first_two(bytes(b, m));
        CHECK(ft.none.tag == (m > 1) && (m < 2 || (ft.some.m1.m0 == b[0] && ft.some.m1.m1 == b[1])));
        for (uint8_t k = 0; k < 2; k++) {
            CHECK(forms_code_of((forms_Refusal){k}) == (k ? 10u : 2u));
            for (uint8_t j = 0; j < 2; j++) CHECK(forms_same((forms_Refusal){k}, (forms_Refusal){j}) == (k == j));
            CHECK(forms_is_end((Result_forms_Read_forms_Refusal){.err = {1, {k}}}) == (k == 1));
        }
        CHECK(!forms_is_end((Result_forms_Read_forms_Refusal){.ok = {0, {1, 1}}}));
        Option_forms_Percent p = forms_make_percent(n * 3);
        CHECK(p.none.tag == (n * 3 <= 100) && (n * 3 > 100 || forms_rest(p.some.m1) == 100 - n * 3));
        forms_Square sq[9]; forms_Line ln[9]; uint64_t bs = 0, bl = 0; uint64_t q = n % 10;
        for (uint64_t k = 0; k < q; k++) {
            sq[k].side = (uint32_t)next(); ln[k].long_ = next();
            uint64_t x = sq[k].side ^ ((uint64_t)sq[k].side + sq[k].side);
            if (x > bs) bs = x;
            if (ln[k].long_ > bl) bl = ln[k].long_;
        }
        CHECK(forms_squares((slice){(char *)sq, q}) == bs);
        CHECK(forms_lines((slice){(char *)ln, q}) == bl);
        CHECK(forms_boxes(w[0], w[1]) == (w[0] ^ w[1] ^ w[0]));
        total = 0;
        for (uint64_t k = 0; k < n; k++) total ^= w[k] ^ k;
        CHECK(forms_places(words(w, n)) == total);
        Option_uint64 t = forms_top(words(w, n)); total = 0;
        for (uint64_t k = 0; k < n; k++) if (w[k] > total) total = w[k];
        CHECK(t.none.tag == (n > 0) && (n == 0 || t.some.m1 == total));
        uint8_8 by = forms_bytes_of(w[3]); CHECK(!memcmp(by.a, &w[3], 8)); CHECK(forms_word_of(by) == w[3]);
        uint8_4 h; memcpy(h.a, &w[4], 4); CHECK(forms_half_of(h) == (uint32_t)w[4]);
        CHECK(forms_least(w[0], w[1]) == (w[0] < w[1] ? w[0] : w[1]));
    }
    return 0;
}

static int more(void)
{
    static const uint8_t digits[20] = {3, 1, 4, 1, 5, 9, 2, 6, 5, 3, 5, 8, 9, 7, 9, 3, 2, 3, 8, 4};
    for (int turn = 0; turn < 3000; turn++) {
        uint8_t b[70], c[70]; uint64_t w[40], v[40];
        uint64_t n = next() % 40, m = next() % 70;
        for (int k = 0; k < 70; k++) c[k] = b[k] = turn % 2 ? (uint8_t)next() : (uint8_t)(next() % 12);
        for (int k = 0; k < 40; k++) { w[k] = next() % (turn % 3 ? 8 : UINT64_MAX); v[k] = w[k]; }
        if (turn % 5 == 0) n = turn % 3;
        if (turn % 7 == 0) m = turn % 3;
        more_Pair p = {w[0], (uint32_t)w[1]}, q = {w[2], (uint32_t)w[3]};
        CHECK(more_of_pair(p) == (w[0] ^ (uint32_t)w[1]));
        CHECK(more_same_pairs(p, q) == (p.left == q.left && p.right == q.right) && more_same_pairs(p, p));
        Result_uint64_more_Fault r = more_turned(bytes(b, m));
        if (m == 0) CHECK(r.err.tag == 1 && more_weight(r.err.m1) == 1);
        else if (b[0] == 7) CHECK(r.err.tag == 1 && more_weight(r.err.m1) == 4);
        else CHECK(r.ok.tag == 0 && r.ok.m1 == b[0]);
        more_Fault f[4] = {{.nothing = {2}}, {.number = {1, w[1], 5}}, {.refused = {0, {0}}}, {.refused = {0, {1}}}};
        CHECK(more_weight(f[0]) == 3 && more_weight(f[1]) == (w[1] ^ 5) && more_weight(f[2]) == 2 && more_weight(f[3]) == 1);
        for (int j = 0; j < 4; j++) for (int k = 0; k < 4; k++) CHECK(more_same_faults(f[j], f[k]) == (j == k));
        uint8_16 x, y; memcpy(x.a, b, 16); memcpy(y.a, b, 16); CHECK(more_same_words(x, y));
        y.a[next() % 16] ^= 1; CHECK(!more_same_words(x, y));
        CHECK(more_same_slices(bytes(b, m), bytes(c, m))); CHECK(!more_same_slices(bytes(b, m), bytes(c, m + 1)));
        if (m) { c[m - 1] ^= 1; CHECK(!more_same_slices(bytes(b, m), bytes(c, m))); c[m - 1] ^= 1; }
        Option_uint32 o = more_narrowed(w[4]); CHECK(o.none.tag == (w[4] <= UINT32_MAX) && (!o.none.tag || o.some.m1 == w[4]));
        Result_uint8_forms_Refusal e = more_small(w[4] * 100); CHECK(e.ok.tag == (w[4] * 100 > 255) && (e.ok.tag ? e.err.m1.tag == 0 : e.ok.m1 == w[4] * 100));
        e = more_first(bytes(b, m)); CHECK(e.ok.tag == (m == 0) && (e.ok.tag ? e.err.m1.tag == 1 : e.ok.m1 == b[0]));
        CHECK(more_widened((uint32_t)w[1]) == (uint32_t)w[1]);
        Option_uint64 at = more_place(bytes(b, m), 7); uint64_t k = 0; while (k < m && b[k] != 7) k++;
        CHECK(at.none.tag == (k < m) && (k == m || at.some.m1 == k));
        uint64_t last = 0; for (k = n; k-- > 0;) last = (last / 2) ^ w[k];
        CHECK(more_backwards(words(w, n)) == last);
        more_swapped(words(w, n)); if (n > 1) { uint64_t s = v[0]; v[0] = v[1]; v[1] = s; } CHECK(!memcmp(v, w, sizeof v));
        uint64_t cut = n ? next() % (n + 1) : 0; more_halves(words(w, n), cut);
        for (k = 0; k < min(cut, n - cut); k++) v[k] ^= v[cut + k];
        CHECK(!memcmp(v, w, sizeof v));
        uint64_4 d = more_doubled((char *)w); for (k = 0; k < 4; k++) CHECK(d.a[k] == w[k] / 2);
        more_masked(0xff00ff, words(w, n)); if (n > 2) v[2] = (v[2] ^ 0xff00ff) / 2; CHECK(!memcmp(v, w, sizeof v));
        for (k = 0; k < 25; k++) CHECK(more_look(k) == (k < 20 ? digits[k] : 0));
        uint64_t many = 0; for (k = 0; k < m; k++) many += b[k] > 9;
        CHECK(more_counted(bytes(b, m)) == many); CHECK(more_last(bytes(b, m)) == (m ? b[m - 1] : 0));
        Option_uint64 none = {.none = {0}}, some = {.some = {1, w[1]}}, more = {.some = {1, w[2]}};
        CHECK(more_chosen(none, none) == 0 && more_chosen(some, none) == w[1] && more_chosen(none, more) == w[2] && more_chosen(some, more) == (w[1] ^ w[2]));
        uint64_t a = next(), z = next() % 3 ? next() : UINT64_MAX - a;
        uint64_t total = a > UINT64_MAX - z ? UINT64_MAX : a + z; CHECK(more_capped(a, z) == min(total, 1000)); CHECK(more_capped(w[1] % 500, 3) == w[1] % 500 + 3);
        Option_uint64 s = more_sum(a, z); CHECK(s.none.tag == (a <= UINT64_MAX - z) && (!s.none.tag || s.some.m1 == a + z));
        z = next() % 2 ? z : z % 5; s = more_product(a, z); CHECK(s.none.tag == (z == 0 || a <= UINT64_MAX / z) && (!s.none.tag || s.some.m1 == a * z));
        CHECK(more_gap(a, z) == (a > z ? a - z : z - a));
        CHECK(more_rooms(m) == (m + 63) / 64);
        uint32_t ones = 0, above = 0, below = 0; uint64_t odd = next() >> (turn % 65 % 64) << (turn % 63);
        for (k = 0; k < 64; k++) ones += (uint32_t)(odd >> k & 1);
        while (above < 64 && !(odd >> (63 - above) & 1)) above++;
        while (below < 64 && !(odd >> below & 1)) below++;
        CHECK(more_bits(odd) == (ones ^ above ^ below)); CHECK(more_bits(0) == (64 ^ 64));
        CHECK(more_turning(a, z) == ((a + z) ^ (z - a)));
        CHECK(more_turning_bytes((uint8_t)a, (uint8_t)z) == (uint8_t)((uint8_t)(a + z) ^ (uint8_t)(z - a)));
        CHECK(more_magnitude(a) == (a >> 63 ? 0 - a : a));
        s = more_signed_sum(a, z); total = a + z;
        bool fits = a >> 63 != z >> 63 || a >> 63 == total >> 63;
        CHECK(s.none.tag == fits && (!fits || s.some.m1 == total));
        s = more_signed_of(a); CHECK(s.none.tag == !(a >> 63) && (a >> 63 || s.some.m1 == a));
        more_eights(bytes(b, m)); for (k = 0; k + 4 <= m; k += 4) c[k] ^= c[k + 3];
        CHECK(!memcmp(b, c, sizeof b));
        forms_Read reads[9]; last = 0; for (k = 0; k < 9; k++) { reads[k].value = next(); reads[k].next = 0; if (k < n && reads[k].value > last) last = reads[k].value; }
        CHECK(more_reads((slice){(char *)reads, min(n, 9)}) == last);
        Option_uint64 all[5]; for (k = 0; k < 5; k++) all[k] = next() % 2 ? none : some;
        Option_uint64 old[5]; memcpy(old, all, sizeof all); more_options((slice){(char *)all, 4});
        for (k = 0; k < 4; k++) CHECK(all[k].none.tag == 1 && all[k].some.m1 == (old[k].none.tag ? w[1] ^ 1 : 9));
        CHECK(!memcmp(&all[4], &old[4], sizeof all[4]));
        more_inner_Count g = more_inner_Count_none(); CHECK(g.n == 0 && !g.is_done); g.n = 7;
        bool is7 = false, le7 = true; for (k = 0; k < n; k++) { is7 |= w[k] == 7; le7 &= w[k] <= 7; }
        CHECK(more_inner_Count_some(g, words(w, n)) == (is7 && le7));
    }
    return 0;
}

int main(void)
{
    if (forms() || more())
        return 1;
    printf("forms: %lu facts hold\n", count);
    return 0;
}
