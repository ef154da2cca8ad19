/* The header from C: two operations built, compared, hashed, measured and filed, types renamed, a mark gone back to, attributes set, an
 * operation copied, twins found, a listing's question answered, and the listing converted. Gives the number of the first thing that isn't
 * as it should be, or 0. */
#include "warzhigo.h"

#include <stdlib.h>
#include <string.h>

int main(void) {
    uint32_t *store = calloc(wz_store_words(), sizeof *store);
    uint32_t *mapping = malloc(wz_mapping_words() * sizeof *mapping);
    memset(mapping, 0xff, wz_mapping_words() * sizeof *mapping);
    if (!wz_is_sound(store, wz_store_words())) return 1;

    const uint32_t type = 5;
    wz_outcome l = wz_new_operation(store, wz_store_words(), 8, false, 0, 1, 0, &type, 1, NULL, 0, NULL, 0);
    wz_outcome r = wz_known_new_operation(store, wz_store_words(), 8, false, 0, 2, 0, &type, 1, NULL, 0, NULL, 0);
    if (l.code != 0 || l.number != 0 || r.code != 0 || r.number != 1) return 2;
    wz_outcome placed = wz_new_operation(store, wz_store_words(), 8, true, 0, 1, 0, &type, 1, NULL, 0, NULL, 0);
    if (placed.code != 2 || placed.number != 2) return 3;

    wz_verdict equal = wz_operation_eq(store, wz_store_words(), NULL, 0, mapping, wz_mapping_words(), 0, 1, true, 0);
    if (equal.code != 0 || equal.paired != 1 || mapping[0] != 1 || equal.left != 0 || equal.right != 0) return 4;
    wz_verdict unequal = wz_known_operation_eq(store, wz_store_words(), NULL, 0, mapping, wz_mapping_words(), 0, 1, false, 0);
    if (unequal.code != 1 || unequal.left != 0 || unequal.right != 1 || unequal.paired != 0) return 5;
    wz_verdict refused = wz_operation_eq(store, wz_store_words(), NULL, 0, mapping, 1, 0, 1, false, 0);
    if (refused.code != 4 || refused.left != 8 || refused.right != 0 || refused.paired != 0) return 6;

    wz_sum left = wz_operation_hash(store, wz_store_words(), NULL, 0, 0, true, 0);
    wz_sum right = wz_known_operation_hash(store, wz_store_words(), NULL, 0, 1, true, 0);
    if (left.code != 0 || right.code != 0 || left.word != right.word || left.cause != 0) return 7;
    wz_sum refused_hash = wz_operation_hash(store, wz_store_words(), NULL, 0, 2, true, 0);
    if (refused_hash.code != 1 || refused_hash.cause != 2 || refused_hash.word != 0) return 8;

    uint32_t *keyed = malloc(wz_store_words() * sizeof *keyed);
    memcpy(keyed, store, wz_store_words() * sizeof *keyed);
    const char *listing = "opstore,2\no,7,-,5,1,0,0,0\nb,0,5,0\nq,o,0,0,0,0\n";
    const char *printed = "eq,-,-,2\nshare,100\n";
    uint8_t *out = malloc(wz_output_bytes());
    wz_output answer = wz_twins((const uint8_t *)listing, strlen(listing), store, wz_store_words(), mapping, wz_mapping_words(), out,
                                wz_output_bytes());
    if (answer.code != 0 || answer.bytes != strlen(printed) || memcmp(out, printed, answer.bytes) != 0) return 9;
    if (wz_sums((const uint8_t *)listing, strlen(listing), store, wz_store_words(), out, 1).code != 2) return 10;

    uint8_t *key = malloc(wz_key_bytes());
    uint8_t *other = malloc(wz_key_bytes());
    wz_key_answer filed = wz_operation_key(keyed, wz_store_words(), NULL, 0, key, wz_key_bytes(), 0, true, 0);
    wz_key_answer again = wz_known_operation_key(keyed, wz_store_words(), NULL, 0, other, wz_key_bytes(), 1, true, 0);
    if (filed.code != 0 || again.code != 0 || filed.length != 48 || key[0] != 8 || key[20] != 1 || key[28] != 5) return 11;
    if (wz_compare_keys(key, filed.length, other, again.length) != 0 || wz_compare_keys(key, 1, other, again.length) != -1) return 12;
    if (wz_known_operation_key_length(keyed, wz_store_words(), NULL, 0, 1, false, 0) != 52) return 13;
    wz_key_answer refused_key = wz_operation_key(keyed, wz_store_words(), NULL, 0, key, 47, 0, true, 0);
    if (refused_key.code != 1 || refused_key.cause != 13 || refused_key.length != 0) return 14;
    if (wz_known_operation_key(keyed, wz_store_words(), NULL, 0, NULL, 0, 0, true, 0).cause != 13) return 15;
    if (wz_operation_key(keyed, wz_store_words(), NULL, 0, NULL, 0, 2, true, 0).cause != 2) return 16;

    const uint32_t list[] = {5, 6}, half[] = {5};
    uint32_t *index = malloc(wz_index_words() * sizeof *index);
    size_t rows = wz_known_index_types(list, 2, index, wz_index_words());
    if (rows == 0 || wz_known_index_types(half, 1, index, wz_index_words()) != 0) return 17;
    rows = wz_known_index_types(list, 2, index, wz_index_words());
    wz_sum renamed = wz_operation_hash(keyed, wz_store_words(), list, 2, 0, true, 0);
    wz_sum known = wz_known_operation_hash(keyed, wz_store_words(), index, rows, 0, true, 0);
    if (renamed.code != 0 || known.code != 0 || renamed.word != known.word || renamed.word == left.word) return 18;
    if (wz_operation_key(keyed, wz_store_words(), half, 1, key, wz_key_bytes(), 0, true, 0).cause != 14) return 19;

    wz_outcome marked = wz_set_mark(keyed, wz_store_words(), 1), moved = wz_known_set_mark(keyed, wz_store_words(), 1);
    if (marked.code != 1 || moved.code != 1 || marked.number != 0 || moved.number != 0) return 20;
    wz_outcome since = wz_known_new_operation(keyed, wz_store_words(), 9, false, 0, 1, 0, NULL, 0, NULL, 0, NULL, 0);
    wz_outcome key_set = wz_set_attribute(keyed, wz_store_words(), false, 0, 1, 1, 1, WZ_INHERENT_NO);
    if (since.number != 2 || key_set.code != 1 || wz_known_go_back(keyed, wz_store_words(), 1).code != 1) return 21;
    if (wz_operation_hash(keyed, wz_store_words(), NULL, 0, 2, true, 0).cause != 2) return 22;
    if (wz_operation_hash(keyed, wz_store_words(), NULL, 0, 0, true, 0).word != left.word) return 23;
    wz_outcome unset = wz_go_back(keyed, wz_store_words(), 2), unnumbered = wz_set_mark(keyed, wz_store_words(), 9);
    if (unset.code != 2 || unset.number != 16 || unnumbered.code != 2 || unnumbered.number != 16) return 24;
    if (wz_go_back(keyed, 1, 1).number != 1 || !wz_is_sound(keyed, wz_store_words())) return 25;

    memset(mapping, 0xff, wz_mapping_words() * sizeof *mapping);
    wz_outcome plain = wz_set_attribute(keyed, wz_store_words(), false, 0, 1, 5, 9, WZ_INHERENT_NO);
    wz_verdict ignored = wz_operation_eq(keyed, wz_store_words(), NULL, 0, mapping, wz_mapping_words(), 0, 1, true, 1 << 5);
    if (sizeof(wz_inherent) != sizeof(uint32_t) || plain.code != 1 || ignored.code != 0) return 26;
    wz_outcome inherent = wz_known_set_attribute(keyed, wz_store_words(), false, 0, 1, 5, 9, WZ_INHERENT_YES);
    wz_verdict counted = wz_operation_eq(keyed, wz_store_words(), NULL, 0, mapping, wz_mapping_words(), 0, 1, true, UINT64_MAX);
    if (inherent.code != 1 || counted.code != 1) return 27;
    wz_outcome twin = wz_set_attribute(keyed, wz_store_words(), false, 1, 1, 5, 9, (wz_inherent)7);
    wz_verdict same = wz_operation_eq(keyed, wz_store_words(), NULL, 0, mapping, wz_mapping_words(), 0, 1, true, UINT64_MAX);
    if (twin.code != 1 || same.code != 0) return 28;
    if (wz_set_attribute(keyed, wz_store_words(), false, 0, 1, 64, 9, WZ_INHERENT_YES).number != 6) return 29;

    wz_outcome copy = wz_clone_operation(keyed, wz_store_words(), 0, false, 0, mapping, wz_mapping_words());
    if (copy.code != 0 || copy.number != 2 || mapping[0] != 2 || mapping[2304] != 2 || mapping[1] != UINT32_MAX) return 30;
    wz_outcome another = wz_known_clone_operation(keyed, wz_store_words(), 1, false, 0, mapping, wz_mapping_words());
    if (another.code != 0 || another.number != 3 || mapping[1] != 3 || mapping[0] != UINT32_MAX) return 31;
    wz_sum original = wz_operation_hash(keyed, wz_store_words(), NULL, 0, 0, false, 0);
    wz_sum copied = wz_operation_hash(keyed, wz_store_words(), NULL, 0, 2, false, 0);
    if (original.code != 0 || copied.code != 0 || original.word != copied.word) return 32;
    wz_outcome misplaced = wz_clone_operation(keyed, wz_store_words(), 0, true, 0, mapping, wz_mapping_words());
    wz_outcome short_mapping = wz_clone_operation(keyed, wz_store_words(), 0, false, 0, mapping, 1);
    if (misplaced.code != 2 || misplaced.number != 2 || short_mapping.code != 2 || short_mapping.number != 8) return 33;
    if (mapping[1] != 3 || !wz_is_sound(keyed, wz_store_words())) return 34;

    wz_extent_answer extent = wz_operation_extent(keyed, wz_store_words(), 1, true, 0);
    wz_key_answer whole = wz_operation_key(keyed, wz_store_words(), NULL, 0, key, wz_key_bytes(), 1, true, 0);
    if (extent.code != 0 || extent.bytes != whole.length || extent.values != 1 || extent.operations != 1) return 35;
    wz_extent_answer no_region = wz_region_extent(keyed, wz_store_words(), 0, true, 0);
    if (extent.blocks != 0 || extent.nesting != 0 || extent.cause != 0 || no_region.cause != 2 || no_region.bytes != 0) return 36;
    if (wz_known_operation_extent(keyed, wz_store_words(), 1, false, 0).bytes != whole.length + 4) return 37;

    uint32_t twins[5] = {7, 7, 7, 7, 7};
    wz_grouped short_list = wz_twins_of_operations(keyed, wz_store_words(), NULL, 0, true, 0, twins, 3);
    wz_grouped half_row = wz_twins_of_operations(keyed, wz_store_words(), half, 1, true, 0, twins, 3);
    if (short_list.code != 1 || short_list.cause != 13 || short_list.operations != 0 || half_row.cause != 14 || twins[0] != 7) return 38;
    wz_grouped grouped = wz_twins_of_operations(keyed, wz_store_words(), list, 2, true, 0, twins, 5);
    if (grouped.code != 0 || grouped.operations != 4) return 39;
    if (twins[0] != UINT32_MAX || twins[1] != 0 || twins[2] != 0 || twins[3] != 0 || twins[4] != 7) return 40;
    wz_grouped located = wz_known_twins_of_operations(keyed, wz_store_words(), NULL, 0, false, 0, twins, 4);
    if (located.code != 0 || twins[0] != UINT32_MAX || twins[1] != UINT32_MAX || twins[2] != 0 || twins[3] != 1) return 41;

    const uint32_t operand = 0;
    wz_outcome naming = wz_new_operation(keyed, wz_store_words(), 8, false, 0, 1, 1, &type, 1, &operand, 1, NULL, 0);
    wz_independence named = wz_operations_independent(keyed, wz_store_words(), 0, naming.number);
    wz_independence apart = wz_known_operations_independent(keyed, wz_store_words(), 1, naming.number);
    if (naming.code != 0 || named.code != 0 || apart.code != 1) return 42;
    wz_independence unasked = wz_operations_independent(keyed, wz_store_words(), 0, 5);
    wz_independence no_block = wz_known_basic_blocks_independent(keyed, wz_store_words(), 0, 0);
    if (unasked.code != 2 || unasked.cause != 2 || no_block.code != 2 || no_block.cause != 2) return 43;
    if (wz_regions_independent(keyed, wz_store_words(), 0, 0).code != 1 || wz_regions_independent(keyed, 1, 0, 0).cause != 1) return 44;

    const char *converted = "opstore,1\no,7,-,5,1,0,0,0\nb,0,0,5,0\nq,o,0,0,0,0\n";
    const char *inherent_line = "opstore,2\ni,o,0,2,5,9\n", *refused_line = "refused,2,20\n";
    wz_output older = wz_convert((const uint8_t *)listing, strlen(listing), out, wz_converted_bytes());
    if (older.code != 0 || older.bytes != strlen(converted) || memcmp(out, converted, older.bytes) != 0) return 45;
    wz_output newer = wz_convert((const uint8_t *)converted, strlen(converted), out, wz_converted_bytes());
    if (newer.code != 0 || newer.bytes != strlen(listing) || memcmp(out, listing, newer.bytes) != 0) return 46;
    wz_output unconverted = wz_convert((const uint8_t *)inherent_line, strlen(inherent_line), out, wz_converted_bytes());
    if (unconverted.code != 0 || unconverted.bytes != strlen(refused_line) || memcmp(out, refused_line, unconverted.bytes) != 0) return 47;
    wz_output no_room = wz_convert((const uint8_t *)listing, strlen(listing), out, wz_converted_bytes() - 1);
    if (no_room.code != 2 || no_room.bytes != 0 || no_room.cause != 0) return 48;

    /* NULL and 0 for every empty buffer */
    uint32_t *empty = calloc(wz_store_words(), sizeof *empty);
    if (wz_is_sound(NULL, 0) || wz_known_is_allowed(empty, wz_store_words(), NULL, 0)) return 49;
    if (wz_operation_eq(empty, wz_store_words(), NULL, 0, NULL, 0, 0, 0, true, 0).left != 8) return 50;
    if (wz_clone_operation(empty, wz_store_words(), 0, false, 0, NULL, 0).number != 8 || wz_set_mark(NULL, 0, 1).number != 1) return 51;
    wz_grouped of_none = wz_twins_of_operations(empty, wz_store_words(), NULL, 0, true, 0, NULL, 0);
    wz_grouped of_known = wz_known_twins_of_operations(empty, wz_store_words(), NULL, 0, true, 0, NULL, 0);
    if (of_none.code != 0 || of_none.operations != 0 || of_known.code != 0 || of_known.operations != 0) return 52;
    wz_outcome outer = wz_new_operation(empty, wz_store_words(), 7, false, 0, 1, 1, NULL, 0, NULL, 0, NULL, 0);
    wz_outcome first = wz_new_block(empty, wz_store_words(), 0, 1, NULL, 0);
    wz_outcome second = wz_known_new_block(empty, wz_store_words(), 0, 1, NULL, 0);
    if (outer.code != 0 || first.code != 0 || second.code != 0 || second.number != 1) return 53;
    wz_run_answer no_runs = wz_repeated_run(empty, wz_store_words(), NULL, 0, 0, 1, true, 0);
    wz_run_answer no_length = wz_known_repeated_run(empty, wz_store_words(), NULL, 0, 0, 0, true, 0);
    if (no_runs.code != 1 || no_runs.left != 0 || no_runs.right != 0) return 54;
    if (no_length.code != 2 || no_length.left != 15 || no_length.right != 0) return 55;
    if (wz_compare_keys(NULL, 0, NULL, 0) != 0 || wz_compare_keys(NULL, 0, key, 1) != -1) return 56;
    size_t no_rows = wz_known_index_types(NULL, 0, index, wz_index_words());
    wz_sum by_index = wz_known_basic_block_hash(empty, wz_store_words(), index, no_rows, 0, true, 0);
    wz_sum by_none = wz_known_basic_block_hash(empty, wz_store_words(), NULL, 0, 0, true, 0);
    if (no_rows == 0 || by_index.code != 0 || by_none.code != 0 || by_index.word != by_none.word) return 57;
    const char *no_header = "refused,1,9\n";
    wz_output unread = wz_sums(NULL, 0, empty, wz_store_words(), out, wz_output_bytes());
    if (unread.code != 0 || unread.bytes != strlen(no_header) || memcmp(out, no_header, unread.bytes) != 0) return 58;
    if (wz_operation_extent(empty, wz_store_words(), 0, true, 0).blocks != 2) return 59;
    unread = wz_convert(NULL, 0, out, wz_converted_bytes());
    if (unread.code != 0 || unread.bytes != strlen(no_header) || memcmp(out, no_header, unread.bytes) != 0) return 60;
    if (wz_twins(NULL, 0, empty, wz_store_words(), NULL, 0, NULL, 0).cause != 8 || wz_convert(NULL, 0, NULL, 0).code != 2) return 61;

    free(empty);
    free(index);
    free(keyed);
    free(key);
    free(other);
    free(store);
    free(mapping);
    free(out);
    return 0;
}
