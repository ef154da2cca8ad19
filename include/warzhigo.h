/* Warzhigo for C: structural equality, mapping, hash and key of IR operations, blocks and regions, proved.
 *
 * Link crates/warzhigo_c/out/libwarzhigo_c.a, which `rt lib` in crates/warzhigo_c writes. The functions allocate nothing, keep no pointer and end; they use
 * nothing but memcpy and memset.
 *
 * A lent buffer is a pointer and its length, in words of 32 bits or in bytes: memory of the caller's, of which what is written to overlaps
 * no other buffer of the same call. NULL and 0 lend an empty one, wherever a buffer is taken. A store has wz_store_words() words and is
 * empty when all are 0; a mapping has wz_mapping_words() words and is empty when all are 4294967295. What the words mean is in
 * docs/STORE.md, what each cause of a refusal is, in docs/CAUSES.md.
 *
 * A call that refuses, or finds too little room, has changed nothing; wz_known_index_types alone may have written to the index that it was
 * lent. A field that an answer doesn't use holds 0: where nothing is refused `cause`, `left` and `right` of an equal verdict and of a search that
 * finds no runs, and `number` of a call that makes nothing; and beside a refusal's cause all fields but `code`.
 *
 * Comparisons, hashes, keys and the searches for repeated runs and for twins are lent a list of renamed types: words old type, present type,
 * old type, present type; two types are the same where their present types are. It may be empty.
 *
 * wz_...        the offered calls, which ask for nothing: any words, bytes and numbers may be lent. The call tests them, and refuses by 1, 8
 *               or 14.
 * wz_known_...  no offered calls: they don't test that. Each asks for a sound store, with its marks, as wz_is_sound tells; for a mapping that is
 *               allowed beside it, as wz_known_is_allowed tells; and in place of a list of renamed types for its index, which
 *               wz_known_index_types has made, or for no words at all, the index of the empty list. What else one asks for stands with it.
 *               Where that doesn't hold, nothing is promised, not even that the call ends or stays within its buffers: undefined
 *               behaviour. A store stays sound under every call. A mapping stays allowed while its store only grows, though that is not
 *               among what is proved; not so when the store goes back to a mark (wz_go_back, wz_known_go_back): what it names may have
 *               gone. An index is for any store.
 */
#ifndef WARZHIGO_H
#define WARZHIGO_H

#include <stdbool.h>
#include <stddef.h>
#include <stdint.h>

#ifdef __cplusplus
extern "C" {
#endif

/* What a comparison answers. 0: equal; 1: these operations are the first unequal ones; 2: these blocks; 3: these regions; 4: refused, and
 * `left` is the cause. `paired` is the number of operations and blocks entered into the mapping. */
typedef struct {
    uint32_t code;
    uint32_t left;
    uint32_t right;
    uint32_t paired;
} wz_verdict;

/* What a hash answers. 0: `word` is the hash; 1: refused by `cause`. */
typedef struct {
    uint64_t word;
    uint32_t code;
    uint32_t cause;
} wz_sum;

/* What a key call answers. 0: `length` is the number of bytes written, from the first lent one on, and those behind them are as they were;
 * 1: refused by `cause`, and all bytes are as they were. */
typedef struct {
    uint32_t length;
    uint32_t code;
    uint32_t cause;
} wz_key_answer;

/* What a call for an extent answers. 0: the key will have so many bytes, and the fragment defines so many values, blocks and operations,
 * its own operation included; `nesting` is the most regions between the fragment, itself not counted, and an operation inside it, or 0;
 * 1: refused by `cause`. */
typedef struct {
    uint32_t bytes;
    uint32_t values;
    uint32_t blocks;
    uint32_t operations;
    uint32_t nesting;
    uint32_t code;
    uint32_t cause;
} wz_extent_answer;

/* What the search for repeated runs answers. 0: the runs from `left` and from `right` on, counted from 0 in the block, are equal; 1: there are
 * none; 2: refused, and `left` is the cause. */
typedef struct {
    uint32_t code;
    uint32_t left;
    uint32_t right;
} wz_run_answer;

/* What a question for independence answers. 0: the two are not independent; 1: they are; 2: refused by `cause`. */
typedef struct {
    uint32_t code;
    uint32_t cause;
} wz_independence;

/* What the search for twins answers. 0: the store has so many `operations`, and as many words were written, from the first lent one on, and
 * those behind them are as they were; 1: refused by `cause`, and all words are as they were. */
typedef struct {
    size_t operations;
    uint32_t code;
    uint32_t cause;
} wz_grouped;

/* What a building call answers, and likewise the copier, and a call that sets a mark or goes back. 0: `number` is the new one's; 1:
 * accepted; 2: refused, and `number` is the cause. */
typedef struct {
    uint32_t code;
    uint32_t number;
} wz_outcome;

/* What wz_twins, wz_sums and wz_convert answer. 0: so many bytes were printed, from the first lent one on; 1: refused by `cause`; 2: the output
 * has too little room. */
typedef struct {
    size_t bytes;
    uint32_t code;
    uint32_t cause;
} wz_output;

/* Where a mapping has entries: at most in its words `value` up to `end`, which are of values, and `owner` up to `past`, which are of blocks and
 * operations. Where the first number is not the smaller one, there are none. */
typedef struct {
    uint32_t value;
    uint32_t end;
    uint32_t owner;
    uint32_t past;
} wz_entries;

/* Whether an attribute is inherent: one that is inherent is never ignored. Any number but 0 is taken as yes. */
typedef enum { WZ_INHERENT_NO, WZ_INHERENT_YES } wz_inherent;

/* The words of a store. */
size_t wz_store_words(void);

/* The words of a mapping. */
size_t wz_mapping_words(void);

/* The bytes that wz_twins and wz_sums want for what they print. */
size_t wz_output_bytes(void);

/* The bytes that wz_convert wants for what it prints. */
size_t wz_converted_bytes(void);

/* Bytes that every key fits into. */
size_t wz_key_bytes(void);

/* The words that an index of a list of renamed types is made in. */
size_t wz_index_words(void);

/* Is it a sound store, and would it be one after going back to any of its marks? */
bool wz_is_sound(const uint32_t *store, size_t words);

/* Are the marks and the journal of this store sound, whose tables are? It asks for no more than that. For whoever takes these words alone from
 * elsewhere. */
bool wz_known_marks_are_sound(const uint32_t *store, size_t words);

/* Is the mapping allowed beside this store? Any words may be lent as the mapping. */
bool wz_known_is_allowed(const uint32_t *store, size_t words, const uint32_t *mapping, size_t entries);

/* Tests a list of renamed types (old, present, old, present), any words, and makes its index in `index`, which must have wz_index_words()
 * words: it is as many of them, from the first on, as this returns; 0 for a list that is refused, by 14, and the words may hold anything
 * then. */
size_t wz_known_index_types(const uint32_t *types, size_t type_words, uint32_t *index, size_t index_words);

/* Where the entries are that one comparison, which answered `paired`, has made in an empty mapping: to set these words to 4294967295 empties it.
 * `sort` is 0 for operations, 1 for blocks, 2 for regions, and `lhs` the left number. The mapping must have its entries from that comparison
 * alone. */
wz_entries wz_known_entered(const uint32_t *store, size_t words, const uint32_t *mapping, size_t entries, uint32_t sort, uint32_t lhs,
                            uint32_t paired);

/* A new operation, at the end of `block` if it is `placed` in one, with so many regions, with results of these types, operands (values) and
 * successors (blocks). */
wz_outcome wz_new_operation(uint32_t *store, size_t words, uint32_t kind, bool placed, uint32_t block, uint32_t location,
                            uint32_t regions, const uint32_t *types, size_t type_count, const uint32_t *operands,
                            size_t operand_count, const uint32_t *successors, size_t successor_count);

/* The same, on a store known to be sound. */
wz_outcome wz_known_new_operation(uint32_t *store, size_t words, uint32_t kind, bool placed, uint32_t block, uint32_t location,
                                  uint32_t regions, const uint32_t *types, size_t type_count, const uint32_t *operands,
                                  size_t operand_count, const uint32_t *successors, size_t successor_count);

/* A new block, at the end of `region`, with arguments of these types. */
wz_outcome wz_new_block(uint32_t *store, size_t words, uint32_t region, uint32_t location, const uint32_t *types, size_t type_count);

/* The same, on a store known to be sound. */
wz_outcome wz_known_new_block(uint32_t *store, size_t words, uint32_t region, uint32_t location, const uint32_t *types,
                              size_t type_count);

/* Sets an attribute of operation n, or of block n where `blocks` is true; a key that is there is replaced, with its kind, its content and
 * whether it is inherent. While a mark is set, refused by 17 where that can't be remembered. */
wz_outcome wz_set_attribute(uint32_t *store, size_t words, bool blocks, uint32_t n, uint32_t key, uint32_t kind, uint32_t content,
                            wz_inherent inherent);

/* The same, on a store known to be sound. */
wz_outcome wz_known_set_attribute(uint32_t *store, size_t words, bool blocks, uint32_t n, uint32_t key, uint32_t kind, uint32_t content,
                                  wz_inherent inherent);

/* Sets operand i of operation n to value v. While a mark is set, refused by 17 where that can't be remembered. */
wz_outcome wz_set_operand(uint32_t *store, size_t words, uint32_t n, uint32_t i, uint32_t v);

/* The same, on a store known to be sound. */
wz_outcome wz_known_set_operand(uint32_t *store, size_t words, uint32_t n, uint32_t i, uint32_t v);

/* Sets a mark, 1 to 8, that names the store as it stands; one that is set already moves here. From the oldest set mark on, up to 1,024
 * replacements of operands and attributes are remembered. Refused by 16 for any other number. */
wz_outcome wz_set_mark(uint32_t *store, size_t words, uint32_t mark);

/* The same, on a store known to be sound. */
wz_outcome wz_known_set_mark(uint32_t *store, size_t words, uint32_t mark);

/* Goes back to a mark: all is as it was when it was last set. The mark stays set, those set after it are void, and numbers given since are
 * given again. Refused by 16 where it is not set. */
wz_outcome wz_go_back(uint32_t *store, size_t words, uint32_t mark);

/* The same, on a store known to be sound. A mapping is no longer known to be allowed beside it. */
wz_outcome wz_known_go_back(uint32_t *store, size_t words, uint32_t mark);

/* Copies operation n with all inside it, to the end of `block` if it is to be `placed` in one. What it defines is copied in the order in which
 * a comparison enters it, each thing with the next number of its table. Names of what is inside become the copy's, others are kept; so are
 * kinds, types, locations and attributes, inherent ones as such. The mapping then has an entry from each thing that operation n
 * defines to its copy, and no others: those it had before are gone. Refused by 18 where `block` lies inside operation n, and by 19 where an
 * operand or successor names something inside before a comparison has entered it. A mark remembers nothing of it: going back takes the copy
 * away. */
wz_outcome wz_clone_operation(uint32_t *store, size_t words, uint32_t n, bool placed, uint32_t block, uint32_t *mapping, size_t entries);

/* The same, with a store known to be sound and a mapping known to be allowed. */
wz_outcome wz_known_clone_operation(uint32_t *store, size_t words, uint32_t n, bool placed, uint32_t block, uint32_t *mapping,
                                    size_t entries);

/* Compares operations lhs and rhs, each with all inside it; locations are ignored where `locations` is true, and attributes whose kind's bit
 * is set in `bits` and that are not inherent. What corresponds is entered into the mapping; entries made before a difference stay. */
wz_verdict wz_operation_eq(const uint32_t *store, size_t words, const uint32_t *types, size_t type_words, uint32_t *mapping,
                           size_t entries, uint32_t lhs, uint32_t rhs, bool locations, uint64_t bits);

/* The same, with a store known to be sound and a mapping known to be allowed. */
wz_verdict wz_known_operation_eq(const uint32_t *store, size_t words, const uint32_t *types, size_t type_words, uint32_t *mapping,
                                 size_t entries, uint32_t lhs, uint32_t rhs, bool locations, uint64_t bits);

/* Compares blocks lhs and rhs likewise. */
wz_verdict wz_basic_block_eq(const uint32_t *store, size_t words, const uint32_t *types, size_t type_words, uint32_t *mapping,
                             size_t entries, uint32_t lhs, uint32_t rhs, bool locations, uint64_t bits);

/* The same, with a store known to be sound and a mapping known to be allowed. */
wz_verdict wz_known_basic_block_eq(const uint32_t *store, size_t words, const uint32_t *types, size_t type_words, uint32_t *mapping,
                                   size_t entries, uint32_t lhs, uint32_t rhs, bool locations, uint64_t bits);

/* Compares regions lhs and rhs likewise. */
wz_verdict wz_region_eq(const uint32_t *store, size_t words, const uint32_t *types, size_t type_words, uint32_t *mapping, size_t entries,
                        uint32_t lhs, uint32_t rhs, bool locations, uint64_t bits);

/* The same, with a store known to be sound and a mapping known to be allowed. */
wz_verdict wz_known_region_eq(const uint32_t *store, size_t words, const uint32_t *types, size_t type_words, uint32_t *mapping,
                              size_t entries, uint32_t lhs, uint32_t rhs, bool locations, uint64_t bits);

/* The hash of operation n with all inside it. */
wz_sum wz_operation_hash(const uint32_t *store, size_t words, const uint32_t *types, size_t type_words, uint32_t n, bool locations,
                         uint64_t bits);

/* The same, on a store known to be sound. */
wz_sum wz_known_operation_hash(const uint32_t *store, size_t words, const uint32_t *types, size_t type_words, uint32_t n, bool locations,
                               uint64_t bits);

/* The hash of block n with all inside it. */
wz_sum wz_basic_block_hash(const uint32_t *store, size_t words, const uint32_t *types, size_t type_words, uint32_t n, bool locations,
                           uint64_t bits);

/* The same, on a store known to be sound. */
wz_sum wz_known_basic_block_hash(const uint32_t *store, size_t words, const uint32_t *types, size_t type_words, uint32_t n,
                                 bool locations, uint64_t bits);

/* The hash of region n with all inside it. */
wz_sum wz_region_hash(const uint32_t *store, size_t words, const uint32_t *types, size_t type_words, uint32_t n, bool locations,
                      uint64_t bits);

/* The same, on a store known to be sound. */
wz_sum wz_known_region_hash(const uint32_t *store, size_t words, const uint32_t *types, size_t type_words, uint32_t n, bool locations,
                            uint64_t bits);

/* Writes the key of operation n with all inside it: the bytes by which it is filed. Refused by 13 where the lent bytes are fewer than the
 * key has. */
wz_key_answer wz_operation_key(const uint32_t *store, size_t words, const uint32_t *types, size_t type_words, uint8_t *key, size_t room,
                               uint32_t n, bool locations, uint64_t bits);

/* The same, on a store known to be sound. */
wz_key_answer wz_known_operation_key(const uint32_t *store, size_t words, const uint32_t *types, size_t type_words, uint8_t *key,
                                     size_t room, uint32_t n, bool locations, uint64_t bits);

/* The length of that key, on a store known to be sound. There must be an operation n; anything else is undefined behaviour. */
size_t wz_known_operation_key_length(const uint32_t *store, size_t words, const uint32_t *types, size_t type_words, uint32_t n,
                                     bool locations, uint64_t bits);

/* Writes the key of block n with all inside it likewise. */
wz_key_answer wz_basic_block_key(const uint32_t *store, size_t words, const uint32_t *types, size_t type_words, uint8_t *key, size_t room,
                                 uint32_t n, bool locations, uint64_t bits);

/* The same, on a store known to be sound. */
wz_key_answer wz_known_basic_block_key(const uint32_t *store, size_t words, const uint32_t *types, size_t type_words, uint8_t *key,
                                       size_t room, uint32_t n, bool locations, uint64_t bits);

/* The length of that key, on a store known to be sound. There must be a block n; anything else is undefined behaviour. */
size_t wz_known_basic_block_key_length(const uint32_t *store, size_t words, const uint32_t *types, size_t type_words, uint32_t n,
                                       bool locations, uint64_t bits);

/* Writes the key of region n with all inside it likewise. */
wz_key_answer wz_region_key(const uint32_t *store, size_t words, const uint32_t *types, size_t type_words, uint8_t *key, size_t room,
                            uint32_t n, bool locations, uint64_t bits);

/* The same, on a store known to be sound. */
wz_key_answer wz_known_region_key(const uint32_t *store, size_t words, const uint32_t *types, size_t type_words, uint8_t *key,
                                  size_t room, uint32_t n, bool locations, uint64_t bits);

/* The length of that key, on a store known to be sound. There must be a region n; anything else is undefined behaviour. */
size_t wz_known_region_key_length(const uint32_t *store, size_t words, const uint32_t *types, size_t type_words, uint32_t n,
                                  bool locations, uint64_t bits);

/* How large operation n is with all inside it, before its key is written. No type is read. */
wz_extent_answer wz_operation_extent(const uint32_t *store, size_t words, uint32_t n, bool locations, uint64_t bits);

/* The same, on a store known to be sound. */
wz_extent_answer wz_known_operation_extent(const uint32_t *store, size_t words, uint32_t n, bool locations, uint64_t bits);

/* How large block n is likewise. */
wz_extent_answer wz_basic_block_extent(const uint32_t *store, size_t words, uint32_t n, bool locations, uint64_t bits);

/* The same, on a store known to be sound. */
wz_extent_answer wz_known_basic_block_extent(const uint32_t *store, size_t words, uint32_t n, bool locations, uint64_t bits);

/* How large region n is likewise. */
wz_extent_answer wz_region_extent(const uint32_t *store, size_t words, uint32_t n, bool locations, uint64_t bits);

/* The same, on a store known to be sound. */
wz_extent_answer wz_known_region_extent(const uint32_t *store, size_t words, uint32_t n, bool locations, uint64_t bits);

/* Two runs of `length` operations of a block that are equal and don't overlap, the earlier one on the left: of all such pairs the one with the
 * smallest right start, and then with the smallest left. Refused by 15 for a length of 0 or over 256. */
wz_run_answer wz_repeated_run(const uint32_t *store, size_t words, const uint32_t *types, size_t type_words, uint32_t block,
                              uint32_t length, bool locations, uint64_t bits);

/* The same, on a store known to be sound. */
wz_run_answer wz_known_repeated_run(const uint32_t *store, size_t words, const uint32_t *types, size_t type_words, uint32_t block,
                                    uint32_t length, bool locations, uint64_t bits);

/* Are operations lhs and rhs independent, each with all inside it? They are where they are the same one, or share no operation or block and
 * neither names a value or block that the other defines. No type is read. */
wz_independence wz_operations_independent(const uint32_t *store, size_t words, uint32_t lhs, uint32_t rhs);

/* The same, on a store known to be sound. */
wz_independence wz_known_operations_independent(const uint32_t *store, size_t words, uint32_t lhs, uint32_t rhs);

/* Are blocks lhs and rhs independent? Likewise. */
wz_independence wz_basic_blocks_independent(const uint32_t *store, size_t words, uint32_t lhs, uint32_t rhs);

/* The same, on a store known to be sound. */
wz_independence wz_known_basic_blocks_independent(const uint32_t *store, size_t words, uint32_t lhs, uint32_t rhs);

/* Are regions lhs and rhs independent? Likewise. */
wz_independence wz_regions_independent(const uint32_t *store, size_t words, uint32_t lhs, uint32_t rhs);

/* The same, on a store known to be sound. */
wz_independence wz_known_regions_independent(const uint32_t *store, size_t words, uint32_t lhs, uint32_t rhs);

/* Writes the twin of each operation, by rising number: the first operation before it that is independent of it and, compared from an empty
 * mapping, equal to it; or 4294967295 where there is none. Refused by 13 where the lent words are fewer than the operations; 512 suffice. */
wz_grouped wz_twins_of_operations(const uint32_t *store, size_t words, const uint32_t *types, size_t type_words, bool locations,
                                  uint64_t bits, uint32_t *twins, size_t room);

/* The same, on a store known to be sound. */
wz_grouped wz_known_twins_of_operations(const uint32_t *store, size_t words, const uint32_t *types, size_t type_words, bool locations,
                                        uint64_t bits, uint32_t *twins, size_t room);

/* Compares two keys byte by byte, a proper beginning first: -1, 0 or 1. Any bytes may be lent. */
int32_t wz_compare_keys(const uint8_t *lhs, size_t lhs_length, const uint8_t *rhs, size_t rhs_length);

/* What the program `twins` prints for a listing. Store and mapping may hold anything; afterwards the store is what the lines have built, up to
 * a refused one, and the mapping is empty. Where the first line is refused, both are as they were. */
wz_output wz_twins(const uint8_t *listing, size_t length, uint32_t *store, size_t words, uint32_t *mapping, size_t entries,
                   uint8_t *out, size_t room);

/* What the program `sums` prints for a listing; likewise. */
wz_output wz_sums(const uint8_t *listing, size_t length, uint32_t *store, size_t words, uint8_t *out, size_t room);

/* What the program `convert` prints for a listing: the same listing in the other edition, or a refused line alone. Never answers 1. */
wz_output wz_convert(const uint8_t *listing, size_t length, uint8_t *out, size_t room);

#ifdef __cplusplus
}
#endif

#endif
