// What a contract may call of the node: the functions of the import module `env`, in the order of the table in docs/FORMATS.md.
//
// Each call looks for these refusals first, in this order, and then for those that its line names:
//   BadPointer    a range that its arguments name doesn't lie in the memory; a range of no bytes always does
//   StepLimit     the steps that are left don't pay for the bytes that it moves: one for each whole 64
//   WriteRefused  it writes the state, as set_resource_limits and each db_ call named store, update or remove does, and the transaction is
//                 read-only
// A refusal ends the transaction, and all that it did is taken back. A `text` ends at its first zero byte.
#pragma once

#include <stdbool.h>
#include <stddef.h>
#include <stdint.h>

typedef uint64_t name;
typedef unsigned __int128 uint128;

// A key of 256 bits: the first word decides before the second.
typedef struct {
    uint128 first, second;
} key256;

// A row that this run has met, from 0, for each kind of row; -1, or an end below it, where there is no row. It is worth nothing in another run.
typedef int32_t iterator;

// A name's number: five bits a character from the top, and four for a thirteenth. Written out, so that the compiler leaves only the number.
#define NAME_DIGIT(c) ((name)((c) >= 'a' ? (c) - 'a' + 6 : (c) >= '1' ? (c) - '1' + 1 : 0))
#define NAME_PLACE(text, place, shift) ((sizeof(text) - 1 > (place) ? NAME_DIGIT((text)[(place) % sizeof(text)]) : 0) << (shift))
#define NAME(text)                                                                                                                       \
    (NAME_PLACE(text, 0, 59) | NAME_PLACE(text, 1, 54) | NAME_PLACE(text, 2, 49) | NAME_PLACE(text, 3, 44) | NAME_PLACE(text, 4, 39) |      \
     NAME_PLACE(text, 5, 34) | NAME_PLACE(text, 6, 29) | NAME_PLACE(text, 7, 24) | NAME_PLACE(text, 8, 19) | NAME_PLACE(text, 9, 14) |      \
     NAME_PLACE(text, 10, 9) | NAME_PLACE(text, 11, 4) | NAME_PLACE(text, 12, 0))

// ---- The end of a run

// Ends the transaction. Abort.
_Noreturn void abort(void);
// Ends this run well, whatever the code.
_Noreturn void eosio_exit(int32_t code);
// Nothing where the test isn't 0; the text isn't read then. Assert, with the text's first 1,024 bytes.
void eosio_assert(uint32_t test, const char *text);
// The same with n bytes.
void eosio_assert_message(uint32_t test, const char *at, uint32_t n);
// The same with a code in place of a text. AssertCode.
void eosio_assert_code(uint32_t test, uint64_t code);

// ---- The run, its action and its transaction

// The account whose code runs.
name current_receiver(void);
// The account whose run named this one as recipient or sent this action; 0 where the transaction itself has the action.
name get_sender(void);
// The bytes of the action's data.
uint32_t action_data_size(void);
// Copies the first n bytes of the data, or all where they are fewer, and answers how many; with n 0 answers the size. The range has n bytes.
uint32_t read_action_data(void *at, uint32_t n);
// The bytes of the packed transaction.
uint32_t transaction_size(void);
// The same as read_action_data for the packed transaction.
uint32_t read_transaction(void *at, uint32_t n);
// When the transaction expires, in seconds since 1970.
uint32_t expiration(void);
// The low 16 bits of the number of the block that the transaction refers to.
uint32_t tapos_block_num(void);
// Bytes 8 to 11 of that block's id, the lowest first.
uint32_t tapos_block_prefix(void);
// Microseconds since 1970 at the block's slot, of half a second each.
uint64_t current_time(void);
// The same.
uint64_t publication_time(void);

// ---- Authority and accounts

// Nothing where the account is an actor of the action. MissingAuth.
void require_auth(name account);
// Nothing where the action has this level. MissingAuth.
void require_auth2(name account, name permission);
// Whether the account is an actor of the action.
bool has_auth(name account);
// Whether there is such an account.
bool is_account(name account);
// Whether the account is privileged. NotPrivileged unless the receiver itself is; UnknownAccount.
bool is_privileged(name account);
// The account's code runs after this one, with the same action; once, however often it is named. UnknownAccount.
void require_recipient(name account);
// Sends a packed action, which runs after this action's runs. DataFault, InlineDepth past 4, UnknownAccount, and those of its levels: each
// must let this contract act for it, by a level of `eosio.code`.
void send_inline(const void *at, uint32_t n);

// ---- The console, of which the trace keeps 65,536 bytes a run

// Prints a text, which is moved.
void prints(const char *text);
// Prints n bytes.
void prints_l(const char *at, uint32_t n);
// Prints n bytes in hex; n are moved.
void printhex(const void *at, uint32_t n);
// Prints a number, with its sign.
void printi(int64_t value);
// Prints a number without sign.
void printui(uint64_t value);
// Prints a name.
void printn(name value);
// Prints the number of 128 bits at this place, with its sign.
void printi128(const __int128 *at);
// Prints the number of 128 bits at this place.
void printui128(const uint128 *at);

// ---- Memory. The compiler itself calls these where a structure is copied or cleared.

// Copies n bytes, and answers `to`. Overlap where the two places are less than n apart, as a structure and itself are: `*a = *b` may not be
// written where both may be the same.
void *memcpy(void *to, const void *from, size_t n);
// Copies n bytes from anywhere to anywhere, and answers `to`.
void *memmove(void *to, const void *from, size_t n);
// Sets n bytes to the low eight bits of `byte`, and answers `to`.
void *memset(void *to, int byte, size_t n);
// -1, 0 or 1, as the first bytes that differ are.
int memcmp(const void *a, const void *b, size_t n);

// ---- Hashes

// Writes the SHA-256 of n bytes, 32 bytes.
void sha256(const void *at, uint32_t n, void *to);
// Nothing where the SHA-256 of n bytes is the 32 bytes at `hash`. Assert with `hash mismatch`.
void assert_sha256(const void *at, uint32_t n, const void *hash);

// ---- Numbers of 128 bits. The compiler calls these for `*`, `/`, `%`, `<<` and `>>` of __int128.

// The product, modulo 2^128.
void __multi3(__int128 *to, uint64_t low_a, uint64_t high_a, uint64_t low_b, uint64_t high_b);
// The quotient, toward zero; the least number by -1 is itself. Trap with DivZero.
void __divti3(__int128 *to, uint64_t low_a, uint64_t high_a, uint64_t low_b, uint64_t high_b);
// The quotient without signs. Trap with DivZero.
void __udivti3(uint128 *to, uint64_t low_a, uint64_t high_a, uint64_t low_b, uint64_t high_b);
// The remainder, with the sign of the first. Trap with DivZero.
void __modti3(__int128 *to, uint64_t low_a, uint64_t high_a, uint64_t low_b, uint64_t high_b);
// The remainder without signs. Trap with DivZero.
void __umodti3(uint128 *to, uint64_t low_a, uint64_t high_a, uint64_t low_b, uint64_t high_b);
// Shifts to the left; by 128 and more gives 0.
void __ashlti3(__int128 *to, uint64_t low, uint64_t high, uint32_t count);
// Shifts to the right with the sign; by 128 and more gives the sign in every bit.
void __ashrti3(__int128 *to, uint64_t low, uint64_t high, uint32_t count);
// The same as __ashlti3.
void __lshlti3(uint128 *to, uint64_t low, uint64_t high, uint32_t count);
// Shifts to the right; by 128 and more gives 0.
void __lshrti3(uint128 *to, uint64_t low, uint64_t high, uint32_t count);

// ---- Limits, and the answer

// Sets an account's quota of memory in bytes, -1 for none; the others aren't used. NotPrivileged unless the receiver is; BadLimit below -1;
// UnknownAccount.
void set_resource_limits(name account, int64_t ram, int64_t net, int64_t cpu);
// Sets the run's return value, which the trace shows; the last one stands. ReturnTooLong past 65,536 bytes.
void set_action_return_value(const void *at, uint32_t n);

// ---- Rows. A row stands in the table (code, scope, table) under its primary key, and only its own contract, the code, writes it. A payer is
// billed 112 bytes and those of the row, and 112 for the first row of a table. A run bills its own account, or an actor of its action where
// it isn't a notification. Keys are compared without sign.

// Writes a new row of n bytes under `id`, and answers its iterator. BadPayer for the empty name; UnknownAccount; KeyExists; BadPayer where
// the run may not bill the payer; RamTotal.
iterator db_store_i64(name scope, name table, name payer, uint64_t id, const void *at, uint32_t n);
// Writes the row's bytes anew; the empty name keeps the payer. BadIterator; NotOwner; UnknownAccount; BadPayer; RamTotal.
void db_update_i64(iterator row, name payer, const void *at, uint32_t n);
// Removes the row; its iterator is worth nothing afterwards. BadIterator; NotOwner.
void db_remove_i64(iterator row);
// Copies the first n bytes of the row, or all where they are fewer, and answers how many; with n 0 answers the size. BadIterator.
uint32_t db_get_i64(iterator row, void *at, uint32_t n);
// The next row, with its key written; after the last the table's end. After an end it is -1. BadIterator.
iterator db_next_i64(iterator row, uint64_t *id);
// The previous row, with its key written; before the first -1. Before an end it is the last row. BadIterator.
iterator db_previous_i64(iterator row, uint64_t *id);
// The row with this key; else the table's end, or -1 where there is no such table. So it is with all that follow.
iterator db_find_i64(name code, name scope, name table, uint64_t id);
// The first row with at least this key.
iterator db_lowerbound_i64(name code, name scope, name table, uint64_t id);
// The first row with a greater key.
iterator db_upperbound_i64(name code, name scope, name table, uint64_t id);
// The table's end.
iterator db_end_i64(name code, name scope, name table);

// ---- Rows of an index with keys of 64 bits, in the order of (key, primary key). A row is billed 128 bytes. None of these calls moves bytes.

// Writes a new row, and answers its iterator. BadPayer for the empty name; UnknownAccount; KeyExists where the primary key is there;
// BadPayer; RamTotal.
iterator db_idx64_store(name scope, name table, name payer, uint64_t id, const uint64_t *key);
// Writes the row's key anew; the empty name keeps the payer. BadIterator; NotOwner; UnknownAccount; BadPayer; RamTotal.
void db_idx64_update(iterator row, name payer, const uint64_t *key);
// Removes the row. BadIterator; NotOwner.
void db_idx64_remove(iterator row);
// The next row, with its primary key written, or the end. BadIterator.
iterator db_idx64_next(iterator row, uint64_t *id);
// The previous row, with its primary key written, or -1. BadIterator.
iterator db_idx64_previous(iterator row, uint64_t *id);
// The row with this primary key, with its key written.
iterator db_idx64_find_primary(name code, name scope, name table, uint64_t *key, uint64_t id);
// The first row with this key, with its primary key written.
iterator db_idx64_find_secondary(name code, name scope, name table, const uint64_t *key, uint64_t *id);
// The first row with at least this key, with its key and then its primary key written.
iterator db_idx64_lowerbound(name code, name scope, name table, uint64_t *key, uint64_t *id);
// The first row with a greater key, with its key and then its primary key written.
iterator db_idx64_upperbound(name code, name scope, name table, uint64_t *key, uint64_t *id);
// The index's end.
iterator db_idx64_end(name code, name scope, name table);

// ---- The same with keys of 128 bits, of 16 bytes. A row is billed 136 bytes.

// As db_idx64_store.
iterator db_idx128_store(name scope, name table, name payer, uint64_t id, const uint128 *key);
// As db_idx64_update.
void db_idx128_update(iterator row, name payer, const uint128 *key);
// As db_idx64_remove.
void db_idx128_remove(iterator row);
// As db_idx64_next.
iterator db_idx128_next(iterator row, uint64_t *id);
// As db_idx64_previous.
iterator db_idx128_previous(iterator row, uint64_t *id);
// As db_idx64_find_primary.
iterator db_idx128_find_primary(name code, name scope, name table, uint128 *key, uint64_t id);
// As db_idx64_find_secondary.
iterator db_idx128_find_secondary(name code, name scope, name table, const uint128 *key, uint64_t *id);
// As db_idx64_lowerbound.
iterator db_idx128_lowerbound(name code, name scope, name table, uint128 *key, uint64_t *id);
// As db_idx64_upperbound.
iterator db_idx128_upperbound(name code, name scope, name table, uint128 *key, uint64_t *id);
// As db_idx64_end.
iterator db_idx128_end(name code, name scope, name table);

// ---- The same with keys of 256 bits, of 32 bytes; `words` counts those of 128 bits and must be 2. A row is billed 152 bytes. KeyLength for
// another count is the first of a call's own refusals.

// As db_idx64_store, after KeyLength.
iterator db_idx256_store(name scope, name table, name payer, uint64_t id, const key256 *key, uint32_t words);
// As db_idx64_update, after KeyLength.
void db_idx256_update(iterator row, name payer, const key256 *key, uint32_t words);
// As db_idx64_remove.
void db_idx256_remove(iterator row);
// As db_idx64_next.
iterator db_idx256_next(iterator row, uint64_t *id);
// As db_idx64_previous.
iterator db_idx256_previous(iterator row, uint64_t *id);
// As db_idx64_find_primary, after KeyLength.
iterator db_idx256_find_primary(name code, name scope, name table, key256 *key, uint32_t words, uint64_t id);
// As db_idx64_find_secondary, after KeyLength.
iterator db_idx256_find_secondary(name code, name scope, name table, const key256 *key, uint32_t words, uint64_t *id);
// As db_idx64_lowerbound, after KeyLength.
iterator db_idx256_lowerbound(name code, name scope, name table, key256 *key, uint32_t words, uint64_t *id);
// As db_idx64_upperbound, after KeyLength.
iterator db_idx256_upperbound(name code, name scope, name table, key256 *key, uint32_t words, uint64_t *id);
// As db_idx64_end.
iterator db_idx256_end(name code, name scope, name table);
