// A token. The contract's own account issues it, and holders transfer it.
//
//   issue(to name, amount u64, memo text)                  by the contract's account
//   transfer(from name, to name, amount u64, memo text)    by the sender
//   balance(owner name)                                    answers the amount, u64
//   richest()                                              answers the holder with most, name and u64; nothing where nobody holds any
//
// An account that holds nothing has no row. A name is its u64, a text a length and its bytes. The last two write nothing.
#include "ante.h"

// Holders by their names' numbers, each a `holding`; and an index of 64 bits by the amount, so that the richest is found.
#define BALANCES NAME("balances")
// One row, with primary key 0: all that was issued, u64.
#define SUPPLY NAME("supply")

#define MEMO_MOST 127  // so that its length is one byte
#define DATA_MOST (3 * 8 + 1 + MEMO_MOST)

typedef struct {
    name owner;
    uint64_t amount;
} holding;

// The contract's account, under which all its tables stand.
static name self;

// Leaves a row to whoever pays for it.
static const name same_payer = 0;

static void require(bool holds, const char *refusal) {
    eosio_assert(holds, refusal);
}

// ---- The action's data, read from front to back

typedef struct {
    const uint8_t *at, *end;
} reader;

static reader read_data(void) {
    static uint8_t bytes[DATA_MOST];
    uint32_t size = action_data_size();
    require(size <= DATA_MOST, "the data is too long");
    read_action_data(bytes, size);
    return (reader){bytes, bytes + size};
}

static const uint8_t *take(reader *data, ptrdiff_t size) {
    require(data->end - data->at >= size, "the data is too short");
    const uint8_t *field = data->at;
    data->at += size;
    return field;
}

static uint64_t take_u64(reader *data) {
    uint64_t value;
    __builtin_memcpy(&value, take(data, sizeof value), sizeof value);
    return value;
}

static void skip_memo(reader *data) {
    uint8_t size = *take(data, 1);
    require(size <= MEMO_MOST, "the memo is longer than 127 bytes");
    take(data, size);
}

static void require_end(const reader *data) {
    require(data->at == data->end, "the data has more than its fields");
}

// ---- Tables

static uint64_t balance_of(name owner) {
    holding row = {owner, 0};
    iterator at = db_find_i64(self, self, BALANCES, owner);
    if (at >= 0) db_get_i64(at, &row, sizeof row);
    return row.amount;
}

static void add_holder(holding row, name payer) {
    db_store_i64(self, BALANCES, payer, row.owner, &row, sizeof row);
    db_idx64_store(self, BALANCES, payer, row.owner, &row.amount);
}

static iterator in_index(name owner) {
    uint64_t amount;
    return db_idx64_find_primary(self, self, BALANCES, &amount, owner);
}

static void update_holder(iterator at, holding row) {
    db_update_i64(at, same_payer, &row, sizeof row);
    db_idx64_update(in_index(row.owner), same_payer, &row.amount);
}

static void remove_holder(iterator at, name owner) {
    db_remove_i64(at);
    db_idx64_remove(in_index(owner));
}

// The payer pays where the owner is no holder yet.
static void set_balance(name owner, uint64_t amount, name payer) {
    iterator at = db_find_i64(self, self, BALANCES, owner);
    if (at < 0) {
        add_holder((holding){owner, amount}, payer);
    } else if (amount > 0) {
        update_holder(at, (holding){owner, amount});
    } else {
        remove_holder(at, owner);
    }
}

// All that was issued stays below 2^64, and so does each balance, which is a part of it.
static void add_supply(uint64_t amount) {
    uint64_t supply = 0;
    iterator at = db_find_i64(self, self, SUPPLY, 0);
    if (at >= 0) db_get_i64(at, &supply, sizeof supply);
    require(amount <= UINT64_MAX - supply, "the supply would pass 64 bits");
    supply += amount;
    if (at < 0) {
        db_store_i64(self, SUPPLY, self, 0, &supply, sizeof supply);
    } else {
        db_update_i64(at, same_payer, &supply, sizeof supply);
    }
}

// ---- Actions

static void issue(reader *data) {
    name to = take_u64(data);
    uint64_t amount = take_u64(data);
    skip_memo(data);
    require_end(data);
    require(has_auth(self), "only the token's own account issues");
    require(is_account(to), "there is no such receiver");
    require(amount > 0, "the amount is 0");
    add_supply(amount);
    set_balance(to, balance_of(to) + amount, self);
    require_recipient(to);
}

static void transfer(reader *data) {
    name from = take_u64(data);
    name to = take_u64(data);
    uint64_t amount = take_u64(data);
    skip_memo(data);
    require_end(data);
    require(has_auth(from), "the sender hasn't signed");
    require(from != to, "the sender is the receiver");
    require(is_account(to), "there is no such receiver");
    require(amount > 0, "the amount is 0");
    uint64_t held = balance_of(from);
    require(amount <= held, "the sender doesn't hold as much");
    set_balance(from, held - amount, from);
    set_balance(to, balance_of(to) + amount, from);
    require_recipient(from);
    require_recipient(to);
}

static void balance(reader *data) {
    name owner = take_u64(data);
    require_end(data);
    require(is_account(owner), "there is no such account");
    uint64_t amount = balance_of(owner);
    set_action_return_value(&amount, sizeof amount);
}

static void richest(reader *data) {
    require_end(data);
    holding row;
    iterator end = db_idx64_end(self, self, BALANCES);
    if (end == -1) return;
    db_idx64_previous(end, &row.owner);
    row.amount = balance_of(row.owner);
    set_action_return_value(&row, sizeof row);
}

// Each run of the contract begins here: for its own actions, and for those of others that name it as recipient.
void apply(name receiver, name account, name action) {
    if (receiver != account) return;
    self = receiver;
    reader data = read_data();
    if (action == NAME("issue")) {
        issue(&data);
    } else if (action == NAME("transfer")) {
        transfer(&data);
    } else if (action == NAME("balance")) {
        balance(&data);
    } else if (action == NAME("richest")) {
        richest(&data);
    } else {
        require(false, "there is no such action");
    }
}
