"""A client of the node: names, packed values, ids, and a function for each path under /v1/chain/, after docs/FORMATS.md.

A value is a dataclass whose annotations say how its fields are packed, so that one line a field both packs and reads it. Names are texts,
byte strings, digests and keys are bytes.
"""
import hashlib
import http.client
import json
from dataclasses import dataclass, field, fields

# ---- Names

ALPHABET = ".12345abcdefghijklmnopqrstuvwxyz"


def name_number(text):
    """The number of a name: five bits a character from the top, and four for a thirteenth."""
    numbers = [ALPHABET.find(character) for character in text.ljust(13, ".")]
    if len(text) > 13 or -1 in numbers or numbers[12] > 15:
        raise ValueError(f"{text!r} is no name")
    return sum(number << (59 - 5 * place) for place, number in enumerate(numbers[:12])) + numbers[12]


def name_text(number):
    """The text of a name, without dots at its end."""
    return ("".join(ALPHABET[number >> shift & 31] for shift in range(59, 3, -5)) + ALPHABET[number & 15]).rstrip(".")


# ---- Packed values


class PackFault(Exception):
    """What bytes can't be read for: `short`, `varuint`, `keykind` or `trailing`, and the place from 0."""

    def __init__(self, kind, at):
        super().__init__(f"{kind} at {at}")
        self.kind, self.at = kind, at


class Reader:
    """Bytes that are read from front to back."""

    def __init__(self, data):
        self.data, self.at = bytes(data), 0

    def take(self, count):
        taken = self.data[self.at:self.at + count]
        if len(taken) < count:
            raise PackFault("short", self.at)
        self.at += count
        return taken


class Form:
    """How values of one kind are packed, and read."""

    def __init__(self, pack, read):
        self.pack, self.read = pack, read

    def read_whole(self, data):
        """The value that these bytes are, and nothing behind it."""
        reader = Reader(data)
        value = self.read(reader)
        if reader.at < len(reader.data):
            raise PackFault("trailing", reader.at)
        return value


def number(size):
    return Form(lambda value: value.to_bytes(size, "little"), lambda reader: int.from_bytes(reader.take(size), "little"))


def fixed(size):
    def pack(value):
        if len(value) != size:
            raise ValueError(f"{len(value)} bytes in place of {size}")
        return bytes(value)
    return Form(pack, lambda reader: reader.take(size))


def pack_varuint(value):
    if not 0 <= value < 2**32:
        raise OverflowError(f"{value} is no varuint")
    packed = bytearray()
    while value > 0x7F:
        packed.append(value & 0x7F | 0x80)
        value >>= 7
    return bytes(packed) + bytes([value])


def read_varuint(reader):
    start, value = reader.at, 0
    for place in range(5):
        if reader.at == len(reader.data):
            raise PackFault("short", start)
        byte = reader.take(1)[0]
        value |= (byte & 0x7F) << 7 * place
        if byte < 0x80:
            break
    if value >= 2**32 or byte >= 0x80 or (byte == 0 and place > 0):
        raise PackFault("varuint", start)
    return value


def read_key(reader):
    start, key = reader.at, reader.take(34)
    if key[0] > 1:
        raise PackFault("keykind", start)
    return key


U8, U16, U32, U64 = number(1), number(2), number(4), number(8)
NAME = Form(lambda text: U64.pack(name_number(text)), lambda reader: name_text(U64.read(reader)))
DIGEST = fixed(32)
KEY = Form(fixed(34).pack, read_key)
VARUINT = Form(pack_varuint, read_varuint)
BYTES = Form(lambda value: pack_varuint(len(value)) + bytes(value), lambda reader: reader.take(read_varuint(reader)))


def list_of(item):
    return Form(lambda values: pack_varuint(len(values)) + b"".join(map(item.pack, values)),
                lambda reader: [item.read(reader) for _ in range(read_varuint(reader))])


def packed(cls):
    """A dataclass that is packed field by field, each as its annotation says; its `form` is for fields of this kind."""
    cls = dataclass(cls)
    parts = [(part.name, part.type) for part in fields(cls)]
    cls.form = Form(lambda value: b"".join(form.pack(getattr(value, name)) for name, form in parts),
                    lambda reader: cls(**{name: form.read(reader) for name, form in parts}))
    cls.pack = lambda self: cls.form.pack(self)
    cls.read = staticmethod(cls.form.read_whole)
    return cls


def none():
    return field(default_factory=list)


@packed
class Level:
    actor: NAME
    permission: NAME


@packed
class KeyWeight:
    key: KEY
    weight: U16


@packed
class LevelWeight:
    level: Level.form
    weight: U16


@packed
class WaitWeight:
    seconds: U32
    weight: U16


@packed
class Authority:
    threshold: U32
    keys: list_of(KeyWeight.form)
    accounts: list_of(LevelWeight.form) = none()
    waits: list_of(WaitWeight.form) = none()


@packed
class Action:
    account: NAME
    name: NAME
    authorization: list_of(Level.form)
    data: BYTES


@packed
class Extension:
    kind: U16
    data: BYTES


@packed
class Transaction:
    expiration: U32
    ref_block_num: U16
    ref_block_prefix: U32
    max_net_usage_words: VARUINT
    max_cpu_usage_ms: U8
    delay_sec: VARUINT
    context_free_actions: list_of(Action.form)
    actions: list_of(Action.form)
    extensions: list_of(Extension.form)


@packed
class Receipt:
    steps: U32
    packed: BYTES
    signatures: list_of(BYTES)


@packed
class Header:
    slot: U32
    producer: NAME
    previous: DIGEST
    trx_root: DIGEST


@packed
class Block:
    header: Header.form
    seal: BYTES
    receipts: list_of(Receipt.form)


@packed
class Account:
    """An account of genesis."""
    name: NAME
    owner: Authority.form
    active: Authority.form
    code: BYTES = b""


@packed
class Genesis:
    version: U32
    slot: U32
    producers: list_of(NAME)
    accounts: list_of(Account.form)


# ---- Ids


def sha256(data):
    return hashlib.sha256(data).digest()


def transaction_id(packed_transaction):
    return sha256(packed_transaction)


def signing_digest(chain_id, packed_transaction):
    """What the signers of a transaction sign."""
    return sha256(chain_id + packed_transaction + bytes(32))


def trx_root(receipts):
    return sha256(list_of(Receipt.form).pack(receipts))


def block_num(block_id):
    return int.from_bytes(block_id[:4], "big")


def block_id(header):
    return (block_num(header.previous) + 1).to_bytes(4, "big") + sha256(header.pack())[4:]


def chain_id(genesis):
    return sha256(genesis.pack())


def genesis_header(genesis):
    """The header of block 1."""
    return Header(genesis.slot, "eosio", bytes(32), chain_id(genesis))


# ---- Transactions


def transaction(actions, expiration=0, reference=bytes(32)):
    """A transaction that expires at this second since 1970 and refers to the block with this id. A read-only one needs neither."""
    return Transaction(expiration, block_num(reference) & 0xFFFF, int.from_bytes(reference[8:12], "little"), 0, 0, 0, [], list(actions), [])


def key_authority(key):
    """The authority that one key satisfies alone."""
    return Authority(1, [KeyWeight(key, 1)])


def stand_in_signature(key):
    """What stands for a signature on a development network: it names the key that would have signed, and proves nothing."""
    return "KEY_" + key.hex()


class TransactionFailed(Exception):
    """The failure that a trace shows: its name, its number and its arguments. The text of an assertion is readable."""

    def __init__(self, failure):
        self.name, self.code, self.details = failure["name"], failure["code"], failure["args"]
        if self.name == "Assert":
            self.details = [bytes.fromhex(failure["args"][0]).decode(errors="replace")]
        super().__init__(self.name, *self.details)


def return_value(trace):
    """What the transaction's first run answered; raises TransactionFailed where the transaction failed."""
    if trace["failure"] is not None:
        raise TransactionFailed(trace["failure"])
    return bytes.fromhex(trace["actions"][0]["return_value"])


# ---- Refusals


class Refused(Exception):
    """A reply but a 200. `args` are those of docs/FORMATS.md."""
    kinds = {}

    def __init_subclass__(cls, error):
        cls.error = error
        Refused.kinds[error] = cls


class BadHead(Refused, error="bad_head"):
    pass


class TooLarge(Refused, error="too_large"):
    pass


class UnknownPath(Refused, error="unknown_path"):
    pass


class BadBody(Refused, error="bad_body"):
    pass


class UnknownBlock(Refused, error="unknown_block"):
    pass


class UnknownAccount(Refused, error="unknown_account"):
    pass


class Ahead(Refused, error="ahead"):
    """The node doesn't have the head that an earlier reply had shown: it is behind, or on another branch."""


class NotProducing(Refused, error="not_producing"):
    pass


class BlockRefused(Refused, error="push"):
    pass


class OutOfMemory(Refused, error="out_of_memory"):
    pass


# ---- Paths


def present(**members):
    """The fields of a body that are given."""
    return {name: value for name, value in members.items() if value is not None}


class Node:
    """A node over HTTP. Replies are the objects of docs/FORMATS.md.

    `seen` is the head that the last reply told of. Read-only transactions carry it, so that no answer is older than what was seen;
    set it to None to forget.
    """

    def __init__(self, host="127.0.0.1", port=8888):
        self.host, self.port, self.seen = host, port, None

    def ask(self, path, **body):
        link = http.client.HTTPConnection(self.host, self.port)
        try:
            link.request("POST", "/v1/chain/" + path, json.dumps(body))
            reply = link.getresponse()
            value = json.loads(reply.read())
        finally:
            link.close()
        if reply.status != 200:
            raise Refused.kinds.get(value["error"], Refused)(*value["args"])
        return value

    def saw(self, position, id_text):
        self.seen = {"position": position, "block_id": id_text}

    def get_info(self):
        info = self.ask("get_info")
        self.saw(info["position"], info["head_block_id"])
        return info

    def get_block(self, block_num_or_id):
        """The block with this number, or with this id as hex."""
        return Block.read(bytes.fromhex(self.ask("get_block", block_num_or_id=block_num_or_id)["packed"]))

    def get_account(self, account_name):
        return self.ask("get_account", account_name=account_name)

    def get_table_rows(self, code, scope, table, lower_bound=None, upper_bound=None, limit=None, reverse=None):
        return self.ask("get_table_rows", code=code, scope=scope, table=table,
                        **present(lower_bound=lower_bound, upper_bound=upper_bound, limit=limit, reverse=reverse))

    def get_table_by_scope(self, code, table=None, lower_bound=None, limit=None):
        return self.ask("get_table_by_scope", code=code, **present(table=table, lower_bound=lower_bound, limit=limit))

    def push_transaction(self, value, signatures=()):
        """The trace, also of a transaction that failed."""
        trace = self.ask("push_transaction", packed_trx=value.pack().hex(), signatures=list(signatures))
        self.saw(trace["position"], trace["block_id"])
        return trace

    def push_block(self, block):
        reply = self.ask("push_block", packed_block=block.pack().hex())
        if not reply["kept"]:
            self.saw(reply["position"], reply["block_id"])
        return reply

    def send_read_only_transaction(self, value):
        """The trace on a head that isn't older than the one that was seen."""
        trace = self.ask("send_read_only_transaction", transaction={"packed_trx": value.pack().hex()}, **present(seen=self.seen))
        self.saw(trace["position"], trace["block_id"])
        return trace
