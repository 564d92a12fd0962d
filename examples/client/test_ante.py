"""The client against the packed forms, ids and replies of docs/FORMATS.md; paths against a server that replies as it is told."""
import json
import threading
import unittest
from http.server import BaseHTTPRequestHandler, HTTPServer

import ante

PING = "0000000000000000000000000000010000000000ea30550000000000c0a6ab000000"
CHAIN_ID = "38d79991418211b4cd6c80cc8f743ddc20562a2ebf0ea0c61b7cd8394ee49dfe"
GENESIS_ID = "00000001a02ff9999db508509f7eaf28d07ca33d8ecce87712bb5d8043b4c5c9"
PING_ID = "ed56c81f576f183b712530e3dce000e8263b8faa889c0ee2bacad0e7841cf04b"
GENESIS_BLOCK = "000000000000000000ea3055" + 64 * "0" + CHAIN_ID + "0000"
PACKED_AUTHORITY = "010000000100" + "02" + 64 * "0" + "01000000"

KEY = bytes([0, 2]) + bytes(32)
AUTHORITY = ante.key_authority(KEY)
BUILT_IN = ante.Genesis(1, 0, ["eosio"], [ante.Account("eosio", AUTHORITY, AUTHORITY)])
LEVEL = ante.Level("alice", "active")


class Names(unittest.TestCase):
    def test_numbers(self):
        numbers = {"eosio": 6138663577826885632, "eosio.token": 6138663591592764928, "": 0, "zzzzzzzzzzzzj": 2**64 - 1}
        for text, number in numbers.items():
            self.assertEqual(ante.name_number(text), number)
            self.assertEqual(ante.name_text(number), text)

    def test_what_is_no_name(self):
        for text in ["zzzzzzzzzzzzk", "eosio!", 14 * "a", "Alice", "a6"]:
            self.assertRaises(ValueError, ante.name_number, text)


class Packed(unittest.TestCase):
    def test_values_of_the_documents(self):
        ping = ante.transaction([ante.Action("eosio", "ping", [], b"")])
        block = ante.Block(ante.genesis_header(BUILT_IN), b"", [])
        for value, text in [(ping, PING), (block, GENESIS_BLOCK), (AUTHORITY, PACKED_AUTHORITY)]:
            self.assertEqual(value.pack().hex(), text)
            self.assertEqual(type(value).read(bytes.fromhex(text)), value)
        self.assertEqual(len(BUILT_IN.pack()), 113)

    def test_a_value_with_every_field(self):
        authority = ante.Authority(2, [ante.KeyWeight(b"\1" + 33 * b"\7", 1)], [ante.LevelWeight(LEVEL, 300)], [ante.WaitWeight(5, 6)])
        action = ante.Action("token", "issue", [LEVEL, LEVEL], 300 * b"x")
        whole = ante.Transaction(1, 2, 3, 300, 5, 2**32 - 1, [action], [action, action], [ante.Extension(7, b"ab")])
        block = ante.Block(ante.Header(9, "eosio", 32 * b"\1", 32 * b"\2"), b"OK", [ante.Receipt(4, whole.pack(), [b"a", b""])])
        genesis = ante.Genesis(1, 2, ["alice", "bob"], [ante.Account("alice", authority, authority, 200 * b"c")])
        for value in [authority, action, whole, block, genesis]:
            self.assertEqual(type(value).read(value.pack()), value)

    def test_faults(self):
        cases = [
            (ante.Transaction, PING[:-2], "short", 33),
            (ante.Transaction, PING + "00", "trailing", 34),
            (ante.Transaction, PING[:20] + "8000" + PING[22:], "varuint", 10),
            (ante.Transaction, PING[:20] + "8080808010" + PING[22:], "varuint", 10),
            (ante.Transaction, PING[:20] + "80", "short", 10),
            (ante.Transaction, "", "short", 0),
            (ante.Authority, PACKED_AUTHORITY[:10] + "02" + PACKED_AUTHORITY[12:], "keykind", 5),
            (ante.Authority, PACKED_AUTHORITY[:10] + "02", "short", 5),
        ]
        for kind, text, fault, at in cases:
            with self.assertRaises(ante.PackFault) as caught:
                kind.read(bytes.fromhex(text))
            self.assertEqual((caught.exception.kind, caught.exception.at), (fault, at))

    def test_ids(self):
        self.assertEqual(ante.chain_id(BUILT_IN).hex(), CHAIN_ID)
        self.assertEqual(ante.block_id(ante.genesis_header(BUILT_IN)).hex(), GENESIS_ID)
        self.assertEqual(ante.transaction_id(bytes.fromhex(PING)).hex(), PING_ID)
        referring = ante.transaction([], 60, bytes.fromhex(GENESIS_ID))
        self.assertEqual((referring.ref_block_num, referring.ref_block_prefix), (1, int.from_bytes(bytes.fromhex("9db50850"), "little")))


class Traces(unittest.TestCase):
    def test_what_a_trace_answers(self):
        self.assertEqual(ante.return_value({"failure": None, "actions": [{"return_value": "0102"}]}), b"\1\2")
        with self.assertRaises(ante.TransactionFailed) as caught:
            ante.return_value({"failure": {"args": [b"no".hex()], "code": 6, "name": "Assert"}, "actions": []})
        self.assertEqual(str(caught.exception), "('Assert', 'no')")


class Stub(BaseHTTPRequestHandler):
    """Replies to each request with the server's next reply, and keeps what was asked."""

    def do_POST(self):
        body = json.loads(self.rfile.read(int(self.headers["Content-Length"])))
        self.server.asked.append((self.path, body))
        status, reply = self.server.replies.pop(0)
        self.send_response(status)
        self.end_headers()
        self.wfile.write(json.dumps(reply).encode())

    def log_message(self, *words):
        pass


class Paths(unittest.TestCase):
    def setUp(self):
        self.server = HTTPServer(("127.0.0.1", 0), Stub)
        self.server.asked, self.server.replies = [], []
        threading.Thread(target=self.server.serve_forever, daemon=True).start()
        self.node = ante.Node(port=self.server.server_port)

    def tearDown(self):
        self.server.shutdown()
        self.server.server_close()

    def call(self, reply, path, body, function, *args, **options):
        """Calls the function, and answers what it makes of the reply; the request must be for this path with this body."""
        self.server.replies.append((200, reply))
        answer = function(*args, **options)
        self.assertEqual(self.server.asked.pop(), ("/v1/chain/" + path, body))
        return answer

    def test_bodies(self):
        node, ping = self.node, ante.Transaction.read(bytes.fromhex(PING))
        rows = {"code": "ledger", "scope": "ledger", "table": "rows"}
        block = self.call({"packed": GENESIS_BLOCK}, "get_block", {"block_num_or_id": 1}, node.get_block, 1)
        self.assertEqual(ante.block_id(block.header).hex(), GENESIS_ID)
        self.call({}, "get_account", {"account_name": "eosio"}, node.get_account, "eosio")
        self.call({}, "get_table_rows", {**rows, "lower_bound": 5, "limit": 2}, node.get_table_rows, "ledger", "ledger", "rows", 5, limit=2)
        self.call({}, "get_table_rows", {**rows, "reverse": True}, node.get_table_rows, "ledger", "ledger", "rows", reverse=True)
        self.call({}, "get_table_by_scope", {"code": "ledger", "table": "rows"}, node.get_table_by_scope, "ledger", "rows")
        pushed = {"packed_trx": PING, "signatures": [ante.stand_in_signature(KEY)]}
        self.assertEqual(pushed["signatures"], ["KEY_0002" + 64 * "0"])
        self.call({"position": 0, "block_id": GENESIS_ID}, "push_transaction", pushed, node.push_transaction, ping, pushed["signatures"])

    def test_seen_is_carried(self):
        node, ping = self.node, ante.Transaction.read(bytes.fromhex(PING))
        asked = {"transaction": {"packed_trx": PING}}
        self.call({"position": 3, "block_id": "a1"}, "send_read_only_transaction", asked, node.send_read_only_transaction, ping)
        self.call({"position": 4, "head_block_id": "b2"}, "get_info", {}, node.get_info)
        asked["seen"] = {"position": 4, "block_id": "b2"}
        self.call({"position": 4, "block_id": "b2"}, "send_read_only_transaction", asked, node.send_read_only_transaction, ping)
        block = ante.Block.read(bytes.fromhex(GENESIS_BLOCK))
        for kept, seen in [(True, "b2"), (False, "c3")]:
            self.call({"position": 5, "block_id": "c3", "kept": kept}, "push_block", {"packed_block": GENESIS_BLOCK}, node.push_block, block)
            self.assertEqual(node.seen["block_id"], seen)

    def test_errors_by_name(self):
        cases = [
            (400, "bad_head", ["headlong"], ante.BadHead), (413, "too_large", [4194305], ante.TooLarge), (404, "unknown_path", [], ante.UnknownPath),
            (400, "bad_body", ["missing", "code"], ante.BadBody), (404, "unknown_block", [], ante.UnknownBlock),
            (404, "unknown_account", [], ante.UnknownAccount), (409, "ahead", [1, 0], ante.Ahead), (409, "not_producing", [], ante.NotProducing),
            (409, "push", ["invalid:6"], ante.BlockRefused), (503, "out_of_memory", [], ante.OutOfMemory),
        ]
        for status, error, args, kind in cases:
            self.server.replies.append((status, {"args": args, "error": error}))
            with self.assertRaises(kind) as caught:
                self.node.get_info()
            self.assertEqual(list(caught.exception.args), args)
        self.assertEqual(set(ante.Refused.kinds), {error for _, error, _, _ in cases})


if __name__ == "__main__":
    unittest.main()
