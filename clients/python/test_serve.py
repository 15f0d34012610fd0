"""Tests of pinkctl serve against the real program:  python3 clients/python/test_serve.py

It speaks the protocol itself. bench/redis.sh tries redis-cli, redis-benchmark and kills. The
environment's PINK_PROGRAM names another program than ./pink.
"""

import os
import signal
import socket
import subprocess
import sys
import tempfile
import threading
import time
import unittest

HERE = os.path.dirname(os.path.abspath(__file__))
sys.path.insert(0, HERE)

import pinkdrive
from pinkctl import resp

SHAPE = (512, 16, 64)
GREATEST = 2016
LIMIT = 492
KEYS = LIMIT // 2  # a value takes two pages


class Error(Exception):
    """An error reply."""


class Connection:
    """A client of Redis in a few lines."""

    def __init__(self, path):
        self.socket = socket.socket(socket.AF_UNIX)
        self.socket.settimeout(300)  # a busy machine may be slow
        self.socket.connect(path)
        self.file = self.socket.makefile("rb")

    def send(self, *words):
        self.socket.sendall(request(*words))

    def reply(self):
        line = self.file.readline()
        if not line.endswith(b"\r\n"):
            raise EOFError
        kind, rest = line[:1], line[1:-2]
        if kind == b"+":
            return rest.decode()
        if kind == b"-":
            return Error(rest.decode())
        if kind == b":":
            return int(rest)
        if kind == b"$":
            return None if rest == b"-1" else self.file.read(int(rest) + 2)[:-2]
        return [self.reply() for _ in range(int(rest))]

    def do(self, *words):
        self.send(*words)
        return self.reply()

    def close(self):
        self.file.close()
        self.socket.close()


def request(*words):
    words = [it if isinstance(it, bytes) else str(it).encode() for it in words]
    return b"*%d\r\n" % len(words) + b"".join(b"$%d\r\n%b\r\n" % (len(it), it) for it in words)


class OnServer(unittest.TestCase):
    """A test with a drive and a server of its own."""

    shape = SHAPE
    limits = ()

    def setUp(self):
        folder = tempfile.TemporaryDirectory()
        self.addCleanup(folder.cleanup)
        self.image = os.path.join(folder.name, "drive.img")
        self.path = os.path.join(folder.name, "socket")
        pinkdrive.make(self.image, *self.shape, limits=self.limits)
        self.start()

    def start(self, *words):
        words = words or ("--socket", self.path)
        self.server = subprocess.Popen(
            [sys.executable, "-m", "pinkctl", "serve", self.image, *words],
            cwd=HERE,
            stdout=subprocess.PIPE,
            stderr=subprocess.PIPE,
            text=True,
        )
        self.addCleanup(self.end)
        self.ready = self.server.stdout.readline()

    def end(self):
        """Ends the server if it runs, and returns its status."""
        if self.server.poll() is None:
            self.server.send_signal(signal.SIGTERM)
        status = self.server.wait(30)
        self.server.stdout.close()
        self.server.stderr.close()
        return status

    def connect(self):
        connection = Connection(self.path)
        self.addCleanup(connection.close)
        return connection

    def held(self):
        """The map of the drive, after the end of the server."""
        with pinkdrive.Drive(self.image, timeout=5) as d:
            return dict(d.items())


class Commands(OnServer):
    def test_values(self):
        c = self.connect()
        self.assertEqual(c.do("SET", "a", b"\r\n\0x"), "OK")
        self.assertEqual(c.do("get", "a"), b"\r\n\0x")
        self.assertEqual(c.do("STRLEN", "a"), 4)
        self.assertEqual(c.do("SET", "empty", ""), "OK")
        self.assertEqual(c.do("GET", "empty"), b"")
        self.assertIsNone(c.do("GET", "none"))
        self.assertEqual(c.do("STRLEN", "none"), 0)
        self.assertEqual(c.do("MGET", "a", "none", "empty"), [b"\r\n\0x", None, b""])
        self.assertEqual(c.do("EXISTS", "a", "none", "a"), 2)
        self.assertEqual(c.do("TYPE", "a"), "string")
        self.assertEqual(c.do("TYPE", "none"), "none")
        self.assertEqual(c.do("DBSIZE"), 2)
        self.assertEqual(c.do("DEL", "a", "none"), 1)
        self.assertEqual(c.do("UNLINK", "empty"), 1)
        self.assertEqual(c.do("DBSIZE"), 0)

    def test_conditions(self):
        c = self.connect()
        self.assertIsNone(c.do("SET", "a", "1", "XX"))
        self.assertEqual(c.do("SET", "a", "2", "nx"), "OK")
        self.assertIsNone(c.do("SET", "a", "3", "NX"))
        self.assertEqual(c.do("SET", "a", "4", "XX"), "OK")
        self.assertEqual(c.do("SET", "a", "5", "GET"), b"4")
        self.assertIsNone(c.do("SET", "b", "6", "GET"))
        self.assertEqual(c.do("SET", "b", "7", "NX", "GET"), b"6")
        self.assertEqual(c.do("MGET", "a", "b"), [b"5", b"6"])
        self.assertEqual(c.do("SETNX", "b", "8"), 0)
        self.assertEqual(c.do("SETNX", "c", "9"), 1)

    def refuses(self, connection, text, *words):
        reply = connection.do(*words)
        self.assertIsInstance(reply, Error)
        self.assertIn(text, str(reply))

    def test_refusals(self):
        c = self.connect()
        self.refuses(c, "unknown command 'FLUSHALL'; the drive has AUTH BGSAVE", "FLUSHALL")
        self.refuses(c, "wrong number of arguments for 'get' command", "GET")
        self.refuses(c, "wrong number of arguments for 'get' command", "GET", "a", "b")
        self.refuses(c, "not 'EX' (keys do not expire)", "SET", "a", "1", "EX", "9")
        self.refuses(c, "exclude each other", "SET", "a", "1", "NX", "XX")
        self.refuses(c, "has 17 (status 86h)", "SET", "k" * 17, "1")
        self.refuses(c, "has 17 (status 86h)", "GET", "k" * 17)
        self.refuses(c, "has 0 (status 86h)", "DEL", "")
        self.refuses(c, f"has {GREATEST + 1} bytes; the drive takes at most {GREATEST}", "SET", "a", "x" * (GREATEST + 1))
        self.refuses(c, "there is 0 alone", "SELECT", "1")
        self.refuses(c, "NOPROTO", "HELLO", "3")
        self.refuses(c, "invalid cursor", "SCAN", "x")
        self.refuses(c, "begin with 0", "SCAN", "77")
        self.refuses(c, "SCAN has MATCH", "SCAN", "0", "FOO", "1")
        self.refuses(c, "not an integer", "SCAN", "0", "COUNT", "0")
        self.assertEqual(c.do("SET", "a", "x" * GREATEST), "OK")
        self.assertEqual(c.do("DBSIZE"), 1)

    def test_what_tools_ask(self):
        c = self.connect()
        self.assertEqual(c.do("PING"), "PONG")
        self.assertEqual(c.do("PING", "x"), b"x")
        self.assertEqual(c.do("ECHO", "x"), b"x")
        self.assertEqual(c.do("SELECT", "0"), "OK")
        self.assertEqual(c.do("COMMAND", "DOCS"), [])
        self.assertGreater(c.do("COMMAND", "COUNT"), 10)
        self.assertEqual(c.do("CLIENT", "SETNAME", "me"), "OK")
        self.assertEqual(c.do("CLIENT", "GETNAME"), b"me")
        self.assertEqual(c.do("CONFIG", "GET", "save"), [b"save", b""])
        self.assertIn(b"proto", c.do("HELLO", "2"))
        c.do("SET", "a", "1")
        told = c.do("INFO").decode()
        for line in ("db0:keys=1,", "report_live:2", f"report_limit:{LIMIT}", "greatest_value_bytes:2016", "cmdstat_set:calls=1"):
            self.assertIn(line, told)
        self.assertNotIn("# Server", c.do("INFO", "keyspace").decode())
        self.assertEqual(c.do("QUIT"), "OK")
        self.assertRaises(EOFError, c.reply)

    def test_a_full_drive(self):
        c = self.connect()
        for i in range(KEYS):
            c.send("SET", "%04d" % i, "x")
        self.assertEqual({c.reply() for _ in range(KEYS)}, {"OK"})
        reply = c.do("SET", "more", "x")
        self.assertTrue(str(reply).startswith("ERR no space"), reply)
        self.assertIn(f"the values of its namespace at most {LIMIT}", str(reply))
        self.assertEqual(c.do("SET", "0000", "y"), "OK")


class Scans(OnServer):
    def scan(self, connection, *words):
        found, cursor, turns = [], b"0", 0
        while turns == 0 or cursor != b"0":
            cursor, keys = connection.do("SCAN", cursor, *words)
            found += keys
            turns += 1
        return found, turns

    def test_all_keys(self):
        c = self.connect()
        keys = sorted([b"k%03d" % i for i in range(230)] + [b"\xff" * 16, b"\xff" * 15 + b"\xfe", b"a" * 15 + b"\xff", b"b"])
        for key in keys:
            c.send("SET", key, "")
        self.assertEqual({c.reply() for _ in keys}, {"OK"})
        for count in (1, 7, 10, 1000, 100000):
            found, turns = self.scan(c, "COUNT", count)
            self.assertEqual(found, keys)
            self.assertGreaterEqual(3 * turns, len(keys) / count)  # a short key leaves room for more
        self.assertEqual(self.scan(c, "MATCH", "k00?")[0], [b"k00%d" % i for i in range(10)])
        self.assertEqual(self.scan(c, "MATCH", "*9")[0], [b"k%03d" % i for i in range(9, 230, 10)])
        self.assertEqual(self.scan(c, "MATCH", "k19[5-9]", "COUNT", "1000"), ([b"k19%d" % i for i in range(5, 10)], 1))
        self.assertEqual(self.scan(c, "MATCH", "k[^0]00")[0], [b"k100", b"k200"])
        self.assertEqual(self.scan(c, "TYPE", "hash")[0], [])

    def test_keys_that_stay_are_found_while_others_come_and_go(self):
        c = self.connect()
        stay = [b"s%02d" % i for i in range(50)]
        for key in stay:
            c.do("SET", key, "")
        cursor, found, turn = b"0", [], 0
        while turn == 0 or cursor != b"0":
            cursor, keys = c.do("SCAN", cursor, "COUNT", 3)
            found += keys
            c.do("SET", b"s%02dx" % turn, "")
            c.do("DEL", b"s%02dx" % (turn - 5))
            turn += 1
        self.assertEqual([it for it in found if it in stay], stay)


class Pipelines(OnServer):
    def test_many_requests_at_once(self):
        c = self.connect()
        keys = [b"%d" % (i % 50) for i in range(20000)]
        out = b"".join(request("SET", key, b"%d" % i) + request("GET", key) for i, key in enumerate(keys))
        threading.Thread(target=c.socket.sendall, args=(out,)).start()
        for i in range(len(keys)):
            self.assertEqual(c.reply(), "OK")
            self.assertEqual(c.reply(), b"%d" % i)

    def test_replies_that_nobody_reads(self):
        c, other = self.connect(), self.connect()
        other.do("SET", "big", "x" * GREATEST)
        c.socket.settimeout(2)
        try:  # the server stops to read when a megabyte of replies waits
            for _ in range(200):
                c.socket.sendall(request("GET", "big") * 200)
        except socket.timeout:
            pass
        else:
            self.fail("the server took all requests")
        self.assertEqual(other.do("PING"), "PONG")
        with open(f"/proc/{self.server.pid}/statm") as it:
            self.assertLess(int(it.read().split()[1]) * 4096, 100 << 20)
        c.socket.settimeout(300)
        for _ in range(1000):
            self.assertEqual(len(c.reply()), GREATEST)

    def test_pieces(self):
        c = self.connect()
        for byte in request("SET", "a", "value") + b"GET a\r\n" + b'SET b "x y"\r\n':
            c.socket.sendall(bytes([byte]))
        self.assertEqual([c.reply() for _ in range(3)], ["OK", b"value", "OK"])
        self.assertEqual(c.do("GET", "b"), b"x y")

    def test_no_requests(self):
        wrong = [b"*1\r\n+PING\r\n", b"*x\r\n", b"*1\r\n$-5\r\n", b"*1\r\n$99999999\r\n", b"a" * 70000, b'"\r\n']
        for data in wrong:
            c = self.connect()
            c.socket.sendall(data)
            self.assertIn("Protocol error", str(c.reply()))
            self.assertRaises((EOFError, ConnectionResetError), c.reply)
        c = self.connect()
        c.socket.sendall(b"POST / HTTP/1.1\r\nHost: x\r\n\r\nSET a 1\r\n")
        self.assertIn("unknown command 'POST'", str(c.reply()))
        self.assertRaises(EOFError, c.reply)
        self.assertEqual(self.connect().do("EXISTS", "a"), 0)

    def test_a_client_that_leaves(self):
        for turn in range(20):
            c = self.connect()
            c.send("SET", "k%d" % turn, "1")
            c.socket.sendall(request("SET", "half", "1")[:-3])
            c.close()
        c = self.connect()
        self.assertLessEqual(c.do("DBSIZE"), 20)
        self.assertEqual(c.do("EXISTS", "half"), 0)

    def test_changes_are_committed_in_groups(self):
        clients = [self.connect() for _ in range(50)]
        for turn in range(20):
            for number, c in enumerate(clients):
                c.send("SET", "c%d" % number, "%d" % turn)
            self.assertEqual({c.reply() for c in clients}, {"OK"})
        told = dict(it.split(":", 1) for it in clients[0].do("INFO", "stats").decode().split("\r\n") if ":" in it)
        self.assertEqual(int(told["drive_changes"]), 1000)
        self.assertLess(int(told["drive_groups"]), 900)

    def stats(self, c):
        lines = c.do("INFO", "stats").decode().split("\r\n")
        return {name: int(value) for name, value in (it.split(":", 1) for it in lines if ":" in it)}

    def test_numbers_of_a_drive_that_runs(self):
        c = self.connect()
        before = self.stats(c)
        for i in range(30):
            c.do("SET", "n%d" % i, "x" * 400)
        after = self.stats(c)
        self.assertEqual(after["drive_changes"] - before["drive_changes"], 30)
        # Of each value its pages, and those of the journal that its entry is in, with their states.
        written = after["drive_written_bytes"] - before["drive_written_bytes"]
        self.assertGreater(written, 30 * 400)
        self.assertLess(written, 30 * 3 * 512 * 2)
        self.assertEqual(after["drive_waiting"], 0)
        self.assertGreater(after["drive_mean_microseconds"], 0)
        self.assertLess(after["drive_mean_microseconds"], 10**7)


class Namespaces(OnServer):
    limits = (100, 300)

    def test_select(self):
        c = self.connect()
        self.assertEqual(c.do("MSET", "a", "1", "b", "2"), "OK")
        self.assertEqual(c.do("SELECT", "1"), "OK")
        self.assertEqual(c.do("MGET", "a", "b"), [None, None])
        self.assertEqual(c.do("SET", "a", "other"), "OK")
        self.assertIn(b"db1:keys=1,", c.do("INFO", "keyspace"))
        self.assertIn("there is 0 to 1", str(c.do("SELECT", "2")))
        for i in range(149):
            self.assertEqual(c.do("SET", "%03d" % i, ""), "OK")
        self.assertIn("its namespace at most 300", str(c.do("SET", "more", "")))
        self.assertEqual(c.do("FLUSHDB"), "OK")
        self.assertEqual(c.do("DBSIZE"), 0)
        self.assertEqual(c.do("SELECT", "0"), "OK")
        self.assertEqual(c.do("MGET", "a", "b"), [b"1", b"2"])

    def test_requests_wait_for_the_end_of_flushdb(self):
        c = self.connect()
        for turn in range(5):
            c.socket.sendall(b"".join(request("SET", "k%d" % i, "x") for i in range(49)))
            c.socket.sendall(request("FLUSHDB") + request("DBSIZE") + request("SET", "last", "x") + request("DBSIZE"))
            self.assertEqual([c.reply() for _ in range(49)], ["OK"] * 49)
            self.assertEqual([c.reply() for _ in range(4)], ["OK", 0, "OK", 1])


class Groups(OnServer):
    def test_nothing_is_done_before_exec(self):
        c, other = self.connect(), self.connect()
        self.assertEqual(c.do("MULTI"), "OK")
        self.assertEqual(c.do("SET", "a", "1"), "QUEUED")
        self.assertEqual(c.do("MGET", "a", "b"), "QUEUED")
        self.assertIsNone(other.do("GET", "a"))
        self.assertEqual(c.do("EXEC"), ["OK", [b"1", None]])
        self.assertEqual(other.do("GET", "a"), b"1")
        c.do("MULTI")
        c.do("SET", "a", "2")
        self.assertEqual(c.do("DISCARD"), "OK")
        self.assertEqual(c.do("GET", "a"), b"1")

    def test_a_group_with_a_refusal_is_not_done(self):
        c = self.connect()
        for wrong in (("INCR", "a"), ("GET",), ("MULTI", "x"), ("FLUSHDB",), ("BGSAVE", "x")):
            self.assertEqual(c.do("MULTI"), "OK")
            self.assertEqual(c.do("SET", "a", "1"), "QUEUED")
            self.assertIsInstance(c.do(*wrong), Error)
            self.assertEqual(c.do("SET", "b", "1"), "QUEUED")
            self.assertIn("EXECABORT", str(c.do("EXEC")))
        self.assertEqual(c.do("DBSIZE"), 0)
        self.assertIn("without MULTI", str(c.do("EXEC")))
        self.assertIn("without MULTI", str(c.do("DISCARD")))

    def test_a_group_that_is_too_large(self):
        c = self.connect()
        c.do("MULTI")
        for _ in range(1024 // 2):
            c.send("GET", "a")
        self.assertEqual({c.reply() for _ in range(1024 // 2)}, {"QUEUED"})
        self.assertIn("at most 1024 commands", str(c.do("GET", "a")))
        self.assertIn("EXECABORT", str(c.do("EXEC")))

    def test_no_command_of_another_comes_between(self):
        clients = [self.connect() for _ in range(8)]
        keys = ["k%d" % i for i in range(40)]
        for turn in range(20):
            for number, c in enumerate(clients):
                sets = [request("SET", key, "%d/%d" % (number, turn)) for key in keys]
                c.socket.sendall(b"".join([request("MULTI"), *sets, request("MGET", *keys), request("EXEC")]))
            for number, c in enumerate(clients):
                replies = [c.reply() for _ in range(43)]
                self.assertEqual(set(replies[-1][-1]), {b"%d/%d" % (number, turn)})


class Secrets(OnServer):
    def test_a_password(self):
        self.end()
        path = os.path.join(os.path.dirname(self.image), "word")
        with open(path, "w") as file:
            file.write("secret\n")
        self.start("--socket", self.path, "--password-file", path)
        c = self.connect()
        self.assertIn("NOAUTH", str(c.do("GET", "a")))
        self.assertIn("NOAUTH", str(c.do("PING")))
        self.assertIn("WRONGPASS", str(c.do("AUTH", "other")))
        self.assertIn("WRONGPASS", str(c.do("AUTH", "bob", "secret")))
        self.assertIn("NOAUTH", str(c.do("SET", "a", "1")))
        self.assertEqual(c.do("AUTH", "secret"), "OK")
        self.assertIsNone(c.do("GET", "a"))
        self.assertIn(b"proto", self.connect().do("HELLO", "2", "AUTH", "default", "secret"))


class Copies(OnServer):
    def test_a_copy_while_clients_change(self):
        self.end()
        folder = os.path.join(os.path.dirname(self.image), "backups")
        os.mkdir(folder)
        self.start("--socket", self.path, "--backups", folder)
        done, stop = [0], []

        def change():
            c = self.connect()
            while not stop:
                c.do("SET", "n", "%d" % (done[0] + 1))
                done[0] += 1

        writer = threading.Thread(target=change)
        writer.start()
        c, lost = self.connect(), self.connect()
        c.do("SET", "a", "x" * GREATEST)
        lost.socket.sendall(request("GET", "a") * 5000)  # whoever takes no replies holds up no copy
        for turn in range(5):
            before = done[0]
            self.assertEqual(c.do("BGSAVE", "copy%d" % turn), "OK")
            after = done[0]
            with pinkdrive.Drive(os.path.join(folder, "copy%d" % turn)) as d:
                self.assertIn(int(d.get(b"n", b"0")), range(before, after + 2))
                self.assertEqual(d[b"a"], b"x" * GREATEST)
            time.sleep(0.05)
        stop.append(1)
        writer.join()
        self.assertGreater(done[0], 5)
        for name, text in (("copy0", "there is a file"), ("../x", "a name of a file"), (".x", "a name of a file"), ("", "a name of a file")):
            self.assertIn(text, str(c.do("BGSAVE", name)))
        self.assertEqual(sorted(os.listdir(folder)), ["copy%d" % turn for turn in range(5)])

    def test_without_a_folder(self):
        self.assertIn("--backups FOLDER", str(self.connect().do("BGSAVE", "x")))


class FullDisk(unittest.TestCase):
    def test_reads_go_on(self):
        with tempfile.TemporaryDirectory() as folder:
            disk = os.path.join(folder, "disk")
            os.mkdir(disk)
            if subprocess.run(["mount", "-t", "tmpfs", "-o", "size=2m", "none", disk], stderr=subprocess.DEVNULL).returncode:
                self.skipTest("a file system of its own cannot be mounted here")
            try:
                self.fill(os.path.join(disk, "drive.img"), os.path.join(folder, "socket"), disk)
            finally:
                subprocess.run(["umount", disk], check=True)

    def fill(self, image, path, disk):
        pinkdrive.make(image, 4096, 64, 512)
        words = [sys.executable, "-m", "pinkctl", "serve", image, "--socket", path]
        server = subprocess.Popen(words, cwd=HERE, stdout=subprocess.PIPE, stderr=subprocess.PIPE, text=True)
        try:
            server.stdout.readline()
            c, reader = Connection(path), Connection(path)
            self.addCleanup(c.close)
            self.addCleanup(reader.close)
            done, reply = 0, "OK"
            while reply == "OK":
                reply = c.do("SET", "k%d" % done, "v" * 3000)
                done += reply == "OK"
            self.assertIn("no space left on the disk", str(reply))
            self.assertEqual(reader.do("GET", "k0"), b"v" * 3000)
            self.assertGreaterEqual(reader.do("DBSIZE"), done)
            self.assertIn("the drive is only read", str(c.do("SET", "a", "1")))
            self.assertEqual(c.do("GET", "k1"), b"v" * 3000)
            subprocess.run(["mount", "-o", "remount,size=8m", disk], check=True)
            self.assertEqual(c.do("SET", "a", "1"), "OK")
            self.assertEqual(reader.do("GET", "a"), b"1")
        finally:
            server.send_signal(signal.SIGTERM)
            server.communicate(timeout=30)


class Fairness(OnServer):
    """Whatever some clients do, the others are served, and memory is bounded."""

    shape = (4096, 64, 64)

    def setUp(self):
        super().setUp()
        self.value = "x" * 60000
        self.assertEqual(self.connect().do("SET", "big", self.value), "OK")
        self.memory = self.resident()

    def resident(self):
        with open(f"/proc/{self.server.pid}/statm") as it:
            return int(it.read().split()[1]) * 4096

    def others(self, name, worst):
        """The time of another client's GETs, and the memory that was taken."""
        c, times = self.connect(), []
        for _ in range(40):
            began = time.monotonic()
            self.assertIsNone(c.do("GET", "none"))
            times.append(time.monotonic() - began)
            time.sleep(0.01)
        more = self.resident() - self.memory
        print(f"{name}: another client's GET {1000 * sorted(times)[20]:.1f} ms (median), {1000 * max(times):.1f} (worst), {more >> 20} MiB more")
        self.assertLess(sorted(times)[20], worst)
        self.assertLess(more, 64 << 20)

    def flood(self, count):
        """A client that sends this many requests, as far as they are taken, and reads nothing."""
        c = self.connect()
        c.socket.setblocking(False)
        try:
            data = request("GET", "big") * count
            while data:
                data = data[c.socket.send(data) :]
        except BlockingIOError:
            pass
        return c

    def test_a_stopped_client(self):
        self.flood(4000)
        time.sleep(0.2)
        self.others("one client reads nothing", 0.5)

    def test_twenty_stopped_clients(self):
        clients = [self.flood(3000) for _ in range(20)]
        time.sleep(0.5)
        self.others("20 clients read nothing", 0.5)
        for c in clients:
            c.socket.settimeout(60)
            self.assertEqual(c.reply(), self.value.encode())

    def test_a_slow_client(self):
        c, stop = self.flood(3000), []

        def read_slowly():
            c.socket.settimeout(60)
            while not stop:
                c.socket.recv(10000)
                time.sleep(0.01)

        reader = threading.Thread(target=read_slowly)
        reader.start()
        self.others("one client reads slowly", 0.5)
        stop.append(1)
        reader.join()

    def test_a_client_that_asks_much_and_reads(self):
        c, stop = self.connect(), []

        def ask():
            while not stop:
                c.socket.sendall(request("GET", "big") * 1000)
                for _ in range(1000):
                    c.reply()

        asking = threading.Thread(target=ask)
        asking.start()
        self.others("one client reads 1,000 values of 60 KB at a time", 0.5)
        stop.append(1)
        asking.join()

    def test_an_mget_of_many(self):
        c = self.connect()
        c.send("MGET", *["big"] * 2000)
        time.sleep(0.3)
        self.others("one MGET of 120 MB that nobody reads", 0.5)
        self.assertEqual(c.reply(), [self.value.encode()] * 2000)

    def test_a_term_while_clients_read_nothing(self):
        clients = [self.flood(3000) for _ in range(5)]
        time.sleep(0.3)
        began = time.monotonic()
        self.assertEqual(self.end(), 0)
        took = time.monotonic() - began
        print(f"TERM while 5 clients read nothing: {took:.2f} s")
        self.assertLess(took, 10)
        self.assertEqual(len(clients), 5)

    def test_a_request_without_an_end(self):
        c = self.connect()
        c.socket.sendall(b"*100\r\n")
        try:
            for _ in range(100):
                c.socket.sendall(b"$1000000\r\n" + b"x" * 1000000 + b"\r\n")
        except (ConnectionResetError, BrokenPipeError):
            pass
        self.assertLess(self.resident() - self.memory, 64 << 20)
        self.assertEqual(self.connect().do("PING"), "PONG")


class Ends(OnServer):
    def test_a_signal_ends_it_when_all_is_answered(self):
        for number in (signal.SIGTERM, signal.SIGINT, signal.SIGHUP):
            clients = [self.connect() for _ in range(5)]
            for i, c in enumerate(clients):
                c.socket.sendall(b"".join(request("SET", "%d-%d" % (i, j), "x") for j in range(48)))
            self.assertEqual([c.reply() for c in clients], ["OK"] * 5)
            self.server.send_signal(number)
            answered = 0
            for i, c in enumerate(clients):
                try:
                    while c.reply() == "OK":
                        answered += 1
                except (EOFError, ConnectionResetError):
                    pass
            self.assertEqual(self.end(), 0)
            self.assertFalse(os.path.exists(self.path))
            self.assertGreaterEqual(len(self.held()), answered + 5)
            self.start()

    def test_signals_again_and_again(self):
        """Each may come at any moment of the end, also when Python itself ends."""
        for _ in range(10):
            self.assertEqual(self.connect().do("SET", "a", "1"), "OK")
            while self.server.poll() is None:
                self.server.send_signal(signal.SIGTERM)
                time.sleep(0.0005)
            self.assertEqual(self.end(), 0)
            self.assertFalse(os.path.exists(self.path))
            self.start()

    def test_the_program_is_killed(self):
        c = self.connect()
        c.do("SET", "a", "1")
        pid = next(line.split(":")[1] for line in c.do("INFO").decode().split("\r\n") if line.startswith("drive_process_id"))
        os.kill(int(pid), signal.SIGKILL)
        self.assertEqual(self.server.wait(10), 15)
        self.assertIn("ended by signal 9 (SIGKILL)", self.server.stderr.read())
        self.assertFalse(os.path.exists(self.path))
        self.assertEqual(self.held(), {b"a": b"1"})

    def test_the_server_is_killed(self):
        c = self.connect()
        c.do("SET", "a", "1")
        self.server.kill()
        self.end()
        self.assertTrue(os.path.exists(self.path))
        self.start("--socket", self.path, "--wait", "5")
        self.assertIn("1 keys", self.ready)
        self.assertEqual(self.connect().do("GET", "a"), b"1")

    def trial(self, *words):
        run = subprocess.run(
            [sys.executable, "-m", "pinkctl", "serve", *words], cwd=HERE, capture_output=True, text=True, timeout=30
        )
        return run.returncode, run.stderr

    def test_what_hinders_it(self):
        status, told = self.trial(self.image, "--socket", self.path + "2")
        self.assertEqual(status, 6)
        self.assertIn("is in use by process", told)
        status, told = self.trial(self.image + "2", "--socket", self.path + "2")
        self.assertEqual(status, 8)
        self.assertIn("there is no file", told)
        second = self.image + "3"
        pinkdrive.make(second, *SHAPE)
        status, told = self.trial(second, "--socket", self.path)
        self.assertEqual(status, 6)
        self.assertIn("another server listens at it", told)
        status, told = self.trial(second, "--socket", "/no/folder/socket")
        self.assertEqual(status, 11)
        self.assertIn("No such file or directory", told)
        status, told = self.trial(second, "--socket", "/tmp/" + "x" * 200)
        self.assertIn("at most 107 bytes", told)
        self.assertEqual(self.trial(second)[0], 2)
        self.assertEqual(self.trial(second, "--socket", self.path + "2", "--frames", "16385")[0], 2)
        self.assertEqual(self.connect().do("PING"), "PONG")

    def test_a_port_of_this_machine(self):
        self.end()
        self.start("--port", "0")
        port = int(self.ready.split("127.0.0.1:")[1].split(":")[0])
        with socket.create_connection(("127.0.0.1", port)) as it:
            it.sendall(b"PING\r\n")
            self.assertEqual(it.recv(100), b"+PONG\r\n")

    def test_the_socket_is_for_this_user_alone(self):
        self.assertEqual(os.stat(self.path).st_mode & 0o777, 0o600)


class Patterns(unittest.TestCase):
    def test_globs(self):
        cases = [
            (b"*", b"", True), (b"a*c", b"abc", True), (b"a*c", b"abd", False), (b"h[ae]llo", b"hello", True),
            (b"h[^e]llo", b"hello", False), (b"h[a-b]llo", b"hallo", True), (b"h[b-a]llo", b"hallo", True),
            (rb"a\*b", b"a*b", True), (rb"a\*b", b"axb", False), (b"k??", b"k12", True), (b"k??", b"k1", False),
            (b"ab", b"abc", False), (b"**a**", b"bab", True), (b"", b"a", False), (b"[", b"[", False), (rb"[\]]", b"]", True),
        ]  # fmt: skip
        for pattern, key, matches in cases:
            self.assertEqual(resp.glob_matches(pattern, key), matches, (pattern, key))


if __name__ == "__main__":
    unittest.main()
