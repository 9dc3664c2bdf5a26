"""A session that is served on a socket, and the names that the completion keeps."""

import json
import os
import resource
import shutil
import socket
import subprocess
import sys
import threading
import time

import pytest
from commands_support import APT_COMMAND, AptRoot, ask, environment, installed, run, stanza

pytestmark = pytest.mark.skipif(shutil.which("apt-cache") is None, reason="apt isn't installed")


class Served:
    """A served session over a made root; it ends with the test."""

    def __init__(self, folder, *words):
        self.holder = AptRoot()
        self.root = self.holder.__enter__()
        self.root.add_release("stable", {"main": stanza("foo", "1", "Depends: bar") + stanza("foo-data", "1")}, ".gz")
        self.root.status(installed("foo", "1"))
        self.path = os.path.join(str(folder), "socket")
        self.words = words

    def __enter__(self):
        self.process = subprocess.Popen([APT_COMMAND, "--root", self.root.folder, *self.words, "--serve", self.path],
                                        stdin=subprocess.DEVNULL,
                                        stderr=subprocess.PIPE, env=environment())
        end = time.monotonic() + 60
        while self.process.poll() is None and time.monotonic() < end and self.ask("pkgnames")[0] != 0:
            time.sleep(0.05)
        return self

    def __exit__(self, *_):
        self.process.terminate()
        self.process.wait(60)
        self.process.stderr.close()
        self.holder.__exit__()

    def ask(self, *words):
        return run([APT_COMMAND, "--ask", self.path, *words])


@pytest.fixture(name="served")
def fixture_served(tmp_path):
    with Served(tmp_path) as made:
        yield made


def test_answers(served):
    """An answer is that of a run of its own, with its status and errors."""
    for words in (["policy", "foo", "nosuch"], ["show", "foo"], ["show", "nosuch"], ["pkgnames", "foo"], ["policy", "f*"], ["show", "a b"],
                  ["grep-dctrl", "-q", "x"], ["unmet"], ["frob"], ["policy"], ["show", "it's"], ["policy foo"], [""]):
        assert served.ask(*words) == ask(served.root, words), words
    assert json.loads(run([APT_COMMAND, "--json", "--ask", served.path, "pkgnames"])[1]) == ["dpkg", "foo", "foo-data"]


def test_nobody_else_may_ask(served):
    assert os.stat(served.path).st_mode & 0o777 == 0o600


def test_edits_are_none_of_a_client(served):
    assert served.ask("drop-list", "main") == (2, b"", b"dctrl-cache-apt: drop-list: a served session answers queries alone\n")
    assert served.ask("pkgnames", "foo") == (0, b"foo\nfoo-data\n", b"")


def test_two_clients_at_once(served):
    """Clients that ask at the same time have their own answers, all of them."""
    wanted = {("policy", "foo"): ask(served.root, ["policy", "foo"]), ("show", "foo-data"): ask(served.root, ["show", "foo-data"])}
    got = {words: [] for words in wanted}

    def client(words):
        got[words] = [served.ask(*words) for _ in range(15)]

    threads = [threading.Thread(target=client, args=(words,)) for words in wanted]
    for thread in threads:
        thread.start()
    for thread in threads:
        thread.join(120)
    assert got == {words: [answer] * 15 for words, answer in wanted.items()}


def test_many_connections(served):
    """Connections that stay open, say nothing or break off hold up nobody."""
    idle = []
    for words in (b"", b"policy", b"policy\0fo"):
        talk = socket.socket(socket.AF_UNIX, socket.SOCK_STREAM)
        talk.connect(served.path)
        talk.sendall(words)
        idle.append(talk)
    assert served.ask("pkgnames", "foo") == (0, b"foo\nfoo-data\n", b"")
    idle.pop().close()
    assert served.ask("pkgnames", "foo") == (0, b"foo\nfoo-data\n", b"")
    for talk in idle:
        talk.close()
    assert served.process.poll() is None


def test_lists_that_change(served):
    """The lists are read anew where a file of them has changed: dpkg's status, a list, the preferences, the sources."""
    root = served.root
    root.status(installed("foo", "1") + installed("new", "3"))
    assert served.ask("pkgnames") == (0, b"dpkg\nfoo\nfoo-data\nnew\n", b"")
    assert served.ask("policy", "new") == ask(root, ["policy", "new"])
    root.write("etc/apt/preferences", "Package: fo?\nPin: version 1\nPin-Priority: 7\n")
    assert b"1 7\n" in served.ask("policy", "foo")[1]
    root.add_release("updates", {"main": stanza("foo", "2") + stanza("other", "1")})
    assert served.ask("pkgnames") == (0, b"dpkg\nfoo\nfoo-data\nnew\nother\n", b"")
    assert served.ask("policy", "foo") == ask(root, ["policy", "foo"])
    root.write("var/lib/apt/lists/example.org_debian_dists_updates_main_binary-amd64_Packages", stanza("foo", "2.5"))
    assert served.ask("policy", "foo") == ask(root, ["policy", "foo"])
    os.remove(root.path("etc/apt/preferences"))
    assert served.ask("policy", "foo") == ask(root, ["policy", "foo"])


def test_preferences_follow_the_status(served):
    """Names of a pattern are those of the lists of now."""
    root = served.root
    root.write("etc/apt/preferences", "Package: n*\nPin: version *\nPin-Priority: 7\n")
    served.ask("policy", "foo")
    root.status(installed("foo", "1") + installed("new", "3"))
    assert b" *** 3 7\n" in served.ask("policy", "new")[1]


def test_list_with_a_fault(served):
    """A list that is wrong for a while is left out until it is right again."""
    path = served.root.list_file("example.org_debian_dists_stable_main_binary-amd64_Packages.gz")
    with open(path, "rb") as file:
        right = file.read()
    with open(path, "wb") as file:
        file.write(right[:-9])
    assert served.ask("pkgnames") == (0, b"dpkg\nfoo\n", b"")
    with open(path, "wb") as file:
        file.write(right)
    assert served.ask("pkgnames") == (0, b"dpkg\nfoo\nfoo-data\n", b"")


def test_program_that_is_killed(served):
    """Where the program has ended, as where memory ran out, the next question starts it again."""
    children = subprocess.run(["ps", "-o", "pid=", "--ppid", str(served.process.pid)], stdout=subprocess.PIPE, check=True).stdout.split()
    assert len(children) == 1
    os.kill(int(children[0]), 9)
    assert served.ask("pkgnames", "foo") == (0, b"foo\nfoo-data\n", b"")


def test_end(tmp_path):
    """A signal ends it, and its socket goes; one that is left behind is replaced, one that is served isn't."""
    with Served(tmp_path) as served:
        status, output, errors = run([APT_COMMAND, "--root", served.root.folder, "--serve", served.path])
        assert (status, output, errors) == (2, b"", b"dctrl-cache-apt: %s: a session is served there\n" % served.path.encode())
        served.process.terminate()
        assert served.process.wait(60) == 0
        assert not os.path.exists(served.path)
        with socket.socket(socket.AF_UNIX, socket.SOCK_STREAM) as left:
            left.bind(served.path)
        status, output, errors = served.ask("pkgnames")
        assert (status, output, errors) == (2, b"", b"dctrl-cache-apt: %s: Connection refused\n" % served.path.encode())
        with served:
            assert served.ask("pkgnames", "foo") == (0, b"foo\nfoo-data\n", b"")


def test_socket_of_systemd(tmp_path):
    """A socket that systemd listens on is taken over."""
    with AptRoot() as root:
        root.add_release("stable", {"main": stanza("foo", "1")})
        path = str(tmp_path / "handed")
        with socket.socket(socket.AF_UNIX, socket.SOCK_STREAM) as listener:
            listener.bind(path)
            listener.listen()
            os.set_inheritable(listener.fileno(), True)
            command = 'exec 3<&%d; LISTEN_PID=$$ LISTEN_FDS=1 exec "$@"' % listener.fileno()
            words = ["bash", "-c", command, "bash", APT_COMMAND, "--root", root.folder, "--serve", path]
            with subprocess.Popen(words, pass_fds=[listener.fileno()], env=environment()) as process:
                try:
                    assert run([APT_COMMAND, "--ask", path, "pkgnames"]) == (0, b"dpkg\nfoo\n", b"")
                finally:
                    process.terminate()
                assert process.wait(60) == 0
        assert os.path.exists(path), "the socket is that of systemd"


def test_question_loads_little():
    """A question loads nothing but sockets, so that it is quick: neither python3-apt nor the package itself."""
    got = run(["/usr/bin/python3", "-X", "importtime", APT_COMMAND, "--ask", "/nowhere/socket", "pkgnames"])
    loaded = {line.split(b"|")[-1].strip() for line in got[2].split(b"\n") if b"|" in line}
    assert b"socket" in loaded and b"quick" in loaded
    assert not [name for name in loaded if name.split(b".")[0] in (b"apt_pkg", b"apt", b"dctrl_cache", b"subprocess", b"json", b"tempfile",
                                                                   b"threading")]
    assert got[2].endswith(b"dctrl-cache-apt: /nowhere/socket: No such file or directory\n")


def processor_time(words, **settings):
    """What a run takes of a processor, in seconds, and its answer. Other work of the machine counts for nothing."""
    before = resource.getrusage(resource.RUSAGE_CHILDREN)
    got = run(words, **settings)
    after = resource.getrusage(resource.RUSAGE_CHILDREN)
    return after.ru_utime + after.ru_stime - before.ru_utime - before.ru_stime, got


def beside_python(words, count=7, **settings):
    """The least time of some runs to that of a Python which starts and does nothing, in turns, so that a slow machine is slow for both.
    With it the last answer."""
    times, empty = [], []
    for _ in range(count):
        spent, got = processor_time(words, **settings)
        times.append(spent)
        empty.append(processor_time(["/usr/bin/python3", "-c", ""], **settings)[0])
    return min(times) / min(empty), got


def test_question_is_quick(served):
    """A question takes less of the client's processor than four starts of Python."""
    spent, got = beside_python([APT_COMMAND, "--ask", served.path, "policy", "foo"])
    assert got[0] == 0 and spent < 4


def names(root, prefix, **settings):
    return run([APT_COMMAND, "--names", "--root", root.folder, prefix], **settings)


def test_kept_names(tmp_path):
    """Names are kept after the first time, and made anew behind where the lists have changed."""
    settings = {"XDG_CACHE_HOME": str(tmp_path / "cache"), "XDG_RUNTIME_DIR": None}
    with AptRoot() as root:
        root.add_release("stable", {"main": "".join(stanza(name, "1") for name in ("foo", "foo-data", "fob", "bar"))}, ".gz")
        assert names(root, "fo", **settings) == (0, b"fob\nfoo\nfoo-data\n", b"")
        kept = [os.path.join(place, name) for place, _, found in os.walk(tmp_path / "cache") for name in found]
        assert len(kept) == 1 and os.stat(kept[0]).st_mode & 0o777 == 0o600
        for prefix, wanted in (("foo", b"foo\nfoo-data\n"), ("", b"bar\ndpkg\nfob\nfoo\nfoo-data\n"), ("x", b""), ("bar", b"bar\n"),
                               ("o", b"")):
            assert names(root, prefix, DCTRL_CACHE="/nowhere", **settings) == (0, wanted, b""), "the program isn't needed"
        spent, got = beside_python([APT_COMMAND, "--names", "--root", root.folder, "foo"], **settings)
        assert got[1] == b"foo\nfoo-data\n" and spent < 6
        root.status(installed("fox", "1"))
        assert names(root, "fo", **settings) == (0, b"fob\nfoo\nfoo-data\n", b""), "those of before, without waiting"
        end = time.monotonic() + 60
        while names(root, "fo", **settings)[1] != b"fob\nfoo\nfoo-data\nfox\n" and time.monotonic() < end:
            time.sleep(0.1)
        assert names(root, "fo", DCTRL_CACHE="/nowhere", **settings) == (0, b"fob\nfoo\nfoo-data\nfox\n", b"")


SIGNALLED = """
import signal, socket, sys, threading, time
sys.path.insert(0, sys.argv[1])
from dctrl_cache.commands.serve import Server
def end():
    while True:
        try:
            with socket.socket(socket.AF_UNIX) as talk:
                talk.connect(sys.argv[2])
            break
        except OSError:
            time.sleep(0.05)
    time.sleep(0.5)
    signal.pthread_kill(threading.get_ident(), signal.SIGTERM)
threading.Thread(target=end, daemon=True).start()
Server(sys.argv[2], lambda words: None).run()
"""


def test_a_signal_that_another_thread_takes(tmp_path):
    """It ends the session too, although it breaks nothing off that the first thread waits for."""
    path = str(tmp_path / "socket")
    folder = os.path.join(os.path.dirname(APT_COMMAND), "..")
    assert subprocess.run([sys.executable, "-c", SIGNALLED, folder, path], timeout=60, check=False).returncode == 0
    assert not os.path.exists(path)


def test_names_of_the_served_session(tmp_path):
    """The names are those of the session of the user, where there is one and no other root is asked for."""
    settings = {"XDG_CACHE_HOME": str(tmp_path / "cache"), "XDG_RUNTIME_DIR": str(tmp_path)}
    with Served(tmp_path) as served:
        os.rename(served.path, tmp_path / "dctrl-cache-apt.socket")
        assert run([APT_COMMAND, "--names", "foo"], **settings) == (0, b"foo\nfoo-data\n", b"")
        assert not os.path.exists(tmp_path / "cache")
        os.rename(tmp_path / "dctrl-cache-apt.socket", served.path)
