#!/usr/bin/env bash
# Times a session of Sets and Gets over 100, 1,000 and 10,000 keys and one of calls of many kinds, beside cat on the
# same streams: bench/session.sh [FRAMES [OTHER]]. OTHER is the ep_server of another checkout, say of the version
# before a change, which is timed in turn with this one. It needs python3.
set -euo pipefail
cd "$(dirname "$0")/.."

# The first run builds the program where that is due.
programs=("$PWD/ep_server" "${@:2}")
for program in "${programs[@]}"; do
    "$program" session </dev/null >/dev/null
done
exec python3 - "${1:-1000000}" "${programs[@]}" <<'END'
import os, random, struct, sys, tempfile, time

VALUE_SIZE, RUNS = 100, 3


def keys(count):
    return [b"key%05d" % number for number in range(count)]


def frame(opcode, key, extras, value):
    body = extras + key + value
    return struct.pack(">BBHBBHIIQ", 0x80, opcode, len(key), len(extras), 0, 0, len(body), 0, 0) + body


def get(key, chance):
    return frame(0x00, key, b"", b"")


def store(opcode):
    return lambda key, chance: frame(opcode, key, bytes(8), b"%0*d" % (VALUE_SIZE, chance.randrange(10**9)))


def delete(key, chance):
    return frame(0x04, key, b"", b"")


def increment(key, chance):
    return frame(0x05, b"number-" + key, struct.pack(">QQI", chance.randrange(1000), 0, 0), b"")


def append(key, chance):
    return frame(0x0E, key, b"", b"12345678")


def touch(key, chance):
    return frame(0x1C, key, struct.pack(">I", 1 + chance.randrange(100)), b"")


# What makes a frame, and how many of a hundred frames it makes.
MIXED = [
    (get, 40),
    (store(0x01), 30),
    (store(0x02), 5),
    (store(0x03), 5),
    (delete, 5),
    (increment, 5),
    (append, 5),
    (touch, 5),
]


def halves(frames, names, chance):
    """Half Sets and half Gets, in turn, of keys by chance."""
    makers = [store(0x01), get]
    for number in range(frames):
        yield makers[number % 2](chance.choice(names), chance)


def mixed(frames, names, chance):
    """Calls of many kinds by chance, of keys by chance."""
    makers = [make for make, share in MIXED for _ in range(share)]
    for _ in range(frames):
        yield chance.choice(makers)(chance.choice(names), chance)


def run(words, stream):
    """Runs the command on the stream: seconds, and the most memory that it held, in MB."""
    begin = time.monotonic()
    child = os.fork()
    if child == 0:
        os.dup2(os.open(stream, os.O_RDONLY), 0)
        os.dup2(os.open(os.devnull, os.O_WRONLY), 1)
        os.dup2(1, 2)
        os.execvp(words[0], words)
    _, status, used = os.wait4(child, 0)
    if status:
        sys.exit(f"{' '.join(words)} ended with the status {os.waitstatus_to_exitcode(status)}")
    return time.monotonic() - begin, used.ru_maxrss / 1024


def best(commands, stream):
    """The shortest run of each command on the stream. They take turns, so that none has the quieter machine."""
    runs = [[run(words, stream) for words in commands] for _ in range(RUNS)]
    return [min(each) for each in zip(*runs)]


def measure(name, load, frames, names):
    """Times a session of each program on a load and cat on the same stream, and prints them."""
    with tempfile.NamedTemporaryFile() as file:
        for bytes_of_frame in load(frames, names, random.Random(1)):
            file.write(bytes_of_frame)
        file.flush()
        size = os.path.getsize(file.name)
        cat, *sessions = best([["cat"]] + [[program, "session"] for program in PROGRAMS], file.name)
    print(f"{name} over {len(names):,} keys: {frames:,} frames, {size / 1e6:,.1f} MB, best of {RUNS} runs")
    for program, (session, memory) in zip(PROGRAMS, sessions):
        print(f"session     {session:8.3f} s  {frames / session:12,.0f} frames a second  {program}")
        print(f"peak memory {memory:8.1f} MB, {memory * 1024 * 1024 / frames:,.0f} bytes a frame")
    print(f"cat         {cat[0]:8.3f} s  {sessions[0][0] / cat[0]:12,.1f} times as fast as the first session")


FRAMES, PROGRAMS = int(sys.argv[1]), sys.argv[2:]
for count in [100, 1_000, 10_000]:
    measure("Sets and Gets", halves, FRAMES, keys(count))
measure("calls of many kinds", mixed, FRAMES, keys(100))
END
