"""Tests of the programs themselves. compare.py --programs and --limit call them.

What the lister does with inputs of every length, with an input in pieces, with an input that cannot be read, with an
output that cannot be written, and at its limit; what encode and decode do with bytes left over, in 16 bits and in
A-law; what all programs do with more frames than they read at a time, with a pipe that waits for their answer and with
a line that is hung up; what bin/rpeltp says of them; what recordings/lines.txt quotes.

The programs cannot set an exit status. They can write to standard error, and end."""
from __future__ import annotations

import os
import platform
import pty
import random
import re
import shutil
import subprocess
import threading
import time
import tty
from array import array
from collections.abc import Iterator, Sequence
from typing import IO, Any

import signals
from differences import Difference, at, first_place, kept, same_bytes, same_lines
from peers import BUILD, PROGRAM, ROOT, X86, ours, second
from vector_comparison import contents

# a program that has not ended after so many seconds is ended; an emulator needs some to start, and many for the limit
PATIENCE, LONG = 30, 3600
FRAMES = 1000000
SILENT = ('F\t{0}\tsilent\t32\t32\t20\t11\t8\t5\t3\t2\n'
          + ''.join('S\t{0}\t%d\trule\t40\t0\t0\t0%s\n' % (j, '\t4' * 13) for j in range(1, 5)))


def speech() -> bytes:
    return contents(signals.SPEECH)


# ---- the lister

def inputs() -> Iterator[tuple[str, bytes]]:
    """The name of each input, and its bytes."""
    voice, tone = speech(), array('h', signals.stopping(160 * 24, 2.105)).tobytes()
    # from where it is loud: the recording begins with silence
    loud = voice[len(voice) // 4:]
    for length in (0, 1, 2, 319, 320, 323, 640, 641, len(loud) - 1):
        yield f'speech cut to {length} bytes', loud[:length]
    yield '323 bytes, all 0', bytes(323)
    yield 'a stopped recursion', tone
    yield 'speech', voice


def whole_inputs() -> None:
    stops, names = 0, []
    for name, given in inputs():
        answer = ours('lister', given)
        same_lines(name, given, {'the second codec': second('list', given), 'ours': answer})
        stops += answer.count(b'\tstop')
        names.append(name)
    if not stops:
        raise Difference('the lister: no input stopped the recursion')
    print(f'lister: {", ".join(names)}: as the second codec lists them; {stops} frames stopped')


def watched(process: subprocess.Popen[bytes], seconds: float) -> threading.Timer:
    """Ends a process that has not ended by itself in so many seconds; what it wrote until then will then differ."""
    watch = threading.Timer(seconds, process.kill)
    watch.daemon = True
    watch.start()
    return watch


def pipes(process: subprocess.Popen[bytes]) -> tuple[IO[bytes], Any]:
    """Standard input and output of a process that was started with pipes for both."""
    assert process.stdin and process.stdout
    return process.stdin, process.stdout


def write_pieces(stream: IO[bytes], given: bytes, dice: random.Random) -> None:
    start = 0
    while start < len(given):
        size = dice.choice((1, 2, 3, dice.randint(1, 700), 320, 319))
        stream.write(given[start:start + size])
        start += size
        time.sleep(dice.choice((0, 0, 0.001, 0.004)))


def in_pieces(seed: int) -> None:
    """Speech through a pipe in pieces of 1 to 700 bytes, with pauses."""
    given: bytes = speech()
    answers: list[bytes] = []
    with subprocess.Popen([PROGRAM, 'lister'], stdin=subprocess.PIPE, stdout=subprocess.PIPE, bufsize=0) as process:
        watch, (into, out) = watched(process, PATIENCE), pipes(process)
        reader = threading.Thread(target=lambda: answers.append(out.readall()))
        reader.start()
        try:
            write_pieces(into, given, random.Random(seed))
        except BrokenPipeError:
            # it has ended before its input did; the listing shows it
            pass
        into.close()
        reader.join()
        watch.cancel()
    same_lines(f'speech in pieces, seed {seed}', given, {'the second codec': second('list', given), 'ours': answers[0]})


def ended(name: str, words: Sequence[str], **streams: Any) -> tuple[int, bytes, bytes]:
    """Runs a program to its end, which must come; its status, what it wrote and what it said on standard error."""
    try:
        done = subprocess.run(words, stderr=subprocess.PIPE, timeout=PATIENCE, **streams)
    except subprocess.TimeoutExpired:
        named = os.path.basename(words[-1])
        raise Difference(f'{named} with {name} has not ended in {PATIENCE} s') from None
    return done.returncode, done.stdout or b'', done.stderr


def unreadable() -> None:
    """An input that is closed, or a folder: the lister says so and writes no E line."""
    closed = ended('a closed input', ['sh', '-c', 'exec "$0" lister <&-', PROGRAM], stdout=subprocess.PIPE)
    folder = os.open(BUILD, os.O_RDONLY)
    try:
        listed = ended('a folder as its input', [PROGRAM, 'lister'], stdin=folder, stdout=subprocess.PIPE)
    finally:
        os.close(folder)
    for name, (_, written, said) in (('a closed input', closed), ('a folder as its input', listed)):
        if not said.strip():
            raise Difference(f'the lister with {name} says nothing on standard error')
        if any(line.startswith(b'E\t') for line in written.splitlines()):
            raise Difference(f'the lister with {name} writes an E line: {written[-40:]!r}')
        print(f'lister: {name}: no E line, and it says: {said.decode(errors="replace").strip()}')


def unwritable() -> None:
    """An output that is full, or closed early: the lister says so, or is ended by a signal."""
    path = os.path.join(ROOT, kept('long.raw', 20 * speech()))
    with open(path, 'rb') as given, open('/dev/full', 'wb') as full:
        status, _, said = ended('a full output', [PROGRAM, 'lister'], stdin=given, stdout=full)
    told('a full output', status, said)
    with open(path, 'rb') as given, subprocess.Popen([PROGRAM, 'lister'], stdin=given, stdout=subprocess.PIPE,
                                                     stderr=subprocess.PIPE) as process:
        assert process.stdout and process.stderr
        process.stdout.read(1000)
        process.stdout.close()
        try:
            status, said = process.wait(PATIENCE), process.stderr.read()
        except subprocess.TimeoutExpired:
            process.kill()
            raise Difference(f'the lister with an output closed early has not ended in {PATIENCE} s') from None
    told('an output closed early', status, said)
    os.remove(path)


def told(name: str, status: int, said: bytes) -> None:
    # a shell and an emulator pass on the end by SIGPIPE as status 128 + 13
    died = status in (-13, 141)
    if not said.strip() and not died:
        raise Difference(f'the lister with {name} says nothing on standard error and ends with status {status}')
    how, words = ', by SIGPIPE' if died else '', said.decode(errors='replace').strip()
    print(f'lister: {name}: it ends{how}{f", and says: {words}" if words else ""}')


# ---- all programs

# of each program that takes frames: how many bytes of a frame go in and come out
FRAME_BYTES = {'encode': (320, 152), 'decode': (152, 320), 'encode_alaw': (160, 152), 'decode_alaw': (152, 160)}


def told_rest(rest: int) -> bytes:
    return b'%d bytes are left over, less than a frame: not coded\n' % rest if rest else b''


def left_over() -> None:
    """A frame and some bytes: the frame is coded, and the bytes are counted on standard error. expand takes all."""
    for name, (size, answer) in FRAME_BYTES.items():
        for more in (0, 1, size - 1):
            given = bytes(size + more)
            _, written, said = ended(f'{more} bytes left over', [PROGRAM, name], input=given, stdout=subprocess.PIPE)
            if len(written) != answer or said != told_rest(more):
                raise Difference(f'{name} with {more} bytes left over writes {len(written)} bytes and says {said!r}')
    print(f'{", ".join(FRAME_BYTES)}: bytes left over after the last frame are not coded, and are counted on standard '
          'error')
    for size in (0, 1, 159, 161):
        _, written, said = ended(f'{size} octets', [PROGRAM, 'expand'], input=bytes(size), stdout=subprocess.PIPE)
        if len(written) != 2 * size or said:
            raise Difference(f'expand with {size} octets writes {len(written)} bytes and says {said!r}')
    print('expand: 0, 1, 159 and 161 octets: a sample for each')


# a program's buffer: it reads so many frames at a time, where they have come
BUFFER = 64
# of each program: how many bytes of a frame go in, and the second codec's word for it; the second codec has no together
CODERS = {'lister': (320, 'list'), 'encode': (320, 'encode'), 'decode': (152, 'decode'),
          'encode_alaw': (160, 'encode-alaw'), 'decode_alaw': (152, 'decode-alaw'), 'expand': (160, 'expand'),
          'together': (320, None)}


def material() -> Iterator[tuple[str, int, bytes]]:
    """Of each program its name, the bytes of a frame, and more than two buffers of them."""
    voice, octets = 2 * speech(), 2 * contents(signals.ALAW)
    codewords = second('encode', voice)
    for name, (size, _) in CODERS.items():
        yield name, size, octets if size == 160 else codewords if size == 152 else voice


def whole_answer(name: str, given: bytes) -> bytes:
    mode = CODERS[name][1]
    return second(mode, given) if mode else ours(name, given)


def due(name: str, given: bytes) -> bytes:
    """What must be written once these bytes have come and no more: the answer, without the last line of a program that
    writes a line at its end."""
    answer = whole_answer(name, given)
    return b''.join(answer.splitlines(True)[:-1]) if name in ('lister', 'together') else answer


def many_frames() -> None:
    """Inputs that end near the end of a buffer, from a file, so that each read fills the buffer."""
    for name, size, given in material():
        whole = [size * frames for frames in (BUFFER - 1, BUFFER, BUFFER + 1, 2 * BUFFER, 2 * BUFFER + 1)]
        for length in [*whole, size * BUFFER + size - 1]:
            what, path = f'{length} bytes', os.path.join(ROOT, kept('frames.raw', given[:length]))
            with open(path, 'rb') as file:
                _, written, said = ended(what, [PROGRAM, name], stdin=file, stdout=subprocess.PIPE)
            os.remove(path)
            want = ('the second codec' if CODERS[name][1] else 'a pipe', whole_answer(name, given[:length]))
            same_bytes(f'{name} of {length} bytes', want, ('ours', written))
            if said != (b'' if name in ('lister', 'expand') else told_rest(length % size)):
                raise Difference(f'{name} of {length} bytes says {said!r}')
    print(f'{", ".join(CODERS)}: {BUFFER - 1} to {2 * BUFFER + 1} frames, read {BUFFER} at a time: as the second codec '
          'has them; together: as through a pipe')


def in_turn(name: str, given: bytes, places: Sequence[int]) -> None:
    """Sends an input up to one index after another. The answer to each part must come before more is sent."""
    written = b''
    with subprocess.Popen([PROGRAM, name], stdin=subprocess.PIPE, stdout=subprocess.PIPE, stderr=subprocess.DEVNULL,
                          bufsize=0) as process:
        watch, (into, out) = watched(process, PATIENCE), pipes(process)
        for start, end in zip((0, *places), places):
            try:
                into.write(given[start:end])
            except BrokenPipeError:
                # it has ended before its input did; what it has written shows it
                pass
            want = due(name, given[:end])
            while len(written) < len(want) and (part := out.read(len(want) - len(written))):
                written += part
            same_bytes(f'{name}, sent {end} bytes and no more', ('the answer so far', want), ('ours', written))
        into.close()
        written += out.readall()
        watch.cancel()
    want = whole_answer(name, given[:places[-1]])
    same_bytes(f'{name}, sent {places[-1]} bytes', ('the whole answer', want), ('ours', written))


def waiting() -> None:
    """A pipe that waits for the answer to a frame, seven bytes after it; and pieces that end before, at and after the
    end of a buffer."""
    for name, size, given in material():
        full = BUFFER * size
        in_turn(name, given, (size + 7, full - 1, full, full + 1, 2 * full + 11, 2 * full + size))
        in_turn(name, given, (7, full + 7, 2 * full - 1, 2 * full + 1))
    print(f'{", ".join(CODERS)}: a frame is answered before more is sent, and so are pieces that end near the end of '
          'a buffer')


def hung_up() -> None:
    """A line that is hung up after a frame and seven bytes: the frame is answered, the program says that it cannot
    read, and it writes no last line."""
    for name, size, given in material():
        line, far = pty.openpty()
        tty.setraw(far)
        with subprocess.Popen([PROGRAM, name], stdin=line, stdout=subprocess.PIPE, stderr=subprocess.PIPE) as process:
            os.close(line)
            os.write(far, given[:size + 7])
            os.close(far)
            watch = watched(process, PATIENCE)
            written, said = process.communicate()
            watch.cancel()
        want = due(name, given[:size + 7])
        same_bytes(f'{name} on a line that is hung up', ('the answer so far', want), ('ours', written))
        if said != b'standard input cannot be read\n':
            raise Difference(f'{name} on a line that is hung up says {said!r}')
    print(f'{", ".join(CODERS)}: a line that is hung up after a frame: the frame is answered, and they say that they '
          'cannot read')


# ---- bin/rpeltp

def programs_of(crates: str) -> list[str]:
    """The programs in the text of crates.txt: the crates under the headings that begin so."""
    parts = re.split(r'^# ', crates, flags=re.M)
    return [name for part in parts if part.startswith('programs') for name in re.findall(r'^(\w+):', part, re.M)]


def programs() -> list[str]:
    with open(os.path.join(ROOT, 'crates.txt'), encoding='utf-8') as file:
        return programs_of(file.read())


def table_lines(text: str) -> list[str]:
    """The names in the table of bin/rpeltp -h."""
    return re.findall(r'^    ([a-z_]+)  ', text, re.M)


def example_lines(text: str) -> list[str]:
    """The examples of bin/rpeltp -h."""
    return re.findall(r'^    (bin/rpeltp .*)$', text, re.M)


def explained() -> None:
    """bin/rpeltp -h explains every program, with status 0. Wrong use: status 2, a line that says what is wrong, and the
    same text on standard error."""
    helped = [ended(word, [PROGRAM, word], stdout=subprocess.PIPE) for word in ('-h', '--help')]
    text = helped[0][1]
    names, lines = table_lines(text.decode()), text.decode().splitlines()
    if sorted(names) != sorted(programs()) or not names:
        raise Difference(f'bin/rpeltp -h names {", ".join(names)}; the programs of crates.txt are '
                         f'{", ".join(programs())}')
    if helped[0] != (0, text, b'') or helped[1] != helped[0]:
        raise Difference(f'bin/rpeltp -h and --help: {helped}')
    wrong: list[list[str]] = [[], [''], ['no_program'], ['.*'], ['lister', 'encode'], ['lister', '-h', '-h']]
    for words in wrong:
        status, written, said = ended('no program', [PROGRAM, *words], stdout=subprocess.PIPE)
        first, _, rest = said.partition(b'\n')
        if status != 2 or written or not first.startswith(b'rpeltp: ') or rest != text:
            raise Difference(f'bin/rpeltp {" ".join(words)}: status {status}, it writes {written!r} and says {said!r}')
    for name in names:
        status, written, said = ended(name, [PROGRAM, name, '-h'], stdout=subprocess.PIPE)
        own = written.decode()
        example = [line for line in example_lines(text.decode()) if line.split()[1] == name]
        if status or said or table_lines(own) != [name] or example_lines(own) != example or len(example) != 1:
            raise Difference(f'bin/rpeltp {name} -h: status {status}, it says {said!r} and writes\n{own}')
        if not any(line in lines for line in own.splitlines() if line.startswith(f'    {name} ')):
            raise Difference(f'bin/rpeltp {name} -h and bin/rpeltp -h say different things')
    print(f'bin/rpeltp: -h says what each reads and writes: {", ".join(names)}')


def examples() -> None:
    """The examples of bin/rpeltp -h, run one after the other in another folder, through a symbolic link."""
    folder = os.path.join(BUILD, 'examples')
    shutil.rmtree(folder, ignore_errors=True)
    os.makedirs(os.path.join(folder, 'bin'))
    os.symlink(PROGRAM, os.path.join(folder, 'bin', 'rpeltp'))
    os.symlink(os.path.join(ROOT, 'recordings'), os.path.join(folder, 'recordings'))
    lines = example_lines(ended('-h', [PROGRAM, '-h'], stdout=subprocess.PIPE)[1].decode())
    for line in lines:
        status, written, said = ended(line, ['sh', '-c', line], cwd=folder, stdout=subprocess.PIPE)
        made = line.partition('>')[2].strip()
        if status or said or not (contents(os.path.join(folder, made)) if made else written):
            raise Difference(f'{line}: status {status}, {len(written)} bytes written; it says {said!r}')
    voice, octets = speech(), contents(signals.ALAW)
    due_files = {'speech.cod': second('encode', voice), 'speech.out': second('decode', second('encode', voice)),
                 'alaw.cod': second('encode-alaw', octets)}
    for file, want in due_files.items():
        same_bytes(f'bin/rpeltp -h: {file}', ('the second codec', want), ('ours', contents(os.path.join(folder, file))))
    shutil.rmtree(folder)
    print(f'bin/rpeltp: the {len(lines)} examples of -h run, from another folder and through a link')


# stands for rt: it reads all of its input, says a line and has a program made, or fails. It runs in the crate's folder
RT = """#!/bin/sh
cat >/dev/null
name=${PWD##*/}
echo "rt: $name proved"
[ "$name" != encode ] || { echo 'rt: encode NOT PROVED' && exit 1; }
mkdir -p out && cp "$PROGRAMS/$name/out/$name" out/
"""


def made_first() -> None:
    """A program that is missing is proved and made first, and what is said about that goes to standard error. Here a
    script stands for rt, in a copy of the repository that has no programs."""
    folder = os.path.join(BUILD, 'missing')
    shutil.rmtree(folder, ignore_errors=True)
    for path in ('bin/rpeltp', 'outside/make_proved', 'outside/x86_tools'):
        os.makedirs(os.path.join(folder, os.path.dirname(path)), exist_ok=True)
        shutil.copy(os.path.join(ROOT, path), os.path.join(folder, path))
    for path in ('path', 'crates/expand', 'crates/encode'):
        os.makedirs(os.path.join(folder, path))
    with open(os.path.join(folder, 'path', 'rt'), 'w', encoding='utf-8') as file:
        file.write(RT)
    os.chmod(file.name, 0o755)
    kit = subprocess.run([X86, 'kit'], stdout=subprocess.PIPE, text=True, check=True).stdout.strip()
    home = os.path.dirname(kit)
    environment = {**os.environ, 'RATTLE_HOME': home, 'PROGRAMS': os.path.join(ROOT, 'crates'),
                   'PATH': os.path.join(folder, 'path') + os.pathsep + os.environ['PATH']}
    program, octets = os.path.join(folder, 'bin', 'rpeltp'), contents(signals.ALAW)
    for proved in (True, False):
        status, written, said = ended('no program', [program, 'expand'], input=octets, stdout=subprocess.PIPE,
                                      env=environment)
        same_bytes('expand, made first', ('the second codec', second('expand', octets)), ('ours', written))
        if status or (b'rt: expand proved' in said) != proved:
            raise Difference(f'bin/rpeltp expand, made first: status {status}, it says {said!r}')
    status, written, said = ended('no proof', [program, 'encode'], input=octets, stdout=subprocess.PIPE,
                                  env=environment)
    if status != 1 or written or b'rt: encode NOT PROVED' not in said:
        raise Difference(f'bin/rpeltp encode, not proved: status {status}, it writes {written!r} and says {said!r}')
    shutil.rmtree(folder)
    print('bin/rpeltp: a program that is missing is made first; status 1 where it is not proved')


def quoted_lines(text: str) -> tuple[list[int], list[str]]:
    """The numbers of the lines that recordings/lines.txt says it quotes, and the lines that it quotes."""
    said = re.search('these are lines (.*) and the last', text)
    if not said:
        raise Difference('recordings/lines.txt does not say which lines it quotes')
    return [int(number) for number in re.findall(r'\d+', said.group(1))], re.findall(
        r'^  ((?:RPELTP|F|S|E)(?: \S+)+)', text, re.M)


def quoted() -> None:
    """recordings/lines.txt, which make run shows, quotes lines of the recording's listing and says which."""
    with open(os.path.join(ROOT, 'recordings', 'lines.txt'), encoding='utf-8') as file:
        numbers, lines = quoted_lines(file.read())
    listing = ours('lister', speech()).decode().replace('\t', ' ').splitlines()
    wanted = [listing[number - 1] for number in numbers] + listing[-1:]
    if lines != wanted:
        raise Difference(f'recordings/lines.txt quotes {lines}; the lines that it names are {wanted}')
    print(f'recordings/lines.txt: the {len(lines)} quoted lines are in the listing')


def other_runs() -> None:
    whole_inputs()
    for seed in range(3):
        in_pieces(seed)
    print('lister: speech in pieces of 1 to 700 bytes with pauses, three times: as the second codec lists it')
    unreadable()
    unwritable()
    left_over()
    many_frames()
    waiting()
    hung_up()
    explained()
    examples()
    made_first()
    quoted()
    if emulated():
        print('NOT RUN: the limit of 1,000,000 frames, which takes minutes where the programs are emulated: make soak '
              'runs it')
    else:
        limit()


# ---- the limit

def emulated() -> bool:
    return platform.machine() != 'x86_64'


def feed(stream: IO[bytes], more: int) -> None:
    """Writes 1,000,000 frames of silence and some bytes. The first frame goes alone, so that the limit is inside the
    frames of one read."""
    try:
        stream.write(bytes(320))
        stream.flush()
        time.sleep(2)
        stream.write(bytes(320 * 999))
        for _ in range(FRAMES // 1000 - 1):
            stream.write(bytes(320 * 1000))
        stream.write(bytes(more))
        stream.close()
    except BrokenPipeError:
        pass


def expected(last: str) -> Iterator[bytes]:
    """The listing of 1,000,000 frames of silence, in parts."""
    yield b'RPELTP\t1\n'
    for start in range(1, FRAMES + 1, 1000):
        yield ''.join(SILENT.format(number) for number in range(start, start + 1000)).encode()
    yield f'E\t{FRAMES}\t0\t0\t{last}\n'.encode()


def limit_run(more: int, last: str) -> None:
    began, size = time.monotonic(), 320 * FRAMES + more
    with subprocess.Popen([PROGRAM, 'lister'], stdin=subprocess.PIPE, stdout=subprocess.PIPE) as process:
        watch, (into, out) = watched(process, LONG), pipes(process)
        feeder = threading.Thread(target=feed, args=(into, more), daemon=True)
        feeder.start()
        for part in expected(last):
            answer = out.read(len(part))
            if answer != part:
                process.kill()
                want, got = part.splitlines(), answer.splitlines()
                line = first_place(want, got)
                raise Difference(f'the lister on {size} bytes, all 0: {at(want, line)!r} is expected, '
                                 f'{at(got, line)!r} is written')
        if out.read(1):
            process.kill()
            raise Difference('the lister goes on after its E line')
        feeder.join()
        watch.cancel()
    print(f'lister: {size} bytes of silence end in {last}, every line as expected ({time.monotonic() - began:.0f} s)')


def limit() -> None:
    """Nothing after the last frame; one byte; two frames, the first of which is read together with the last."""
    limit_run(0, 'end')
    limit_run(1, 'limit')
    limit_run(640, 'limit')
