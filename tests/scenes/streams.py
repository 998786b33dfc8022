"""Streams that come in pieces, have no end, fail, are full or are closed."""
import os
import shlex
import subprocess
import tempfile

from scenes.running import COMPARE, FULL, HOST, LAYER, TOP, Failed, Skipped, expect, named, run


def opened(path, mode):
    try:
        return open(path, mode, buffering=0)
    except OSError as error:
        raise Skipped(f"{path} can't be opened: {error.strerror}") from None


def a_source_that_comes_in_small_pieces(program):
    pieces = "".join(f"printf {shlex.quote(line)}; echo; sleep 0.01; " for line in HOST.decode().splitlines())
    with subprocess.Popen(["sh", "-c", pieces], stdout=subprocess.PIPE) as source:
        expect(run(program, LAYER, stdin=source.stdout), (HOST, b"", 0))


def a_source_without_an_end_is_too_long(program):
    with opened("/dev/zero", "rb") as source:
        expect(run(program, LAYER, stdin=source), (b"", b"hostext: input too long\n", 10))


def compare_leaves_the_source_alone(program):
    with tempfile.TemporaryFile() as source:
        source.write(HOST)
        source.seek(0)
        expect(run(program, [*COMPARE, b"1", b"2"], stdin=source), (b"less\n", b"", 0))
        if os.lseek(source.fileno(), 0, os.SEEK_CUR):
            raise Failed("bytes of the source were taken")


def a_folder_as_the_source_is_a_read_fault(program):
    folder = os.open(TOP, os.O_RDONLY)
    try:
        expect(run(program, LAYER, stdin=folder), (b"", b"hostext: read fault\n", 3))
    finally:
        os.close(folder)


def a_source_that_fails_is_a_read_fault(program):
    with opened("/proc/self/mem", "rb") as source:
        expect(run(program, LAYER, stdin=source), (b"", b"hostext: read fault\n", 3))


def a_full_output_is_a_write_fault(program):
    for words, source in (LAYER, HOST), (LAYER, b""), ([*COMPARE, b"1", b"2"], b""), ([b"--help"], b""), ([b"--version"], b""):
        with opened("/dev/full", "wb") as full:
            expect(run(program, words, source, stdout=full), (None, b"hostext: write fault\n", 4))


def an_output_that_nobody_reads_is_a_write_fault(program):
    for words, source in (LAYER, FULL), ([*COMPARE, b"1", b"2"], b""):
        reading, writing = os.pipe()
        os.close(reading)
        try:
            expect(run(program, words, source, stdout=writing), (None, b"hostext: write fault\n", 4))
        finally:
            os.close(writing)


def a_closed_input_is_a_read_fault(program):
    expect(run(program, LAYER, stdin=None, before=lambda: os.close(0)), (b"", b"hostext: read fault\n", 3))


def a_closed_output_is_a_write_fault(program):
    expect(run(program, LAYER, HOST, stdout=None, before=lambda: os.close(1)), (None, b"hostext: write fault\n", 4))


def a_closed_or_full_standard_error_changes_no_status(program):
    expect(run(program, [], stderr=None, before=lambda: os.close(2)), (b"", None, 2))
    with opened("/dev/full", "wb") as full:
        expect(run(program, [], stderr=full), (b"", None, 2))


scenes = named(
    a_source_that_comes_in_small_pieces,
    a_source_without_an_end_is_too_long,
    compare_leaves_the_source_alone,
    a_folder_as_the_source_is_a_read_fault,
    a_source_that_fails_is_a_read_fault,
    a_full_output_is_a_write_fault,
    an_output_that_nobody_reads_is_a_write_fault,
    a_closed_input_is_a_read_fault,
    a_closed_output_is_a_write_fault,
    a_closed_or_full_standard_error_changes_no_status,
)
