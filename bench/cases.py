"""What is measured, and what is wanted of it."""

from dataclasses import dataclass, replace
from typing import Callable, Optional

from files import (
    ATTRIBUTE, ENTRIES, ENTRY, IN_A_BLOCK, VARIABLE, attributes, blocks_of_one, described_variables, entries,
    entries_against, in_any_order, large_blocks, large_records, long_records, nodes_of_one, one_unused, other_eof, other_magic,
    sealed, size_of_blocks, size_of_large_blocks, size_of_small_nodes, size_of_usual_blocks, usual_blocks, variables,
)
from places import MB, MIB
from scripts import (
    ENTRY_LINE, LINE, PUT_REC, RECORD_LINE, TEN_LINE, WIDE_LINE, anew_and_read, attr_lines, comment_lines,
    comments_and_blanks, delete_attribute, delete_variable, done, done_and_read, dump_it, dumped_attributes,
    dumped_entries, empty_lines, entries_by_attribute, entries_by_number, entries_of_one, far_values, get_falling,
    get_in_any_order, line_of_comment, line_of_escapes, line_of_values, lines_of_blanks, make_index_anew,
    make_index_anew_and_put, make_index_anew_and_read, no_checksum, no_variable, one_attribute, one_entry_again,
    one_record, one_value, one_wide, put_recs, records_again, records_ascending, records_of_ten, records_read,
    rename_last, short_comments, shown, single_blanks, tallied, tally_it, wide_again, wide_ascending, zvar_lines,
)


@dataclass
class Case:
    name: str
    status: int  # the exit status that is wanted
    answer: bytes  # what the program has to write
    size: int  # bytes of the input
    script: Optional[Callable[[int], bytes]] = None  # given on standard input, over a new file
    flags: tuple[str, ...] = ()  # words before the file
    file: Optional[Callable[[int], bytes]] = None  # opened, with an empty script where there is none
    times_md5sum: Optional[float] = None  # what is wanted: at most so many times
    times_cat: Optional[float] = None
    times_cp: Optional[float] = None
    most_seconds: Optional[float] = None
    times_size: Optional[float] = None  # memory, of the file's size
    times_made: Optional[float] = None  # memory beyond that of another script, of what the file that is left is larger by
    beside: Optional[Callable[[int], bytes]] = None  # that script, of the same size
    memory_of: Optional[str] = None  # memory: at most that of this case, which stands before it, and 1 MiB
    before: Optional[str] = None  # a case that stands before it
    times_before: Optional[float] = None
    seconds_beyond: Optional[float] = None  # at most so many seconds more than that case
    on_disk: bool = False  # the file is opened on the disk; how many seconds more than the case before it takes is shown
    plain: tuple[str, ...] = ()  # what the plain program is given before the file, to answer the same; that is the answer where none is given
    times_plain: Optional[float] = None
    memory_beyond: Optional[int] = None  # memory: at most so many bytes beyond the file
    by_user: bool = False  # the plain program and the case before it are compared by the time that the processor worked for them


@dataclass
class LibraryCase:
    name: str
    words: list[str]  # what cdf_bench is given, and the plain program too
    parts: list[str]  # whose times count
    size: Optional[int] = None  # bytes of the file, or of the area in memory
    file: Optional[Callable[[int], bytes]] = None  # whose name is the last word
    times_md5sum: Optional[float] = None  # what is wanted: at most so many times; md5sum reads the file in place of the plain program
    times_cp: Optional[float] = None
    most_seconds: Optional[float] = None
    times_made: Optional[float] = None  # memory beyond the file and 24 MB, of the size of what it makes, which it prints first
    times_plain: Optional[float] = None
    before: Optional[str] = None  # a case that stands before it
    times_before: Optional[float] = None
    most_bytes: Optional[int] = None  # what it prints is a number of bytes, of which there may be so many; nothing is run beside it


def script_case(kind: str, script: Callable[[int], bytes], size: int, memory_of: Optional[str] = None) -> Case:
    return Case(f"script, {kind}, {size // MB} MB", 0, b"", size, script=script, times_md5sum=3, memory_of=memory_of)


def script_cases(kind: str, script: Callable[[int], bytes]) -> list[Case]:
    small = script_case(kind, script, 10 * MB)
    return [small, script_case(kind, script, 100 * MB, memory_of=small.name)]


def line_case(kind: str, line: Callable[[int], bytes], status: int, answer: bytes) -> Case:
    return Case(f"line, {kind}, 16 MiB", status, answer, LINE, script=line, times_size=3)


def file_case(kind: str, file: Callable[[int], bytes], answer: bytes) -> Case:
    return Case(f"file, {kind}, 256 MiB", 4, answer, 256 * MIB, file=file, times_cat=2, times_size=1.1, plain=("check",))


def dump_case(kind: str, file: Callable[[int], bytes], size: int, answer: bytes = b"", **wanted) -> Case:
    return Case(f"dump, {kind}", 0, answer, size, script=dump_it, flags=("--no-save",), file=file, by_user=True, **wanted)


def tally_case(records: int, **wanted) -> Case:
    size = size_of_usual_blocks(records // IN_A_BLOCK)
    return Case(f"tally, {records} records", 0, tallied(records), size, script=tally_it, flags=("--no-save",), file=usual_blocks, by_user=True, **wanted)


def copy_cases(kind: str, file: Callable[[int], bytes], half: tuple[str, int], whole: tuple[str, int], **wanted) -> list[LibraryCase]:
    """The copy of a file, and that of one of half the size before it."""
    smaller, larger = [LibraryCase(f"library, copy, {count} {kind}", ["copy"], ["copy"], size, file, times_made=1.1) for count, size in (half, whole)]
    return [smaller, replace(larger, before=smaller.name, times_before=2.5, **wanted)]


HUNDRED_THOUSAND = 404 + 100_000 * ATTRIBUTE
THOUSANDS_OF_VARIABLES = 404 + 100_000 * VARIABLE
THOUSAND_OF_THIRTY = 1_000 * (ENTRIES + 1) * ENTRY_LINE
THOUSAND_DESCRIBED = 404 + ENTRIES * ATTRIBUTE + 1_000 * (VARIABLE + ENTRIES * ENTRY)
TWENTY_THOUSAND = 404 + ATTRIBUTE + 20_000 * ENTRY
PAGE = 65_536
THOUSANDS_OF_BLOCKS = size_of_blocks(100_000)
LARGE_BLOCKS_OF_256_MIB = size_of_large_blocks(256 * MIB)

CASES = [
    *script_cases("comments", comment_lines),
    *script_cases("comments and blank lines", comments_and_blanks),
    *script_cases("empty lines", empty_lines),
    *script_cases("lines of 15 blanks", lines_of_blanks),
    *script_cases("lines of 1 blank", single_blanks),
    *script_cases("short comments", short_comments),
    Case("script, 1000000 commands", 1, no_variable(MB), len(PUT_REC) * MB, script=put_recs, times_md5sum=15, memory_of="script, comments, 10 MB"),
    line_case("values of 1 byte", line_of_values, 1, no_variable(1)),
    line_case("one value of escapes", line_of_escapes, 1, no_variable(1)),
    line_case("a comment", line_of_comment, 0, b""),
    file_case("wrong magic", other_magic, b"rejected 1 1 0\n"),
    file_case("wrong eof", other_eof, b"rejected 3 4 320\n"),
    Case("file, one unused record, 256 MiB", 0, b"", 256 * MIB, file=one_unused, times_cp=4, times_size=1.09),
    Case("file, 256 MiB, one new attribute", 0, b"1 ok\n", 256 * MIB, script=one_attribute, file=one_unused, times_size=1.09, before="file, one unused record, 256 MiB", times_before=1.1),
    Case("file, 256 MiB, one new attribute, on the disk", 0, b"1 ok\n", 256 * MIB, script=one_attribute, file=one_unused, before="file, 256 MiB, one new attribute", on_disk=True),
    Case("file, records, 256 MiB", 0, b"1 ok\n", LARGE_BLOCKS_OF_256_MIB, script=no_checksum, file=large_blocks, times_size=1.09, by_user=True),
    Case("file, records, 256 MiB, one value", 0, b"1 ok\n", LARGE_BLOCKS_OF_256_MIB, script=one_value, file=large_blocks, times_size=1.09, before="file, records, 256 MiB", times_before=1.1, by_user=True),
    Case("file, records, 256 MiB, through a log", 0, b"1 ok\n", LARGE_BLOCKS_OF_256_MIB, script=no_checksum, flags=("--journal",), file=large_blocks, times_size=1.09, before="file, records, 256 MiB", times_before=1.1, by_user=True),
    Case("file, records, 256 MiB, one value, through a log", 0, b"1 ok\n", LARGE_BLOCKS_OF_256_MIB, script=one_value, flags=("--journal",), file=large_blocks, times_size=1.09, before="file, records, 256 MiB, one value", times_before=1.3, by_user=True),
    Case("file, records, 256 MiB, 400 values, through a log", 0, done(400), LARGE_BLOCKS_OF_256_MIB, script=far_values, flags=("--journal",), file=large_blocks, memory_beyond=400 * PAGE + 24 * MB, by_user=True),
    Case("check, 512 MB", 0, b"yes\n", 512 * MB, flags=("--check",), file=one_unused, times_cat=2, times_size=1.1, plain=("check",)),
    Case("check, 512 MB with a checksum", 0, b"yes\n", 512 * MB, flags=("--check",), file=sealed, times_md5sum=2, times_size=1.1),
    Case("file, 100000 attributes", 0, b"", HUNDRED_THOUSAND, file=attributes, times_md5sum=3, times_size=2),
    Case("file, 100000 attributes, one renamed", 0, b"1 ok\n", HUNDRED_THOUSAND, script=rename_last, file=attributes, times_size=2, before="file, 100000 attributes", times_before=2),
    Case("script, 100000 new attributes", 0, done(100_000), 32 * 100_000, script=attr_lines, flags=("--new",), most_seconds=3),
    Case("script, 50000 new attributes", 0, done(50_000), 32 * 50_000, script=attr_lines, flags=("--new",), before="script, 100000 new attributes", times_before=0.6),
    Case("file, 100000 variables", 0, b"", THOUSANDS_OF_VARIABLES, file=variables, times_md5sum=3, times_size=2),
    Case("script, 20000 new variables", 0, done(20_000), 40 * 20_000, script=zvar_lines, flags=("--new",), most_seconds=2),
    Case("script, 100000 records", 0, done(100_001), 100_001 * RECORD_LINE, script=records_ascending, flags=("--new",), most_seconds=1.5, times_made=1.2, beside=one_record),
    Case("script, 1000000 records", 0, done(1_000_001), 1_000_001 * RECORD_LINE, script=records_ascending, flags=("--new",), most_seconds=6),
    Case("script, 100000 records of ten variables, each in its block", 0, done(100_020), 100_020 * TEN_LINE, script=records_of_ten, flags=("--new",), most_seconds=20),
    Case("script, 100000 records, each again", 0, done(200_001), 200_001 * RECORD_LINE, script=records_again, flags=("--new",), before="script, 100000 records", seconds_beyond=1.5, times_made=1.2, beside=one_record),
    Case("script, 100000 records, each read", 0, done_and_read(100_000), 200_001 * RECORD_LINE, script=records_read, flags=("--new",), before="script, 100000 records", seconds_beyond=1.2, times_made=1.2, beside=one_record),
    Case("script, 100000 wide records", 0, done(100_001), 100_001 * WIDE_LINE, script=wide_ascending, flags=("--new",), times_md5sum=60, times_made=1.2, beside=one_wide),
    Case("script, 100000 wide records, each again", 0, done(200_001), 200_001 * WIDE_LINE, script=wide_again, flags=("--new",), times_md5sum=60, times_made=1.2, beside=one_wide),
    Case("file, 100000 blocks", 0, b"", THOUSANDS_OF_BLOCKS, file=blocks_of_one),
    Case("check, 50000 blocks", 0, b"yes\n", size_of_blocks(50_000), flags=("--check",), file=blocks_of_one),
    Case("check, 100000 blocks", 0, b"yes\n", THOUSANDS_OF_BLOCKS, flags=("--check",), file=blocks_of_one, before="check, 50000 blocks", times_before=2.3),
    Case("check, 50000 nodes in any order", 0, b"yes\n", size_of_small_nodes(50_000), flags=("--check",), file=nodes_of_one),
    Case("check, 100000 nodes in any order", 0, b"yes\n", size_of_small_nodes(100_000), flags=("--check",), file=nodes_of_one, before="check, 50000 nodes in any order", times_before=2.3),
    Case("file, 100000 blocks, index anew", 0, b"1 ok\n", THOUSANDS_OF_BLOCKS, script=make_index_anew, file=blocks_of_one, before="file, 100000 blocks", seconds_beyond=0.5),
    Case("file, 100000 blocks, index anew, each read", 0, anew_and_read(100_000), THOUSANDS_OF_BLOCKS, script=make_index_anew_and_read, file=blocks_of_one, before="file, 100000 blocks, index anew", seconds_beyond=3),
    Case("file, 100000 blocks, index anew, each put", 0, done(100_001), THOUSANDS_OF_BLOCKS, script=make_index_anew_and_put, file=blocks_of_one, before="file, 100000 blocks, index anew", seconds_beyond=3),
    Case("script, 30000 entries by attribute", 0, done(31_000), THOUSAND_OF_THIRTY, script=entries_by_attribute, flags=("--new",), most_seconds=2),
    Case("script, 30000 entries by number", 0, done(31_000), THOUSAND_OF_THIRTY, script=entries_by_number, flags=("--new",), most_seconds=2),
    Case("script, 20000 entries of one", 0, done(20_001), 20_001 * ENTRY_LINE, script=entries_of_one, flags=("--new",), most_seconds=4),
    Case("file, 20000 entries in any order", 0, shown(in_any_order(20_000)), TWENTY_THOUSAND, script=get_in_any_order, file=entries, most_seconds=4),
    Case("file, 20000 entries falling", 0, shown(list(reversed(range(20_000)))), TWENTY_THOUSAND, script=get_falling, file=entries, most_seconds=4),
    Case("file, 20000 entries deleted", 0, b"1 ok\n", TWENTY_THOUSAND, script=delete_attribute, file=entries, most_seconds=1),
    Case("file, 1000 variables of 30 entries", 0, b"", THOUSAND_DESCRIBED, file=described_variables),
    Case("file, 1000 variables of 30 entries, the first deleted", 0, b"1 ok\n", THOUSAND_DESCRIBED, script=delete_variable, file=described_variables, before="file, 1000 variables of 30 entries", seconds_beyond=0.2),
    Case("script, 100000 times one entry", 0, done(100_001), 100_001 * ENTRY_LINE, script=one_entry_again, flags=("--new",), times_md5sum=60),
    dump_case("50 MB of records of 1000 values", long_records, size_of_large_blocks(50 * MB), plain=("dump",)),
    dump_case("100 MB of records of 1000 values", long_records, size_of_large_blocks(100 * MB), plain=("dump",), times_plain=2, memory_beyond=24 * MB, before="dump, 50 MB of records of 1000 values", times_before=2.5),
    dump_case("500032 records of 4 bytes", usual_blocks, size_of_usual_blocks(7_813), plain=("dump",)),
    dump_case("1000000 records of 4 bytes", usual_blocks, size_of_usual_blocks(15_625), plain=("dump",), most_seconds=2, before="dump, 500032 records of 4 bytes", times_before=2.5),
    dump_case("50000 attributes", attributes, 404 + 50_000 * ATTRIBUTE, dumped_attributes(50_000)),
    dump_case("100000 attributes", attributes, HUNDRED_THOUSAND, dumped_attributes(100_000), most_seconds=1, before="dump, 50000 attributes", times_before=2.5),
    dump_case("10000 entries against their numbers", entries_against, 404 + ATTRIBUTE + 10_000 * ENTRY, dumped_entries(10_000)),
    dump_case("20000 entries against their numbers", entries_against, TWENTY_THOUSAND, dumped_entries(20_000), most_seconds=1, before="dump, 10000 entries against their numbers", times_before=2.5),
    tally_case(500_032),
    tally_case(1_000_000, most_seconds=1, before="tally, 500032 records", times_before=2.5),
]

LIBRARY_CASES = [
    LibraryCase("library, packing, 64 MB", ["rle", str(64 * MB)], ["encode"], times_plain=2),
    LibraryCase("library, unpacking, 64 MB", ["rle", str(64 * MB)], ["decode"], times_plain=2),
    LibraryCase("library, digest, 256 MiB", ["digest"], ["digest"], 256 * MIB, other_magic, times_md5sum=1.3),
    LibraryCase("library, 1000 names", ["names", "1000", "1000"], ["find"], times_plain=2),
    LibraryCase("library, 1000 of 100000 names", ["names", "100000", "1000"], ["find"], times_plain=2, before="library, 1000 names", times_before=2),
    LibraryCase("library, 100000 names", ["names", "100000", "100000"], ["find"], times_plain=2, before="library, 1000 names"),
    LibraryCase("library, 1000000 reads, 256 pages", ["pages", str(MB), str(16 * MIB)], ["first"], 16 * MIB, times_plain=8),
    LibraryCase("library, 1000000 reads, all cached", ["pages", str(MB), str(16 * MIB)], ["again"], 16 * MIB, times_plain=5),
    *copy_cases("records of 4 bytes", usual_blocks, ("500032", size_of_usual_blocks(7_813)), ("1000000", size_of_usual_blocks(15_625)), times_plain=1.5),
    *copy_cases("MB of records of 4 kB", long_records, ("50", size_of_large_blocks(50 * MB)), ("100", size_of_large_blocks(100 * MB)), times_cp=1.5),
    *copy_cases("MB of records of 1 MB", large_records, ("52", size_of_large_blocks(52 * MB)), ("100", size_of_large_blocks(100 * MB)), times_cp=1.5),
    *copy_cases("attributes", attributes, ("50000", 404 + 50_000 * ATTRIBUTE), ("100000", HUNDRED_THOUSAND), most_seconds=0.5),
    LibraryCase("library, one value through a log, 256 MiB", ["log", "1", str(256 * MIB)], [], most_bytes=200_000),
    LibraryCase("library, 400 values through a log, 256 MiB", ["log", "400", str(256 * MIB)], [], most_bytes=2 * 401 * PAGE + 400 * 24 + 1000),
    LibraryCase("library, 1000000 writes, undo, 256 MiB", ["undo", str(MB), str(256 * MIB)], ["write", "undo"], 256 * MIB, times_plain=3),
]
