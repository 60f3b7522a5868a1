"""Scripts that the program reads, each a function of a size in bytes, and the replies to them."""

import itertools
from typing import Iterator

from files import ATTRIBUTE, ENTRIES, IN_A_RECORD, count_of_blocks, entry_count, in_any_order, repeated
from places import MIB


def comment_lines(size: int) -> bytes:
    """Lines of 64 bytes, each a comment."""
    return repeated(b"# a comment of a script, which has no reply and changes nothing\n", size)


def empty_lines(size: int) -> bytes:
    """Newlines alone."""
    return repeated(b"\n", size)


def lines_of_blanks(size: int) -> bytes:
    """Lines of 15 spaces and tabs."""
    return repeated(b" \t   \t \t     \t \n", size)


def single_blanks(size: int) -> bytes:
    """Lines of one space."""
    return repeated(b" \n", size)


def short_comments(size: int) -> bytes:
    """Comments of no character and of one, in turn."""
    return repeated(b"#\n#x\n", size)


def comments_and_blanks(size: int) -> bytes:
    """Comments, with a blank line of each of the three kinds between them in turn."""
    comment = comment_lines(64)
    return repeated(comment + b"\n" + comment + b" \n" + comment + lines_of_blanks(16), size)


def rename_last(size: int) -> bytes:
    """A line that gives the last attribute of such a file another name."""
    return b"rename-attr %d renamed\n" % ((size - 404) // ATTRIBUTE - 1)


def one_attribute(size: int) -> bytes:
    """A line that makes an attribute."""
    return b"attr a global\n"


def attr_lines(size: int) -> bytes:
    """Lines of 32 bytes that each make an attribute of the file."""
    return b"".join((b"attr a%d" % n).ljust(24) + b" global\n" for n in range(size // 32))


def zvar_lines(size: int) -> bytes:
    """Lines of 40 bytes that each make a z variable without dimensions."""
    return b"".join((b"zvar v%d" % n).ljust(21) + b" INT4 1 vary - -  \n" for n in range(size // 40))


ENTRY_LINE = 40  # the bytes of a line of a script that makes entries


def entry_line(attribute: int, num: int) -> bytes:
    """A line that makes an entry of an attribute."""
    return (b"put-entry a%d g %d INT4 %d" % (attribute, num, num)).ljust(ENTRY_LINE - 1) + b"\n"


def attribute_lines(count: int) -> bytes:
    """Lines that each make an attribute of the file."""
    return b"".join((b"attr a%d global" % n).ljust(ENTRY_LINE - 1) + b"\n" for n in range(count))


def entries_by_attribute(size: int) -> bytes:
    """Lines that make attributes, and then 30 entries of each: all of one, all of the next, and so on."""
    count = size // ENTRY_LINE // (ENTRIES + 1)
    return attribute_lines(count) + b"".join(entry_line(n, num) for n in range(count) for num in range(ENTRIES))


def entries_by_number(size: int) -> bytes:
    """The same, the first entry of all attributes, then the second of all, and so on."""
    count = size // ENTRY_LINE // (ENTRIES + 1)
    return attribute_lines(count) + b"".join(entry_line(n, num) for num in range(ENTRIES) for n in range(count))


def entries_of_one(size: int) -> bytes:
    """Lines that make an attribute and then as many entries of it."""
    return attribute_lines(1) + b"".join(entry_line(0, num) for num in range(size // ENTRY_LINE - 1))


def one_entry_again(size: int) -> bytes:
    """Lines that make an attribute and an entry of it, and put the entry again and again, of the same size."""
    lines = [b"put-entry a0 g 0 INT4 %d" % (1_000_000 + n) for n in range(size // ENTRY_LINE - 1)]
    return attribute_lines(1) + b"".join(line.ljust(ENTRY_LINE - 1) + b"\n" for line in lines)


def delete_variable(size: int) -> bytes:
    """A line that deletes the first variable of such a file."""
    return b"del-var 0\n"


def get_in_any_order(size: int) -> bytes:
    """Lines that show each entry of such a file."""
    return b"".join(b"get-entry 0 g %d\n" % num for num in in_any_order(entry_count(size)))


def get_falling(size: int) -> bytes:
    """The same, from the last one to the first."""
    return b"".join(b"get-entry 0 g %d\n" % num for num in reversed(range(entry_count(size))))


def delete_attribute(size: int) -> bytes:
    """A line that deletes the attribute of such a file."""
    return b"del-attr 0\n"


def shown(numbers: list[int]) -> bytes:
    """The reply to the lines that show the entries of these numbers."""
    return b"".join(b"%d ok INT4 1 %d\n" % (n, num) for n, num in enumerate(numbers, 1))


def done(lines: int) -> bytes:
    """The reply to each of so many commands that are done."""
    return b"".join(b"%d ok\n" % n for n in range(1, lines + 1))


PUT_REC = b"put-rec A 271 12345\n"


def put_recs(size: int) -> bytes:
    """Lines that each write a record of a variable that is not there."""
    return repeated(PUT_REC, size)


def no_variable(lines: int) -> bytes:
    """The reply to each of so many commands on such a variable."""
    return b"".join(b"%d refused 3 NoSuchVar\n" % n for n in range(1, lines + 1))


RECORD_LINE = 32  # the bytes of a line of a script that makes records of one value
WIDE = 64  # the values of a wide record
WIDE_LINE = 288  # the bytes of a line of a script that makes wide records


def record_line(width: int, num: int, value: int) -> bytes:
    """A line that writes a record of the variable "V", all of whose values are one: of one value, or a wide one, by the width of the line."""
    values = WIDE * (b" %d" % (value % 1000)) if width == WIDE_LINE else b" %d" % value
    return (b"put-rec V %d%s" % (num, values)).ljust(width - 1) + b"\n"


def record_variable(width: int) -> bytes:
    """A line that makes it."""
    dims = b"%d T" % WIDE if width == WIDE_LINE else b"- -"
    return (b"zvar V INT4 1 vary " + dims).ljust(width - 1) + b"\n"


def ascending(width: int, size: int) -> bytes:
    """Lines that make a variable of 4-byte integers and its records one after the other."""
    return record_variable(width) + b"".join(record_line(width, num, num) for num in range(size // width - 1))


def written_again(width: int, size: int) -> bytes:
    """The same, and then each record written again, in any order."""
    count = (size // width - 1) // 2
    return ascending(width, (count + 1) * width) + b"".join(record_line(width, num, num + 1) for num in in_any_order(count))


def first_only(width: int, size: int) -> bytes:
    """As many lines that all write the first record."""
    return record_variable(width) + b"".join(record_line(width, 0, num) for num in range(size // width - 1))


def records_ascending(size: int) -> bytes:
    return ascending(RECORD_LINE, size)


def records_again(size: int) -> bytes:
    return written_again(RECORD_LINE, size)


TEN_LINE = 40  # the bytes of a line of a script that makes records of ten variables


def records_of_ten(size: int) -> bytes:
    """Lines that make ten variables, each of whose blocks holds one record, and their records one after the other: one of each variable, then the next ones."""
    variables = b"".join((line % n).ljust(TEN_LINE - 1) + b"\n" for n in range(10) for line in (b"zvar V%d INT4 1 vary - -", b"set-blocking V%d 1"))
    count = size // TEN_LINE - 20
    return variables + b"".join((b"put-rec V%d %d %d" % (num % 10, num // 10, num)).ljust(TEN_LINE - 1) + b"\n" for num in range(count))


def records_read(size: int) -> bytes:
    """Lines that make records one after the other, and then show each, in any order."""
    count = (size // RECORD_LINE - 1) // 2
    lines = (b"get-rec V %d" % num for num in in_any_order(count))
    return records_ascending((count + 1) * RECORD_LINE) + b"".join(line.ljust(RECORD_LINE - 1) + b"\n" for line in lines)


def one_record(size: int) -> bytes:
    return first_only(RECORD_LINE, size)


def one_wide(size: int) -> bytes:
    return first_only(WIDE_LINE, size)


def wide_ascending(size: int) -> bytes:
    return ascending(WIDE_LINE, size)


def wide_again(size: int) -> bytes:
    return written_again(WIDE_LINE, size)


def done_and_read(count: int) -> bytes:
    """The replies to it."""
    read = (b"%d ok %d\n" % (count + 1 + n, num) for n, num in enumerate(in_any_order(count), 1))
    return done(count + 1) + b"".join(read)


def dump_it(size: int) -> bytes:
    """A line that shows all of a file."""
    return b"dump\n"


def tally_it(size: int) -> bytes:
    """A line that counts what a file has."""
    return b"report tally\n"


def dumped(attributes: int, lines: Iterator[bytes]) -> bytes:
    """The reply to it of a file of attributes alone: these lines, and how many attributes there are."""
    head = b"1 ok\nversion 3.9.0 encoding 6 majority row checksum none rdims - attributes %d rvars 0 zvars 0\n" % attributes
    return head + b"".join(lines) + b"end attributes %d variables 0 records 0\n1 end\n" % attributes


def dumped_attributes(count: int) -> bytes:
    return dumped(count, (b'attribute %d "%d" global\n' % (n, n) for n in range(count)))


def dumped_entries(count: int) -> bytes:
    """Of entries whose numbers fall along the chain, and whose values rise."""
    lines = (b"entry g %d INT4 1 %d\n" % (num, count - 1 - num) for num in range(count))
    return dumped(1, itertools.chain([b'attribute 0 "0" global\n'], lines))


def tallied(records: int) -> bytes:
    """The reply of the tap that counts, of a file of one variable."""
    return b"1 ok\nattributes 0 entries 0 variables 1 records %d\n1 end\n" % records


def no_checksum(size: int) -> bytes:
    """A line that changes nothing, after which the file is saved as it is."""
    return b"checksum none\n"


def one_value(size: int) -> bytes:
    """A line that puts one value into a record in the middle of such a file."""
    return b"put-val 0 %d %d 271828\n" % (size // (8 * IN_A_RECORD), IN_A_RECORD // 2)


def far_values(size: int) -> bytes:
    """Lines that put 400 values into such a file, each into another of its pages."""
    apart = size // (4 * IN_A_RECORD) // 400
    return b"".join(b"put-val 0 %d %d 271828\n" % (num * apart, IN_A_RECORD // 2) for num in range(400))


def make_index_anew(size: int) -> bytes:
    """A line that makes the index of such a file anew."""
    return b"reindex 0\n"


def make_index_anew_and_read(size: int) -> bytes:
    """The same, and then each record read, in any order."""
    return b"reindex 0\n" + b"".join(b"get-rec 0 %d\n" % num for num in in_any_order(count_of_blocks(size)))


def anew_and_read(count: int) -> bytes:
    """The replies to it."""
    return b"1 ok\n" + b"".join(b"%d ok %d\n" % (n, num) for n, num in enumerate(in_any_order(count), 2))


def make_index_anew_and_put(size: int) -> bytes:
    """The same, and then each record put again, in any order."""
    return b"reindex 0\n" + b"".join(b"put-rec 0 %d %d\n" % (num, num + 1) for num in in_any_order(count_of_blocks(size)))


LINE = 16 * MIB  # the most bytes of a line


def line_of_values(size: int) -> bytes:
    """One command with as many values as fit, each of one byte."""
    return repeated(b"put-rec A 0 " + repeated(b"7 ", size - 13), size - 1) + b"\n"


def line_of_escapes(size: int) -> bytes:
    """One command with one value between quotes, each byte of it an escape."""
    start = b'put-rec A 0 "'
    return start + repeated(b"\\\\", (size - len(start) - 2) // 2 * 2) + b'"\n'


def line_of_comment(size: int) -> bytes:
    """One comment."""
    return repeated(b"#", size - 1) + b"\n"
