"""What the doc comments of the Rust assert, as lines of the console.

Each `assert_eq!` in the doc comments of the ported files is in this table once. A line is `N COMMAND -> ANSWER`: the answer follows from N of
them (0 for a line that only sets up), and `- CALL N` are N of a call that is not ported.
`get_bit` is asked as `access`, which is the same in the Rust, and the length of a vector by `dump`, whose words are those of the example; that of
a sparse vector by the `universe` of its image.
"""

import pathlib
import re
import sys

from model import Console

COPY = pathlib.Path(__file__).resolve().parent / "target" / "crates" / "sucds" / "src"

TABLE = """
@ broadword.rs
1 popcount 0 -> 0
1 popcount 18446744073709551615 -> 64
1 popcount 691 -> 6
1 select_in_word 67 0 -> 0
1 select_in_word 67 1 -> 1
1 select_in_word 67 2 -> 6
1 select_in_word 67 3 -> none
1 lsb 44 -> 2
1 lsb 0 -> none
1 msb 44 -> 5
1 msb 0 -> none
@ bit_vectors/bit_vector.rs
0 bits 0 0 -> ok
0 push_bit 1 -> ok
0 push_bit 0 -> ok
1 dump -> 2 : 1
1 access 0 -> 1
0 set_bit 0 0 -> ok
1 access 0 -> 0
0 bits 0 -> ok
1 dump -> 0 :
- with_capacity 2
0 bits 0 7 -> ok
0 from_bit 0 5 -> ok
1 dump -> 5 : 0
1 access 0 -> 0
0 bits 3 2 -> ok
1 dump -> 3 : 2
1 access 1 -> 1
0 bits 3 1 -> ok
1 access 0 -> 1
1 access 1 -> 0
1 access 2 -> 0
1 access 3 -> none
0 bits 3 2 -> ok
0 set_bit 1 0 -> ok
1 access 1 -> 0
0 bits 0 0 -> ok
0 push_bit 1 -> ok
0 push_bit 0 -> ok
1 dump -> 2 : 1
0 bits 4 5 -> ok
1 get_bits 1 2 -> 2
1 get_bits 2 3 -> none
- set_bits 1
0 bits 0 0 -> ok
0 push_bits 3 2 -> ok
0 push_bits 5 3 -> ok
1 get_bits 0 5 -> 23
0 bits 4 10 -> ok
1 predecessor1 3 -> 3
1 predecessor1 2 -> 1
1 predecessor1 1 -> 1
1 predecessor1 0 -> none
- predecessor0 4
- successor1 4
- successor0 4
- iter 4
0 bits 4 11 -> ok
3 unary 1 next next next -> 1 3 none
0 bits 4 5 -> ok
1 get_word64 1 -> 2
1 get_bits 1 64 -> none
0 bits 3 1 -> ok
1 access 0 -> 1
1 access 1 -> 0
1 access 2 -> 0
1 access 3 -> none
0 bits 4 9 -> ok
1 rank1 1 -> 1
1 rank1 2 -> 1
1 rank1 3 -> 1
1 rank1 4 -> 2
1 rank1 5 -> none
- rank0 5
1 select1 0 -> 0
1 select1 1 -> 3
1 select1 2 -> none
1 select0 0 -> 1
1 select0 1 -> 2
1 select0 2 -> none
@ bit_vectors/bit_vector/unary.rs
0 bits 6 50 -> ok
3 unary 0 skip1 0 skip1 1 skip1 2 -> 1 4 none
3 unary 0 skip0 0 skip0 1 skip0 2 -> 0 2 none
@ bit_vectors/darray.rs
0 bits 4 9 -> ok
1 dump -> 4 : 9
1 access 1 -> 0
- rank1 1
- rank0 1
1 index_select 1 1 -> 3
1 index_select 0 0 -> 1
0 bits 3 1 -> ok
1 access 0 -> 1
1 access 1 -> 0
1 access 2 -> 0
1 access 3 -> none
- rank1 5
- rank0 5
0 bits 4 9 -> ok
1 index_select 1 0 -> 0
1 index_select 1 1 -> 3
1 index_select 1 2 -> none
1 index_select 0 0 -> 1
1 index_select 0 1 -> 2
1 index_select 0 2 -> none
@ bit_vectors/darray/inner.rs
0 bits 4 9 -> ok
1 index_select 1 0 -> 0
1 index_select 1 1 -> 3
1 index_select 1 2 -> none
1 index_select 0 0 -> 1
1 index_select 0 1 -> 2
1 index_select 0 2 -> none
@ mii_sequences/elias_fano.rs
0 buffer 12 0 -> ok
0 start 8 4 -> ok
0 reading 1 -> ok
0 reading 3 -> ok
0 reading 3 -> ok
0 reading 7 -> ok
0 finish 0 -> 10
1 len -> 4
1 universe -> 8
1 select 0 -> 1
1 select 1 -> 3
1 select 2 -> 3
1 select 3 -> 7
1 search 7 -> 3
1 search 4 -> none
0 finish 1 -> 12
1 rank 3 -> 1
1 rank 4 -> 3
1 predecessor 4 -> 3
1 predecessor 3 -> 3
1 successor 3 -> 3
1 successor 4 -> 7
0 finish 0 -> 10
1 delta 0 -> 1
1 delta 1 -> 2
1 delta 2 -> 0
1 delta 3 -> 4
1 delta 4 -> none
0 buffer 14 0 -> ok
0 start 11 6 -> ok
0 reading 1 -> ok
0 reading 3 -> ok
0 reading 3 -> ok
0 reading 6 -> ok
0 reading 7 -> ok
0 reading 10 -> ok
0 finish 0 -> 9
1 search 6 -> 3
1 search 10 -> 5
1 search 9 -> none
1 search_range 1 4 6 -> 3
1 search_range 5 6 10 -> 5
1 search_range 1 3 6 -> none
0 buffer 12 0 -> ok
0 start 8 4 -> ok
0 reading 1 -> ok
0 reading 3 -> ok
0 reading 3 -> ok
0 reading 7 -> ok
0 finish 1 -> 12
1 rank 3 -> 1
1 rank 4 -> 3
1 rank 8 -> 4
1 rank 9 -> none
0 finish 0 -> 10
1 select 0 -> 1
1 select 1 -> 3
1 select 2 -> 3
1 select 3 -> 7
1 select 4 -> none
0 finish 1 -> 12
1 predecessor 4 -> 3
1 predecessor 3 -> 3
1 predecessor 2 -> 1
1 predecessor 0 -> none
1 successor 0 -> 1
1 successor 2 -> 3
1 successor 3 -> 3
1 successor 8 -> none
0 finish 0 -> 10
4 walk 1 4 -> 3 3 7 none
0 buffer 12 0 -> ok
0 start 8 5 -> ok
2 builder -> 8 5 0 0
0 reading 1 -> ok
0 reading 3 -> ok
0 reading 3 -> ok
0 reading 5 -> ok
0 reading 7 -> ok
0 finish 0 -> 9
1 len -> 5
1 universe -> 8
@ mii_sequences/elias_fano/iter.rs
@ int_vectors/prefix_summed_elias_fano.rs
0 buffer 13 0 -> ok
0 sums 5 14 334 10 -> 10
1 sums_access 0 -> 5
1 sums_access 1 -> 14
1 sums_access 2 -> 334
1 sums_access 3 -> 10
1 sums_len -> 4
- sum 1
0 sums 5 14 334 10 -> 10
1 sums_len -> 4
- sum 1
0 sums 5 14 334 10 -> 10
5 sums_walk 5 -> 5 14 334 10 none
0 sums 5 14 334 -> 10
1 sums_access 0 -> 5
1 sums_access 1 -> 14
1 sums_access 2 -> 334
1 sums_access 3 -> none
"""

SPARSE = """
@ bit_vectors/sarray.rs
0 buffer 12 0 -> ok
0 bits 4 9 -> ok
0 sarray_from_bits 1 -> 12
1 universe -> 4
1 sarray_access 1 -> 0
1 sarray_rank1 1 -> 1
- rank0 1
1 sarray_select1 1 -> 3
0 bits 4 10 -> ok
0 sarray_from_bits 1 -> 12
1 sarray_predecessor1 3 -> 3
1 sarray_predecessor1 2 -> 1
1 sarray_predecessor1 1 -> 1
1 sarray_predecessor1 0 -> none
0 bits 4 5 -> ok
0 sarray_from_bits 1 -> 12
1 sarray_successor1 0 -> 0
1 sarray_successor1 1 -> 2
1 sarray_successor1 2 -> 2
1 sarray_successor1 3 -> none
0 bits 3 1 -> ok
0 sarray_from_bits 0 -> 10
1 sarray_access 0 -> 1
1 sarray_access 1 -> 0
1 sarray_access 2 -> 0
1 sarray_access 3 -> none
0 bits 4 9 -> ok
0 sarray_from_bits 1 -> 12
1 sarray_rank1 1 -> 1
1 sarray_rank1 2 -> 1
1 sarray_rank1 3 -> 1
1 sarray_rank1 4 -> 2
1 sarray_rank1 5 -> none
- rank0 5
0 sarray_from_bits 0 -> 10
1 sarray_select1 0 -> 0
1 sarray_select1 1 -> 3
1 sarray_select1 2 -> none
"""


def files(table):
    """Each file with its lines, as (how many assertions, command, answer), and how many assertions are of calls that are not ported."""
    for part in table.strip().split("@ ")[1:]:
        name, *rows = part.strip().split("\n")
        asked, other = [], 0
        for row in rows:
            count, text = row.split(" ", 1)
            if count == "-":
                other += int(text.split(" ")[1])
            else:
                command, answer = text.split("->")
                asked.append((int(count), command.strip(), answer.strip()))
        yield name, asked, other


def lines(table):
    for name, asked, _ in files(table):
        yield f"# doc comments of {name}"
        for _, command, _ in asked:
            yield command


def check():
    """The model answers as the comments say, and no assertion is left out; how many hold, and how many are of other calls."""
    console, held, others = Console(), 0, 0
    for name, asked, other in (*files(TABLE), *files(SPARSE)):
        for count, command, answer in asked:
            got = console.line(command.encode())
            if got != answer:
                sys.exit(f"doc comments of {name}: {command}: {got} instead of {answer}")
            held += count
        others += other
        text = (COPY / name).read_text()
        written = len(re.findall(r"^ *//[/!].*assert_eq!", text, re.MULTILINE))
        if written != sum(count for count, _, _ in asked) + other:
            sys.exit(f"the doc comments of {name} assert {written} times")
    return held, others
