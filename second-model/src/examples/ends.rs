//! The listing of document 01, the ways a run begins and ends, refusals 1, 2
//! and 14.

pub(super) const TABLE: &str = "
listing: start 2; write 5 9; 2 * deliver 0; advance 2; 2 * deliver 0; read 5; 3 * deliver 0;
    give up 2
    => 12 no 13

empty-input: => 1 no 1

p3-start-of-one: start 1 => 1 ok 0 0 - - -

p3-start-of-eight: start 8; tell 8 => 2 ok 0 0 - - -

p3-start-of-zero: start 0 => 1 no 2

p3-start-of-nine: start 9 => 1 no 2

start-of-255: start 255 => 1 no 2

bad-start-ends-the-run: start 9; start 2; read 0 => 1 no 2

second-start: start 2; start 2; read 0 => 2 no 1

second-start-of-nine: start 2; start 9 => 2 no 1

start-missing: read 0; start 2 => 1 no 1

start-of-wrong-length: bytes 32 0 2 1 1 => 1 no 1

start-of-length-nothing: bytes 32 0 0; read 0 => 1 no 1

start-of-nine-cut-short: bytes 32 0 1 => 1 no 1

one-byte: bytes 32 => 1 no 1

unknown-tag-0: start 2; bytes 0 0 2 0 0 => 2 no 1

unknown-tag-12: start 2; bytes 12 0 2 0 0 => 2 no 1

unknown-tag-31: start 2; bytes 31 0 1 1 => 2 no 1

unknown-tag-33: start 2; bytes 33 0 1 1 => 2 no 1

unknown-tag-255: start 2; bytes 255 0 1 1 => 2 no 1

length-too-short: start 2; bytes 1 0 1 5; read 5 => 2 no 1

length-too-long: start 2; bytes 1 0 3 0 5 0; read 5 => 2 no 1

length-zero: start 2; read 5; bytes 6 0 0; read 5 => 3 no 1

length-of-another-tag: start 2; bytes 2 0 2 0 5 => 2 no 1

length-with-a-high-byte: start 2; bytes 1 1 2; 258 * bytes 0 => 2 no 1

cut-after-the-tag: start 2; read 5; bytes 1 => 3 no 1

cut-in-the-length: start 2; bytes 1 0 => 2 no 1

cut-in-the-content: start 2; bytes 2 0 6 0 5 0 0 0 => 2 no 1

fault-ends-the-run: start 2; bytes 99 0 0; read 5 => 2 no 1

length-65536-is-run: start 1; 7279 * write 1024 0; write 5 7; 2 * deliver 0
    => 7283 ok 2 1 - - -

length-65536-ends-in-a-fault: start 2; read 5; fill 65536 => 3 no 1

length-65537-is-refused: start 2; read 5; fill 65537 => 0 no 14

length-65537-comes-before-a-bad-start: start 9; fill 65537 => 0 no 14
";
