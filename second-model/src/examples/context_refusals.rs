//! Reads of a context that are taken or refused (document 02, Req 02): lengths
//! of tag 11, then 3, 16, 5 and 6 in this order.

pub(super) const TABLE: &str = "
context-of-two: start 1; read 5 6; 3 * deliver 0 => 5 ok 0 0 1 0,0 -

context-of-eight: start 1; read 8 7 6 5 4 3 2 1; 3 * deliver 0 => 5 ok 0 0 1 0,0,0,0,0,0,0,0 -

contexts-of-each-size: start 1; read 1 2; read 1 2 3; read 1 2 3 4; read 1 2 3 4 5;
    read 1 2 3 4 5 6; read 1 2 3 4 5 6 7; read 1 2 3 4 5 6 7 8
    => 8 ok 7 0 - - -

context-of-the-first-and-the-last-object: start 1; read 1023 0; 3 * deliver 0
    => 5 ok 0 0 1 0,0 -

context-length-0: start 2; bytes 11 0 0; read 5 6 => 2 no 1

context-length-1: start 2; bytes 11 0 1 5; read 5 6 => 2 no 1

context-length-2: start 2; bytes 11 0 2 0 5; read 5 6 => 2 no 1

context-length-3: start 2; bytes 11 0 3 0 5 0; read 5 6 => 2 no 1

context-length-5: start 2; bytes 11 0 5 0 5 0 6 0; read 5 6 => 2 no 1

context-length-7: start 2; bytes 11 0 7 0 5 0 6 0 7 0; read 5 6 => 2 no 1

context-length-15: start 2; bytes 11 0 15 0 1 0 2 0 3 0 4 0 5 0 6 0 7 0; read 5 6 => 2 no 1

context-length-17: start 2; bytes 11 0 17 0 1 0 2 0 3 0 4 0 5 0 6 0 7 0 8 0; read 5 6 => 2 no 1

context-length-18: start 2; bytes 11 0 18 0 1 0 2 0 3 0 4 0 5 0 6 0 7 0 8 0 9; read 5 6 => 2 no 1

context-length-260-is-not-4: start 2; bytes 11 1 4 0 5 0 6; 256 * bytes 0 => 2 no 1

context-length-65535: start 2; bytes 11 255 255 0 5 0 6; 600 * bytes 0 => 2 no 1

context-cut-in-the-content: start 2; bytes 11 0 4 0 5 0 => 2 no 1

context-cut-before-the-content: start 2; bytes 11 0 4 => 2 no 1

context-before-the-start: read 5 6; start 2 => 1 no 1

context-of-wrong-length-ends-the-run: start 1; read 5 6; bytes 11 0 2 0 5; 3 * deliver 0
    => 3 no 1

context-length-tested-before-the-object: start 1; bytes 11 0 2 4 0 => 2 no 1

context-length-tested-before-named-twice: start 1; bytes 11 0 18; 18 * bytes 0 => 2 no 1

context-object-1024-first: start 1; read 1024 5 => 2 no 3

context-object-1024-between: start 1; read 5 1024 6 => 2 no 3

context-object-1024-last: start 1; read 5 6 1024 => 2 no 3

context-object-1024-eighth: start 1; read 1 2 3 4 5 6 7 1024 => 2 no 3

context-object-65535: start 1; read 65535 5 => 2 no 3

context-named-twice: start 1; read 5 5 => 2 no 16

context-named-twice-first-and-last: start 1; read 1 2 3 4 5 6 7 1 => 2 no 16

context-named-twice-the-last-two: start 1; read 1 2 3 4 5 6 7 7 => 2 no 16

context-named-twice-between: start 1; read 1 2 3 4 2 5 => 2 no 16

context-named-eight-times: start 1; read 5 5 5 5 5 5 5 5 => 2 no 16

context-object-1023-named-twice: start 1; read 1023 0 1023 => 2 no 16

context-same-low-byte-is-another-object: start 1; read 5 261 => 2 ok 1 0 - - -

context-same-high-byte-is-another-object: start 1; read 768 1023 => 2 ok 1 0 - - -

context-object-tested-before-named-twice: start 1; read 5 5 1024 => 2 no 3

context-object-before-the-two-of-a-name: start 1; read 1024 5 5 => 2 no 3

context-object-1024-named-twice: start 1; read 1024 1024 => 2 no 3

refused-context-has-no-number: start 1; read 5 5; read 1024 5; write 5 8; 3 * deliver 0
    => 7 ok 1 1 1 8 -

refused-context-leaves-the-packets: start 1; read 7; read 5 5; deliver 0; read 5 1024; deliver 0
    => 6 ok 1 0 - - -

let open: start 1; 64 * (read 7; lose 0)

sixty-fifth-open-context-refused: start 1; 64 * (read 5 6; lose 0); read 5 6 => 130 no 5

context-with-64-open: {open}; read 5 6 => 130 no 5

context-named-twice-tested-before-open: {open}; read 5 5 => 130 no 16

context-object-tested-before-open: {open}; read 5 5 1024 => 130 no 3

context-given-up-makes-room: {open}; give up 64; read 5 6 => 131 ok 1 0 - - -

context-open-tested-before-waiting: start 1; 65 * read 5 6 => 66 no 5

context-named-twice-tested-before-open-and-waiting: start 1; 64 * read 5 6; read 6 6
    => 66 no 16

let waiting: start 1; read 7; 63 * repeat 0

context-with-64-waiting: {waiting}; read 5 6 => 66 no 6

context-named-twice-tested-before-waiting: {waiting}; read 5 5 => 66 no 16

context-object-tested-before-waiting: {waiting}; read 1024 1024 => 66 no 3

context-with-63-waiting: {waiting}; lose 0; read 5 6 => 67 ok 64 0 - - -

sixty-four-contexts-of-eight-open: start 1; 64 * read 1 2 3 4 5 6 7 8; 192 * deliver 0
    => 257 ok 0 0 64 0,0,0,0,0,0,0,0 -

refused-contexts-up-to-65536-bytes: start 1; 9360 * read 5 5; 2 * deliver 0 => 9363 no 7
";
