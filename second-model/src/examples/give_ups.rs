//! Give-ups with length 4 and length 2, wrong lengths of tag 10, and operations of
//! more than two bytes (document 02, Req 07).

pub(super) const TABLE: &str = "
let three: start 1; read 5; read 6; read 7

records-follow-a-give-up: {three}; give up 2; 3 * deliver 0; 3 * deliver 0; 3 * deliver 0
    => 14 ok 0 0 3 0 -

join-follows-a-give-up: {three}; give up 2; join; copy; give up 1; copy => 9 ok 3 0 - - -

context-follows-a-give-up: {three}; give up 2; read 5 6; give up 4; give up 3; read 5 6
    => 9 ok 5 0 - - -

give-ups-one-after-the-other: {three}; give up 3; give up 1; give up 2; give up 3; read 5
    => 9 ok 4 0 - - -

give-up-is-the-last-record: {three}; give up 3 => 5 ok 3 0 - - -

refused-give-up-lets-the-run-go-on: {three}; give up 4; write 5 9; 3 * (lose 0); 3 * deliver 0
    => 12 ok 1 1 4 9 -

both-lengths-in-one-run: {three}; give up 1; give up 2 in two bytes; give up 3; read 5
    => 8 ok 4 0 - - -

give-up-again-in-two-bytes: {three}; give up 2; give up 2 in two bytes => 6 no 13

give-up-again-in-four-bytes: {three}; give up 2 in two bytes; give up 2 => 6 no 13

give-up-again-in-two-bytes-twice: {three}; give up 2; 2 * give up 2 in two bytes; give up 1;
    read 9
    => 9 ok 4 0 - - -

give-up-before-the-start: give up 1; start 1 => 1 no 1

start-follows-a-give-up: {three}; give up 1; start 1 => 6 no 1

unknown-tag-follows-a-give-up: {three}; give up 1; bytes 0 0 0 => 6 no 1

cut-record-follows-a-give-up: {three}; give up 1; bytes 3 0 => 6 no 1

give-up-of-length-0: {three}; bytes 10 0 0 => 5 no 1

give-up-of-length-1: {three}; bytes 10 0 1 1 => 5 no 1

give-up-of-length-3: {three}; bytes 10 0 3 0 0 1 => 5 no 1

give-up-of-length-3-where-four-bytes-are: {three}; bytes 10 0 3 0 0 0 1 => 5 no 1

give-up-of-length-5: {three}; bytes 10 0 5 0 0 0 0 1 => 5 no 1

give-up-of-length-6: {three}; bytes 10 0 6 0 0 0 0 0 1 => 5 no 1

give-up-of-length-8: {three}; bytes 10 0 8 0 0 0 0 0 0 0 1 => 5 no 1

give-up-of-length-258: {three}; bytes 10 1 2; 257 * bytes 0; bytes 1 => 5 no 1

give-up-of-length-260: {three}; bytes 10 1 4; 259 * bytes 0; bytes 1 => 5 no 1

give-up-of-length-512: {three}; bytes 10 2 0; 511 * bytes 0; bytes 1 => 5 no 1

give-up-of-length-1024: {three}; bytes 10 4 0; 1023 * bytes 0; bytes 1 => 5 no 1

give-up-cut-after-the-tag: {three}; bytes 10 => 5 no 1

give-up-cut-in-the-length: {three}; bytes 10 0 => 5 no 1

give-up-of-two-bytes-cut-before-them: {three}; bytes 10 0 2 => 5 no 1

give-up-of-two-bytes-cut-after-one: {three}; bytes 10 0 2 0 => 5 no 1

give-up-of-four-bytes-cut-before-them: {three}; bytes 10 0 4 => 5 no 1

give-up-of-four-bytes-cut-after-one: {three}; bytes 10 0 4 0 => 5 no 1

give-up-of-four-bytes-cut-after-two: {three}; bytes 10 0 4 0 1 => 5 no 1

give-up-of-four-bytes-cut-after-three: {three}; bytes 10 0 4 0 0 0 => 5 no 1

length-4-stated-where-two-bytes-are: {three}; bytes 10 0 4 0 1; give up 2 in two bytes; read 5
    => 6 no 1

length-2-stated-where-four-bytes-are: {three}; bytes 10 0 2 0 0 0 1; give up 2 => 6 no 1

give-up-operation-65535: {three}; give up 65535; give up 1 => 6 ok 3 0 - - -

give-up-operation-65536: {three}; give up 65536 => 5 no 13

operation-65537-is-not-1: {three}; give up 65537; give up 1 => 6 ok 3 0 - - -

operation-16777217-is-not-1: {three}; give up 16777217 => 5 no 13

operation-2147483649-is-not-1: {three}; give up 2147483649 => 5 no 13

operation-65536-is-not-1: {three}; 2 * (give up 65536); give up 1; give up 1 => 8 no 13

operation-256-is-not-1: {three}; give up 256 => 5 no 13

operation-16777216-is-not-1: {three}; give up 16777216 => 5 no 13

give-up-the-last-operation-of-all: {three}; give up 4294967295; give up 3 => 6 ok 3 0 - - -

give-up-the-last-but-one-of-all: {three}; give up 4294967294 => 5 no 13

let many: start 1; each 1 to 257 by 1 (read 7; lose 0; give up #)

give-up-257-operations-in-turn: {many}; read 7; give up 258 => 774 ok 1 0 - - -

operation-258-is-not-2: {many}; read 7; give up 2; give up 258; read 7 => 776 ok 2 0 - - -

operation-65794-is-not-258: {many}; read 7; give up 65794; give up 258 in two bytes
    => 775 ok 1 0 - - -

64-give-ups-make-room-for-64: start 1; 64 * (read 7; lose 0); read 7;
    each 1 to 64 by 1 (give up #); 64 * (read 7; lose 0); read 7
    => 323 no 5

longest-input-ends-in-a-give-up: start 1; read 5; 7280 * write 1024 0; give up 1
    => 7283 ok 1 0 - - -
";
