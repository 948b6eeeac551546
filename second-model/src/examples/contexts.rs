//! What becomes of a read of a context (document 02, Req 02): direct or normal,
//! answered or sent on, copied, lost, given up, and the values it prints.
//!
//! A replica or the tail is often removed to show where the read was sent.

pub(super) const TABLE: &str = "
let done: write 5 9; 2 * deliver 0; advance 2; 2 * deliver 0

let told: replace 2; tell 1; tell 2

direct-context: start 2; {done}; read 5 6; 3 * deliver 0 => 11 ok 0 0 2 9,0 -

direct-context-answered-at-the-head: start 2; {done}; read 5 6; deliver 0; remove 2; 2 * deliver 0
    => 12 ok 0 0 2 9,0 -

direct-context-to-a-replica-gone: start 2; {done}; read 5 6; deliver 0; remove 1; deliver 0
    => 11 ok 0 0 - - -

direct-context-to-a-replica-gone-stays-open: start 2; {done}; read 5 6; deliver 0; remove 1;
    deliver 0; give up 2
    => 12 ok 0 0 - - -

let four: start 4; write 5 9; 2 * deliver 0; advance 2; advance 3; advance 4; 2 * deliver 0;
    remove 3; read 5 6

context-choice-5-of-1-2-4-is-replica-4: {four}; deliver 0 5; remove 4; deliver 0
    => 14 ok 0 0 - - -

context-choice-4-of-1-2-4-is-replica-2: {four}; deliver 0 4; remove 2; deliver 0
    => 14 ok 0 0 - - -

context-choice-255-of-1-2-4-is-replica-1: {four}; deliver 0 255; remove 4; 2 * deliver 0
    => 15 ok 0 0 2 9,0 -

rejected-for-the-first-object: start 2; {done}; read 5 6 7; deliver 0; write 5 8; 2 * deliver 1;
    3 * deliver 0
    => 15 ok 0 1 2 9,0,0 -

rejected-for-the-object-between: start 2; {done}; read 5 6 7; deliver 0; write 6 8;
    2 * deliver 1; 3 * deliver 0
    => 15 ok 0 1 2 9,0,0 -

rejected-for-the-last-object: start 2; {done}; read 5 6 7; deliver 0; write 7 8; 2 * deliver 1;
    3 * deliver 0
    => 15 ok 0 1 2 9,0,0 -

rejected-for-the-eighth-object: start 2; {done}; read 5 1 2 3 4 6 7 8; deliver 0; write 8 8;
    2 * deliver 1; 3 * deliver 0
    => 15 ok 0 1 2 9,0,0,0,0,0,0,0 -

rejected-and-the-tail-has-it-meanwhile: start 2; {done}; read 5 6 7; deliver 0; write 6 8;
    2 * deliver 1; deliver 0; advance 2; deliver 0; deliver 2
    => 16 ok 2 1 2 9,8,0 -

context-against-the-objects-stamps-not-the-highest: start 2; {done}; read 5 6 7; deliver 0;
    write 4 8; 2 * deliver 1; 2 * deliver 0
    => 14 ok 0 1 2 9,0,0 -

rejected-for-the-switch-number: start 2; {done}; read 5 6; deliver 0; replace 2; tell 1;
    3 * deliver 0
    => 14 ok 0 0 2 9,0 -

rejected-for-the-switch-number-goes-to-the-tail: start 2; {done}; read 5 6; deliver 0; replace 2;
    tell 1; deliver 0; remove 2; deliver 0
    => 14 ok 0 0 - - -

context-by-a-new-switch-where-only-the-old-is-permitted: start 2; write 5 9; 2 * deliver 0;
    advance 2; replace 2; deliver 1; read 5 6; deliver 1; deliver 1; remove 2; deliver 1
    => 12 ok 1 0 2 9,0 -

context-where-the-new-switch-is-not-permitted-yet: start 2; {done}; read 5 6; deliver 0;
    replace 2; 2 * deliver 0
    => 12 ok 0 0 2 9,0 -

rejected-context-goes-to-the-tail-of-that-moment: start 2; {done}; read 5 6; deliver 0; write 6 8;
    2 * deliver 1; remove 2; 3 * deliver 0
    => 16 ok 0 1 2 9,8 -

let marked: start 2; {done}; write 7 8; deliver 0

only-the-first-object-is-marked: {marked}; read 7 6 5; deliver 1; remove 2; deliver 1
    => 13 ok 1 1 - - -

only-the-object-between-is-marked: {marked}; read 5 7 6; deliver 1; remove 2; deliver 1
    => 13 ok 1 1 - - -

only-the-last-object-is-marked: {marked}; read 5 6 7; deliver 1; remove 2; deliver 1
    => 13 ok 1 1 - - -

only-another-object-is-marked: {marked}; read 5 6; deliver 1; remove 2; 2 * deliver 1
    => 14 ok 1 1 3 9,0 -

only-the-eighth-object-is-marked: {marked}; read 1 2 3 4 5 6 8 7; deliver 1; remove 2; deliver 1
    => 13 ok 1 1 - - -

mark-of-another-object-in-the-slots-of-a-context: start 2; {done}; write 16 1; deliver 0;
    read 0 32; deliver 1; remove 2; 2 * deliver 1
    => 14 ok 1 1 3 0,0 -

context-with-a-mark-in-the-third-stage: start 2; {done}; write 16 1; deliver 0; write 512 2;
    deliver 1; write 32 3; deliver 2; write 17 4; deliver 3; write 33 5; deliver 4; write 256 6;
    deliver 5; read 5 256; deliver 6; remove 2; deliver 6
    => 23 ok 6 6 - - -

context-with-an-overtaken-mark-goes-directly: start 2; write 5 1; deliver 0; write 6 2;
    2 * deliver 1; advance 2; deliver 2; read 5 6; deliver 2; remove 2; 2 * deliver 2
    => 13 ok 2 0 3 0,2 -

context-with-direct-reads-off: start 2; read 5 6; deliver 0; remove 2; deliver 0
    => 5 ok 0 0 - - -

context-after-the-switch-is-replaced: start 2; {done}; {told}; read 5 6; deliver 0; remove 2;
    deliver 0
    => 14 ok 0 0 - - -

context-after-a-late-completion: start 2; write 5 9; 2 * deliver 0; advance 2; {told}; deliver 1;
    read 5 6; deliver 1; remove 2; 2 * deliver 1
    => 14 no 7

normal-context-past-a-new-switch: start 2; read 5 6; deliver 0; replace 2; 2 * deliver 0
    => 6 ok 0 0 1 0,0 -

normal-context-is-not-old: {marked}; deliver 0; read 5 6 7; 3 * deliver 0
    => 14 ok 0 1 3 9,0,0 -

normal-context-is-not-new: {marked}; deliver 0; read 7 5; deliver 0; advance 2; deliver 0;
    deliver 2
    => 15 ok 2 1 3 8,9 -

normal-context-of-a-marked-object-with-direct-reads-off: start 2; write 5 9; deliver 0; read 5 6;
    3 * deliver 1
    => 7 ok 1 1 2 0,0 -

choice-means-nothing-for-a-normal-context: start 3; read 5 6; deliver 0 1; remove 2; deliver 0 9;
    deliver 0 7
    => 6 ok 0 0 1 0,0 -

tail-removed-with-a-normal-context: start 3; read 5 6; deliver 0; remove 3; deliver 0
    => 5 ok 0 0 - - -

tail-removed-with-a-normal-context-leaves-it-open: start 3; read 5 6; deliver 0; remove 3;
    deliver 0; give up 1
    => 6 ok 0 0 - - -

tail-removed-with-a-rejected-context: start 3; write 5 9; 2 * deliver 0; advance 2; advance 3;
    2 * deliver 0; read 5 6; deliver 0; write 6 8; 2 * deliver 1; deliver 0; remove 3; deliver 0
    => 16 ok 0 1 - - -

let three: start 1; write 1 11; 4 * deliver 0; write 2 22; 4 * deliver 0; write 3 33;
    4 * deliver 0

values-in-the-order-given-descending: {three}; read 3 2 1; 3 * deliver 0
    => 20 ok 0 0 4 33,22,11 -

values-in-the-order-given-ascending: {three}; read 1 2 3; 3 * deliver 0
    => 20 ok 0 0 4 11,22,33 -

values-in-the-order-given-mixed: {three}; read 2 3 4 1; 3 * deliver 0
    => 20 ok 0 0 4 22,33,0,11 -

values-in-the-order-given-by-the-tail: {three}; write 2 5; deliver 0; read 3 2 1; 3 * deliver 1
    => 22 ok 1 1 5 33,22,11 -

same-value-in-two-objects: start 1; write 1 7; 4 * deliver 0; write 2 7; 4 * deliver 0;
    read 2 3 1; 3 * deliver 0
    => 15 ok 0 0 3 7,0,7 -

let copies: start 1; read 5 6; deliver 0; repeat 0; deliver 0; write 6 9; 2 * deliver 2; deliver 0

two-context-copies-the-first-answer-finishes: {copies}; deliver 0 => 10 ok 3 1 1 0,0 -

two-context-copies-the-second-answer-finishes: {copies}; deliver 3 => 10 ok 3 1 1 0,9 -

two-context-copies-the-second-is-ignored: {copies}; deliver 0; deliver 2 => 11 ok 2 1 - - -

two-context-copies-the-first-is-ignored: {copies}; deliver 3; deliver 0 => 11 ok 2 1 - - -

let answered: start 1; read 5 6; 2 * deliver 0; repeat 0; write 6 9; 2 * deliver 2

repeated-answer-of-a-context-says-the-same: {answered}; deliver 1 => 9 ok 3 1 1 0,0 -

repeated-answer-of-a-context-is-ignored: {answered}; 2 * deliver 0 => 10 ok 2 1 - - -

let at-the-switch: start 2; read 5 6; repeat 0; deliver 0; deliver 1; write 6 9; 2 * deliver 2;
    advance 2; deliver 3; deliver 0; deliver 2

repeated-at-the-switch-the-direct-one-finishes: {at-the-switch}; deliver 2 => 13 ok 2 0 1 0,9 -

repeated-at-the-switch-the-normal-one-finishes: {at-the-switch}; deliver 0 => 13 ok 2 0 1 0,0 -

repeated-at-the-switch-the-other-is-ignored: {at-the-switch}; deliver 2; deliver 0
    => 14 ok 1 0 - - -

let direct-copies: start 2; {done}; read 5 6; deliver 0; repeat 0; deliver 0; write 6 8;
    2 * deliver 2; deliver 0; advance 2; deliver 1

one-direct-copy-is-answered-one-rejected: {direct-copies}; deliver 3 => 18 ok 3 1 2 9,8 -

the-answered-direct-copy-comes-first: {direct-copies}; deliver 0 => 18 ok 3 1 2 9,0 -

the-answered-direct-copy-is-ignored: {direct-copies}; deliver 3; deliver 0 => 19 ok 2 1 - - -

let values: start 1; write 1 11; 4 * deliver 0; write 2 22; 4 * deliver 0; write 3 33;
    4 * deliver 0; write 4 44; 4 * deliver 0; write 5 55; 4 * deliver 0; write 6 66;
    4 * deliver 0; write 7 77; 4 * deliver 0; write 8 88; 4 * deliver 0

copy-of-eight-objects-at-the-switch: {values}; read 8 7 6 5 4 3 2 1; repeat 0; lose 0;
    3 * deliver 0
    => 47 ok 0 0 9 88,77,66,55,44,33,22,11 -

copy-of-eight-objects-direct: {values}; read 8 7 6 5 4 3 2 1; deliver 0; repeat 0; lose 0;
    2 * deliver 0
    => 47 ok 0 0 9 88,77,66,55,44,33,22,11 -

copy-of-eight-objects-normal: {values}; write 1 99; deliver 0; read 8 7 6 5 4 3 2 1; deliver 1;
    repeat 1; lose 1; 2 * deliver 1
    => 49 ok 1 1 10 88,77,66,55,44,33,22,11 -

copy-of-eight-values: {values}; read 8 7 6 5 4 3 2 1; 2 * deliver 0; repeat 0; lose 0; deliver 0
    => 47 ok 0 0 9 88,77,66,55,44,33,22,11 -

context-lost-before-the-switch: start 1; read 5 6; lose 0; give up 1 => 4 ok 0 0 - - -

context-lost-before-the-tail: start 1; read 5 6; deliver 0; lose 0; give up 1 => 5 ok 0 0 - - -

answer-of-a-context-lost: start 1; read 5 6; 2 * deliver 0; lose 0; give up 1 => 6 ok 0 0 - - -

lost-context-finishes-by-its-copy: start 1; read 5 6; repeat 0; lose 0; 3 * deliver 0
    => 7 ok 0 0 1 0,0 -

context-given-up: start 1; read 5 6; give up 1; 3 * deliver 0 => 6 ok 0 0 - - -

context-given-up-after-the-answer: start 1; read 5 6; 2 * deliver 0; give up 1; deliver 0
    => 6 ok 0 0 - - -

direct-context-given-up-after-the-answer: start 2; {done}; read 5 6; 2 * deliver 0; give up 2;
    deliver 0
    => 12 ok 0 0 - - -

rejected-context-given-up-after-the-answer: start 2; {done}; read 5 6; deliver 0; write 6 8;
    2 * deliver 1; 2 * deliver 0; give up 2; deliver 0
    => 16 ok 0 1 - - -

context-finished-is-not-open: start 1; read 5 6; 3 * deliver 0; give up 1 => 6 no 13

let in-flight: start 1; read 5 6; read 6 7; deliver 0; deliver 1; write 6 9; 2 * deliver 2;
    deliver 0; deliver 3

two-contexts-the-later-finishes-first: {in-flight}; deliver 3 => 11 ok 3 1 2 9,0 -

two-contexts-the-earlier-finishes-with-the-earlier-value: {in-flight}; deliver 3; deliver 0
    => 12 ok 2 1 1 0,0 -

sixty-four-copies-of-a-context: start 1; read 5 6; 63 * repeat 0; 129 * deliver 0
    => 194 ok 63 0 1 0,0 -

sixty-four-copies-all-delivered: start 1; read 5 6; 63 * repeat 0; 192 * deliver 0
    => 257 ok 0 0 - - -

sixty-five-copies-are-too-many: start 1; read 5 6; 64 * repeat 0 => 66 no 6

sixty-four-direct-copies-of-eight-objects: start 2; {done}; read 1 2 3 4 5 6 7 8; deliver 0;
    63 * repeat 0; 65 * deliver 0
    => 137 ok 63 0 2 0,0,0,0,9,0,0,0 -

sixty-one-copies-and-a-write-among-them: start 1; read 5 6; 60 * repeat 0; 91 * deliver 0;
    write 6 9; 2 * deliver 61; 31 * deliver 0; deliver 62
    => 188 ok 62 1 1 0,9 -

let eight: write 1 4294967295; 4 * deliver 0; write 2 4294967295; 4 * deliver 0;
    write 3 4294967295; 4 * deliver 0; write 4 4294967295; 4 * deliver 0;
    write 5 4294967295; 4 * deliver 0; write 6 4294967295; 4 * deliver 0;
    write 7 4294967295; 4 * deliver 0; write 8 4294967295; 4 * deliver 0

eight-values-of-ten-digits: start 1; {eight}; read 1 2 3 4 5 6 7 8; 3 * deliver 0
    => 45 ok 0 0 9 4294967295,4294967295,4294967295,4294967295,4294967295,4294967295,4294967295,4294967295 -

longest-line: start 1; 1000 * (read 7; 3 * deliver 0); {eight};
    write 32 1; deliver 0; write 33 1; deliver 1; write 34 1; deliver 2; write 35 1; deliver 3;
    write 36 1; deliver 4; write 37 1; deliver 5; write 38 1; deliver 6; write 39 1; deliver 7;
    write 40 1; deliver 8; write 41 1; deliver 9; write 42 1; deliver 10; write 43 1; deliver 11;
    6000 * tell 1; read 8 7 6 5 4 3 2 1; 3 * deliver 12
    => 10069 ok 12 12 1021 4294967295,4294967295,4294967295,4294967295,4294967295,4294967295,4294967295,4294967295 -

let torn: start 1; read 5; read 6; read 5 6; deliver 0; deliver 2; write 5 1; 4 * deliver 3;
    deliver 1; deliver 2; write 6 2; 4 * deliver 3; deliver 0; deliver 2

single-reads-at-two-points-the-later: {torn}; deliver 2 => 21 ok 2 0 2 2 -

single-reads-at-two-points-the-earlier: {torn}; deliver 2; deliver 0 => 22 ok 1 0 1 0 -

context-at-one-point-beside-single-reads-at-two: {torn}; deliver 2; 2 * deliver 0
    => 23 ok 0 0 3 1,0 -
";
