//! The marks: slots, counting or not, completions (P4, P5, P7, P8).
//!
//! Each write is delivered to the switch and then waits at the head, so that
//! the n-th of them stands at position n - 1.

pub(super) const TABLE: &str = "
let p4: start 1; write 16 1; deliver 0; write 512 2; deliver 1; write 32 3; deliver 2;
    write 17 4; deliver 3; write 33 5; deliver 4

p4-five-marks: {p4} => 11 ok 5 5 - - -

p4-no-slot-for-object-0: {p4}; write 0 6; deliver 5 => 13 ok 5 5 - - -

p5-object-256-takes-the-third-stage: {p4}; write 256 6; deliver 5 => 13 ok 6 6 - - -

p5-slot-4-is-then-taken-for-object-257: {p4}; write 256 6; deliver 5; write 257 7; deliver 6
    => 15 ok 6 6 - - -

third-stage-slot-8-is-not-slot-0: {p4}; write 545 6; deliver 5 => 13 ok 6 6 - - -

trap-no-write-without-a-mark: {p4}; write 0 6; deliver 5; give up 6; 4 * (lose 0); deliver 0;
    deliver 0
    => 20 ok 1 5 5 5 -

dropped-write-gets-a-slot-once-one-is-free: {p4}; write 0 6; deliver 5; deliver 0; deliver 5;
    write 0 7; deliver 5
    => 17 ok 6 5 - - -

marked-again-keeps-one-slot: start 1; write 5 1; deliver 0; write 5 2; deliver 1
    => 5 ok 2 1 - - -

marked-object-needs-no-free-slot: {p4}; write 33 6; deliver 5 => 13 ok 6 5 - - -

trap-earlier-free-slot-while-a-later-one-holds-it: start 1; write 16 1; deliver 0; write 0 2;
    deliver 1; deliver 0; deliver 2; write 0 3; deliver 2
    => 9 ok 3 1 - - -

let overtaken: start 1; write 16 1; deliver 0; write 512 2; deliver 1; write 5 3; deliver 2;
    2 * deliver 1; deliver 4

overtaken-marks-do-not-count: {overtaken} => 10 ok 4 0 - - -

overtaken-mark-is-found-again: {overtaken}; write 512 1; deliver 4; write 16 1; deliver 5;
    write 32 1; deliver 6; write 17 1; deliver 7; write 33 1; deliver 8; write 0 1; deliver 9
    => 22 ok 9 5 - - -

completion-empties-an-overtaken-mark: {overtaken}; deliver 2; write 512 1; deliver 3; write 16 1;
    deliver 4; write 32 1; deliver 5; write 17 1; deliver 6; write 33 1; deliver 7; write 0 1;
    deliver 8
    => 23 ok 9 6 - - -

overtaken-mark-gives-its-slot-away: start 1; write 16 1; deliver 0; write 5 2; deliver 1;
    deliver 1; deliver 2; write 32 3; deliver 2; write 16 4; deliver 3
    => 11 ok 4 2 - - -

let four: start 1; write 5 1; deliver 0; write 5 2; deliver 1; write 5 3; deliver 2; write 5 4;
    deliver 3

p7-lower-completion-leaves-the-mark: {four}; deliver 2; deliver 4 => 11 ok 4 1 - - -

equal-completion-clears-the-mark: {four}; deliver 3; deliver 4 => 11 ok 4 0 - - -

let seven: start 1; write 1 1; deliver 0; write 2 1; deliver 1; write 3 1; deliver 2; write 5 1;
    deliver 3; write 6 1; deliver 4; write 7 1; deliver 5; write 9 1; deliver 6

p8-completion-of-another-object: {seven}; deliver 6; deliver 7 => 17 ok 7 0 - - -

completion-leaves-later-marks: {seven}; deliver 2; deliver 7 => 17 ok 7 4 - - -

older-completion-does-not-lower-last-committed: {seven}; deliver 2; deliver 5; deliver 8; deliver 6
    => 19 ok 7 0 - - -

replace-forgets-the-marks: {seven}; replace 2 => 16 ok 7 0 - - -
";
