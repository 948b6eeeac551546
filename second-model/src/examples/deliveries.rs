//! Each delivery rule and each way it drops, the choice, direct reads, and
//! switch replacement (P1, P6, P11 and three of the traps).

pub(super) const TABLE: &str = "
lone-replica-replies-at-once: start 1; write 5 9; 4 * deliver 0 => 6 ok 0 0 - - -

reply-comes-before-completion: start 1; write 5 9; 2 * deliver 0; deliver 1; deliver 0
    => 6 ok 0 0 1 9 -

largest-value: start 1; write 5 4294967295; 3 * deliver 0 => 5 ok 1 1 1 4294967295 -

value-0: start 1; write 5 0; 3 * deliver 0 => 5 ok 1 1 1 0 -

chain-of-three-replies-from-the-third: start 3; write 5 9; 2 * deliver 0; advance 2; advance 3;
    deliver 0
    => 7 ok 1 1 1 9 -

stamp-not-above-the-highest: start 2; write 5 1; deliver 0; write 6 2; 2 * deliver 1; deliver 0;
    2 * advance 2
    => 9 no 10

repeated-write-is-applied-once: start 2; write 5 1; deliver 0; repeat 0; 2 * deliver 0;
    2 * advance 2
    => 8 no 10

stamped-write-to-a-replica-gone: start 2; write 5 1; deliver 0; remove 1; deliver 0; read 5;
    3 * deliver 0
    => 9 ok 0 1 2 0 old

let full-links: start 2; 64 * (write 0 1; deliver 0; deliver 0); give up 1

let drain: advance 2; lose 0; lose 0

links-with-64-drop-a-write: {full-links}; write 0 2; 2 * deliver 0; 64 * ({drain}); advance 2
    => 390 no 10

links-with-63-take-a-write: {full-links}; {drain}; write 0 2; 2 * deliver 0; 64 * ({drain})
    => 392 ok 0 1 - - -

no-permit-for-a-new-switch: start 2; replace 2; write 5 9; deliver 0 => 4 ok 0 0 - - -

one-permit-of-two: start 2; replace 2; tell 1; write 5 9; deliver 0 => 5 ok 0 0 - - -

let told: replace 2; tell 1; tell 2

all-permits: start 2; {told}; write 5 9; deliver 0 => 6 ok 1 1 - - -

permit-of-an-earlier-switch-only: start 1; replace 2; tell 1; replace 3; write 5 9; deliver 0
    => 6 ok 0 0 - - -

one-without-permit-is-removed: start 2; replace 2; tell 1; remove 2; write 5 9; deliver 0
    => 6 ok 1 1 - - -

reads-need-no-permit: start 2; replace 2; read 5; 3 * deliver 0 => 6 ok 0 0 1 0 -

write-under-way-when-the-switch-is-replaced: start 1; write 5 9; deliver 0; replace 2;
    2 * deliver 0
    => 6 ok 1 0 1 9 -

read-of-an-object-never-written: start 2; read 5; 3 * deliver 0 => 5 ok 0 0 1 0 -

direct-reads-off-at-the-start: start 2; read 5; deliver 0; remove 2; deliver 0 => 5 ok 0 0 - - -

normal-read-to-a-replica-gone: start 3; read 5; deliver 0; remove 3; deliver 0 => 5 ok 0 0 - - -

tail-does-not-show-what-is-in-the-link: start 2; write 5 9; 2 * deliver 0; read 5; 3 * deliver 0
    => 8 ok 0 1 2 0 old

repeated-read-answers-twice: start 1; read 5; repeat 0; 6 * deliver 0 => 9 ok 0 0 - - -

let done: write 5 9; deliver 0; deliver 0; advance 2; deliver 0; deliver 0

let next: write 5 8; deliver 1; deliver 1

marked-object-is-read-at-the-tail: start 2; {done}; write 5 8; deliver 0; read 5; deliver 1;
    remove 2; deliver 1
    => 13 ok 1 1 - - -

p6-direct-read-with-an-equal-stamp: start 2; 4 * ({done}); read 5; 3 * deliver 0
    => 29 ok 0 0 5 9 -

p6-direct-read-with-a-lower-stamp: start 2; 3 * ({done}); read 5; deliver 0; {next}; 3 * deliver 0
    => 27 ok 0 1 4 9 -

direct-read-answered-at-the-head: start 2; {done}; read 5; deliver 0; remove 2; 2 * deliver 0
    => 12 ok 0 0 2 9 -

direct-read-to-a-replica-gone: start 2; {done}; read 5; deliver 0; remove 1; deliver 0
    => 11 ok 0 0 - - -

direct-read-of-an-object-never-written: start 2; {done}; read 6; 3 * deliver 0
    => 11 ok 0 0 2 0 -

direct-read-sent-on-to-the-tail: start 2; {done}; read 5; deliver 0; {next}; deliver 0; remove 1;
    2 * deliver 0
    => 16 ok 0 1 2 9 -

direct-read-sent-on-to-the-tail-of-that-moment: start 2; {done}; read 5; deliver 0; {next};
    remove 2; 3 * deliver 0
    => 16 ok 0 1 2 8 -

trap-highest-stamp-in-place-of-the-object-s: start 2; {done}; read 5; deliver 0; write 6 8;
    2 * deliver 1; 2 * deliver 0
    => 14 ok 0 1 2 9 -

direct-read-of-an-old-switch-number: start 2; {done}; read 5; deliver 0; replace 2; tell 1;
    deliver 0; remove 2; deliver 0
    => 14 ok 0 0 - - -

direct-read-where-the-new-switch-is-not-permitted-yet: start 2; {done}; read 5; deliver 0;
    replace 2; 2 * deliver 0
    => 12 ok 0 0 2 9 -

read-by-a-new-switch-where-only-the-old-is-permitted: start 2; write 5 9; 2 * deliver 0;
    advance 2; replace 2; deliver 1; read 5; deliver 1; deliver 1; remove 2; deliver 1
    => 12 ok 1 0 2 9 -

repeated-direct-read: start 2; {done}; read 5; deliver 0; repeat 0; 4 * deliver 0
    => 14 ok 0 0 - - -

let four: start 4; write 5 9; 2 * deliver 0; advance 2; advance 3; advance 4; 2 * deliver 0;
    remove 3; read 5

p11-choice-5-of-1-2-4-is-replica-4: {four}; deliver 0 5; remove 4; deliver 0 => 14 ok 0 0 - - -

p11-choice-5-is-not-replica-2: {four}; deliver 0 5; remove 2; 2 * deliver 0 => 15 ok 0 0 2 9 -

choice-3-of-1-2-4-is-replica-1: {four}; deliver 0 3; remove 1; deliver 0 => 14 ok 0 0 - - -

choice-4-of-1-2-4-is-replica-2: {four}; deliver 0 4; remove 2; deliver 0 => 14 ok 0 0 - - -

choice-255-of-1-2-4-is-replica-1: {four}; deliver 0 255; remove 1; deliver 0 => 14 ok 0 0 - - -

choice-means-nothing-for-a-normal-read: start 3; read 5; deliver 0 1; remove 2; deliver 0 9;
    deliver 0 7
    => 6 ok 0 0 1 0 -

replace-turns-direct-reads-off: start 2; {done}; {told}; read 5; deliver 0; remove 2; deliver 0
    => 14 ok 0 0 - - -

read-after-a-late-completion-of-another-object: start 2; write 5 9; 2 * deliver 0; advance 2;
    write 6 8; 2 * deliver 2; advance 2; deliver 3; {told}; deliver 1; read 6; 2 * deliver 2;
    remove 2; deliver 2
    => 19 ok 2 0 3 8 -

let late: start 2; write 5 9; 2 * deliver 0; advance 2; {told}

late-completion-of-an-old-switch: {late}; deliver 1; read 5; deliver 1; remove 2; 2 * deliver 1
    => 14 no 7

late-completion-leaves-the-new-mark: {late}; write 5 8; deliver 2; deliver 1 => 11 ok 2 1 - - -

p1-low-counter-of-a-new-switch-is-above: start 2; 3 * ({done}); {told}; write 5 8; 2 * deliver 0;
    advance 2; deliver 0
    => 27 ok 1 1 4 8 -

trap-counters-without-switch-numbers: start 2; 2 * ({done}); write 6 7; 2 * deliver 0; advance 2;
    {told}; write 5 8; deliver 2; deliver 1
    => 23 ok 2 1 - - -

stamped-write-of-an-old-switch-is-too-late: start 1; write 5 1; deliver 0; replace 2; tell 1;
    write 5 2; 2 * deliver 1; deliver 0; read 5; 3 * deliver 2
    => 13 ok 2 1 3 2 new

stamped-write-of-an-old-switch-is-in-time: start 1; write 5 1; deliver 0; replace 2; tell 1;
    write 5 2; deliver 1; 2 * deliver 0; read 5; 3 * deliver 4
    => 13 ok 4 1 3 2 new
";
