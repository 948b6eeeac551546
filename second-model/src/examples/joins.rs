//! Replicas put back while traffic runs (document 02, Req 04): the copies, the
//! writes meanwhile, joins that end early, former tails, and the refusals.
//!
//! What a newcomer holds is shown by removing the others, or by the present
//! tail's answers, which are the newcomer's after the sixteenth copy.

pub(super) const TABLE: &str = "
let done: write 5 9; 2 * deliver 0; advance 2; 2 * deliver 0

let whole: join; 16 * copy

join-begins: start 2; join => 2 ok 0 0 - - -

join-first-copy: start 2; join; copy => 3 ok 0 0 - - -

join-sixteenth-copy: start 2; join; 16 * copy => 18 ok 0 0 - - -

join-seventeenth-copy: start 2; join; 17 * copy => 19 no 19

join-line-with-packets-and-marks: start 2; write 5 9; deliver 0; read 6; join => 5 ok 2 1 - - -

copy-line-with-packets-and-marks: start 2; write 5 9; deliver 0; read 6; join; copy
    => 6 ok 2 1 - - -

join-with-64-waiting: start 2; read 7; 63 * repeat 0; join => 66 ok 64 0 - - -

last-copy-with-64-waiting: start 2; read 7; 63 * repeat 0; join; 16 * copy => 82 ok 64 0 - - -

read-at-the-new-tail: start 2; {done}; {whole}; read 5; deliver 0 2; 2 * deliver 0
    => 28 ok 0 0 2 9 -

read-at-the-new-tail-alone: start 2; {done}; {whole}; remove 1; remove 2; read 5; 3 * deliver 0
    => 30 ok 0 0 2 9 -

normal-read-at-the-new-tail: start 2; {whole}; read 5; deliver 0; remove 2; 2 * deliver 0
    => 23 ok 0 0 1 0 -

copied-stamp-answers-a-direct-read: start 2; {done}; read 5; {whole}; deliver 0 2; remove 1;
    remove 2; 2 * deliver 0
    => 30 ok 0 0 2 9 -

later-write-sends-a-direct-read-at-the-new-tail-on: start 2; {done}; {whole}; read 5; deliver 0 2;
    write 5 8; 2 * deliver 1; advance 2; advance 3; deliver 0; remove 3; 2 * deliver 0;
    deliver 0
    => 36 ok 0 0 - - -

let two-writes: write 5 8; 2 * deliver 2; advance 2

let behind: replace 2; tell 1; tell 2; tell 3; deliver 1; read 5; deliver 3 2

copied-object-after-a-late-completion: start 2; write 5 9; 2 * deliver 0; advance 2;
    {two-writes}; {whole}; {behind}; deliver 3; remove 3; deliver 3
    => 36 ok 3 0 3 8 -

write-meanwhile-after-a-late-completion: start 2; write 5 9; 2 * deliver 0; advance 2; join; copy;
    {two-writes}; 15 * copy; {behind}; deliver 3; remove 3; deliver 3
    => 36 ok 3 0 3 8 -

write-of-another-object-after-a-late-completion: start 2; write 5 9; 2 * deliver 0; advance 2;
    join; copy; write 6 8; 2 * deliver 2; advance 2; 15 * copy; {behind}; 2 * deliver 3
    => 35 ok 3 0 3 9 -

stamp-of-another-object-does-not-send-a-direct-read-on: start 2; {done}; join; copy; write 6 8;
    2 * deliver 0; advance 2; 15 * copy; read 5; deliver 2 2; 2 * deliver 2
    => 32 ok 2 1 3 9 -

objects-of-the-first-and-the-last-copy: start 1; write 0 1; 4 * deliver 0; write 63 2;
    4 * deliver 0; write 64 3; 4 * deliver 0; write 960 4; 4 * deliver 0; write 1023 5;
    4 * deliver 0; {whole}; remove 1; read 0 63 64 959 960 1023; 3 * deliver 0
    => 48 ok 0 0 6 1,2,3,0,4,5 -

write-through-the-longer-chain: start 1; {whole}; write 5 9; 2 * deliver 0; advance 2; deliver 0
    => 23 ok 1 1 1 9 -

old-tail-passes-on-and-does-not-reply: start 2; {whole}; write 5 9; 2 * deliver 0; advance 2
    => 22 ok 0 1 - - -

the-new-tail-replies: start 2; {whole}; write 5 9; 2 * deliver 0; advance 2; advance 3; deliver 0
    => 24 ok 1 1 1 9 -

former-lone-replica-passes-on: start 1; write 5 9; deliver 0; {whole}; deliver 0
    => 21 ok 0 1 - - -

new-tail-has-an-empty-link: start 2; write 5 9; 2 * deliver 0; {whole}; advance 3 => 22 no 10

old-link-stays-with-the-old-tail: start 2; write 5 9; 2 * deliver 0; {whole}; advance 2;
    advance 3; deliver 0
    => 24 ok 1 1 1 9 -

write-to-a-copied-object-reaches-the-newcomer: start 2; join; copy; {done}; 15 * copy; remove 1;
    remove 2; read 5; 3 * deliver 0
    => 30 ok 0 0 2 9 -

write-to-an-object-not-yet-copied-is-copied-later: start 2; join; copy; write 64 9; 2 * deliver 0;
    advance 2; 2 * deliver 0; 15 * copy; remove 1; remove 2; read 64; 3 * deliver 0
    => 30 ok 0 0 2 9 -

write-before-the-first-copy-is-copied: start 2; join; {done}; 16 * copy; remove 1; remove 2;
    read 5; 3 * deliver 0
    => 30 ok 0 0 2 9 -

write-of-the-last-object-copied: start 2; join; copy; write 63 9; 2 * deliver 0; advance 2;
    2 * deliver 0; 15 * copy; remove 1; remove 2; read 63; 3 * deliver 0
    => 30 ok 0 0 2 9 -

write-after-the-fifteenth-copy-to-the-last-block: start 2; join; 15 * copy; write 960 9;
    2 * deliver 0; advance 2; 2 * deliver 0; copy; remove 1; remove 2; read 960; 3 * deliver 0
    => 30 ok 0 0 2 9 -

write-after-the-fifteenth-copy-to-a-copied-object: start 2; join; 15 * copy; write 959 9;
    2 * deliver 0; advance 2; 2 * deliver 0; copy; remove 1; remove 2; read 959; 3 * deliver 0
    => 30 ok 0 0 2 9 -

second-write-to-a-copied-object-reaches-it-too: start 2; {done}; join; copy; {done}; write 5 8;
    2 * deliver 0; advance 2; 2 * deliver 0; 15 * copy; remove 1; remove 2; read 5; 3 * deliver 0
    => 42 ok 0 0 4 8 -

write-of-a-lone-replica-reaches-the-newcomer: start 1; join; copy; write 5 9; 4 * deliver 0;
    15 * copy; remove 1; read 5; 3 * deliver 0
    => 28 ok 0 0 2 9 -

write-of-a-lone-replica-copied-later: start 1; join; copy; write 500 9; 4 * deliver 0; 15 * copy;
    remove 1; read 500; 3 * deliver 0
    => 28 ok 0 0 2 9 -

write-only-at-the-head-does-not-reach-the-newcomer: start 2; join; copy; write 5 9; 2 * deliver 0;
    15 * copy; remove 1; remove 2; read 5; 3 * deliver 0
    => 27 ok 0 1 2 0 old

linked-write-reaches-the-newcomer-by-the-link: start 2; join; copy; write 5 9; 2 * deliver 0;
    15 * copy; advance 2; advance 3; remove 1; remove 2; read 5; 3 * deliver 2
    => 29 ok 2 1 2 9 new

write-during-a-join-is-answered-once: start 2; join; copy; write 5 9; 2 * deliver 0; advance 2;
    deliver 0; 15 * copy; deliver 0; deliver 0
    => 25 no 7

write-during-a-join-with-64-waiting: start 1; join; copy; write 5 9; deliver 0; read 7;
    62 * repeat 1; deliver 0
    => 69 no 6

refused-write-does-not-reach-the-newcomer: start 1; join; copy; write 5 9; deliver 0; read 7;
    62 * repeat 1; deliver 0; lose 0; 15 * copy; remove 1; read 5; 3 * deliver 63
    => 90 ok 63 1 3 0 old

newcomer-as-head-takes-the-next-write: start 2; join; copy; {done}; 15 * copy; remove 1; remove 2;
    write 5 8; 3 * deliver 0
    => 30 ok 1 1 2 8 -

stamped-write-for-a-head-removed-after-a-join: start 1; {whole}; write 5 9; deliver 0; remove 1; deliver 0
    => 22 ok 0 1 - - -

not-live-before-the-last-copy-tell: start 2; join; 15 * copy; tell 3 => 18 no 9

not-live-before-the-last-copy-advance: start 2; join; 15 * copy; advance 3 => 18 no 9

not-live-before-the-last-copy-remove: start 2; join; 15 * copy; remove 3 => 18 no 9

live-after-the-last-copy-tell: start 2; {whole}; tell 3 => 19 ok 0 0 - - -

live-after-the-last-copy-remove: start 2; {whole}; remove 3 => 19 ok 0 0 - - -

refused-removal-of-the-newcomer-leaves-the-join: start 2; join; 15 * copy; remove 3; copy; tell 3
    => 20 ok 0 0 - - -

newcomer-does-not-count-as-live-for-12: start 1; join; 15 * copy; remove 1 => 18 no 12

live-after-the-last-copy-the-other-may-go: start 1; {whole}; remove 1 => 19 ok 0 0 - - -

refused-removal-of-the-lone-replica-leaves-the-join: start 1; join; 15 * copy; remove 1; copy;
    remove 1
    => 20 ok 0 0 - - -

choice-does-not-see-the-newcomer: start 2; {done}; join; 15 * copy; read 5; deliver 0 2; remove 1;
    deliver 0
    => 27 ok 0 0 - - -

choice-sees-the-new-tail: start 2; {done}; {whole}; read 5; deliver 0 2; remove 1; 2 * deliver 0
    => 29 ok 0 0 2 9 -

read-during-a-join-goes-to-the-present-tail: start 2; join; 15 * copy; read 5; 3 * deliver 0
    => 21 ok 0 0 1 0 -

let joined-after-two: start 2; join; remove 2

join-ended-by-removing-the-tail: {joined-after-two}; copy => 4 no 19

join-ended-after-fifteen-copies: start 2; join; 15 * copy; remove 2; copy => 19 no 19

next-join-after-an-ended-one: {joined-after-two}; join => 4 ok 0 0 - - -

next-newcomer-has-the-next-number: {joined-after-two}; {whole}; tell 4 => 21 ok 0 0 - - -

number-of-an-ended-join-is-used-up: {joined-after-two}; {whole}; tell 3 => 21 no 9

number-of-a-removed-tail-is-not-given-again: start 2; remove 2; {whole}; tell 2 => 20 no 9

number-after-a-removed-tail: start 2; remove 2; {whole}; tell 3 => 20 ok 0 0 - - -

copies-start-again-after-an-ended-join: start 2; join; 15 * copy; remove 2; join; copy; tell 4
    => 21 no 9

copies-of-an-ended-join-are-forgotten: start 2; {done}; join; copy; remove 2; join; write 5 8;
    4 * deliver 0; 16 * copy; remove 1; read 5; 3 * deliver 0
    => 37 ok 0 0 3 8 -

write-after-an-ended-join: start 2; join; copy; remove 2; write 5 9; 3 * deliver 0
    => 8 ok 1 1 1 9 -

tail-s-link-is-emptied-and-the-join-ended: start 2; write 5 9; 2 * deliver 0; join; copy;
    remove 2; copy
    => 8 no 19

new-tail-removed-and-the-old-one-is-tail-again: start 2; {whole}; remove 3; write 5 9;
    2 * deliver 0; advance 2; deliver 0
    => 24 ok 1 1 1 9 -

head-removed-during-a-join: start 3; join; 8 * copy; remove 1; 8 * copy; tell 4
    => 20 ok 0 0 - - -

head-removed-during-a-join-its-writes-are-lost: start 2; join; copy; write 5 9; 2 * deliver 0;
    remove 1; 15 * copy; advance 3
    => 23 no 10

head-of-two-removed-the-lone-one-goes-on-copying: start 2; join; copy; remove 1; write 5 9;
    4 * deliver 0; 15 * copy; remove 2; read 5; 3 * deliver 0
    => 29 ok 0 0 2 9 -

middle-removed-during-a-join: start 3; join; 8 * copy; remove 2; 8 * copy; tell 4
    => 20 ok 0 0 - - -

middle-removed-during-a-join-its-writes-stay: start 3; join; copy; write 5 9; 2 * deliver 0;
    advance 2; write 6 8; 2 * deliver 0; remove 2; 2 * advance 3; 15 * copy; remove 1; remove 3;
    read 5 6; 3 * deliver 4
    => 34 ok 4 2 3 9,8 -

tail-of-three-removed-during-a-join: start 3; join; 8 * copy; remove 3; copy => 12 no 19

former-tail-is-now-in-the-middle: start 2; {whole}; write 5 9; 2 * deliver 0; advance 2; remove 2;
    advance 3; deliver 0
    => 25 ok 1 1 1 9 -

let former: start 2; read 5; deliver 0; {whole}

normal-read-at-a-former-tail-is-sent-on: {former}; deliver 0 => 21 ok 1 0 - - -

normal-read-at-a-former-tail-is-not-answered-there: {former}; 2 * deliver 0 => 22 ok 1 0 - - -

normal-read-at-a-former-tail-is-answered-by-the-new-one: {former}; 3 * deliver 0
    => 23 ok 0 0 1 0 -

normal-read-sent-on-is-for-the-present-tail: {former}; deliver 0; remove 3; deliver 0
    => 23 ok 0 0 - - -

normal-read-sent-on-past-the-former-tail-removed: {former}; deliver 0; remove 2; 2 * deliver 0
    => 24 ok 0 0 1 0 -

normal-read-at-a-former-tail-that-is-gone: {former}; remove 2; deliver 0 => 22 ok 0 0 - - -

normal-read-at-a-former-tail-that-is-tail-again: {former}; remove 3; 2 * deliver 0
    => 23 ok 0 0 1 0 -

normal-read-sent-on-twice: {former}; {whole}; deliver 0; {whole}; 3 * deliver 0
    => 58 ok 0 0 1 0 -

normal-read-past-two-joins-is-sent-on-once: {former}; {whole}; 3 * deliver 0 => 40 ok 0 0 1 0 -

normal-read-of-a-former-lone-replica: start 1; read 5; deliver 0; {whole}; 3 * deliver 0
    => 23 ok 0 0 1 0 -

normal-read-during-the-join-is-answered-at-once: start 2; read 5; deliver 0; join; 15 * copy;
    2 * deliver 0
    => 21 ok 0 0 1 0 -

normal-read-at-a-former-tail-with-64-waiting: start 2; read 5; deliver 0; 63 * repeat 0; {whole};
    deliver 0
    => 84 ok 64 0 - - -

copies-of-a-read-at-a-former-tail: start 2; read 5; deliver 0; repeat 0; deliver 0; {whole};
    deliver 0; deliver 1; deliver 0
    => 25 ok 1 0 1 0 -

normal-context-at-a-former-tail: start 2; {done}; write 6 8; deliver 0; read 5 6; deliver 1;
    {whole}; 3 * deliver 1
    => 31 ok 1 1 3 9,0 -

normal-context-at-a-former-tail-that-is-gone: start 2; read 5 6; deliver 0; {whole}; remove 2;
    deliver 0
    => 22 ok 0 0 - - -

rejected-direct-read-at-a-former-tail: start 2; {done}; read 5; deliver 0 1; {whole}; write 5 8;
    2 * deliver 1; advance 2; 3 * deliver 0
    => 33 ok 0 1 2 9 -

rejected-direct-read-waits-for-a-former-tail: start 2; {done}; read 5; deliver 0; write 5 8;
    2 * deliver 1; deliver 0; {whole}; 3 * deliver 0
    => 33 ok 0 1 2 9 -

direct-read-at-a-former-tail-is-answered: start 2; {done}; read 5; deliver 0 1; {whole};
    2 * deliver 0
    => 28 ok 0 0 2 9 -

stamp-carried-past-a-former-tail-is-old: start 2; write 5 9; deliver 0; read 5; deliver 1;
    {whole}; 3 * deliver 1
    => 25 ok 1 1 2 0 old

stamp-carried-past-a-former-tail-is-new: start 2; write 5 9; 2 * deliver 0; read 5; deliver 0;
    advance 2; {whole}; 2 * deliver 0; deliver 1; deliver 1
    => 28 ok 1 1 2 9 new

stamp-carried-past-a-former-tail-new-tail-has-it: start 2; write 5 9; 2 * deliver 0; read 5;
    deliver 0; {whole}; advance 2; advance 3; deliver 0; deliver 2; deliver 2
    => 28 ok 2 1 2 9 new

former-tail-has-it-the-new-one-not-yet: start 2; write 5 9; 2 * deliver 0; read 5; deliver 0;
    {whole}; advance 2; 3 * deliver 0
    => 27 ok 0 1 2 0 old

switch-replaced-during-a-join: start 2; join; 8 * copy; replace 2; tell 1; tell 2; 8 * copy;
    write 5 9; 2 * deliver 0; advance 2; advance 3; deliver 0
    => 27 ok 1 1 1 9 -

newcomer-is-not-asked-for-its-permit: start 2; join; 8 * copy; replace 2; tell 1; tell 2;
    write 5 9; 2 * deliver 0; advance 2; deliver 0
    => 18 ok 1 1 1 9 -

new-tail-is-asked-for-its-permit: start 2; replace 2; tell 1; {whole}; tell 2; write 5 9; deliver 0
    => 23 ok 0 0 - - -

new-tail-told-after-the-last-copy: start 2; replace 2; tell 1; {whole}; tell 2; tell 3; write 5 9;
    deliver 0
    => 24 ok 1 1 - - -

permit-is-the-tail-s-at-the-last-copy: start 2; join; 15 * copy; replace 2; tell 1; tell 2; copy;
    write 5 9; deliver 0
    => 23 ok 1 1 - - -

permit-is-not-the-head-s: start 2; join; 15 * copy; replace 2; tell 1; copy; tell 2; write 5 9;
    deliver 0
    => 23 ok 0 0 - - -

switch-replaced-after-the-last-copy: start 2; {whole}; replace 2; tell 1; tell 2; write 5 9;
    deliver 0
    => 23 ok 0 0 - - -

direct-read-of-an-old-switch-at-the-new-tail: start 2; {done}; read 5; replace 2; tell 1; tell 2;
    {whole}; deliver 0; 2 * deliver 0
    => 31 ok 0 0 2 9 -

direct-read-of-an-old-switch-rejected-at-the-new-tail: start 2; {done}; {whole}; read 5;
    deliver 0 2; replace 2; tell 3; deliver 0; 2 * deliver 0
    => 31 ok 0 0 2 9 -

join-with-eight-live: start 8; join => 2 no 17

join-with-seven-live: start 7; join => 2 ok 0 0 - - -

join-after-the-eighth: start 7; {whole}; join => 19 no 17

join-after-one-of-eight-is-removed: start 8; remove 8; join => 3 ok 0 0 - - -

eighth-replica-joined-has-number-9: start 8; remove 8; {whole}; tell 9 => 20 ok 0 0 - - -

eight-live-again: start 8; remove 4; {whole}; join => 20 no 17

join-during-a-join: start 2; join; join => 3 no 18

join-after-fifteen-copies: start 2; join; 15 * copy; join => 18 no 18

refused-join-takes-no-number: start 2; join; join; 16 * copy; {whole}; tell 4 => 37 ok 0 0 - - -

refused-join-leaves-the-copies: start 2; join; 15 * copy; join; copy; tell 3 => 20 ok 0 0 - - -

join-refused-with-eight-live-takes-no-number: start 8; join; remove 8; {whole}; tell 9
    => 21 ok 0 0 - - -

join-during-a-join-of-seven: start 7; join; join => 3 no 18

copy-without-a-join: start 2; copy => 2 no 19

copy-after-a-join-is-whole: start 2; {whole}; copy => 19 no 19

copy-of-a-refused-join: start 8; join; copy => 3 no 19

second-join-after-a-whole-one: start 2; {whole}; {whole}; tell 4 => 36 ok 0 0 - - -

seven-joins-to-a-lone-replica: start 1; 7 * (join; 16 * copy); tell 8 => 121 ok 0 0 - - -

eight-joins-to-a-lone-replica: start 1; 7 * (join; 16 * copy); join => 121 no 17

let numbers: start 1; each 2 to 252 by 2 (join; 16 * copy; join; remove #)

number-254-of-joins-ended-by-removing-the-tail: {numbers}; {whole}; tell 254
    => 2413 ok 0 0 - - -

number-255-of-joins-ended-by-removing-the-tail: {numbers}; {whole}; {whole}; tell 255
    => 2430 ok 0 0 - - -

join-at-number-255-that-was-ended: {numbers}; {whole}; join; remove 254; join => 2415 no 17

join-at-number-255-under-way: {numbers}; {whole}; join; join => 2414 no 17

join-at-number-255-under-way-goes-on: {numbers}; {whole}; join; join; 16 * copy; tell 255
    => 2431 ok 0 0 - - -

join-at-number-255-live: {numbers}; {whole}; {whole}; join => 2430 no 17

join-at-number-255-removed: {numbers}; {whole}; {whole}; remove 255; join => 2431 no 17

join-at-number-254-given: {numbers}; {whole}; join => 2413 ok 0 0 - - -

numbers-of-whole-joins-up-to-255: start 8; each 1 to 247 by 1 (remove #; join; 16 * copy); remove 248;
    join
    => 4449 no 17

write-through-the-last-number: {numbers}; {whole}; {whole}; write 5 9; 2 * deliver 0;
    advance 254; advance 255; deliver 0
    => 2435 ok 1 1 1 9 -

join-length-1: start 2; bytes 12 0 1 0; join => 2 no 1

join-length-2: start 2; bytes 12 0 2 0 0; join => 2 no 1

join-length-256-is-not-0: start 2; bytes 12 1 0; 256 * bytes 0 => 2 no 1

join-length-65535: start 2; bytes 12 255 255; 600 * bytes 0 => 2 no 1

join-cut: start 2; bytes 12 0 => 2 no 1

join-cut-after-the-tag: start 2; bytes 12 => 2 no 1

join-before-the-start: join; start 2 => 1 no 1

copy-length-1: start 2; join; bytes 13 0 1 0; copy => 3 no 1

copy-length-256-is-not-0: start 2; join; bytes 13 1 0; 256 * bytes 0 => 3 no 1

copy-cut: start 2; join; bytes 13 0 => 3 no 1

copy-before-the-start: copy; start 2 => 1 no 1

length-tested-before-the-refusals-of-a-join: start 8; bytes 12 0 1 0 => 2 no 1

tag-14-is-unknown: start 2; bytes 14 0 0 => 2 no 23

refused-copies-up-to-65536-bytes: start 1; 21844 * copy => 21845 no 19
";
