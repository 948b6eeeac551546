//! Reads that go round a pending write, and the last field of their lines
//! (document 02, Req 01).
//!
//! In a run every mark counts while direct reads are off, so a mark that
//! last-committed has overtaken is shown with direct reads on, and one that a
//! new switch has forgotten with them off.

pub(super) const TABLE: &str = "
let done: write 5 9; 2 * deliver 0; advance 2; 2 * deliver 0

let linked: start 2; write 5 9; 2 * deliver 0

let told: replace 2; tell 1; tell 2

old-with-direct-reads-on: start 2; {done}; write 5 8; 2 * deliver 0; read 5; 3 * deliver 0
    => 14 ok 0 1 3 9 old

new-with-direct-reads-on: start 2; {done}; write 5 8; 2 * deliver 0; read 5; deliver 0; advance 2;
    deliver 0; deliver 2
    => 15 ok 2 1 3 8 new

old-with-direct-reads-off: start 2; write 5 9; deliver 0; read 5; 3 * deliver 1
    => 7 ok 1 1 2 0 old

new-with-direct-reads-off: {linked}; read 5; deliver 0; advance 2; deliver 0; deliver 2
    => 9 ok 2 1 2 9 new

overtaken-mark-is-not-carried: start 1; write 5 1; deliver 0; write 6 2; 2 * deliver 1; deliver 2;
    read 5; 3 * deliver 2
    => 11 ok 2 0 3 0 -

forgotten-mark-is-not-carried: {linked}; replace 2; read 5; 3 * deliver 0 => 9 ok 0 0 2 0 -

cleared-mark-is-still-carried: {linked}; read 5; deliver 0; advance 2; deliver 2; deliver 0;
    deliver 1
    => 10 ok 1 0 2 9 new

write-not-yet-at-the-switch-has-no-mark: start 1; write 5 9; read 5; 3 * deliver 1
    => 6 ok 1 0 2 0 -

mark-of-another-object-is-not-carried: start 1; write 16 1; deliver 0; read 0; 3 * deliver 1
    => 7 ok 1 1 2 0 -

let p4: start 1; write 16 1; deliver 0; write 512 2; deliver 1; write 32 3; deliver 2;
    write 17 4; deliver 3; write 33 5; deliver 4

mark-in-the-third-stage-is-carried: {p4}; write 256 6; deliver 5; read 256; 3 * deliver 6
    => 17 ok 6 6 7 0 old

write-without-a-slot-is-not-gone-round: {p4}; write 0 6; deliver 5; read 0; 3 * deliver 5
    => 17 ok 5 5 7 0 -

rejected-direct-read-carries-nothing: start 2; {done}; read 5; deliver 0; write 5 8;
    2 * deliver 1; 3 * deliver 0
    => 15 ok 0 1 2 9 -

rejected-for-its-switch-number-carries-nothing: start 2; {done}; read 5; deliver 0; {told};
    write 5 8; deliver 1; deliver 0; 2 * deliver 1
    => 17 ok 1 1 2 9 -

let copies: {linked}; read 5; deliver 0; repeat 0; deliver 0; advance 2; deliver 0

two-copies-the-old-comes-first: {copies}; deliver 0 => 11 ok 3 1 2 0 old

two-copies-the-new-comes-first: {copies}; deliver 3 => 11 ok 3 1 2 9 new

two-copies-the-other-is-ignored: {copies}; deliver 0; deliver 2 => 12 ok 2 1 - - -

let stamps: {linked}; read 5; repeat 0; deliver 0; write 5 8; deliver 2; deliver 0; advance 2;
    deliver 0; deliver 1

two-stamps-the-lower-is-new: {stamps}; deliver 3 => 14 ok 4 1 2 9 new

two-stamps-the-higher-is-old: {stamps}; deliver 4 => 14 ok 4 1 2 9 old

repeated-reply-says-the-same: {linked}; read 5; 2 * deliver 0; repeat 0; lose 0; deliver 0
    => 10 ok 0 1 2 0 old

repeated-reply-of-an-old-read-is-ignored: {linked}; read 5; 2 * deliver 0; repeat 0; 2 * deliver 0
    => 10 ok 0 1 - - -

old-reply-after-give-up-is-ignored: {linked}; read 5; 2 * deliver 0; give up 2; deliver 0
    => 9 ok 0 1 - - -

old-reply-after-the-write-has-finished: {linked}; read 5; 2 * deliver 0; advance 2; 2 * deliver 1;
    deliver 0
    => 11 ok 0 0 2 0 old

never-written-is-old: start 2; {done}; write 6 8; deliver 0; read 6; 3 * deliver 1
    => 13 ok 1 1 3 0 old

written-value-0-is-new: start 1; write 5 0; deliver 0; read 5; deliver 1; 2 * deliver 0; deliver 2
    => 8 ok 2 1 2 0 new

second-write-gives-the-stamp: {linked}; write 5 8; 2 * deliver 0; advance 2; 2 * deliver 0;
    read 5; 3 * deliver 0
    => 14 ok 0 1 3 9 old

value-above-the-stamp-is-new: {linked}; read 5; deliver 0; write 5 8; 2 * deliver 1;
    2 * advance 2; deliver 0; deliver 4
    => 13 ok 4 1 2 8 new

write-dropped-at-the-head-is-gone-round: start 1; write 5 1; deliver 0; write 6 2; 2 * deliver 1;
    deliver 0; read 5; 3 * deliver 2
    => 11 ok 2 2 3 0 old

write-lost-with-the-head: {linked}; read 5; deliver 0; remove 1; 2 * deliver 0
    => 9 ok 0 1 2 0 old

mark-of-a-lost-write-is-carried: {linked}; remove 1; read 5; 3 * deliver 0
    => 9 ok 0 1 2 0 old

write-after-a-lost-one-is-new: {linked}; read 5; deliver 0; remove 1; write 5 8; 2 * deliver 1;
    deliver 0; deliver 2
    => 12 ok 2 1 2 8 new

tail-removed-with-the-read: {linked}; read 5; deliver 0; remove 2; deliver 0
    => 8 ok 0 1 - - -

stamp-is-carried-past-a-new-switch: {linked}; read 5; deliver 0; replace 2; 2 * deliver 0
    => 9 ok 0 0 2 0 old

low-counter-of-a-new-switch-is-carried: start 2; {done}; {done}; {done}; {told}; write 5 8;
    deliver 0; read 5; 3 * deliver 1
    => 28 ok 1 1 5 9 old

low-counter-of-a-later-switch-is-new: start 2; {done}; write 5 8; deliver 0; read 5; deliver 1;
    lose 0; {told}; write 5 7; 2 * deliver 1; advance 2; deliver 0; deliver 2
    => 21 ok 2 1 3 7 new

late-completion-leaves-the-stamp: {linked}; advance 2; {told}; write 5 8; deliver 2; deliver 1;
    read 5; 3 * deliver 2
    => 15 ok 2 1 3 9 old
";
