//! A leader with followers (document 02, Req 11): its start, its log, links and
//! acknowledgements, tag 14, direct reads at followers that lag, and the order of
//! refusals 23 and 24.
//!
//! After `logged` the leader has one entry and each of two followers has it in its
//! link; after `held` one follower's acknowledgement has been delivered; after `done`
//! the write is executed and finished, and both links hold its executed stamp behind
//! what was there.

pub(super) const TABLE: &str = "
quorum-of-three: start-quorum 3; tell 3 => 2 ok 0 0 - - -

quorum-of-five: start-quorum 5; tell 5 => 2 ok 0 0 - - -

quorum-of-seven: start-quorum 7; tell 8 => 2 no 9

quorum-of-four: start-quorum 4; read 5 => 1 no 2

quorum-of-one: start-quorum 1 => 1 no 2

quorum-of-nine: start-quorum 9 => 1 no 2

quorum-start-of-two-bytes: bytes 33 0 2 3 3 => 1 no 1

quorum-behind-a-start: start 2; start-quorum 3 => 2 no 1

start-behind-a-quorum: start-quorum 3; start 2 => 2 no 1

execute-of-length-1: start-quorum 3; bytes 14 0 1 0; execute => 2 no 1

execute-before-the-start: execute; start-quorum 3 => 1 no 1

let logged: start-quorum 3; write 5 9; 2 * deliver 0

let held: {logged}; advance 2; deliver 0

let done: {held}; execute; 2 * deliver 0

write-is-logged-without-a-packet: {logged} => 4 ok 0 1 - - -

write-is-not-visible-before-it-is-executed: {held}; read 5; 3 * deliver 0 => 10 ok 0 1 2 0 old

executed-write-replies-and-completes: {held}; execute; deliver 0; deliver 0 => 9 ok 0 0 - - -

read-of-a-marked-object-finds-it-executed: {held}; execute; read 5; deliver 2; deliver 2;
    deliver 2
    => 11 ok 2 1 2 9 new

execute-with-nothing-logged: start-quorum 3; execute => 2 no 24

execute-without-a-majority: {logged}; execute => 5 no 24

logged-at-a-follower-but-not-heard-of: {logged}; advance 2; execute => 6 no 24

lost-acknowledgement-is-not-heard-of: {logged}; advance 2; lose 0; execute => 7 no 24

other-follower-makes-the-majority: {logged}; advance 2; lose 0; advance 3; deliver 0; execute
    => 9 ok 2 1 - - -

acknowledgement-repeated-is-one-follower: start-quorum 5; write 5 9; 2 * deliver 0; advance 2;
    repeat 0; 2 * deliver 0; execute
    => 9 no 24

two-followers-of-four-are-enough: start-quorum 5; write 5 9; 2 * deliver 0; advance 2; advance 4;
    2 * deliver 0; execute; deliver 0
    => 10 ok 1 1 1 9 -

three-of-seven-are-no-majority: start-quorum 7; write 5 9; 2 * deliver 0; advance 2;
    advance 3; 2 * deliver 0; execute
    => 9 no 24

three-followers-of-six-are-enough: start-quorum 7; write 5 9; 2 * deliver 0; advance 2;
    advance 3; advance 7; 3 * deliver 0; execute
    => 11 ok 2 1 - - -

later-acknowledgement-covers-earlier-entries: {logged}; write 6 8; 2 * deliver 0; 2 * advance 3;
    lose 0; deliver 0; 2 * execute
    => 13 ok 4 2 - - -

late-acknowledgement-lowers-nothing: {logged}; write 6 8; 2 * deliver 0; 2 * advance 3;
    deliver 1; deliver 0; 2 * execute
    => 13 ok 4 2 - - -

acknowledgement-covers-no-later-entry: {held}; write 6 8; 2 * deliver 0; execute; execute
    => 11 no 24

repeated-write-is-logged-once: start-quorum 3; write 5 9; deliver 0; repeat 0; 2 * deliver 0;
    2 * advance 2
    => 8 no 10

write-not-above-the-last-logged: start-quorum 3; write 5 9; deliver 0; write 6 8; deliver 1;
    deliver 1; deliver 0; 2 * advance 2
    => 9 no 10

leader-has-nothing-incoming: {logged}; advance 1 => 5 no 10

executed-stamp-brings-no-packet: {done}; advance 2 => 10 ok 0 0 - - -

follower-has-taken-all: {done}; 2 * advance 2 => 11 no 10

let full-list: start-quorum 3; write 5 9; 2 * deliver 0; read 6; 63 * repeat 0

acknowledgement-with-64-waiting: {full-list}; advance 2 => 69 no 6

acknowledgement-with-63-waiting: {full-list}; lose 9; advance 2 => 70 ok 64 1 - - -

leader-tested-before-64-waiting: {full-list}; advance 1 => 69 no 10

replica-tested-before-64-waiting: {full-list}; advance 4 => 69 no 9

let executing: {held}; execute; 62 * repeat 0

executed-stamp-taken-with-64-waiting: {executing}; advance 2 => 70 ok 64 1 - - -

entry-not-taken-with-64-waiting: {executing}; advance 3 => 70 no 6

24-tested-before-6: {logged}; read 6; 63 * repeat 0; execute => 69 no 24

execute-with-63-waiting: {held}; read 6; 62 * repeat 0; execute => 70 no 6

execute-with-62-waiting: {held}; read 6; 61 * repeat 0; execute => 69 ok 64 1 - - -

let round: write 5 1; 2 * deliver 0; advance 2; deliver 0; execute; 2 * deliver 0; advance 2

let laden: start-quorum 3; 31 * ({round}); 2 * (write 5 1; 2 * deliver 0);
    2 * (advance 2; deliver 0)

full-link-lets-nothing-be-executed: {laden}; execute => 291 no 24

room-in-the-link-lets-one-be-executed: {laden}; advance 3; deliver 0; execute
    => 293 ok 2 1 - - -

full-link-drops-a-write: start-quorum 3; 32 * ({round}); write 5 2; 2 * deliver 0; advance 2
    => 293 no 10

let entry: write 5 1; 2 * deliver 0; advance 2; lose 0; advance 3; lose 0

log-of-64-drops-a-write: start-quorum 3; 64 * ({entry}); give up 1; write 5 2; 2 * deliver 0;
    advance 2
    => 454 no 10

log-of-63-takes-a-write: start-quorum 3; 63 * ({entry}); write 5 2; 2 * deliver 0; advance 2
    => 446 ok 1 1 - - -

executing-makes-room-in-the-log: start-quorum 3; 63 * ({entry}); write 5 1; 2 * deliver 0;
    advance 2; deliver 0; advance 3; lose 0; give up 1; execute; 2 * deliver 0; write 5 2;
    2 * deliver 0; 2 * advance 2
    => 458 ok 1 1 - - -

remove-is-not-for-a-quorum: {logged}; remove 3 => 5 no 23

23-tested-before-9: start-quorum 3; remove 9 => 2 no 23

join-is-not-for-a-quorum: start-quorum 7; join => 2 no 23

copy-is-not-for-a-quorum: start-quorum 3; copy => 2 no 23

refused-join-leaves-no-newcomer: start-quorum 3; join; copy; tell 4 => 4 no 9

execute-is-not-for-a-chain: start 3; write 5 9; 2 * deliver 0; advance 2; advance 3; execute
    => 7 no 23

23-tested-before-6-in-a-chain: start 1; read 5; 63 * repeat 0; execute => 66 no 23

refused-execute-lets-a-chain-go-on: start 1; execute; write 5 9; 3 * deliver 0 => 6 ok 1 1 1 9 -

normal-read-at-the-leader: start-quorum 3; read 5; 3 * deliver 0 => 5 ok 0 0 1 0 -

direct-read-at-the-leader: {done}; read 5; 3 * deliver 0 => 13 ok 0 0 2 9 -

direct-read-at-a-follower-that-has-executed: {done}; advance 2; read 5; deliver 0 1; 2 * deliver 0
    => 14 ok 0 0 2 9 -

direct-read-at-a-follower-that-has-not: {done}; read 5; deliver 0 1; 3 * deliver 0
    => 14 ok 0 0 2 9 -

direct-read-of-an-object-never-written-is-sent-on: {done}; read 6; deliver 0 1; 3 * deliver 0
    => 14 ok 0 0 2 0 -

choice-5-of-three-is-replica-3: {done}; 2 * advance 3; read 5; deliver 1 5; 2 * deliver 1
    => 15 ok 1 0 2 9 -

let lagging: {done}; advance 2; write 6 8; 2 * deliver 0; advance 2; deliver 0; execute; read 5;
    deliver 2 1; 2 * deliver 2

lagging-follower-answers: {lagging} => 20 ok 2 1 3 9 -

lagging-follower-answers-once-and-sends-on-once: {lagging}; deliver 1; read 5; deliver 1 1;
    3 * deliver 1
    => 26 ok 1 0 4 9 -

context-answered-by-a-lagging-follower: {done}; advance 2; write 7 8; 2 * deliver 0; advance 2;
    deliver 0; execute; read 5 6; deliver 2 1; 2 * deliver 2
    => 20 ok 2 1 3 9,0 -

context-sent-on-by-a-lagging-follower: {done}; read 6 5; deliver 0 1; 3 * deliver 0
    => 14 ok 0 0 2 0,9 -

direct-read-answered-with-a-later-write: {done}; read 5; deliver 0 1; write 5 8; 2 * deliver 1;
    2 * advance 2; deliver 1; execute; advance 2; deliver 0; deliver 2
    => 21 ok 2 1 2 8 -

direct-read-of-an-old-switch-at-a-follower: {done}; advance 2; read 5; deliver 0 1; replace 2;
    tell 2; 3 * deliver 0
    => 17 ok 0 0 2 9 -

write-with-a-follower-s-permit-missing: start-quorum 3; replace 2; tell 1; tell 2; write 5 9;
    deliver 0
    => 6 ok 0 0 - - -

write-with-every-permit: start-quorum 3; replace 2; tell 1; tell 2; tell 3; write 5 9; deliver 0
    => 7 ok 1 1 - - -

write-of-a-former-switch-is-logged: start-quorum 3; write 5 9; deliver 0; replace 2; deliver 0;
    advance 2
    => 6 ok 1 0 - - -

former-switch-s-completion-over-a-quorum: {held}; execute; advance 2; deliver 0; write 5 8;
    2 * deliver 1; advance 2; deliver 1; execute; deliver 1; replace 2; tell 1; tell 2; tell 3;
    deliver 0; read 5; deliver 1 1; 2 * deliver 1
    => 25 ok 1 0 3 8 -

given-up-write-is-executed: {held}; give up 1; execute; deliver 0; read 5; 3 * deliver 1
    => 13 ok 1 1 2 9 new
";
