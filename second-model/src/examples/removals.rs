//! Removing the head, the tail, and one between, with writes in the links.

pub(super) const TABLE: &str = "
let three: start 3; write 5 1; 2 * deliver 0; advance 2; write 6 2; 2 * deliver 0

head-removed-loses-its-link: {three}; remove 1; advance 2 => 10 no 10

head-removed-keeps-the-next-link: {three}; remove 1; advance 3; deliver 0 => 11 ok 1 2 1 1 -

head-removed-second-takes-writes: start 2; remove 1; write 5 9; 3 * deliver 0 => 6 ok 1 1 1 9 -

tail-removed-empties-its-link: {three}; remove 3; 2 * advance 2 => 11 no 10

tail-removed-new-tail-replies: {three}; remove 3; advance 2; deliver 0 => 11 ok 1 2 2 2 -

tail-removed-its-writes-get-no-reply: {three}; remove 3; deliver 0 => 10 no 7

tail-removed-its-writes-are-visible: {three}; remove 3; read 5; 3 * deliver 0
    => 13 ok 0 2 3 1 new

tail-removed-other-writes-are-not-visible: {three}; remove 3; read 6; 3 * deliver 0
    => 13 ok 0 2 3 0 old

tail-of-two-removed-leaves-a-lone-replica: start 2; write 5 1; 2 * deliver 0; remove 2; read 5;
    3 * deliver 0
    => 9 ok 0 1 2 1 new

left-alone-acts-as-tail: start 2; write 5 1; deliver 0; remove 2; 2 * deliver 0
    => 6 ok 1 1 1 1 -

removed-down-to-the-last: start 8; remove 4; remove 1; remove 8; remove 2; remove 7; remove 3;
    remove 6; remove 5
    => 9 no 12

let removed: {three}; remove 2

middle-removed-joins-links: {removed}; 2 * advance 3; deliver 0; deliver 1 => 13 ok 2 2 2 2 -

middle-removed-outgoing-writes-first: {removed}; advance 3; deliver 0 => 11 ok 1 2 1 1 -

trap-middle-links-are-not-emptied: {removed}; advance 3 => 10 ok 2 2 - - -

middle-removed-leaves-two-writes-no-more: {removed}; 3 * advance 3 => 12 no 10

middle-removed-later-write-stays-the-later: start 3; write 5 1; 2 * deliver 0; advance 2;
    write 5 2; 2 * deliver 0; remove 2; 2 * advance 3; read 5; 3 * deliver 4
    => 15 ok 4 1 3 2 new

two-middles-removed: start 4; write 5 1; 2 * deliver 0; advance 2; advance 3; write 6 2;
    2 * deliver 0; advance 2; write 7 3; 2 * deliver 0; remove 2; remove 3; 3 * advance 4;
    deliver 0; deliver 1; deliver 2
    => 21 ok 3 3 3 3 -
";
