//! Every refusal of a step that a file can bring about, in the order of tests
//! that document 01 gives: begin 3, 5, 6; deliver 7, 6; lose 7; repeat 7, 8, 6;
//! advance 9, 10, 6; replace 11; tell 9; remove 9, 12; give up 13.

pub(super) const TABLE: &str = "
p2-object-1023-is-taken: start 1; read 1023; write 1023 1 => 3 ok 2 0 - - -

p2-object-1024-refused: start 1; read 1024; write 1024 1 => 3 no 3

refused-object-lets-the-run-go-on: start 1; read 1024; read 0 => 3 ok 1 0 - - -

object-65535-refused: start 1; write 65535 1 => 2 no 3

refused-begin-has-no-number: start 1; write 1024 7; write 5 8; 3 * deliver 0
    => 6 ok 1 1 1 8 -

same-write-begun-twice-is-two-operations: start 1; 2 * write 5 8; 6 * deliver 0; give up 2
    => 10 ok 2 1 - - -

let open: start 1; 64 * (read 7; lose 0)

sixty-fifth-open-refused: {open}; read 7 => 130 no 5

object-tested-before-open: {open}; write 1024 0 => 130 no 3

given-up-makes-room: {open}; give up 64; read 7 => 131 ok 1 0 - - -

open-tested-before-waiting: start 1; 65 * read 7 => 66 no 5

begin-with-64-waiting: start 1; read 7; 63 * repeat 0; write 7 1 => 66 no 6

object-tested-before-waiting: start 1; read 7; 63 * repeat 0; read 1024 => 66 no 3

deliver-with-none-waiting: start 1; deliver 0 => 2 no 7

deliver-past-the-last: start 1; read 7; deliver 1 => 3 no 7

deliver-position-64: start 1; read 7; 63 * repeat 0; deliver 64 => 66 no 7

deliver-position-63: start 1; read 7; 63 * repeat 0; deliver 63 => 66 ok 64 0 - - -

deliver-position-65535: start 1; read 7; deliver 65535 => 3 no 7

deliver-position-256-is-not-0: start 1; read 7; deliver 256 => 3 no 7

lose-with-none-waiting: start 1; lose 0 => 2 no 7

lose-past-the-last: start 1; read 7; lose 1 => 3 no 7

lose-moves-later-ones-down: start 1; read 1; write 2 6; read 3; lose 0; deliver 0; 2 * deliver 1
    => 8 ok 2 1 2 6 -

repeat-with-none-waiting: start 1; repeat 0 => 2 no 7

repeat-past-the-last: start 1; write 7 1; repeat 1 => 3 no 7

let reply-and-unstamped: start 1; write 0 9; 2 * deliver 0; write 1 1; 61 * repeat 0

p9-repeat-of-a-reply-with-64-waiting: {reply-and-unstamped}; repeat 0 => 67 no 6

p9-repeat-with-64-waiting: {reply-and-unstamped}; repeat 2 => 67 no 8

repeat-position-64-with-64-waiting: {reply-and-unstamped}; repeat 64 => 67 no 7

repeat-of-an-unstamped-write: start 1; write 0 9; repeat 0 => 3 no 8

repeat-of-a-stamped-write: start 1; write 0 9; deliver 0; repeat 0; 2 * deliver 0
    => 6 ok 2 1 - - -

repeated-reply-is-ignored: start 1; write 0 9; 2 * deliver 0; repeat 0; deliver 0; deliver 1
    => 7 ok 1 1 - - -

repeated-completion-changes-nothing: start 1; write 0 9; 2 * deliver 0; repeat 1; deliver 1;
    write 0 8; deliver 2; deliver 1
    => 9 ok 2 1 - - -

let lone: start 1; write 5 9; deliver 0; read 0; 62 * repeat 1

p10-lone-replica-with-64-waiting: {lone}; deliver 0 => 67 no 6

p10-lone-replica-with-63-waiting: {lone}; lose 1; deliver 0 => 68 ok 64 1 - - -

refused-deliver-changes-nothing: {lone}; deliver 0; lose 9; deliver 0; lose 9; deliver 61
    => 71 ok 62 1 1 9 -

position-tested-before-waiting: {lone}; deliver 64 => 67 no 7

other-deliveries-with-64-waiting: {lone}; deliver 63 => 67 ok 64 1 - - -

dropped-write-with-64-waiting-is-no-6: start 1; write 5 9; deliver 0; repeat 0; deliver 0;
    61 * repeat 1; deliver 0
    => 67 ok 63 1 - - -

head-of-two-with-64-waiting: start 2; write 5 9; deliver 0; read 0; 62 * repeat 1; deliver 0
    => 67 ok 63 1 - - -

advance-of-replica-0: start 2; advance 0 => 2 no 9

advance-of-a-replica-never-there: start 2; advance 3 => 2 no 9

advance-of-replica-255: start 8; advance 255 => 2 no 9

advance-of-a-replica-removed: start 2; remove 2; advance 2 => 3 no 9

advance-of-the-head: start 2; write 5 9; 2 * deliver 0; advance 1 => 5 no 10

advance-of-an-empty-link: start 2; advance 2 => 2 no 10

advance-of-the-lone-replica: start 1; advance 1 => 2 no 10

advance-past-an-empty-link: start 3; write 5 9; 2 * deliver 0; advance 3; 2 * advance 2
    => 7 no 10

let linked: start 2; write 5 9; 2 * deliver 0; read 0

advance-of-the-tail-with-62-waiting: {linked}; 61 * repeat 0; advance 2 => 67 ok 64 1 - - -

advance-of-the-tail-with-63-waiting: {linked}; 62 * repeat 0; advance 2 => 68 no 6

advance-of-the-tail-with-64-waiting: {linked}; 63 * repeat 0; advance 2 => 69 no 6

refused-advance-changes-nothing: {linked}; 62 * repeat 0; advance 2; lose 0; advance 2; deliver 62
    => 71 ok 63 1 1 9 -

advance-of-the-head-with-64-waiting: {linked}; 63 * repeat 0; advance 1 => 69 no 10

advance-of-an-empty-link-with-64-waiting: start 2; read 0; 63 * repeat 0; advance 2 => 66 no 10

advance-of-none-with-64-waiting: {linked}; 63 * repeat 0; advance 3 => 69 no 9

advance-of-a-middle-with-64-waiting: start 3; write 5 9; 2 * deliver 0; read 0; 63 * repeat 0;
    advance 2
    => 69 ok 64 1 - - -

replace-by-the-same-number: start 1; replace 1 => 2 no 11

replace-by-0: start 1; replace 0 => 2 no 11

replace-by-a-lower-number: start 1; replace 7; replace 6 => 3 no 11

replace-by-65535: start 1; replace 65535; replace 65535 => 3 no 11

replace-compares-both-bytes: start 1; replace 255; replace 256; replace 257 => 4 ok 0 0 - - -

tell-replica-0: start 2; tell 0 => 2 no 9

tell-a-replica-never-there: start 2; tell 3 => 2 no 9

tell-a-replica-removed: start 2; remove 1; tell 1 => 3 no 9

remove-a-replica-never-there: start 2; remove 3 => 2 no 9

remove-the-last-one: start 2; remove 1; remove 2 => 3 no 12

remove-one-gone-when-one-is-left: start 2; remove 1; remove 1 => 3 no 9

give-up-operation-0: start 1; read 0; give up 0 => 3 no 13

give-up-what-never-began: start 1; read 0; give up 2 => 3 no 13

give-up-twice: start 1; read 0; give up 1; give up 1 => 4 no 13

reply-after-give-up-is-ignored: start 1; read 7; 2 * deliver 0; give up 1; deliver 0
    => 6 ok 0 0 - - -
";
