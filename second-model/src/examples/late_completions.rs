//! Completions of former switches (Req 10): direct reads stay off until the present
//! switch has a completion of its own, and stay on once it had one.
//!
//! After `late` a reply and a completion of the former switch wait.

pub(super) const TABLE: &str = "
former-switch-s-completion-leaves-direct-reads-off: start 1; write 5 9; 3 * deliver 0; replace 2;
    deliver 0; read 5; 3 * deliver 0
    => 11 ok 0 0 2 9 -

let late: start 2; write 5 9; 2 * deliver 0; advance 2; replace 2; tell 1; tell 2

own-completion-turns-direct-reads-on: {late}; deliver 1; write 6 8; 2 * deliver 1; advance 2;
    deliver 2; read 5; deliver 2; remove 2; 2 * deliver 2
    => 19 ok 2 0 3 9 -

former-switch-s-completion-leaves-direct-reads-on: {late}; write 6 8; 2 * deliver 2; advance 2;
    deliver 3; deliver 1; read 5; deliver 2; remove 2; 2 * deliver 2
    => 19 ok 2 0 3 9 -

repeated-completion-of-a-former-switch: {late}; repeat 1; 2 * deliver 1; read 5; deliver 1;
    remove 2; deliver 1
    => 15 ok 1 0 - - -

completions-of-two-former-switches: {late}; write 6 8; 2 * deliver 2; advance 2; replace 3;
    tell 1; tell 2; deliver 1; deliver 2; read 5; deliver 2; remove 2; deliver 2
    => 21 ok 2 0 - - -

copy-of-a-completion-past-the-next-replacement: {late}; write 6 8; 2 * deliver 2; advance 2;
    repeat 3; deliver 3; replace 3; tell 1; tell 2; deliver 3; read 5; deliver 3; remove 2;
    deliver 3
    => 22 ok 3 0 - - -

context-after-a-completion-of-the-present-switch: {late}; deliver 1; write 6 8; 2 * deliver 1;
    advance 2; deliver 2; read 5 6; deliver 2; remove 2; 2 * deliver 2
    => 19 ok 2 0 3 9,8 -
";
