//! The event program: document 01's worked lines, refusals in their order, and what
//! makes a line unreadable.

use crate::{Script, check};
use oracle::program::{LINE_BUFFER, Program};

#[test]
fn worked_lines() {
    check(
        "open,4,1 => ok
         ann,7,wa,0,0,5 => 1
         ann,7,ta,0,0,6 => 0
         plan,0 => 1,wa,7,wa,0,0,5,none
         take,0 => wa,7,wa,0,0,5
         bad,wa,7,10 => 1
         plan,10 => 0,none",
    );
}

#[test]
fn before_an_opening() {
    check(
        "sum => no,3
         ann,0,ta,0,1,0 => no,3
         part,0 => no,3
         bad,ta,1,18446744073709551615 => no,3
         ann,1,tA,0,1,0 => no,9
         open,0,1 => no,2
         open,1,0 => no,2
         sum => no,3
         open,1,1 => ok
         open,0,1 => no,2
         sum => 0,1,1,0",
    );
}

#[test]
fn openings_on_event_lines() {
    check(
        "open,101,1 => no,9
         open,1,3 => no,9
         open,101,0 => no,9
         open,0,3 => no,9
         open,100,2 => ok",
    );
    Script::big().check(
        "open,100001,1 => no,2
         open,1,4097 => no,2
         open,0,4097 => no,2
         open,100000,4096 => ok",
    );
}

#[test]
fn refusals_in_turn() {
    let many: String = (1..=101).map(|n| format!(",{n:x}")).collect();
    let late = "18446744073709491616";
    let last = "18446744073709491615";
    check(&format!(
        "open,9,1 => ok
         sol,0,a,{late},101{many} => no,4
         sol,7,a,{late},101{many} => no,5
         sol,7,a,{last},101{many} => no,6
         sol,7,a,{last},0 => 1
         sol,7,b,{last},101{many} => no,6
         sol,7,b,{last},0 => no,8
         kin,0,{late},101{many} => no,4
         kin,7,{late},101{many} => no,5
         kin,7,0,101{many} => no,6
         kin,7,0,100{many} => no,9
         send,2,5,0 => no,4
         part,0 => no,4
         who,wa,{late} => no,5
         who,wa,{last} => 7
         poll,{late} => no,5
         poll,{last} => 1
         plan,{late} => no,5
         want,{late},0 => no,5
         take,{late} => no,5
         tear,{late} => no,5
         inv,7,{last},0,1,1,tff,0 => 1
         ann,7,te,18446744073709551615,1,18446744073709551615 => 1
         dump => s,9,1,{last5},none,none;r,te,none,none,0,none,0,0;c,7,te,18446744073709551615,1,18446744073709551615;r,tff,none,none,0,none,0,0;c,7,tff,{last4},0,0;r,wa,7,18446744073709551615,1,none,0,0;c,7,wa,{last},1,0",
        last5 = "18446744073709491715",
        last4 = "18446744073709495615",
    ));
}

#[test]
fn refusal_8_wants_a_reply_of_1() {
    check(
        "open,9,1 => ok
         ann,7,tc,0,0,0 => 1
         sol,7,a,0,0 => 1
         sol,8,b,0,0 => no,8
         sol,8,a,0,0 => 0
         sol,7,c,0,0 => 0
         clm,7,a,1,0,1,1 => 1
         sol,8,b,0,0 => no,8
         beg,7,a,1,0,1,1 => 1
         sol,8,b,0,0 => no,8
         rel,7,a,0 => wa
         sol,8,b,0,0 => 1",
    );
}

#[test]
fn unreadable_lines() {
    let open = |line: &str| {
        let mut script = Script::events();
        script.check("open,9,1 => ok");
        script.run(line)
    };
    for line in [
        "",
        ",",
        "sum,",
        "sum\r",
        " sum",
        "SUM",
        "summ",
        "ann",
        "ann,1,ta,0,1",
        "ann,1,ta,0,1,0,0",
        "ann,1,ta,0,1,0,",
        "ann,01,ta,0,1,0",
        "ann,+1,ta,0,1,0",
        "ann,-1,ta,0,1,0",
        "ann,,ta,0,1,0",
        "ann,1,ta,0,2,0",
        "ann,1,ta,0,01,0",
        "ann,1,t,0,1,0",
        "ann,1,t00,0,1,0",
        "ann,1,t0a,0,1,0",
        "ann,1,tA,0,1,0",
        "ann,1,tg,0,1,0",
        "ann,1,xa,0,1,0",
        "ann,1,o1:a,0,1,0",
        "ann,1,o5:a,0,1,0",
        "ann,1,o1073741825:a,0,1,0",
        "ann,1,o4294967296:a,0,1,0",
        "ann,1,o06:a,0,1,0",
        "ann,1,o6a,0,1,0",
        "ann,1,o6:,0,1,0",
        "ann,1,o:a,0,1,0",
        "ann,18446744073709551616,ta,0,1,0",
        "bad,va,1,0",
        "bad,o6:a,1,0",
        "want,0,2,ta",
        "want,0,1,ta,tb",
        "want,0,18446744073709551615",
        "kin,1,0",
        "send",
        "sol,7,wa,0,0",
    ] {
        assert_eq!(open(line), "no,9", "{line:?}");
    }
    let long = "f".repeat(65);
    assert_eq!(open(&format!("ann,1,t{long},0,1,0")), "no,9");
    assert_eq!(open(&format!("ann,1,t{},0,1,0", &long[..64])), "1");
    assert_eq!(open("ann,1,o6:a,0,1,0"), "0");
    assert_eq!(open("ann,1,o4294967295:a,0,1,0"), "0");
    assert_eq!(open("ann,1,o0:0,0,1,0"), "0");
}

#[test]
fn the_line_buffer() {
    let mut script = Script::events();
    script.check("open,9,1 => ok");
    let line = |length: usize| {
        // A list of single digits is two bytes an element; one `tff` more evens the length.
        let head = "want,0,20000";
        let rest = length - head.len();
        let mut text = String::from(head);
        let three = rest % 3;
        let elements = (rest - three * 4) / 3;
        text.push_str(&",tf".repeat(elements));
        text.push_str(&",tff".repeat(three));
        text.replace("20000", &format!("{}", elements + three))
    };
    assert_eq!(line(LINE_BUFFER).len(), LINE_BUFFER);
    assert!(script.run(&line(LINE_BUFFER)).starts_with("21"), "as many keys considered");
    assert_eq!(script.run(&line(LINE_BUFFER + 1)), "no,9");
}

#[test]
fn the_oracles_own_words_are_no_event_lines() {
    let mut program = Program::new(false, false);
    assert_eq!(program.answer(b"open,9,1"), "ok");
    for line in ["dump", "load,s,9,1,none,none,none", "grab,0,0", "ship,0,0"] {
        assert_eq!(program.answer(line.as_bytes()), "no,9");
    }
}

/// Document 02, request c.
#[test]
fn when_to_look_again() {
    check(
        "open,4,1 => ok
         ann,7,ta,50,0,5 => 1
         plan,10 => 1,50
         ann,8,ta,30,0,5 => 1
         plan,10 => 1,30
         plan,30 => 1,ta,8,ta,30,0,5,50
         take,30 => ta,8,ta,30,0,5
         plan,40 => 1,60030
         ann,9,wa,45,0,1 => 1
         plan,40 => 2,45
         plan,60030 => 2,wa,9,wa,60030,0,1,none",
    );
}

#[test]
fn kept_lists() {
    check(
        "open,9,1 => ok
         take,0 => -
         send,0 => -
         part,3 => -
         ann,3,ta,0,1,2 => 1
         ann,2,tb,0,1,3 => 1
         plan,0 => 2,ta,3,ta,0,1,2,tb,2,tb,0,1,3,none
         take,0 => ta,3,ta,0,1,2,tb,2,tb,0,1,3
         send,0 => tb,2,tb,0,1,3,ta,3,ta,0,1,2
         part,3 => ta,3,ta,0,1,2
         part,4 => -
         take,0 => -
         part,3 => ta,3,ta,0,1,2
         send,0 => -
         part,3 => -
         off,ta,3 => 1
         open,0,1 => no,2
         take,0 => ta,3,ta,0,1,2
         plan,18446744073709551615 => no,5
         off,ta,3 => 1
         take,0 => ta,3,ta,0,1,2
         open,9,1 => ok
         take,0 => -
         send,0 => -
         part,3 => -",
    );
}

#[test]
fn sending() {
    check(
        "open,9,1 => ok
         kin,9,5,1,a => ta
         kin,3,5,1,b => tb
         ann,3,wc,0,1,2 => 1
         ann,2,td,0,1,3 => 1
         plan,5 => 4,ta,9,ta,5,1,0,tb,3,tb,5,1,0,wc,3,wc,0,1,2,td,2,td,0,1,3,none
         take,5 => ta,9,ta,5,1,0,tb,3,tb,5,1,0,wc,3,wc,0,1,2,td,2,td,0,1,3
         send,2,9,2 => td,2,td,0,1,3,tb,3,tb,5,1,0,wc,3,wc,0,1,2,ta,9,va,5,1,0
         part,3 => tb,3,tb,5,1,0,wc,3,wc,0,1,2
         drop,ta => 1
         send,2,9,2 => td,2,td,0,1,3,tb,3,tb,5,1,0,wc,3,wc,0,1,2,ta,9,ta,5,1,0",
    );
}

#[test]
fn states_are_read_as_they_are_written() {
    let state =
        "s,9,1,7,tb,w5;r,ta,7,9,0,none,0,1;c,7,va,1,0,2;r,wb,8,60000,0,awaiting,c,2,1,1,1,d,0;c,8,wb,0,1,0";
    check(&format!(
        "load,{state} => ok
         dump => {state}"
    ));
    for unsound in [
        "s,9,1,none,none,none;r,ta,7,9,0,none,0,1;c,8,ta,1,0,2",
        "s,9,1,none,none,none;r,ta,none,none,0,none,0,1",
        "s,9,1,none,none,none;r,ta,none,none,0,none,0,1;c,7,wa,1,0,2",
        "s,0,1,none,none,none",
        "s,1,1,none,none,none;r,ta,none,none,0,none,0,1;c,7,ta,1,0,2;c,8,ta,1,0,2",
    ] {
        check(&format!("load,{unsound} => no,3"));
    }
    for unreadable in
        ["", "s,9,1,none,none", "s,9,1,none,none,none;c,7,ta,1,0,2", "r,ta,none,none,0,none,0,1"]
    {
        check(&format!("load,{unreadable} => no,9"));
    }
}

#[test]
fn hashes_are_ordered_by_number() {
    let top = format!("1{}", "0".repeat(63));
    check(&format!(
        "open,9,1 => ok
         ann,1,t{top},0,1,0 => 1
         ann,1,t100,0,1,0 => 1
         ann,1,tff,0,1,0 => 1
         ann,1,w0,0,1,0 => 1
         swp => tff,t100,t{top},w0"
    ));
}
