//! Document 01's "Edges to try" and its errors that tempt, with answers worked out by
//! hand from its sentences.

use crate::{Script, check};

#[test]
fn ninth_preferred_gets_0() {
    let eight: String = (1..=8).map(|n| format!("ann,{n},wa,0,1,5 => 1\n")).collect();
    check(&format!(
        "open,100,1 => ok
         {eight}
         ann,9,wa,0,1,0 => 0
         ann,9,ta,0,1,0 => 0
         ann,9,tb,0,0,0 => 1
         sum => 9,91,92,90"
    ));
}

#[test]
fn one_unpreferred_of_eight_goes() {
    let eight: String = (1..=8)
        .map(|n| format!("ann,{n},{}a,0,{},5 => 1\n", if n < 5 { 't' } else { 'w' }, u8::from(n != 3)))
        .collect();
    check(&format!(
        "open,100,1 => ok
         {eight}
         ann,9,wa,0,0,0 => 0
         ann,9,wa,0,1,0 => 1
         gone,3,0 => 0
         ann,10,wa,0,1,0 => 0
         sum => 8,92,92,80"
    ));
}

#[test]
fn an_owner_of_eight_stays() {
    check(
        "open,100,1 => ok
         ann,3,wa,0,0,5 => 1
         plan,0 => 1,wa,3,wa,0,0,5,none
         take,0 => wa,3,wa,0,0,5
         ann,1,wa,0,1,5 => 1
         ann,2,wa,0,1,5 => 1
         ann,4,wa,0,1,5 => 1
         ann,5,wa,0,1,5 => 1
         ann,6,wa,0,1,5 => 1
         ann,7,wa,0,1,5 => 1
         ann,8,wa,0,1,5 => 1
         ann,9,wa,0,1,0 => 0
         off,wa,3 => 1
         ann,9,wa,0,1,0 => 1",
    );
}

#[test]
fn the_greatest_priority_goes() {
    check(
        "open,2,1 => ok
         ann,1,ta,0,0,5 => 1
         ann,2,tb,0,0,9 => 1
         ann,3,tc,0,1,0 => 1
         swp => ta,tc",
    );
}

#[test]
fn equal_priorities_wtxid_then_connection() {
    check(
        "open,2,1 => ok
         ann,1,tb,0,0,5 => 1
         ann,2,wa,0,0,5 => 1
         ann,3,tc,0,1,0 => 1
         swp => tb,tc",
    );
    check(
        "open,2,1 => ok
         ann,2,ta,0,0,5 => 1
         ann,1,ta,0,0,5 => 1
         ann,3,tc,0,1,0 => 1
         gone,2,0 => 0
         gone,1,0 => 1,ta",
    );
}

#[test]
fn an_owner_is_never_evicted() {
    check(
        "open,1,1 => ok
         ann,1,ta,0,0,5 => 1
         plan,0 => 1,ta,1,ta,0,0,5,none
         take,0 => ta,1,ta,0,0,5
         ann,2,tb,0,1,0 => 0
         off,ta,1 => 1
         ann,2,tb,0,1,0 => 1
         swp => tb",
    );
}

#[test]
fn a_deadline_is_sixty_seconds() {
    check(
        "open,4,1 => ok
         ann,7,wa,0,0,5 => 1
         plan,1000 => 1,wa,7,wa,0,0,5,none
         take,1000 => wa,7,wa,0,0,5
         plan,60999 => 1,61000
         dump => s,4,1,none,none,wa;r,wa,7,61000,0,none,0,0;c,7,wa,0,0,5
         plan,61000 => 0,none
         dump => s,4,1,none,none,none",
    );
}

#[test]
fn counts_of_wtxids() {
    for (count, reply) in [(0, 0), (1, 1), (100, 1), (101, 0)] {
        let list: String = (1..=count).map(|n| format!(",{n:x}")).collect();
        check(&format!(
            "open,4,1 => ok
             sol,7,a,0,0 => 1
             clm,7,a,cc,0,{count}{list} => {reply}"
        ));
    }
}

#[test]
fn at_99_owned_one_more_at_100_none() {
    let mut script = Script::big();
    script.check("open,300,1 => ok");
    let fill: String = (1..=101).map(|n| format!("ann,7,t{n:x},0,1,{n} => 1\n")).collect();
    script.check(&fill);
    let plan = script.run("plan,0");
    assert!(plan.starts_with("101,t1,7,t1,0,1,1,"), "101 keys considered");
    assert_eq!(plan.split(',').count(), 1 + 6 * 100 + 1, "100 selected");
    assert_eq!(script.run("take,0").split(',').count(), 6 * 100);
    script.check(
        "plan,1 => 101,60000
         sol,7,ffff,1,0 => 0
         grab,1,1,t65,7,t65,0,1,101 => -
         bad,t5,7,2 => 1
         plan,3 => 100,t65,7,t65,0,1,101,60000
         sol,7,ffff,1,0 => 1
         take,3 => -
         info,wffff,7,3 => 1
         take,3 => t65,7,t65,0,1,101",
    );
}

#[test]
fn delays_of_a_batch() {
    let mut script = Script::big();
    script.check("open,300,1 => ok");
    let fill: String = (1..=100).map(|n| format!("ann,7,t{n:x},0,1,{n} => 1\n")).collect();
    script.check(&fill);
    script.run("plan,0");
    script.run("take,0");
    script.check(
        "inv,7,10,0,1,3,teee,4,weef,4,vef0,4 => 1
         inv,7,10,1,0,1,tef1,4 => 1
         bad,t5,7,2 => 1
         inv,7,10,0,1,1,tef2,4 => 1
         inv,8,10,1,0,1,tef3,4 => 1",
    );
    let state = script.run("dump");
    for candidate in [
        "c,7,teee,6010,0,4",
        "c,7,weef,4010,0,4",
        "c,7,vef0,6010,0,4",
        "c,7,tef1,2010,1,4",
        "c,7,tef2,4010,0,4",
        "c,8,tef3,10,1,4",
    ] {
        assert!(state.contains(candidate), "{candidate}");
    }
}

#[test]
fn five_thousand_of_one_connection() {
    let mut script = Script::big();
    script.check("open,100000,1 => ok");
    let fill: String = (0..5_000).map(|n| format!("ann,7,t{n:x},0,0,1 => 1\n")).collect();
    script.check(&fill);
    script.check(
        "ann,7,tffff,0,1,0 => 0
         ann,8,tffff,0,1,0 => 1
         par,7,tffff,0,1,0 => 0
         par,7,t5,0,1,0 => 1
         drop,t5 => 1
         ann,7,tffff,0,1,0 => 1
         sum => 5001,94999,99998,50",
    );
}

#[test]
fn a_plan_selects_up_to_1025() {
    // Eleven solicitations of 100 parents each expire: 1,100 parents.
    let mut script = Script::big();
    script.check("open,20000,20 => ok");
    let parents = |n: u32| -> String { (0..100).map(|i| format!(",{:x}", 0x10000 + 100 * n + i)).collect() };
    for n in 1..=11 {
        script.check(&format!("sol,{n},{n:x},0,100{} => 1", parents(n)));
    }
    script.check("ann,99,wffff,0,1,0 => 1");
    let plan = script.run("want,60000,2,wffff,wfffe");
    let entries = (plan.split(',').count() - 2) / 6;
    assert_eq!(plan.split(',').next(), Some("1025"), "the second phase considers one more");
    assert_eq!(entries, 1_025);
    // 1,100 parents are held; the ready cursor does not move where keys are given.
    script.check("sum => 1101,18899,18899,55");
    let plan = script.run("plan,60000");
    assert_eq!(plan.split(',').next(), Some("1024"));
    assert_eq!((plan.split(',').count() - 2) / 6, 1_024);
}

#[test]
fn sweeps_of_1024() {
    let mut script = Script::big();
    script.check("open,3000,1 => ok");
    let fill: String = (0..2_000).map(|n| format!("ann,{},t{n:x},0,1,0 => 1\n", 1 + n / 1_000)).collect();
    script.check(&fill);
    let first = script.run("swp");
    assert!(first.starts_with("t0,t1,") && first.ends_with(",t3ff"));
    let second = script.run("swp");
    assert!(second.starts_with("t400,") && second.ends_with(",t2f"), "976 and then 48 from the start");
    assert_eq!(second.split(',').count(), 1_024);
}

#[test]
fn an_enqueued_package_stays() {
    check(
        "open,9,1 => ok
         sol,7,a,0,2,b,c => 1
         clm,7,a,cc,0,2,1,2 => 1
         beg,7,a,cc,0,2,2,1 => 0
         beg,7,a,cd,0,2,1,2 => 0
         beg,8,a,cc,0,2,1,2 => 0
         beg,7,a,cc,60000,2,1,2 => 0
         beg,7,a,cc,59999,2,1,2 => 1
         beg,7,a,cc,59999,2,1,2 => 0
         dump => s,9,1,none,none,none;r,wa,7,60000,0,enqueued,cc,2,1,2,2,b,c,0;c,7,wa,0,1,0
         bad,wa,7,5 => 0
         off,wa,7 => 1
         known,wa,99999 => 1
         fail,wa,7,5 => -
         dump => s,9,1,none,none,none;r,wa,7,60000,0,enqueued,cc,2,1,2,2,b,c,0;c,7,wa,0,1,0
         sol,8,d,0,0 => no,8
         sol,8,a,0,0 => 0
         plan,60000 => 5,tb,7,tb,60000,1,0,tc,7,tc,60000,1,1,none
         dump => s,9,1,none,none,wa;r,tb,none,none,0,none,0,1;c,7,tb,60000,1,0;r,tc,none,none,0,none,0,1;c,7,tc,60000,1,1;r,wa,7,60000,0,enqueued,cc,2,1,2,2,b,c,0;c,7,wa,0,1,0
         rel,7,a,70000 => wa,tb,tc
         sol,8,d,70000,0 => 1",
    );
}

#[test]
fn repeated_parents() {
    check(
        "open,9,1 => ok
         kin,7,5,3,a,b,a => ta,tb
         dump => s,9,1,none,none,none;r,ta,none,none,0,none,0,1;c,7,ta,5,1,0;r,tb,none,none,0,none,0,1;c,7,tb,5,1,1",
    );
    // The candidate sits under the Wtxid key: the Txid key is listed all the same.
    check(
        "open,9,1 => ok
         ann,7,wa,9,0,9 => 1
         kin,7,5,1,a => ta
         dump => s,9,1,none,none,none;r,wa,none,none,0,none,0,0;c,7,wa,5,1,0",
    );
}

#[test]
fn sums() {
    check(
        "open,3,1 => ok
         sum => 0,3,3,0
         ann,1,ta,0,1,0 => 1
         ann,1,tb,0,1,0 => 1
         sum => 2,1,1,666",
    );
}

/// Document 02: free "L − held for unpreferred newcomers, and that plus the unpreferred candidates not owning their
/// own request for preferred ones".
#[test]
fn sums_with_two_free_figures() {
    // "if both held ones are unpreferred and unowned"
    check(
        "open,3,1 => ok
         ann,1,ta,0,0,5 => 1
         ann,2,tb,0,0,5 => 1
         sum => 2,1,3,666",
    );
    // a preferred one is no such candidate, nor is an unpreferred owner
    check(
        "open,3,1 => ok
         ann,1,ta,0,0,5 => 1
         ann,2,tb,0,1,5 => 1
         sum => 2,1,2,666
         plan,0 => 2,ta,1,ta,0,0,5,tb,2,tb,0,1,5,none
         take,0 => ta,1,ta,0,0,5,tb,2,tb,0,1,5
         sum => 2,1,1,666",
    );
    // an unpreferred candidate beside another owner of its request counts, under either kind
    check(
        "open,4,1 => ok
         ann,1,ta,0,1,5 => 1
         ann,2,ta,0,0,5 => 1
         ann,3,wa,0,0,5 => 1
         sum => 3,1,3,750
         plan,0 => 2,ta,1,ta,0,1,5,none
         take,0 => ta,1,ta,0,1,5
         sum => 3,1,3,750
         bad,ta,1,1 => 1
         plan,1 => 2,ta,2,ta,1,0,5,none
         take,1 => ta,2,ta,1,0,5
         sum => 2,2,3,500",
    );
}

#[test]
fn a_full_tracker_takes_as_many_preferred_ones_as_it_says() {
    check(
        "open,2,1 => ok
         ann,1,ta,0,0,5 => 1
         ann,2,tb,0,0,5 => 1
         sum => 2,0,2,1000
         ann,3,tc,0,0,0 => 0
         ann,3,tc,0,1,0 => 1
         sum => 2,0,1,1000
         ann,4,td,0,1,0 => 1
         sum => 2,0,0,1000
         ann,5,te,0,1,0 => 0",
    );
}

#[test]
fn a_checked_entry_is_compared_in_every_field() {
    let changed = [
        "wa,7,wa,1,0,5",
        "wa,7,wa,0,1,5",
        "wa,7,wa,0,0,6",
        "wa,8,wa,0,0,5",
        "wa,0,wa,0,0,5",
        "wa,7,ta,0,0,5",
        "wa,7,va,0,0,5",
        "wa,7,o5000:a,0,0,5",
        "wa,7,wb,0,0,5",
        "ta,7,wa,0,0,5",
        "wb,7,wa,0,0,5",
    ];
    for entry in changed {
        check(&format!(
            "open,4,1 => ok
             ann,7,wa,0,0,5 => 1
             grab,0,2,{entry},wa,7,wa,0,0,5 => wa,7,wa,0,0,5"
        ));
    }
}
