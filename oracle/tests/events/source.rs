//! Where the source does what a reader of document 01 might not expect: one smallest
//! input each.

use crate::check;

#[test]
fn one_combined_hash_at_two_claims() {
    check(
        "open,9,2 => ok
         sol,7,a,0,0 => 1
         sol,7,b,0,0 => 1
         clm,7,a,c,0,1,1 => 1
         clm,7,b,c,0,1,1 => 1
         lost,7,1,2,c,c => wb
         lost,7,1,1,c => wa",
    );
}

#[test]
fn a_teardown_leaves_the_other_kind_alone() {
    check(
        "open,9,1 => ok
         ann,1,ta,50,1,0 => 1
         ann,2,wa,60,1,0 => 1
         sol,7,a,0,0 => 1
         clm,7,a,c,0,1,1 => 1
         tear,9 => 1
         dump => s,9,1,none,none,none;r,ta,none,none,0,none,0,0;c,1,ta,50,1,0;r,wa,none,none,0,none,0,0;c,2,wa,9,1,0
         sol,7,a,0,0 => 1
         tear,9 => 0
         bad,wa,7,9 => 1
         dump => s,9,1,none,none,none;r,ta,none,none,0,none,0,0;c,1,ta,9,1,0;r,wa,none,none,0,none,0,0;c,2,wa,9,1,0",
    );
}

#[test]
fn a_teardown_takes_enqueued_packages_and_no_parents() {
    check(
        "open,9,1 => ok
         sol,7,a,0,1,b => 1
         clm,7,a,c,0,1,1 => 1
         beg,7,a,c,0,1,1 => 1
         tear,9 => 1
         dump => s,9,1,none,none,none",
    );
}

#[test]
fn a_disconnected_owner_of_an_enqueued_package_stays() {
    check(
        "open,9,1 => ok
         sol,7,a,0,1,b => 1
         clm,7,a,c,0,1,1 => 1
         beg,7,a,c,0,1,1 => 1
         gone,7,5 => 1,wa,tb
         dump => s,9,1,none,none,none;r,tb,none,none,0,none,0,1;c,7,tb,5,1,0;r,wa,7,60000,0,enqueued,c,1,1,1,b,0;c,7,wa,0,1,0",
    );
}

#[test]
fn a_disconnected_owners_parents_go_to_the_others() {
    check(
        "open,9,1 => ok
         ann,8,wa,0,0,3 => 1
         ann,9,wa,0,0,4 => 1
         sol,7,a,0,2,b,a => 1
         gone,7,5 => 1,wa,ta,tb
         dump => s,9,1,none,none,none;r,tb,none,none,0,none,0,1;c,8,tb,5,1,0;c,9,tb,5,1,0;r,wa,none,none,0,none,0,0;c,8,wa,5,1,1;c,9,wa,5,1,1",
    );
}

#[test]
fn parents_of_an_enqueued_package_go_to_every_candidate() {
    check(
        "open,9,1 => ok
         ann,8,wa,0,0,3 => 1
         sol,7,a,0,1,b => 1
         ann,9,wa,0,0,4 => 1
         clm,7,a,c,0,1,1 => 1
         beg,7,a,c,0,1,1 => 1
         gone,7,5 => 1,wa,tb
         dump => s,9,1,none,none,none;r,tb,none,none,0,none,0,1;c,8,tb,5,1,0;c,7,tb,5,1,0;c,9,tb,5,1,0;r,wa,7,60000,0,enqueued,c,1,1,1,b,0;c,8,wa,0,0,3;c,7,wa,0,1,0;c,9,wa,0,0,4",
    );
}

#[test]
fn keys_of_a_disconnected_then_parents_in_order_and_once() {
    check(
        "open,9,2 => ok
         ann,8,wa,0,0,3 => 1
         ann,8,wb,0,0,4 => 1
         ann,7,wf,0,0,4 => 1
         sol,7,b,0,2,d,c => 1
         sol,7,a,0,2,e,d => 1
         gone,7,5 => 3,wa,wb,wf,tc,td,te",
    );
}

#[test]
fn a_forgotten_request_frees_its_place_at_once() {
    check(
        "open,9,1 => ok
         sol,7,a,0,0 => 1
         sol,8,b,0,0 => no,8
         drop,wa => 1
         sol,8,b,0,0 => 1
         clm,8,b,c,0,1,1 => 1
         beg,8,b,c,0,1,1 => 1
         sol,7,a,0,0 => no,8
         drop,wb => 1
         sol,7,a,0,0 => 1",
    );
}

#[test]
fn a_sweep_of_nothing_clears_the_cursor() {
    check(
        "open,9,1 => ok
         ann,1,ta,0,1,0 => 1
         swp => ta
         drop,ta => 1
         swp => -
         ann,1,t5,0,1,0 => 1
         ann,1,tf,0,1,0 => 1
         swp => t5,tf",
    );
}

#[test]
fn a_plan_of_nothing_clears_the_ready_cursor() {
    check(
        "open,9,1 => ok
         ann,1,ta,5,1,0 => 1
         plan,0 => 1,5
         dump => s,9,1,none,none,ta;r,ta,none,none,0,none,0,0;c,1,ta,5,1,0
         drop,ta => 1
         want,0,1,tb => 1,none
         dump => s,9,1,none,none,ta
         plan,0 => 0,none
         dump => s,9,1,none,none,none",
    );
}

#[test]
fn a_parent_of_an_expired_owner_can_be_its_own_key() {
    // The last candidate goes, the request with it, and the parent makes it anew.
    check(
        "open,9,1 => ok
         sol,7,a,0,1,a => 1
         plan,60000 => 2,ta,7,ta,60000,1,0,none
         dump => s,9,1,none,none,ta;r,ta,none,none,0,none,0,1;c,7,ta,60000,1,0",
    );
}

#[test]
fn a_w_item_not_found_leaves_parents_out() {
    check(
        "open,9,1 => ok
         sol,7,a,0,1,b => 1
         nfd,7,1,1,wa => wa
         sum => 0,9,9,0
         sol,7,a,0,1,b => 1
         nfd,7,1,1,o7:a => wa,tb
         sol,7,c,0,1,d => 1
         clm,7,c,e,0,1,1 => 1
         nfd,7,1,1,o7:c => -
         nfd,7,1,2,o6:e,tc => wc,td",
    );
}

#[test]
fn not_found_packages_come_after_the_other_items() {
    check(
        "open,9,1 => ok
         sol,7,a,0,0 => 1
         clm,7,a,c,0,1,1 => 1
         ann,7,tb,0,1,0 => 1
         plan,0 => 2,tb,7,tb,0,1,0,60000
         take,0 => tb,7,tb,0,1,0
         nfd,7,1,2,o6:c,tb => tb,wa",
    );
}

#[test]
fn an_older_candidate_keeps_its_fields_when_solicited() {
    check(
        "open,9,1 => ok
         ann,7,wa,50,0,9 => 1
         sol,7,a,0,0 => 1
         dump => s,9,1,none,none,none;r,wa,7,60000,1,none,0,0;c,7,wa,50,0,9",
    );
}

#[test]
fn a_failure_readies_both_kinds() {
    check(
        "open,9,1 => ok
         ann,1,ta,50,0,9 => 1
         ann,2,wa,60,0,9 => 1
         ann,3,wa,0,0,1 => 1
         plan,0 => 2,wa,3,wa,0,0,1,50
         take,0 => wa,3,wa,0,0,1
         bad,wa,3,100 => 1
         dump => s,9,1,none,none,wa;r,ta,none,none,0,none,0,0;c,1,ta,100,0,9;r,wa,none,none,0,none,0,0;c,2,wa,100,0,9",
    );
}

#[test]
fn an_evicted_last_candidate_takes_the_mark_along() {
    // Announced unpreferred beside a marked parent, which is then forgotten.
    check(
        "open,1,1 => ok
         ann,1,ta,0,0,5 => 1
         kin,1,0,1,a => ta
         dump => s,1,1,none,none,none;r,ta,none,none,0,none,0,1;c,1,ta,0,1,0
         drop,ta => 1
         ann,1,ta,0,0,5 => 1
         dump => s,1,1,none,none,none;r,ta,none,none,0,none,0,0;c,1,ta,0,0,5
         ann,2,ta,0,1,0 => 1
         dump => s,1,1,none,none,none;r,ta,none,none,0,none,0,0;c,2,ta,0,1,0",
    );
}

#[test]
fn the_poll_gate() {
    check(
        "open,1,1 => ok
         poll,50 => 1
         poll,149 => 0
         poll,0 => 0
         poll,150 => 1
         dump => s,1,1,250,none,none",
    );
}

#[test]
fn a_known_request_is_guarded_while_its_package_lives() {
    check(
        "open,9,1 => ok
         sol,7,a,0,1,b => 1
         known,wa,59999 => 1
         who,wa,59999 => 7
         who,wa,60000 => 0
         known,wa,60000 => 1
         dump => s,9,1,none,none,none;r,tb,none,none,0,none,0,1;c,7,tb,60000,1,0",
    );
}
