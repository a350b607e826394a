//! What the reader wrote, given to the calls that are given items, as it is: stores and answers beside those of the same items put one by one.

use oracle::random::Rng;
use tracker::{Item, bytes};

use crate::draw;
use crate::text;

const STORE: usize = 8 * (24 + 12 * 200 + 824 * 2);

pub fn check(seed: u64, times: u64) -> Result<(), String> {
    let mut rng = Rng::new(seed);
    for _ in 0..times {
        let n = rng.index(60);
        let items = draw::items(&mut rng, n);
        let payload = text::write(&items).ok_or("drawn items have a payload")?;
        let mut list = vec![0; bytes::read_payload_need(payload.len())];
        let count = bytes::read_payload(&payload, &mut list).map_err(|error| error.to_string())?;
        let by_hand: Vec<u8> = items
            .iter()
            .flat_map(|item| Item::from_parts(text::number_of(item.kind), item.hash).to_bytes())
            .collect();
        let priorities: Vec<u8> = (0..n).flat_map(|_| rng.next().to_le_bytes()).collect();
        let outcomes = [&list[..count * 40], &by_hand].map(|items| {
            let (mut store, mut answer) = (vec![0; STORE], vec![0; (n + 200) * 40]);
            bytes::open(&mut store, 200, 2).expect("a store of its need");
            let announced =
                bytes::announce_transactions(&mut store, 7, 1_000, true, false, items, &priorities);
            let planned =
                bytes::plan(&mut store, 9_000, &mut vec![0; bytes::PLAN_NEED]).map(|plan| plan.count);
            let missing = bytes::transaction_not_found(&mut store, 7, items, 9_000, &mut answer);
            (announced, planned, missing, store, answer)
        });
        if outcomes[0] != outcomes[1] || outcomes[0].0.is_err() || outcomes[0].2.is_err() {
            return Err(format!("{n} items that were read are not the items as they are put by hand"));
        }
    }
    Ok(())
}
