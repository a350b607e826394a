//! Whole inv, getdata and notfound payloads, read and written.
//!
//! A payload is a count and so many items of 36 bytes: what is read is written as the same bytes again, and what is written is read
//! as the same items.
//!
//! ```
//! use tracker::{Error, Item, Txid, Wtxid, payloads};
//!
//! let items = [Item::WTx(Wtxid([0xaa; 32])), Item::Tx(Txid([1; 32])), Item::Other(2, [9; 32])];
//! let payload = payloads::write(&items)?;
//! assert_eq!((payload.len(), payload[0]), (1 + 3 * 36, 3));
//! assert_eq!(payloads::read(&payload)?, items);
//!
//! assert_eq!(payloads::read(&payload[..108]), Err(Error::BadPayload)); // a byte is missing
//! assert_eq!(payloads::write(&[Item::Other(1, [9; 32])]), Err(Error::BadPayload)); // type 1 is no other type
//! # Ok::<(), Error>(())
//! ```

use alloc::vec;
use alloc::vec::Vec;

use crate::bytes::{KEY_BYTES, items, read_payload, read_payload_need, write_payload, write_payload_need};
use crate::{Error, Item};

/// The items of the payload.
pub fn read(payload: &[u8]) -> Result<Vec<Item>, Error> {
    let mut answer = vec![0; read_payload_need(payload.len())];
    let count = read_payload(payload, &mut answer)?;
    Ok(items(&answer, count).collect())
}

/// The payload of the items: at most 50,000, none of them an [`Item::Other`] of the type of another variant.
pub fn write(items: &[Item]) -> Result<Vec<u8>, Error> {
    let mut list = Vec::with_capacity(items.len() * KEY_BYTES);
    items.iter().for_each(|item| list.extend(element(item)));
    let mut answer = vec![0; write_payload_need(items.len())];
    let length = write_payload(&list, &mut answer)?;
    answer.truncate(length);
    Ok(answer)
}

/// The item as it stands in a list: an other item says so by the fifth byte, whatever its type is.
fn element(item: &Item) -> [u8; KEY_BYTES] {
    let mut bytes = item.to_bytes();
    bytes[4] = matches!(item, Item::Other(..)).into();
    bytes
}
