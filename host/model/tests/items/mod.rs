//! What tests of records with runs share.

use model::text;

/// The header of records whose mtu is 64, loLimit 100 and hiLimit 300.
pub const HEADER: &str = "0e00 1000 4000 64000000 2c010000";

/// A record of these items, given in hex.
pub fn bytes(items: &str) -> Vec<u8> {
    text::decode(format!("{HEADER} {items}").as_bytes()).unwrap()
}
