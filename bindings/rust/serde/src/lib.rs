//! Bit vectors as JSON, in the form of vob 4.0.1: `len` counts bits, and `vec` has the blocks.
#![cfg(test)]

use conthiral::{vob, Bits, Vob};
use serde_json::{from_str, to_string};

#[test]
fn default_blocks() {
    let bits = vob![true, false, true];
    assert_eq!(to_string(&bits).unwrap(), r#"{"len":3,"vec":[5]}"#);
    assert_eq!(from_str::<Vob>(r#"{"len":3,"vec":[5]}"#).unwrap(), bits);
    assert_eq!(from_str::<Vob>(r#"{"vec":[5],"len":3}"#).unwrap(), bits);
    assert_eq!(from_str::<Vob>("[3,[5]]").unwrap(), bits);
    assert_eq!(to_string(&vob![]).unwrap(), r#"{"len":0,"vec":[]}"#);
    assert_eq!(from_str::<Vob>(r#"{"len":0,"vec":[]}"#).unwrap(), vob![]);
}

#[test]
fn bytes() {
    // bits 0, 9 and 16
    let text = r#"{"len":17,"vec":[1,2,1]}"#;
    let bits = from_str::<Vob<u8>>(text).unwrap();
    assert_eq!(bits.iter_set_bits(..).collect::<Vec<_>>(), [0, 9, 16]);
    assert_eq!(to_string(&bits).unwrap(), text);
}

#[test]
fn large_blocks() {
    // 2 ^ 64 is bit 64, and 2 ^ 100 is bit 100
    let texts = [r#"{"len":65,"vec":[18446744073709551616]}"#, r#"{"len":64,"vec":[18446744073709551616]}"#];
    let bits = from_str::<Vob<u128>>(texts[0]).unwrap();
    assert_eq!(bits.iter_set_bits(..).collect::<Vec<_>>(), [64]);
    assert_eq!(to_string(&bits).unwrap(), texts[0]);
    assert!(from_str::<Vob<u128>>(texts[1]).is_err());
}

#[test]
fn views() {
    let words = [6];
    assert_eq!(to_string(&Bits::from_words(&words[..], 3).unwrap()).unwrap(), r#"{"len":3,"vec":[6]}"#);
}

#[test]
fn what_is_not_canonical_is_refused() {
    for text in [
        r#"{"len":2,"vec":[5]}"#,
        r#"{"len":3,"vec":[]}"#,
        r#"{"len":3,"vec":[5,0]}"#,
        r#"{"len":0,"vec":[0]}"#,
        r#"{"len":18446744073709551615,"vec":[]}"#,
        r#"{"len":3}"#,
        r#"{"vec":[5]}"#,
        r#"{"len":3,"vec":[-1]}"#,
    ] {
        assert!(from_str::<Vob>(text).is_err(), "{text}");
    }
    assert!(from_str::<Vob<u8>>(r#"{"len":9,"vec":[255]}"#).is_err());
    assert!(from_str::<Vob<u8>>(r#"{"len":9,"vec":[255,2]}"#).is_err());
}
