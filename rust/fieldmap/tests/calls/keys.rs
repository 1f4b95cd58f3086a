//! Keys and values: their fields, the packings, the order of keys and the conversions of values.

use fieldmap::Packing::{Plus128, TwosComplement};
use fieldmap::{Key, Packing, Refusal, Value};

const PACKINGS: [Packing; 2] = [TwosComplement, Plus128];

#[test]
fn refusal_18() {
    for packing in PACKINGS {
        refused_by_18(packing);
    }
}

fn refused_by_18(packing: Packing) {
    let key = Key {
        examination: (1 << 24) - 1,
        eye: Key::LEFT,
        x: i8::MIN,
        y: i8::MAX,
        presentation: (1 << 23) - 1,
    };
    let packed = key.pack(packing).unwrap();
    assert_eq!(Key::unpack(packed, packing), key);
    let refused = Err(Refusal::KeyFieldOverflow);
    let examination = 1 << 24;
    assert_eq!(Key { examination, ..key }.pack(packing), refused);
    assert_eq!(Key { eye: 2, ..key }.pack(packing), refused);
    let presentation = 1 << 23;
    let late = Key {
        presentation,
        ..key
    };
    assert_eq!(late.pack(packing), refused);
}

/// At every x and y both packings give back what they are given, and the two keys differ in the highest bits of x and of y.
#[test]
fn both_packings_at_every_point() {
    for x in i8::MIN..=i8::MAX {
        for y in i8::MIN..=i8::MAX {
            let key = Key {
                examination: 0x0012_3456,
                eye: Key::LEFT,
                x,
                y,
                presentation: 0x0065_4321,
            };
            let [old, new] = PACKINGS.map(|packing| key.pack(packing).unwrap());
            assert_eq!(Key::unpack(old, TwosComplement), key);
            assert_eq!(Key::unpack(new, Plus128), key);
            assert_eq!(old ^ new, 1 << 38 | 1 << 30, "{x} and {y}");
            let (by_x, by_y) = (new >> 31 & 0xff, new >> 23 & 0xff);
            assert_eq!((by_x as i16, by_y as i16), (x as i16 + 128, y as i16 + 128));
        }
    }
}

/// Every number is a key by each packing.
#[test]
fn every_number_comes_back() {
    for number in [0, 1, 1_642_850_156_546, 1_369_045_991_426, u64::MAX] {
        for packing in PACKINGS {
            assert_eq!(Key::unpack(number, packing).pack(packing), Ok(number));
        }
    }
    assert_eq!(Key::default(), Key::unpack(0, TwosComplement));
    let (x, y) = (-128, -128);
    let least = Key {
        x,
        y,
        ..Key::default()
    };
    assert_eq!(Key::unpack(0, Plus128), least);
}

#[test]
fn value_bits() {
    assert!(!Value(u64::MAX >> 1).is_seen());
    assert!(Value(1 << 63).is_seen());
    assert_eq!(Value(1 << 63).threshold(), 0);
    assert_eq!(Value((1 << 53) - 1).threshold(), 0);
    assert_eq!(Value(u64::MAX).threshold(), 1023);
}

/// Keys with every combination of small, large and negative fields, in the order of their packed numbers.
fn keys_in_archive_order(packing: Packing) -> Vec<Key> {
    let mut numbers = Vec::new();
    for examination in [0, 1, (1 << 24) - 1] {
        for eye in [Key::RIGHT, Key::LEFT] {
            for (x, y) in [(0, 0), (3, -3), (-3, 3), (-3, -3), (127, -128), (-128, 127)] {
                for presentation in [0, 1, (1 << 23) - 1] {
                    let key = Key {
                        examination,
                        eye,
                        x,
                        y,
                        presentation,
                    };
                    numbers.push(key.pack(packing).unwrap());
                }
            }
        }
    }
    numbers.sort_unstable();
    let keys = numbers.into_iter().map(|key| Key::unpack(key, packing));
    keys.collect()
}

#[test]
fn sorted_keys_build() {
    for packing in PACKINGS {
        let ordered = keys_in_archive_order(packing);
        let mut sorted = ordered.clone();
        sorted.reverse();
        sorted.sort_unstable_by(|a, b| packing.compare(a, b));
        assert_eq!(sorted, ordered);
        let packed = sorted.iter().map(|key| key.pack(packing).unwrap());
        let keys: Vec<u64> = packed.collect();
        let mut out = vec![0; fieldmap::build_length(keys.len(), 0).unwrap()];
        assert_eq!(fieldmap::build(&mut out, 0, &keys, &keys), Ok(out.len()));
        assert_eq!(fieldmap::certify(&out), Ok(108));
    }
}

#[test]
fn order_is_that_of_packed_numbers() {
    for packing in PACKINGS {
        let ordered = keys_in_archive_order(packing);
        for (index, key) in ordered.iter().enumerate() {
            for (other_index, other) in ordered.iter().enumerate() {
                let order = packing.compare(key, other);
                assert_eq!(order, index.cmp(&other_index), "{key} and {other}");
            }
        }
        // Keys that do not pack are ordered as well, and equal only to themselves.
        let key = Key::default();
        let large = Key {
            examination: u32::MAX,
            ..key
        };
        assert!(ordered
            .iter()
            .all(|other| packing.compare(&large, other).is_gt()));
        let [one, two] = [1, 2].map(|eye| Key { eye, ..key });
        assert!(packing.compare(&two, &one).is_gt());
        assert!(packing.compare(&two, &two).is_eq());
    }
}

/// x counts before y, and each as a number or by its bits.
#[test]
fn order_of_every_x_and_every_y() {
    let at = |x, y| Key {
        x,
        y,
        ..Key::default()
    };
    for one in i8::MIN..=i8::MAX {
        for other in i8::MIN..=i8::MAX {
            let orders = [one.cmp(&other), (one as u8).cmp(&(other as u8))];
            for (packing, order) in [Plus128, TwosComplement].into_iter().zip(orders) {
                let by_y = packing.compare(&at(5, one), &at(5, other));
                assert_eq!(by_y, order, "y {one} and {other}");
                let by_x = packing.compare(&at(one, other), &at(other, one));
                assert_eq!(by_x, order, "x {one} and {other}");
            }
        }
    }
}

#[test]
fn keys_in_words() {
    let key = Key::unpack(1_369_045_991_426, Plus128);
    assert_eq!(key, Key::unpack(1_642_850_156_546, TwosComplement));
    let words = "examination 1, right eye, x -3, y 3, presentation 2";
    assert_eq!(key.to_string(), words);
    let left = Key { eye: 1, ..key }.to_string();
    assert_eq!(left, words.replace("right", "left"));
    let neither = Key { eye: 2, ..key }.to_string();
    assert_eq!(neither, words.replace("right eye", "eye 2"));
}

#[test]
fn conversions_of_values() {
    for threshold in [0, 1, 285, 1_023] {
        for seen in [false, true] {
            let value = Value::new(seen, threshold).unwrap();
            assert_eq!((value.is_seen(), value.threshold()), (seen, threshold));
            assert_eq!(value.0 << 11, 0, "the free bits");
            assert_eq!(Value::from(u64::from(value)), value);
        }
    }
    assert_eq!(Value::new(true, 1_024), None);
    assert_eq!(Value::new(false, u16::MAX), None);
    assert_eq!(Value::default(), Value(0));
}

#[test]
fn values_in_words() {
    let words = |seen, threshold| Value::new(seen, threshold).unwrap().to_string();
    assert_eq!(words(true, 285), "seen, 28.5 dB");
    assert_eq!(words(true, 7), "seen, 0.7 dB");
    assert_eq!(words(false, 0), "not seen, 0.0 dB");
    assert_eq!(Value(u64::MAX).to_string(), "seen, 102.3 dB");
}
