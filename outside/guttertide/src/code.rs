//! What keys and values are as numbers.

use std::net::{Ipv4Addr, Ipv6Addr};

/// A key of a [`Map`](crate::Map): one number of 64 bits for each, in the order of the keys.
///
/// `decode` is the inverse of `encode`. An implementation that breaks this, or the order, makes a map lose track of its keys;
/// it breaks nothing else.
///
/// ```
/// use guttertide::{Key, Map};
///
/// #[derive(Clone, Copy, Debug, PartialEq)]
/// struct Account { bank: u32, number: u32 }
///
/// impl Key for Account {
///     fn encode(self) -> u64 {
///         (self.bank, self.number).encode()
///     }
///
///     fn decode(code: u64) -> Account {
///         let (bank, number) = Key::decode(code);
///         Account { bank, number }
///     }
/// }
///
/// let map: Map<Account, u64> = Map::with_capacity(100)?;
/// map.insert(Account { bank: 3, number: 7 }, 50)?;
/// assert_eq!(map.keys().next(), Some(Account { bank: 3, number: 7 }));
/// # Ok::<(), Box<dyn std::error::Error>>(())
/// ```
pub trait Key: Copy {
    /// Returns the number of the key.
    fn encode(self) -> u64;

    /// Returns the key of this number, which `encode` has returned.
    fn decode(code: u64) -> Self;
}

/// A value of a [`Map`](crate::Map): one number of 128 bits for each.
///
/// `decode` is the inverse of `encode`. Two values are the same to a map if and only if their numbers are. Values own
/// nothing, as the map drops none.
///
/// ```
/// use guttertide::{Map, Value};
///
/// #[derive(Clone, Copy, Debug, PartialEq)]
/// struct Point(f32, f32);
///
/// impl Value for Point {
///     fn encode(self) -> u128 {
///         (u64::from(self.0.to_bits()), u64::from(self.1.to_bits())).encode()
///     }
///
///     fn decode(code: u128) -> Point {
///         let (x, y): (u64, u64) = Value::decode(code);
///         Point(f32::from_bits(x as u32), f32::from_bits(y as u32))
///     }
/// }
///
/// let map: Map<u64, Point> = Map::with_capacity(100)?;
/// map.insert(5, Point(0.5, -1.0))?;
/// assert_eq!(map.get(5), Some(Point(0.5, -1.0)));
/// # Ok::<(), Box<dyn std::error::Error>>(())
/// ```
pub trait Value: Copy {
    /// Returns the number of the value.
    fn encode(self) -> u128;

    /// Returns the value of this number, which `encode` has returned.
    fn decode(code: u128) -> Self;
}

macro_rules! coded {
    ($($kind:ty: $encode:expr, $decode:expr;)*) => {$(
        impl Key for $kind {
            fn encode(self) -> u64 {
                let encode: fn($kind) -> u64 = $encode;
                encode(self)
            }

            fn decode(code: u64) -> $kind {
                let decode: fn(u64) -> $kind = $decode;
                decode(code)
            }
        }

        impl Value for $kind {
            fn encode(self) -> u128 {
                Key::encode(self).into()
            }

            fn decode(code: u128) -> $kind {
                Key::decode(code as u64)
            }
        }
    )*};
}

/// The sign bit: with it turned over, the numbers of a signed type are in the order of those of the unsigned one.
const SIGN: u64 = 1 << 63;

coded! {
    bool: u64::from, |code| code != 0;
    char: |it| u64::from(u32::from(it)), |code| char::from_u32(code as u32).unwrap_or(char::REPLACEMENT_CHARACTER);
    u8: u64::from, |code| code as u8;
    u16: u64::from, |code| code as u16;
    u32: u64::from, |code| code as u32;
    u64: |it| it, |code| code;
    usize: |it| it as u64, |code| code as usize;
    i8: |it| it as i64 as u64 ^ SIGN, |code| (code ^ SIGN) as i8;
    i16: |it| it as i64 as u64 ^ SIGN, |code| (code ^ SIGN) as i16;
    i32: |it| it as i64 as u64 ^ SIGN, |code| (code ^ SIGN) as i32;
    i64: |it| it as u64 ^ SIGN, |code| (code ^ SIGN) as i64;
    isize: |it| it as i64 as u64 ^ SIGN, |code| (code ^ SIGN) as isize;
    Ipv4Addr: |it| u64::from(u32::from(it)), |code| Ipv4Addr::from(code as u32);
    [u8; 8]: u64::from_be_bytes, u64::to_be_bytes;
    (u32, u32): |(high, low)| u64::from(high) << 32 | u64::from(low), |code| ((code >> 32) as u32, code as u32);
}

macro_rules! valued {
    ($($kind:ty: $encode:expr, $decode:expr;)*) => {$(
        impl Value for $kind {
            fn encode(self) -> u128 {
                let encode: fn($kind) -> u128 = $encode;
                encode(self)
            }

            fn decode(code: u128) -> $kind {
                let decode: fn(u128) -> $kind = $decode;
                decode(code)
            }
        }
    )*};
}

valued! {
    (): |()| 0, |_| ();
    u128: |it| it, |code| code;
    i128: |it| it as u128, |code| code as i128;
    f32: |it| it.to_bits().into(), |code| f32::from_bits(code as u32);
    f64: |it| it.to_bits().into(), |code| f64::from_bits(code as u64);
    Ipv6Addr: u128::from, Ipv6Addr::from;
    [u8; 16]: u128::from_be_bytes, u128::to_be_bytes;
    (u64, u64): |(high, low)| u128::from(high) << 64 | u128::from(low), |code| ((code >> 64) as u64, code as u64);
}
