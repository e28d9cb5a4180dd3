//! Records made wrong: in a bit, in length, in a code, or out of place.

use crate::random::Random;
use crate::record::NEW;
use crate::write::framed;

/// `record` (with its length bytes) with one damage.
pub fn record(record: &[u8], r: &mut Random) -> Vec<u8> {
    let mut bytes = record.to_vec();
    match r.below(14) {
        0 | 1 => flip(&mut bytes, 2, r),
        2 => flip(&mut bytes, 0, r),
        3 => shorten(&mut bytes, r),
        4 => lengthen(&mut bytes, r),
        5 => bytes[2] = r.pick(&[0, 2, 255]).unwrap_or(0),
        6 => bytes[3] = r.pick(&[0, 18, 19, 17, 255]).unwrap_or(0),
        7 => bytes = second_new(r),
        8 => bytes = vec![0, 0],
        9 => bytes = vec![0, 1, 1],
        10 => last_byte(&mut bytes, r),
        11 | 12 => bytes = long_fields(r),
        _ => any_byte(&mut bytes, r),
    }
    bytes
}

fn flip(bytes: &mut [u8], from: usize, r: &mut Random) {
    let at = from + r.index(bytes.len() - from);
    bytes[at] ^= 1 << r.below(8);
}

/// Bytes missing at the end, the length as it is then.
fn shorten(bytes: &mut Vec<u8>, r: &mut Random) {
    let keep = 2 + r.index(bytes.len() - 2);
    bytes.truncate(keep);
    set_length(bytes);
}

/// Bytes left over.
fn lengthen(bytes: &mut Vec<u8>, r: &mut Random) {
    let more = 1 + r.index(5);
    bytes.extend((0..more).map(|_| r.below(3) as u8));
    set_length(bytes);
}

fn set_length(bytes: &mut [u8]) {
    let length = (bytes.len() - 2) as u16;
    bytes[..2].copy_from_slice(&length.to_be_bytes());
}

/// Where a record's code or flag stands: its last byte.
fn last_byte(bytes: &mut [u8], r: &mut Random) {
    let at = bytes.len() - 1;
    bytes[at] = r.pick(&[2, 3, 8, 9, 255]).unwrap_or(0);
}

/// A byte set to a limit or past it: lengths are among them.
fn any_byte(bytes: &mut [u8], r: &mut Random) {
    let at = 4 + r.index(bytes.len() - 4);
    bytes[at] = r.pick(&[0, 1, 48, 49, 128, 129, 255]).unwrap_or(0);
}

/// An arrived with fields at their limits or one past them.
fn long_fields(r: &mut Random) -> Vec<u8> {
    let (address, message) = (48 + r.below(2) as u8, 127 + r.below(3) as u8);
    let mut fields = vec![0; 8 + 4];
    fields.push(address);
    fields.extend(vec![3; address.into()]);
    fields.extend([0, message]);
    fields.extend(vec![4; message.into()]);
    let mut out = Vec::new();
    framed(3, &fields, &mut out);
    out
}

fn second_new(r: &mut Random) -> Vec<u8> {
    let mut fields = vec![0; 8 + 16 + 8];
    fields.push(r.below(3) as u8);
    let mut out = Vec::new();
    framed(NEW, &fields, &mut out);
    out
}
