//! In Rust, what some calls of the library for C do for the bench: requests and replies walked as
//! bytes and checked, groups in a `HashMap`, each part written once. Arguments are borrowed. It knows
//! `DEL` and `MGET` alone, and doesn't say where bytes are at fault. `bench/in_c.c` calls it, and
//! compares what both write.

use std::collections::HashMap;

const fn remainders() -> [u16; 256] {
    let mut table = [0; 256];
    let mut byte = 0;
    while byte < 256 {
        let mut crc = (byte as u16) << 8;
        let mut bit = 0;
        while bit < 8 {
            crc = if crc & 0x8000 == 0 { crc << 1 } else { (crc << 1) ^ 0x1021 };
            bit += 1;
        }
        table[byte] = crc;
        byte += 1;
    }
    table
}

static REMAINDERS: [u16; 256] = remainders();

fn slot_of(key: &[u8]) -> u16 {
    let tag = key.iter().position(|b| *b == b'{').and_then(|open| {
        let rest = &key[open + 1..];
        rest.iter().position(|b| *b == b'}').filter(|len| *len > 0).map(|len| &rest[..len])
    });
    let crc = |crc: u16, b: &u8| (crc << 8) ^ REMAINDERS[usize::from((crc >> 8) as u8 ^ b)];
    tag.unwrap_or(key).iter().fold(0, crc) % 16384
}

/// The number of the line at the front, after its mark, and what follows the line. A length has no
/// sign and, in a request, no leading zero.
fn line(bytes: &[u8]) -> Option<(u8, i64, &[u8])> {
    let (mark, rest) = bytes.split_first()?;
    let end = rest.iter().position(|b| *b == b'\r' || *b == b'\n')?;
    let (text, after) = (&rest[..end], rest[end..].strip_prefix(b"\r\n")?);
    match mark {
        b'+' | b'-' => Some((*mark, 0, after)),
        b'$' | b'*' if text == b"-1" => Some((*mark, -1, after)),
        b'$' | b'*' | b':' => Some((*mark, number(text)?, after)),
        _ => None,
    }
}

fn number(text: &[u8]) -> Option<i64> {
    let (is_negative, digits) = text.strip_prefix(b"-").map_or((false, text), |digits| (true, digits));
    if digits.is_empty() {
        return None;
    }
    let digit = |n: Option<i64>, b: &u8| {
        b.is_ascii_digit().then_some(())?;
        n?.checked_mul(10)?.checked_add(i64::from(b - b'0'))
    };
    digits.iter().fold(Some(0), digit).map(|n| if is_negative { -n } else { n })
}

/// The bytes of a bulk string of this length, and what follows its end.
fn bulk(len: i64, bytes: &[u8]) -> Option<(&[u8], &[u8])> {
    let (own, rest) = bytes.split_at_checked(usize::try_from(len).ok()?)?;
    Some((own, rest.strip_prefix(b"\r\n")?))
}

/// The arguments of the request at the front, and what follows it.
fn request(bytes: &[u8]) -> Option<(Vec<&[u8]>, &[u8])> {
    let (b'*', count, mut rest) = line(bytes)? else { return None };
    let mut args = Vec::with_capacity(count.clamp(0, 1024) as usize);
    for _ in 0..count {
        let (b'$', len, after) = line(rest)? else { return None };
        let (arg, after) = bulk(len, after)?;
        args.push(arg);
        rest = after;
    }
    Some((args, rest))
}

/// Whether a command is split by slot.
fn is_split(args: &[&[u8]]) -> bool {
    args.len() > 1 && matches!(&*args[0].to_ascii_uppercase(), b"DEL" | b"MGET")
}

/// What follows the reply at the front.
fn after_reply(bytes: &[u8]) -> Option<&[u8]> {
    let (mut wanted, mut rest) = (1_u64, bytes);
    while wanted > 0 {
        wanted -= 1;
        let (mark, number, after) = line(rest)?;
        rest = after;
        match mark {
            b'$' if number >= 0 => rest = bulk(number, after)?.1,
            b'*' if number >= 0 => wanted = wanted.checked_add(number as u64)?,
            b'$' | b'*' if number < -1 => return None,
            _ => {}
        }
    }
    Some(rest)
}

fn push_line(out: &mut Vec<u8>, mark: u8, mut number: usize) {
    let (mut digits, mut at) = ([0; 20], 20);
    loop {
        at -= 1;
        digits[at] = b'0' + (number % 10) as u8;
        number /= 10;
        if number == 0 {
            break;
        }
    }
    out.push(mark);
    out.extend_from_slice(&digits[at..]);
    out.extend_from_slice(b"\r\n");
}

fn push_bulk(out: &mut Vec<u8>, bytes: &[u8]) {
    push_line(out, b'$', bytes.len());
    out.extend_from_slice(bytes);
    out.extend_from_slice(b"\r\n");
}

/// The slots of the keys, each once in the order of the first, and the number of each key's slot.
fn groups(keys: &[&[u8]]) -> (Vec<u16>, Vec<usize>) {
    let (mut slots, mut numbers) = (Vec::new(), HashMap::with_capacity(keys.len()));
    let number = |key: &&[u8]| {
        let slot = slot_of(key);
        *numbers.entry(slot).or_insert_with(|| {
            slots.push(slot);
            slots.len() - 1
        })
    };
    let places = keys.iter().map(number).collect();
    (slots, places)
}

fn split(bytes: &[u8]) -> Option<(Vec<u16>, Vec<usize>, Vec<u8>)> {
    let (args, []) = request(bytes)? else { return None };
    is_split(&args).then_some(())?;
    let (slots, places) = groups(&args[1..]);
    let mut keys = vec![Vec::new(); slots.len()];
    args[1..].iter().zip(&places).for_each(|(key, place)| keys[*place].push(*key));
    let (mut ends, mut out) = (Vec::with_capacity(slots.len()), Vec::with_capacity(2 * bytes.len()));
    for keys in keys {
        push_line(&mut out, b'*', keys.len() + 1);
        push_bulk(&mut out, args[0]);
        keys.iter().for_each(|key| push_bulk(&mut out, key));
        ends.push(out.len());
    }
    Some((slots, ends, out))
}

/// The lists of the replies as one, in the order of the keys.
fn combine(bytes: &[u8], mut replies: &[u8]) -> Option<Vec<u8>> {
    let (args, []) = request(bytes)? else { return None };
    is_split(&args).then_some(())?;
    let (slots, places) = groups(&args[1..]);
    let mut items = Vec::with_capacity(slots.len());
    for _ in &slots {
        let (b'*', _, own) = line(replies)? else { return None };
        items.push(own);
        replies = after_reply(replies)?;
    }
    let mut out = Vec::with_capacity(bytes.len() + 64);
    push_line(&mut out, b'*', places.len());
    for place in places {
        let after = after_reply(items[place])?;
        out.extend_from_slice(&items[place][..items[place].len() - after.len()]);
        items[place] = after;
    }
    Some(out)
}

fn put<T: Copy>(out: &mut [T], items: &[T]) -> usize {
    out[..items.len()].copy_from_slice(items);
    items.len()
}

unsafe fn all<'a, T>(items: *const T, len: usize) -> &'a [T] {
    // SAFETY: `in_c.c` passes an array of this length.
    unsafe { std::slice::from_raw_parts(items, len) }
}

unsafe fn all_mut<'a, T>(items: *mut T, len: usize) -> &'a mut [T] {
    // SAFETY: as above.
    unsafe { std::slice::from_raw_parts_mut(items, len) }
}

#[unsafe(no_mangle)]
unsafe extern "C" fn careful_reply_len(bytes: *const u8, len: usize) -> usize {
    let bytes = unsafe { all(bytes, len) };
    after_reply(bytes).map_or(0, |after| len - after.len())
}

#[unsafe(no_mangle)]
unsafe extern "C" fn careful_split(
    request: *const u8, len: usize, slots: *mut u16, ends: *mut usize, parts: usize, out: *mut u8, room: usize,
) -> usize {
    let Some((its_slots, its_ends, bytes)) = split(unsafe { all(request, len) }) else { return 0 };
    put(unsafe { all_mut(slots, parts) }, &its_slots);
    put(unsafe { all_mut(ends, parts) }, &its_ends);
    put(unsafe { all_mut(out, room) }, &bytes)
}

#[unsafe(no_mangle)]
unsafe extern "C" fn careful_combine(
    request: *const u8, len: usize, replies: *const u8, replies_len: usize, out: *mut u8, room: usize,
) -> usize {
    let one = combine(unsafe { all(request, len) }, unsafe { all(replies, replies_len) });
    put(unsafe { all_mut(out, room) }, &one.unwrap_or_default())
}
