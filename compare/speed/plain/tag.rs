//! The rules of a nonce read and of the nine requests, without proofs, over a plain unit.
use crate::plain::forms::{Form, Tag, TAG_SIZE};
use crate::plain::identifier;
use crate::plain::unit::{IdentityKey, Nonce, Ring, Unit};

pub const ROOM: usize = 42;
const HEAD: usize = 10;

pub const NOT_AUTHENTICATED: u32 = 0x80;
pub const INVALID: u32 = 0x81;
pub const NO_CONSENT: u32 = 0x82;
pub const OUT_OF_RANGE: u32 = 1;
pub const NOT_WELL_FORMED: u32 = 2;
pub const WRONG_NONCE: u32 = 3;
pub const NO_ROOM: u32 = 6;

/// The answer's bytes, or a refusal's number.
pub type Answered = Result<usize, u32>;

/// Issues the lent nonce, which is none of the last sixteen.
pub fn read(u: &mut Unit, nonce: &[u8], answer: &mut [u8]) -> Answered {
    let nonce: Nonce = nonce.try_into().map_err(|_| WRONG_NONCE)?;
    if u.nonces[..u.issued].contains(&nonce) {
        return Err(WRONG_NONCE);
    }
    u.issue(nonce);
    answer[0] = 0x01;
    answer[1..9].copy_from_slice(&nonce);
    Ok(9)
}

/// A request of legal shape, with the nonce that it is judged by and the mask of the parts that can be reached.
struct Request<'a> {
    id: u8,
    length: u8,
    tag: Tag,
    data: &'a [u8],
    nonce: Nonce,
    reach: u8,
}

/// The key that the answer is signed with, and the answer's data.
struct Granted<F: Form> {
    key: F::Keyed,
    size: usize,
    data: [u8; ROOM - HEAD],
}

impl<F: Form> Granted<F> {
    fn new(key: F::Keyed, data: &[u8]) -> Self {
        let mut room = [0; ROOM - HEAD];
        room[..data.len()].copy_from_slice(data);
        Granted { key, size: data.len(), data: room }
    }
}

fn legal(id: u8, length: u8) -> bool {
    match id {
        0x00 | 0x01 | 0x04 | 0x06 => length == 8,
        0x02 => length == 40 || length == 48,
        0x03 | 0x08 => length == 16,
        0x05 => length == 12,
        0x07 => length == 8 || length == 9,
        _ => false,
    }
}

/// The bytes that a tag covers before the data.
fn covered(nonce: &Nonce, id: u8, length: u8) -> [u8; 11] {
    let mut head = [0x01; 11];
    head[1..9].copy_from_slice(nonce);
    head[9] = id;
    head[10] = length;
    head
}

/// A request of the phone's.
pub fn write<F: Form>(u: &mut Unit, request: &[u8], reach: u32, answer: &mut [u8]) -> Answered {
    if reach & !(u.ringable_mask() as u32) != 0 {
        return Err(OUT_OF_RANGE);
    }
    let live = std::mem::replace(&mut u.live, false);
    let [id, length, rest @ ..] = request else { return Err(INVALID) };
    if !legal(*id, *length) || rest.len() != *length as usize {
        return Err(INVALID);
    }
    if !live {
        return Err(NOT_AUTHENTICATED);
    }
    let nonce = u.nonces[0];
    let (tag, data) = rest.split_at(TAG_SIZE);
    let request = Request { id: *id, length: *length, tag: tag.try_into().unwrap(), data, nonce, reach: reach as u8 };
    let granted = judged::<F>(u, &request)?;
    let (length, data) = ((TAG_SIZE + granted.size) as u8, &granted.data[..granted.size]);
    let tag = F::mac(&granted.key, [&covered(&nonce, *id, length), data, &[0x01]]);
    answer[0] = *id;
    answer[1] = length;
    answer[2..HEAD].copy_from_slice(&tag);
    answer[HEAD..HEAD + data.len()].copy_from_slice(data);
    Ok(HEAD + data.len())
}

fn judged<F: Form>(u: &mut Unit, r: &Request) -> Result<Granted<F>, u32> {
    if r.id <= 0x02 {
        return match r.id {
            0x00 => parameters(u, r),
            0x01 => state(u, r),
            _ => set_key(u, r),
        };
    }
    let identity = u.identity.ok_or(NOT_AUTHENTICATED)?;
    match r.id {
        0x03 => clear(u, r, &identity),
        0x04 => recover(u, r, &identity),
        0x05 => ring(u, r, &identity),
        0x06 => sound(u, r, &identity),
        _ => protect(u, r, &identity),
    }
}

fn tagged<F: Form>(key: &F::Keyed, r: &Request) -> bool {
    F::mac(key, [&covered(&r.nonce, r.id, r.length), r.data, &[]]) == r.tag
}

/// The key made ready, if it signed the request.
fn signer<F: Form>(key: &[u8], r: &Request) -> Option<F::Keyed> {
    let keyed = F::keyed(key);
    tagged::<F>(&keyed, r).then_some(keyed)
}

/// The first held account key, the most recently used first, whose tag matches.
fn account<F: Form>(u: &Unit, r: &Request) -> Result<(usize, F::Keyed), u32> {
    let held = u.keys[..u.count].iter().enumerate();
    held.into_iter().find_map(|(place, key)| Some((place, signer::<F>(key, r)?))).ok_or(NOT_AUTHENTICATED)
}

fn owner<F: Form>(u: &Unit, r: &Request) -> Result<(usize, F::Keyed), u32> {
    let place = u.owner.ok_or(NOT_AUTHENTICATED)?;
    Ok((place, signer::<F>(&u.keys[place], r).ok_or(NOT_AUTHENTICATED)?))
}

fn derived<F: Form>(identity: &IdentityKey, n: u8) -> Tag {
    F::hash(identity, &[n])
}

fn derived_signer<F: Form>(identity: &IdentityKey, n: u8, r: &Request) -> Result<F::Keyed, u32> {
    signer::<F>(&derived::<F>(identity, n), r).ok_or(NOT_AUTHENTICATED)
}

fn proves<F: Form>(identity: &IdentityKey, r: &Request, proof: &[u8]) -> Result<(), u32> {
    (F::hash(identity, &r.nonce) == proof).then_some(()).ok_or(NOT_AUTHENTICATED)
}

fn parameters<F: Form>(u: &mut Unit, r: &Request) -> Result<Granted<F>, u32> {
    let (place, key) = account::<F>(u, r)?;
    u.use_key(place);
    let mut block = [0; 16];
    block[0] = u.power as i8 as u8;
    block[1..5].copy_from_slice(&u.seconds.to_be_bytes());
    block[6] = u.components;
    block[7] = u.selectable;
    let [data] = F::encrypt(&u.keys[0], [block]);
    Ok(Granted::new(key, &data))
}

fn state<F: Form>(u: &mut Unit, r: &Request) -> Result<Granted<F>, u32> {
    let (place, key) = account::<F>(u, r)?;
    u.owner.get_or_insert(place);
    u.use_key(place);
    let mut data = [0; 21];
    data[0] = u.identity.is_some() as u8 | ((u.owner == Some(0)) as u8) << 1;
    match u.identity.and_then(|identity| identifier::of::<F>(&identity, u.window())) {
        Some(identifier) => {
            data[1..].copy_from_slice(&identifier);
            Ok(Granted::new(key, &data))
        }
        None => Ok(Granted::new(key, &data[..1])),
    }
}

fn blocks(bytes: &[u8]) -> [[u8; 16]; 2] {
    [bytes[..16].try_into().unwrap(), bytes[16..32].try_into().unwrap()]
}

fn joined([first, second]: [[u8; 16]; 2]) -> [u8; 32] {
    let mut both = [0; 32];
    both[..16].copy_from_slice(&first);
    both[16..].copy_from_slice(&second);
    both
}

fn set_key<F: Form>(u: &mut Unit, r: &Request) -> Result<Granted<F>, u32> {
    let (place, key) = owner::<F>(u, r)?;
    match (&u.identity, r.data.len() == 40) {
        (Some(identity), true) => proves::<F>(identity, r, &r.data[32..])?,
        (None, false) => (),
        _ => return Err(NOT_AUTHENTICATED),
    }
    u.use_key(place);
    u.waiting = Some(joined(F::decrypt(&u.keys[0], blocks(r.data))));
    Ok(Granted::new(key, &[]))
}

fn clear<F: Form>(u: &mut Unit, r: &Request, identity: &IdentityKey) -> Result<Granted<F>, u32> {
    let (_, key) = owner::<F>(u, r)?;
    proves::<F>(identity, r, r.data)?;
    *u = Unit {
        count: 0,
        keys: Default::default(),
        owner: None,
        identity: None,
        waiting: None,
        ring: None,
        protection: None,
        consent: 0,
        ..*u
    };
    Ok(Granted::new(key, &[]))
}

fn recover<F: Form>(u: &Unit, r: &Request, identity: &IdentityKey) -> Result<Granted<F>, u32> {
    let place = u.owner.ok_or(NOT_AUTHENTICATED)?;
    let key = derived_signer::<F>(identity, 1, r)?;
    if u.consent == 0 && !u.pairing {
        return Err(NO_CONSENT);
    }
    Ok(Granted::new(key, &joined(F::encrypt(&u.keys[place], blocks(identity)))))
}

fn ring<F: Form>(u: &mut Unit, r: &Request, identity: &IdentityKey) -> Result<Granted<F>, u32> {
    let key = match u.protection {
        Some(true) => F::keyed(&derived::<F>(identity, 2)),
        _ => derived_signer::<F>(identity, 2, r)?,
    };
    let [asked, high, low, volume] = *r.data else { return Err(INVALID) };
    let whole = u.ringable_mask();
    let mask = if asked == 0xff { whole } else { asked };
    let left = u16::from_be_bytes([high, low]);
    let timed = mask == 0 || (1..=6000).contains(&left);
    if mask & !whole != 0 || asked == 0xff && whole == 0 || volume > 3 || !timed {
        return Err(INVALID);
    }
    let (sounds, remain) = sounding(u);
    let wanted = if mask == 0 { sounds } else { mask };
    if wanted & r.reach == 0 && (mask != 0 || sounds != 0) {
        let [high, low] = remain.to_be_bytes();
        return Ok(Granted::new(key, &[1, sounds, high, low]));
    }
    if mask == 0 {
        u.ring = None;
        return Ok(Granted::new(key, &[4, 0, 0, 0]));
    }
    let (mask, volume) = (mask & r.reach, if u.selectable == 0 { 0 } else { volume });
    u.ring = Some(Ring { mask, volume, left, nonce: r.nonce });
    Ok(Granted::new(key, &[0, mask, high, low]))
}

/// What sounds now, and the tenths left; zeros while silent.
fn sounding(u: &Unit) -> (u8, u16) {
    u.ring.map_or((0, 0), |ring| (ring.mask, ring.left))
}

fn sound<F: Form>(u: &Unit, r: &Request, identity: &IdentityKey) -> Result<Granted<F>, u32> {
    let key = derived_signer::<F>(identity, 2, r)?;
    let (mask, left) = sounding(u);
    let [high, low] = left.to_be_bytes();
    Ok(Granted::new(key, &[mask, high, low]))
}

/// 0x07 and 0x08.
fn protect<F: Form>(u: &mut Unit, r: &Request, identity: &IdentityKey) -> Result<Granted<F>, u32> {
    let key = derived_signer::<F>(identity, 3, r)?;
    u.protection = match (r.id, r.data) {
        (0x07, [] | [0]) => Some(false),
        (0x07, [1]) => Some(true),
        (0x07, _) => return Err(INVALID),
        _ => {
            proves::<F>(identity, r, r.data)?;
            None
        }
    };
    Ok(Granted::new(key, &[]))
}
