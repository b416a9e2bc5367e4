// Taught poses in plain Rust: the same looks as the library's, in the same order.
const ROOM: usize = 5120;
const PLACE: usize = 80;
const PLACES: usize = ROOM / PLACE;

/// A foot's point and whether it is lifted, in row order.
#[derive(Clone, Copy)]
pub struct Foot {
    pub point: [f32; 3],
    pub lifted: bool,
}

pub type Feet = [Foot; 6];

type Place = [u8; PLACE];

fn places(room: &[u8]) -> &[Place] {
    room.as_chunks().0
}

fn id_of(place: &Place) -> u16 {
    u16::from_le_bytes([place[0], place[1]])
}

fn floats(bytes: &[u8]) -> impl Iterator<Item = f32> + '_ {
    bytes.as_chunks().0.iter().map(|b| f32::from_le_bytes(*b))
}

// No end in the middle, here and below, so that the compiler takes many at once.
fn permitted(numbers: impl Iterator<Item = f32>) -> bool {
    numbers.fold(true, |good, x| good & (-4.0..=4.0).contains(&x))
}

fn holds_pose(place: &Place) -> bool {
    place[2..8].iter().fold(true, |good, mark| good & (*mark <= 1)) && permitted(floats(&place[8..]))
}

fn all_zero(bytes: &[u8]) -> bool {
    bytes.iter().fold(0, |a, b| a | b) == 0
}

/// How many places are used, in a room that calls can have left.
fn used(room: &[u8]) -> Result<usize, u32> {
    if room.len() != ROOM {
        return Err(17);
    }
    let (mut n, mut last) = (0, 0);
    for place in places(room) {
        let id = id_of(place);
        if id == 0 {
            break;
        }
        if id <= last || !holds_pose(place) {
            return Err(17);
        }
        last = id;
        n += 1;
    }
    if all_zero(&room[PLACE * n..]) { Ok(n) } else { Err(17) }
}

/// The place that has the id, or where it would stand.
fn place_of(room: &[u8], n: usize, id: u16) -> Result<usize, usize> {
    let used = &places(room)[..n];
    match used.iter().position(|place| id <= id_of(place)) {
        Some(k) if id_of(&used[k]) == id => Ok(k),
        Some(k) => Err(k),
        None => Err(n),
    }
}

fn found(room: &[u8], id: u16) -> Result<(usize, usize), u32> {
    let n = used(room)?;
    if id == 0 {
        return Err(15);
    }
    match place_of(room, n, id) {
        Ok(k) => Ok((n, k)),
        Err(_) => Err(12),
    }
}

pub fn fresh(room: &mut [u8]) -> Result<(), u32> {
    if room.len() != ROOM {
        return Err(17);
    }
    room.fill(0);
    Ok(())
}

pub fn put(room: &mut [u8], id: u16, pose: &Feet) -> Result<(), u32> {
    let n = used(room)?;
    let numbers = || pose.iter().flat_map(|foot| &foot.point).copied();
    if !permitted(numbers()) {
        return Err(if numbers().all(f32::is_finite) { 2 } else { 1 });
    }
    if id == 0 {
        return Err(15);
    }
    let k = match place_of(room, n, id) {
        Ok(k) => k,
        Err(_) if n == PLACES => return Err(11),
        Err(k) => {
            room.copy_within(PLACE * k..PLACE * n, PLACE * (k + 1));
            k
        }
    };
    let place = &mut room[PLACE * k..PLACE * (k + 1)];
    place[..2].copy_from_slice(&id.to_le_bytes());
    for (mark, foot) in place[2..8].iter_mut().zip(pose) {
        *mark = foot.lifted as u8;
    }
    for (bytes, x) in place[8..].as_chunks_mut().0.iter_mut().zip(numbers()) {
        *bytes = x.to_le_bytes();
    }
    Ok(())
}

pub fn get(room: &[u8], id: u16) -> Result<Feet, u32> {
    let (_, k) = found(room, id)?;
    let place = &places(room)[k];
    let mut numbers = floats(&place[8..]);
    let mut point = || std::array::from_fn(|_| numbers.next().unwrap());
    Ok(std::array::from_fn(|l| Foot { point: point(), lifted: place[2 + l] == 1 }))
}

pub fn drop(room: &mut [u8], id: u16) -> Result<(), u32> {
    let (n, k) = found(room, id)?;
    room.copy_within(PLACE * (k + 1)..PLACE * n, PLACE * k);
    room[PLACE * (n - 1)..PLACE * n].fill(0);
    Ok(())
}

pub fn list(room: &[u8]) -> Result<(usize, [u16; PLACES]), u32> {
    let n = used(room)?;
    let mut ids = [0; PLACES];
    for (id, place) in ids.iter_mut().zip(places(room)) {
        *id = id_of(place);
    }
    Ok((n, ids))
}

/// The calls as the library's have them: numbers in, numbers out.
pub mod calls {
    use super::Foot;

    fn number(done: Result<(), u32>) -> u32 {
        done.err().unwrap_or(0)
    }

    #[export_name = "rust_taught_fresh"]
    #[inline(never)]
    pub fn fresh(room: &mut [u8]) -> u32 {
        number(super::fresh(room))
    }

    #[export_name = "rust_taught_put"]
    #[inline(never)]
    pub fn put(room: &mut [u8], id: u16, s: &[f32], marks: u32) -> u32 {
        let pose = std::array::from_fn(|l| Foot { point: [s[3 * l], s[3 * l + 1], s[3 * l + 2]], lifted: marks >> l & 1 == 1 });
        number(super::put(room, id, &pose))
    }

    #[export_name = "rust_taught_get"]
    #[inline(never)]
    pub fn get(room: &[u8], id: u16, out: &mut [f32], marks: &mut u32) -> u32 {
        match super::get(room, id) {
            Ok(pose) => {
                *marks = 0;
                for (l, foot) in pose.iter().enumerate() {
                    *marks |= (foot.lifted as u32) << l;
                    out[3 * l..3 * l + 3].copy_from_slice(&foot.point);
                }
                0
            }
            Err(n) => n,
        }
    }

    #[export_name = "rust_taught_drop"]
    #[inline(never)]
    pub fn drop(room: &mut [u8], id: u16) -> u32 {
        number(super::drop(room, id))
    }

    #[export_name = "rust_taught_list"]
    #[inline(never)]
    pub fn list(room: &[u8], ids: &mut [u16; 64], len: &mut usize) -> u32 {
        match super::list(room) {
            Ok(all) => {
                (*len, *ids) = all;
                0
            }
            Err(n) => {
                (*len, *ids) = (0, [0; 64]);
                n
            }
        }
    }
}
