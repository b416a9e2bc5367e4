// Taught poses read anew, in Rust, for judging: the room's table, the refusals in their order, and a plain map. Nothing is taken from the
// proved code, and nothing here is quick.
use std::collections::BTreeMap;

pub const ROOM: usize = 5120;
const PLACE: usize = 80;
const MOST: usize = 64;

/// Six marks, and the patterns of eighteen floats, in row order.
#[derive(Clone, Copy, Debug, PartialEq)]
pub struct Pose {
    pub marks: [bool; 6],
    pub bits: [u32; 18],
}

pub type Map = BTreeMap<u16, Pose>;

#[derive(Clone, Debug)]
pub enum Call {
    Fresh,
    Put(u16, Pose),
    Get(u16),
    Drop(u16),
    List,
}

#[derive(Debug, PartialEq)]
pub enum Told {
    Done,
    Refused(u32),
    Pose(Pose),
    Ids(Vec<u16>),
}

/// 1 where a coordinate is NaN or infinite, 2 where one is outside -4 to 4.
fn refused_pose(bits: &[u32; 18]) -> Option<u32> {
    let numbers = bits.map(f32::from_bits);
    if numbers.iter().any(|x| x.is_nan() || x.is_infinite()) {
        return Some(1);
    }
    numbers.iter().any(|x| *x < -4.0 || *x > 4.0).then_some(2)
}

fn byte_pairs(at: &[u8]) -> u16 {
    at[0] as u16 | (at[1] as u16) << 8
}

/// A used place's id and pose.
fn place(bytes: &[u8]) -> Option<(u16, Pose)> {
    let id = byte_pairs(bytes);
    let marks: [u8; 6] = std::array::from_fn(|l| bytes[2 + l]);
    let bits = std::array::from_fn(|k| byte_pairs(&bytes[8 + 4 * k..]) as u32 | (byte_pairs(&bytes[10 + 4 * k..]) as u32) << 16);
    let good = id >= 1 && marks.iter().all(|m| *m == 0 || *m == 1) && refused_pose(&bits).is_none();
    good.then_some((id, Pose { marks: marks.map(|m| m == 1), bits }))
}

/// The map of a room that some run of calls can have left: for some n up to 64 the first n places have rising ids, marks and coordinates,
/// and all bytes after them are 0. Where there is such an n, it is the number of places in front that are not all 0.
pub fn map_of(room: &[u8]) -> Option<Map> {
    if room.len() != ROOM {
        return None;
    }
    let n = (0..MOST).take_while(|k| room[PLACE * k..PLACE * (k + 1)].iter().any(|b| *b != 0)).count();
    if room[PLACE * n..].iter().any(|b| *b != 0) {
        return None;
    }
    let places: Option<Vec<(u16, Pose)>> = room[..PLACE * n].chunks(PLACE).map(place).collect();
    let places = places?;
    if places.windows(2).any(|two| two[0].0 >= two[1].0) {
        return None;
    }
    Some(places.into_iter().collect())
}

/// The one room of a map.
pub fn room_of(map: &Map) -> Vec<u8> {
    let mut room = vec![];
    for (id, pose) in map {
        room.extend([*id as u8, (*id >> 8) as u8]);
        room.extend(pose.marks.map(|m| m as u8));
        for b in pose.bits {
            room.extend([b as u8, (b >> 8) as u8, (b >> 16) as u8, (b >> 24) as u8]);
        }
    }
    room.resize(ROOM, 0);
    room
}

/// What a plain map answers.
pub fn answer(call: &Call, map: &Map) -> Told {
    match call {
        Call::Fresh => Told::Done,
        Call::Put(id, pose) => match refused_pose(&pose.bits) {
            Some(n) => Told::Refused(n),
            None if *id == 0 => Told::Refused(15),
            None if !map.contains_key(id) && map.len() == MOST => Told::Refused(11),
            None => Told::Done,
        },
        Call::Get(0) | Call::Drop(0) => Told::Refused(15),
        Call::Get(id) => map.get(id).map_or(Told::Refused(12), |pose| Told::Pose(*pose)),
        Call::Drop(id) => if map.contains_key(id) { Told::Done } else { Told::Refused(12) },
        Call::List => Told::Ids(map.keys().copied().collect()),
    }
}

/// The map after a call that is not refused.
pub fn after(call: &Call, map: &mut Map) {
    match call {
        Call::Fresh => map.clear(),
        Call::Put(id, pose) => {
            map.insert(*id, *pose);
        }
        Call::Drop(id) => {
            map.remove(id);
        }
        Call::Get(_) | Call::List => {}
    }
}

/// What a call on a room answers, and the room after it.
pub fn called(call: &Call, room: &[u8]) -> (Told, Vec<u8>) {
    if let (Call::Fresh, ROOM) = (call, room.len()) {
        return (Told::Done, vec![0; ROOM]);
    }
    let Some(mut map) = map_of(room) else {
        return (Told::Refused(17), room.to_vec());
    };
    let told = answer(call, &map);
    if told == Told::Done {
        after(call, &mut map);
    }
    (told, room_of(&map))
}
