// Sets of up to 256 dotted places, in four machine words.
pub type Items = [u64; 4];

pub const NONE: Items = [0; 4];

pub fn or(a: Items, b: Items) -> Items {
    [a[0] | b[0], a[1] | b[1], a[2] | b[2], a[3] | b[3]]
}

fn and(a: Items, b: Items) -> Items {
    [a[0] & b[0], a[1] & b[1], a[2] & b[2], a[3] & b[3]]
}

// Each place of the set that the mask has, moved by one.
pub fn step(set: Items, mask: Items) -> Items {
    let a = and(set, mask);
    [a[0] << 1, a[1] << 1 | a[0] >> 63, a[2] << 1 | a[1] >> 63, a[3] << 1 | a[2] >> 63]
}

fn any(a: Items) -> bool {
    a[0] | a[1] | a[2] | a[3] != 0
}

pub fn meets(a: Items, b: Items) -> bool {
    any(and(a, b))
}

// Adds the others; whether one of them was new.
pub fn grow(set: &mut Items, more: Items) -> bool {
    let new = and(more, set.map(|number| !number));
    *set = or(*set, more);
    any(new)
}

pub fn has(set: Items, place: usize) -> bool {
    set[place / 64] >> (place % 64) & 1 == 1
}

pub fn put(set: &mut Items, place: usize) {
    set[place / 64] |= 1 << (place % 64);
}
