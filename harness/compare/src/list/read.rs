//! The parts of a case, read from the next numbers.

use image::{Call, Group};

pub fn read_call(next: &mut impl FnMut() -> u64) -> Call {
    Call {
        operation: next(),
        cpu: next(),
        time: next(),
        context: next(),
    }
}

pub fn read_case(next: &mut impl FnMut() -> u64) -> (Call, Vec<u64>) {
    let call = read_call(next);
    (call, read_image(next))
}

pub fn read_group(next: &mut impl FnMut() -> u64) -> (Group, Vec<u64>) {
    let group = Group {
        cpu: next(),
        time: next(),
        mask: next(),
    };
    (group, read_image(next))
}

pub fn read_image(next: &mut impl FnMut() -> u64) -> Vec<u64> {
    let mut image = vec![0; next() as usize];
    read_pairs(next, &mut image);
    image
}

pub fn read_pairs(next: &mut impl FnMut() -> u64, image: &mut [u64]) {
    for _ in 0..next() {
        let place = next() as usize;
        image[place] = next();
    }
}
