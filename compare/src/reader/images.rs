//! Segment images: built right, then cut, damaged, given stray marks, low ids and lengths near 2^32.

use crate::rng::Rng;

/// An image in the making.
#[derive(Debug, Clone, Default)]
pub struct Image(pub Vec<u8>);

impl Image {
    pub fn header(info: &[u8]) -> Self {
        let mut image = Self(b"okw\0".to_vec());
        image.0.push(info.len() as u8);
        image.0.extend(info);
        image
    }

    #[must_use]
    pub fn entry(mut self, id: u64) -> Self {
        self.0.push(1);
        self.0.extend(id.to_le_bytes());
        self
    }

    #[must_use]
    pub fn chunk(mut self, data: &[u8]) -> Self {
        self = self.announced(data.len() as u32);
        self.0.extend(data);
        self.0.extend(crc32c::crc32c(data).to_le_bytes());
        self
    }

    /// A chunk's 02 and length alone.
    #[must_use]
    pub fn announced(mut self, length: u32) -> Self {
        self.0.push(2);
        self.0.extend(length.to_le_bytes());
        self
    }

    #[must_use]
    pub fn end(self) -> Self {
        self.bytes(&[3])
    }

    #[must_use]
    pub fn bytes(mut self, bytes: &[u8]) -> Self {
        self.0.extend(bytes);
        self
    }

    #[must_use]
    pub fn zeros(self, count: usize) -> Self {
        self.bytes(&vec![0; count])
    }
}

/// A random image, and the file id to read it with.
pub fn random(rng: &mut Rng) -> (Vec<u8>, u64) {
    let file_id = rng.pick(&[0, 1, 2, 1 << 40]);
    let info_length = if rng.chance(1, 3) { rng.below(256) } else { rng.below(4) };
    let info = rng.bytes(info_length as usize);
    let mut image = Image::header(&info);
    let scale = rng.pick(&[12, 12, 12, 40, 40, 300, 12_000]);
    for _ in 0..rng.below(5) {
        image = entry(image, rng, file_id, scale);
    }
    image = behind(image, rng);
    damage(&mut image.0, rng);
    if rng.chance(1, 400) {
        image.0.resize(rng.pick(&[1_048_576, 1_048_577]), 0);
    }
    (image.0, file_id)
}

fn entry(mut image: Image, rng: &mut Rng, file_id: u64, scale: u64) -> Image {
    let id = match rng.below(20) {
        0 => file_id.wrapping_sub(1),
        1 => u64::MAX,
        _ => file_id + rng.below(4),
    };
    image = image.entry(id);
    for _ in 0..rng.below(4) {
        image = chunk(image, rng, scale);
    }
    match rng.below(12) {
        0 => image,
        1 => chunk(image.end(), rng, scale),
        2 => image.end().end(),
        3 => chunk(image.end(), rng, scale).end(),
        _ => image.end(),
    }
}

fn chunk(image: Image, rng: &mut Rng, scale: u64) -> Image {
    let length = rng.below(scale) as usize;
    match rng.below(25) {
        0 => {
            let data = rng.bytes(length);
            image.announced(u32::MAX - rng.below(9) as u32).bytes(&data)
        }
        1 => {
            let lacking = rng.below(8) as u32;
            let data = rng.bytes(length);
            image.announced(length as u32 + lacking).bytes(&data)
        }
        _ => {
            let data = rng.bytes(length);
            image.chunk(&data)
        }
    }
}

/// What stands behind the last entry.
fn behind(image: Image, rng: &mut Rng) -> Image {
    let count = rng.below(40) as usize;
    match rng.below(6) {
        0 => image,
        1 => {
            let bytes = rng.bytes(count);
            image.bytes(&bytes)
        }
        2 => {
            let marks: Vec<u8> = (0..count).map(|_| rng.below(4) as u8).collect();
            image.bytes(&marks)
        }
        _ => image.zeros(count),
    }
}

fn damage(image: &mut Vec<u8>, rng: &mut Rng) {
    let size = image.len() as u64;
    match rng.below(10) {
        0 => image.truncate(rng.below(size + 1) as usize),
        1..=3 => image.truncate((size - rng.below(size.min(60))) as usize),
        4 | 5 => {
            let at = rng.below(size) as usize;
            image[at] ^= 1 << rng.below(8);
        }
        6 => {
            let at = rng.below(size) as usize;
            image[at] = rng.below(4) as u8;
        }
        7 if rng.chance(1, 2) => {
            let at = rng.below(size.min(6)) as usize;
            image[at] = image[at].wrapping_add(1);
        }
        _ => {}
    }
}
