//! Document 01's cases P1 to P11, answered by the model.

use model::{
    position, reader,
    writer::{self, Desk, Opening},
};

struct Segment {
    state: [u64; 16],
    info: [u8; 255],
    image: Vec<u8>,
    staging: Vec<u8>,
    answer: [u64; 4],
}

impl Segment {
    /// Id 1, v = 0, F = 0; image, staging and preallocation as given.
    fn fresh(size: usize) -> Self {
        let mut segment = Self::unopened(size);
        assert_eq!(segment.open(0, 0, size as u64), 0);
        segment
    }

    fn unopened(size: usize) -> Self {
        Self { state: [0; 16], info: [0; 255], image: vec![9; size], staging: vec![9; 64], answer: [0; 4] }
    }

    fn open(&mut self, validated_length: u64, file_length: u64, preallocate: u64) -> u64 {
        let version_info = &[];
        let id = 1;
        let (last_known, last_id) = (0, 0);
        let opening = Opening { version_info, id, last_known, last_id, validated_length, file_length, preallocate };
        self.call(|desk, _| writer::open(desk, &opening))
    }

    fn call(&mut self, call: impl FnOnce(&mut Desk<'_>, &mut [u64]) -> u64) -> u64 {
        let mut desk =
            Desk { state: &mut self.state, info: &mut self.info, image: &mut self.image, staging: &mut self.staging };
        call(&mut desk, &mut self.answer)
    }

    fn begin(&mut self, id: u64) -> u64 {
        self.call(|desk, _| writer::begin(desk, id))
    }

    fn empty_chunk(&mut self) {
        assert_eq!(self.call(|desk, _| writer::begin_chunk(desk, 0)), 0);
        assert_eq!(self.call(writer::finish), 0);
    }

    fn commit(&mut self) {
        assert_eq!(self.call(writer::commit), 0);
    }

    fn logical(&self) -> u64 {
        self.state[5] + self.state[6]
    }
}

#[test]
fn p1_fresh() {
    let segment = Segment::fresh(64);
    assert_eq!(segment.image[..5], [0x6F, 0x6B, 0x77, 0, 0]);
    assert_eq!((segment.state[5], segment.state[6], segment.state[7]), (5, 0, 0));
}

#[test]
fn p2_an_entry_with_an_empty_chunk() {
    let mut segment = Segment::fresh(64);
    assert_eq!(segment.begin(1), 0);
    segment.empty_chunk();
    assert_eq!(segment.answer, [1, 14, 0, 0]);
    segment.commit();
    assert_eq!(segment.answer, [1, 24, 0, 0]);
    segment.call(|desk, _| writer::flush(desk));
    let whole = [0x6F, 0x6B, 0x77, 0, 0, 1, 1, 0, 0, 0, 0, 0, 0, 0, 2, 0, 0, 0, 0, 0, 0, 0, 0, 3];
    assert_eq!(segment.image[..24], whole);
}

#[test]
fn p3_and_p4_room() {
    assert_eq!(Segment::fresh(14).begin(1), 5);
    let mut segment = Segment::fresh(15);
    assert_eq!(segment.begin(1), 0);
    segment.commit();
    assert_eq!(segment.logical(), 15);
}

#[test]
fn p5_low_ids() {
    let mut segment = Segment::fresh(64);
    assert_eq!(segment.begin(0), 7);
    assert_eq!(segment.begin(1), 0);
}

#[test]
fn p6_a_position() {
    let mut bytes = [9; 16];
    assert_eq!(position::write(1, 2, &mut bytes), 0);
    assert_eq!(bytes, [1, 0, 0, 0, 0, 0, 0, 0, 2, 0, 0, 0, 0, 0, 0, 0]);
}

#[test]
fn p7_and_p8_headers() {
    let mut state = [0; 10];
    assert_eq!(reader::open(&mut state, &[0x6F, 0x6B, 0x77, 1, 0], 1), 3);
    assert_eq!(reader::open(&mut state, &[0x6F, 0x6B, 0x77, 0], 1), 1);
}

#[test]
fn p9_landings() {
    let mut segment = Segment::fresh(64);
    for (offset, number) in [(-5, 0), (-6, 11), (i64::MIN, 11)] {
        assert_eq!(segment.call(|desk, answer| writer::land_current(desk, offset, answer)), number);
        assert_eq!(segment.answer[0], 0);
    }
    for (place, number) in [(64, 0), (65, 11)] {
        assert_eq!(segment.call(|desk, answer| writer::land_start(desk, place, answer)), number);
    }
}

#[test]
fn p10_preallocation() {
    let mut segment = Segment::unopened(1024);
    assert_eq!(segment.open(100, 1000, 1024), 0);
    for (at, byte) in segment.image.iter().enumerate() {
        let cleared = (100..124).contains(&at) || (1000..1024).contains(&at);
        assert_eq!(*byte, if cleared { 0 } else { 9 }, "byte {at}");
    }
}

#[test]
fn p11_staged_rollback() {
    let mut segment = Segment::fresh(64);
    segment.begin(1);
    segment.empty_chunk();
    assert_eq!(segment.call(|desk, _| writer::rollback(desk)), 0);
    segment.begin(2);
    segment.commit();
    assert_eq!(segment.call(|desk, _| writer::sync(desk, 15)), 0);
    assert_eq!((segment.state[5], segment.state[6], segment.state[7]), (15, 0, 15));
}

#[test]
fn p11_double_skip() {
    let mut segment = Segment::fresh(64);
    segment.image.fill(0);
    assert_eq!(segment.open(0, 0, 64), 0);
    segment.begin(1);
    segment.empty_chunk();
    segment.commit();
    segment.begin(2);
    segment.commit();
    segment.call(|desk, _| writer::flush(desk));
    let (mut state, mut answer) = ([0; 10], [0; 4]);
    assert_eq!(reader::open(&mut state, &segment.image, 1), 0);
    for (found, until) in [([1, 1], 5), ([1, 2], 24), ([0, 0], 34)] {
        assert_eq!(reader::entry(&mut state, &segment.image, &mut answer), 0);
        assert_eq!((answer[..2].to_vec(), state[4]), (found.to_vec(), until));
    }
}
