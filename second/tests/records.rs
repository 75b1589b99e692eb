//! Wire records: reading, writing, and what is turned away.

mod common;

use common::{cut_foot, Numbers};
use second::record::{read, write, Record, LONGEST};
use second::{Place, Reason, Refusal};

fn refused<T>(reason: Reason, byte: usize) -> Result<T, Refusal> {
    Err(Refusal {
        reason,
        place: Place::Byte(byte),
    })
}

#[test]
fn the_map_says_which_bytes_follow() {
    let trace = [0b1000_0001, 0x11, 0x88, 0b10, 0x22, 0];
    assert_eq!(
        read(&trace, 0, 0),
        Ok(Some(Record {
            word: 0x8800_0000_0000_0011,
            end: 3
        }))
    );
    let before = 0x8800_0000_0000_0011;
    assert_eq!(
        read(&trace, 3, before),
        Ok(Some(Record {
            word: before | 0x2200,
            end: 5
        }))
    );
    assert_eq!(
        read(&trace, 5, before),
        Ok(Some(Record {
            word: before,
            end: 6
        }))
    );
    assert_eq!(read(&trace, 6, before), Ok(None));
}

#[test]
fn reading_past_the_end_is_torn() {
    assert_eq!(read(&[], 0, 0), Ok(None));
    for begin in [1, 2, usize::MAX] {
        assert_eq!(read(&[], begin, 0), refused(Reason::Torn, begin));
    }
    assert_eq!(read(&[0, 0], 3, 0), refused(Reason::Torn, 3));
}

#[test]
fn a_record_cut_anywhere_is_torn() {
    let trace = [0, 0xff, 1, 2, 3, 4, 5, 6, 7, 8];
    for cut in 2..trace.len() {
        assert_eq!(
            read(&trace[..cut], 1, 0),
            refused(Reason::Torn, 1),
            "cut at {cut}"
        );
    }
    assert_eq!(
        read(&trace, 1, 0),
        Ok(Some(Record {
            word: 0x0807_0605_0403_0201,
            end: 10
        }))
    );
}

#[test]
fn an_unchanged_byte_is_idle() {
    let trace = [0xff, 1, 2, 3, 4, 5, 6, 7, 8];
    for index in 0..8 {
        let before = u64::from(trace[index + 1]) << (8 * index);
        assert_eq!(
            read(&trace, 0, before),
            refused(Reason::IdleByte, 0),
            "byte {index}"
        );
    }
    assert_eq!(read(&[7, 1, 5], 1, 5), refused(Reason::IdleByte, 1));
    assert_eq!(read(&[7, 1, 4], 1, 5), Ok(Some(Record { word: 4, end: 3 })));
    // Torn comes first.
    assert_eq!(read(&[0b11, 0], 0, 0), refused(Reason::Torn, 0));
    assert_eq!(read(&[0b11, 0, 1], 0, 0), refused(Reason::IdleByte, 0));
}

#[test]
fn sheets_name_the_tick() {
    let text = b"input D[63:0]; p -> D[0] || !D[0]; monitor p;";
    let line = |trace: &[u8]| {
        let sheet = String::from_utf8(second::sheet(text, trace)).unwrap();
        cut_foot(&sheet).0.last().unwrap().to_string()
    };
    assert_eq!(line(&[1]), "refused 13 0");
    assert_eq!(line(&[1, 1, 0, 3, 5]), "refused 13 2");
    assert_eq!(line(&[1, 0]), "refused 14 0");
    assert_eq!(line(&[1, 1, 1, 1]), "refused 14 1");
    assert_eq!(line(&[1, 1, 1, 0]), "clean 2");
}

#[test]
fn a_refused_text_is_the_whole_sheet() {
    assert_eq!(second::sheet(b"input", &[1]), b"refused 3 5\n");
    assert_eq!(
        second::sheet(b"input a; p -> a*; monitor p;", &[1]),
        b"refused 10 0 0\n"
    );
}

#[test]
fn the_writer_sets_exactly_the_bits_of_changed_bytes() {
    let mut buffer = [0xaa; 12];
    assert_eq!(write(0x00ff_0000, 0x01ff_0000, &mut buffer), Ok(2));
    assert_eq!(buffer[..3], [0b1000, 1, 0xaa]);
    assert_eq!(write(5, 5, &mut buffer), Ok(1));
    assert_eq!(buffer[..3], [0, 1, 0xaa]);
    assert_eq!(write(0, u64::MAX, &mut buffer), Ok(9));
    assert_eq!(
        buffer,
        [0xff, 0xff, 0xff, 0xff, 0xff, 0xff, 0xff, 0xff, 0xff, 0xaa, 0xaa, 0xaa]
    );
}

#[test]
fn a_short_buffer_is_left_untouched() {
    for (word, length) in [(0, 1), (0x0100, 2), (u64::MAX, 9)] {
        for room in 0..length {
            let mut buffer = [0xaa; LONGEST];
            let short = Err(Refusal {
                reason: Reason::ShortBin,
                place: Place::Nowhere,
            });
            assert_eq!(write(0, word, &mut buffer[..room]), short);
            assert_eq!(buffer, [0xaa; LONGEST]);
        }
        assert_eq!(write(0, word, &mut [0; LONGEST][..length]), Ok(length));
    }
    let refusal = write(0, 0, &mut []).unwrap_err();
    assert_eq!(refusal.to_string(), "refused 18 0");
}

#[test]
fn what_is_written_is_read_back() {
    let mut numbers = Numbers(1);
    let mut words = vec![0u64];
    for _ in 0..500 {
        let mut bytes = words[words.len() - 1].to_le_bytes();
        for _ in 0..numbers.below(4) {
            bytes[numbers.below(8)] = numbers.below(3) as u8 * 127;
        }
        words.push(u64::from_le_bytes(bytes));
    }
    let trace = common::trace(&words);
    let (mut begin, mut word) = (0, 0);
    for &expected in &words {
        let record = read(&trace, begin, word).unwrap().unwrap();
        assert_eq!(record.word, expected);
        (begin, word) = (record.end, record.word);
    }
    assert_eq!(read(&trace, begin, word), Ok(None));
}
