//! Headers read, written, laid into, in both editions, and taken out of, by the proved version and by the plain one. What a header was made with is
//! compared too.
mod common;
use common::{edition_number, edition_of, for_each_seed, headers, hex, length, numbers, Case};
use gvozdyana::header::{lay_in, read, write, Header};
use gvozdyana::{calls, Edition, Refusal};
use reference::flip_bit;
use reference::header as plain;
use samples::frames::{frame, written};
use samples::headers::{faulty, header, legal_record, record, seal};
use samples::records::{self as frames, Body};

/// Which numbers occurred, and how often.
type Seen = [u32; 16];

fn expect_seen(seen: &Seen, expected: &[usize]) {
    println!("accepted and refused, by number: {seen:?}");
    for number in 0..16 {
        let occurs = expected.contains(&number);
        assert_eq!(seen[number] > 0, occurs, "{number}: {seen:?}");
    }
}

/// The proved reader's status and buffer of these numbers are the plain version's; then its number.
fn header_read(header: &[u8], before: &[u64], what: impl Fn() -> String) -> u8 {
    let mut left = before.to_vec();
    let status = calls::header_read(header, &mut left);
    let answer = match before.len() {
        145 => plain::read(header),
        _ => Err(1),
    };
    let number = answer.err().unwrap_or(0);
    let what = || {
        format!(
            "header {}, record of {}, {}",
            hex(header),
            before.len(),
            what()
        )
    };
    assert_eq!(status, u32::from(number), "{}", what());
    let expected = answer.map_or(before.to_vec(), |record| record.to_vec());
    assert_eq!(left, expected, "{}", what());
    number
}

/// The same for the proved writer, with these values and a buffer of these bytes.
fn header_write(values: &[u64], before: &[u8], what: impl Fn() -> String) -> u8 {
    let (mut left, mut expected) = (before.to_vec(), before.to_vec());
    let status = calls::header_write(values, &mut left);
    let number = match values.try_into() {
        Ok(record) => plain::write(record, &mut expected),
        Err(_) => 1,
    };
    let what = || format!("record {values:?}, header of {}, {}", before.len(), what());
    assert_eq!(status, u32::from(number), "{}", what());
    assert_eq!(hex(&left), hex(&expected), "{}", what());
    number
}

#[test]
fn headers_of_all_sorts_read() {
    let mut seen = Seen::default();
    for_each_seed(41, headers(), |random, case| {
        let sample = header(random);
        let record_len = length(145, random);
        let before = numbers(record_len, random);
        let number = header_read(&sample.bytes, &before, || case.to_string());
        if let (Some(expected), 145) = (sample.expected, record_len) {
            assert_eq!(number, expected, "header {}, {case}", hex(&sample.bytes));
        }
        seen[usize::from(number)] += 1;
    });
    expect_seen(&seen, &[0, 1, 12, 13, 14, 15]);
}

#[test]
fn every_bit_turned_over() {
    for_each_seed(45, 2, |random, case| {
        let legal = faulty(&[], random).bytes;
        for k in 0..1504 {
            let mut header = legal.clone();
            flip_bit(&mut header, k);
            header_read(&header, &[7; 145], || format!("bit {k}, {case}"));
            seal(&mut header);
            let what = || format!("bit {k} with the CRC made again, {case}");
            header_read(&header, &[7; 145], what);
        }
    });
}

#[test]
fn records_of_all_sorts_written() {
    let mut seen = Seen::default();
    for_each_seed(42, headers(), |random, case| {
        let mut values = record(random).to_vec();
        values.resize(length(145, random), 0);
        let header_len = length(188, random);
        let before = random.bytes(header_len);
        let number = header_write(&values, &before, || case.to_string());
        seen[usize::from(number)] += 1;
    });
    expect_seen(&seen, &[0, 1, 10, 12, 14, 15]);
}

#[test]
fn every_field_at_its_limits() {
    for_each_seed(46, 2, |random, case| {
        let legal = legal_record(random);
        for field in 0..145 {
            let past = 1 << plain::width(field);
            for value in [0, 1, 2, 3, past - 1, past, past + 1, u64::MAX] {
                let mut record = legal;
                record[field] = value;
                let what = || format!("field {field}, {case}");
                header_write(&record, &[0xA5; 188], what);
            }
        }
    });
}

/// A step that changes a header in place leaves what the plain version leaves; then the refusal's number.
fn changed(
    before: &[u8],
    proved: impl Fn(&mut [u8]) -> u32,
    plain: impl Fn(&mut [u8]) -> u8,
    case: Case,
) -> usize {
    let (mut left, mut expected) = (before.to_vec(), before.to_vec());
    let (status, number) = (proved(&mut left), plain(&mut expected));
    let what = || format!("header {}, {case}", hex(before));
    assert_eq!(status, u32::from(number), "{}", what());
    assert_eq!(hex(&left), hex(&expected), "{}", what());
    usize::from(number)
}

#[test]
fn frames_laid_in_and_taken_out() {
    let (mut laid, mut taken) = ([Seen::default(); 2], Seen::default());
    for_each_seed(43, headers(), |random, case| {
        let before = match random.below(2) {
            0 => header(random).bytes,
            _ => faulty(&[], random).bytes,
        };
        let frame = frame(random).bytes;
        let edition = edition_number(random);
        let (_, named) = edition_of(edition);
        laid[named as usize][changed(
            &before,
            |h| calls::lay_in(edition, h, &frame),
            |h| plain::lay_in(named, h, &frame),
            case,
        )] += 1;
        taken[changed(&before, calls::take_out, plain::take_out, case)] += 1;
    });
    for laid in laid {
        expect_seen(&laid, &[0, 1, 2, 3, 4, 5, 6, 7, 8, 9, 12, 13, 14, 15]);
    }
    expect_seen(&taken, &[0, 1, 12, 13, 14, 15]);
}

/// Area safety information is laid in by its own edition alone.
#[test]
fn area_safety_laid_in() {
    let empty = write(&Header::default()).expect("legal");
    for_each_seed(47, 200, |random, case| {
        let frame = written(&frames::legal_record(Body::Safety, random));
        let mut header = empty;
        let refused = lay_in(Edition::First, &mut header, &frame);
        assert_eq!(refused, Err(Refusal::Identification), "{case}");
        assert_eq!(header, empty, "{case}");
        assert_eq!(lay_in(Edition::AreaSafety, &mut header, &frame), Ok(()));
        assert_eq!(hex(&header[99..124]), hex(&frame[..25]), "{case}");
        assert_eq!(header[124], frame[25] | 0x0F, "{case}");
        assert!(read(&header).is_ok(), "{case}");
    });
}

#[test]
fn legal_headers_come_back() {
    for_each_seed(44, headers(), |random, case| {
        let values = legal_record(random);
        let header = Header::from_values(values);
        assert_eq!(header.values(), values);
        let bytes =
            write(&header).unwrap_or_else(|refusal| panic!("{refusal}: {header:?}, {case}"));
        assert_eq!(read(&bytes), Ok(header), "{case}");
    });
}

#[test]
fn the_order_of_the_fields() {
    let counted = |first: u64| move |i: usize| first + i as u64;
    let header = Header {
        packet: 0,
        frame_sync: 1,
        change: 2,
        method: 3,
        form: 4,
        valid: std::array::from_fn(counted(5)),
        streams: std::array::from_fn(|i| 20 + 2 * i as u64),
        networks: std::array::from_fn(|i| 21 + 2 * i as u64),
        states: std::array::from_fn(counted(50)),
        carried: 65,
        emergency: 66,
        slots: std::array::from_fn(counted(67)),
        ac: std::array::from_fn(counted(119)),
    };
    assert_eq!(header.values(), std::array::from_fn(counted(0)));
    assert_eq!(Header::from_values(header.values()), header);
}
