//! A frame that arrived with one bit hit is read, its warned areas are listed, and it is reported,
//! followed, and laid into a header.
use gvozdyana::follower::{Event, State, Update};
use gvozdyana::frame::{self, Identification, Record, Warning};
use gvozdyana::header::{self, Header};
use gvozdyana::place::{report, Report};
use gvozdyana::{Edition, Refusal, Tuner};

fn main() -> Result<(), Refusal> {
    let warning = Warning {
        identification: Identification::WarningWithArea,
        update: Update::new(0).expect("0 to 3"),
        time: 1000,
    };
    let sent = Record::for_areas(warning, [14, 15]).expect("0 to 55");
    let mut frame = frame::write(Edition::First, &sent)?;
    // On the way B71 is hit, which belongs to area 15, Tokyo.
    frame[8] ^= 0x01;

    // The main tuner received it.
    let record = frame::read(Edition::First, Tuner::Main, &frame)?.record;
    assert!(record.same_fields(&sent));
    assert_eq!((record.tuner, record.repaired), (Tuner::Main, 1));
    for area in record.warned_areas() {
        println!("area {area} is warned");
    }
    assert_eq!(report(Edition::First, &record)?, Report::AreasOnly);
    let (state, event) = State::Quiet.follow(Edition::First, &frame);
    assert_eq!((state, event), (State::Real(warning.update), Event::Begins));

    let mut header = header::write(&Header::default())?;
    header::lay_in(Edition::First, &mut header, &frame)?;
    println!("laid in: {:02x?}", &header[99..125]);
    Ok(())
}
