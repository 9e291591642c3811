//! Every refusal, from a call that gives it, and the calls that no example shows.
use brassgroat::*;
use std::mem::offset_of;

#[test]
fn every_refusal_has_its_call() {
    let mut table = [10, 20, 30];
    let mut tag = *b"curv\0\0\0\0\0\0\0\x01\x02\x33";
    tag[4] = 1;
    let mut full = filled(&mut table.clone());
    let refusals = [
        lut_interp_linear16(&[], Drive(0)).unwrap_err(),
        accept(&[20, 10]).unwrap_err(),
        nudge(&mut table, 3, Density(0)).unwrap_err(),
        nudge(&mut table, 1, Density(9)).unwrap_err(),
        least_input(&table, Density(31)).unwrap_err(),
        house::fill(&mut table).unwrap_err(),
        ParametricCurve::new(&[1.0, 2.0]).unwrap_err(),
        curv::count(&tag[..11]).unwrap_err(),
        para::read(&tag).unwrap_err(),
        curv::part(&tag).unwrap_err(),
        para::write(5, para::Numbers::default(), &mut tag).unwrap_err(),
        invert_lut(&[0, 65535], &mut table[..1]).unwrap_err(),
        lut_interp_linear(&table, f64::NAN).unwrap_err(),
        full.nudge(&mut table, 1, Density(25)).unwrap_err(),
        Log::new().take_back(&mut table).unwrap_err(),
        full.take_back(&mut table[..1]).unwrap_err(),
        power_table(&mut table, 3, 262_145).unwrap_err(),
    ];
    assert_eq!(refusals, *Refusal::ALL);
    assert!(refusals.iter().zip((1..=13).chain(15..=18)).all(|(refusal, number)| refusal.number() == number));
    assert_eq!(table, [10, 20, 30]);
    assert_eq!(tag[4..], *b"\x01\0\0\0\0\0\0\x01\x02\x33");
}

#[test]
fn a_number_without_a_name_is_carried() {
    assert_eq!(Refusal::of_number(0), None);
    for refusal in Refusal::ALL {
        assert_eq!(Refusal::of_number(refusal.number()), Some(*refusal));
    }
    for number in [14, 19, 31, u32::MAX] {
        let refusal = Refusal::of_number(number).unwrap();
        assert_eq!(refusal.number(), number);
        assert!(!Refusal::ALL.contains(&refusal));
        assert!(refusal.to_string().contains(&number.to_string()));
    }
}

#[test]
fn each_field_crosses_as_itself() {
    let numbers =
        para::Numbers { g: 65536, a: -2 * 65536, b: 3 * 65536, c: -4 * 65536, d: 5 * 65536, e: -6 * 65536, f: 7 };
    let mut tag = [0; 40];
    assert_eq!(para::write(4, numbers, &mut tag), Ok(()));
    let bytes = [numbers.g, numbers.a, numbers.b, numbers.c, numbers.d, numbers.e, numbers.f].map(i32::to_be_bytes);
    assert_eq!(tag[12..], *bytes.as_flattened());
    assert_eq!(para::read(&tag), Ok(para::Parameters { count: 7, numbers }));
    let curve = ParametricCurve { g: 1.0, a: -2.0, b: 3.0, c: -4.0, d: 5.0, e: -6.0, f: 7.0 / 65536.0 };
    assert_eq!(para::curve(&tag), Ok(curve));
    assert_eq!(ParametricCurve::new(&[curve.g, curve.a, curve.b, curve.c, curve.d, curve.e, curve.f]), Ok(curve));
}

/// A log in which as many nudges stand as it holds, each of entry 1 to its own number.
fn filled(table: &mut [u16]) -> Log {
    let mut log = Log::new();
    assert_eq!(log.accept(table), Ok(()));
    for standing in 0..Log::PLACES {
        assert_eq!(log.standing().len(), standing);
        assert_eq!(log.nudge(table, 1, Density(table[1])), Ok(()));
    }
    log
}

#[test]
fn a_record_is_a_word() {
    assert_eq!((size_of::<Record>(), align_of::<Record>()), (8, 8));
    assert_eq!((offset_of!(Record, new), offset_of!(Record, old)), (0, 2));
    assert_eq!((offset_of!(Record, index), offset_of!(Record, channel)), (4, 6));
    assert_eq!(Log::PLACES, 63);
}

#[test]
fn nudges_are_logged_and_taken_back() {
    let mut table = [0; 3];
    let mut log = Log::new();
    assert_eq!(log.start(&mut table), Ok(()));
    assert_eq!(log.nudge(&mut table, 1, Density(40000)), Ok(()));
    assert_eq!(log.nudge(&mut table, 1, Density(40000)), Ok(()));
    assert_eq!(log.nudge(&mut table, 0, Density(40000)), Ok(()));
    let first = Record { new: 40000, old: 32768, index: 1, channel: 0 };
    let same = Record { old: 40000, ..first };
    let last = Record { new: 40000, old: 0, index: 0, channel: 0 };
    assert_eq!(log.standing(), [first, same, last]);
    assert_eq!(table, [40000, 40000, 65535]);
    assert_eq!(log.nudge(&mut table, 1, Density(39999)), Err(Refusal::OutsideNeighbours));
    assert_eq!(log.take_back(&mut table), Ok(()));
    assert_eq!(log.nudge(&mut table, 2, Density(50000)), Ok(()));
    assert_eq!(log.standing(), [first, same, Record { new: 50000, old: 65535, index: 2, channel: 0 }]);
    for _ in 0..3 {
        assert_eq!(log.take_back(&mut table), Ok(()));
    }
    assert_eq!((table, log.standing()), ([0, 32768, 65535], &[][..]));
    assert_eq!(log.take_back(&mut table), Err(Refusal::NothingToTakeBack));
}

#[test]
fn a_full_log_is_emptied_by_a_granted_start_or_accept() {
    let mut table = [10, 20, 30];
    let mut log = filled(&mut table);
    assert_eq!(log.nudge(&mut table, 1, Density(25)), Err(Refusal::LogFull));
    assert_eq!(log.start(&mut table[..1]), Err(Refusal::TableLength));
    assert_eq!(log.accept(&[2, 1]), Err(Refusal::NotNondecreasing));
    assert_eq!((log.standing().len(), table), (Log::PLACES, [10, 20, 30]));
    assert_eq!(log.take_back(&mut table), Ok(()));
    assert_eq!(log.nudge(&mut table, 1, Density(25)), Ok(()));
    assert_eq!(log.clone().start(&mut [0; 2]), Ok(()));
    assert_eq!(log.accept(&table), Ok(()));
    assert_eq!(log.standing(), []);
}

#[test]
fn a_log_of_another_table_is_refused_where_it_does_not_go_with_it() {
    let mut table = [10, 20, 30];
    let mut log = Log::new();
    assert_eq!(log.accept(&table), Ok(()));
    assert_eq!(log.nudge(&mut table, 1, Density(15)), Ok(()));
    let others: [&mut [u16]; 4] = [&mut [10], &mut [10, 14, 30], &mut [10, 15, 19], &mut [10, 15, 15]];
    for other in others {
        let held = other.to_vec();
        assert_eq!(log.take_back(other), Err(Refusal::BadLog));
        assert_eq!(other, held);
    }
    assert_eq!(log.take_back(&mut [16, 15, 30]), Err(Refusal::NotNondecreasing));
    assert_eq!(log.standing().len(), 1);

    let mut shorter = [0, 15];
    assert_eq!(log.clone().take_back(&mut shorter), Ok(()));
    assert_eq!(shorter, [0, 20]);
    assert_eq!(log.take_back(&mut table), Ok(()));
    assert_eq!(table, [10, 20, 30]);
}

#[test]
fn refusals_of_a_log_come_in_their_order() {
    let mut table = [10, 20, 30];
    let mut full = filled(&mut table);
    assert_eq!(full.nudge(&mut [], 9, Density(9)), Err(Refusal::TableLength));
    assert_eq!(full.nudge(&mut [2, 1], 2, Density(9)), Err(Refusal::IndexBeyond));
    assert_eq!(full.nudge(&mut [2, 1], 0, Density(9)), Err(Refusal::NotNondecreasing));
    assert_eq!(full.nudge(&mut table, 1, Density(9)), Err(Refusal::OutsideNeighbours));
    assert_eq!(full.nudge(&mut table, 1, Density(20)), Err(Refusal::LogFull));
    assert_eq!(Log::new().take_back(&mut []), Err(Refusal::TableLength));
    assert_eq!(Log::new().take_back(&mut [2, 1]), Err(Refusal::NotNondecreasing));
    assert_eq!(Log::default().take_back(&mut [1, 2]), Err(Refusal::NothingToTakeBack));
    assert_eq!(full.standing().len(), Log::PLACES);
}

#[test]
fn what_a_free_place_holds_is_not_shown() {
    let mut table = [10, 20, 30];
    let mut log = filled(&mut table);
    assert_eq!(log.accept(&table), Ok(()));
    assert_eq!(format!("{log:?}"), "Log([])");
}

#[test]
fn a_gamma_tag_becomes_a_curve() {
    let tag = *b"curv\0\0\0\0\0\0\0\x01\x02\x33";
    let (mut gamma, mut table, mut exact) = ([0; 1], [0; 1024], [0; 1024]);
    assert_eq!(curv::read(&tag, &mut gamma), Ok(()));
    assert_eq!(tag_power_table(&mut table, 1024, gamma[0]), Ok(()));
    assert_eq!(power_table(&mut exact, 1024, 256 * 0x0233), Ok(()));
    assert_eq!((table[0], table[512], table[1023]), (0, 14302, 65535));
    assert_eq!(table, exact);
    assert_eq!(accept(&table), Ok(()));
    assert_eq!(tag_power_table(&mut table, 1024, 256), Ok(()));
    assert_eq!(start(&mut exact), Ok(()));
    assert_eq!(table, exact);
}

#[test]
fn gamma_curves_have_their_values_and_refusals() {
    for (x, exponent, n) in [
        (0, 1, 0),
        (1, 1, 65524),
        (65535, 1, 65535),
        (1, 65535, 2),
        (65534, 65535, 65534),
        (1, 65536, 1),
        (1000, 98304, 124),
        (49152, 131_072, 36865),
        (65534, 163_840, 65533),
        (16384, 262_144, 256),
    ] {
        assert_eq!(power(Drive(x), exponent), Ok(Density(n)), "{x} {exponent}");
    }
    assert_eq!(tag_power(Drive(1), 1), power(Drive(1), 256));
    assert_eq!(tag_power(Drive(1), 1), Ok(Density(62757)));
    assert_eq!(tag_power(Drive(65534), 1024), Ok(Density(65531)));
    for exponent in [0, 262_145, 1 << 32, (1 << 32) + 65536, u64::MAX] {
        assert_eq!(power(Drive(9), exponent), Err(Refusal::Exponent));
    }
    for gamma in [0, 1025, u16::MAX] {
        assert_eq!(tag_power(Drive(9), gamma), Err(Refusal::Exponent));
    }
    let mut out = [7; 3];
    for n in [0, 1, 65537, usize::MAX] {
        assert_eq!(power_table(&mut out, n, 0), Err(Refusal::TableLength));
        assert_eq!(tag_power_table(&mut out, n, 0), Err(Refusal::TableLength));
    }
    for n in [2, 4, 65536] {
        assert_eq!(power_table(&mut out, n, 0), Err(Refusal::Exponent));
        assert_eq!(tag_power_table(&mut out, n, 1025), Err(Refusal::Exponent));
        assert_eq!(power_table(&mut out, n, 1), Err(Refusal::OutputLength));
        assert_eq!(tag_power_table(&mut out, n, 1), Err(Refusal::OutputLength));
    }
    assert_eq!(out, [7; 3]);
    assert_eq!(power_table(&mut out, 3, 131_072), Ok(()));
    assert_eq!(out, [0, 16384, 65535]);
}

#[test]
fn crate_and_archive_have_one_version() {
    assert_eq!(version(), VERSION);
}

#[test]
fn lengths_are_tried_at_their_edges() {
    let longest = vec![9; 65536];
    let too_long = vec![9; 65537];
    assert_eq!(accept(&longest), Ok(()));
    assert_eq!(accept(&too_long), Err(Refusal::TableLength));
    assert_eq!(is_curve_degenerated(&longest), Ok(true));
    assert_eq!(is_curve_degenerated(&too_long), Err(Refusal::TableLength));
    assert_eq!(start(&mut []), Err(Refusal::TableLength));
    assert_eq!(lut_interp_linear16_row(&longest, &[], &mut []), Ok(()));
    assert_eq!(least_input_row(&longest, &[1, 2], &mut [0; 3]), Err(Refusal::OutputLength));
}

#[test]
fn the_other_calls_answer() {
    let mut inverted = [0; 3];
    assert_eq!(invert_lut(&[0, 100, 65535], &mut inverted), Ok(()));
    assert_eq!(lut_inverse_interp16(&[0, 100, 65535], Density(0)), Ok(Drive(inverted[0])));
    assert_eq!(nearest_f64_to_f32(0.1), 0.1);
    assert_eq!(u8_fixed_8number_to_float(0x0280), 2.5);
    assert_eq!(s15_fixed16_number_to_float(-98304), -1.5);
    assert!(compare_parametric(&[1.0, 2.0], &[1.0]));
    assert!(!compare_parametric(&[1.0], &[1.001]));
}
