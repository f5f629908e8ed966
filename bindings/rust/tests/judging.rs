//! What is refused, and by which number; the offset of a period.

mod common;

use common::{RECORDING, recording};
use huntelm::{Frontend, Params, Refusal};
use std::collections::HashSet;

fn good() -> Params {
    recording(RECORDING).0
}

/// A sheet with this change is refused so, by judging, by starting and where an offset is asked.
fn refused(refusal: Refusal, change: impl Fn(&mut Params)) {
    let mut params = good();
    change(&mut params);
    assert_eq!(params.validate(), Err(refusal));
    assert_eq!(params.offset(params.period_nominal), Err(refusal));
    assert_eq!(Frontend::new(params).err(), Some(refusal));
}

fn accepted(change: impl Fn(&mut Params)) {
    let mut params = good();
    change(&mut params);
    assert_eq!(params.validate(), Ok(()));
    assert!(Frontend::new(params).is_ok());
}

#[test]
fn taps() {
    for taps in [0, 2, 5, 15, 66, u32::MAX] {
        refused(Refusal::Taps, |p| p.taps = taps);
    }
}

#[test]
fn banks() {
    refused(Refusal::BankLength, |p| p.taps = 14);
    refused(Refusal::BankLength, |p| p.h.truncate(1023));
    refused(Refusal::BankLength, |p| p.g.push(0));
    refused(Refusal::BankLength, |p| p.k.clear());
    let banks: [fn(&mut Params) -> &mut Vec<i32>; 3] = [|p| &mut p.h, |p| &mut p.g, |p| &mut p.k];
    for bank in banks {
        refused(Refusal::Coefficient, |p| bank(p)[8] = 131_072);
        refused(Refusal::Coefficient, |p| bank(p)[1000] = i32::MIN);
        refused(Refusal::CoefficientSum, |p| bank(p)[1016] = -131_072);
    }
    refused(Refusal::DetectorTaps, |p| p.h[3] = 1);
    refused(Refusal::DetectorTaps, |p| p.g[1020] = -1);
    accepted(|p| {
        p.h.fill(0);
        p.g.fill(0);
        p.g[4] = 131_071;
        p.k.fill(0);
        p.k[0] = -131_071;
    });
}

#[test]
fn fields() {
    refused(Refusal::PeriodBounds, |p| p.period_min = 1 << 24);
    refused(Refusal::PeriodBounds, |p| p.period_max = 1 << 26);
    refused(Refusal::PeriodBounds, |p| {
        p.period_nominal = p.period_min - 1
    });
    refused(Refusal::PeriodBounds, |p| {
        p.period_nominal = p.period_max + 1
    });
    accepted(|p| (p.period_min, p.period_max) = ((1 << 24) + 1, (1 << 26) - 1));
    refused(Refusal::Range, |p| p.bits = 1);
    refused(Refusal::Range, |p| p.bits = 9);
    refused(Refusal::Range, |p| p.q_shift = 16);
    refused(Refusal::Range, |p| p.block_log2 = 7);
    refused(Refusal::Range, |p| p.agc_init = 1 << 24);
    refused(Refusal::Range, |p| p.integrator_max = -1);
    refused(Refusal::Range, |p| p.ted_shift = 31);
    refused(Refusal::Range, |p| p.kp_shift = 41);
    refused(Refusal::Range, |p| p.ki_shift = 41);
    refused(Refusal::AgcShift, |p| p.agc_shift = 64);
    accepted(|p| p.agc_shift = 63);
    for delay in [0, 25, 255] {
        refused(Refusal::Delay, |p| p.delay = delay);
        refused(Refusal::AgcShift, |p| (p.agc_shift, p.delay) = (64, delay));
        refused(Refusal::Range, |p| (p.bits, p.delay) = (1, delay));
    }
    for delay in 1..=24 {
        accepted(|p| p.delay = delay);
    }
}

#[test]
fn places() {
    let p = good();
    let again = Params::from_places(&p.places(), p.h.clone(), p.g.clone(), p.k.clone());
    assert_eq!(again, Ok(p.clone()));
    let of = |places: &[i64]| Params::from_places(places, vec![], vec![], vec![]).err();
    assert_eq!(of(&p.places()[1..]), Some(Refusal::PlaceCount));
    assert_eq!(of(&[-1; 18]), Some(Refusal::PlaceType));
}

#[test]
fn offset() {
    let mut p = good();
    (p.period_min, p.period_nominal, p.period_max) = (32883343, 33554432, 34225520);
    assert_eq!(p.offset(33554432), Ok(0));
    assert_eq!(p.offset(33554465), Ok(-983));
    assert_eq!(p.offset(33554399), Ok(983));
    assert_eq!(p.offset(p.period_min), Ok(20408174));
    assert_eq!(p.offset(p.period_max), Ok(-19607825));
    for period in [0, p.period_min - 1, p.period_max + 1, u32::MAX] {
        assert_eq!(p.offset(period), Err(Refusal::Period));
    }
    for (nominal, tie) in [(33587200, 976563), (33521664, -976563)] {
        p.period_nominal = nominal;
        assert_eq!(p.offset(33554432), Ok(tie));
    }
}

#[test]
fn every_refusal_has_its_number_and_a_text() {
    let mut texts = HashSet::new();
    for number in (1..=19).chain(27..=29) {
        let refusal = Refusal::from_number(number).unwrap();
        assert_eq!(refusal.number(), number);
        let text = refusal.to_string();
        assert!(text.ends_with(&format!(" (refusal {number})")), "{text}");
        assert!(text.len() > 30, "{text}");
        assert!(texts.insert(text));
    }
    for number in [0, 20, 21, 26, 30, u32::MAX] {
        assert_eq!(Refusal::from_number(number), None);
    }
    let error: Box<dyn std::error::Error + Send + Sync> = Refusal::Trim.into();
    assert!(error.source().is_none());
}
