//! Float samples and designs.

mod common;

use common::{RECORDING, recording};
use huntelm::{Design, Gains, Params, Refusal, input_sample};

#[test]
fn float_samples() {
    let below_half = f32::from_bits(0.5f32.to_bits() - 1) / 2048.0;
    let half = 0.5 / 2048.0;
    for (float, value) in [
        (0.0, 0),
        (-0.0, 0),
        (0.25, 512),
        (half, 1),
        (-half, -1),
        (3.0 * half, 2),
        (-3.0 * half, -2),
        (below_half, 0),
        (-below_half, 0),
        (2046.5 / 2048.0, 2047),
        (1.0, 2047),
        (-1.0, -2048),
        (-2047.5 / 2048.0, -2048),
        (f32::MAX, 2047),
        (f32::INFINITY, 2047),
        (f32::NEG_INFINITY, -2048),
        (f32::MIN_POSITIVE, 0),
        (f32::NAN, 0),
        (-f32::NAN, 0),
    ] {
        assert_eq!(input_sample([float, 0.5]), [value, 1024], "{float}");
        assert_eq!(input_sample([-0.5, float]), [-1024, value], "{float}");
    }
}

fn isdb_s() -> Design {
    Design {
        sample_rate: 40e6,
        symbol_rate: 28.86e6,
        carrier_offset: 312.5e3,
        trim: 0.0,
        agc_rms: 0.125,
        taps: 16,
        bits: 6,
        block_log2: 12,
    }
}

fn gains(p: &Params) -> Gains {
    Gains {
        kp: p.kp,
        kp_shift: p.kp_shift,
        ki: p.ki,
        ki_shift: p.ki_shift,
        q_shift: p.q_shift,
    }
}

fn designed(design: &Design) -> Result<Params, Refusal> {
    let (p, _) = recording(RECORDING);
    Params::design(design, &gains(&p), p.h, p.g, p.k)
}

/// The recording's sheet was designed by isdb-rs.
#[test]
fn a_design_is_that_of_isdb_rs() {
    let (params, _) = recording(RECORDING);
    assert_eq!(designed(&isdb_s()), Ok(params));
}

#[test]
fn two_samples_a_symbol() {
    let p = designed(&Design {
        symbol_rate: 20e6,
        agc_rms: 0.25,
        carrier_offset: 0.0,
        ..isdb_s()
    })
    .unwrap();
    assert_eq!(
        [p.period_nominal, p.period_min, p.period_max],
        [33554432, 32883343, 34225520]
    );
    assert_eq!((p.integrator_max, p.agc_target), (335544, 16384));
    assert_eq!(
        (p.agc_init, p.agc_shift, p.ted_shift, p.nco_step),
        (262144, 4, 8, 0)
    );
    assert_eq!(p.delay, 24);
}

#[test]
fn refused_designs() {
    let refused = |refusal: Refusal, change: &dyn Fn(&mut Design)| {
        let mut design = isdb_s();
        change(&mut design);
        assert_eq!(designed(&design), Err(refusal));
    };
    for symbol_rate in [40e6, 10e6, 0.0, -1.0, f64::NAN, f64::INFINITY] {
        refused(Refusal::SamplesPerSymbol, &|d| d.symbol_rate = symbol_rate);
    }
    for taps in [0, 15, 66, u32::MAX] {
        refused(Refusal::DesignTaps, &|d| d.taps = taps);
    }
    for bits in [0, 1, 9, 255] {
        refused(Refusal::DesignBits, &|d| d.bits = bits);
    }
    for trim in [0.6, -0.6, f64::NAN] {
        refused(Refusal::Trim, &|d| d.trim = trim);
    }
    // The first fault in the order of the numbers 14 to 17 is the answer, and then those of the sheet.
    refused(Refusal::DesignBits, &|d| (d.trim, d.bits) = (f64::NAN, 0));
    refused(Refusal::BankLength, &|d| d.taps = 14);
    refused(Refusal::PeriodBounds, &|d| {
        d.symbol_rate = d.sample_rate / 3.95
    });
    refused(Refusal::Range, &|d| d.block_log2 = 16);
}
