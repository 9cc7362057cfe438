//! 02's ginning charges.

use oracle::generate::ledgers::press;
use oracle::ledger::{bales, cents, charge, total, Bale, LENGTH};

/// A ledger that holds the bales 0, 1, 2 and so on, each of grower 1 for 3 cents.
fn holding(count: u16) -> Vec<u8> {
    let mut ledger = vec![0; LENGTH];
    ledger[..2].copy_from_slice(&count.to_le_bytes());
    for (bale, bytes) in ledger[2..].chunks_mut(10).enumerate() {
        bytes[..4].copy_from_slice(&(bale as u32).to_le_bytes());
        bytes[4] = 1;
        bytes[6] = 3;
    }
    ledger
}

#[test]
fn a_ledger_has_5122_bytes() {
    assert_eq!(LENGTH, 5_122);
}

#[test]
fn a_press_ticket_is_count_kind_bale_pounds_and_grower() {
    assert_eq!(press(0x04030201, 0x0605, 0x0807), [9, 2, 1, 2, 3, 4, 5, 6, 7, 8]);
}

#[test]
fn a_half_is_rounded_upward() {
    assert_eq!(cents(1_250, 487), 6_088);
    let nearest = [(49, 1, 0), (50, 1, 1), (149, 1, 1), (150, 1, 2), (0, 1_000, 0)];
    for (rate, pounds, charge) in nearest {
        assert_eq!(cents(rate, pounds), charge, "{pounds} at {rate}");
    }
    assert_eq!(cents(60_000, 1_000), 600_000);
}

#[test]
fn a_charge_adds_bale_grower_and_charge() {
    let mut ledger = vec![0xee; LENGTH];
    ledger[..2].copy_from_slice(&[0, 0]);
    let before = ledger.clone();
    assert_eq!(charge(1_250, &press(0x04030201, 487, 0x0605), &mut ledger), Ok(Some(6_088)));
    assert_eq!(ledger[..12], [1, 0, 1, 2, 3, 4, 5, 6, 0xc8, 0x17, 0, 0]);
    assert_eq!(ledger[12..], before[12..]);
    assert_eq!(bales(&ledger), [Bale { bale: 0x04030201, grower: 0x0605, charge: 6_088 }]);
    assert_eq!(total(0x0605, &ledger), Ok(6_088));
    assert_eq!(total(5, &ledger), Ok(0));
}

#[test]
fn a_charge_of_0_is_a_charge() {
    let mut ledger = vec![0; LENGTH];
    assert_eq!(charge(0, &press(7, 487, 3), &mut ledger), Ok(Some(0)));
    assert_eq!(charge(0, &press(7, 487, 3), &mut ledger), Err(21));
}

/// What a ticket gets that changes nothing.
fn unchanged(rate: u32, payload: &[u8], ledger: &[u8]) -> Result<Option<u32>, u8> {
    let mut after = ledger.to_vec();
    let answer = charge(rate, payload, &mut after);
    assert_eq!(after, ledger);
    answer
}

#[test]
fn other_tickets_pass() {
    let ledger = holding(512);
    for payload in [&[][..], &[2], &[9, 3], &[9, 1, 2], &[0; 32]] {
        assert_eq!(unchanged(0, payload, &ledger), Ok(None));
    }
}

#[test]
fn the_questions_stand_in_their_order() {
    let ledger = holding(512);
    let long = [2; 33];
    assert_eq!(unchanged(60_001, &long, &[]), Err(1));
    assert_eq!(unchanged(60_000, &long, &[]), Err(3));
    assert_eq!(unchanged(60_000, &long, &ledger), Err(4));
    assert_eq!(unchanged(60_000, &press(5, 0, 1), &ledger), Err(20));
    assert_eq!(unchanged(60_000, &press(5, 1, 1), &ledger), Err(21));
    assert_eq!(unchanged(60_000, &press(512, 1, 1), &ledger), Err(22));
    assert_eq!(unchanged(60_000, &press(512, 1, 1), &holding(65_535)), Err(22));
    let mut room = holding(511);
    assert_eq!(charge(60_000, &press(512, 1, 1), &mut room), Ok(Some(600)));
    assert_eq!(bales(&room).len(), 512);
}

#[test]
fn a_press_ticket_has_its_form() {
    let ledger = holding(0);
    let good = press(5, 1, 1);
    let (short, more) = (good[..9].to_vec(), [&good[..], &[0]].concat());
    let mut count = good.clone();
    count[0] = 10;
    for payload in [vec![9, 2], short, more, count, press(5, 0, 1), press(5, 1_001, 1)] {
        assert_eq!(unchanged(1, &payload, &ledger), Err(20), "{payload:?}");
    }
    assert_eq!(charge(1, &press(5, 1_000, 1), &mut ledger.clone()), Ok(Some(10)));
}

#[test]
fn a_total_is_the_sum_of_what_is_held() {
    assert_eq!(total(1, &holding(0)), Ok(0));
    assert_eq!(total(1, &holding(7)), Ok(21));
    assert_eq!(total(1, &holding(512)), Ok(1_536));
    assert_eq!(total(1, &holding(513)), Ok(1_536));
    assert_eq!(total(2, &holding(512)), Ok(0));
    assert_eq!(total(1, &holding(7)[1..]), Err(3));
    assert_eq!(total(65_535, &vec![255; LENGTH]), Ok(512 * u64::from(u32::MAX)));
}
