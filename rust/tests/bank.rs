//! The piston bank over the proved library: settings, every refusal, and a long random run held against a plain list.
mod common;

use common::Numbers;
use icewimple_pool::{Bank, Layout, Pool, Record, Refusal, PISTONS};

/// A record of each kind in turn, told apart by its bytes.
fn record(number: usize) -> Record {
    let byte = number as u8;
    match number % 3 {
        0 => Record::Eight([byte; 8]),
        1 => Record::Sixteen([byte; 16]),
        _ => Record::ThirtyTwo([byte; 32]),
    }
}

/// All three calls are refused alike, and change nothing.
fn refused(pool: &mut Pool, bank: &mut Bank, piston: u32, refusal: Refusal) {
    let before = (pool.bytes().to_vec(), *bank.numbers());
    assert_eq!(bank.set(pool, piston, &record(0)), Err(refusal), "{piston}");
    assert_eq!(bank.clear(pool, piston), Err(refusal), "{piston}");
    assert_eq!(bank.recall(pool, piston), Err(refusal), "{piston}");
    assert_eq!((pool.bytes().to_vec(), *bank.numbers()), before);
}

#[test]
fn a_piston_shows_its_latest_setting() {
    let (mut buffer, mut numbers) = ([0; 1024], [7; PISTONS]);
    let mut pool = Pool::lay_out(&mut buffer, Layout::One).unwrap();
    let mut bank = Bank::empty(&mut numbers);
    for piston in [0, 1, 2, 31] {
        assert_eq!(bank.recall(&pool, piston), Ok(None));
        for number in [piston as usize, 100 + piston as usize] {
            assert_eq!(bank.set(&mut pool, piston, &record(number)), Ok(()));
            assert_eq!(bank.recall(&pool, piston), Ok(Some(record(number))));
        }
    }
    assert_eq!(pool.figures().unwrap().held_blocks, 4);
    assert_eq!(bank.clear(&mut pool, 1), Ok(()));
    assert_eq!(bank.clear(&mut pool, 1), Ok(()));
    assert_eq!(bank.recall(&pool, 1), Ok(None));
    assert_eq!(bank.recall(&pool, 2), Ok(Some(record(102))));
    assert_eq!(pool.figures().unwrap().held_blocks, 3);
}

#[test]
fn a_record_is_its_kind_and_its_body_at_the_payload_s_start() {
    let (mut buffer, mut numbers) = ([0; 1024], [0; PISTONS]);
    buffer.fill(0x5A);
    let mut pool = Pool::lay_out(&mut buffer, Layout::Two).unwrap();
    let mut bank = Bank::empty(&mut numbers);
    for (piston, record) in (0..3).map(|i| (i, record(i as usize))) {
        bank.set(&mut pool, piston, &record).unwrap();
        let payload = pool.lend(bank.numbers()[piston as usize]).unwrap();
        let (written, others) = payload.split_at(1 + record.body().len());
        assert_eq!((written[0], &written[1..]), (record.kind(), record.body()));
        assert!(others.iter().all(|byte| *byte == 0x5A));
    }
}

#[test]
fn pool_and_numbers_are_kept_and_opened_again() {
    let (mut buffer, mut numbers) = ([0; 2048], [0; PISTONS]);
    let mut pool = Pool::lay_out(&mut buffer, Layout::One).unwrap();
    let mut bank = Bank::empty(&mut numbers);
    for piston in 0..PISTONS {
        bank.set(&mut pool, piston as u32, &record(piston)).unwrap();
    }
    let (bytes, kept) = (pool.into_bytes().to_vec(), *bank.into_numbers());
    let (mut buffer, mut numbers) = (bytes, kept);
    let pool = Pool::open(&mut buffer).unwrap();
    let bank = Bank::open(&mut numbers);
    for piston in 0..PISTONS {
        assert_eq!(bank.recall(&pool, piston as u32), Ok(Some(record(piston))));
    }
}

#[test]
fn a_recalled_record_is_set_at_another_piston() {
    let (mut buffer, mut numbers) = ([0; 1024], [0; PISTONS]);
    let mut pool = Pool::lay_out(&mut buffer, Layout::Two).unwrap();
    let mut bank = Bank::empty(&mut numbers);
    bank.set(&mut pool, 0, &record(5)).unwrap();
    let recalled = bank.recall(&pool, 0).unwrap().unwrap();
    bank.set(&mut pool, 1, &recalled).unwrap();
    bank.clear(&mut pool, 0).unwrap();
    assert_eq!(bank.recall(&pool, 1), Ok(Some(record(5))));
}

#[test]
fn pistons_above_31() {
    let (mut buffer, mut numbers) = ([0; 1024], [0; PISTONS]);
    let mut pool = Pool::lay_out(&mut buffer, Layout::One).unwrap();
    numbers[5] = 4; // 10 is asked before 12
    for piston in [32, 33, 64, 256, 1 << 31, u32::MAX] {
        refused(&mut pool, &mut Bank::open(&mut numbers), piston, Refusal::NoPiston);
        refused(&mut pool, &mut Bank::empty(&mut [0; PISTONS]), piston, Refusal::NoPiston);
    }
}

#[test]
fn with_no_room_the_old_setting_stays() {
    let (mut buffer, mut numbers) = ([0; 1016], [0; PISTONS]); // just enough for these 32 records
    let mut pool = Pool::lay_out(&mut buffer, Layout::Two).unwrap();
    let mut bank = Bank::empty(&mut numbers);
    for piston in 0..PISTONS {
        assert_eq!(bank.set(&mut pool, piston as u32, &record(piston)), Ok(()));
    }
    let before = (pool.bytes().to_vec(), *bank.numbers());
    for piston in 0..PISTONS {
        assert_eq!(bank.set(&mut pool, piston as u32, &record(100)), Err(Refusal::NoRoom));
        assert_eq!(bank.recall(&pool, piston as u32), Ok(Some(record(piston))));
    }
    assert_eq!((pool.bytes().to_vec(), *bank.numbers()), before);
}

#[test]
fn numbers_that_are_not_held_or_named_twice() {
    let (mut buffer, mut numbers) = ([0; 1024], [0; PISTONS]);
    let mut pool = Pool::lay_out(&mut buffer, Layout::One).unwrap();
    let mut bank = Bank::empty(&mut numbers);
    bank.set(&mut pool, 9, &record(9)).unwrap();
    bank.set(&mut pool, 10, &record(10)).unwrap();
    let (held, given_back) = (bank.numbers()[9], bank.numbers()[10]);
    bank.clear(&mut pool, 10).unwrap();
    for wrong in [1, 4, 168, 171, 176, 1020, 1024, 1 << 31, u32::MAX, given_back, held] {
        for place in [0, 10, 31] {
            numbers[place] = wrong;
            let mut bank = Bank::open(&mut numbers);
            for piston in [0, 9, 31] {
                refused(&mut pool, &mut bank, piston, Refusal::NotNamed);
            }
            numbers[place] = 0;
        }
    }
    assert_eq!(Bank::open(&mut numbers).recall(&pool, 9), Ok(Some(record(9))));
}

/// Another kind, or longer than its payload: the recall of that piston alone is refused.
#[test]
fn a_record_that_does_not_read() {
    let (mut buffer, mut numbers) = ([0; 1024], [0; PISTONS]);
    let mut pool = Pool::lay_out(&mut buffer, Layout::Two).unwrap();
    let mut bank = Bank::empty(&mut numbers);
    bank.set(&mut pool, 1, &record(1)).unwrap();
    for kind in [0, 2, 3, 4, 255] {
        bank.set(&mut pool, 0, &record(0)).unwrap();
        pool.lend_mut(bank.numbers()[0]).unwrap()[0] = kind;
        assert_eq!(bank.recall(&pool, 0), Err(Refusal::NotNamed), "{kind}");
        assert_eq!(bank.recall(&pool, 1), Ok(Some(record(1))));
        assert_eq!(bank.set(&mut pool, 2, &record(2)), Ok(()));
        if kind < 3 {
            assert_eq!(bank.clear(&mut pool, 0), Ok(()));
        }
    }
    bank.set(&mut pool, 0, &record(3)).unwrap();
    assert_eq!(bank.recall(&pool, 0), Ok(Some(record(3))));
}

/// Sets and clears as they come, beside somebody else who takes, writes and gives back: each piston shows its latest accepted setting.
#[test]
fn a_long_run() {
    let mut random = Numbers(0x9E37_79B9_7F4A_7C15);
    let (mut buffer, mut numbers) = ([0; 1024], [0; PISTONS]);
    let mut pool = Pool::lay_out(&mut buffer, Layout::One).unwrap();
    let mut bank = Bank::empty(&mut numbers);
    let mut latest: [Option<Record>; PISTONS] = [None; PISTONS];
    let mut other = None;
    let (mut set, mut no_room) = (0, 0);
    for turn in 0..2000 {
        let at = random.below(PISTONS);
        let piston = at as u32;
        match random.below(10) {
            0..=5 => match bank.set(&mut pool, piston, &record(turn)) {
                Ok(()) => {
                    latest[at] = Some(record(turn));
                    set += 1;
                }
                Err(refusal) => {
                    assert_eq!(refusal, Refusal::NoRoom);
                    no_room += 1;
                }
            },
            6..=7 => {
                assert_eq!(bank.clear(&mut pool, piston), Ok(()));
                latest[at] = None;
            }
            8 => {
                if let Some(offset) = other {
                    pool.give_back(offset).unwrap();
                }
                other = pool.take(1 + random.below(120) as u32).ok();
                if let Some(offset) = other {
                    pool.lend_mut(offset).unwrap().fill(0xEE);
                }
            }
            _ => {}
        }
        for (piston, shown) in latest.iter().enumerate() {
            assert_eq!(bank.recall(&pool, piston as u32), Ok(*shown), "{turn}");
        }
        let named = latest.iter().flatten().count() + other.iter().count();
        assert_eq!(pool.figures().unwrap().held_blocks as usize, named);
    }
    assert!(800 < set && 50 < no_room, "{set} set, {no_room} without room");
}
