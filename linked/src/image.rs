//! What the numbers of a run's slice are, from docs/RUN-SLICE.md and the whole history, and the
//! test of refusal 14.

use oracle::curve::Curve;
use oracle::run::Run;
use oracle::script::RUN_NUMBERS;
use oracle::Packets;

pub const HEAD_NUMBERS: usize = 256;
pub const BLOCK_NUMBERS: usize = 752;
pub const MARK: u32 = 1_396_917_572;

/// The head.
pub const CAPACITY: usize = 1;
pub const PERIOD: usize = 2;
pub const SESSIONS: usize = 3;
pub const DONE: usize = 4;

/// A block.
pub const TAKEN: usize = 5;
pub const SENT: usize = 6;
const SERVICE: usize = 16;
const ENVELOPE: usize = 80;
pub const SERVICE_AHEAD: usize = 144;
pub const ENVELOPE_AHEAD: usize = 208;
pub const DEADLINES: usize = 272;
pub const RING: usize = 256;

/// The deadlines that stand in a session's ring.
pub type Ring = [u32; RING];

/// The numbers of a run after its slots, each by its definition.
pub fn image(run: &Run, rings: &[Ring]) -> Vec<u32> {
    let mut numbers = vec![0; RUN_NUMBERS];
    let sheet = run.sheet();
    let head = [
        MARK,
        sheet.capacity as u32,
        sheet.period as u32,
        sheet.sessions.len() as u32,
        run.slots_done() as u32,
    ];
    numbers[..5].copy_from_slice(&head);
    for (i, session) in sheet.sessions.iter().enumerate() {
        let from = HEAD_NUMBERS + BLOCK_NUMBERS * i;
        let block = &mut numbers[from..from + BLOCK_NUMBERS];
        let taken = run.taken_in(i + 1);
        let all = taken[taken.len() - 1];
        let waits = |packet: &&oracle::run::Waiting| packet.session == i + 1;
        let waiting = run.waiting().iter().filter(waits).count() as Packets;
        let fields = [
            session.service.table_length() as u64,
            session.envelope.table_length() as u64,
            session.room,
            session.service.rate(),
            session.envelope.rate(),
            all,
            all - waiting,
        ];
        write(block, 0, &fields);
        write(block, SERVICE, &table(&session.service));
        write(block, ENVELOPE, &table(&session.envelope));
        write(block, SERVICE_AHEAD, &ahead(&session.service, taken));
        write(block, ENVELOPE_AHEAD, &ahead(&session.envelope, taken));
        block[DEADLINES..DEADLINES + RING].copy_from_slice(&rings[i]);
    }
    numbers
}

fn write(block: &mut [u32], at: usize, numbers: &[u64]) {
    for (place, &number) in block[at..].iter_mut().zip(numbers) {
        *place = number as u32;
    }
}

fn table(curve: &Curve) -> Vec<Packets> {
    curve.values(curve.table_length())[1..].to_vec()
}

/// At x = 1, 2, .. the least of A(s) + F(t + x - s) over s = 0..t.
fn ahead(curve: &Curve, taken: &[Packets]) -> Vec<Packets> {
    let t = taken.len() - 1;
    let values = curve.values(t + curve.table_length());
    let least = |x: usize| {
        let ends = values[x..=t + x].iter().rev();
        let sums = taken.iter().zip(ends).map(|(a, f)| a + f);
        sums.min().expect("s = 0 is always there")
    };
    (1..=curve.table_length()).map(least).collect()
}

/// The test of refusal 14, on numbers alone.
pub fn holds_a_run(run: &[u32]) -> bool {
    let head = run[0] == MARK
        && (1..=64).contains(&run[CAPACITY])
        && (1..=16).contains(&run[PERIOD])
        && (1..=16).contains(&run[SESSIONS])
        && run[DONE] <= 1_000_000;
    let block = |i: u32| {
        let from = HEAD_NUMBERS + BLOCK_NUMBERS * i as usize;
        sound(
            &run[from..from + BLOCK_NUMBERS],
            run[PERIOD] as usize,
            run[DONE],
        )
    };
    head && (0..run[SESSIONS]).all(block)
}

fn sound(block: &[u32], period: usize, done: u32) -> bool {
    let [service, envelope] = [block[0] as usize, block[1] as usize];
    let (room, taken, sent) = (block[2], block[TAKEN] as u64, block[SENT] as u64);
    let lengths = period..=64;
    lengths.contains(&service)
        && lengths.contains(&envelope)
        && room <= 256
        && (1..=256).contains(&block[3])
        && block[4] <= 256
        && sent <= taken
        && sent <= 64 * done as u64
        && taken <= sent + room as u64
        && taken <= block[ENVELOPE_AHEAD] as u64
        && small(&block[SERVICE..SERVICE + service])
        && small(&block[ENVELOPE..ENVELOPE + envelope])
        && climbs(
            &block[SERVICE_AHEAD..SERVICE_AHEAD + service],
            period,
            block[3],
        )
        && climbs(
            &block[ENVELOPE_AHEAD..ENVELOPE_AHEAD + envelope],
            period,
            block[4],
        )
}

fn small(table: &[u32]) -> bool {
    table.iter().all(|&value| value <= 500)
}

fn climbs(table: &[u32], period: usize, rate: u32) -> bool {
    let last = table[table.len() - 1];
    let join = table[table.len() - period] as u64 + rate as u64;
    table.windows(2).all(|two| two[0] <= two[1]) && last as u64 <= join && last <= 64_001_000
}
