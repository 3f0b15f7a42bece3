//! The reference model, the crate `second`, behind the same interface of
//! numbers as the other side.

fn decode(n: &[u32]) -> second::Record {
    let mut levels = [0u16; 20];
    for (level, number) in levels.iter_mut().zip(&n[35..]) {
        *level = *number as u16;
    }
    second::Record {
        powered: n[0] != 0,
        range: n[1],
        filter: n[2],
        kit: n[3],
        firmware: n[4],
        fitted: n[5],
        code: n[6],
        bursts: n[7] != 0,
        ground: n[8] != 0,
        binary: n[9] != 0,
        differential: n[10] != 0,
        barred: n[11] != 0,
        simultaneous: n[12] != 0,
        selection: n[13],
        external: n[14] != 0,
        enabled: n[15] != 0,
        circular: n[16] != 0,
        calibrating: n[17] != 0,
        cal_failed: n[18] != 0,
        calibrated: n[19] != 0,
        divisor: n[20],
        nclk: n[21],
        alt: n[22] != 0,
        settling: n[23] != 0,
        burst: n[24] != 0,
        software: n[25] != 0,
        pending: n[26] != 0,
        opened: n[27] != 0,
        buffer_overflow: n[28] != 0,
        frame_overflow: n[29] != 0,
        mask: n[30],
        cursor: n[31],
        request: n[32] != 0,
        first: n[33],
        count: n[34],
        levels,
    }
}

fn encode(r: &second::Record, n: &mut [u32]) {
    let numbers = [
        r.powered as u32,
        r.range,
        r.filter,
        r.kit,
        r.firmware,
        r.fitted,
        r.code,
        r.bursts as u32,
        r.ground as u32,
        r.binary as u32,
        r.differential as u32,
        r.barred as u32,
        r.simultaneous as u32,
        r.selection,
        r.external as u32,
        r.enabled as u32,
        r.circular as u32,
        r.calibrating as u32,
        r.cal_failed as u32,
        r.calibrated as u32,
        r.divisor,
        r.nclk,
        r.alt as u32,
        r.settling as u32,
        r.burst as u32,
        r.software as u32,
        r.pending as u32,
        r.opened as u32,
        r.buffer_overflow as u32,
        r.frame_overflow as u32,
        r.mask,
        r.cursor,
        r.request as u32,
        r.first,
        r.count,
    ];
    n[..35].copy_from_slice(&numbers);
    for (number, level) in n[35..].iter_mut().zip(&r.levels) {
        *number = *level as u32;
    }
}

pub fn call(record: &mut [u32], memory: &mut [u32], event: &[u32], answer: &mut [u32]) -> u32 {
    if record.len() != 55 || event.len() != 6 || answer.len() != 4 {
        return 1;
    }
    let happening = match event[0] {
        1 => second::Event::PowerUp {
            fitted: event[1],
            range: event[2],
            filter: event[3],
            kit: event[4],
            firmware: event[5],
        },
        2 => second::Event::Write {
            offset: event[1],
            value: event[2],
        },
        3 => second::Event::Read { offset: event[1] },
        4 => second::Event::Tick,
        5 => second::Event::Outside,
        6 => second::Event::Trigger,
        7 => second::Event::Passed,
        8 => second::Event::Failed,
        9 => second::Event::Settled,
        _ => return 2,
    };
    let mut board = decode(record);
    let given = second::step(&mut board, memory, &happening);
    encode(&board, record);
    answer.copy_from_slice(&[given.refusal, given.register, given.moved, given.fate]);
    0
}

/// The rate question's refusal number, whole reference and rate.
pub fn rate(record: &[u32]) -> [u32; 3] {
    second::rates(&decode(record)).into()
}
